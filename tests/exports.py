"""What C calls has the promises that the statements cite: each export of sitec_c, weekc_c and csvc_c is the public function of sitec, weekc or csvc of its
name, word for word in what it takes, gives and promises, every name of its promise from the same place, and does nothing but call it. None asks anything of
its caller. The prover cannot refuse an export that promises less: laws stand on the libraries, and a static library can stand below nothing.

  exports.py --stored
"""
import pathlib
import re
import sys

from cases import ROOT

PAIRS = ("sitec", "sitec_c"), ("weekc", "weekc_c"), ("csvc", "csvc_c")
COMMENT = re.compile(r"//[^\n]*")
USE = re.compile(r"ghost use ([\w.]+)\.\{([^}]*)\};")
FUNCTION = re.compile(r"(?ms)^pub (extern \"C\" )?fn (\w+)\((.*?)\) -> (\w+)\n(.*?)^\{\n(.*?)^\}$")
TAKEN = re.compile(r"(\w+):")
NAME = re.compile(r"[^\s(){}.,;λ]+")
EXPORTED = '#[unsafe(no_mangle)]\npub extern "C" fn '


def hold(good, what):
    if not good:
        sys.exit(f"exports: {what}")


def one_line(text):
    return re.sub(r",$", "", " ".join(text.split()))


class Function:
    def __init__(self, module, names, parts):
        self.module, self.names = module, names
        self.exported, self.name, taken, self.given, clauses, self.body = parts
        self.taken, self.clauses = one_line(taken), one_line(clauses)

    def promise(self):
        """Its clauses, and from where each name of them is brought in."""
        return self.clauses, {name: self.names.get(name) for name in NAME.findall(self.clauses) if name in self.names}

    def call(self):
        """How its body is said where all it does is to call the function of its name with what it was given."""
        return f"{self.name}({', '.join(TAKEN.findall(self.taken))})"


def functions(crate):
    for path in sorted((ROOT / "crates" / crate / "src").glob("*.rt")):
        text = COMMENT.sub("", path.read_text())
        names = {name.strip(): place for place, listed in USE.findall(text) for name in listed.split(",") if name.strip()}
        module = [] if path.name == "lib.rt" else [path.stem]
        for parts in FUNCTION.findall(text):
            yield Function(module, names, parts)


def judge(library, archive):
    text = "".join(path.read_text() for path in (ROOT / "crates" / archive / "src").glob("*.rt"))
    promised = {one.name: one for one in functions(library) if one.name.startswith("rsmp_")}
    exported = {one.name: one for one in functions(archive)}
    hold(promised and promised.keys() == exported.keys() and text.count(EXPORTED) == text.count(" fn ") == len(exported),
         f"{archive} exports {sorted(exported)}, and {library} has {sorted(promised)}")
    for name, one in exported.items():
        its = promised[name]
        hold(one.exported and not its.exported and (one.taken, one.given) == (its.taken, its.given), f"{name}: what it takes and gives differs from {library}'s")
        hold(one.promise() == its.promise() and its.clauses.startswith("ensures "), f"{name}: its promise is not {library}'s")
        hold("requires" not in its.clauses, f"{name} asks something of its caller")
        hold(one_line(one.body) == "::".join([library, *its.module, its.call()]), f"{name} does more than to call {library}'s")
    return len(exported)


def main(words):
    if words != ["--stored"]:
        print(__doc__)
        return 2
    counts = [judge(*pair) for pair in PAIRS]
    print(f"exports: {' + '.join(map(str, counts))} functions promise what those of {', '.join(library for library, _ in PAIRS)} promise, and ask nothing")
    return 0


if __name__ == "__main__":
    sys.exit(main(sys.argv[1:]))
