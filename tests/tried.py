"""Wrong programs and wrong promises that the prover must refuse, kept out of the gate for their time.

tests/tried/CRATE/NAME.edit has the form of the gate's own edits (crates/CRATE/must-fail): `file:`, then pairs of `old:` and `new:`, the old
text standing once in that file; several files, each with its pairs, make one edit. A file is one of CRATE, or of any crate where it
begins with `crates/`. Where a line `refused by: OTHER` comes first, CRATE is still proved with the edit, since definition and code were
changed alike, or since it is a rule of the machine, and it is the crate OTHER that must refuse it.

  tried.py --applies         every edit, these and the gate's, still applies; proves nothing, takes a second
  tried.py CRATE ..          tries the edits of these crates
  tried.py --all             tries all of them, which takes an hour or two
"""
import pathlib
import re
import shutil
import subprocess
import sys
import tempfile

ROOT = pathlib.Path(__file__).resolve().parent.parent
TRIED = ROOT / "tests" / "tried"
REFUSER = "refused by: "


class Edit:
    def __init__(self, crate, path):
        self.crate, self.path, self.name = crate, path, f"{crate}/{path.stem}"
        self.refuser, self.changes = crate, []
        place = old = None
        for line in path.read_text().split("\n"):
            if line.startswith(REFUSER):
                self.refuser = line[len(REFUSER):].strip()
            elif line.startswith("file: "):
                place = line[len("file: "):]
                place = place if place.startswith("crates/") else f"crates/{crate}/{place}"
            elif line.startswith("old: "):
                old = line[len("old: "):]
            elif line.startswith("new:"):
                self.changes.append((place, old, line[len("new:"):].removeprefix(" ")))

    def fault(self):
        """Why it does not apply, or None."""
        if not self.changes:
            return "it changes nothing"
        for place, old, _ in self.changes:
            path = ROOT / place
            if not path.is_file():
                return f"no file {place}"
            stands = path.read_text().count(old)
            if stands != 1:
                return f"its old text stands {stands} times in {place}: {old}"
        if not (ROOT / "crates" / self.refuser).is_dir():
            return f"no crate {self.refuser}"
        return None

    def apply(self, root):
        """Gives the files as they were."""
        before = {root / place: (root / place).read_text() for place, _, _ in self.changes}
        for place, old, new in self.changes:
            path = root / place
            path.write_text(path.read_text().replace(old, new))
        return before


def edits(folder, pattern):
    return [Edit(path.relative_to(folder).parts[0], path) for path in sorted(folder.glob(pattern))]


def tried():
    return edits(TRIED, "*/*.edit")


def applies():
    every = tried() + edits(ROOT / "crates", "*/must-fail/*.edit")
    faults = [(e, e.fault()) for e in every]
    for e, fault in faults:
        if fault:
            print(f"{e.name} no longer applies: {fault}")
    bad = sum(bool(fault) for _, fault in faults)
    print(f"tried: {len(every)} edits, {bad} no longer apply")
    return bad == 0


# Of what stands on the goal that was refused.
CONSEQUENCE = re.compile(r"\d+ declarations? that depends? on")


def unread(line, edited):
    """Whether it says that the edited text has a name that is not there, so that no contract was tried."""
    at = re.match(r"(?:\./)?(\S+?):\d+:\d+: error: (?:(`[^`]*`): )?(.*)", line)
    if not at or at[1] not in edited and not at[1].startswith(("src/", "specs/")) or CONSEQUENCE.match(at[3]):
        return False
    return not at[2] or bool(re.search(r"is not in scope|has no field|is no name|operand is missing|expected the end|cannot continue", re.sub(r"`[^`]*`", "", at[3])))


def refused(edit, root):
    """Whether the crate that must refuse the edit does, everything below it proved."""
    before = edit.apply(root)
    folder = root / "crates" / edit.refuser
    done = subprocess.run(["rt", "check"], cwd=folder, stdout=subprocess.PIPE, stderr=subprocess.STDOUT, text=True)
    edited = [str(path.relative_to(folder)) for path in before if path.is_relative_to(folder)]
    for path, text in before.items():
        path.write_text(text)
    lines = done.stdout.rstrip("\n").split("\n")
    below = any(line.startswith("rt: the library ") for line in lines)
    return done.returncode == 1 and not below and any(line.startswith("logic=not-proved") for line in lines) and not any(unread(line, edited) for line in lines)


def copy_of_the_tree():
    """The crates alone: what was proved of them here, rt finds by itself."""
    root = pathlib.Path(tempfile.mkdtemp()) / "tree"
    root.mkdir()
    shutil.copy(ROOT / "crates.txt", root)
    shutil.copytree(ROOT / "crates", root / "crates", ignore=shutil.ignore_patterns("out"))
    return root


def attempt(chosen):
    root = copy_of_the_tree()
    survived = 0
    for edit in chosen:
        fault = edit.fault()
        good = fault is None and refused(edit, root)
        survived += not good
        print(f"{edit.name}: {'refused' if good else 'NOT REFUSED' if fault is None else fault}", flush=True)
    shutil.rmtree(root.parent)
    print(f"tried: {len(chosen)} edits, {survived} not refused")
    return survived == 0


def main(words):
    if words == ["--applies"]:
        return applies()
    if words == ["--all"]:
        return attempt(tried())
    chosen = [e for e in tried() if e.crate in words]
    if not words or {e.crate for e in chosen} != set(words):
        sys.exit(__doc__)
    return attempt(chosen)


if __name__ == "__main__":
    sys.exit(0 if main(sys.argv[1:]) else 1)
