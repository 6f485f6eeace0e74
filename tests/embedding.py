"""The library as a C program gets it: nothing undefined but four functions of memory, the header without a warning, the example of
docs/EMBEDDING.md compiled and run, commands handed over, and a site's bytes out and in.

  embedding.py --stored
"""
import contextlib
import pathlib
import re
import subprocess
import sys
import tempfile

import stored
from cases import ROOT

LIBRARY, HEADER = ROOT / "build" / "librsmp_site.a", ROOT / "build" / "rsmp_site.h"
CC, RUN = ROOT / "build" / "tools" / "cc", ROOT / "build" / "tools" / "run"
STRICT = ["-std=c11", "-Wall", "-Wextra", "-Wpedantic", "-Werror", "-O2"]
SCRIPTS = ROOT / "tests" / "scripts"
ALLOWED = {"memcpy", "memmove", "memset", "memcmp"}
NM = r"^\s*([0-9a-f]*)\s+([A-Za-z])\s+(\S+)$"


def hold(good, what):
    if not good:
        sys.exit(f"embedding: {what}")


def symbols():
    listed = subprocess.run(["nm", LIBRARY], capture_output=True, text=True, check=True).stdout
    return [(kind, name) for _, kind, name in re.findall(NM, listed, re.MULTILINE)]


def judge_symbols():
    """Also no data that changes: nothing in a writable section."""
    undefined = {name for kind, name in symbols() if kind == "U"} - {name for kind, name in symbols() if kind != "U"}
    hold(undefined <= ALLOWED, f"the archive wants {sorted(undefined - ALLOWED)}")
    writable = [name for kind, name in symbols() if kind in "dDbBC"]
    hold(not writable, f"the archive has writable data: {writable}")
    header = re.sub(r"/\*.*?\*/", "", HEADER.read_text(), flags=re.DOTALL)
    inline = r"^static inline .*?(?:^}| })$"
    declared = set(re.findall(r"\b(rsmp_[a-z_]+)\(", re.sub(inline, "", header, flags=re.DOTALL | re.MULTILINE)))
    exported = {name for kind, name in symbols() if kind == "T" and not re.search(r"\d", name)}  # not rsmp_lent_start_0_7_0
    hold(declared == {name for name in exported if name.startswith("rsmp_")}, f"header and archive differ: {sorted(declared ^ exported)}")
    called = {re.search(r"\b(rsmp_[a-z_]+)\(", body)[1] for body in re.findall(inline, header, re.DOTALL | re.MULTILINE)}
    hold({name.replace("lent_", "") for name in declared} <= called, f"not to be called: {sorted(declared - called)}")
    return len(declared)


def judge_example():
    text = (ROOT / "docs" / "EMBEDDING.md").read_text()
    code = re.search(r"```c\n(.*?)```", text, re.DOTALL).group(1)
    with tempfile.TemporaryDirectory() as room:
        source, program = pathlib.Path(room) / "example.c", pathlib.Path(room) / "example"
        source.write_text(code)
        subprocess.run([CC, *STRICT, "-I", HEADER.parent, "-o", program, source, LIBRARY], check=True)
        said = subprocess.run([RUN, program, ROOT / "examples" / "barrier.bits"], capture_output=True, text=True, check=True).stdout
    wanted = ['"type":"Version"', '"type":"MessageAck","oMId":"6f968141-4de5-42ff-8032-45f8093762c5"', "the packet gave 0",
              "phase 1, held 1, lost 0", "back: phase 0, held 1"]
    for words in wanted:
        hold(words in said, f"the example does not say {words!r}: {said}")


@contextlib.contextmanager
def compiled(name):
    """tests/NAME.c as a function that runs it and gives what it says."""
    with tempfile.TemporaryDirectory() as room:
        program = pathlib.Path(room) / name
        subprocess.run([CC, *STRICT, "-I", HEADER.parent, "-o", program, ROOT / "tests" / f"{name}.c", LIBRARY], check=True)

        def run(*words, given=b""):
            done = subprocess.run([RUN, program, *words], input=given, capture_output=True)
            hold(done.returncode == 0, f"tests/{name}.c: status {done.returncode}: {done.stdout}{done.stderr}")
            return done.stdout

        yield run


def judge_lengths():
    """What is lent with a wrong length is refused by the exported functions themselves."""
    with compiled("lengths") as run:
        return int(run(ROOT / "examples" / "barrier.bits"))


def judge_stored():
    """What C stores is what stored.py reads; other bytes are not taken back."""
    with compiled("stored") as run:
        good = run("out", ROOT / "examples" / "barrier.bits")
        hold(stored.fault(good) is None, f"what C stores is not what it should be: {stored.fault(good)}")
        hold(run("in", given=good) == b"0 1 11 0\n", "C does not take back what it stores")
        box = run("box", ROOT / "examples" / "barrier.bits")
        hold(stored.fault(box, stored.BOX_BYTES) is None, f"what C stores of a box is not what it should be: {stored.fault(box, stored.BOX_BYTES)}")
        hold(run("in", given=box) == b"11 0 0 1\n", "C does not take back the box that it stores")
        for what, bytes_ in [*stored.spoiled(good), *stored.spoiled(box)]:
            hold(run("in", given=bytes_) == b"11 0 11 0\n", f"C takes {what}")


def judge_commands():
    """What C gets of a packet's commands is what the stored answers say."""
    handed = 0
    with compiled("commands") as run:
        for script in ("commands", "commands_refused", "commands_of_edition_1", "acknowledgement_included", "alarm_orders"):
            answers = [line.split() for line in (SCRIPTS / f"{script}.answers").read_text().splitlines()]
            given = (SCRIPTS / f"{script}.txt").read_bytes()
            reads = [line.split()[0] in (b"counts", b"readings") for line in given.splitlines()]
            wanted = ["0" if read else " ".join([answer[0], *answer[4:]]) for read, answer in zip(reads, answers)]
            hold(run(given=given).decode().splitlines() == wanted, f"C gets other commands of the script {script}")
            handed += sum(line.count("=") for line in wanted)
    return handed


def main(words):
    if words != ["--stored"]:
        print(__doc__)
        return 2
    count = judge_symbols()
    judge_example()
    judge_stored()
    print(f"embedding: {count} functions, the header and the example of docs/EMBEDDING.md hold; {judge_lengths()} calls with wrong lengths are refused; "
          f"{judge_commands()} commands handed over to C")
    return 0


if __name__ == "__main__":
    sys.exit(main(sys.argv[1:]))
