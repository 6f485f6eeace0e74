"""host/prove-library over a stand-in for `rt`: what it prints while crates are proved, and when it has nothing to do.

  progress.py --stored
"""
import os
import pathlib
import re
import shutil
import subprocess
import sys
import tempfile

from cases import ROOT

CRATES = "# a comment\nlow:\nmiddle: low check   # another\nother: low\ntop staticlib: middle other\nbeside: low\n"
RT = """#!/bin/sh
# Proves as `rt` does in a crate's folder, as far as files and lines go. A crate with a file src/bad is not proved.
case $1 in
version) cat kit ;;
lib)
    name=$(basename "$PWD")
    mkdir -p out
    sum=$( (ls src; cat src/*) | cksum)
    if [ -e src/bad ]; then
        echo "src/lib.rt:1:1: error: a goal stays open"
        echo "logic=not-proved"
        exit 1
    elif [ "$(cat out/stamp 2>/dev/null)" != "$sum" ] || [ "$name" = top ]; then
        echo "library std: modules loaded=0 checked=0"
        echo "logic=proved functions=1"
        echo "$sum" >out/stamp
    fi
    if [ "$name" = top ]; then date +%N >out/libtop.a; fi ;;
esac
"""
# The prover itself, as it is called for a static library over libraries that the gate made.
RATTLE = """#!/bin/sh
echo "$@" >>asked
while [ "$1" != -o ]; do shift; done
date +%N >"$2"
"""


def hold(good, what):
    if not good:
        sys.exit(f"progress: {what}")


def run(place, word):
    path = f"{place / 'bin'}{os.pathsep}{os.environ['PATH']}"
    kept = {name: value for name, value in os.environ.items() if name != "RATTLE_HOME"}
    done = subprocess.run([place / "host" / "prove-library", word], cwd=place, capture_output=True, text=True, env={**kept, "PATH": path})
    return done.returncode, done.stdout.splitlines(), done.stderr


def prove(place):
    return run(place, "top")


def program(path, text):
    path.write_text(text)
    path.chmod(0o755)


def laid_out(place):
    for folder in ("host", "bin"):
        (place / folder).mkdir()
    shutil.copy(ROOT / "host" / "prove-library", place / "host")
    program(place / "bin" / "rt", RT)
    program(place / "bin" / "rattle", RATTLE)
    (place / "crates.txt").write_text(CRATES)
    (place / "kit").write_text("kit 1\n")
    for name in ("low", "middle", "other", "top", "beside"):
        (place / "crates" / name / "src").mkdir(parents=True)
        (place / "crates" / name / "src" / "lib.rt").write_text(name)


def judge(place):
    laid_out(place)
    status, said, _ = prove(place)
    hold(status == 0 and said[0].startswith("proving the 3 crates below top"), f"the first time: {said}")
    told = [re.fullmatch(r"(\w+) +proved in +\d+ s +(\d) left of 3 +\d+:\d\d so far", line) for line in said[1:4]]
    hold(all(told) and {one[1] for one in told} == {"low", "middle", "other"} and [one[2] for one in told] == ["2", "1", "0"], f"a line a crate: {said}")
    hold(not any("modules loaded" in line for line in said) and "modules loaded" in (place / "build" / "prove-library.log").read_text(),
         "what the prover says goes to the file")
    archive = place / "crates" / "top" / "out" / "libtop.a"
    made = archive.read_text()

    hold(prove(place)[:2] == (0, []) and archive.read_text() == made, "nothing changed, and something is done or said")
    (place / "crates" / "beside" / "src" / "lib.rt").write_text("a crate that it does not stand on")
    hold(prove(place)[:2] == (0, []) and archive.read_text() == made, "a crate beside it changed, and something is done or said")

    (place / "crates" / "other" / "src" / "lib.rt").write_text("changed")
    status, said, _ = prove(place)
    hold(status == 0 and archive.read_text() != made, f"a crate below it changed: {said}")
    hold([line.split()[0] for line in said[1:3]] == ["other", "2"] and "have not changed" in said[2], f"one crate is told of, two are counted: {said}")
    for name, text in (("kit", "kit 2\n"), ("crates/top/src/lib.rt", "changed too"), ("crates.txt", CRATES.replace("low check", "low other"))):
        made = archive.read_text()
        (place / name).write_text(text)
        hold(prove(place)[0] == 0 and archive.read_text() != made, f"{name} changed, and the archive is not made again")
    archive.unlink()
    hold(prove(place)[0] == 0 and archive.exists(), "the archive is gone and not made again")
    judge_noted(place, archive)

    (place / "crates" / "middle" / "src" / "bad").write_text("")
    status, said, faults = prove(place)
    hold(status == 1 and "middle is not proved" in faults and "a goal stays open" in faults and "build/prove-library.log" in faults,
         f"a crate is not proved: {faults}")
    hold(prove(place)[0] == 1, "what is not proved is not proved the next time either")


def judge_noted(place, archive):
    """After the gate the crate alone is compiled, over the libraries that were noted, and over no others."""
    asked, libraries = place / "crates" / "top" / "asked", {}
    for name in ("low", "middle", "other"):
        libraries[name] = place / "crates" / name / "out" / "rlib" / f"{name}.rlib" / "format"
        libraries[name].parent.mkdir(parents=True)
        libraries[name].write_text(name)
    hold(run(place, "--made")[:2] == (0, []) and prove(place)[:2] == (0, []), "what the gate made is noted, and something is done or said")
    archive.unlink()
    status, said, _ = prove(place)
    hold(status == 0 and archive.exists() and "over 3 crates" in said[0] and not any(" left of " in line for line in said), f"after the gate: {said}")
    hold(asked.exists() and all(f"{libraries[name].parent}" in asked.read_text() for name in ("middle", "other")), "the libraries that it stands on")
    for path in (libraries["low"], place / "crates" / "low" / "src" / "lib.rt"):
        asked.unlink(missing_ok=True)
        archive.unlink()
        before = path.read_text()
        path.write_text("another")
        status, said, _ = prove(place)
        hold(status == 0 and not asked.exists() and said[0].startswith("proving the 3 crates"), f"{path.name} is not the noted one, and is compiled over: {said}")
        path.write_text(before)


def main(words):
    if words != ["--stored"]:
        print(__doc__)
        return 2
    with tempfile.TemporaryDirectory() as name:
        judge(pathlib.Path(name))
    print("progress: a line a crate with how many are left, nothing where nothing changed, and what is not proved is told")
    return 0


if __name__ == "__main__":
    sys.exit(main(sys.argv[1:]))
