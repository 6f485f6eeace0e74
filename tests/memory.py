"""Scripts of calls under valgrind's memcheck (tests/memory.c): nothing undefined is used or given, and nothing outside the lent bytes
is read or written.

  memory.py --stored           the stored scripts
  memory.py --fresh [SEED]     random ones on a site that is spoiled between the calls
"""
import pathlib
import random
import subprocess
import sys
import tempfile

import damaged
from cases import ROOT, stored_or_fresh
from replays import SCRIPTS

LIBRARY, TOOLS = ROOT / "build" / "librsmp_site.a", ROOT / "build" / "tools"
FLAGS = ["-std=gnu11", "-Wall", "-Wextra", "-Werror", "-O2", "-ffreestanding", "-fno-tree-loop-distribute-patterns", "-nostdlib", "-static",
         "-I", ROOT / "build", "-idirafter", TOOLS / "root" / "usr" / "include"]
NO_MEMCHECK = 77
LINES = 500


def played(script, what, boxed=False):
    with tempfile.TemporaryDirectory() as room:
        program = pathlib.Path(room) / "memory"
        subprocess.run([TOOLS / "cc", *FLAGS, *["-DBOX"] * boxed, "-o", program, ROOT / "tests" / "memory.c", LIBRARY], check=True)
        done = subprocess.run([TOOLS / "memcheck", program], input=script, capture_output=True, text=True)
    if done.returncode == NO_MEMCHECK:
        print("memory: NOT RUN, valgrind is not installed and cannot be fetched")
        return
    calls = script.count("\n")
    if done.returncode or done.stderr or done.stdout != f"{calls} calls\n":
        sys.exit(f"memory: {what}: status {done.returncode}\n{done.stdout}{done.stderr}")
    print(f"memory: {what}: {calls} calls under memcheck, nothing found")


def stored():
    texts = [path.read_text() for path in sorted(SCRIPTS.glob("*.txt"))]
    played("".join(text for text in texts if text.startswith("start ")), "stored scripts")
    for text in texts:
        if not text.startswith("start "):
            played(text, "a stored script of two sites", boxed=True)


def fresh(seed):
    print(f"memory: seed {seed}")
    for boxed in (False, True):
        played("".join(f"{line}\n" for line in damaged.scripts(random.Random(seed), LINES, boxed)), "spoiled sites", boxed)


if __name__ == "__main__":
    sys.exit(stored_or_fresh(stored, fresh, __doc__))
