"""Calls on sites that hold anything: random scripts of calls between which bytes of the site, or of the box of two, are spoiled (tests/damaged.c).

  damaged.py --fresh [SEED]
"""
import pathlib
import random
import subprocess
import sys
import tempfile

import lives
from cases import ROOT, stored_or_fresh

LIBRARY, TOOLS = ROOT / "build" / "librsmp_site.a", ROOT / "build" / "tools"
FLAGS = ["-std=gnu11", "-Wall", "-Wextra", "-Werror", "-O2", "-I", ROOT / "build"]
LINES = 20000
EACH = 12
COUNTS = (0, 1, 1, 2, 5, 20, 100, 500)  # 0 for all but the first three words


def scripts(source, lines, boxed):
    """Random lives of a site alone or of two in a box, spoiled after a done start and then now and again."""
    for player in lives.lives(source, lines, boxed=boxed):
        started = False
        for line, answer in player.pairs:
            yield line
            started = started or ("start " in line and answer != "11")
            if started and source.randrange(EACH) == 0:
                yield f"damage {source.randrange(1 << 32)} {source.choice(COUNTS)}"


def fresh(seed):
    print(f"damaged: seed {seed}")
    for boxed in (False, True):
        played(seed, boxed)


def played(seed, boxed):
    given = list(scripts(random.Random(seed), LINES, boxed))
    with tempfile.TemporaryDirectory() as room:
        program = pathlib.Path(room) / "damaged"
        subprocess.run([TOOLS / "cc", *FLAGS, *["-DBOX"] * boxed, "-o", program, ROOT / "tests" / "damaged.c", LIBRARY], check=True)
        done = subprocess.run([TOOLS / "run", program], input="".join(f"{line}\n" for line in given), capture_output=True, text=True)
    if done.returncode:
        sys.exit(f"damaged: seed {seed}: status {done.returncode}: {done.stderr}")
    numbers = list(map(int, done.stdout.split()))
    if min(numbers[0], sum(numbers[1:])) * 20 < len(given):
        sys.exit(f"damaged: seed {seed}: too few calls are done or refused: {numbers}")
    spoiled = sum(line.startswith("damage") for line in given)
    print(f"damaged: {sum(numbers)} calls on {'a box of two sites' if boxed else 'a site'} spoiled {spoiled} times, {numbers[0]} done; numbers 1 to 12: {' '.join(map(str, numbers[1:]))}")


if __name__ == "__main__":
    if sys.argv[1:2] != ["--fresh"]:
        sys.exit(__doc__)
    stored_or_fresh(None, fresh, __doc__)
