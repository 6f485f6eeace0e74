"""How much stack each call takes at most, found by painting the stack (bench/stack.c), over the stored scripts of calls and random
ones. tests/stackbound.py computes what no call can exceed.

  stack.py [SEED [LINES]]     after `make build`
"""
import random
import sys
import tempfile
import time

from built import ROOT, TOOLS, output, program

import lives

LINES = 5000


def stored_scripts():
    """Those of one site: the calls on a box are the same functions."""
    texts = [path.read_text() for path in sorted((ROOT / "tests" / "scripts").glob("*.txt"))]
    return [text for text in texts if text.startswith("start ")]


def random_scripts(seed, lines=LINES):
    return ["".join(f"{line}\n" for line, _ in player.pairs) for player in lives.lives(random.Random(seed), lines, boxed=False)]


def painted(scripts):
    """The calls and the most bytes, by the name of the line. Bound at the start: what looks up memcpy at its first call is no part of a call."""
    with tempfile.TemporaryDirectory() as room:
        said = output([TOOLS / "run", program("stack", room, more=["-maccumulate-outgoing-args", "-Wl,-z,now"])], "".join(scripts))
    return {name: (int(calls), int(most)) for name, calls, most in map(str.split, said.splitlines())}


def main(words):
    seed = int(words[0]) if words else time.time_ns() % 10**9
    print(f"stack: seed {seed}")
    scripts = stored_scripts() + random_scripts(seed, int(words[1]) if len(words) > 1 else LINES)
    for name, (calls, most) in painted(scripts).items():
        print(f"{name:12} {calls:7} calls, at most {most:6} bytes")
    return 0


if __name__ == "__main__":
    sys.exit(main(sys.argv[1:]))
