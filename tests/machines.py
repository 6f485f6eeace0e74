"""The machine of crates/machine, its own text run: each line's answer is compared with that of `rsmp-replay` over the proved library, or,
where that program is not built, with the model's.

  machines.py --stored                   plays the stored scripts, tests/scripts
  machines.py --fresh [SEED [LINES]]     plays random scripts
"""
import random
import subprocess
import sys
import threading
import time

import lives
from machine.play import played
from replays import PROGRAM, SCRIPTS

LINES = 5000
DEEP = 512 * 2**20


def answers_to(lines, model):
    if not PROGRAM.exists():
        return "the model", model
    given = "".join(f"{line}\n" for line in lines)
    return "rsmp-replay", subprocess.run([PROGRAM], input=given, stdout=subprocess.PIPE, text=True).stdout.splitlines()


def compare(lines, model, what):
    who, answers = answers_to(lines, model)
    if len(answers) != len(lines):
        sys.exit(f"machine: {what}: {len(lines)} lines, {who} answered {len(answers)}")
    began = time.perf_counter()
    for place, (line, expected, answer) in enumerate(zip(lines, answers, played(lines))):
        if answer != expected:
            sys.exit(f"machine: {what}: line {place + 1}\n  {line}\n  {who} {expected}\n  machine {answer}")
    print(f"machine: {what}: {len(lines)} lines agree with {who}, {time.perf_counter() - began:.0f} s")


def stored():
    """Those of one site one after the other; those of two from the empty box each."""
    lines, answers = [], []
    for path in sorted(SCRIPTS.glob("*.txt")):
        given, told = path.read_text().splitlines(), path.with_suffix(".answers").read_text().splitlines()
        if given[0].startswith("start "):
            lines += given
            answers += told
        else:
            compare(given, told, f"stored script {path.stem}")
    compare(lines, answers, "stored scripts")


def fresh(seed, count):
    print(f"machine: seed {seed}")
    pairs = [pair for player in lives.lives(random.Random(seed), count) for pair in player.pairs]
    compare([line for line, _ in pairs], [answer for _, answer in pairs], "random scripts")


def main(words):
    if words == ["--stored"]:
        stored()
    elif words[:1] == ["--fresh"]:
        fresh(int(words[1]) if len(words) > 1 else time.time_ns() % 10**9, int(words[2]) if len(words) > 2 else LINES)
    else:
        sys.exit(__doc__)


def deeply(function, *arguments):
    """Runs it with room for the recursion of a definition over a long list. Gives the status to exit with."""
    status = [1]

    def run():
        try:
            function(*arguments)
            status[0] = 0
        except SystemExit as end:
            status[0] = end.code

    sys.setrecursionlimit(10**6)
    threading.stack_size(DEEP)
    thread = threading.Thread(target=run)
    thread.start()
    thread.join()
    return status[0]


if __name__ == "__main__":
    sys.exit(deeply(main, sys.argv[1:]))
