"""Cases for the programs that read them from standard input, and running such a program on them.

A case is a head, its kind (one byte), the length of its body (four decimal digits) and a line feed; then the body and a line
feed. The program answers each case with a line.
"""
import os
import pathlib
import platform
import shutil
import random
import subprocess
import sys
import time

ROOT = pathlib.Path(__file__).resolve().parent.parent


def case(kind, body):
    if isinstance(body, str):
        body = body.encode("ascii")
    assert len(kind) == 1 and len(body) < 10000
    return kind.encode("ascii") + b"%04d\n" % len(body) + body + b"\n"


def split(pairs):
    """Cases and their answers, from pairs of them."""
    pairs = list(pairs)
    return [given for given, _ in pairs], [answer for _, answer in pairs]


def stored(program, cases, answers):
    """Compares the program's stored input and expected output with what the script makes; True where they are the same."""
    folder = ROOT / "crates" / program
    same = True
    for name, content in (("stdin", b"".join(cases)), ("stdout", b"".join(answers))):
        path = folder / name
        if not path.exists() or path.read_bytes() != content:
            print(f"{path.relative_to(ROOT)} is not what the script makes (write it with --write)")
            same = False
    return same


def write(program, cases, answers):
    folder = ROOT / "crates" / program
    (folder / "stdin").write_bytes(b"".join(cases))
    (folder / "stdout").write_bytes(b"".join(answers))


def command(program):
    """How one of the gate's programs is run."""
    return wrapped(ROOT / "crates" / program / "out" / program)


def wrapped(path):
    """How a program for x86-64 is run: as it is, or on another processor under the emulator that the kit has beside its compiler."""
    if platform.machine() == "x86_64":
        return [path]
    kit = pathlib.Path(os.environ.get("RATTLE_HOME") or pathlib.Path(shutil.which("rt")).resolve().parent.parent)
    tools = kit / "on" / platform.machine() / "toolchain"
    return [tools / "bin" / "qemu-x86_64", tools / "lib" / "ld-linux-x86-64.so.2", "--library-path", tools / "lib", path]


def run(program, cases):
    """The program's answers, a line each."""
    done = subprocess.run(command(program), input=b"".join(cases), stdout=subprocess.PIPE, check=True)
    return done.stdout.splitlines(keepends=True)


def compare(program, cases, answers, what):
    """Runs the program on the cases and ends the script at the first answer that differs."""
    got = run(program, cases)
    for given, expected, answer in zip(cases, answers, got):
        if expected != answer:
            sys.exit(f"{program}: {what}: at {given!r}\n  expected {expected!r}\n  got      {answer!r}")
    if len(got) != len(answers):
        sys.exit(f"{program}: {what}: {len(answers)} answers expected, {len(got)} given")
    print(f"{program}: {what}: {len(cases)} cases agree")


def script(program, stored_pairs, fresh, usage):
    """The command line of a script that makes cases for a program: --write, --stored, --fresh [SEED].

    `stored_pairs()` gives the stored pairs of a case and its answer; `fresh(source)` gives, for a source of random numbers, what
    is run and its pairs, one after the other."""
    words = sys.argv[1:]
    if words == ["--write"]:
        write(program, *split(stored_pairs()))
        return 0
    if words == ["--stored"]:
        good = stored(program, *split(stored_pairs()))
        print(f"{program}: the stored cases are what the script makes" if good else f"{program}: stored cases differ")
        return 0 if good else 1
    if words[:1] == ["--fresh"]:
        seed = int(words[1]) if len(words) > 1 else time.time_ns() % 10**9
        print(f"{program}: seed {seed}")
        for what, pairs in fresh(random.Random(seed)):
            compare(program, *split(pairs), what)
        return 0
    print(usage)
    return 2


def stored_or_fresh(stored, fresh, usage):
    """The command line of a script that runs a program by itself: --stored, --fresh [SEED]."""
    words = sys.argv[1:]
    if words == ["--stored"]:
        stored()
    elif words[:1] == ["--fresh"]:
        fresh(int(words[1]) if len(words) > 1 else time.time_ns() % 10**9)
    else:
        print(usage)
        return 2
    return 0
