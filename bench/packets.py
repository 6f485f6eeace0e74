"""How much processor time judging a packet takes, by its shape: an ordinary StatusSubscribe of four entries, and packets of 4,096 bytes that
are meant to be bad for the reader. Prints the time of one judging, the time per byte, and its ratio to the ordinary packet's, each out of so
many judgings that starting the program is a small part of it.

  packets.py         runs the program `bench_json`, which `rt ci`, or `rt run` in its folder, leaves in crates/bench_json/out

Where the program runs under an emulator (on a processor other than x86-64) only the ratios say something.
"""
import pathlib
import resource
import subprocess
import sys

sys.path.insert(0, str(pathlib.Path(__file__).resolve().parent.parent / "tests"))

import cases

KIND, TIMES = "2", 100  # a case of this kind is judged so often
SIZE = 4096
ENOUGH = 0.2  # seconds, and this many times what the program takes for nothing: only such a measurement is used
OVER_NOTHING = 20


def ordinary():
    entry = b'{"sCI":"S0001","n":"release%d","uRt":"60","sOc":true}'
    entries = b",".join(entry % place for place in range(4))
    return (b'{"mType":"rSMsg","type":"StatusSubscribe","mId":"d6d97f8b-e9db-4572-8084-70b55e312584","ntsOId":"","xNId":"",'
            b'"cId":"AA+BBCCC=DDDEE001","sS":[' + entries + b"]}")


def many_names():
    names, place = b"{", 0
    while len(names) < SIZE - 12:
        names += b'"%03x":0,' % place
        place += 1
    return names[:-1] + b"}"


def long_names():
    names, place = b"{", 0
    while len(names) < SIZE - 60:
        names += b'"%s%02x":0,' % (b"a" * 40, place)
        place += 1
    return names[:-1] + b"}"


def nested():
    inner = b"[" * 7 + b"]" * 7
    count = (SIZE - 8) // (len(inner) + 1)
    return b'{"a":[' + b",".join([inner[1:-1]] * count) + b"]}"


def nested_objects():
    inner = b"0"
    for _ in range(6):
        inner = b'{"a":' + inner + b"}"
    count = (SIZE - 8) // (len(inner) + 1)
    return b'{"a":[' + b",".join([inner] * count) + b"]}"


def escapes():
    return b'{"a":"' + b"\\u00e9" * ((SIZE - 8) // 6) + b'"}'


def spaces():
    return b" " * (SIZE - 7) + b'{"a":1}'


SHAPES = (("ordinary StatusSubscribe", ordinary), ("many names", many_names), ("long names that differ late", long_names),
          ("arrays eight deep", nested), ("objects eight deep", nested_objects), ("one string of escapes", escapes),
          ("white space", spaces))


def processor_time():
    used = resource.getrusage(resource.RUSAGE_CHILDREN)
    return used.ru_utime + used.ru_stime


def seconds(given):
    """The least processor time of three runs: other work on the machine hardly changes it."""
    best = None
    for _ in range(3):
        began = processor_time()
        done = subprocess.run(cases.command("bench_json"), input=given, stdout=subprocess.PIPE, check=True)
        taken = processor_time() - began
        best = taken if best is None else min(best, taken)
    return best, done.stdout


def judging(name, packet, nothing):
    """The processor time of one judging, out of as many as the clock needs."""
    cases_ = 1
    while True:
        taken, said = seconds(cases.case(KIND, packet) * cases_)
        if said != b"%d\n" % TIMES * cases_:
            sys.exit(f"{name}: the packet is not accepted")
        if taken >= max(ENOUGH, OVER_NOTHING * nothing):
            return (taken - nothing) / (TIMES * cases_), TIMES * cases_
        cases_ *= 2


def main():
    nothing, _ = seconds(b"")
    first = None
    for name, make in SHAPES:
        packet = make()
        each, times = judging(name, packet, nothing)
        byte = each / len(packet)
        first = first or byte
        print(f"{name:30} {len(packet):5} bytes {each * 1e6:9.1f} us {byte * 1e9:8.1f} ns a byte, ratio {byte / first:6.2f}, of {times} judgings")
    return 0


if __name__ == "__main__":
    sys.exit(main())
