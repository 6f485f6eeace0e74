"""From a site's record to its weekly report: `rsmp-replay --stream` writes what each supervisor was sent, byte for byte, and `rsmp-week` reads it and
files one after the other. And what these programs and `rsmp-table` say where their output is full or nobody reads it.

  streams.py --stored
"""
import itertools
import os
import pathlib
import subprocess
import sys
import tempfile

import replays
import weeks
from cases import ROOT

REPLAY, WEEK, TABLE = (ROOT / "build" / name for name in ("rsmp-replay", "rsmp-week", "rsmp-table"))


def hold(good, what):
    if not good:
        sys.exit(f"streams: {what}")


def run(*words, given=b""):
    done = subprocess.run(words, input=given, stdout=subprocess.PIPE, stderr=subprocess.PIPE)
    return done.returncode, done.stdout, done.stderr.decode()


def sent(pairs, wanted, south=False):
    """What the answers of a script say was written on a link of north, or of south."""
    written = b""
    for line, answer in pairs:
        words = line.split()
        named = words[0] == "south"
        name, link, *_ = words[words[0] in ("north", "south"):] + ["-"]
        if named == south and name in ("packet", "pump") and link == str(wanted) and answer.startswith("0 ") and answer.split()[3] != "-":
            written += bytes.fromhex(answer.split()[3])
    return written


def judge_streams(room):
    total = 0
    for script in replays.STORED:
        player, file = script(), room / "script"
        file.write_text(replays.texts(player)[0])
        for south, link in itertools.product((False, True) if player.name else (False,), range(4)):
            words = ["--stream", *["south"] * south, str(link)]
            wanted = sent(player.pairs, link, south)
            got = run(REPLAY, *words, file)
            hold(got[:2] == (0, wanted), f"{script.__name__}, {words}: status {got[0]}, {len(got[1])} bytes where {len(wanted)} were sent {got[2]}")
            hold(link > 0 or run(REPLAY, *words, given=file.read_bytes())[1] == wanted, "the same from standard input")
            if wanted:
                hold(run(WEEK, given=wanted)[:2] == (0, weeks.report(wanted).encode()), f"{script.__name__}: the report of {words}")
            total += len(wanted)
    for words, said in ((("4",), "0 to 3"), (("x",), "0 to 3"), (("0", "/nowhere/at/all"), "No such file")):
        code, out, error = run(REPLAY, "--stream", *words)
        hold(code == 2 and not out and said in error, f"--stream {words}: {code} {error}")
    cut = run(REPLAY, "--stream", "0", given=file.read_bytes() + b"pump 0\n")
    hold(cut[0] == 2 and cut[1] == sent(player.pairs, 0), "a script that breaks off")
    return total


def judge_files(room):
    """Files are one stream, but no message goes over the end of a file."""
    names = [room / "one", room / "two"]
    half = len(weeks.GOOD) // 2
    for first, second in ((weeks.stream_of(weeks.GOOD), weeks.WEEK), (weeks.GOOD[:half], weeks.GOOD[half:] + b"\f" + weeks.stream_of(weeks.GOOD)),
                          (b"", weeks.WEEK), (weeks.WEEK + weeks.GOOD, weeks.WEEK), (b"x" * 5000, weeks.stream_of(weeks.GOOD))):
        for name, stream in zip(names, (first, second)):
            name.write_bytes(stream)
        whole = b"".join(stream[:stream.rfind(b"\f") + 1] for stream in (first, second))
        wanted = (0, weeks.report(whole).encode())
        hold(run(WEEK, *names)[:2] == wanted, f"two files: {run(WEEK, *names)}")
        hold(run(WEEK, names[0], "-", given=second)[:2] == wanted and run(WEEK, given=second)[1] == weeks.report(second).encode(), "standard input by -")
    for words, code, said in ((("/nowhere/at/all",), 1, "/nowhere/at/all: No such file"), (("--what",), 2, "no such option"), ((room,), 1, "directory")):
        got = run(WEEK, *words)
        hold(got[0] == code and said in got[2] and not got[1], f"{words}: {got}")


def judge_outputs(room):
    """Into a full device and into pipes that nobody reads, for output and for complaints: a status and a word, no panic."""
    table, script = ROOT / "examples" / "barrier.txt", room / "script"
    script.write_text(replays.texts(next(one for one in replays.STORED if sent(one().pairs, 0))())[0])
    told = ((REPLAY, ()), (REPLAY, ("--help",)), (REPLAY, ("--version",)), (REPLAY, ("--picture", script)), (REPLAY, ("--stream", "0", script)),
            (TABLE, ("--help",)), (TABLE, ("--version",)), (TABLE, ("pack", table)), (TABLE, ("check", table)), (TABLE, ("hex", table)),
            (WEEK, ()), (WEEK, ("--help",)), (WEEK, ("--version",)))
    given = script.read_bytes()
    for program, words in told:
        with open("/dev/full", "wb") as full:
            done = subprocess.run([program, *words], input=given, stdout=full, stderr=subprocess.PIPE)
            said = done.stderr.decode()
        hold(done.returncode in (1, 2) and "No space left" in said and "input" not in said, f"{program.name} {words} into a full device: {done.returncode} {said}")
    wrong = ((REPLAY, ("--what",)), (REPLAY, ("--stream", "9")), (TABLE, ("unpack", table)), (TABLE, ("what",)), (WEEK, ("--what",)))
    for program, words in told + wrong:
        reading, writing = os.pipe()
        os.close(reading)
        done = subprocess.run([program, *words], input=given, stdout=writing, stderr=writing)
        os.close(writing)
        hold(done.returncode in (1, 2), f"{program.name} {words} where nobody reads: {done.returncode}")
    return len(told) + len(wrong)


def main(words):
    if words != ["--stored"]:
        print(__doc__)
        return 2
    with tempfile.TemporaryDirectory() as name:
        total = judge_streams(pathlib.Path(name))
        judge_files(pathlib.Path(name))
        closed = judge_outputs(pathlib.Path(name))
    print(f"streams: {len(replays.STORED)} stored scripts give the {total} bytes that were sent, and rsmp-week their reports, from files too; "
          f"{closed} command lines find their output full or closed and say so")
    return 0


if __name__ == "__main__":
    sys.exit(main(sys.argv[1:]))
