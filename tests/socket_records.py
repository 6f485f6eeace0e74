"""The held records as CSV: the order `records` and `rsmp-csv state`."""
import csv
import io
import pathlib
import subprocess

import csvs
import stored
from process import PROGRAM, RELEASE, SITE, SXL, WITH_COMMANDS, Control, Process, hold, subscription, wait
from supervisors import Supervisor


def ran(*words, given=b""):
    done = subprocess.run(words, input=given, capture_output=True)
    return done.returncode, done.stdout, done.stderr.decode()


def held(room, *options):
    """Two links hold records and are Down: what the order tells, and the state's file tells the same."""
    path, state = pathlib.Path(room) / "control", pathlib.Path(room) / "state"
    centre, workshop = Supervisor(SITE, SXL), Supervisor(SITE, SXL, offer="3.1.5")
    process = Process(room, [centre, workshop], "--control", path, "--state", state, *options, record=False)
    for one in (centre, workshop):
        one.wait_up()
        hold(one.ask("StatusSubscribe", **subscription()) is True, "a subscription")
    control = Control(path)
    wait(lambda: control.order("counts") == "link 0 holds 0, lost 0; link 1 holds 0, lost 0", "answers")
    hold(ran(PROGRAM, "--send", path, "records") == (0, csvs.HEADER, ""), "nothing is held")
    for one in (centre, workshop):
        one.greets = False
        one.cut()
    wait(lambda: "Up" not in control.order("links"), "the cuts")
    for order in (f"status {RELEASE} 200", f"status {RELEASE} -7", "alarm 2 on", "aggregated 5"):
        hold(control.order(order) == "done", order)
    wait(lambda: control.order("counts").startswith("link 0 holds 4, "), "what is held")
    code, text, told = ran(PROGRAM, "--send", path, "records")
    rows = list(csv.DictReader(io.StringIO(text.decode(), newline="")))
    kinds = [(row["link"], row["kind"], row["value"], row["old"]) for row in rows]
    first = [("0", "StatusUpdate", "200", "1"), ("0", "StatusUpdate", "-7", "1"), ("0", "Alarm", "", ""), ("0", "AggregatedStatus", "5", "")]
    hold((code, told) == (0, "") and kinds[:4] == first, f"the order's lines: {code} {told} {text}")
    hold(all(kind == ("1", *wanted[1:]) for kind, wanted in zip(kinds[4:], (first[0], first[1], first[3]))), f"the second link's: {kinds}")
    ranks = [(int(row["link"]), int(row["sequence"])) for row in rows]
    hold(ranks == sorted(ranks) and len(set(ranks)) == len(ranks), f"link by link, oldest first: {ranks}")
    hold(control.order("records") == f"done, {len(rows) + 1} lines follow", "how many lines follow")
    hold("".join(control.stream.readline() for _ in range(len(rows) + 1)).encode() == text.replace(b"\r\n", b"\n"), "the lines over a connection that goes on")
    hold(control.order("save") == "done", "save")
    hold(ran(csvs.PROGRAM, "state", state) == (0, text, ""), "the state holds the same")
    code, data, told = ran(csvs.PROGRAM, "records", given=text)
    hold((code, len(data), told) == (0, 16 * len(rows), "") and ran(csvs.PROGRAM, "lines", given=data) == (0, text, ""), "to records and back")
    control.order("quit")
    process.ended()
    hold(ran(csvs.PROGRAM, "state", state) == (0, text, ""), "the state of a site that has ended")
    centre.close()
    workshop.close()
    return state.read_bytes()


def held_as_csv(room):
    """Also of a file with two places; and what is no state is told."""
    good = held(room)
    held_in_turn = pathlib.Path(room) / "turn"
    held_in_turn.mkdir()
    hold(held(held_in_turn, "--state-interval", "0")[:8] == b"RSMPTURN", "a file of two places")
    file = pathlib.Path(room) / "other"
    changed = bytearray(good)
    changed[len(good) // 2] ^= 4
    for bytes_, wanted in ((b"", "it is no state of rsmp-site"), (b"\x7fELF" * 4000, "it is no state of rsmp-site"), (bytes(changed), "its check sum is wrong"),
                           (good[:-9], "its check sum is wrong"), (good[:8] + b"\0\0\0\0" + good[12:], "it is of edition 0"),
                           (stored.summed(good[:8] + b"\2\0\0\0" + good[12:20]), "it is no state of rsmp-site"),
                           (stored.summed(good[:8] + b"\2\0\0\0" + good[12:32] + good[12:-8]), "it is not as long as a stored site"),
                           *((stored.state_of_edition(edition, good), f"it is a site of edition {edition}, where 4 is read") for edition in stored.FORMER)):
        file.write_bytes(bytes_)
        code, text, told = ran(csvs.PROGRAM, "state", file)
        hold((code, text) == (1, b"") and told.startswith(f"rsmp-csv: {file}: ") and wanted in told and told.count("\n") == 1, f"{wanted}: {code} {text} {told}")
    for words, status, wanted in ((("state", "/nowhere/at/all"), 1, "rsmp-csv: /nowhere/at/all: No such file"), (("state", room), 1, "Is a directory"),
                                  (("state",), 2, "wanted the state's file"), (("state", file, file), 2, "one of lines, records, state FILE")):
        code, text, told = ran(csvs.PROGRAM, *words)
        hold((code, text) == (status, b"") and wanted in told, f"{words}: {code} {text} {told}")
    with open("/dev/full", "wb") as full:
        file.write_bytes(good)
        code = subprocess.run([csvs.PROGRAM, "state", file], stdout=full, stderr=subprocess.PIPE)
        hold(code.returncode == 1 and b"standard output" in code.stderr, "a full disk")


def held_of_two(room):
    """Of two sites: all that is held, or what the named one holds; the state has both, and the record has all of it in the order of the calls."""
    path, state = pathlib.Path(room) / "control", pathlib.Path(room) / "state"
    process = Process(room, ["127.0.0.1:1"] * 2, "--control", path, "--state", state, beside=["127.0.0.1:1"], beside_table=WITH_COMMANDS,
                      beside_options=("--first", "2147483600"))
    control = Control(path)
    for order in ("south alarm 3 on", "aggregated 5", "south aggregated 9", "north alarm 2 on", "south alarm 3 off"):
        hold(control.order(order) == "done", order)
    told = {name: ran(PROGRAM, "--send", path, *name.split(), "records") for name in ("", "north", "south")}
    hold(all((code, fault) == (0, "") for code, _, fault in told.values()), f"{told}")
    rows = {name: list(csv.DictReader(io.StringIO(text.decode(), newline=""))) for name, (_, text, _) in told.items()}
    hold([(row["link"], row["kind"], row["item"], row["active"], row["sequence"]) for row in rows[""]]
         == [("0", "AggregatedStatus", "0", "", "0"), ("0", "Alarm", "2", "1", "2"), ("1", "AggregatedStatus", "0", "", "1"),
             ("4", "Alarm", "3", "1", "2147483600"), ("4", "AggregatedStatus", "0", "", "2147483601"), ("4", "Alarm", "3", "0", "2147483602")], f"{rows['']}")
    hold(rows[""] == rows["north"] + rows["south"] and len(rows["south"]) == 3, "north's and then south's")
    hold(control.order("save") == "done", "save")
    hold(ran(csvs.PROGRAM, "state", state) == told[""], "the state holds the same")
    control.order("quit")
    process.ended()
    hold(ran(csvs.PROGRAM, "state", state) == told[""], "the state of sites that have ended")
    code, day, fault = ran(PROGRAM.parent / "rsmp-replay", "--records", process.record)
    day = list(csv.DictReader(io.StringIO(day.decode(), newline="")))
    hold((code, fault) == (0, "") and [(row["link"], row["kind"]) for row in day]
         == [("4", "Alarm"), ("0", "AggregatedStatus"), ("1", "AggregatedStatus"), ("4", "AggregatedStatus"), ("0", "Alarm"), ("4", "Alarm")], f"the day: {day}")
    hold(sorted(map(str, day)) == sorted(map(str, rows[""])), "nothing was answered, so all that was issued is held")


TESTS = [held_as_csv, held_of_two]
