"""`make run`: a barrier's site talks to two supervisors over TCP on this machine; then two sites of one cabinet to one each."""
import pathlib
import re
import subprocess
import sys
import tempfile
import time

import csvs
import replays
import weeks
from model import message
from process import NORTH, SITE, SOUTH, SXL, WITH_COMMANDS, Process, boom, subscription
from supervisors import Supervisor

RELEASE, TOO_LATE = 1, 2
LIMIT = 300
BEGAN = time.monotonic()


def say(text=""):
    print(f"{time.monotonic() - BEGAN:5.1f} s  {text}" if text else "", flush=True)


def updates(supervisor):
    return [(entry["s"], entry["q"]) for said in supervisor.of("StatusUpdate") for entry in said["sS"]]


def values(supervisor):
    return [value for value, _ in updates(supervisor)]


def release(process, value):
    process.order(f"status {RELEASE} {value}")
    if value > LIMIT:
        process.order(f"alarm {TOO_LATE} on")


def alarms(supervisor):
    return sum(said["aS"] == "Active" for said in supervisor.of("Alarm"))


class Motor:
    """What moves the booms: a program that notes each movement when it has ended."""

    def __init__(self, room):
        self.program, self.notes = pathlib.Path(room) / "move", pathlib.Path(room) / "movements"
        self.program.write_text(f'#!/bin/sh\nsleep 0.5\necho "$1 $3 $4" >>{self.notes}\n')
        self.program.chmod(0o755)

    def moved(self):
        return self.notes.read_text().splitlines() if self.notes.exists() else []


def test_booms(process, centre, workshop, motor):
    say("An operator at the centre tests the north boom from the desk, the workshop the south one:")
    orders = [(centre, NORTH, 1), (workshop, SOUTH, 1), (centre, NORTH, 0), (workshop, SOUTH, 0)]
    for one, component, value in orders:
        one.ask("CommandRequest", **boom(value, component))
    answered = [entry["age"] for said in centre.of("CommandResponse") for entry in said["rvs"]]
    say(f"  the site has answered ({', '.join(answered)}) and runs a program for each, in the order in which they came; now {process.order('commands')}")
    centre.wait(lambda: len(motor.moved()) == len(orders), "the booms")
    if motor.moved() != [f"{component} boom {value}" for _, component, value in orders]:
        sys.exit(f"the booms moved in another order: {motor.moved()}")
    say("  the booms moved: " + ", ".join(f"{line.split()[0][-5:]} {'up' if line.endswith('1') else 'down'}" for line in motor.moved()))
    say(f"  and a value that the boom does not have is refused: {centre.ask('CommandRequest', **boom(2))}.")
    say()


def poll(centre):
    asked = {"cId": NORTH, "sS": [{"sCI": "S0101", "n": "release"}]}
    say("Behind the centre a city's gateway polls over the same link, in the way in which the response is the acknowledgement too:")
    for _ in range(20):
        centre.ask("StatusRequestAckIncluded", **asked)
    got = lambda: [said["sS"][0]["s"] for said in centre.of("StatusResponseAckIncluded")]
    centre.wait(lambda: len(got()) == 20, "the responses")
    if set(got()) != {"340"}:
        sys.exit(f"the gateway got {got()}")
    say("  20 questions, 20 messages back (340 ms each), none of them to be answered; and a status that is not there is refused: "
        f"{centre.ask('StatusRequestAckIncluded', cId=NORTH, sS=[{'sCI': 'S0999', 'n': 'release'}])}.")
    say()


def show(process, centre, workshop, motor):
    say(f"The site of a road barrier starts and calls its two supervisors: the traffic centre (primary) on {centre.address},")
    say(f"the workshop (secondary) on {workshop.address}.")
    centre.wait_up()
    workshop.wait_up()
    say(f"Both have greeted: {process.order('links')}.")
    say()
    centre.ask("StatusSubscribe", **subscription())
    say("The centre subscribes to the time that the north barrier's brake takes to release. It creeps up:")
    for value in range(190, 341, 15):
        release(process, value)
    centre.wait(lambda: values(centre)[-1:] == ["340"] and alarms(centre), "the release times")
    say("  the centre got " + ", ".join(value or "unknown" for value in values(centre)) + " ms")
    say(f"  and, above {LIMIT} ms, the alarm {centre.of('Alarm')[-1]['aCId']}. The workshop got {len(workshop.of('Alarm'))} alarms: "
        "they are the primary's.")
    say()
    poll(centre)
    say("The centre's connection is cut. The barrier goes on measuring:")
    before = len(values(centre))
    centre.greets = False
    centre.cut()
    centre.wait(lambda: centre.stream is None and "link 0 Up" not in process.order("links"), "the cut")
    for value in (345, 360, 350):
        release(process, value)
    say(f"  {process.order('counts')}")
    centre.greets = True
    centre.cut()
    waited = [(value, "old") for value in ("345", "360", "350")]
    centre.wait(lambda: updates(centre)[before:][-3:] == waited, "what waited, marked old")
    say("The connection is back, greeted anew, and what waited arrives, marked as what it is: "
        + ", ".join(f"{value} ms ({quality})" for value, quality in updates(centre)[-3:]))
    say()
    test_booms(process, centre, workshop, motor)
    say("The workshop floods the site: it subscribes 640 times and answers nothing.")
    workshop.answers = False
    for _ in range(40):
        workshop.send("StatusSubscribe", cId=NORTH, sS=subscription(change=None)["sS"] * 16)
    workshop.ask("StatusUnsubscribe", cId=NORTH, sS=[{"sCI": "S0101", "n": "release"}])
    release(process, 355)
    centre.wait(lambda: values(centre)[-1] == "355", "the value in the flood")
    say(f"  {process.order('counts')}")
    say(f"  Nothing of the centre's was pushed out, and the next value, {values(centre)[-1]} ms, reached it at once.")
    say()


def flood(*all_of_them):
    for _ in range(40):
        for one in all_of_them:
            one.send("StatusSubscribe", cId=NORTH, sS=subscription()["sS"] * 16)


def show_two(process, north, south):
    say("Two barriers in one cabinet: the north and the south boom are two sites that share one pool of 128 records.")
    for one in (north, *south):
        one.wait_up()
        one.ask("StatusSubscribe", **subscription())
    say(f"  north: {process.order('north links')}; south: {process.order('south links')}")
    north.wait(lambda: process.order("counts").startswith("link 0 holds 0"), "the answers")
    north.greets = False
    for one in south:
        one.answers = False
    north.cut()
    north.wait(lambda: north.stream is None and "link 0 Up" not in process.order("links"), "the cut")
    say("Both supervisors of the south boom flood it: each subscribes 640 times and answers nothing. The pool is full of the south's:")
    flood(*south)
    north.wait(lambda: process.order("south counts").count("holds 64") == 2, "the flood")
    say(f"  north: {process.order('north counts')}; south: {process.order('south counts')}")
    say("The north site, whose connection is cut, measures 16 release times, and the flood goes on:")
    for value in range(190, 350, 10):
        process.order(f"north status {RELEASE} {value}")
    flood(*south)
    for one in south:
        one.ask("StatusUnsubscribe", cId=NORTH, sS=[{"sCI": "S0101", "n": "release"}])
    say(f"  north: {process.order('north counts')}; south: {process.order('south counts')}")
    before = len(values(north))
    north.greets = True
    north.cut()
    north.wait(lambda: values(north)[before:][-16:] == [str(value) for value in range(190, 350, 10)], "what the north held")
    say("The north's connection is back, and all 16 arrive: what the flood pushed out was the south site's own.")
    say()


def summary(process):
    say("The site ends. Its own count of messages and records:")
    for line in process.lines[process.lines.index("summary") + 1:]:
        say("  " + re.sub(r" 127\.0\.0\.1:\d+", "", line.strip()))


def report(centre):
    stream = b"".join(centre.connections)
    told = subprocess.run([weeks.PROGRAM], input=stream, stdout=subprocess.PIPE, check=True).stdout.decode()
    if told != weeks.report(stream):
        sys.exit("the weekly report is another than the test's own:\n" + told)
    say("The weekly report of what the centre got:")
    for line in told.splitlines():
        say("  " + "  ".join(line.split("\t")))
    say()


def spreadsheet(process, state):
    """The whole day and what the state holds at its end, as CSV; and back to the records' bytes."""
    held = subprocess.run([csvs.PROGRAM, "state", state], stdout=subprocess.PIPE, check=True).stdout
    day = subprocess.run([replays.PROGRAM, "--records", process.record], stdout=subprocess.PIPE, check=True).stdout
    for text in (held, day):
        data = subprocess.run([csvs.PROGRAM, "records"], input=text, stdout=subprocess.PIPE, check=True).stdout
        if subprocess.run([csvs.PROGRAM, "lines"], input=data, stdout=subprocess.PIPE, check=True).stdout != text:
            sys.exit("CSV that was read and written is another")
    day, held = day.decode().splitlines(), held.decode().splitlines()
    if not set(held) <= set(day):
        sys.exit("the state holds what the day has not issued")
    say(f"The day for a spreadsheet: {len(day) - 1} records as CSV, of which the state holds {len(held) - 1} at the end. The first three:")
    for row in day[:4]:
        say("  " + row)
    say()


def two_sites():
    north, south = Supervisor(SITE, SXL), [Supervisor(SITE, SXL) for _ in range(2)]
    with tempfile.TemporaryDirectory() as room:
        process = Process(room, [north], beside=south)
        try:
            show_two(process, north, south)
            process.quit()
        finally:
            process.process.kill()


def main():
    centre, workshop = Supervisor(SITE, SXL), Supervisor(SITE, SXL, offer="3.1.4")
    with tempfile.TemporaryDirectory() as room:
        motor = Motor(room)
        state = pathlib.Path(room) / "state"
        process = Process(room, [centre, workshop], "--on-command", motor.program, "--state", state, table=WITH_COMMANDS)
        try:
            show(process, centre, workshop, motor)
            process.quit()
        finally:
            process.process.kill()
        summary(process)
        spreadsheet(process, state)
    report(centre)
    two_sites()
    say("Two of the messages that the centre got:")
    for said in (centre.messages[0], centre.of("StatusUpdate")[-1]):
        say("  " + message.text(said).decode()[:180])
    return 0


if __name__ == "__main__":
    sys.exit(main())
