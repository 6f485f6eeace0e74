"""How many instructions and how long each call takes, as a ratio to a C JSON library (Debian's libcjson) parsing the same packet in the same
process: the packet that the call was given or that it wrote, and for a call without one an ordinary StatusSubscribe of four entries.

  calls.py [TIMES]     after `make build`; runs bench/calls.c, which wants the headers of libcjson and valgrind; 0: instructions alone

It is compiled for x86-64 by the compiler in CC (default: cc; on another processor a cross compiler), with the flags in CJSON
(default: -lcjson). Instructions are counted by valgrind's callgrind, are the same in every run and are left out on another processor, where
under an emulator only the ratios of the times say something. Each call is made on a copy of the site that stands before it, which is taken off.
"""
import os
import pathlib
import platform
import re
import sys
import tempfile

from built import output, program

import cases
from replays import COMMANDED, Hand

TIMES = 500


class Case:
    """A hand whose last act is measured."""

    def __init__(self, name, lead, act, site=None):
        hand = Hand() if site is None else Hand(site=site)
        lead(hand)
        answer = act(hand)
        *lines, self.call = (line for line, _ in hand.player.pairs)
        self.name, self.script = name, "".join(f"{line}\n" for line in lines)
        self.number = getattr(answer, "number", None)
        self.packet = self.given() or (getattr(answer, "written", b"") or b"").rstrip(b"\x0c") or ordinary(hand.supervisor)

    def given(self):
        words = self.call.split()
        return bytes.fromhex(words[5]) if words[0] == "packet" else b""


def of_statuses(supervisor, kind, seconds="60"):
    """Four entries, of the second component."""
    more = {"uRt": seconds, "sOc": True} if kind == "StatusSubscribe" else {}
    entries = [{"sCI": code, "n": "release", **more} for code in ("S0001", "S0002", "S0001", "S0002")]
    return supervisor.head(kind) + [("cId", supervisor.component(1)), ("sS", entries)]


def ordinary(supervisor):
    return supervisor.written(of_statuses(supervisor, "StatusSubscribe"))


def nothing(_):
    pass


def connected(hand):
    hand.connect(0)


def version_sent(hand):
    hand.connect(0)
    hand.pump(0)


def version_answered(hand):
    version_sent(hand)
    hand.answer(0)


def beating(hand):
    hand.beating(0)


def both_up(hand):
    for link in (0, 1):
        hand.up(link)
        hand.sent_out(link)


def subscribed(hand):
    both_up(hand)
    for link in (0, 1):
        hand.tell(link, of_statuses(hand.supervisor, "StatusSubscribe", "1"))
        hand.sent_out(link)


def alarm_waits(hand):
    both_up(hand)
    hand.player.alarm(1, True, hand.time)


def status_waits(hand):
    subscribed(hand)
    hand.player.status(1, 340, hand.time)


def told(members):
    return lambda hand: hand.tell(0, members(hand.supervisor))


def told_statuses(kind):
    return told(lambda supervisor: of_statuses(supervisor, kind))


def commanded(kind):
    """Four entries, of the second component."""
    return told(lambda supervisor: supervisor.commands(entries=[(0, 1), (1, 250), (2, -1), (0, 0)], kind=kind))


def later(act):
    def done(hand):
        hand.time += 1000
        return act(hand)
    return done


CASES = (
    ("start", nothing, nothing),
    ("connect", nothing, connected),
    ("disconnect", both_up, lambda hand: hand.player.disconnect(0, hand.time)),
    ("alarm", both_up, lambda hand: hand.player.alarm(1, True, hand.time)),
    ("alarm as before", alarm_waits, lambda hand: hand.player.alarm(1, True, hand.time)),
    ("status", subscribed, lambda hand: hand.player.status(1, 340, hand.time)),
    ("aggregated", both_up, lambda hand: hand.player.aggregated(5, hand.time)),
    ("tick, nothing due", both_up, lambda hand: hand.player.tick(hand.time)),
    ("tick, intervals due", subscribed, later(lambda hand: hand.player.tick(hand.time))),
    ("pump, nothing due", both_up, lambda hand: hand.pump(0)),
    ("pump Version", connected, lambda hand: hand.pump(0)),
    ("pump Watchdog", beating, lambda hand: hand.pump(0)),
    ("pump AggregatedStatus", lambda hand: hand.up(0), lambda hand: hand.pump(0)),
    ("pump Alarm", alarm_waits, lambda hand: hand.pump(0)),
    ("pump StatusUpdate", status_waits, lambda hand: hand.pump(0)),
    ("packet, ignored", both_up, lambda hand: hand.player.packet(0, hand.time, hand.random(), b"{}")),
    ("packet Version", version_answered, told(lambda supervisor: supervisor.version())),
    ("packet Watchdog", both_up, told(lambda supervisor: supervisor.watchdog(0))),
    ("packet MessageAck", version_sent, lambda hand: hand.answer(0)),
    ("packet Alarm", both_up, told(lambda supervisor: supervisor.order("Suspend", 1))),
    ("packet AggregatedStatusRequest", both_up, told(lambda supervisor: supervisor.aggregated_request())),
    ("packet StatusRequest", both_up, told_statuses("StatusRequest")),
    ("packet StatusRequestAckIncluded", both_up, told_statuses("StatusRequestAckIncluded")),
    ("packet StatusSubscribe", both_up, told_statuses("StatusSubscribe")),
    ("packet StatusUnsubscribe", subscribed, told_statuses("StatusUnsubscribe")),
    ("packet CommandRequest", both_up, commanded("CommandRequest"), COMMANDED),
    ("packet CommandRequestAckIncluded", both_up, commanded("CommandRequestAckIncluded"), COMMANDED),
    ("packet CommandRequest, refused", both_up, lambda hand: hand.command(0, (0, 1), (1, 250), (2, -1), (0, 2)), COMMANDED),
    ("start, edition 2", nothing, nothing, COMMANDED),
    ("held and lost", both_up, lambda hand: hand.player.counts()),
    ("phase, version and record", both_up, lambda hand: hand.player.readings()),
)


def times_of(made, packet, times, case):
    """The call's number; nanoseconds of the call with the copy, of the parsing and of the copy."""
    number, *taken = map(int, output([*cases.wrapped(made), packet, str(times), case.call], case.script).split())
    return number, taken


def instructions_of(made, packet, case):
    """The same in instructions."""
    with tempfile.TemporaryDirectory() as room:
        dump = pathlib.Path(room) / "dump"
        valgrind = ["valgrind", "-q", "--tool=callgrind", "--collect-atstart=no", f"--callgrind-out-file={dump}"]
        number = int(output([*valgrind, made, packet, "0", case.call], case.script))
        return number, [int(re.search(r"^totals: (\d+)", dump.with_suffix(f".{act}").read_text(), re.M)[1]) for act in (1, 2, 3)]


def told_as(taken, unit, scale=1.0, digits=0):
    """Of the call and of the parsing, and their ratio."""
    both, theirs, copy = taken
    ours = max(0, both - copy)
    return f"{ours / scale:9,.{digits}f} / {theirs / scale:7,.{digits}f} {unit} {ours / theirs:6.2f}"


def main(words):
    times = int(words[0]) if words else TIMES
    with tempfile.TemporaryDirectory() as room:
        made = program("calls", room, os.environ.get("CC", "cc"), os.environ.get("CJSON", "-lcjson").split())
        packet = pathlib.Path(room) / "packet"
        for case in (Case(*row) for row in CASES):
            packet.write_bytes(case.packet)
            numbers, figures = set(), []
            if platform.machine() == "x86_64":
                number, taken = instructions_of(made, packet, case)
                numbers.add(number)
                figures.append(told_as(taken, "instructions"))
            if times:
                number, taken = times_of(made, packet, times, case)
                numbers.add(number)
                figures.append(told_as(taken, "us", 1e3, 1))
            if case.number is not None and numbers != {case.number}:
                sys.exit(f"{case.name}: numbers {numbers} where {case.number} was expected")
            print(f"{case.name:32} {len(case.packet):4} bytes  {'  '.join(figures)}", flush=True)
    return 0


if __name__ == "__main__":
    sys.exit(main(sys.argv[1:]))
