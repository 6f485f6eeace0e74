"""The fields of written messages, and the messages as Python's json writes them (tests/model/message.py).

  writes.py --write     writes the stored cases and answers of the program `run_writes`
  writes.py --stored    checks that the stored ones are what this script makes
  writes.py --fresh [SEED]   runs random messages through the program

An answer is the message, its form feed and a line feed, compared byte for byte: so are the order of the elements and the absence
of spaces. Each message is also read by Python's json, and what it says is compared with the fields that the case gives.

Fields are hexadecimal digits of: the identity (16 bytes), the time (8), six bytes by type, and labels with their length before
them; a status or a command is a byte (0 a value, 1 unknown, 2 undefined, 3 an old value), the value (4), its code and its name. Of
an answer it is the received identity as it stands, behind two digits of the reason's number in the table of names; of a response that
carries its acknowledgement (r, c) that identity stands before the fields, whose own is not used.
"""
import itertools
import json
import random
import re
import struct
import sys
import uuid

import cases
from cases import case
from model import message
from model.table import ALPHABET

LAST = 253402300799999
TIMES = (0, 1, 999, 951782399999, 951782400000, 1254398371571, LAST - 1, LAST)
VALUES = (-2**31, -2**31 + 1, -10, -1, 0, 1, 9, 10, 2**31 - 1)
LETTERS = "".join(sorted(map(chr, ALPHABET)))
UNKNOWN, UNDEFINED, OLD = "unknown", "undefined", "old"
OLD_VALUES = tuple((OLD, value) for value in VALUES)
REASONS = ("Missing element", "Bad value", "Unexpected", "Not ready", "RSMP version", "Site id", "SXL version",
           "Unknown component", "Unknown alarm", "Unknown status", "Unknown command", "Busy")
FIRST_REASON = 18
RECEIVED = ("e68a0010-c336-41ac-bd58-5c80a72c7092", "E68A0010-C336-41AC-BD58-5C80A72C7092", "e68A0010-c336-41AC-BD58-5c80a72C7092")
STRING, SPACE = re.compile(rb'"[^"]*"'), re.compile(rb"\s")
OURS = uuid.UUID("c014bd2d-5671-4a19-b37e-50deef301b82")


def labelled(*labels):
    return b"".join(bytes([len(label)]) + label.encode("ascii") for label in labels)


def fields(identity, time=0, details=(), labels=b""):
    return identity.bytes + struct.pack(">Q", time) + bytes(details).ljust(6, b"\0") + labels


def pair(kind, body, text, expected):
    """A case and its answer, once Python's json has read from the message what the case gives: the same elements in the same order,
    those of entries too, and no space outside a string."""
    said, meant = json.loads(text), {"mType": "rSMsg", **expected}
    assert said == meant and json.dumps(said) == json.dumps(meant), (text, meant)
    assert not SPACE.search(STRING.sub(b"", text)) and b"\f" not in text
    return case(kind, body), text + b"\f\n"


# A message of each type: its case, and the elements that it has in the order of source document 000's listings.

def version(identity, site, sxl):
    return pair("V", fields(identity, labels=labelled(site, sxl)).hex(), message.version(str(identity), site, sxl),
                {"type": "Version", "mId": str(identity), "RSMP": [{"vers": "3.1.4"}, {"vers": "3.1.5"}, {"vers": "3.2"}],
                 "siteId": [{"sId": site}], "SXL": sxl})


def watchdog(identity, time):
    return pair("W", fields(identity, time).hex(), message.watchdog(str(identity), time),
                {"type": "Watchdog", "mId": str(identity), "wTs": message.time_text(time)})


def ack(received):
    return pair("K", received, message.ack(received), {"type": "MessageAck", "oMId": received})


def not_ack(received, number):
    reason = REASONS[number]
    return pair("N", f"{FIRST_REASON + number:02d}{received}", message.not_ack(received, reason),
                {"type": "MessageNotAck", "oMId": received, "rea": reason})


def about(kind, identity, component, name="mId"):
    return {"type": kind, name: str(identity), "ntsOId": "", "xNId": "", "cId": component}


def alarm(identity, component, code, event, states, time, category, priority):
    acknowledged, active, suspended = states
    body = fields(identity, time, (event, category, priority, *states), labelled(component, code))
    return pair("A", body.hex(), message.alarm(str(identity), component, code, event, *states, time, category, priority),
                {**about("Alarm", identity, component), "aCId": code, "xACId": "", "xNACId": "",
                 "aSp": {0: "Issue", 1: "Acknowledge", 2: "Suspend"}[event],
                 "ack": ["notAcknowledged", "Acknowledged"][acknowledged], "aS": ["inActive", "Active"][active],
                 "sS": ["notSuspended", "Suspended"][suspended], "aTs": message.time_text(time), "cat": "TD"[category],
                 "pri": f"{priority:d}", "rvs": []})


def aggregated(identity, component, time, value):
    body = fields(identity, time, (value,), labelled(component))
    return pair("G", body.hex(), message.aggregated(str(identity), component, time, value),
                {**about("AggregatedStatus", identity, component), "aSTS": message.time_text(time), "fP": "", "fS": "",
                 "se": [digit == "1" for digit in f"{value:08b}"]})


def status_bytes(code, name, value):
    if value in (UNKNOWN, UNDEFINED):
        return bytes([1 + (UNKNOWN, UNDEFINED).index(value)]) + bytes(4) + labelled(code, name)
    old, value = value if isinstance(value, tuple) else (None, value)
    return (b"\3" if old else b"\0") + struct.pack(">i", value) + labelled(code, name)


def status_entry(code, name, value):
    """As the model takes it: code, name, value or None, quality."""
    if value in (UNKNOWN, UNDEFINED):
        return code, name, None, value
    quality, value = value if isinstance(value, tuple) else ("recent", value)
    return code, name, value, quality


def told_fields(identity, component, time, given):
    return fields(identity, time, (len(given),), labelled(component) + b"".join(status_bytes(*entry) for entry in given))


def statuses(kind, identity, component, time, given):
    body = told_fields(identity, component, time, given)
    type_name = "StatusResponse" if kind == "R" else "StatusUpdate"
    return pair(kind, body.hex(), message.statuses(type_name, str(identity), component, time, entries_of(given)),
                {**about(type_name, identity, component), **said_of_statuses(time, given)})


def commands(identity, component, time, given):
    body = told_fields(identity, component, time, given)
    return pair("C", body.hex(), message.commands("CommandResponse", str(identity), component, time, entries_of(given)),
                {**about("CommandResponse", identity, component), **said_of_commands(time, given)})


def included(kind, received, component, time, given):
    body = received + told_fields(OURS, component, time, given).hex()
    type_name, text, said = {"r": ("StatusResponseAckIncluded", message.statuses, said_of_statuses),
                             "c": ("CommandResponseAckIncluded", message.commands, said_of_commands)}[kind]
    return pair(kind, body, text(type_name, received, component, time, entries_of(given)),
                {**about(type_name, received, component, "oMId"), **said(time, given)})


def entries_of(given):
    return [status_entry(*entry) for entry in given]


def said_of_statuses(time, given):
    return {"sTs": message.time_text(time), "sS": [{"sCI": code, "n": name, "s": None if value is None else f"{value:d}", "q": quality}
                                                   for code, name, value, quality in entries_of(given)]}


def said_of_commands(time, given):
    return {"cTS": message.time_text(time), "rvs": [{"cCI": code, "n": name, "v": None if value is None else f"{value:d}", "age": age}
                                                    for code, name, value, age in entries_of(given)]}


def told(kind, identity, component, time, given):
    if kind in "rc":
        return included(kind, str(identity), component, time, given)
    if kind == "C":
        return commands(identity, component, time, given)
    return statuses(kind, identity, component, time, given)


# Limits, and what document 01 lists, each once.

def limit_labels():
    longest = LETTERS[:32], LETTERS[32:64], LETTERS[-32:]
    return [*longest, "!", "~", " ", "/", "x" * 31]


def greetings():
    for site, sxl in zip(limit_labels(), reversed(limit_labels())):
        yield version(OURS, site, sxl)
    yield version(uuid.UUID(int=0), "KK+AG9998=001TC000", "1.0.13")
    for time in TIMES:
        yield watchdog(OURS, time)
    yield watchdog(uuid.UUID(int=2**128 - 1), 0)
    yield watchdog(uuid.UUID(bytes=bytes(range(0, 256, 16))), LAST)


def answers():
    for received in RECEIVED:
        yield ack(received)
        for number in range(len(REASONS)):
            yield not_ack(received, number)


def alarms():
    for event, states, category in itertools.product(range(3), itertools.product((0, 1), repeat=3), (0, 1)):
        yield alarm(OURS, "KK+AG9998=001TC000", "A0001", event, states, 1254398371571, category, 2)
    for label, time in zip(limit_labels(), TIMES):
        yield alarm(OURS, label, label, 0, (0, 1, 0), time, 0, 1)
    for priority in (1, 2, 3, 9, 10, 99, 100, 255):
        yield alarm(OURS, "C", "A", 2, (1, 0, 1), 0, 1, priority)


def aggregates():
    for value in range(256):
        yield aggregated(OURS, "C", 1254398371571, value)
    for label, time in zip(limit_labels(), TIMES):
        yield aggregated(OURS, label, time, 128)


def told_limits():
    longest = (LETTERS[:32], LETTERS[-32:])
    values = (*VALUES, *OLD_VALUES, UNKNOWN, UNDEFINED)
    for kind in "RUCrc":
        for value in values:
            yield told(kind, OURS, "C", 1254398371571, [("S0001", "plan", value)])
        for count in (0, 1, 2, 15, 16):
            yield told(kind, OURS, LETTERS[:32], LAST, [(*longest, -2**31)] * count)
            yield told(kind, OURS, "C", 0, [("S", "n", values[place % len(values)]) for place in range(count)])
    for value in values:
        yield statuses("1", OURS, "C", 1254398371571, [("S0001", "plan", value)])
    for label, time in zip(limit_labels(), TIMES):
        yield statuses("1", OURS, label, time, [(label, label, 7)])
    for received in RECEIVED:
        for kind in "rc":
            yield included(kind, received, "C", 1254398371571, [("S0001", "plan", 7)])


# Random ones.

def some_label(source):
    return "".join(source.choice(LETTERS) for _ in range(source.choice((1, 32, source.randint(1, 32)))))


def some_time(source):
    return source.choice((0, LAST, source.randrange(LAST + 1), source.randrange(LAST + 1)))


def some_value(source):
    return source.choice((source.choice(VALUES), source.choice(OLD_VALUES), UNKNOWN, UNDEFINED, source.randrange(-2**31, 2**31),
                          source.randrange(-2**31, 2**31) >> source.randrange(31)))


def some_received(source):
    return "".join(source.choice((c, c.upper())) for c in str(uuid.UUID(int=source.getrandbits(128))))


def some_told(source, kind):
    count = 1 if kind == "1" else source.choice((0, 1, 2, 16, source.randint(0, 16)))
    given = [(some_label(source), some_label(source), some_value(source)) for _ in range(count)]
    identity = some_received(source) if kind in "rc" else uuid.UUID(int=source.getrandbits(128))
    return told(kind, identity, some_label(source), some_time(source), given)


def some_message(source):
    identity, time = uuid.UUID(int=source.getrandbits(128)), some_time(source)
    kind = source.choice("VWKNAGRUC1rc")
    if kind == "V":
        return version(identity, some_label(source), some_label(source))
    if kind == "W":
        return watchdog(identity, time)
    if kind == "K":
        return ack(some_received(source))
    if kind == "N":
        return not_ack(some_received(source), source.randrange(len(REASONS)))
    if kind == "A":
        states = [source.randrange(2) for _ in range(3)]
        return alarm(identity, some_label(source), some_label(source), source.randrange(3), states, time, source.randrange(2),
                     source.randrange(256))
    if kind == "G":
        return aggregated(identity, some_label(source), time, source.randrange(256))
    return some_told(source, kind)


def stored_pairs():
    yield from greetings()
    yield from answers()
    yield from alarms()
    yield from aggregates()
    yield from told_limits()
    source = random.Random(7)
    for _ in range(60):
        yield some_message(source)


def fresh(source):
    yield "random messages", (some_message(source) for _ in range(5000))


if __name__ == "__main__":
    sys.exit(cases.script("run_writes", stored_pairs, fresh, __doc__))
