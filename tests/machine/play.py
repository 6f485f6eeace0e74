"""Plays a script for rsmp-replay on the machine and gives the line that rsmp-replay prints for each of its lines."""
import uuid

from cases import ROOT
from model import message, table

from .given import NONE, signed
from .translate import Translation, files_of

SPECS = ROOT / "crates" / "machine" / "specs"
QUALITY = {"Recent": "recent", "Old": "old", "Unknown": "unknown", "Undefined": "undefined"}
SITES = {"north": 0, "south": 1}
KIND = {"Response": "StatusResponse", "Update": "StatusUpdate", "Command": "CommandResponse"}


def played(lines, specs=SPECS):
    machine = Translation(files_of(specs))
    started, site_of, site_is, empty = (machine["Box", name] for name in ("started", "site_of", "site_is", "empty_box"))
    box = empty()
    for line in lines:
        named, (name, *words) = named_site(line.split())
        number = SITES.get(named, 0)
        site = site_of(number, box)
        if name == "start":
            made = begun(machine, number, unhexed(words[0]), *words[1:])
            if made != NONE:
                box = started(number, made, box if named else empty())
            yield "11" if made == NONE else "0 0 - -"
        elif name in ("counts", "readings"):
            readings = [machine["Readings", "reading"](site[1], link) for link in range(site[1]["setup"]["links"])]
            yield " ".join(map(counted if name == "counts" else read, readings))
        else:
            outcome, after = machine["Step", "step"](site[1], call(name, words))
            box = site_is(number, after, box)
            yield shown(outcome)


def named_site(words):
    """The name that a line begins with, or None, and its other words."""
    return (words[0], words[1:]) if words[0] in SITES else (None, words)


# What is given.

def unhexed(word):
    return b"" if word == "-" else bytes.fromhex(word)


def option(word):
    return NONE if word == "-" else ("some", int(word))


def whole(value):
    return ("pos", value) if value >= 0 else ("negsuc", -1 - value)


def begun(machine, site, data, links, primary, period, first, time):
    given = dict(site=site, table=tuple(data), links=int(links), primary=option(primary), period=int(period), first=int(first), time=int(time))
    try:
        rows = table.read(data)
    except table.Refused:
        return NONE
    return ("some", machine["Table", "first"](table_of(rows), given)) if machine["Table", "good_start"](given) else NONE


def table_of(rows):
    return dict(site=tuple(rows.site), sxl=tuple(rows.sxl), components=tuple(map(tuple, rows.components)),
                alarms=tuple(row(c, code, b"", priority, category) for c, priority, category, code in rows.alarms),
                statuses=tuple(row(c, code, name) for c, code, name in rows.statuses),
                commands=tuple(row(c, code, name, 0, 0, *limits) for c, code, name, *limits in rows.commands))


def row(component, code, name, priority=0, category=0, lowest=0, highest=0):
    return dict(component=component, priority=priority, category=category, code=tuple(code), name=tuple(name),
                lowest=whole(lowest), highest=whole(highest))


def call(name, words):
    if name == "packet":
        link, time, random, room, received = words
        return at(time, "packet", int(link), tuple(unhexed(random)), tuple(unhexed(received)), int(room))
    if name == "pump":
        link, time, random, room = words
        return at(time, "pump", int(link), tuple(unhexed(random)), int(room))
    *numbers, time = map(int, words)
    if name == "alarm":
        return at(time, "alarm_input", numbers[0], numbers[1] != 0)
    if name == "status":
        return at(time, "status_value", numbers[0], whole(numbers[1]))
    return at(time, {"aggregated": "aggregated_value"}.get(name, name), *numbers)


def at(time, *act):
    return dict(time=int(time), act=act)


# What is shown.

def counted(reading):
    return f"{reading['held']}/{reading['lost']}"


def read(reading):
    records = ",".join(bytes(record).hex() for record in reading["records"]) or "-"
    return f"{reading['phase']}/{'.'.join(map(str, reading['version'] or (0, 0, 0)))}/{records}"


def shown(outcome):
    if outcome[0] == "refused":
        return str(outcome[1])
    _, messages, closed, hint, commands = outcome
    written = b"".join(text(*said) + b"\x0c" for said in messages)
    handed = ",".join(f"{one['number']}={signed(one['value'])}" for one in commands)
    return f"0 {sum(1 << link for link in closed)} {'-' if hint == NONE else hint[1]} {written.hex() or '-'}{' ' + handed if handed else ''}"


def text(kind, *parts):
    """A message's text; the model's writers take the same fields."""
    if kind == "version":
        return message.version(identity(parts[0]), string(parts[1]), string(parts[2]))
    if kind == "watchdog":
        return message.watchdog(identity(parts[0]), parts[1])
    if kind == "ack":
        return message.ack(string(parts[0]))
    if kind == "not_ack":
        return message.not_ack(string(parts[0]), string(parts[1]))
    if kind == "alarm":
        state = parts[3]
        return message.alarm(*head(parts), string(parts[2]), state["event"], state["acknowledged"], state["active"], state["suspended"],
                             state["time"], state["category"], state["priority"])
    if kind == "aggregated":
        return message.aggregated(*head(parts), *parts[2:])
    (told,), id_, component, time, entries = parts
    name, id_ = (KIND[told] + "AckIncluded", string(id_)) if kind == "included" else (KIND[told], identity(id_))
    return (message.commands if told == "Command" else message.statuses)(name, id_, string(component), time, list(map(entry, entries)))


def head(parts):
    return identity(parts[0]), string(parts[1])


def entry(status):
    value = status["value"]
    return string(status["code"]), string(status["name"]), signed(value[1]) if len(value) > 1 else None, QUALITY[value[0]]


def identity(bytes_):
    return str(uuid.UUID(bytes=bytes(bytes_)))


def string(characters):
    return bytes(characters).decode("ascii")
