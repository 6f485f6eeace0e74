"""What the machine imports: lists, numbers and texts; a packet's value by Python's own JSON reader; identities and times."""
import datetime
import json
import re
import uuid

LITERALS = {"true": True, "false": False, "zero": 0, "[]": ()}
CONSTRUCTORS = dict(none=0, some=1, null=0, bool=1, num=1, str=1, arr=1, obj=1, jnil=0, jcons=2, mnil=0, mcons=3, Is=1, No=0,
                    pos=1, negsuc=1, Recent=1, Old=1, Unknown=0, Undefined=0, Response=0, Update=0, Command=0,
                    version=3, watchdog=2, ack=1, not_ack=2, alarm=4, aggregated=4, statuses=5, included=5)
NONE = ("none",)


def made(name):
    return lambda *parts: (name, *parts)


def spelled(name):
    return {"not": "negated", "map": "mapped", "◌+◌": "sum_of"}.get(name, name)


# Numbers and lists.

def suc(n):
    return n + 1


def eqb(a, b):
    return a == b


def leb(a, b):
    return a <= b


def ltb(a, b):
    return a < b


def negated(a):
    return not a


def both(a, b):
    return a and b


def same_bytes(a, b):
    return a == b


def length(items):
    return len(items)


def take(n, items):
    return items[:n]


def drop(n, items):
    return items[n:]


def reverse(items):
    return items[::-1]


def get_or(items, i, default):
    return items[i] if i < len(items) else default


def replicate(n, item):
    return (item,) * n


def mapped(function, items):
    return tuple(map(function, items))


def count(test, items):
    return sum(map(test, items))


# Texts.

def text(quoted):
    return tuple(quoted.encode())


def digits(n):
    return text(str(n))


def decimal_of(value):
    return digits(signed(value))


def says(n, digits_):
    for digit in digits_:
        n = n * 10 + max(0, digit - 48)
    return n


def lowered(characters):
    return tuple(c + 32 if 65 <= c <= 70 else c for c in characters)


def is_label(characters):
    return 1 <= len(characters) <= 32 and all(0x20 <= c <= 0x7E and c not in b'"\\' for c in characters)


def identity_text(identity):
    return text(str(uuid.UUID(bytes=bytes(identity))))


def version4_of(random):
    return tuple(uuid.UUID(bytes=bytes(random), version=4).bytes)


TIME = re.compile(r"(\d{4})-(\d\d)-(\d\d)T(\d\d):(\d\d):(\d\d)(?:\.(\d{1,6}))?Z", re.A)
EPOCH = datetime.datetime(1970, 1, 1)


def last_time():
    return (datetime.datetime.max - EPOCH) // datetime.timedelta(milliseconds=1)


def read_time(characters):
    found = TIME.fullmatch("".join(map(chr, characters)))
    try:
        at = datetime.datetime(*map(int, found.groups()[:6])) if found else None
    except ValueError:
        at = None
    if at is None or at < EPOCH:
        return ("No",)
    decimals = found[7] or ""
    return "Is", (at - EPOCH) // datetime.timedelta(seconds=1) * 1000 + int((decimals + "000")[:3]), len(decimals)


def time_text(ms):
    return text((EPOCH + datetime.timedelta(milliseconds=ms)).isoformat(timespec="milliseconds") + "Z")


def moment_text(ms):
    return time_text(min(ms, last_time()))


# Packets.

class Number(str):
    """A number's text."""


class Refused(ValueError):
    """No packet."""


def once(pairs):
    if len({name for name, _ in pairs}) != len(pairs):
        raise Refused
    return dict(pairs)


def refuse(_):
    raise Refused


def characters_of(string):
    if any(0xD800 <= ord(c) < 0xE000 for c in string):
        raise Refused
    return tuple(map(ord, string))


def value_of(value, level):
    if isinstance(value, (dict, list)) and level > 8:
        raise Refused
    if value is None:
        return ("null",)
    if isinstance(value, bool):
        return "bool", value
    if isinstance(value, Number):
        return "num", tuple(value.encode())
    if isinstance(value, str):
        return "str", characters_of(value)
    if isinstance(value, list):
        entries = ("jnil",)
        for entry in reversed(value):
            entries = "jcons", value_of(entry, level + 1), entries
        return "arr", entries
    members = ("mnil",)
    for name, member in reversed(value.items()):
        members = "mcons", characters_of(name), value_of(member, level + 1), members
    return "obj", members


def meaning_of(packet):
    try:
        value = json.loads(bytes(packet).decode("utf8"), object_pairs_hook=once, parse_constant=refuse, parse_int=Number, parse_float=Number)
        return value_of(value, 1) if isinstance(value, dict) else None
    except (ValueError, RecursionError):
        return None


def is_packet(packet):
    return meaning_of(packet) is not None


def text_of(value):
    """The text of a value: no spaces, strings as they are."""
    kind = value[0]
    if kind == "null":
        return text("null")
    if kind == "bool":
        return text("true" if value[1] else "false")
    if kind == "num":
        return value[1]
    if kind == "str":
        return text('"') + value[1] + text('"')
    parts, rest = [], value[1]
    while len(rest) > 1:
        named = text('"') + rest[1] + text('":') if kind == "obj" else ()
        parts += [named + text_of(rest[-2]), text(",")]
        rest = rest[-1]
    brackets = "[]" if kind == "arr" else "{}"
    return text(brackets[0]) + sum(parts[:-1], ()) + text(brackets[1])


# The table's rows, a message's entries, a record's bytes.

def no_row():
    return dict(component=0, priority=0, category=0, code=(), name=(), lowest=("pos", 0), highest=("pos", 0))


def status(code, name, value):
    return dict(code=code, name=name, value=value)


def alarm_flags(event, acknowledged, active, suspended):
    return event << 4 | acknowledged << 3 | active << 2 | suspended << 1


def status_flags(known, old):
    return known << 5 | old << 4


def signed(value):
    return value[1] if value[0] == "pos" else -1 - value[1]


def at_most(a, b):
    return signed(a) <= signed(b)


def word_of(value):
    return signed(value) % 2**32


WIDTHS = dict(link=3, kind=2, item=6, flags=6, time=48, value=32, sequence=31)


def bytes_of(entry):
    packed = 0
    for field, width in WIDTHS.items():
        packed = packed << width | entry[field]
    return tuple(packed.to_bytes(16, "big"))
