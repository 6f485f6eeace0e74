"""Vectors of the leaves: times, identities, numbers, labels, records and names, with the answers of Python's own datetime,
uuid, struct and int.

  vectors.py --write     writes the stored cases and answers of the program `run_vectors`
  vectors.py --stored    checks that the stored ones are what this script makes
  vectors.py --fresh [SEED]   runs random cases, and the first and last millisecond of every month, through the program
"""
import datetime
import random
import re
import struct
import sys
import uuid

import cases
from cases import case

LAST = 253402300799999
EPOCH = datetime.datetime(1970, 1, 1)
MILLISECOND = datetime.timedelta(milliseconds=1)
ALPHABET = set(range(0x20, 0x7F)) - {ord('"'), ord("\\")}


def line(text):
    return text.encode("ascii") + b"\n"


# Times.

def time_text(ms):
    if ms > LAST:
        return "-"
    moment = EPOCH + ms * MILLISECOND
    return moment.strftime("%Y-%m-%dT%H:%M:%S.") + "%03dZ" % (moment.microsecond // 1000)


TIME = re.compile(rb"(\d{4})-(\d\d)-(\d\d)T(\d\d):(\d\d):(\d\d)(?:\.(\d{1,6}))?Z")


def time_read(text):
    found = TIME.fullmatch(text)
    if not found:
        return "-"
    *parts, decimals = found.groups(default=b"")
    try:
        moment = datetime.datetime(*map(int, parts), int(decimals.ljust(6, b"0")))
    except ValueError:
        return "-"
    ms = (moment - EPOCH) // MILLISECOND
    return f"{ms} {len(decimals)}" if ms >= 0 else "-"


def write_time(ms):
    return case("t", str(ms)), line(time_text(ms))


def read_time(text):
    return case("T", text), line(time_read(text))


def both_times(ms):
    return [write_time(ms), read_time(time_text(ms).encode("ascii"))]


def with_decimals(ms, decimals):
    """The text of a time's second with these decimals instead of its own; without any there is no dot."""
    return (time_text(ms)[:19] + ("." + decimals if decimals else "") + "Z").encode("ascii")


DECIMALS = [digits[:count] for digits in ("5000000", "0000000", "9999999", "1234567", "0005000", "9995000", "0050505", "6549999")
            for count in range(8)]


def month_edges(years):
    for year in years:
        for month in range(1, 13):
            first = (datetime.datetime(year, month, 1) - EPOCH) // MILLISECOND
            yield first
            if first:
                yield first - 1
    yield LAST


def damaged(random_source, text):
    """The text with one to three bytes changed, dropped, doubled or put in."""
    bytes_ = bytearray(text)
    for _ in range(random_source.randint(1, 3)):
        at = random_source.randrange(len(bytes_) + 1)
        way = random_source.randrange(4)
        new = random_source.choice(b"0123456789abcdefABCDEF-:.TZtz /+gG\x00\x80\xff")
        if way == 0 and at < len(bytes_):
            bytes_[at] = new
        elif way == 1 and at < len(bytes_):
            del bytes_[at]
        elif way == 2 and at < len(bytes_):
            bytes_.insert(at, bytes_[at])
        else:
            bytes_.insert(at, new)
    return bytes(bytes_)


def times(source, count):
    for ms in (0, 1, 999, 1000, 59999, 60000, 86399999, 86400000, LAST - 1, LAST, LAST + 1, 2**48 - 1, 2**63, 2**64 - 1,
               951782400000, 1254398371571):
        yield from both_times(ms)
    for text in (b"", b"-", b"1969-12-31T23:59:59.999Z", b"2000-02-30T00:00:00.000Z", b"1900-02-29T00:00:00.000Z",
                 b"2100-02-29T00:00:00.000Z", b"2000-02-29T24:00:00.000Z", b"2000-02-29T23:60:00.000Z",
                 b"2000-02-29T23:59:60.000Z", b"2000-00-10T00:00:00.000Z", b"2000-13-10T00:00:00.000Z",
                 b"2000-01-00T00:00:00.000Z", b"2000-04-31T00:00:00.000Z", b"2000-01-32T00:00:00.000Z",
                 b"2000-01-01T00:00:00.000", b"2000-01-01T00:00:00Z", b"2000-01-01T00:00:00.00Z",
                 b"2000-01-01T00:00:00.0000Z", b"2000-01-01t00:00:00.000Z", b"2000-01-01T00:00:00.000z",
                 b"2000-01-01 00:00:00.000Z", b"2000-01-01T00:00:00,000Z", b"02000-01-01T00:00:00.000Z",
                 b"10000-01-01T00:00:00.000Z", b"2000-01-01T00:00:00.000+00:00", b"0000-01-01T00:00:00.000Z"):
        yield read_time(text)
    for ms in (0, 951782400000, 1254398371571, LAST):
        for decimals in DECIMALS:
            yield read_time(with_decimals(ms, decimals))
    for text in (b"2000-01-01T00:00:00.Z", b"2000-01-01T00:00:00", b"2000-01-01T00:00:00.5", b"2000-01-01T00:00:00..5Z",
                 b"2000-01-01T00:00:00.5.Z", b"2000-01-01T00:00:00.5ZZ", b"2000-01-01T00:00:00ZZ", b"2000-01-01T00:00:00.-5Z",
                 b"2000-01-01T00:00:00. 5Z", b"2000-01-01T00:00:00.5 Z", b"2000-01-01T00:00:00.12345:Z", b"2000-01-01T00:00:00./2345Z",
                 b"2000-01-01T00:00:00,5Z", b"2000-01-01T00:00:00:5Z", b"2000-01-01T00:00:005Z", b"2000-01-01T00:00:00.5z",
                 b"2000-01-01T00:00:0.5Z", b"2000-01-01T00:00:60Z", b"2000-02-30T00:00:00Z", b"1969-12-31T23:59:59.999999Z"):
        yield read_time(text)
    for _ in range(count):
        ms = source.randint(0, LAST)
        yield from both_times(ms)
        yield read_time(damaged(source, time_text(ms).encode("ascii")))
        text = with_decimals(ms, "".join(source.choices("0123456789", k=source.randrange(8))))
        yield read_time(text)
        yield read_time(damaged(source, text))


# Identities.

IDENTITY = re.compile(rb"[0-9a-fA-F]{8}(-[0-9a-fA-F]{4}){3}-[0-9a-fA-F]{12}")


def read_identity(text):
    good = IDENTITY.fullmatch(text)
    return case("i", text), line(uuid.UUID(text.decode("ascii")).hex if good else "-")


def write_identity(value):
    return case("I", value.hex()), line(str(uuid.UUID(bytes=value)))


def version4(value):
    return case("v", value.hex()), line(str(uuid.UUID(bytes=value, version=4)))


def identities(source, count):
    for value in (bytes(16), b"\xff" * 16, bytes(range(16)), bytes(range(240, 256))):
        yield write_identity(value)
        yield version4(value)
    for text in (b"", b"0" * 36, b"00000000-0000-0000-0000-000000000000", b"{00000000-0000-0000-0000-000000000000}",
                 b"00000000-0000-0000-0000-0000000000000", b"00000000-0000-0000-0000-00000000000",
                 b"000000000-000-0000-0000-000000000000", b"00000000000000000000000000000000",
                 b"FFFFFFFF-FFFF-FFFF-FFFF-FFFFFFFFFFFF", b"g0000000-0000-0000-0000-000000000000",
                 b"00000000-0000-0000-0000-00000000000G", b"0000000`-0000-0000-0000-000000000000",
                 b"0000000@-0000-0000-0000-000000000000", b"0000000:-0000-0000-0000-000000000000",
                 b"0000000/-0000-0000-0000-000000000000"):
        yield read_identity(text)
    for _ in range(count):
        value = source.randbytes(16)
        yield write_identity(value)
        yield version4(value)
        text = str(uuid.UUID(bytes=value)).encode("ascii")
        mixed = bytes(c - 32 if 97 <= c <= 102 and source.random() < 0.5 else c for c in text)
        yield read_identity(mixed)
        yield read_identity(damaged(source, mixed))


# Numbers and labels.

INTEGER = re.compile(rb"0|-?[1-9][0-9]*")


def read_i32(text):
    good = INTEGER.fullmatch(text) and -2**31 <= int(text) < 2**31
    return case("d", text), line(f"{int(text)} {struct.pack('>i', int(text)).hex()}" if good else "-")


def write_i32(value):
    return case("D", struct.pack(">i", value).hex()), line(str(value))


def read_up_to(kind, limit, text):
    good = re.fullmatch(rb"0|[1-9][0-9]*", text) and int(text) <= limit
    return case(kind, text), line(str(int(text)) if good else "-")


def numbers(source, count):
    for value in (-2**31, -2**31 + 1, -10, -9, -2, -1, 0, 1, 9, 10, 190, 340, 2**31 - 2, 2**31 - 1):
        yield write_i32(value)
    texts = [b"", b"-", b"-0", b"+1", b"00", b"01", b"-01", b"0x1", b" 1", b"1 ", b"1.0", b"1e1", b"2147483647", b"2147483648",
             b"-2147483648", b"-2147483649", b"4294967295", b"4294967296", b"99999999999999999999", b"--1", b"-", b"1-", b"/", b":",
             b"255", b"256", b"86399", b"86400", b"86401", b"0", b"9", b"10", b"100", b"1" * 40, b"-" + b"1" * 40]
    for _ in range(count):
        value = source.choice((source.randint(-2**31, 2**31 - 1), source.randint(-1000, 1000), source.randint(0, 100000)))
        yield write_i32(value)
        texts.append(str(value).encode("ascii"))
        texts.append(damaged(source, str(value).encode("ascii")))
    for text in texts:
        yield read_i32(text)
        yield read_up_to("p", 255, text)
        yield read_up_to("s", 86400, text)


def label(text):
    return case("l", text), line("1" if 1 <= len(text) <= 32 and set(text) <= ALPHABET else "0")


def labels(source, count):
    for byte in range(256):
        yield label(bytes([byte]))
        yield label(b"ab" + bytes([byte]))
    for length in range(40):
        yield label(b"x" * length)
    for _ in range(count):
        text = bytes(source.choice(sorted(ALPHABET)) for _ in range(source.randint(0, 34)))
        yield label(text)
        yield label(damaged(source, text))


# Records: 3 (the owner: the site, then its link), 2, 6, 6, 48, 32 and 31 bits, most significant first.

WIDTHS = (3, 2, 6, 6, 48, 32, 31)


def packed(fields):
    whole = 0
    for width, field in zip(WIDTHS, fields):
        whole = whole << width | field % (1 << width)
    return whole.to_bytes(16, "big")


def unpacked(data):
    whole, fields = int.from_bytes(data, "big"), []
    for width in reversed(WIDTHS):
        fields.insert(0, whole % (1 << width))
        whole >>= width
    return fields


def valid(fields):
    link, kind, item, flags, ms, value, sequence = fields
    if ms > LAST:
        return False
    if kind == 0:
        return item <= 31 and flags >> 4 <= 2 and flags % 2 == 0 and value == 0
    if kind == 1:
        return item <= 31 and flags % 16 == 0 and (flags >> 5 == 1 or value == 0)
    if kind == 2:
        return item == 0 and flags == 0 and value <= 255
    return False


def read_record(data):
    fields = unpacked(data)
    return case("r", data.hex()), line(" ".join(map(str, fields)) if valid(fields) else "11")


def write_record(fields):
    link, kind, item, flags, ms, value, sequence = fields
    body = struct.pack(">HHHHQII", link, kind, item, flags, ms, value, sequence).hex()
    return case("R", body), line(packed(fields).hex())


def good_record(source):
    link, ms, sequence = source.randrange(8), source.choice((0, LAST, source.randint(0, LAST))), source.randrange(2**31)
    kind = source.randrange(3)
    if kind == 0:
        return [link, 0, source.randrange(32), source.randrange(3) << 4 | source.randrange(8) << 1, ms, 0, sequence]
    if kind == 1:
        known, old = source.randrange(2), source.randrange(2)
        return [link, 1, source.randrange(32), known << 5 | old << 4, ms, known * source.randrange(2**32), sequence]
    return [link, 2, 0, 0, ms, source.randrange(256), sequence]


def records(source, count):
    yield write_record([1, 1, 5, 32, 1254398371571, 2**32 - 2, 7])
    yield write_record([0, 0, 3, 0b000100, 0, 0, 0])
    plain = [0, 0, 0, 0, 0, 0, 0]
    limits = ((0, 3, 4, 7), (0, 1, 2, 3), (0, 1, 31, 32, 63), tuple(range(64)), (0, 1, LAST, LAST + 1, 2**48 - 1),
              (0, 1, 255, 256, 2**31, 2**32 - 1), (0, 2**31 - 1))
    for kind in range(4):
        for place, values in enumerate(limits):
            for value in values:
                fields = list(plain)
                fields[1] = kind
                fields[place] = value
                yield read_record(packed(fields))
    for fields in ([65535] * 4 + [2**64 - 1, 2**32 - 1, 2**32 - 1], [8, 4, 64, 64, 2**48, 0, 2**31], [13, 7, 65, 66, 2**48 + 5, 1, 2**31 + 2]):
        yield write_record(fields)
    for _ in range(count):
        fields = good_record(source)
        yield write_record(fields)
        yield read_record(packed(fields))
        spoiled = bytearray(packed(fields))
        spoiled[source.randrange(16)] ^= 1 << source.randrange(8)
        yield read_record(bytes(spoiled))
        yield read_record(source.randbytes(16))
        yield write_record([source.randrange(65536) for _ in range(4)] + [source.randrange(2**64), source.randrange(2**32), source.randrange(2**32)])


# Names: the two tables as document 01 prints them, and the types of source document 004.

TYPES = ("Version Watchdog MessageAck MessageNotAck Alarm AggregatedStatus AggregatedStatusRequest StatusRequest StatusResponse "
         "StatusSubscribe StatusUnsubscribe StatusUpdate CommandRequest CommandResponse StatusRequestAckIncluded StatusResponseAckIncluded "
         "CommandRequestAckIncluded CommandResponseAckIncluded").split()
REASONS = ["Missing element", "Bad value", "Unexpected", "Not ready", "RSMP version", "Site id", "SXL version",
           "Unknown component", "Unknown alarm", "Unknown status", "Unknown command", "Busy"]


def names(source, count):
    for place, name in enumerate(TYPES):
        yield case("Y", name), line(str(place))
        yield case("y", str(place)), line(name)
        for wrong in (name[:-1], name + "x", name.lower(), name.upper(), " " + name):
            yield case("Y", wrong), line("-")
    for place, reason in enumerate(REASONS):
        yield case("z", str(place)), line(reason)
    yield case("Y", ""), line("-")
    for _ in range(count // 10):
        text = damaged(source, source.choice(TYPES).encode("ascii"))
        yield case("Y", text), line(str(TYPES.index(text.decode("latin-1"))) if text.decode("latin-1") in TYPES else "-")


def everything(source, count):
    for part in (times, identities, numbers, labels, records, names):
        yield from part(source, count)


def stored_pairs():
    source = random.Random(1)
    yield from everything(source, 400)
    for ms in month_edges([1970, 1971, 1972, 1999, 2000, 2001, 2026, 2096, 2100, 2104, 2400, 9996, 9999]):
        yield from both_times(ms)


def fresh(source):
    yield "random cases", everything(source, 5000)
    yield "first and last millisecond of every month, both ways", (
        pair for ms in month_edges(range(1970, 10000)) for pair in both_times(ms))


if __name__ == "__main__":
    sys.exit(cases.script("run_vectors", stored_pairs, fresh, __doc__))
