"""Records as CSV and back, by the program `rsmp-csv` and by this script; whole texts also by Python's csv.

  csvs.py --stored    the lines and the texts that are written here, every kind at its limits
  csvs.py --fresh [SEED]   random records; their lines quoted, damaged and cut
"""
import csv
import functools
import io
import pathlib
import random
import re
import subprocess
import sys
import tempfile

from cases import ROOT, stored_or_fresh

PROGRAM = ROOT / "build" / "rsmp-csv"
NAMES = ["link", "kind", "item", "event", "ack", "active", "suspended", "known", "old", "time", "value", "sequence"]
HEADER = ",".join(NAMES).encode() + b"\r\n"
KINDS = ["Alarm", "StatusUpdate", "AggregatedStatus"]
EVENTS = ["Issue", "Acknowledge", "Suspend"]
HAS = [set(names.split()) for names in ("link kind item event ack active suspended time sequence", "link kind item known old time value sequence",
                                        "link kind item time value sequence")]
LAST_TIME, LAST_SEQUENCE = 253402300799999, 2**31 - 1
WIDTHS = (3, 2, 6, 6, 48, 32, 31)
REASONS = {1: "wrong header", 2: "bad quoting", 3: "wrong field count", 4: "unknown kind", 5: "field not allowed or lacking for its kind",
           6: "fields no record is written with"}
T = 1254398371571


# A record is (link, kind, item, flags, time, value, sequence).

def valid(record):
    link, kind, item, flags, time, value, sequence = record
    if link > 7 or time > LAST_TIME or sequence > LAST_SEQUENCE:
        return False
    if kind == 0:
        return item < 32 and flags < 48 and flags % 2 == 0 and value == 0
    if kind == 1:
        return item < 32 and flags < 64 and flags % 16 == 0 and (flags >= 32 or value == 0)
    return kind == 2 and item == 0 and flags == 0 and value < 256


def bytes_of(record):
    number = 0
    for width, field in zip(WIDTHS, record):
        number = number << width | field
    return number.to_bytes(16, "big")


def record_of(data):
    number, fields = int.from_bytes(data, "big"), []
    for width in reversed(WIDTHS):
        fields.insert(0, number % 2**width)
        number >>= width
    return tuple(fields)


def texts(record):
    link, kind, item, flags, time, value, sequence = record
    row = dict.fromkeys(NAMES, "")
    row.update(link=link, kind=KINDS[kind], item=item, time=time, sequence=sequence)
    if kind == 0:
        row.update(event=EVENTS[flags >> 4], ack=flags >> 3 & 1, active=flags >> 2 & 1, suspended=flags >> 1 & 1)
    elif kind == 1:
        row.update(known=flags >> 5, old=flags >> 4 & 1, value=value - 2**32 if value >= 2**31 else value)
    else:
        row.update(value=value)
    return [str(row[name]) for name in NAMES]


def line_of(record):
    return ",".join(texts(record)).encode() + b"\r\n"


# A text read: what the program should write and tell.

FIELD = re.compile(rb'"((?:[^"]|"")*)"(?!")|((?:(?!\r\n)[^",])*)')


def split(text, at):
    """The fields of the line at a place, or None for bad quotes, and the place behind it."""
    fields = []
    while True:
        if text[at:at + 1] == b'"':
            found = FIELD.match(text, at)
            if found[1] is None:
                return None, len(text)
            fields.append(found[1].replace(b'""', b'"'))
        else:
            found = FIELD.match(text, at)
            fields.append(found[2])
        at = found.end()
        if at == len(text):
            return fields, at
        if text[at:at + 2] == b"\r\n":
            return fields, at + 2
        if text[at:at + 1] != b",":
            end = text.find(b"\r\n", at)
            return None, len(text) if end < 0 else end + 2
        at += 1


def judged(fields):
    """The record, or the reason's number."""
    if fields is None:
        return 2
    if len(fields) != 12:
        return 3
    row = {name: field.decode("latin-1") for name, field in zip(NAMES, fields)}
    if row["kind"] not in KINDS:
        return 4
    kind = KINDS.index(row["kind"])
    if any((row[name] != "") != (name in HAS[kind]) for name in NAMES):
        return 5
    numbers = {name: int(row[name]) for name in ("link", "item", "time", "value", "sequence", "ack", "active", "suspended", "known", "old")
               if re.fullmatch("0|-?[1-9][0-9]*", row[name], re.ASCII) and len(row[name]) < 20}
    event = EVENTS.index(row["event"]) if row["event"] in EVENTS else 3
    value = numbers.get("value", 0) % 2**32
    flags = (event << 4 | numbers.get("ack", 0) << 3 | numbers.get("active", 0) << 2 | numbers.get("suspended", 0) << 1,
             numbers.get("known", 0) << 5 | numbers.get("old", 0) << 4, 0)[kind]
    record = (numbers.get("link", 8), kind, numbers.get("item", 32), flags, numbers.get("time", LAST_TIME + 1), value, numbers.get("sequence", 2**31))
    if min(record) < 0 or not valid(record) or [row[name] for name in NAMES] != texts(record):
        return 6
    return record


def calls(text):
    """What each call gives: the answer, the line's own number, the next place and its line, the record's bytes."""
    fields, at = split(text, 0)
    if fields != [name.encode() for name in NAMES]:
        return [(1, 1, len(text), 1, bytes(16))]
    given, number = [], 2
    while at < len(text):
        start, own = at, number
        fields, at = split(text, at)
        found = judged(fields)
        number += text.count(b"\r\n", start, at) + (not text.endswith(b"\r\n", start, at))
        given.append((0, own, at, number, bytes_of(found)) if isinstance(found, tuple) else (found, own, at, number, bytes(16)))
    return given + [(7, number, at, number, bytes(16))]


def read(text):
    """The records' bytes, and (line, reason's number) of what is refused."""
    given = calls(text)
    return b"".join(record for answer, *_, record in given if answer == 0), [(own, answer) for answer, own, *_ in given if answer not in (0, 7)]


# Running the program.

def run(order, given):
    done = subprocess.run([PROGRAM, order], input=given, capture_output=True)
    return done.returncode, done.stdout, done.stderr.decode()


def agree(what, order, given, output, told):
    expected = (1 if told else 0, output, "".join(f"{line}\n" for line in told))
    got = run(order, given)
    if got != expected:
        sys.exit(f"rsmp-csv {order}: {what}:\n expected {str(expected)[:900]}\n got      {str(got)[:900]}\n for {given[:2000]!r}")


@functools.cache
def caller():
    """A program that calls rsmp_csv_read, and the folder that it is in."""
    room = tempfile.TemporaryDirectory()
    made = pathlib.Path(room.name) / "csvcalls"
    subprocess.run([ROOT / "build" / "tools" / "cc", "-std=c99", "-Wall", "-Wextra", "-Werror", "-O2", "-I", ROOT / "build", "-o", made,
                    ROOT / "tests" / "csvcalls.c", ROOT / "build" / "librsmp_csv.a"], check=True)
    return made, room


def agree_calls(what, text):
    said = subprocess.run([ROOT / "build" / "tools" / "run", caller()[0]], input=text, stdout=subprocess.PIPE, check=True).stdout.decode().splitlines()
    wanted = [f"{answer} {own} {at} {number} {record.hex()}" for answer, own, at, number, record in calls(text)]
    if said != wanted:
        sys.exit(f"rsmp_csv_read: {what}:\n expected {wanted[-3:]}\n got      {said[-3:]}\n for {text[:2000]!r}")


def agree_read(what, text):
    data, refused = read(text)
    agree(what, "records", text, data, [f"line {number}: {REASONS[reason]}" for number, reason in refused])
    return len(data) // 16, refused


def agree_written(what, records):
    """Lines and back, and the same rows by Python's csv."""
    text = HEADER + b"".join(map(line_of, records))
    agree(what, "lines", b"".join(map(bytes_of, records)), text, [])
    if list(csv.reader(io.StringIO(text.decode(), newline=""))) != [NAMES] + [texts(record) for record in records]:
        sys.exit(f"csvs.py: {what}: Python's csv reads other rows")
    if agree_read(what, text) != (len(records), []):
        sys.exit(f"csvs.py: {what}: not all is read back")
    return text


# Texts whose answers are written here: what is refused, as line and reason, and how many records are read.

OK = b"1,StatusUpdate,5,,,,,1,0,1254398371571,-2,7"
LINES = [(OK, "28 B0 00 92 07 FC 13 79 FF FF FF FF 00 00 00 07"),
         (b"0,Alarm,3,Issue,0,1,0,,,1254398371571,,7", "00 62 00 92 07 FC 13 79 80 00 00 00 00 00 00 07"),
         (b"7,AggregatedStatus,0,,,,,,,1254398371571,129,2147483647", "F0 00 00 92 07 FC 13 79 80 00 00 40 FF FF FF FF")]
LONGEST = b"5,StatusUpdate,31,,,,,1,1,253402300799999,-2147483648,2147483647"
WHOLE = [("an empty file", b"", [(1, 1)], 0), ("the header alone", HEADER[:-2], [], 0), ("LF alone", HEADER[:-2] + b"\n" + OK + b"\n", [(1, 1)], 0),
         ("a BOM", b"\xef\xbb\xbf" + HEADER + OK, [(1, 1)], 0), ("another header", HEADER.replace(b"ack", b"Ack") + OK, [(1, 1)], 0),
         ("a quoted header", b'"link"' + HEADER[4:] + OK, [], 1), ("a header with text behind a quote", b'"link"x' + HEADER[4:] + OK, [(1, 1)], 0),
         ("13 columns", HEADER[:-2] + b",\r\n" + OK, [(1, 1)], 0)]
BEHIND = [("no CRLF at the end", OK, [], 1), ("an empty line", b"\r\n" + OK, [(2, 3)], 1), ("an empty last line", OK + b"\r\n\r\n", [(3, 3)], 1),
          ("quoted fields", b'1,"StatusUpdate",5,"","",,,1,0,"1254398371571",-2,7\r\n', [], 1), ("a quote inside", b'1,Status"Update,5\r\n' + OK, [(2, 2)], 1),
          ("text behind a quote", b'1,"Alarm"x,5\r\n' + OK, [(2, 2)], 1), ("a quote not closed", b'1,"Alarm,5\r\n' + OK + b"\r\n", [(2, 2)], 0),
          ("a quote not closed behind two", b'"a""\r\n' + OK, [(2, 2)], 0), ("a lone quote", b'"', [(2, 2)], 0), ("an empty quoted field", b'""', [(2, 3)], 0),
          ("13 fields and no kind", b"1,Status,5,,,,,1,0,1,2,7,8\r\n", [(2, 3)], 0), ("70,000 fields", b"," * 69_999 + b"\r\n" + OK, [(2, 3)], 1),
          ("no kind", b"1,status,5,x,,,,1,0,1,2,7", [(2, 4)], 0), ("a status's event", b"9,StatusUpdate,05,Issue,,,,1,0,1,2,7", [(2, 5)], 0),
          ("an alarm's value", b"0,Alarm,3,Issue,0,1,0,,,1,0,7", [(2, 5)], 0), ("no item", b"0,AggregatedStatus,,,,,,,,1,0,7", [(2, 5)], 0),
          ("no value", b"0,StatusUpdate,1,,,,,0,0,1,,7", [(2, 5)], 0), ("another item", b"0,AggregatedStatus,1,,,,,,,1,0,7", [(2, 6)], 0),
          ("an unknown value", b"0,StatusUpdate,1,,,,,0,0,1,5,7", [(2, 6)], 0), ("link 8", b"8,StatusUpdate,1,,,,,1,0,1,5,7", [(2, 6)], 0),
          ("item 32", b"0,StatusUpdate,32,,,,,1,0,1,5,7", [(2, 6)], 0), ("a leading zero", b"0,StatusUpdate,1,,,,,1,0,01,5,7", [(2, 6)], 0),
          ("minus zero", b"0,StatusUpdate,1,,,,,1,0,1,-0,7", [(2, 6)], 0), ("a plus", b"0,StatusUpdate,1,,,,,1,0,1,+5,7", [(2, 6)], 0),
          ("a space", b"0,StatusUpdate, 1,,,,,1,0,1,5,7", [(2, 6)], 0), ("33 bits", b"0,StatusUpdate,1,,,,,1,0,1,4294967295,7", [(2, 6)], 0),
          ("past 31 bits", b"0,StatusUpdate,1,,,,,1,0,1,2147483648,7", [(2, 6)], 0), ("a late sequence", b"0,StatusUpdate,1,,,,,1,0,1,5,2147483648", [(2, 6)], 0),
          ("a time past 9999", b"0,StatusUpdate,1,,,,,1,0,253402300800000,5,7", [(2, 6)], 0), ("2 for a flag", b"0,StatusUpdate,1,,,,,2,0,1,5,7", [(2, 6)], 0),
          ("a time past 64 bits", b"0,StatusUpdate,1,,,,,1,0,18446744073709551617,5,7", [(2, 6)], 0), ("a doubled quote", b'0,StatusUpdate,1,,,,,"1""",0,1,5,7', [(2, 6)], 0),
          ("a line break in quotes", b'0,"Status\r\nUpdate",1,,,,,1,0,1,5,7\r\n' + OK + b"\r\nx", [(2, 4), (5, 3)], 1),
          ("a record in quotes", b'"' + OK + b"\r\n" + OK + b'"\r\n' + OK, [(2, 3)], 1), ("LF in a line", OK + b"\n" + OK, [(2, 3)], 0),
          ("CR at the end", OK + b"\r", [(2, 6)], 0)]


def some_record(source):
    kind = source.randrange(3)
    flags = (source.randrange(3) << 4 | source.randrange(8) << 1, source.randrange(4) << 4, 0)[kind]
    value = (0, source.choice((0, 1, 2**31 - 1, 2**31, 2**32 - 1, source.randrange(2**32))) if flags >= 32 else 0, source.randrange(256))[kind]
    return (source.randrange(8), kind, 0 if kind == 2 else source.choice((0, 9, 10, 31, source.randrange(32))), flags,
            source.choice((0, LAST_TIME, source.randrange(LAST_TIME))), value, source.choice((0, LAST_SEQUENCE, source.randrange(LAST_SEQUENCE))))


def stored():
    for line, data in LINES:
        agree("a line", "lines", bytes.fromhex(data), HEADER + line + b"\r\n", [])
        agree("a line", "records", HEADER + line, bytes.fromhex(data), [])
    limits = [(link, kind, item, flags, time, value, sequence) for link in (0, 7) for kind, item, flags, value in
              [(0, i, f << 1, 0) for i in (0, 31) for f in range(24)] + [(1, i, f << 4, v if f >= 2 else 0) for i in (0, 31) for f in range(4)
               for v in (0, 2**31 - 1, 2**31, 2**32 - 1)] + [(2, 0, 0, v) for v in (0, 255)] for time in (0, LAST_TIME) for sequence in (0, LAST_SEQUENCE)]
    text = agree_written("every kind at its limits", limits)
    if max(map(len, text.splitlines(keepends=True)[1:])) != 66 or LONGEST + b"\r\n" not in agree_written("the longest", [(5, 1, 31, 48, LAST_TIME, 2**31, LAST_SEQUENCE)]):
        sys.exit("csvs.py: the longest line has not 66 bytes")
    for what, text, refused, count in WHOLE + [(what, HEADER + text, refused, count) for what, text, refused, count in BEHIND]:
        if agree_read(what, text) != (count, refused):
            sys.exit(f"csvs.py: {what}: this script answers {agree_read(what, text)}")
        agree_calls(what, text)
    source, bad = random.Random(12), 0
    for _ in range(200):
        data = bytearray(bytes_of(some_record(source)))
        data[source.randrange(16)] ^= 1 << source.randrange(8)
        bad += not valid(record_of(data))
        agree("other bytes", "lines", bytes(data), HEADER + (line_of(record_of(data)) if valid(record_of(data)) else b""),
              [] if valid(record_of(data)) else ["record 1: not accepted"])
    agree("a short rest", "lines", bytes.fromhex(LINES[0][1]) + b"\0" * 15, HEADER + OK + b"\r\n", ["record 2: shorter than 16 bytes"])
    print(f"rsmp-csv: {len(LINES)} lines by their bytes, {len(limits)} records at the limits, {len(WHOLE) + len(BEHIND)} texts, {bad} of 200 patterns refused")


def rewritten(source, line):
    """A line quoted, damaged or cut."""
    fields = line[:-2].split(b",")
    kind = source.randrange(6)
    if kind == 0:
        return b",".join(b'"' + field + b'"' if source.random() < 0.5 else field for field in fields) + b"\r\n"
    if kind == 1:
        at = source.randrange(len(fields))
        fields[at] = source.choice((b"", b"0", b"00", b"-1", b" 1", b'"a,b"', b'"\r\n"', b'""', b"Alarm", b"99999999999999999999", b"2", fields[at] + b"0", b"0" + fields[at]))
        return b",".join(fields) + b"\r\n"
    if kind == 2:
        damaged = bytearray(line)
        for _ in range(source.randint(1, 3)):
            damaged[source.randrange(len(damaged))] = source.choice(b'",\r\n 0-9Az\x00\xff')
        return bytes(damaged)
    if kind == 3:
        return line[:source.randrange(len(line))] + source.choice((b"", b"\r\n"))
    if kind == 4:
        at = source.randrange(len(line))
        return line[:at] + source.choice((b'"', b",", b"\r", b"\n", b"\r\n", b'""')) + line[at:]
    return line


def fresh(seed):
    print(f"rsmp-csv: seed {seed}")
    source = random.Random(seed)
    accepted, refused = 0, dict.fromkeys(REASONS, 0)
    for turn in range(500):
        what = f"turn {turn} of seed {seed}"
        records = [some_record(source) for _ in range(200)]
        text = agree_written(what, records)
        for quoting in (csv.QUOTE_ALL, csv.QUOTE_NONNUMERIC):
            whole = io.StringIO()
            csv.writer(whole, quoting=quoting).writerows([NAMES] + [texts(record) for record in records])
            if turn < 50 and agree_read(what, whole.getvalue().encode()) != (len(records), []):
                sys.exit(f"csvs.py: {what}: not all that Python's csv writes is read")
        damaged = HEADER + b"".join(rewritten(source, line_of(record)) for record in records)
        for one in (damaged, damaged[:source.randrange(len(damaged))], text[:source.randrange(len(text))]):
            if turn < 100:
                agree_calls(what, one)
            count, told = agree_read(what, one)
            accepted += count
            for _, reason in told:
                refused[reason] += 1
    if not all(refused.values()):
        sys.exit(f"csvs.py: seed {seed} met not every reason: {refused}")
    print(f"rsmp-csv: {accepted} damaged lines accepted, {sum(refused.values())} refused, by reason {list(refused.values())}")


if __name__ == "__main__":
    sys.exit(stored_or_fresh(stored, fresh, __doc__))
