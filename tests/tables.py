"""Site tables, good, at their limits and damaged, and lookups in them, with the answers of the reader in tests/model/table.py.

  tables.py --write     writes the stored cases and answers of the program `run_tables`
  tables.py --stored    checks that the stored ones are what this script makes
  tables.py --fresh [SEED]   runs random tables, damaged ones and longer sweeps through the program
"""
import random
import sys

import cases
from cases import case
from model.table import ALPHABET, Refused, Table, read

LETTERS = bytes(sorted(ALPHABET))
MOST_COMPONENTS, MOST_ROWS, MOST_COMMANDS, LONGEST = 8, 32, 16, 32
PARTS = ("components", "alarms", "statuses")
EVERY_PART = (*PARTS, "commands")


# A table's texts in the order of its bytes.

def texts(t):
    return [t.site, t.sxl, *t.components, *(row[3] for row in t.alarms), *(text for row in (*t.statuses, *t.commands) for text in row[1:3])]


def with_texts(t, given):
    given = iter(given)
    site, sxl = next(given), next(given)
    components = [next(given) for _ in t.components]
    alarms = [(*row[:3], next(given)) for row in t.alarms]
    statuses = [(row[0], next(given), next(given)) for row in t.statuses]
    return Table(site, sxl, components, alarms, statuses, [(row[0], next(given), next(given), *row[3:]) for row in t.commands], t.edition)


def with_text(t, number, text):
    given = texts(t)
    given[number] = text
    return with_texts(t, given)


def length_places(t):
    """Where each text's length byte stands."""
    at = 2 + t.edition
    rows = [0] * (2 + len(t.components)) + [1] * len(t.alarms) + [1, 0] * len(t.statuses) + [1, 0, 5, 0] * len(t.commands)
    for row, text in zip(rows, texts(t)):
        yield at + row
        at += row + 1 + len(text)


def changed(t, part, rows):
    return Table(**{**vars(t), part: rows})


def replaced(t, part, at, row):
    rows = getattr(t, part)
    return changed(t, part, rows[:at] + [row] + rows[at + 1:])


def with_byte(data, at, byte):
    return data[:at] + bytes([byte]) + data[at + 1:]


def with_bit(data, bit):
    return with_byte(data, bit // 8, data[bit // 8] ^ 0x80 >> bit % 8)


class Run:
    """Tables one after the other and lookups in the last one: cases and the reader's answers."""

    def __init__(self):
        self.pairs, self.table = [], None

    def say(self, kind, body, answer):
        self.pairs.append((case(kind, body), answer.encode("ascii") + b"\n"))

    def any(self, data):
        """Any bytes as a table."""
        try:
            self.table = read(data)
        except Refused:
            self.table = None
        self.say("t", data, self.shown())

    def good(self, t):
        self.any(t.bytes())
        assert self.table is not None and vars(self.table) == vars(t), "the reader refused or changed a good table"

    def good_bytes(self, data):
        self.any(data)
        assert self.table is not None, "the reader refused a good table"

    def bad(self, t):
        self.any(t if isinstance(t, bytes) else t.bytes())
        assert self.table is None, "the reader accepted a bad table"

    def shown(self):
        t = self.table
        if t is None:
            return "11"
        rows = [(row[0], row[1], row[2], row[3].hex(), "") for row in t.alarms]
        rows += [(row[0], 0, 0, row[1].hex(), row[2].hex()) for row in t.statuses]
        words = [*(len(getattr(t, part)) for part in PARTS), *(text.hex() for text in (t.site, t.sxl, *t.components))]
        rows += [(row[0], row[1].hex(), row[2].hex(), row[3] % 2**16, row[4] % 2**16) for row in t.commands]
        return "".join(f"{word} " for word in words + [word for row in rows for word in row])

    def place(self, rows, row):
        return str(rows.index(row)) if row in rows else "-"

    def component(self, id_):
        self.say("c", id_, self.place(self.table.components if self.table else [], id_))

    def alarm(self, component, code):
        rows = [(row[0], row[3]) for row in self.table.alarms] if self.table else []
        self.say("a", bytes([component]) + code, self.place(rows, (component, code)))

    def status(self, component, code, name):
        rows = self.table.statuses if self.table else []
        self.say("s", bytes([component, len(code)]) + code + name, self.place(rows, (component, code, name)))

    def look(self, t):
        """All that the table has, whether the last one read or not."""
        for id_ in t.components:
            self.component(id_)
        for component, _, _, code in t.alarms:
            self.alarm(component, code)
        for row in t.statuses:
            self.status(*row)

    def look_beside(self, t):
        """What is nearly in the table."""
        for id_ in t.components:
            for other in beside(id_):
                self.component(other)
        for component, _, _, code in t.alarms:
            for other in beside(code):
                self.alarm(component, other)
            for number in (component ^ 1, component + 8, component + 32, 255):
                self.alarm(number, code)
        for component, code, name in t.statuses:
            for other in beside(code):
                self.status(component, other, name)
            for other in beside(name):
                self.status(component, code, other)
            for number in (component ^ 1, component + 8, component + 32, 255):
                self.status(number, code, name)
            self.status(component, name, code)
            self.status(component, code + name[:1], name[1:])


def beside(text):
    return text[:-1], text + b" ", text + b"\0", text[1:], text.swapcase(), text[:-1] + bytes([text[-1] ^ 1]), text + text


# The tables that are swept.

def text_of(number, size):
    """A text of this size; two numbers below 93 * 93 give two texts where the size is 2 or more."""
    return bytes([LETTERS[number % 93], LETTERS[number // 93 % 93]] + [LETTERS[(number + i) % 93] for i in range(size)])[:size]


def of_size(components, alarms, statuses, size, commands=0, edition=None):
    """So many of each, no two texts the same where there are two bytes for it."""
    numbers = max(1, min(MOST_COMPONENTS, components))
    return Table(text_of(90, size), text_of(91, size), [text_of(i, size) for i in range(components)],
                 [(i % numbers, i % 3 + 1, i // 3 % 2, text_of(100 + i, size)) for i in range(alarms)],
                 [(i % numbers, text_of(200 + i, size), text_of(300 + i, size)) for i in range(statuses)],
                 [(i % numbers, text_of(400 + i, size), text_of(500 + i, size), -2**15 + i, 2**15 - 1 - i) for i in range(commands)], edition)


SMALLEST = Table(b"s", b"1", [b"c"], [], [])
ONES = Table(b"s", b"1", [b"c"], [(0, 2, 1, b"x")], [(0, b"p", b"q")])
SMALL = Table(b"S1", b"1.0", [b"A", b"Bc"], [(0, 1, 0, b"x"), (1, 3, 1, b"y2")], [(0, b"p", b"q"), (1, b"p", b"rs")])
BARRIER = Table(b"AB+84001=860BA000", b"1.0.13", [b"AB+84001=860BA001", b"AB+84001=860BA002", b"AB+84001=860BA003"],
                [(0, 1, 1, b"A0001"), (0, 3, 0, b"A0002"), (1, 2, 1, b"A0001"), (2, 2, 0, b"A0003")],
                [(0, b"S0001", b"position"), (0, b"S0001", b"moves"), (1, b"S0001", b"position"), (1, b"S0002", b"temp. (C)"),
                 (2, b"S0001", b"position")])
MANY = of_size(MOST_COMPONENTS, MOST_ROWS, MOST_ROWS, 2)
SURPLUS = changed(of_size(1, 63, 63, 2), "components", of_size(15, 0, 0, 2).components)
LARGEST = of_size(MOST_COMPONENTS, MOST_ROWS, MOST_ROWS, LONGEST)

# Of edition 2.
SMALLEST_2 = Table(b"s", b"1", [b"c"], [], [], edition=2)
SMALL_2 = Table(b"S1", b"1.0", [b"A", b"Bc"], [(1, 3, 1, b"y2")], [(0, b"p", b"q")], [(1, b"m", b"n", -2, 258), (0, b"m2", b"n", 0, 0)])
LARGEST_2 = of_size(MOST_COMPONENTS, MOST_ROWS, MOST_ROWS, LONGEST, MOST_COMMANDS)
MANY_2 = of_size(MOST_COMPONENTS, MOST_ROWS, MOST_ROWS, 2, MOST_COMMANDS)
COMMAND = 0, b"m", b"n"


def longer_lookups(run, t):
    """The last of each with a byte more: of the longest texts, longer than any text may be."""
    component, _, _, code = t.alarms[-1]
    run.component(t.components[-1] + b"x")
    run.alarm(component, code + b"x")
    component, code, name = t.statuses[-1]
    run.status(component, code + b"x", name)
    run.status(component, code, name + b"x")


def whole(run):
    """Good tables and what is in them, and the largest ones spoilt at the very end."""
    for t in (SMALLEST, SMALL, BARRIER, LARGEST, MANY):
        run.good(t)
        run.look(t)
    run.good(LARGEST)
    longer_lookups(run, LARGEST)
    data = LARGEST.bytes()
    for spoilt in (data[:-1], data + b" ", with_byte(data, len(data) - 1, 0x7F), with_byte(data, len(data) - 33, 33) + b"x",
                   with_byte(data, len(data) - 33, 31)):
        run.bad(spoilt)
    run.look(SMALL)
    for t in (SMALL, BARRIER):
        run.good(t)
        run.look_beside(t)
        run.look(LARGEST if t is SMALL else SMALL)


def second(run):
    """Edition 2: good tables, its head, cuts, each row and each limit, and what either edition's bytes are under the other's head."""
    for t in (SMALLEST_2, SMALL_2, LARGEST_2, MANY_2):
        run.good(t)
        run.look(t)
    data = LARGEST_2.bytes()
    assert len(data) == 4702
    for spoilt in (data[:-1], data + b"\0", with_byte(data, len(data) - 38, 33) + b"x", with_byte(data, len(data) - 38, 31)):
        run.bad(spoilt)
    for t in (SMALLEST_2, SMALL_2, MANY_2):
        for bit in range(32):
            run.any(with_bit(t.bytes(), bit))
    for edition in range(16):
        (run.good_bytes if edition == 2 else run.bad)(with_byte(SMALL_2.bytes(), 0, 16 * edition + len(SMALL_2.components)))
    for count in range(32):
        (run.good if count <= MOST_COMMANDS else run.bad)(of_size(2, 1, 1, 2, count, 2))
        if count:
            run.bad(of_size(2, 1, 1, 2, count, 1))
    for t in (SMALL, BARRIER, SMALL_2):
        other, first = Table(**{**vars(t), "edition": 3 - t.edition, "commands": []}).bytes(), t.bytes()
        run.good_bytes(other)
        for spoilt in (first[:1] + other[1:], other[:1] + first[1:], first[:3] + other[4:], other[:4] + first[3:], first + SMALL_2.bytes()[-10:]):
            run.any(spoilt)
    for bit in range(8 * len(SMALL_2.bytes())):
        run.any(with_bit(SMALL_2.bytes(), bit))
    all_cuts(run, SMALL_2.bytes())
    for number, _ in enumerate(length_places(SMALL_2)):
        for length in (0, 1, 32, 33, 255):
            (run.good if 1 <= length <= LONGEST else run.bad)(with_text(SMALL_2, number, text_of(600 + number, length)))
    one = Table(b"s", b"1", [b"c"], [], [], [(*COMMAND, 0, 0)])
    for byte in range(256):
        run.any(with_byte(one.bytes(), len(one.bytes()) - 9, byte))
    for count in range(1, MOST_COMPONENTS + 1):
        for component in range(8):
            ids = [text_of(i, 1) for i in range(count)]
            (run.good if component < count else run.bad)(Table(b"s", b"1", ids, [], [], [(component, b"m", b"n", 0, 1)]))
    ends = (-2**15, -2**15 + 1, -257, -256, -2, -1, 0, 1, 2, 255, 256, 257, 2**15 - 2, 2**15 - 1)
    for lowest in ends:
        for highest in ends:
            (run.good if lowest <= highest else run.bad)(Table(b"s", b"1", [b"c"], [], [], [(*COMMAND, lowest, highest)]))
    last = MOST_COMMANDS - 1
    for at, source in [(at, 0) for at in range(1, last + 1)] + [(last, source) for source in range(1, last)]:
        run.bad(replaced(MANY_2, "commands", at, (*MANY_2.commands[source][:3], -1, 1)))
    for other in ((1, b"m", b"n", 0, 0), (0, b"m", b"N", 0, 0), (0, b"M", b"n", 0, 0), (0, b"n", b"m", 0, 0), (0, b"mn", b"n", 0, 0), (0, b"m", b"nn", 0, 0)):
        run.good(Table(b"s", b"1", [b"c", b"d"], [(0, 1, 0, b"m")], [COMMAND], [(*COMMAND, 0, 0), other]))


def heads(run):
    """Every bit of the head, every edition, and each count from none to all that its bits can say, with as many rows."""
    for t in (SMALLEST, SMALL, BARRIER, MANY):
        for bit in range(24):
            run.any(with_bit(t.bytes(), bit))
    for edition in range(16):
        (run.any if edition == 1 else run.bad)(with_byte(SMALL.bytes(), 0, 16 * edition + len(SMALL.components)))
    for count in range(16):
        for t in (of_size(count, 0, 0, 2), of_size(count, 1, 1, 2)):
            (run.good if 1 <= count <= MOST_COMPONENTS else run.bad)(t)
    for count in range(64):
        for t in (of_size(1, count, 0, 2), of_size(1, 0, count, 2)):
            (run.good if count <= MOST_ROWS else run.bad)(t)


def bits(run):
    """Every bit of a small table."""
    for bit in range(8 * len(SMALL.bytes())):
        run.any(with_bit(SMALL.bytes(), bit))


def all_cuts(run, data):
    for end in range(len(data)):
        run.bad(data[:end])


def cuts(run, t):
    """Every cut, and bytes left over."""
    data = t.bytes()
    all_cuts(run, data)
    for rest in (b"\0", b"\x01", b" ", b"\n", b"\xFF", b"\0\0", data):
        run.bad(data + rest)


def past(run):
    """Tables with so many zeros left over, and zeros alone, about the length that no table has."""
    for data, length in ((b"", 4096), (SMALL.bytes(), 4096), (SMALL.bytes(), 4097), (LARGEST.bytes(), 4095), (LARGEST_2.bytes(), 4703),
                         (SMALL_2.bytes(), 4702), (LARGEST_2.bytes(), 8191)):
        run.bad(data + bytes(length - len(data)))


def lengths(run):
    """Each length byte at its limits: over the same bytes, and with as many bytes behind it."""
    data = SMALL.bytes()
    for number, at in enumerate(length_places(SMALL)):
        assert data[at] == len(texts(SMALL)[number])
        for length in (0, 1, 32, 33, 255):
            run.any(with_byte(data, at, length))
            (run.good if 1 <= length <= LONGEST else run.bad)(with_text(SMALL, number, text_of(500 + number, length)))


def first_bytes(run):
    """A row's first byte at every value, and each component number beside each count of components."""
    for t in (changed(ONES, "statuses", []), changed(ONES, "alarms", [])):
        for byte in range(256):
            run.any(with_byte(t.bytes(), 9, byte))
    for count in range(1, MOST_COMPONENTS + 1):
        for component in range(8):
            judge = run.good if component < count else run.bad
            ids = [text_of(i, 1) for i in range(count)]
            judge(Table(b"s", b"1", ids, [(component, 2, 1, b"x")], []))
            judge(Table(b"s", b"1", ids, [], [(component, b"x", b"y")]))


def letters(run):
    """Every byte in every text, first, within or last."""
    for number in range(len(texts(ONES))):
        for byte in range(256):
            text = with_byte(b"abc", (byte + number) % 3, byte)
            (run.good if byte in ALPHABET else run.bad)(with_text(ONES, number, text))


def doubled(t, part, at, source):
    """The table with what stands at one place also at another; an alarm with other priority and category."""
    row = getattr(t, part)[source]
    if part == "alarms":
        row = (row[0], row[1] % 3 + 1, 1 - row[2], row[3])
    return replaced(t, part, at, row)


def doubles(run):
    """The same component id, alarm or status in two places, the first or the last of them among these."""
    for part in PARTS:
        last = len(getattr(MANY, part)) - 1
        for at in range(1, last + 1):
            run.bad(doubled(MANY, part, at, 0))
        for source in range(1, last):
            run.bad(doubled(MANY, part, last, source))


def near_doubles(run):
    """Component ids, alarms and statuses that are only nearly the same."""
    two = [b"c", b"d"]
    for alarms in ([(0, 1, 0, b"x"), (1, 1, 0, b"x")], [(0, 1, 0, b"x"), (0, 1, 0, b"X")], [(0, 1, 0, b"x"), (0, 1, 0, b"xx")]):
        run.good(Table(b"s", b"1", two, alarms, [(0, b"x", b"x")]))
    for other in ((1, b"x", b"y"), (0, b"x", b"z"), (0, b"z", b"y"), (0, b"y", b"x"), (0, b"xy", b"y"), (0, b"x", b"yy")):
        run.good(Table(b"s", b"1", two, [], [(0, b"x", b"y"), other]))
        run.look(run.table)
    run.good(Table(b"s", b"1", two, [], [(0, b"ab", b"c"), (0, b"a", b"bc")]))
    run.look(run.table)
    run.good(Table(b"c", b"c", [b"c", b"C", b"cc", b"c "], [(0, 1, 0, b"c")], [(0, b"c", b"c")]))
    run.look_beside(run.table)


# Random tables.

SHORT, USUAL, LONG = (1, 1, 2), (1, 4, 8, 17), (31, 32)


def random_text(source, sizes):
    letters_ = source.choice((b"ab", b"aAbB ", LETTERS, LETTERS))
    return bytes(source.choice(letters_) for _ in range(source.choice(sizes)))


def few(source, low, high):
    return source.choice((low, low + 1, high, source.randint(low, high), source.randint(low, 5), source.randint(low, 5)))


def random_table(source, most_rows=MOST_ROWS):
    """A table that is good unless it has something twice, which is mostly dropped from it."""
    sizes = source.choice((SHORT, SHORT, USUAL, USUAL, LONG))

    def text():
        return random_text(source, sizes)

    count = few(source, 1, MOST_COMPONENTS)
    ids = [text() for _ in range(count)]
    alarms, statuses = range(few(source, 0, most_rows)), range(few(source, 0, most_rows))
    alarms = [(source.randrange(count), source.randint(1, 3), source.randrange(2), text()) for _ in alarms]
    statuses = [(source.randrange(count), text(), text()) for _ in statuses]
    edition = source.choice((1, 2))
    commands = range(few(source, 0, min(most_rows, MOST_COMMANDS)) if edition == 2 else 0)
    commands = [(source.randrange(count), text(), text(), *random_limits(source)) for _ in commands]
    if source.random() < 0.9:
        ids = list(dict.fromkeys(ids))
        alarms = [row for row in {(row[0], row[3]): row for row in alarms}.values() if row[0] < len(ids)]
        statuses = [row for row in dict.fromkeys(statuses) if row[0] < len(ids)]
        commands = [row for row in {row[:3]: row for row in commands}.values() if row[0] < len(ids)]
    return Table(text(), text(), ids, alarms, statuses, commands, edition)


def random_limits(source):
    one, other = (source.choice((-2**15, -1, 0, 1, 2**15 - 1, source.randrange(-2**15, 2**15))) for _ in range(2))
    return (one, other) if source.random() < 0.02 else (min(one, other), max(one, other))


BYTES = (0, 1, 31, 32, 33, 34, 92, 126, 127, 128, 255)


def bruised(source, data):
    """The bytes with one to three of them changed, dropped or put in, or a piece moved."""
    for _ in range(source.choice((1, 1, 1, 2, 3))):
        at = source.randrange(len(data) + 1)
        way = source.randrange(6)
        if way == 0 and at < len(data):
            data = with_bit(data, 8 * at + source.randrange(8))
        elif way == 1 and at < len(data):
            data = with_byte(data, at, source.choice(BYTES))
        elif way == 2:
            data = data[:at] + data[at + 1:]
        elif way == 3:
            data = data[:at] + bytes([source.choice(BYTES)]) + data[at:]
        elif way == 4:
            data = data[:at]
        else:
            data = data[:4] + data[max(4, at):] + data[4:at]
        if not data:
            break
    return data


def wrong_text(source, t):
    number = source.randrange(len(texts(t)))
    other = random_text(source, (0, 1, 31, 32, 33, 34, 255))
    return with_text(t, number, source.choice((other, texts(t)[number] + bytes([source.choice(BYTES)]))))


def wrong_double(source, t):
    part = source.choice([part for part in EVERY_PART if getattr(t, part)])
    count = len(getattr(t, part))
    return doubled(t, part, source.randrange(count), source.randrange(count))


def wrong_count(source, t):
    part = source.choice(PARTS)
    return changed(t, part, getattr(SURPLUS, part)[:source.choice((0, 1, 7, 8, 9, 15, 31, 32, 33, 63))])


def wrong_alarm(source, t):
    if not t.alarms:
        return t
    at = source.randrange(len(t.alarms))
    component, _, category, code = t.alarms[at]
    return replaced(t, "alarms", at, (source.choice((component, source.randrange(8))), source.randrange(4), category, code))


def wrong_status(source, t):
    if not t.statuses:
        return t
    at = source.randrange(len(t.statuses))
    return replaced(t, "statuses", at, (source.randrange(8), *t.statuses[at][1:]))


def wrong_command(source, t):
    if not t.commands:
        return t
    at = source.randrange(len(t.commands))
    row = t.commands[at]
    limits = source.choice((row[3:], row[:2:-1], random_limits(source)))
    return replaced(t, "commands", at, (source.choice((row[0], source.randrange(8))), *row[1:3], *limits))


def wrong_edition(source, t):
    return Table(**{**vars(t), "edition": source.choice((3 - t.edition, 3, 15))})


def wronged(source, t):
    """The table with one thing that is not allowed, or only just."""
    ways = wrong_text, wrong_double, wrong_count, wrong_alarm, wrong_status, wrong_command, wrong_command, wrong_edition
    return source.choice(ways)(source, t)


def some_lookups(run, source, t):
    for id_ in source.sample(t.components, min(2, len(t.components))):
        run.component(id_)
        run.component(source.choice(beside(id_)))
    for component, _, _, code in source.sample(t.alarms, min(2, len(t.alarms))):
        run.alarm(component, code)
        run.alarm(source.randrange(9), source.choice((code, *beside(code))))
    for component, code, name in source.sample(t.statuses, min(2, len(t.statuses))):
        run.status(component, code, name)
        run.status(source.randrange(9), code, source.choice((name, *beside(name))))


def at_random(run, source, count, most_rows=MOST_ROWS):
    for _ in range(count):
        t = random_table(source, most_rows)
        run.any(t.bytes())
        some_lookups(run, source, t)
        run.any(bruised(source, t.bytes()))
        run.any(wronged(source, t).bytes())
        some_lookups(run, source, t)


def every_byte(run):
    """Every byte of a small table at every value."""
    for data in (SMALL.bytes(), SMALL_2.bytes()):
        for at in range(len(data)):
            for byte in range(256):
                run.any(with_byte(data, at, byte))


def some_doubles(run, source, count):
    for _ in range(count):
        part = source.choice(PARTS)
        at, other = source.sample(range(len(getattr(MANY, part))), 2)
        run.bad(doubled(MANY, part, at, other))


def stored_pairs():
    run = Run()
    whole(run)
    heads(run)
    bits(run)
    cuts(run, SMALL)
    cuts(run, BARRIER)
    past(run)
    lengths(run)
    first_bytes(run)
    letters(run)
    doubles(run)
    near_doubles(run)
    at_random(run, random.Random(6), 50, 4)
    second(run)
    return run.pairs


def fresh_pairs(source):
    run = Run()
    at_random(run, source, 1000)
    every_byte(run)
    some_doubles(run, source, 200)
    for _ in range(4):
        all_cuts(run, random_table(source, 6).bytes())
    return run.pairs


def fresh(source):
    yield "random and damaged tables, and lookups", fresh_pairs(source)


if __name__ == "__main__":
    sys.exit(cases.script("run_tables", stored_pairs, fresh, __doc__))
