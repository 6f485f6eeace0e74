"""Site tables as text and as bits, by the program `rsmp-table` and by the reader in tests/model/table.py.

  tabletexts.py --stored    checks the example table, the messages for wrong lines and for wrong bits
  tabletexts.py --fresh [SEED]   runs random tables, written in many ways, and damaged bits through the program
"""
import pathlib
import random
import shlex
import subprocess
import sys
import tempfile

from cases import ROOT, stored_or_fresh
from lives import some_table
from model import table
from tables import with_bit, with_byte

PROGRAM = ROOT / "build" / "rsmp-table"
EXAMPLE, COMMANDS = ROOT / "examples" / "barrier.txt", ROOT / "examples" / "commands.txt"
CATEGORIES = "TD"


def run(*words, given=b""):
    done = subprocess.run([PROGRAM, *words], input=given, capture_output=True)
    return done.returncode, done.stdout, done.stderr.decode()


def hold(good, what):
    if not good:
        sys.exit(f"rsmp-table: {what}")


def words_of(line):
    """The words of a text's line, by Python's own splitting."""
    reader = shlex.shlex(line, posix=True)
    reader.whitespace_split, reader.quotes, reader.escape, reader.commenters = True, '"', "", "#"
    return list(reader)


def table_of(text):
    """The table that a good text says."""
    rows = {"site": [], "sxl": [], "component": [], "alarm": [], "status": [], "command": [], "edition": []}
    for line in text.splitlines():
        words = words_of(line)
        if words:
            rows[words[0]].append([word.encode() for word in words[1:]])
    ids = [row[0] for row in rows["component"]]
    alarms = [(ids.index(id_), int(priority), CATEGORIES.index(category.decode()), code) for id_, code, category, priority in rows["alarm"]]
    commands = [(ids.index(id_), code, name, int(lowest), int(highest)) for id_, code, name, lowest, highest in rows["command"]]
    edition = int(rows["edition"][0][0]) if rows["edition"] else None
    return table.Table(rows["site"][0][0], rows["sxl"][0][0], ids, alarms, [(ids.index(id_), code, name) for id_, code, name in rows["status"]],
                       commands, edition)


def text_of(source, made):
    """A text of the table, with quotes, comments and spaces as they come."""
    def word(label):
        plain = label.decode()
        return f'"{plain}"' if set(plain) & set(" #") or source.random() < 0.2 else plain

    def line(*words):
        between = source.choice((" ", "  ", "\t"))
        return source.choice(("", "", " ")) + between.join(words) + source.choice(("", "", " ", " # said", "# \"said", "\r"))

    rest = [line("component", word(id_)) for id_ in made.components]
    alarms = [line("alarm", word(made.components[row[0]]), word(row[3]), CATEGORIES[row[2]], str(row[1])) for row in made.alarms]
    statuses = [line("status", word(made.components[row[0]]), word(row[1]), word(row[2])) for row in made.statuses]
    commands = [line("command", word(made.components[row[0]]), word(row[1]), word(row[2]), *map(str, row[3:])) for row in made.commands]
    while alarms or statuses or commands:
        rest.append(source.choice([rows for rows in (alarms, statuses, commands) if rows]).pop(0))
    heads = [line("site", word(made.site)), line("sxl", word(made.sxl))]
    if (made.edition == 2) != bool(made.commands) or source.random() < 0.2:
        heads.append(line("edition", str(made.edition)))
    for head in heads:
        rest.insert(source.randint(0, len(rest)), head)
    for _ in range(source.randrange(3)):
        rest.insert(source.randint(0, len(rest)), source.choice(("", "  ", "# a comment", "#")))
    return "\n".join(rest) + source.choice(("", "\n"))


GOOD = ["site S", "sxl 1", "component C", "alarm C A D 1", "status C S n"]
WRONG_LINES = (
    (["sites S"], 1, "begins with site, sxl, component, alarm, status, command or edition"),
    (["site"], 1, "1 words where 2 are wanted: site SITEID"),
    (["site a b"], 1, "3 words where 2 are wanted"),
    (['site "a'], 1, "quote is not closed"),
    (['site a"b'], 1, "a quote inside a word"),
    (['site "a"b'], 1, "a quote inside a word"),
    (['site ""'], 1, "the site id is empty"),
    (["site " + "x" * 33], 1, "is 33 characters long"),
    (["site a\\b"], 1, "has a byte 0x5C"),
    (["site \xe5"], 1, "has a byte 0xC3"),
    (["site a\x7f"], 1, "has a byte 0x7F"),
    (GOOD + ["site S"], 6, "a second line `site`"),
    (GOOD + ["sxl 1"], 6, "a second line `sxl`"),
    (GOOD + ["component C"], 6, "component 'C' is there already"),
    (GOOD + [f"component {number}" for number in range(8)], 13, "more than 8 components"),
    (GOOD + ["alarm D A D 1"], 6, "no line above names the component 'D'"),
    (GOOD + ["alarm C B d 1"], 6, "the category is 'd', wanted T (traffic) or D (technical)"),
    (GOOD + ["alarm C B D 0"], 6, "the priority is '0', wanted 1, 2 or 3"),
    (GOOD + ["alarm C B D 4"], 6, "the priority is '4', wanted 1, 2 or 3"),
    (GOOD + ["alarm C A T 2"], 6, "has the code 'A' already, alarm 0"),
    (GOOD + [f"alarm C {number} D 1" for number in range(32)], 37, "more than 32 alarms"),
    (GOOD + ["status D S n"], 6, "no line above names the component 'D'"),
    (GOOD + ["status C S n"], 6, "has this code and name already, status 0"),
    (GOOD + [f"status C S {number}" for number in range(32)], 37, "more than 32 statuses"),
    (GOOD + ["command C M n 0"], 6, "5 words where 6 are wanted: command COMPONENT CODE NAME LOWEST HIGHEST"),
    (GOOD + ["command D M n 0 1"], 6, "no line above names the component 'D'"),
    (GOOD + ["command C M n 1 0"], 6, "the lowest value, 1, is above the highest, 0"),
    (GOOD + ["command C M n -32769 0"], 6, "the lowest value is '-32769', wanted -32768 to 32767"),
    (GOOD + ["command C M n 0 32768"], 6, "the highest value is '32768', wanted -32768 to 32767"),
    (GOOD + ["command C M n 0 +1"], 6, "the highest value is '+1', wanted"),
    (GOOD + ["command C M n low 1"], 6, "the lowest value is 'low', wanted"),
    (GOOD + ["command C M n 0 1", "command C M n 5 6"], 7, "has this code and name already, command 0"),
    (GOOD + [f"command C M {number} 0 1" for number in range(17)], 22, "more than 16 commands"),
    (GOOD + ["edition 3"], 6, "the edition is '3', wanted 1 or 2"),
    (GOOD + ["edition 2", "edition 2"], 7, "a second line `edition`"),
    (GOOD + ["edition 1", "command C M n 0 1"], 7, "commands stand in edition 2, and a line says edition 1"),
    (GOOD + ["command C M n 0 1", "edition 1"], 7, "commands stand in edition 2, and a line says edition 1"),
    (GOOD[1:], 4, "no line `site SITEID`"),
    (GOOD[:1] + GOOD[2:], 4, "no line `sxl VERSION`"),
    (GOOD[:2], 2, "no line `component ID`"),
    ([], 1, "no line `component ID`"),
)
SMALL = table.Table(b"S", b"1", [b"C", b"D"], [(1, 1, 0, b"A")], [(0, b"S", b"n")]).bytes()
SECOND = table.Table(b"S", b"1", [b"C", b"D"], [(1, 1, 0, b"A")], [(0, b"S", b"n")], [(1, b"M", b"n", 5, 6)]).bytes()
WRONG_BITS = (
    (SMALL[:2], 2, "the bytes end inside the head"),
    (b"", 0, "the bytes end inside the head"),
    (with_byte(SMALL, 0, 0x32), 0, "edition 3, only 1 and 2 are known"),
    (with_byte(SMALL, 0, 0x02), 0, "edition 0, only 1 and 2 are known"),
    (with_byte(SMALL, 0, 0x22), 3, "the head's last seven bits are not zero"),
    (with_byte(SMALL, 0, 0x10), 0, "0 components, 1 to 8 are allowed"),
    (with_byte(SMALL, 1, 33 << 2), 1, "33 alarms, at most 32 are allowed"),
    (with_byte(SMALL, 2, 1), 2, "the head's last four bits are not zero"),
    (with_byte(SMALL, 3, 0), 3, "the site id has length 0"),
    (with_byte(SMALL, 5, 33), 5, "the SXL version has length 33"),
    (with_byte(SMALL, 4, 0x22), 3, "the site id has a byte 0x22"),
    (with_byte(SMALL, 10, ord("C")), 9, "component 1 has an id that is there already"),
    (with_byte(SMALL, 11, 0x48), 11, "alarm 0 is of component 2, and the table has 2"),
    (with_byte(SMALL, 11, 0x20), 11, "alarm 0 has priority 0"),
    (with_byte(SMALL, 11, 0x29), 11, "alarm 0 has bits that are not zero behind its category"),
    (with_byte(SMALL, 14, 0x01), 14, "status 0 has bits that are not zero behind its component"),
    (SMALL[:-1], len(SMALL) - 1, "the bytes end inside the name of status 0"),
    (SMALL + b"\0", len(SMALL), "1 bytes behind the table"),
    (SECOND[:3], 3, "the bytes end inside the head"),
    (with_byte(SECOND, 0, 0x12), 3, "the site id has length 128"),
    (with_byte(SECOND, 2, 0x18), 2, "17 commands, at most 16 are allowed"),
    (with_byte(SECOND, 3, 0x81), 3, "the head's last seven bits are not zero"),
    (with_byte(SECOND, len(SECOND) - 9, 0x21), len(SECOND) - 9, "command 0 has bits that are not zero behind its component"),
    (with_byte(SECOND, len(SECOND) - 9, 0x40), len(SECOND) - 9, "command 0 is of component 2, and the table has 2"),
    (with_byte(SECOND, len(SECOND) - 1, 4), len(SECOND) - 4, "command 0 has 5 as its lowest value, above its highest, 4"),
    (with_byte(SECOND, len(SECOND) - 4, 0x7F), len(SECOND) - 4, "command 0 has 32517 as its lowest value, above its highest, 6"),
    (SECOND[:-1], len(SECOND) - 1, "the bytes end inside the highest value of command 0"),
    (SECOND[:2] + b"\x11\0" + SECOND[4:] + SECOND[-9:], len(SECOND), "command 1 is there already"),
    (SECOND + b"\0", len(SECOND), "1 bytes behind the table"),
)


def listed(made):
    """The rows that `check` is to list: what, number, and the words behind them."""
    ids = [id_.decode() for id_ in made.components]
    rows = [("component", number, id_) for number, id_ in enumerate(ids)]
    rows += [("alarm", number, ids[row[0]], row[3].decode(), f"category {CATEGORIES[row[2]]}, priority {row[1]}")
             for number, row in enumerate(made.alarms)]
    rows += [("status", number, ids[row[0]], row[1].decode(), row[2].decode()) for number, row in enumerate(made.statuses)]
    rows += [("command", number, ids[row[0]], row[1].decode(), row[2].decode(), f"from {row[3]} to {row[4]}")
             for number, row in enumerate(made.commands)]
    return [[what, str(number), *" ".join(words).split()] for what, number, *words in rows]


def judge_check(folder):
    """Tables are listed, every fault of every file is told with its line, and one bad file does not hide another."""
    for example in (EXAMPLE, COMMANDS):
        made = table_of(example.read_text())
        for name in (example, example.with_suffix(".bits")):
            status, said, _ = run("check", name)
            rows = [line.replace("(carries the aggregated status)", "").split() for line in said.decode().splitlines()]
            hold(status == 0 and rows[0][0] == f"{name}:" and rows[1:] == listed(made), f"check {name}: {said.decode()}")
            hold(rows[0][-6:] == f"{len(made.bytes())} bytes as bits of edition {made.edition}".split()[-6:], f"check {name}: {rows[0]}")
    one, two, bits = folder / "one", folder / "two", folder / "bits"
    one.write_text("site S\nsxl 1\ncomponent C\nalarm D A x 9\nstatus C S n\nalarm\n")
    two.write_text("site S\nsxl 1\ncomponent C\nstatus E '' \"\"\n")
    bits.write_bytes(SMALL[:-1])
    status, said, faults = run("check", one, EXAMPLE, two, bits)
    told = [line[:line.index(": ")] for line in faults.splitlines()]
    hold(status == 1 and said.decode().startswith(f"{EXAMPLE}: site "), f"check of four: status {status}, {said.decode()}")
    hold(told == [f"{one}:4"] * 3 + [f"{one}:6"] + [f"{two}:4"] * 2 + [f"{bits}"], f"check of four: {faults}")
    status, said, faults = run("check", one, "no such file", EXAMPLE)
    hold(status == 2 and said and f"{one}:6: " in faults and "no such file: " in faults, f"check with one that is not there: {faults}")


def judge_either(folder):
    """Texts that begin as edition 2 does are texts, also where their fourth byte could be a head's; bits that begin as a comment does are
    bits."""
    def whole(beginning):
        """A good text that begins so."""
        lines = GOOD[1:] if b"site" in beginning else GOOD
        return beginning + (b"" if beginning.endswith((b"\n", b" ", b"\t")) else b"\n") + "".join(f"{line}\n" for line in lines).encode()

    comments = [b"#\n", b"# a comment\n", "#a\u0440 \n".encode(), "#0\u0080\n".encode(), b"#12\x80 euros\n", b"#12\x80\x0c\n", b"#", b"\"site\" T #",
                b" ", b"\t", b"\n", b"\r\n", b"#\xe5 in Latin-1\n", "#\u00e5\n".encode()]
    for given in map(whole, comments):
        path = folder / "either"
        path.write_bytes(given)
        status, said, faults = run("check", path)
        hold(status == 0 and b"of edition 1" in said, f"a text that begins with {given[:12]!r}: {faults}")
        hold(run("pack", given=given)[0] == 0, f"a text that begins with {given[:12]!r} is not packed")
    some = [table.Table(b"s" * size, b"1", [b"%d" % number for number in range(components)], [],
                        [(components - 1, b"S", b"%d" % number) for number in range(statuses)],
                        [(components - 1, b"M", b"%d" % number, number, number) for number in range(commands)], 2)
            for size in (1, 9, 10, 13, 32) for components in range(1, 9) for statuses in (0, 12, 13, 29) for commands in (0, 1, 5, 16)]
    for made in some:
        path = folder / "either"
        path.write_bytes(made.bytes())
        status, digits, faults = run("hex", path)
        hold(status == 0 and bytes.fromhex(digits.decode()) == made.bytes(), f"bits that begin with {made.bytes()[:8].hex()}: {faults}")
        hold("not its text" in run("pack", path)[2], f"bits that begin with {made.bytes()[:8].hex()} are packed")
    return len(comments), len(some)


def stored():
    for example in (EXAMPLE, COMMANDS):
        bits = example.with_suffix(".bits").read_bytes()
        hold(run("pack", example)[:2] == (0, bits), f"{example.stem}.bits is not what rsmp-table makes of the text")
        hold(table_of(example.read_text()).bytes() == bits, f"{example.stem}.bits is not what the model makes of the text")
        hold(run("pack", given=run("unpack", given=bits)[1])[1] == bits, f"{example.stem}.bits is not the same after unpack and pack")
    for lines, number, words in WRONG_LINES:
        text = "\n".join(lines).encode()
        status, _, said = run("pack", given=text)
        hold(status == 1 and any(line.startswith(f"standard input:{number}: ") and words in line for line in said.splitlines()),
             f"{text!r}: {said!r} where line {number} is to be told: {words}")
    for given, byte, words in WRONG_BITS:
        status, _, said = run("unpack", given=given)
        hold(status == 1 and said.startswith(f"standard input: byte {byte}: ") and words in said, f"{given.hex()}: {said!r}, not {words!r}")
    hold(run("unpack", "no such file")[0] == 2 and run("pack", "a", "b", "c")[0] == 2 and run()[0] == 2, "status 2 is not given")
    hold(run("--help")[0] == 0, "--help")
    with tempfile.TemporaryDirectory() as room:
        judge_check(pathlib.Path(room))
        texts, bits = judge_either(pathlib.Path(room))
    print(f"rsmp-table: the examples, {len(WRONG_LINES)} wrong lines and {len(WRONG_BITS)} wrong bits are told as they should be; "
          f"{texts} texts and {bits} bits that begin alike are told apart")


def hexes(folder, files):
    """What `hex` says of files: digits by name."""
    paths = []
    for number, content in enumerate(files):
        path = folder / f"{number}"
        path.write_bytes(content)
        paths.append(path)
    return run("hex", *paths)


def good(data):
    try:
        return table.read(data).bytes() == data
    except table.Refused:
        return False


def fresh(seed):
    print(f"rsmp-table: seed {seed}")
    source = random.Random(seed)
    made = [some_table(source, full=number % 20 == 0) for number in range(400)]
    bits = [one.bytes() for one in made]
    with tempfile.TemporaryDirectory() as room:
        folder = pathlib.Path(room)
        status, digits, said = hexes(folder, [text_of(source, one).encode() for one in made])
        hold(status == 0 and [bytes.fromhex(line) for line in digits.decode().split()] == bits, f"texts: {said}")
        status, digits, said = hexes(folder, bits)
        hold(status == 0 and [bytes.fromhex(line) for line in digits.decode().split()] == bits, f"bits: {said}")
        for data in bits[:30]:
            text = run("unpack", given=data)[1]
            hold(table_of(text.decode()).bytes() == data and run("pack", given=text)[1] == data, f"unpack {data.hex()}")
        damaged = [with_bit(data, source.randrange(len(data) * 8)) for data in bits for _ in range(3)]
        damaged += [data[:source.randrange(len(data))] for data in bits] + [data + source.randbytes(source.randint(1, 3)) for data in bits]
        accepted = [data for data in damaged if good(data)]
        digits = hexes(folder, damaged)[1]
        hold([bytes.fromhex(line) for line in digits.decode().split()] == accepted, "damaged bits are judged in another way than by the model")
    print(f"rsmp-table: {len(made)} tables as text and bits, {len(damaged)} damaged ones, {len(accepted)} of them still good, agree")


if __name__ == "__main__":
    sys.exit(stored_or_fresh(stored, fresh, __doc__))
