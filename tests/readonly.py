"""The library's read-only data by the functions that use it, and that the calendar holds no table.

The compiler keeps a short array of constants in the instructions that use it, where no section of the archive shows it. So the
calendar's arrays are counted in what it is compiled from, which `rt` leaves in crates/calendar/out, and its data in the archive.

  readonly.py --stored     after `make build`
"""
import collections
import json
import struct
import sys

from cases import ROOT

LIBRARY = ROOT / "crates" / "sitec_c" / "out" / "libsitec_c.a"
CALENDAR = ROOT / "crates" / "calendar" / "out" / "rlib" / "calendar.rlib" / "toolchain" / "mir.json"
# As measured: the date's template "0000-00-00T00:00:00.000Z", and no data.
MOST_IN_ARRAYS, MOST_IN_DATA = 24, 0

Section = collections.namedtuple("Section", "name kind flags offset size link info entry")
Symbol = collections.namedtuple("Symbol", "kind section value")
RELOCATIONS, SECTION_SYMBOL, MERGEABLE, FROM_HERE = 4, 3, 0x10, 4


# The archive.

def objects(archive):
    at = len(b"!<arch>\n")
    while at < len(archive):
        size = int(archive[at + 48:at + 58])
        body = archive[at + 60:at + 60 + size]
        if body.startswith(b"\x7fELF"):
            yield body
        at += 60 + size + size % 2


def text(elf, at):
    return elf[at:elf.index(b"\0", at)].decode()


def sections(elf):
    start, = struct.unpack_from("<Q", elf, 0x28)
    size, count, names = struct.unpack_from("<3H", elf, 0x3A)
    heads = [struct.unpack_from("<IIQQQQIIQQ", elf, start + size * i) for i in range(count)]
    strings = heads[names][4]
    return [Section(text(elf, strings + name), kind, flags, offset, size, link, info, entry)
            for name, kind, flags, _, offset, size, link, info, _, entry in heads]


def symbol(elf, table, place):
    _, kind, _, section, value, _ = struct.unpack_from("<IBBHQQ", elf, table.offset + 24 * place)
    return Symbol(kind % 16, section, value)


def references(elf, found):
    """Each reference from a function's code: the function, the section and the place there."""
    for section in found:
        if section.kind == RELOCATIONS and section.name.startswith(".rela.text."):
            for at in range(section.offset, section.offset + section.size, 24):
                _, info, addend = struct.unpack_from("<QQq", elf, at)
                meant = symbol(elf, found[section.link], info >> 32)
                yield section.name[len(".rela.text."):], meant.section, meant.value + (addend + FROM_HERE) * (meant.kind == SECTION_SYMBOL)


def read_only(elf):
    """The bytes of read-only data by function: a section of its own for jumps and for each array, constants are pooled by their size."""
    found = sections(elf)
    users = collections.defaultdict(set)
    for function, section, place in references(elf, found):
        if section < len(found):
            pooled = found[section].flags & MERGEABLE
            users[section, place // found[section].entry if pooled else 0].add(function)
    bytes_of = collections.Counter()
    for number, section in enumerate(found):
        if not section.name.startswith((".rodata", ".data.rel.ro")):
            continue
        if section.flags & MERGEABLE:
            for place in range(section.size // section.entry):
                bytes_of["constants", " and ".join(sorted(users[number, place])) or "no function"] += section.entry
        else:
            name = section.name[len(".rodata."):]
            kind, of = ("array", " and ".join(sorted(users[number, 0])) or name) if name.startswith(".L") else ("jumps", name)
            bytes_of[kind, of] += section.size
    return bytes_of


# What a crate is compiled from.

def size_of(kind):
    if "Array" in kind:
        element, count = kind["Array"]
        return count["Lit"] * size_of(element)
    return kind["Int"] // 8


def assignments(body):
    if isinstance(body, dict):
        if "Assign" in body:
            yield body["Assign"]
        body = list(body.values())
    if isinstance(body, list):
        for part in body:
            yield from assignments(part)


def lent(body):
    """The bytes of each array that is lent as it was written, whole."""
    if isinstance(body, dict):
        if "LendStatic" in body:
            _, _, value = body["LendStatic"]
            yield len(value["Ints"]["values"]) * value["Ints"]["width"] // 8
        body = list(body.values())
    if isinstance(body, list):
        for part in body:
            yield from lent(part)


def arrays(function):
    """The bytes of each array that is written out, whole or element by element."""
    yield from lent(function["body"])
    for place, value in assignments(function["body"]):
        kind = function["locals"][place["local"]]["ty"]
        if isinstance(value, dict) and "Aggregate" in value and not place["steps"] and "Array" in kind:
            yield size_of(kind)


def main(words):
    if words != ["--stored"]:
        print(__doc__)
        return 2
    data = collections.Counter()
    for elf in objects(LIBRARY.read_bytes()):
        data += read_only(elf)
    print(f"readonly: {sum(data.values())} bytes of read-only data")
    for (kind, function), size in data.most_common():
        print(f"  {size:5} {kind:9} {function}")
    in_data = sum(size for (_, function), size in data.items() if "calendar::" in function)
    in_arrays = {name: sum(arrays(function)) for name, function in json.loads(CALENDAR.read_text())}
    held = ", ".join(f"{name} {size}" for name, size in in_arrays.items() if size)
    print(f"readonly: the calendar has {in_data} bytes of read-only data, and {sum(in_arrays.values())} in arrays ({held})")
    if in_data > MOST_IN_DATA or sum(in_arrays.values()) > MOST_IN_ARRAYS:
        sys.exit(f"readonly: the calendar holds a table: more than {MOST_IN_DATA} and {MOST_IN_ARRAYS} bytes")
    return 0


if __name__ == "__main__":
    sys.exit(main(sys.argv[1:]))
