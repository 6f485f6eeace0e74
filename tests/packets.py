"""Packets and what a JSON parser that nobody here wrote makes of them: Python's, behind a strict UTF-8 decoding and with
document 01's additions (one object, eight levels, no lone surrogate, no name twice).

  packets.py --write     writes the stored packets and answers of the program `run_packets`
  packets.py --stored    checks that the stored ones are what this script makes
  packets.py --fresh [SEED]   runs random packets through the program

The program answers `-` for a packet that is not accepted, else its meaning on one line: n, t, f, # and a number's text,
" and a string's code points in hexadecimal, [..] and {name:value..} with commas. Behind it, for each member of the packet's
object: = where looking its name up finds it (~ where the name is no ASCII of at most 36), its value's kind, and the kinds of an
array's elements.
"""
import json
import random
import sys

import cases
from cases import case

LEVELS = 8


# What the packet means, by Python's parser.

class Refused(Exception):
    pass


class Number(str):
    pass


def refuse(_):
    raise Refused


def members(pairs):
    names = [name for name, _ in pairs]
    if len(set(names)) != len(names):
        raise Refused
    return dict(pairs)


DECODER = json.JSONDecoder(object_pairs_hook=members, parse_int=Number, parse_float=Number, parse_constant=refuse)


def points(text):
    if any(0xD800 <= ord(c) <= 0xDFFF for c in text):
        raise Refused
    return '"' + ".".join("%x" % ord(c) for c in text)


def shown(value, level):
    if value is None:
        return "n"
    if value is True:
        return "t"
    if value is False:
        return "f"
    if isinstance(value, Number):
        return "#" + value
    if isinstance(value, str):
        return points(value)
    if level == LEVELS:
        raise Refused
    if isinstance(value, list):
        return "[" + ",".join(shown(item, level + 1) for item in value) + "]"
    return "{" + ",".join(points(name) + ":" + shown(item, level + 1) for name, item in value.items()) + "}"


def kind(value):
    if isinstance(value, Number):
        return "#"
    return {type(None): "n", bool: "b", str: '"', list: "[", dict: "{"}[type(value)]


def looked_up(name, value):
    short = len(name) <= 36 and name.isascii()
    return (" =" if short else " ~") + kind(value) + "".join(kind(item) for item in (value if isinstance(value, list) else []))


def meaning(packet):
    try:
        text = packet.decode("utf-8")
        start = len(text) - len(text.lstrip(" \t\n\r"))
        value, end = DECODER.raw_decode(text, start)
        if text[end:].strip(" \t\n\r") or not isinstance(value, dict):
            return "-"
        return shown(value, 0) + "".join(looked_up(name, item) for name, item in value.items())
    except (UnicodeDecodeError, json.JSONDecodeError, Refused, RecursionError):
        return "-"


def pair(packet):
    return case("j", packet), meaning(packet).encode("ascii") + b"\n"


# The cases that JSON parsers are tested with: each is the value of a member, and stands bare as well.

GOOD_VALUES = [b"null", b"true", b"false", b"0", b"-0", b"1", b"10", b"-1", b"0.0", b"-0.5", b"1.25", b"1e0", b"1E5", b"1e+5",
               b"1e-5", b"1.5e10", b"0e0", b"0E+00", b"123456789012345678901234567890", b"1e999", b'""', b'"a"', b'"\\""', b'"\\\\"',
               b'"\\/"', b'"\\b\\f\\n\\r\\t"', b'"\\u0000"', b'"\\u00e9"', b'"\\uD83D\\uDE00"', b'"\\ud83d\\ude00"', b'"\\uFFFF"',
               b'"\\uD7FF"', b'"\\uE000"', b'"\\uDBFF\\uDFFF"', b'"\\uD800\\uDC00"', b'"/"', b'"\x7f"', "\"é\"".encode(), "\"€\"".encode(),
               "\"😀\"".encode(), b"[]", b"[ ]", b"[1]", b"[1,2]", b"[ 1 , 2 ]", b"{}", b"{ }", b'{"b":1}', b'{ "b" : 1 , "c" : 2 }',
               b'[[],[[]],{}]', b'{"":0}', b'"\xc2\x80"', b'"\xdf\xbf"', b'"\xe0\xa0\x80"', b'"\xed\x9f\xbf"', b'"\xee\x80\x80"',
               b'"\xef\xbf\xbf"', b'"\xf0\x90\x80\x80"', b'"\xf4\x8f\xbf\xbf"', b'"\xef\xbb\xbf"']
BAD_VALUES = [b"", b"nul", b"nulll", b"Null", b"NULL", b"tru", b"True", b"fals", b"False", b"NaN", b"Infinity", b"-Infinity", b"nan",
              b"01", b"-01", b"00", b"-", b"+1", b"1.", b".5", b"-.5", b"1e", b"1e+", b"1E-", b"1.e1", b"1..2", b"1.2.3", b"1e1.5",
              b"0x10", b"1_000", b"1 2", b"--1", b"1-", b"\xd9\xa1", b'"', b'"a', b'a"', b"'a'", b"a", b'"\\"', b'"\\a"', b'"\\x41"',
              b'"\\u"', b'"\\u1"', b'"\\u12"', b'"\\u123"', b'"\\u123g"', b'"\\uG000"', b'"\\u+123"', b'"\\u 123"', b'"\\u0x12"',
              b'"\\U0041"', b'"\\ud800"', b'"\\udbff"', b'"\\udc00"', b'"\\udfff"', b'"\\ud800a"', b'"\\ud800\\n"', b'"\\ud800\\u0041"',
              b'"\\ud800\\ud800"', b'"\\udc00\\ud800"', b'"\\ud800\\uDBFF"', b'"\\ud800\\ue000"', b'"\\ud800\\', b'"\\ud800\\u"',
              b'"\\ud800\\udc0"', b'"\x00"', b'"\x1f"', b'"\n"', b'"\t"', b'"\\\n"', b'"\x80"', b'"\xbf"', b'"\xc0\x80"', b'"\xc1\xbf"',
              b'"\xc2"', b'"\xc2\x7f"', b'"\xc2\xc0"', b'"\xe0\x9f\xbf"', b'"\xe0\x80\x80"', b'"\xed\xa0\x80"', b'"\xed\xbf\xbf"',
              b'"\xe2\x82"', b'"\xe2\x28\xa1"', b'"\xe2\x82\x28"', b'"\xf0\x8f\xbf\xbf"', b'"\xf4\x90\x80\x80"', b'"\xf5\x80\x80\x80"',
              b'"\xf8\x88\x80\x80\x80"', b'"\xfc\x84\x80\x80\x80\x80"', b'"\xfe"', b'"\xff"', b'"\xf0\x9f\x98"', b'"\xf0\x28\x8c\xbc"',
              b"[", b"]", b"[1", b"[1,", b"[1,]", b"[,1]", b"[,]", b"[1 2]", b"[1;2]", b"[1}", b"{", b"}", b'{"b"', b'{"b":', b'{"b":1',
              b'{"b":1,', b'{"b":1,}', b'{,"b":1}', b'{"b" 1}', b'{"b":1 "c":2}', b'{"b":1]', b"{b:1}", b"{'b':1}", b"{1:1}",
              b"{null:1}", b'{"b":1,"b":1}', b'{"b":1,"\\u0062":2}', b'{"\xc3\xa9":1,"\\u00E9":2}', b'{"b":{"c":1,"c":2}}',
              b'[{"b":1,"b":1}]', b"/**/1", b"1//", b"#1", b"undefined", b"\x0c1", b"\xa01", b"\xef\xbb\xbf1"]


def shapes(value):
    yield value
    yield b'{"a":' + value + b"}"
    yield b' { "a" : ' + value + b' , "z" : 0 } '
    yield b'{"a":[' + value + b"]}"
    yield b'{"x":[0,{"y":' + value + b'}],"a":1}'


WHOLE = [b"", b" ", b"{}", b" {} ", b"\t\n\r {}\r\n\t", b"{}{}", b"{},", b"{}x", b"x{}", b"{}\x00", b"\x00{}", b"\x0c{}", b"{}\x0c",
         b"\x0b{}", b"\xef\xbb\xbf{}", "{}".encode("utf-16-le"), "{}".encode("utf-16-be"), "{}".encode("utf-16"), "{}".encode("utf-32"),
         b"{}]", b"[{}]", b"[]", b'""', b"null", b"\xa0{}", b"{\x0c}", b'{"a":1}{"a":1}', b'{"a":1}\n{"b":2}', b'{"a":1,"A":2}',
         b'{"a":1,"a ":2}', b'{"a":1,"a\\u0000":2}', b'{"":1,"":2}', b'{"ab":1,"b":2,"abc":3}']


def nested(depth, kind):
    """A packet of this many levels: the object is level 1."""
    inner = b"0"
    for level in range(depth - 1):
        array = kind == "array" or kind == "both" and level % 2
        inner = b"[" + inner + b"]" if array else b'{"n":' + inner + b"}"
    return b'{"a":' + inner + b"}"


def limits():
    for depth in range(1, 12):
        for kind in ("array", "object", "both"):
            yield nested(depth, kind)
            yield nested(depth, kind).replace(b"0", b"[]")
            yield nested(depth, kind).replace(b"0", b"{}")
    yield b'{"a":' + b"[" * 2000 + b"]" * 2000 + b"}"
    yield b'{"a":' + b"[" * 4000
    for size in (4094, 4095, 4096, 4097, 8190):
        yield b'{"a":"' + b"x" * (size - 8) + b'"}'
        yield b'{"a":1}' + b" " * (size - 7)
    names = b",".join(b'"%03x":0' % n for n in range(400))
    yield b"{" + names + b"}"
    yield b"{" + names + b',"18f":1}'
    yield b'{"000":1,' + names + b"}"
    yield b'{"a":"' + b"\\u00e9" * 600 + b'"}'
    yield b'{"a":[' + b"1," * 1500 + b"1]}"


def equal_marks():
    """Two names that json_sure cannot tell apart by their marks with json_packet's fixed key, so that they are compared themselves."""
    one, other = "\u9af4A".encode(), "A\u6f10".encode()
    assert mark(one) == mark(other)
    for names in ((one, other), (one, b"b", other), (one, other, one), (one, other, b"b", b"b"), (b"b", one, other, b"\\u0041\\u6f10")):
        members = b",".join(b'"%s":0' % name for name in names)
        yield b"{" + members + b"}"
        yield b'{"a":[{' + members + b'}]}'
    yield b'{"%s":{"%s":0}}' % (one, other)


def mark(name, key=2654435761):
    """As json_sure/specs/Sure.antt has it."""
    number = 1
    for character in name.decode():
        number = (number * key + ord(character)) % 4294967291
    return number


def utf8_rows():
    """Every first byte with the neighbours of every bound of its second, third and fourth."""
    tails = (0x7F, 0x80, 0x8F, 0x90, 0x9F, 0xA0, 0xBF, 0xC0)
    for first in range(0x80, 0x100):
        yield bytes([first])
        for second in tails:
            yield bytes([first, second])
            yield bytes([first, second, 0x80])
            yield bytes([first, second, 0xBF])
            yield bytes([first, second, 0x80, 0x80])
            yield bytes([first, second, 0xBF, 0xBF])
    for third in tails:
        yield bytes([0xE2, 0x82, third])
        yield bytes([0xF1, 0x80, third, 0x80])
        yield bytes([0xF1, 0x80, 0x80, third])


def fixed():
    for value in GOOD_VALUES + BAD_VALUES:
        yield from shapes(value)
    yield from WHOLE
    yield from limits()
    yield from equal_marks()
    for text in utf8_rows():
        yield b'{"a":"' + text + b'"}'
    for byte in range(256):
        yield b'{"a":"' + bytes([byte]) + b'"}'
        yield b'{"a":"\\' + bytes([byte]) + b'"}'
        yield b'{"a":1' + bytes([byte]) + b'}'
        yield bytes([byte]) + b"{}"
        yield b'{"a"' + bytes([byte]) + b':1}'
        yield b'{"a":"\\u00' + bytes([byte]) + b'0"}'


# Random packets: good ones, written in many ways, and damaged ones.

class Writer:
    def __init__(self, source):
        self.source = source

    def space(self):
        return bytes(self.source.choice(b" \t\n\r") for _ in range(self.source.choice((0, 0, 0, 0, 1, 2))))

    def string(self):
        parts = []
        for _ in range(self.source.choice((0, 1, 1, 2, 3, 5, 12))):
            way = self.source.randrange(8)
            if way < 3:
                parts.append(bytes([self.source.choice(b"abcdefghijklmnopqrstuvwxyzABCDEFGHIJ0123456789 -_./")]))
            elif way == 3:
                parts.append(b"\\" + bytes([self.source.choice(b'"\\/bfnrt')]))
            elif way == 4:
                point = self.source.choice((self.source.randrange(0xD800), self.source.randrange(0xE000, 0x10000)))
                parts.append(b"\\u%04x" % point if self.source.random() < 0.5 else b"\\u%04X" % point)
            elif way == 5:
                parts.append(b"\\u%04x\\u%04X" % (self.source.randrange(0xD800, 0xDC00), self.source.randrange(0xDC00, 0xE000)))
            else:
                point = self.source.choice((self.source.randrange(0x80, 0x800), self.source.randrange(0x800, 0xD800),
                                            self.source.randrange(0xE000, 0x10000), self.source.randrange(0x10000, 0x110000)))
                parts.append(chr(point).encode())
        return b'"' + b"".join(parts) + b'"'

    def name(self):
        if self.source.random() < 0.5:
            return self.source.choice((b'"a"', b'"b"', b'"\\u0061"', b'"mId"', b'"m\\u0049d"', b'"type"', b'"n"', b'"s"', b'"q"'))
        return self.string()

    def number(self):
        whole = self.source.choice(("0", str(self.source.randrange(1, 10 ** self.source.randint(1, 12)))))
        part = self.source.choice(("", "", "." + str(self.source.randrange(10 ** 6))))
        power = self.source.choice(("", "", self.source.choice("eE") + self.source.choice(("", "+", "-")) + str(self.source.randrange(400))))
        return (self.source.choice(("", "-")) + whole + part + power).encode()

    def value(self, levels):
        way = self.source.randrange(10 if levels else 6)
        if way < 1:
            return self.source.choice((b"null", b"true", b"false"))
        if way < 3:
            return self.number()
        if way < 6:
            return self.string()
        if way < 8:
            items = [self.space() + self.value(levels - 1) + self.space() for _ in range(self.source.choice((0, 1, 2, 3)))]
            return b"[" + (b",".join(items) or self.space()) + b"]"
        return self.object(levels - 1)

    def object(self, levels):
        items = [self.space() + self.name() + self.space() + b":" + self.space() + self.value(levels) + self.space()
                 for _ in range(self.source.choice((0, 1, 1, 2, 2, 3, 5)))]
        return b"{" + (b",".join(items) or self.space()) + b"}"

    def packet(self):
        return self.space() + self.object(self.source.choice((2, 4, 7, 8))) + self.space()


def damaged(source, packet):
    bytes_ = bytearray(packet)
    for _ in range(source.randint(1, 2)):
        at = source.randrange(len(bytes_) + 1)
        way = source.randrange(5)
        new = source.choice(b'{}[]",:\\u0123456789abcdefntr+-.eE \t\n\x00\x1f\x7f\x80\xbf\xc0\xc2\xe0\xed\xf0\xf4\xff')
        if way == 0 and at < len(bytes_):
            bytes_[at] = new
        elif way == 1 and at < len(bytes_):
            del bytes_[at]
        elif way == 2 and at < len(bytes_):
            bytes_[at] ^= 1 << source.randrange(8)
        elif way == 3:
            del bytes_[at:]
        else:
            bytes_.insert(at, new)
    return bytes(bytes_)


def randoms(source, count):
    writer = Writer(source)
    for _ in range(count):
        packet = writer.packet()
        while len(packet) > 8000:
            packet = writer.packet()
        yield packet
        yield damaged(source, packet)


def stored_pairs():
    for packet in (*fixed(), *randoms(random.Random(2), 500)):
        yield pair(packet)


def fresh(source):
    pairs = [pair(packet) for packet in randoms(source, 20000)]
    accepted = sum(answer != b"-\n" for _, answer in pairs)
    yield f"random packets, {accepted} of them accepted,", pairs


if __name__ == "__main__":
    sys.exit(cases.script("run_packets", stored_pairs, fresh, __doc__))
