"""Packets of every taken type, good, spoiled and damaged, and what they say by the rules of tests/model/message.py.

  reads.py --write     writes the stored packets and answers of the program `run_reads`
  reads.py --stored    checks that the stored ones are what this script makes
  reads.py --fresh [SEED]   runs random packets through the program

The program answers `-` for a packet that is ignored whatever the site's state; A or N and an identity's 32 digits for an answer;
else the received mId, mType's verdict (G good, M "Missing element", B "Bad value"), the type's letter (X where it is not taken; that
of the old type, but small, where the response carries the acknowledgement), and, where mType is good and the type taken, the verdict of
its fields and, where that is good, the fields: labels in hexadecimal, times, seconds and values in decimal, a version as one number,
lists behind their length. An entry of a StatusRequest or StatusUnsubscribe has 0 and t for uRt and sOc. A Version's last word is what
comes of it against OFFERED, SITE and SXL: the version that is chosen, or R, I or X for the check that fails.
"""
import itertools
import json
import random
import sys
import uuid

import cases
from cases import case
from model import message
from model.table import ALPHABET
from packets import damaged

SITE, SXL = "O+14439=481WA001", "1.0.13"
LETTERS = {"Version": "V", "Watchdog": "W", "Alarm": "A", "AggregatedStatusRequest": "G", "StatusRequest": "R",
           "StatusSubscribe": "S", "StatusUnsubscribe": "U", "CommandRequest": "C", "StatusRequestAckIncluded": "r",
           "CommandRequestAckIncluded": "c"}
ORDERS = {"Request": "Q", "Acknowledge": "A", "Suspend": "S", "Resume": "R"}
FAILED = {"RSMP version": "R", "Site id": "I", "SXL version": "X"}
LONGEST = 8191


# What the program says of a packet, from what the model says of it.

def hexed(label):
    return label.encode("ascii").hex()


def number(version):
    major, minor, patch = version
    return (major * 256 + minor) * 256 + patch


def words_of(kind, said):
    """The fields of a taken type as words."""
    kind = message.plain(kind)
    if kind == "Version":
        versions, sites = said["versions"], said["sites"]
        words = [len(versions), *map(number, versions), len(sites), *map(hexed, sites), hexed(said["sxl"])]
        try:
            return [*words, number(message.judge(said, SITE, SXL))]
        except message.Reason as reason:
            return [*words, FAILED[str(reason)]]
    if kind == "Watchdog":
        return [said["time"], said["decimals"]]
    if kind == "Alarm":
        return [hexed(said["component"]), hexed(said["code"]), ORDERS[said["order"]]]
    if kind == "AggregatedStatusRequest":
        return [hexed(said["component"])]
    words = [hexed(said["component"]), len(said["entries"])]
    if kind == "CommandRequest":
        for code, name, value in said["entries"]:
            words += [hexed(code), hexed(name), value]
        return words
    for code, name, rate, change in said["entries"]:
        words += [hexed(code), hexed(name), rate or 0, "f" if change is False else "t"]
    return words


def verdict(reason):
    return {None: "G", message.MISSING: "M", message.BAD: "B"}[reason]


def line(packet):
    head = message.head_of(packet)
    if head is None:
        return "-"
    if head[0] in message.ANSWERS:
        return ("A " if head[0] == "MessageAck" else "N ") + head[1].replace("-", "")
    kind, received, reason, fields = head
    words = [received, verdict(reason), LETTERS.get(kind, "X")]
    if reason is None and kind is not None:
        try:
            said = words_of(kind, message.fields_of(kind, fields))
            words += ["G", *said]
        except message.Reason as found:
            words += [verdict(str(found))]
    return "".join(f"{word} " for word in words)


def pair(packet):
    assert len(packet) <= LONGEST
    return case("p", packet), line(packet).encode("ascii") + b"\n"


# Packets as lists of elements, so that names can be missing, twice, or in any order.

MID = "e68a0010-c336-41ac-bd58-5c80a72c7092"
OTHER_CASES = ("E68A0010-C336-41AC-BD58-5C80A72C7092", "e68A0010-c336-41AC-BD58-5c80a72C7092")


def text(value):
    return json.dumps(value, separators=(",", ":")).encode("ascii")


def shown(value):
    return value if isinstance(value, bytes) else text(value)


def raw(members):
    """An object of these members, values of bytes as they stand."""
    return b"{" + b",".join(text(name) + b":" + shown(value) for name, value in members) + b"}"


def head(kind):
    return [("mType", "rSMsg"), ("type", kind), ("mId", MID)]


VERSION = head("Version") + [("RSMP", [{"vers": "3.1.4"}, {"vers": "3.1.5"}, {"vers": "3.2"}]), ("siteId", [{"sId": SITE}]), ("SXL", SXL)]
WATCHDOG = head("Watchdog") + [("wTs", "2015-06-08T12:01:39.654Z")]
ALARM = head("Alarm") + [("cId", "AB+84001=860VA001"), ("aCId", "A0004"), ("aSp", "Suspend")]
AGGREGATED = head("AggregatedStatusRequest") + [("cId", SITE)]
REQUEST = head("StatusRequest") + [("cId", SITE), ("sS", [{"sCI": "S0003", "n": "inputstatus"}])]
SUBSCRIBE = head("StatusSubscribe") + [("cId", SITE), ("sS", [{"sCI": "S0001", "n": "cyclecounter", "uRt": "5", "sOc": False}])]
UNSUBSCRIBE = head("StatusUnsubscribe") + [("cId", SITE), ("sS", [{"sCI": "S0001", "n": "cyclecounter"}])]
COMMAND = head("CommandRequest") + [("cId", SITE), ("arg", [{"cCI": "M0001", "n": "boom", "cO": "setValue", "v": "-1"}])]
REQUEST_INCLUDED, COMMAND_INCLUDED = (head(kind) + members[3:] for kind, members in zip(message.INCLUDED, (REQUEST, COMMAND)))
ACK = [("mType", "rSMsg"), ("type", "MessageAck"), ("oMId", MID)]
NOT_ACK = [("mType", "rSMsg"), ("type", "MessageNotAck"), ("oMId", MID), ("rea", "Unknown packet type: Watchdddog")]
REQUESTS = (VERSION, WATCHDOG, ALARM, AGGREGATED, REQUEST, SUBSCRIBE, UNSUBSCRIBE, COMMAND, REQUEST_INCLUDED, COMMAND_INCLUDED)
EVERY = (*REQUESTS, ACK, NOT_ACK)
LISTED = {"RSMP": VERSION, "siteId": VERSION, "sS": SUBSCRIBE, "arg": COMMAND}


def put(members, name, value):
    return [(n, value if n == name else v) for n, v in members]


def without(members, *names):
    return [(n, v) for n, v in members if n not in names]


def value_in(members, name):
    return dict(members)[name]


def places(members):
    """Every element, of entries too: how to set it and how to leave it out."""
    for name, value in members:
        yield (lambda new, name=name: put(members, name, new)), without(members, name)
        for entry in value[:1] if isinstance(value, list) else []:
            for inner in entry:
                def changed(new, name=name, entry=entry, inner=inner, rest=value[1:]):
                    spoiled_entry = raw(put(entry.items(), inner, new))
                    return put(members, name, b"[" + b",".join([spoiled_entry, *map(text, rest)]) + b"]")
                yield changed, put(members, name, [{n: v for n, v in entry.items() if n != inner}] + value[1:])


# Source document 000, chapter 4.4: the listings of the taken types. Repaired: a brace inside listing 4 and a comma at the end of
# listing 12 are gone, and the page's end inside listing 20; `oMid` of listings 22 and 23 is `oMId`, and the digit that listing 23's
# identity lacks is there.

def listing(kind, identity, elements):
    return b'{\n  "mType": "rSMsg",\n  "type": "' + kind + b'",\n  "mId": "' + identity + b'",\n' + elements + b"\n}\n"


def about(component, elements, outer=b""):
    return b'  "nts0Id": "' + outer + b'",\n  "xNId": "",\n  "cId": "' + component + b'"' + elements


def alarm_listing(identity, order):
    elements = b',\n  "aCId": "A0004",\n  "xACId": "",\n  "xNACId": "",\n  "aSp": "' + order + b'"'
    return listing(b"Alarm", identity, about(b"AB+84001=860VA001", elements))


def status_listing(kind, identity, entries, outer=b"0+14439=481WA001"):
    shown = b", ".join(b"{\n" + b",\n".join(b'      "%s": %s' % member for member in entry) + b"\n    }" for entry in entries)
    return listing(kind, identity, about(b"0+14439=481WA001", b',\n  "sS": [\n    ' + shown + b"\n  ]", outer))


def command_listing(identity, values):
    entries = b",".join(b'{\n      "cCI": "M0001",\n      "n": "%s",\n      "cO": "setValue",\n      "v": "%s"\n    }' % named for named in values)
    return listing(b"CommandRequest", identity, about(b"0+14439=481WA001", b',\n  "arg": [\n    ' + entries + b"\n  ]", b"0+14439=481WA001"))


def asked(code, name, *more):
    return ((b"sCI", b'"%s"' % code), (b"n", b'"%s"' % name), *more)


def rated(code, name, rate):
    return asked(code, name, (b"uRt", b'"%s"' % rate), (b"sOc", b"false"))


def listings():
    yield alarm_listing(b"3d2a0097-f91c-4249-956b-dac702545b8f", b"Request")
    yield alarm_listing(b"3d2a0097-f91c-4249-956b-dac702545b8f", b"Acknowledge")
    yield alarm_listing(b"b6579d6d-3a9d-4169-b777-f094946a863e", b"Suspend")
    yield alarm_listing(b"2a744145-403a-423f-ba80-f38e283a778e", b"Resume")
    yield listing(b"AggregatedStatusRequest", b"be12ab9a-800c-4c19-8c50-adf832f22425",
                  about(b"0+14439=481WA001", b"", b"0+14439=481WA001"))
    yield status_listing(b"StatusRequest", b"f1a13213-b90a-4abc-8953-2b8142923c55",
                         [asked(b"S0003", b"inputstatus"), asked(b"S0003", b"extendedinputstatus")])
    names = b"signalgroupstatus", b"cyclecounter", b"basecyclecounter", b"stage"
    yield status_listing(b"StatusSubscribe", b"d6d97f8b-e9db-4572-8084-70b55e312584",
                         [rated(b"S0001", name, b"5") for name in names])
    yield status_listing(b"StatusSubscribe", b"6bbcb26e-78fe-4517-9e3d-8bb4f972c076",
                         [rated(b"S0096", b"hour", b"120"), rated(b"S0096", b"minute", b"60")], b"")
    yield status_listing(b"StatusUnsubscribe", b"5ff528c5-f2f0-4bc4-a335-280c52b6e6d8", [asked(b"S0001", name) for name in names])
    values = (b"status", b"YellowFlash"), (b"securityCode", b"123"), (b"timeout", b"30"), (b"intersection", b"1")
    yield command_listing(b"cf76365e-9c7b-44a4-86bd-d107cdfc3fcf", values)
    yield command_listing(b"cf76365e-9c7b-44a4-86bd-d107cdfc3fcf", values[1:])
    yield b'{\n  "mType": "rSMsg",\n  "type": "MessageAck",\n  "oMId": "49c6c824-d593-4c16-b335-f04feda16986"\n}\n'
    yield (b'{\n  "mType": "rSMsg",\n  "type": "MessageNotAck",\n  "oMId": "0554dff0-9cc5-4232-97a9-018d5796e86a",\n'
           b'  "rea": "Unknown packet type: Watchdddog"\n}\n')
    yield listing(b"Version", b"6f968141-4de5-42ff-8032-45f8093762c5",
                  b'  "RSMP": [\n    {\n      "vers": "3.1.1"\n    }, {\n      "vers": "3.1.2"\n    }\n  ],\n'
                  b'  "siteId": [\n    {\n      "sId": "O+14439=481WA001"\n    }\n  ],\n  "SXL": "1.0.13"')
    yield listing(b"Watchdog", b"f48900bc-e6fb-431a-8ca4-05070016f64a", b'  "wTs": "2015-06-08T12:01:39.654Z"')


def as_printed():
    """The faults of the print as they stand: a comma before a brace, and the name oMid."""
    yield raw(AGGREGATED)[:-1] + b",}"
    yield raw([(("oMid" if name == "oMId" else name), value) for name, value in ACK])
    yield raw(put(ACK, "oMId", "554dff0-9cc5-4232-97a9-018d5796e86a"))
    yield raw(put(ALARM, "mType", "rSMsmsg"))


# Every element missing, of a wrong kind, at the limits.

WRONG = (b"null", b"0", b"5", b"-1.5e3", b"{}", b'{"a":1}', b"[]", b"[1]", b"[{}]", b"true", b"false", b'""', b'"x"', b'"5"',
         b'"true"')
ALPHABETIC = "".join(sorted(map(chr, ALPHABET)))
STRINGS = (b"", b"a", b"a" * 31, b"a" * 32, b"a" * 33, b"a" * 36, b"a" * 37, b"a" * 300, ALPHABETIC[:32].encode(),
           ALPHABETIC[-32:].encode(), b"\\u0061", b"\\u0061" * 32, b"\\u0061" * 33, b"\\/", b"\\n", b"\\t", b"\\\\", b'\\"',
           b"\\u0000", b"a\\u0000", b"\\u001f", b"\\u0020", b"\\u007e", b"\\u007f", b"\x7f", b"\\u0022", b"\\u005c", b"\\u005C",
           b"\xc3\xa5", b"\\u00e5", b"\xe2\x82\xac", b"\xf0\x9f\x98\x80", b"\\ud83d\\ude00", b"\\ud83d", b"\xff", b"\t", b" ",
           b"~", b"\xc3\xa5" * 16)
SECONDS = (b"0", b"1", b"9", b"10", b"59", b"86399", b"86400", b"86401", b"99999", b"100000", b"4294967296",
           b"18446744073709551616", b"00", b"01", b"005", b"-1", b"-0", b"+1", b"1.0", b"1e1", b"", b" 1", b"1 ", b"0x1", b"a",
           b"\\u0031", b"\\u00300", b"\xd9\xa1", b"1" * 36, b"0" * 37)
INTEGERS = (b"0", b"1", b"-1", b"9", b"-9", b"10", b"-10", b"32767", b"32768", b"-32768", b"-32769", b"65536", b"2147483646", b"2147483647",
            b"2147483648", b"-2147483647", b"-2147483648", b"-2147483649", b"4294967295", b"4294967296", b"-4294967296", b"9999999999",
            b"18446744073709551616", b"-18446744073709551616", b"00", b"-0", b"-00", b"01", b"-01", b"+1", b"--1", b"-", b"", b" 1", b"1 ",
            b"- 1", b"1-", b"1.0", b"1e1", b"0x1", b"a", b"-a", b"\\u0031", b"\\u002d1", b"-\\u0031", b"\\u002d\\u0030", b"\xd9\xa1", b"1" * 36,
            b"-" + b"1" * 35, b"0" * 37)
VERSIONS = (b"3", b"3.2", b"3.2.0", b"3.1.5", b"3.1.4", b"3.1", b"3.2.1", b"0", b"0.0.0", b"255.255.255", b"256", b"3.256",
            b"3.2.256", b"999", b"3.2.0.0", b"03.2", b"3.02", b"3.2.00", b"3.", b".3", b".", b"..", b"3..2", b"3.2.", b"",
            b" 3.2", b"3.2 ", b"3,2", b"+3.2", b"-3.2", b"3.2a", b"v3.2", b"3\\u002e2", b"\\u0033.2", b"3.2\\u0000",
            b"\xd9\xa3.2", b"3.2.0" + b"0" * 40, b"4294967299.2", b"10.10.10")
TIMES = (b"1970-01-01T00:00:00.000Z", b"1969-12-31T23:59:59.999Z", b"9999-12-31T23:59:59.999Z", b"2000-02-29T00:00:00.000Z",
         b"1900-02-29T00:00:00.000Z", b"2001-02-29T00:00:00.000Z", b"2100-02-29T00:00:00.000Z", b"2004-02-29T12:00:00.000Z",
         b"2015-04-31T00:00:00.000Z", b"2015-00-01T00:00:00.000Z", b"2015-13-01T00:00:00.000Z", b"2015-01-00T00:00:00.000Z",
         b"2015-01-32T00:00:00.000Z", b"2015-06-08T23:59:59.999Z", b"2015-06-08T24:00:00.000Z", b"2015-06-08T12:60:00.000Z",
         b"2015-06-08T12:00:60.000Z", b"2015-06-08T12:00:00Z", b"2015-06-08T12:00:00.00Z", b"2015-06-08T12:00:00.0000Z",
         b"2015-06-08T12:00:00.5Z", b"2015-06-08T12:00:00.12Z", b"2015-06-08T12:00:00.1239Z", b"2015-06-08T12:00:00.12399Z",
         b"2015-06-08T12:00:00.999999Z", b"2015-06-08T12:00:00.1234567Z", b"2015-06-08T12:00:00.Z", b"9999-12-31T23:59:59.999999Z",
         b"2015-06-08T12:00:00\\u002e5Z", b"2015-06-08T12:00:00.000", b"2015-06-08T12:00:00.000z", b"2015-06-08t12:00:00.000Z", b"2015-06-08 12:00:00.000Z",
         b"2015-06-08T12:00:00,000Z", b"2015-06-08T12:00:00.000+00:00", b"0000-01-01T00:00:00.000Z",
         b"10000-01-01T00:00:00.000Z", b"2015-6-08T12:00:00.000Z", b" 2015-06-08T12:00:00.000Z", b"2015-06-08T12:00:00.000Z ",
         b"2015-06-08T1a:00:00.000Z", b"2015\\u002d06-08T12:00:00.000Z", b"2015-06-08T12:00:00.000\\u005a",
         b"201\xd9\xa5-06-08T12:00:00.000Z", b"", b"2015-06-08T-1:00:00.000Z", b"9999-12-31T23:59:59.999ZZZZZZZZZZZZZZZZ")
IDENTITIES = (MID.encode(), *(other.encode() for other in OTHER_CASES), b"", MID[:35].encode(), MID.encode() + b"0",
              MID.encode() + b" ", MID.replace("-", "").encode(), MID.replace("-", "_").encode(),
              b"{" + MID[1:35].encode() + b"}", MID.replace("e", "g").encode(), MID.replace("e", "\\u0065").encode(),
              MID.replace("-", "\\u002d").encode(), MID.replace("e", "\\u0045").encode(),
              b"e68a0010c-336-41ac-bd58-5c80a72c7092", b"e68a0010-c336-41ac-bd585c80a72c7092-",
              b"00000000-0000-0000-0000-000000000000", b"ffffffff-ffff-ffff-ffff-ffffffffffff",
              b"FFFFFFFF-FFFF-FFFF-FFFF-FFFFFFFFFFFF", b"e68a0010-c336-41ac-bd58-5c80a72c709\xd9\xa1",
              MID[:35].encode() + b"\\u0000", MID[:35].encode() + b"/", MID[:35].encode() + b":", MID[:35].encode() + b"@",
              MID[:35].encode() + b"`")
TYPES = (b"Version", b"version", b"VERSION", b"Versio", b"Versions", b"Version ", b"", b"\\u0056ersion", b"Watchdog", b"Alarm",
         b"AggregatedStatus", b"AggregatedStatusRequest", b"StatusRequest", b"StatusResponse", b"StatusSubscribe",
         b"StatusUpdate", b"StatusUnsubscribe", b"CommandRequest", b"CommandResponse", b"MessageAck", b"MessageNotAck",
         b"StatusRequestAckIncluded", b"StatusResponseAckIncluded", b"CommandRequestAckIncluded", b"CommandResponseAckIncluded",
         b"StatusRequestAckInclude", b"StatusRequestAckIncludedd", b"CommandRequestackIncluded", b"StatusSubscribeAckIncluded",
         b"StatusUpdateAckIncluded", b"AckIncluded", b"StatusRequest\\u0041ckIncluded",
         b"messageAck", b"MessageAc", b"Message\\u0041ck", b"AggregatedStatusRequestAggregatedStatusRequest",
         b"Missing element", b"rSMsg")
MTYPES = (b"rSMsg", b"rsmsg", b"RSMSG", b"rSMs", b"rSMsg ", b" rSMsg", b"rSMsmsg", b"", b"rS\\u004dsg", b"rSMsg\\u0000",
          b"rSMsg" * 10)
ORDER_WORDS = (*(order.encode() for order in ORDERS), b"Issue", b"request", b"Reques", b"Requests", b"", b"\\u0052equest",
               b"resume", b"Resum\xc3\xa9")


def quoted(body):
    return b'"' + body + b'"'


def spoiled():
    for members in EVERY:
        for changed, left_out in places(members):
            yield raw(left_out)
            for wrong in WRONG:
                yield raw(changed(wrong))
    for members in EVERY:
        for body in IDENTITIES:
            yield raw(put(put(members, "mId", quoted(body)), "oMId", quoted(body)))
    for body in TYPES:
        for members in (VERSION, ALARM, ACK, [*SUBSCRIBE, ("oMId", MID)]):
            yield raw(put(members, "type", quoted(body)))
    for body in MTYPES:
        for members in (WATCHDOG, ACK, put(NOT_ACK, "type", "CommandResponse") + [("mId", MID)]):
            yield raw(put(members, "mType", quoted(body)))


def strings():
    for members, name in ((VERSION, "SXL"), (ALARM, "cId"), (ALARM, "aCId"), (AGGREGATED, "cId"), (SUBSCRIBE, "cId"), (COMMAND, "cId")):
        for body in STRINGS:
            yield raw(put(members, name, quoted(body)))
    for body in STRINGS:
        yield raw(put(VERSION, "siteId", b'[{"sId":' + quoted(body) + b"}]"))
        yield raw(put(REQUEST, "sS", b'[{"n":"a","sCI":' + quoted(body) + b"}]"))
        yield raw(put(UNSUBSCRIBE, "sS", b'[{"sCI":"a","n":' + quoted(body) + b"}]"))
        for name in ("cCI", "n", "cO"):
            yield raw(put(COMMAND, "arg", b"[" + raw(put(value_in(COMMAND, "arg")[0].items(), name, quoted(body))) + b"]"))
    for body in INTEGERS:
        yield raw(put(COMMAND, "arg", b'[{"cCI":"M","n":"n","cO":"o","v":' + quoted(body) + b"}]"))
    for body in VERSIONS:
        yield raw(put(VERSION, "RSMP", b'[{"vers":' + quoted(body) + b"}]"))
    for body in TIMES:
        yield raw(put(WATCHDOG, "wTs", quoted(body)))
    for body in ORDER_WORDS:
        yield raw(put(ALARM, "aSp", quoted(body)))
    for body in SECONDS:
        for change in (b"true", b"false", b'"true"', b"null", b"1"):
            yield raw(put(SUBSCRIBE, "sS", b'[{"sCI":"S","n":"n","uRt":' + quoted(body) + b',"sOc":' + change + b"}]"))


# Lists.

def entries(name, count):
    entry = value_in(LISTED[name], name)[0]
    return [entry] * count


def lists():
    for name, members in LISTED.items():
        entry = value_in(members, name)[0]
        for count in (0, 1, 2, 15, 16, 17, 18, 40):
            yield raw(put(members, name, entries(name, count)))
        for at in (0, 1, 15, 16, 17):
            lacking = [{n: v for n, v in entry.items() if n != gone} for gone in entry]
            for other in (1, "x", [], None, True, {}, {"z": 1}, dict.fromkeys(entry, 7), *lacking):
                spoiled_list = entries(name, at) + [other]
                yield raw(put(members, name, spoiled_list))
                yield raw(put(members, name, spoiled_list + entries(name, 1)))
        yield raw(put(members, name, [1, {}]))
        yield raw(put(members, name, [{}, 1]))
        yield raw(put(members, name, b" [ ] "))
        yield raw(put(members, name, b"[ " + text(entry) + b" , " + text(entry) + b"\n]"))
        yield raw(put(members, name, [dict(reversed(entry.items()))]))
        yield raw(put(members, name, [{**entry, "z": [entry, {"a": []}]}]))
    for kind in ("StatusRequest", "StatusUnsubscribe", "StatusSubscribe"):
        for members in (REQUEST, SUBSCRIBE):
            yield raw(put(members, "type", kind))
    longest = {"sCI": ALPHABETIC[:32], "n": ALPHABETIC[-32:], "uRt": "86400", "sOc": True}
    yield raw(put(put(SUBSCRIBE, "sS", [longest] * 16), "cId", ALPHABETIC[30:62]))
    longest = {"cCI": ALPHABETIC[:32], "n": ALPHABETIC[-32:], "cO": ALPHABETIC[20:52], "v": "-2147483648"}
    yield raw(put(put(COMMAND, "arg", [longest] * 16), "cId", ALPHABETIC[30:62]))
    yield raw([*VERSION[:3], ("RSMP", [{"vers": "255.255.255"}] * 16), ("siteId", [{"sId": ALPHABETIC[:32]}] * 16),
               ("SXL", ALPHABETIC[-32:])])


OFFERS = (("3.1.5",), ("3.2",), ("3.2.0",), ("3.2", "3.1.5"), ("3.1.5", "3.2.0"), ("3",), ("3.1",), ("3.2.1",),
          ("3.10", "3.1.5"), (), ("4", "3.1.5", "3.1.3"), ("3.1.4",), ("3.1.4", "3.2", "3.1.5"), ("3.1.5", "3.1.4.0"), ("3.1.4", "3.1.3"), ("3.2", "3.2.0", "3.2"), ("2.1.5", "3.20"), ("255.255.255",), ("0",),
          ("3.1.5",) * 16)


def greetings():
    site_lists = (SITE,), ("x", SITE), (), (SITE.lower(),), (SITE + "x",)
    for versions, sites, sxl in itertools.product(OFFERS, site_lists, (SXL, "1.0.130", "1.0.1")):
        yield raw([*VERSION[:3], ("RSMP", [{"vers": v} for v in versions]), ("siteId", [{"sId": s} for s in sites]), ("SXL", sxl)])


# Missing before bad, in every order of the elements.

def orders():
    for members in (ALARM, VERSION, WATCHDOG):
        body = members[3:]
        for order in itertools.permutations(body):
            yield raw(members[:3] + list(order))
            yield raw(list(order) + members[2::-1])
    for members in REQUESTS:
        for bad, gone in itertools.permutations([name for name, _ in members], 2):
            yield raw(without(put(members, bad, 7), gone))
            yield raw(without(put(members, bad, 7), gone)[::-1])
    for name, members in (("sS", SUBSCRIBE), ("arg", COMMAND)):
        entry = value_in(members, name)[0]
        for gone, bad in itertools.permutations(entry, 2):
            one, two = {n: v for n, v in entry.items() if n != gone}, {**entry, bad: 7}
            yield raw(put(members, name, [one, two]))
            yield raw(put(members, name, [two, one]))
            yield raw(put(put(members, "cId", 7), name, [one]))
            yield raw(put(members, name, [{n: v for n, v in two.items() if n != gone}]))


def written_otherwise():
    """Unknown elements, names twice, white space, escaped names, levels, other encodings."""
    for members in EVERY:
        packet = raw(members)
        yield raw([("x", {"mType": 1, "mId": 2}), *members, ("y", [[["mId"]]]), ("MID", 0), ("mid", "")])
        yield raw([*members, ("ntsOId", ""), ("xNId", ""), ("nts0Id", None)])
        for name, value in members:
            yield raw([*members, (name, value)])
            yield raw([(name, 1), *members])
            yield packet.replace(text(name) + b":", b'"\\u%04x%s":' % (ord(name[0]), name[1:].encode()))
            yield packet.replace(text(name) + b":", text(name) + b" \t\r\n : ")
            yield packet.replace(text(name) + b":", text(name.lower()) + b":")
            yield packet.replace(text(name) + b":", text(name + " ") + b":")
        yield b" \t\r\n" + packet + b"\n\r\t "
        yield packet.replace(b",", b" , ").replace(b"{", b"{ ").replace(b"}", b" }")
        yield from (packet + b"x", packet[:-1], packet + packet, b"[" + packet + b"]", packet + b"\f", b"\xef\xbb\xbf" + packet,
                    packet[1:], b"", b"{}")
        for levels in (6, 7, 8):
            yield raw([*members, ("deep", b"[" * levels + b"]" * levels)])
        yield packet.decode("ascii").encode("utf-16")
        yield raw([*members, ("long", "x" * 4000)])
    yield raw([*WATCHDOG, ("oMId", MID)])
    yield raw([*ACK, ("mId", MID)])
    yield raw([*put(ACK, "mType", 1), ("mId", MID)])
    yield raw([*WATCHDOG, ("pad", "y" * (LONGEST - len(raw(WATCHDOG)) - 9))])


# Random ones.

def some(source, bodies):
    return quoted(source.choice(bodies))


def some_text(source, good_ones, others):
    return text(source.choice(good_ones)) if source.random() < 0.93 else source.choice((some(source, others), source.choice(WRONG)))


def some_label(source):
    label = "".join(source.choice(ALPHABETIC) for _ in range(source.choice((1, 32, source.randint(1, 32)))))
    if source.random() < 0.1:
        return quoted(b"".join(b"\\u%04x" % ord(c) for c in label))
    return some_text(source, (label,), STRINGS)


def some_identity(source):
    plain = "".join(source.choice((c, c.upper())) for c in str(uuid.UUID(int=source.getrandbits(128))))
    return some_text(source, (plain,), IDENTITIES)


def shuffled(source, members):
    """The members in some order, now and then one left out, one twice, one unknown; spaces now and then."""
    members = [member for member in members if source.random() > 0.02]
    if source.random() < 0.3:
        source.shuffle(members)
    if source.random() < 0.1:
        members.insert(source.randint(0, len(members)), ("z", source.choice(WRONG)))
    if source.random() < 0.01 and members:
        members.append(source.choice(members))
    space = source.choice((b"", b"", b"", b" ", b"\n\t"))
    return b"{" + space + (b"," + space).join(text(name) + space + b":" + space + value for name, value in members) + space + b"}"


def some_list(source, entry):
    count = source.choice((0, 1, 1, 2, 3, 16, 17, source.randint(0, 18)))
    return b"[" + b",".join(source.choice(WRONG) if source.random() < 0.01 else entry() for _ in range(count)) + b"]"


def some_entry(source, subscribing):
    members = [("sCI", some_label(source)), ("n", some_label(source))]
    if subscribing or source.random() < 0.1:
        members += [("uRt", some_text(source, (str(source.randint(1, 86400)), "86400"), SECONDS)),
                    ("sOc", source.choice((b"true", b"false", b"true", b"false", b"true", source.choice(WRONG))))]
    return calm(source, members)


def some_command(source):
    value = source.choice((0, 1, -1, source.randint(-32768, 32767), source.randint(-2**31, 2**31 - 1)))
    return calm(source, [("cCI", some_label(source)), ("n", some_label(source)), ("cO", some_label(source)),
                         ("v", some_text(source, (str(value),), INTEGERS))])


def calm(source, members):
    """As `shuffled`, rarely: entries are many."""
    return shuffled(source, members) if source.random() < 0.1 else raw(members)


def some_version(source):
    return ".".join(str(source.choice((0, 1, 2, 3, 5, 255, source.randrange(256)))) for _ in range(source.randint(1, 3)))


def some_fields(source, kind):
    kind = message.plain(kind)
    if kind == "Version":
        vers = lambda: calm(source, [("vers", some_text(source, ("3.2", "3.1.5", "3.1.4", "3.2.0", some_version(source)), VERSIONS))])
        site = lambda: calm(source, [("sId", text(SITE) if source.random() < 0.5 else some_label(source))])
        return [("RSMP", some_list(source, vers)), ("siteId", some_list(source, site)),
                ("SXL", text(SXL) if source.random() < 0.7 else some_label(source))]
    if kind == "Watchdog":
        return [("wTs", some_text(source, (message.time_text(source.randrange(message.LAST + 1)),), TIMES))]
    fields = [("cId", some_label(source))]
    if kind == "Alarm":
        fields += [("aCId", some_label(source)), ("aSp", some_text(source, tuple(ORDERS), ORDER_WORDS))]
    if kind in message.STATUS_TYPES:
        fields += [("sS", some_list(source, lambda: some_entry(source, kind == "StatusSubscribe")))]
    if kind == "CommandRequest":
        fields += [("arg", some_list(source, lambda: some_command(source)))]
    return fields


def some_packet(source):
    kind = source.choice(message.TAKEN * 2 + message.ANSWERS)
    kind_text = text(kind) if source.random() < 0.97 else some(source, TYPES)
    m_type = some_text(source, ("rSMsg",) * 3, MTYPES)
    if kind in message.ANSWERS:
        return shuffled(source, [("mType", m_type), ("type", kind_text), ("oMId", some_identity(source))])
    return shuffled(source, [("mType", m_type), ("type", kind_text), ("mId", some_identity(source)), *some_fields(source, kind)])


def randoms(source, count):
    for _ in range(count):
        packet = some_packet(source)
        while len(packet) > LONGEST - 10:
            packet = some_packet(source)
        yield packet
        yield damaged(source, packet)


def fixed():
    return itertools.chain(spoiled(), strings(), lists(), greetings(), orders(), written_otherwise())


def stored_pairs():
    """Every fifth of the fixed ones, for their size; --fresh runs them all."""
    for packet in (*listings(), *as_printed(), *itertools.islice(fixed(), 0, None, 5), *randoms(random.Random(7), 20)):
        yield pair(packet)


def fresh(source):
    yield "limits and spoiled elements,", [pair(packet) for packet in fixed()]
    pairs = [pair(packet) for packet in randoms(source, 5000)]
    accepted = sum(answer != b"-\n" for _, answer in pairs)
    yield f"random packets, {accepted} of them not ignored,", pairs


if __name__ == "__main__":
    sys.exit(cases.script("run_reads", stored_pairs, fresh, __doc__))
