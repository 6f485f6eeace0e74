"""Document 01, "Packets and JSON", "Which packets are answered": what a packet says, and the texts of the written messages."""
import datetime
import json
import re

from .table import ALPHABET

LAST = 253402300799999
LEVELS, ENTRIES, SECONDS = 8, 16, 86400
EPOCH = datetime.datetime(1970, 1, 1)
MILLISECOND = datetime.timedelta(milliseconds=1)
IDENTITY = re.compile(r"[0-9a-fA-F]{8}(-[0-9a-fA-F]{4}){3}-[0-9a-fA-F]{12}")
TIME = re.compile(r"([0-9]{4})-([0-9]{2})-([0-9]{2})T([0-9]{2}):([0-9]{2}):([0-9]{2})(?:\.([0-9]{1,6}))?Z")
DECIMAL = re.compile(r"0|[1-9][0-9]*")
INTEGER = re.compile(r"0|-?[1-9][0-9]*")
ANSWERS = ("MessageAck", "MessageNotAck")
STATUS_TYPES = ("StatusRequest", "StatusSubscribe", "StatusUnsubscribe")
INCLUDED = ("StatusRequestAckIncluded", "CommandRequestAckIncluded")
TAKEN = ("Version", "Watchdog", "Alarm", "AggregatedStatusRequest") + STATUS_TYPES + ("CommandRequest",) + INCLUDED
INCLUDED_RESPONSES = ("StatusResponseAckIncluded", "CommandResponseAckIncluded")
OFFERED = ("3.1.4", "3.1.5", "3.2")
OLDER = (3, 1, 4)


# Reading.

class BadJson(Exception):
    pass


def refuse(_):
    raise BadJson


def members(pairs):
    if len({name for name, _ in pairs}) != len(pairs):
        raise BadJson
    return dict(pairs)


class Number:
    def __init__(self, text):
        self.text = text


DECODER = json.JSONDecoder(object_pairs_hook=members, parse_int=Number, parse_float=Number, parse_constant=refuse)


def judge_levels(value, level):
    if isinstance(value, str) and any(0xD800 <= ord(c) <= 0xDFFF for c in value):
        raise BadJson
    if isinstance(value, (list, dict)):
        if level == LEVELS:
            raise BadJson
        for item in value if isinstance(value, list) else [*value.keys(), *value.values()]:
            judge_levels(item, level + 1)


def parse(packet):
    """The packet's object, or None."""
    try:
        text = packet.decode("utf-8")
        value, end = DECODER.raw_decode(text, len(text) - len(text.lstrip(" \t\n\r")))
        if text[end:].strip(" \t\n\r") or not isinstance(value, dict):
            return None
        judge_levels(value, 0)
        return value
    except (UnicodeDecodeError, json.JSONDecodeError, BadJson, RecursionError):
        return None


def identity(value):
    """The identity in lower case, or None."""
    return value.lower() if isinstance(value, str) and IDENTITY.fullmatch(value) else None


def read_time(value):
    """The milliseconds and how many decimals stood there (document 02, request 05), or None."""
    found = TIME.fullmatch(value) if isinstance(value, str) else None
    if not found:
        return None
    *parts, decimals = found.groups(default="")
    try:
        ms = (datetime.datetime(*map(int, parts), int(decimals.ljust(6, "0"))) - EPOCH) // MILLISECOND
    except ValueError:
        return None
    return (ms, len(decimals)) if ms >= 0 else None


def is_label(value):
    return isinstance(value, str) and 1 <= len(value) <= 32 and all(ord(c) in ALPHABET for c in value)


def read_version(value):
    if not isinstance(value, str):
        return None
    parts = value.split(".")
    if not 1 <= len(parts) <= 3 or not all(DECIMAL.fullmatch(part) and int(part) <= 255 for part in parts):
        return None
    return tuple(int(part) for part in parts) + (0,) * (3 - len(parts))


def read_seconds(value):
    return int(value) if isinstance(value, str) and DECIMAL.fullmatch(value) and int(value) <= SECONDS else None


def read_integer(value):
    """The signed 32-bit number whose shortest decimal text this is, or None (request 01)."""
    whole = int(value) if isinstance(value, str) and len(value) <= 11 and INTEGER.fullmatch(value) else None
    return whole if whole is not None and -2**31 <= whole < 2**31 else None


class Reason(Exception):
    pass


MISSING, BAD = "Missing element", "Bad value"


def need(fields, *names):
    for name in names:
        if name not in fields:
            raise Reason(MISSING)


def need_entries(values, *names):
    for entry in values if isinstance(values, list) else []:
        if isinstance(entry, dict):
            need(entry, *names)


def good(test):
    if not test:
        raise Reason(BAD)


def good_list(values):
    good(isinstance(values, list) and len(values) <= ENTRIES and all(isinstance(entry, dict) for entry in values))


def version_fields(fields):
    need(fields, "RSMP", "siteId", "SXL")
    need_entries(fields["RSMP"], "vers")
    need_entries(fields["siteId"], "sId")
    good_list(fields["RSMP"])
    good_list(fields["siteId"])
    versions = [read_version(entry["vers"]) for entry in fields["RSMP"]]
    good(all(version is not None for version in versions))
    sites = [entry["sId"] for entry in fields["siteId"]]
    good(all(is_label(site) for site in sites) and is_label(fields["SXL"]))
    return {"versions": versions, "sites": sites, "sxl": fields["SXL"]}


def watchdog_fields(fields):
    need(fields, "wTs")
    read = read_time(fields["wTs"])
    good(read is not None)
    time, decimals = read
    return {"time": time, "decimals": decimals}


def alarm_fields(fields):
    need(fields, "cId", "aCId", "aSp")
    good(is_label(fields["cId"]) and is_label(fields["aCId"]))
    good(fields["aSp"] in ("Request", "Acknowledge", "Suspend", "Resume"))
    return {"component": fields["cId"], "code": fields["aCId"], "order": fields["aSp"]}


def aggregated_fields(fields):
    need(fields, "cId")
    good(is_label(fields["cId"]))
    return {"component": fields["cId"]}


def status_fields(fields, subscribing, older):
    """Request 07: on a link of the edition before a subscription has no sOc; uRt 0 is at each change, any other number by interval only."""
    need(fields, "cId", "sS")
    need_entries(fields["sS"], "sCI", "n", *(("uRt",) if subscribing else ()), *(("sOc",) if subscribing and not older else ()))
    good(is_label(fields["cId"]))
    good_list(fields["sS"])
    entries = []
    for entry in fields["sS"]:
        good(is_label(entry["sCI"]) and is_label(entry["n"]))
        rate, change = None, None
        if subscribing:
            rate = read_seconds(entry["uRt"])
            change = rate == 0 if older else entry["sOc"]
            good(rate is not None and isinstance(change, bool) and (rate > 0 or change))
        entries.append((entry["sCI"], entry["n"], rate, change))
    return {"component": fields["cId"], "entries": entries}


def command_fields(fields):
    need(fields, "cId", "arg")
    need_entries(fields["arg"], "cCI", "n", "cO", "v")
    good(is_label(fields["cId"]))
    good_list(fields["arg"])
    entries = []
    for entry in fields["arg"]:
        good(is_label(entry["cCI"]) and is_label(entry["n"]) and is_label(entry["cO"]))
        value = read_integer(entry["v"])
        good(value is not None)
        entries.append((entry["cCI"], entry["n"], value))
    return {"component": fields["cId"], "entries": entries}


def plain(kind):
    """The type whose elements, limits and reasons this one has: request 04's types have those of the old ones."""
    return kind.removesuffix("AckIncluded")


def fields_of(kind, fields, older=False):
    """The fields of a packet of a taken type, on a link of the edition before or not; Reason where one is missing or bad."""
    kind = plain(kind)
    if kind == "Version":
        return version_fields(fields)
    if kind == "Watchdog":
        return watchdog_fields(fields)
    if kind == "Alarm":
        return alarm_fields(fields)
    if kind == "AggregatedStatusRequest":
        return aggregated_fields(fields)
    if kind == "CommandRequest":
        return command_fields(fields)
    return status_fields(fields, kind == "StatusSubscribe", older)


def head_of(packet):
    """What a packet is, whatever the site's state: None where it is ignored; the type and the identity of an answer; else its type
    (None where it is not taken), the received mId, what is wrong with mType (or None), and its elements."""
    fields = parse(packet)
    if fields is None:
        return None
    kind = fields.get("type") if isinstance(fields.get("type"), str) else None
    m_type = fields.get("mType")
    reason = MISSING if "mType" not in fields else None if m_type == "rSMsg" else BAD
    if kind in ANSWERS:
        answered = identity(fields.get("oMId"))
        return (kind, answered) if reason is None and answered else None
    received = fields.get("mId")
    if identity(received) is None:
        return None
    return (kind if kind in TAKEN else None, received, reason, fields)


def judge(said, site, sxl):
    """The version that is chosen of what a Version says; Reason where one of the three checks fails."""
    common = {read_version(offered) for offered in OFFERED} & set(said["versions"])
    if not common:
        raise Reason("RSMP version")
    if site not in said["sites"]:
        raise Reason("Site id")
    if sxl != said["sxl"]:
        raise Reason("SXL version")
    return max(common)


# Writing: no spaces, elements in the order of source document 000's listings.

def text(value):
    return json.dumps(value, separators=(",", ":")).encode("ascii")


def time_text(ms):
    moment = EPOCH + ms * MILLISECOND
    return moment.strftime("%Y-%m-%dT%H:%M:%S.") + "%03dZ" % (moment.microsecond // 1000)


def time_with(ms, decimals):
    """A time as a supervisor may write it, its second with these decimals; without any there is no dot."""
    return time_text(ms)[:19] + ("." + decimals if decimals else "") + "Z"


def head(kind, identity_):
    return {"mType": "rSMsg", "type": kind, "mId": identity_}


def about(kind, identity_, component):
    """Request 04: a response that carries the acknowledgement has the identity that was received, as it came, and none of its own."""
    begun = {"mType": "rSMsg", "type": kind, "oMId": identity_} if kind in INCLUDED_RESPONSES else head(kind, identity_)
    return {**begun, "ntsOId": "", "xNId": "", "cId": component}


def version(identity_, site, sxl):
    return text({**head("Version", identity_), "RSMP": [{"vers": offered} for offered in OFFERED], "siteId": [{"sId": site}], "SXL": sxl})


def watchdog(identity_, time):
    return text({**head("Watchdog", identity_), "wTs": time_text(time)})


def ack(received):
    return text({"mType": "rSMsg", "type": "MessageAck", "oMId": received})


def not_ack(received, reason):
    return text({"mType": "rSMsg", "type": "MessageNotAck", "oMId": received, "rea": reason})


def alarm(identity_, component, code, event, acknowledged, active, suspended, time, category, priority):
    return text({**about("Alarm", identity_, component), "aCId": code, "xACId": "", "xNACId": "",
                 "aSp": ("Issue", "Acknowledge", "Suspend")[event],
                 "ack": "Acknowledged" if acknowledged else "notAcknowledged",
                 "aS": "Active" if active else "inActive",
                 "sS": "Suspended" if suspended else "notSuspended",
                 "aTs": time_text(time), "cat": "D" if category else "T", "pri": str(priority), "rvs": []})


def aggregated(identity_, component, time, value):
    return text({**about("AggregatedStatus", identity_, component), "aSTS": time_text(time), "fP": "", "fS": "",
                 "se": [bool(value >> place & 1) for place in range(7, -1, -1)]})


def statuses(kind, identity_, component, time, entries):
    """Entries: code, name, value or None, quality."""
    return text({**about(kind, identity_, component), "sTs": time_text(time),
                 "sS": [{"sCI": code, "n": name, "s": None if value is None else str(value), "q": quality}
                        for code, name, value, quality in entries]})


def commands(kind, identity_, component, time, entries):
    """Entries: code, name, value or None, age."""
    return text({**about(kind, identity_, component), "cTS": time_text(time),
                 "rvs": [{"cCI": code, "n": name, "v": None if value is None else str(value), "age": age}
                         for code, name, value, age in entries]})
