"""Document 01 whole, with the commands of request 01: the nine calls of a site. A call answers its number, and where it is done also the
closed links, the hint, the written bytes and the commands that it hands over. Two sites share a box (document 02, request 10)."""
import uuid

from . import link as links_
from . import message, table
from .alarm import Aggregated, Alarm, Status, Subscription
from .link import Link
from .pool import Pool, Record

LINKS, OUTPUT, PACKET, LAST, LAST_SEQUENCE = 4, 4096, 4096, message.LAST, 2147483647
FORM_FEED = b"\x0c"


class Refused(Exception):
    def __init__(self, number):
        self.number = number


class Done:
    number = 0

    def __init__(self, closed=(), hint=None, written=b"", commands=()):
        self.closed, self.hint, self.written = sorted(closed), hint, written
        self.commands = list(commands)     # (number, value)


class Box:
    """Two sites, 0 north and 1 south, each None before its start, and the pool that they share."""

    def __init__(self):
        self.pool, self.sites = Pool(), [None, None]

    def start(self, site, data, links, primary, period, first, time):
        """Makes the site; not where number 11 is given. Site None is alone: site 0, and whatever the box held before is gone."""
        try:
            read = table.read(data)
        except table.Refused:
            return False
        if not 1 <= links <= LINKS or primary is not None and not 0 <= primary < links:
            return False
        if not 1 <= period <= 3600 or not 0 <= first <= LAST_SEQUENCE or not 0 <= time <= LAST or site not in (None, 0, 1):
            return False
        if site is None:
            self.__init__()
        number = site or 0
        for link in range(LINKS):
            self.pool.clear(LINKS * number + link)
        self.sites[number] = Site(self.pool, number, read, links, primary, period, first, time)
        return True


class Site:
    def __init__(self, pool, number, table_, links, primary, period, first, time):
        self.pool, self.number = pool, number
        self.table, self.primary, self.period, self.next, self.last = table_, primary, period, first, time
        self.links = [Link() for _ in range(links)]
        self.alarms = [Alarm(time) for _ in table_.alarms]
        self.statuses = [Status() for _ in table_.statuses]
        self.subscriptions = [{} for _ in range(links)]
        self.aggregated = Aggregated(time)

    def owner(self, link):
        return LINKS * self.number + link

    def held(self, link):
        return self.pool.held(self.owner(link))

    def lost(self, link):
        return self.pool.lost[self.owner(link)]

    def records(self, link):
        """Held for the link, oldest first."""
        return self.pool.of(self.owner(link))

    # The checks, in document 01's order: 2, 3, 4, 12, 5, 6, 1, 7, 8, 9, 10.

    def call(self, name, *arguments):
        try:
            return getattr(self, name)(*arguments)
        except Refused as refused:
            return refused

    def judge_link(self, link):
        if not link < len(self.links):
            raise Refused(2)

    def judge_item(self, number, rows):
        if not number < len(rows):
            raise Refused(3)

    def judge_output(self, room):
        if room < OUTPUT:
            raise Refused(4)

    def judge_time(self, time):
        if not self.last <= time <= LAST:
            raise Refused(5)

    def judge_phase(self, link, down):
        if (self.links[link].phase == links_.DOWN) != down:
            raise Refused(6)

    def judge_records(self, count):
        if self.next + count - 1 > LAST_SEQUENCE and count:
            raise Refused(10)

    # What calls share.

    def issue(self, link, kind, item, flags, time, value):
        self.pool.issue(Record(self.owner(link), kind, item, flags, time, value, self.next))
        self.next += 1

    def issue_alarm(self, number):
        alarm = self.alarms[number]
        self.issue(self.primary, 0, number, alarm.flags(), alarm.time, 0)

    def issue_status(self, link, number, time):
        """Old where the link is not Up as it is issued (request 02)."""
        status, old = self.statuses[number], self.links[link].phase != links_.UP
        self.issue(link, 1, number, status.flags(old), time, status.word())

    def close(self, link):
        self.links[link].close()
        self.pool.unmark(self.owner(link))

    def identity(self, random):
        return str(uuid.UUID(bytes=random, version=4))

    def alarm_text(self, identity, number, event, acknowledged, active, suspended, time):
        component, priority, category, code = self.table.alarms[number]
        return message.alarm(identity, self.table.components[component].decode(), code.decode(), event, acknowledged, active,
                             suspended, time, category, priority)

    def alarm_now(self, identity, number):
        alarm = self.alarms[number]
        return self.alarm_text(identity, number, alarm.event, alarm.acknowledged, alarm.active, alarm.suspended, alarm.time)

    def aggregated_text(self, identity, time, value):
        return message.aggregated(identity, self.table.components[0].decode(), time, value)

    def status_entry(self, number):
        _, code, name = self.table.statuses[number]
        value = self.statuses[number].value
        return code.decode(), name.decode(), value, "unknown" if value is None else "recent"

    def record_text(self, identity, record):
        if record.kind == 0:
            flags = record.flags
            return self.alarm_text(identity, record.item, flags >> 4, flags >> 3 & 1, flags >> 2 & 1, flags >> 1 & 1, record.time)
        if record.kind == 1:
            component, code, name = self.table.statuses[record.item]
            known, old = record.flags >> 5, record.flags >> 4 & 1
            value = (record.value + 2**31) % 2**32 - 2**31 if known else None
            entry = code.decode(), name.decode(), value, ("old" if old else "recent") if known else "unknown"
            return message.statuses("StatusUpdate", identity, self.table.components[component].decode(), record.time, [entry])
        return self.aggregated_text(identity, record.time, record.value)

    # The calls.

    def connect(self, link, time):
        self.judge_link(link)
        self.judge_time(time)
        self.judge_phase(link, True)
        self.last = time
        self.links[link].connect()
        return Done()

    def disconnect(self, link, time):
        self.judge_link(link)
        self.judge_time(time)
        self.judge_phase(link, False)
        self.last = time
        self.close(link)
        return Done(closed=[link])

    def alarm(self, number, active, time):
        self.judge_item(number, self.table.alarms)
        self.judge_time(time)
        alarm = self.alarms[number]
        issues = self.primary is not None and active != alarm.active and not alarm.suspended
        self.judge_records(int(issues))
        self.last = time
        alarm.input(active, time)
        if issues:
            self.issue_alarm(number)
        return Done()

    def status(self, number, value, time):
        self.judge_item(number, self.table.statuses)
        self.judge_time(time)
        changed = self.statuses[number].value != value
        takers = [link for link, own in enumerate(self.subscriptions) if number in own and own[number].on_value(changed)]
        self.judge_records(len(takers))
        self.last = time
        self.statuses[number].set(value)
        for link in takers:
            self.issue_status(link, number, time)
        return Done()

    def aggregate(self, value, time):
        self.judge_time(time)
        changed = value != self.aggregated.value
        self.judge_records(len(self.links) if changed else 0)
        self.last = time
        self.aggregated.set(value, time)
        if changed:
            for link in range(len(self.links)):
                self.issue(link, 2, 0, 0, time, value)
        return Done()

    def tick(self, time):
        self.judge_time(time)
        due = [(link, number) for link, own in enumerate(self.subscriptions) for number in sorted(own)
               if own[number].seconds and time - own[number].since >= own[number].seconds * 1000]
        self.judge_records(len(due))
        self.last = time
        closed = [link for link, one in enumerate(self.links) if one.late(time)]
        for link in closed:
            self.close(link)
        for link, number in due:
            self.subscriptions[link][number].on_tick(time)
            self.issue_status(link, number, time)
        return Done(closed=closed)

    def pump(self, link, time, random, room):
        self.judge_link(link)
        self.judge_output(room)
        self.judge_time(time)
        self.judge_phase(link, False)
        one, primary = self.links[link], link == self.primary
        record = self.pool.oldest_unsent(self.owner(link))
        due = one.due(time, self.period * 1000, primary, len(self.table.alarms), record is not None)
        if due is None:
            raise Refused(7)
        if len(one.awaited) >= links_.PUMP_LIMIT:
            raise Refused(8)
        identity = self.identity(random)
        if identity in one.awaited:
            raise Refused(9)
        self.last = time
        purpose, sequence = links_.OTHER, None
        if due[0] == "version":
            purpose, text = links_.VERSION, message.version(identity, self.table.site.decode(), self.table.sxl.decode())
        elif due[0] == "watchdog":
            purpose, text = links_.WATCHDOG, message.watchdog(identity, time)
        elif due[0] == "aggregated":
            text = self.aggregated_text(identity, self.aggregated.time, self.aggregated.value)
            one.aggregated_sent = True
        elif due[0] == "alarm":
            number = due[1]
            text = self.alarm_now(identity, number)
            one.next_alarm = number + 1
            newest, alarm = self.pool.newest_of_alarm(self.owner(link), number), self.alarms[number]
            record = newest if newest and (newest.flags, newest.time) == (alarm.flags(), alarm.time) else None
        else:
            text = self.record_text(identity, record)
        if due[0] in ("alarm", "record") and record is not None:
            purpose, sequence = links_.RECORD, record.sequence
            record.sent = True
        one.sent(purpose, identity, time, sequence)
        return Done(written=text + FORM_FEED)

    def packet(self, link, time, random, room, packet):
        self.judge_link(link)
        self.judge_output(room)
        if len(packet) > PACKET:
            raise Refused(12)
        self.judge_time(time)
        self.judge_phase(link, False)
        fields = message.parse(packet)
        if fields is None:
            raise Refused(1)
        if fields.get("type") in message.ANSWERS and isinstance(fields["type"], str):
            return self.answer(link, time, fields)
        received = fields.get("mId")
        greeting = self.links[link].phase == links_.GREETING
        if message.identity(received) is None or greeting and fields.get("type") != "Version":
            raise Refused(1)
        try:
            return self.request(link, time, random, received, fields)
        except message.Reason as reason:
            self.last = time
            closed = [link] if str(reason) in ("RSMP version", "Site id", "SXL version") else []
            for one in closed:
                self.close(one)
            return Done(closed=closed, written=message.not_ack(received, str(reason)) + FORM_FEED)

    def answer(self, link, time, fields):
        one = self.links[link]
        awaited = message.identity(fields.get("oMId"))
        if fields.get("mType") != "rSMsg" or awaited not in one.awaited:
            raise Refused(1)
        self.last = time
        purpose, sequence, closes = one.answered(awaited, fields["type"] == "MessageAck")
        if purpose == links_.RECORD:
            self.pool.settle(self.owner(link), sequence)
        if closes:
            self.pool.unmark(self.owner(link))
        return Done(closed=[link] if closes else [])

    def request(self, link, time, random, received, fields):
        one = self.links[link]
        if "mType" not in fields:
            raise message.Reason(message.MISSING)
        if fields["mType"] != "rSMsg":
            raise message.Reason(message.BAD)
        kind = fields.get("type")
        if not isinstance(kind, str) or kind not in message.TAKEN or kind == "Version" and not one.may_judge_version():
            raise message.Reason("Unexpected")
        if one.phase == links_.BEATING and kind != "Watchdog":
            raise message.Reason("Not ready")
        said = message.fields_of(kind, fields, one.chosen == message.OLDER)
        if kind in message.INCLUDED:
            return getattr(self, "take_" + kind)(time, received, said)
        answer = message.ack(received) + FORM_FEED
        return getattr(self, "take_" + kind)(link, time, random, said, answer)

    def reply(self, link, time, random, answer, text_of, commands=()):
        """The acknowledgement and a message of our own behind it."""
        one = self.links[link]
        if len(one.awaited) >= links_.AWAITED:
            raise message.Reason("Busy")
        identity = self.identity(random)
        if identity in one.awaited:
            raise Refused(9)
        self.last = time
        one.sent(links_.OTHER, identity, time)
        return Done(written=answer + text_of(identity) + FORM_FEED, commands=commands)

    def respond(self, time, text, commands=()):
        """Request 04: one message, which is the acknowledgement too. Nobody answers it: it takes no awaited place and no identity."""
        self.last = time
        return Done(written=text + FORM_FEED, commands=commands)

    def take_Version(self, link, time, random, said, answer):
        common = {message.read_version(offered) for offered in message.OFFERED} & set(said["versions"])
        if not common:
            raise message.Reason("RSMP version")
        if self.table.site.decode() not in said["sites"]:
            raise message.Reason("Site id")
        if self.table.sxl.decode() != said["sxl"]:
            raise message.Reason("SXL version")
        self.last = time
        self.links[link].accept_version(max(common))
        return Done(written=answer)

    def take_Watchdog(self, link, time, random, said, answer):
        self.last = time
        self.links[link].take_watchdog()
        hints = link == self.primary and said["decimals"] >= 3
        return Done(hint=said["time"] if hints else None, written=answer)

    def component(self, said):
        name = said["component"].encode()
        return self.table.components.index(name) if name in self.table.components else None

    def take_Alarm(self, link, time, random, said, answer):
        component = self.component(said)
        if component is None:
            raise message.Reason("Unknown component")
        rows = [(row[0], row[3]) for row in self.table.alarms]
        if (component, said["code"].encode()) not in rows:
            raise message.Reason("Unknown alarm")
        number = rows.index((component, said["code"].encode()))
        alarm = self.alarms[number]
        if said["order"] == "Request":
            if link != self.primary:
                self.last = time
                return Done(written=answer)
            return self.reply(link, time, random, answer, lambda identity: self.alarm_now(identity, number))
        changes = {"Acknowledge": not alarm.acknowledged, "Suspend": not alarm.suspended, "Resume": alarm.suspended}[said["order"]]
        issues = changes and self.primary is not None
        self.judge_records(int(issues))
        self.last = time
        if said["order"] == "Acknowledge":
            alarm.acknowledge(time)
        else:
            alarm.suspend(said["order"] == "Suspend", time)
        if issues:
            self.issue_alarm(number)
        return Done(written=answer)

    def take_AggregatedStatusRequest(self, link, time, random, said, answer):
        if self.component(said) != 0:
            raise message.Reason("Unknown component")
        return self.reply(link, time, random, answer,
                          lambda identity: self.aggregated_text(identity, self.aggregated.time, self.aggregated.value))

    def numbers(self, said):
        """The statuses of the entries, in order."""
        component = self.component(said)
        found = []
        for code, name, _, _ in said["entries"]:
            row = component, code.encode(), name.encode()
            if row not in self.table.statuses:
                raise message.Reason("Unknown status")
            found.append(self.table.statuses.index(row))
        return found

    def asked(self, said):
        """The entries of the response."""
        if self.component(said) is None:
            return [(code, name, None, "undefined") for code, name, _, _ in said["entries"]]
        return [self.status_entry(number) for number in self.numbers(said)]

    def take_StatusRequest(self, link, time, random, said, answer):
        entries = self.asked(said)
        return self.reply(link, time, random, answer,
                          lambda identity: message.statuses("StatusResponse", identity, said["component"], time, entries))

    def take_StatusRequestAckIncluded(self, time, received, said):
        return self.respond(time, message.statuses("StatusResponseAckIncluded", received, said["component"], time, self.asked(said)))

    def judge_component(self, said):
        if self.component(said) is None:
            raise message.Reason("Unknown status")

    def take_StatusSubscribe(self, link, time, random, said, answer):
        self.judge_component(said)
        numbers = self.numbers(said)
        self.judge_records(len(numbers))
        self.last = time
        for number, (_, _, rate, change) in zip(numbers, said["entries"]):
            self.subscriptions[link][number] = Subscription(rate, change, time)
            self.issue_status(link, number, time)
        return Done(written=answer)

    def take_StatusUnsubscribe(self, link, time, random, said, answer):
        self.judge_component(said)
        numbers = self.numbers(said)
        self.last = time
        for number in numbers:
            self.subscriptions[link].pop(number, None)
        return Done(written=answer)

    def ordered(self, said):
        """The entries of the response, and the commands that are handed over."""
        component = self.component(said)
        if component is None:
            return [(code, name, None, "undefined") for code, name, _ in said["entries"]], []
        return [(*entry, "recent") for entry in said["entries"]], self.commanded(component, said["entries"])

    def take_CommandRequest(self, link, time, random, said, answer):
        told, handed = self.ordered(said)
        return self.reply(link, time, random, answer,
                          lambda identity: message.commands("CommandResponse", identity, said["component"], time, told), handed)

    def take_CommandRequestAckIncluded(self, time, received, said):
        told, handed = self.ordered(said)
        return self.respond(time, message.commands("CommandResponseAckIncluded", received, said["component"], time, told), handed)

    def commanded(self, component, entries):
        """The commands of a known component, in order. A value outside its range is found before a command that is not there, whichever
        stands first: reasons are looked for over the whole message, one after the other."""
        rows = [row[:3] for row in self.table.commands]
        numbers = [rows.index(key) if key in rows else None for key in ((component, code.encode(), name.encode()) for code, name, _ in entries)]
        values = [value for _, _, value in entries]
        for number, value in zip(numbers, values):
            if number is not None:
                _, _, _, lowest, highest = self.table.commands[number]
                message.good(lowest <= value <= highest)
        if None in numbers:
            raise message.Reason("Unknown command")
        return list(zip(numbers, values))
