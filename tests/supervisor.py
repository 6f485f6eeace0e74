"""What a supervisor sends to the model's site: good packets, packets spoiled at one place, and packets damaged anywhere."""
import uuid

import reads
from model import message
from packets import damaged

LONGEST = 4096
ANSWER, NO_ANSWER = "MessageAck", "MessageNotAck"
OFFERS = (("3.2",), ("3.1.5",), ("3.2.0",), ("3.1.5", "3.2"), ("3.2", "3.1.5"), ("3.1.5", "3.2.0", "4"), ("3.1.4", "3.2"))
OLDER_OFFERS = (("3.1.4",), ("3.1.4", "3.1.3"), ("3.2", "3.1.4", "3.1.5"), ("3.1.5", "3.1.4"))
FAILED_OFFERS = (("3.1.3",), ("3",), ("3.2.1",), ("3.3", "2.1.5"), ())
RATES = (("0", True), ("1", False), ("1", True), ("5", False), ("60", True), ("86400", False), ("2", False))


def new_identity(source):
    return "".join(source.choice((c, c.upper())) if source.random() < 0.2 else c for c in str(uuid.UUID(int=source.getrandbits(128))))


class Supervisor:
    """The far end of the links of a player's site; of mixed editions, and a gateway that polls, where it is told so."""

    def __init__(self, source, player, mixed=False):
        self.source, self.player, self.mixed = source, player, mixed

    @property
    def site(self):
        return self.player.site

    # Members of good packets.

    def head(self, kind):
        return [("mType", "rSMsg"), ("type", kind), ("mId", new_identity(self.source))]

    def version(self, offer=None, site=None, sxl=None):
        table = self.site.table
        sites = [site or table.site.decode()]
        if self.source.random() < 0.2:
            sites.insert(self.source.randrange(2), "another site")
        return self.head("Version") + [
            ("RSMP", [{"vers": version} for version in (self.some_offer() if offer is None else offer)]),
            ("siteId", [{"sId": one} for one in sites]), ("SXL", sxl or table.sxl.decode())]

    def some_offer(self):
        return self.source.choice(OLDER_OFFERS if self.mixed and self.source.random() < 0.5 else OFFERS)

    def failing_version(self):
        way = self.source.randrange(3)
        if way == 0:
            return self.version(offer=self.source.choice(FAILED_OFFERS))
        return self.version(site="no such site", sxl=None) if way == 1 else self.version(sxl="no such version")

    def watchdog(self, time=None, decimals=None):
        given = self.source.randrange(message.LAST + 1) if time is None else time
        if decimals is None and self.source.random() < 0.3:
            decimals = "".join(self.source.choices("0123456789", k=self.source.randrange(7)))
        return self.head("Watchdog") + [("wTs", message.time_text(given) if decimals is None else message.time_with(given, decimals))]

    def answer(self, identity, kind=ANSWER):
        cased = "".join(self.source.choice((c, c.upper())) if self.source.random() < 0.1 else c for c in identity)
        return [("mType", "rSMsg"), ("type", kind), ("oMId", cased)] + ([("rea", "because")] if kind == NO_ANSWER else [])

    def component(self, number):
        return self.site.table.components[number].decode()

    def some_component(self):
        return self.component(self.source.randrange(len(self.site.table.components)))

    def order(self, order=None, number=None):
        rows = self.site.table.alarms
        order = order or self.source.choice(("Request", "Acknowledge", "Suspend", "Resume"))
        if not rows or self.source.random() < 0.05:
            component = self.source.choice(("no such", self.some_component()))
            return self.head("Alarm") + [("cId", component), ("aCId", "no such"), ("aSp", order)]
        row = rows[self.source.randrange(len(rows)) if number is None else number]
        return self.head("Alarm") + [("cId", self.component(row[0])), ("aCId", row[3].decode()), ("aSp", order)]

    def aggregated_request(self):
        component = self.component(0) if self.source.random() < 0.9 else self.source.choice(("no such", self.some_component()))
        return self.head("AggregatedStatusRequest") + [("cId", component)]

    def of_statuses(self, kind, count=None, rate=None):
        rows = self.site.table.statuses
        many = self.source.choice((1, 1, 2, 3, 8, 16)) if count is None else count
        if not rows or self.source.random() < 0.05:
            component = self.source.choice(("no such", self.some_component()))
            entries = [("no such", "name")] * many
        else:
            number = self.source.choice(rows)[0]
            component = self.component(number)
            own = [row for row in rows if row[0] == number]
            entries = [(row[1].decode(), row[2].decode()) for row in (self.source.choice(own) for _ in range(many))]
            if self.source.random() < 0.03:
                entries[self.source.randrange(many)] = ("no such", "name")
            if self.source.random() < 0.03:
                component = "no such"
        if self.source.random() < 0.02:
            entries = []
        return self.head(kind) + [("cId", component), ("sS", [self.entry(kind, *entry, rate) for entry in entries])]

    def entry(self, kind, code, name, rate):
        if kind != "StatusSubscribe":
            return {"sCI": code, "n": name}
        seconds, change = rate or self.source.choice(RATES)
        said = {"sCI": code, "n": name, "uRt": seconds, "sOc": change}
        if self.mixed and rate is None and self.source.random() < 0.3:
            said = self.source.choice(({**said, "uRt": "0"}, {**said, "sOc": "x"}, {key: said[key] for key in ("sCI", "n", "uRt")}))
        return said

    def value_for(self, row):
        """A value in a command's range, at its ends or, now and then, just or far outside."""
        lowest, highest = row[3:]
        if self.source.random() < 0.04:
            return self.source.choice((lowest - 1, highest + 1, -2**31, 2**31 - 1, lowest - 65536, highest + 65536))
        return self.source.choice((lowest, highest, self.source.randint(lowest, highest)))

    def commands(self, component=None, entries=None, kind="CommandRequest"):
        """A CommandRequest; entries are pairs of a command's number in the table and a value."""
        rows = self.site.table.commands
        if entries is not None:
            rows_of = [(rows[number], value) for number, value in entries]
            named = self.component(rows_of[0][0][0]) if component is None else component
            return self.command_request(named, [(row[1].decode(), row[2].decode(), value) for row, value in rows_of], kind)
        many = self.source.choice((1, 1, 2, 3, 8, 16))
        if not rows or self.source.random() < 0.05:
            named = self.source.choice(("no such", self.some_component()))
            return self.command_request(named, [("no such", "name", self.source.choice((0, -1, 2**31 - 1)))] * many, kind)
        number = self.source.choice(rows)[0]
        own = [self.source.choice([row for row in rows if row[0] == number]) for _ in range(many)]
        asked = [(row[1].decode(), row[2].decode(), self.value_for(row)) for row in own]
        if self.source.random() < 0.05:
            asked[self.source.randrange(many)] = ("no such", "name", self.source.randrange(-2**31, 2**31))
        if self.source.random() < 0.02:
            asked = []
        return self.command_request("no such" if self.source.random() < 0.05 else self.component(number), asked, kind)

    def command_request(self, component, entries, kind="CommandRequest"):
        order = self.source.choice(("setValue", "x", "~" * 32))
        return self.head(kind) + [
            ("cId", component), ("arg", [{"cCI": code, "n": name, "cO": order, "v": str(value)} for code, name, value in entries])]

    def polling(self):
        """A request whose response carries the acknowledgement."""
        status, command = message.INCLUDED
        return self.of_statuses(status) if self.source.random() < 0.5 else self.commands(kind=command)

    def good(self):
        """A packet that an Up link may get."""
        if self.mixed and self.source.random() < 0.15:
            return self.polling()
        way = self.source.randrange(12)
        if way > 9:
            return self.commands()
        if way < 2:
            return self.watchdog()
        if way < 4:
            return self.order()
        if way == 4:
            return self.aggregated_request()
        if way < 9:
            return self.of_statuses(self.source.choice(message.STATUS_TYPES))
        return self.version()

    # Bytes.

    def among_others(self, members, many):
        """The members with unknown ones between them."""
        among = list(members)
        for number in range(many):
            value = self.source.choice((0, None, [], {"cId": "x"}, "mType", [{"sCI": "x"}]))
            among.insert(self.source.randrange(len(among) + 1), (f"x{number}", value))
        return among

    def written(self, members):
        """The packet, now and then among unknown members, with other spaces, its members in another order, or filled up to the limit."""
        if self.source.random() < 0.05:
            members = self.among_others(members, self.source.choice((1, 5, 25, 28, 30, 60)))
        if self.source.random() < 0.1:
            members = list(members)
            self.source.shuffle(members)
        packet = reads.raw(members)
        if self.source.random() < 0.1:
            packet = packet.replace(b'","', self.source.choice((b'", "', b'"\n,\t"')))
        if self.source.random() < 0.02:
            packet += b" " * (LONGEST - len(packet))
        return packet

    def spoiled(self, members):
        """One element missing, of another kind, or with another value."""
        changed, left_out = self.source.choice(list(reads.places(members)))
        if self.source.random() < 0.3:
            return reads.raw(left_out)
        bodies = self.source.choice((reads.STRINGS, reads.SECONDS, reads.INTEGERS, reads.VERSIONS, reads.TIMES, reads.IDENTITIES, reads.TYPES, reads.MTYPES,
                                     reads.ORDER_WORDS))
        wrong = self.source.choice(reads.WRONG) if self.source.random() < 0.5 else reads.quoted(self.source.choice(bodies))
        return reads.raw(changed(wrong))

    def damaged(self, members):
        return damaged(self.source, reads.raw(members))
