"""A script for rsmp-replay as it is written, with the model's answer to each line and a count of what came."""
import collections
import json

from model import link as links_
from model import site as sites

CALLS = ("start", "connect", "disconnect", "packet", "alarm", "status", "aggregated", "tick", "pump")
METHODS = {"aggregated": "aggregate"}
NORTH, SOUTH = "north", "south"
NONE = 4294967295
ROOM = sites.OUTPUT


def hexed(data):
    return data.hex() or "-"


def shown(answer):
    """The line that rsmp-replay prints for a call's answer."""
    if answer.number:
        return str(answer.number)
    mask = sum(1 << link for link in answer.closed)
    hint = "-" if answer.hint is None else answer.hint
    commands = " " + ",".join(f"{number}={value}" for number, value in answer.commands) if answer.commands else ""
    return f"0 {mask} {hint} {hexed(answer.written)}{commands}"


class Player:
    """Of a site alone; or, by its name, of one of the two sites of a box, which write into one script."""

    def __init__(self, name="", beside=None):
        self.name, self.number = name, int(name == SOUTH)
        self.box = beside.box if beside else sites.Box()
        self.pairs, self.came = (beside.pairs, beside.came) if beside else ([], collections.Counter())

    @property
    def site(self):
        return self.box.sites[self.number]

    def say(self, line, answer):
        """A line without a name is north's: every other one of north's has none."""
        named = self.name == SOUTH or self.name == NORTH and (len(self.pairs) % 2 or line.startswith("start "))
        self.pairs.append((f"{self.name} {line}" if named else line, answer))

    # The calls. Each gives the model's answer.

    def start(self, table, links, primary, period, first, time):
        return self.begin(self.number if self.name else None, self.say, table, links, primary, period, first, time)

    def start_alone(self, table, links, primary, period, first, time):
        """The other site ends."""
        return self.begin(None, lambda *pair: self.pairs.append(pair), table, links, primary, period, first, time)

    def begin(self, site, say, table, links, primary, *rest):
        done = self.box.start(site, table, links, primary, *rest)
        words = hexed(table), links, "-" if primary is None else primary, *rest
        say(" ".join(["start", *map(str, words)]), "0 0 - -" if done else "11")
        self.came["number", "start", 0 if done else 11] += 1
        return done

    def call(self, name, words, *arguments):
        answer = self.site.call(METHODS.get(name, name), *arguments)
        self.say(" ".join([name, *map(str, words)]), shown(answer))
        self.came["number", name, answer.number] += 1
        if not answer.number:
            self.came["hint"] += answer.hint is not None
            self.came["closed by", name] += len(answer.closed)
            self.came["command"] += len(answer.commands)
        return answer

    def connect(self, link, time):
        return self.call("connect", (link, time), link, time)

    def disconnect(self, link, time):
        return self.call("disconnect", (link, time), link, time)

    def alarm(self, number, active, time):
        return self.counting_lost("alarm", (number, int(active), time), number, active, time)

    def status(self, number, value, time):
        return self.counting_lost("status", (number, value, time), number, value, time)

    def aggregated(self, value, time):
        return self.counting_lost("aggregated", (value, time), value, time)

    def tick(self, time):
        return self.counting_lost("tick", (time,), time)

    def pump(self, link, time, random, room=ROOM):
        due = self.due(link, time)
        answer = self.call("pump", (link, time, random.hex(), room), link, time, random, room)
        if not answer.number:
            self.came["due", self.named(link, due)] += 1
        return answer

    def packet(self, link, time, random, packet, room=ROOM):
        answer = self.counting_lost("packet", (link, time, random.hex(), room, hexed(packet)), link, time, random, room, packet)
        if not answer.number:
            for text in answer.written.split(sites.FORM_FEED)[:-1]:
                said = json.loads(text)
                self.came["answered", said.get("rea", said["type"])] += 1
            self.came["answered", "nothing"] += not answer.written
        return answer

    def counting_lost(self, name, words, *arguments):
        pool = self.box.pool
        before, held = list(pool.lost), len(pool.records)
        answer = self.call(name, words, *arguments)
        lost = [now - then for now, then in zip(pool.lost, before)]
        self.came["lost"] += sum(lost)
        self.came["lost at a full pool"] += sum(lost) if held == 128 else 0
        self.came["lost by the other site"] += sum(lost[4:] if self.number == 0 else lost[:4])
        return answer

    # What was due, for the count.

    def due(self, link, time):
        if link >= len(self.site.links):
            return None
        record = self.box.pool.oldest_unsent(self.site.owner(link))
        return self.site.links[link].due(time, self.site.period * 1000, link == self.site.primary, len(self.site.table.alarms),
                                         record is not None)

    def named(self, link, due):
        """What a done pump sent."""
        purpose, sequence, _ = list(self.site.links[link].awaited.values())[-1]
        if due[0] == "alarm":
            return "first pass, alarm" + (" carrying its record" if purpose == links_.RECORD else "")
        if due[0] == "record":
            return ("alarm", "status", "aggregated")[self.box.pool.find(self.site.owner(link), sequence).kind] + " record"
        return {"aggregated": "first pass, aggregated"}.get(due[0], due[0])

    # Readings.

    def counts(self):
        if self.site:
            site = self.site
            self.say("counts", " ".join(f"{site.held(link)}/{site.lost(link)}" for link in range(len(site.links))))

    def readings(self):
        if self.site:
            self.say("readings", " ".join(map(self.reading, range(len(self.site.links)))))

    def reading(self, link):
        one = self.site.links[link]
        records = ",".join(record.packed().hex() for record in self.site.records(link)) or "-"
        return f"{one.phase}/{'.'.join(map(str, one.chosen))}/{records}"
