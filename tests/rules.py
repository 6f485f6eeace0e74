"""Random acts on one alarm, one status with one subscription to it, and the aggregated value, with the answers of the model in
tests/model/alarm.py.

  rules.py --write     writes the stored cases and answers of the program `run_rules`
  rules.py --stored    checks that the stored ones are what this script makes
  rules.py --fresh [SEED]   runs random act lists through the program

A line says whether the act changed something (of a subscription: whether one is there), whether it makes a record, and the
bytes of the record that the alarm, the status or the aggregated value now has, its sequence number 0. Of a status the second
bit of the case's byte says whether its record is old. That a subscription issues at once is the site's, and not given here; nor
are times that go back (number 5).
"""
import itertools
import random
import struct
import sys

import cases
from cases import case
from model.alarm import Aggregated, Alarm, Status, Subscription
from model.pool import Record

LAST = 253402300799999


class Run:
    """One list of acts from the start at a time: cases and the model's answers."""

    def __init__(self, source, start):
        self.source, self.time = source, start
        self.alarm, self.status, self.aggregated = Alarm(start), Status(), Aggregated(start)
        self.subscription = None
        self.pairs = []
        self.say("0", self.of_status, False, False)

    # A case, and the line that the model has for it.

    def of_alarm(self, link, item, _):
        return Record(link, 0, item, self.alarm.flags(), self.alarm.time, 0, 0)

    def of_status(self, link, item, old):
        return Record(link, 1, item, self.status.flags(old), self.time, self.status.word(), 0)

    def of_aggregated(self, link, *_):
        return Record(link, 2, 0, 0, self.aggregated.time, self.aggregated.value, 0)

    def say(self, kind, part, happened, issues, value=0, byte=0):
        link, item = self.source.randrange(4), self.source.choice((0, 31, self.source.randrange(32)))
        old = self.source.randrange(2)
        if part == self.of_status:
            byte |= old << 1
        body = struct.pack(">QIHHB", self.time, value, link, item, byte)
        answer = f"{int(happened)} {int(issues)} {part(link, item, old).packed().hex()}\n"
        self.pairs.append((case(kind, body.hex()), answer.encode("ascii")))

    def alarm_event(self, kind, event, byte=0):
        """`event`: None where nothing happened, else whether it makes a record."""
        self.say(kind, self.of_alarm, event is not None, bool(event), byte=byte)

    # The acts.

    def input(self, active):
        self.alarm_event("i", self.alarm.input(active, self.time), int(active))

    def acknowledge(self):
        self.alarm_event("k", self.alarm.acknowledge(self.time))

    def suspend(self, suspended):
        self.alarm_event("s" if suspended else "r", self.alarm.suspend(suspended, self.time))

    def value(self, value):
        changed = self.status.set(value)
        issues = self.subscription is not None and self.subscription.on_value(changed)
        self.say("v", self.of_status, changed, issues, value=value % 2**32)

    def subscribe(self, seconds, on_change):
        self.subscription = Subscription(seconds, on_change, self.time)
        self.say("b", self.of_status, True, False, value=seconds, byte=int(on_change))

    def end(self):
        self.subscription = None
        self.say("e", self.of_status, False, False)

    def tick(self):
        there = self.subscription is not None
        self.say("t", self.of_status, there, there and self.subscription.on_tick(self.time))

    def aggregate(self, value):
        changed = self.aggregated.set(value, self.time)
        self.say("g", self.of_aggregated, changed, changed, byte=value)

    def look(self):
        for kind, part in (("A", self.of_alarm), ("S", self.of_status), ("G", self.of_aggregated)):
            self.say(kind, part, False, False)

    # Lists of acts.

    def passes(self):
        """Time goes on: little, much, or to an edge of the subscription's interval."""
        edge = self.subscription.since + self.subscription.seconds * 1000 if self.subscription else self.time
        step = self.source.choice((0, 0, 1, 999, 1000, self.source.randrange(200000), edge - 1 - self.time, edge - self.time))
        self.time = min(self.time + max(step, 0), LAST)

    def some_value(self):
        near = [] if self.status.value is None else [self.status.value] * 3 + [min(self.status.value + 1, 2**31 - 1)]
        return self.source.choice((0, -1, -2, 2**31 - 1, -2**31, self.source.randrange(-2**31, 2**31), *near))

    def some_rate(self):
        seconds = self.source.choice((0, 0, 1, 1, 2, 10, 86400, self.source.randint(1, 86400)))
        return seconds, seconds == 0 or self.source.random() < 0.5

    def any_act(self):
        source, aggregated = self.source, self.aggregated.value
        way = source.choices(range(8), weights=(6, 4, 4, 6, 3, 0.7, 8, 4))[0]
        if way == 0:
            self.input(source.random() < 0.5)
        elif way == 1:
            self.acknowledge()
        elif way == 2:
            self.suspend(source.random() < 0.5)
        elif way == 3:
            self.value(self.some_value())
        elif way == 4:
            self.subscribe(*self.some_rate())
        elif way == 5:
            self.end()
        elif way == 6:
            self.tick()
        else:
            self.aggregate(source.choice((aggregated, 0, 255, aggregated ^ 1 << source.randrange(8), source.randrange(256))))

    def run(self, count):
        self.look()
        for _ in range(count):
            self.passes()
            self.any_act()
        self.look()
        return self.pairs


# What document 01 says, each once.

ALARM_ACTS = (lambda run: run.input(True), lambda run: run.input(False), Run.acknowledge, lambda run: run.suspend(True),
              lambda run: run.suspend(False))


def alarm_after(acts):
    run = Run(random.Random(0), 1254398371571)
    for act in acts:
        run.time += 1
        act(run)
    return run


def alarm_rules():
    """Each act in each state that the alarm can be in (its last event among it), reached by the fewest acts."""
    ways = {}
    for length in range(6):
        for acts in itertools.product(ALARM_ACTS, repeat=length):
            ways.setdefault(alarm_after(acts).alarm.flags(), acts)
    for acts in ways.values():
        for act in ALARM_ACTS:
            yield from alarm_after((*acts, act)).pairs


def interval_rules():
    """An interval of 10 s: 9,999 ms not, 10,000 do, and again from that tick; a longer wait begins anew at its own tick."""
    run = Run(random.Random(1), 1000)
    run.tick()
    run.end()
    run.subscribe(10, False)
    for step in (9999, 1, 9999, 1, 25000, 5000, 4999, 1, 0):
        run.time += step
        run.tick()
    run.value(7)
    run.subscribe(0, True)
    for value in (7, 8, 8, -8):
        run.time += 100000000
        run.tick()
        run.value(value)
    run.subscribe(86400, True)
    for step in (86399999, 1):
        run.time += step
        run.tick()
    run.subscribe(2**32 - 1, False)
    for step in (2**32 * 1000 - 1001, 1):
        run.time += step
        run.tick()
    run.end()
    run.tick()
    run.value(9)
    return run.pairs


def value_rules():
    """A first value is news, 0 too; an equal one is not; the unknown value's record."""
    for first in (0, -2, 2**31 - 1, -2**31):
        run = Run(random.Random(2), LAST)
        run.subscribe(1, True)
        for value in (first, first, -1 - first, first):
            run.value(value)
        yield from run.pairs


def aggregated_rules():
    run = Run(random.Random(3), 5)
    run.look()
    for value in (0, 0, 128, 128, 1, 255, 0, 0):
        run.time += 3
        run.aggregate(value)
    run.look()
    return run.pairs


def lists(source, count, lengths=(20, 100, 300)):
    for _ in range(count):
        start = source.choice((0, 1254398371571, source.randrange(LAST), LAST - 1000000))
        yield from Run(source, start).run(source.choice(lengths))


def stored_pairs():
    yield from alarm_rules()
    yield from interval_rules()
    yield from value_rules()
    yield from aggregated_rules()
    yield from lists(random.Random(5), 10)


def fresh(source):
    yield "random acts", lists(source, 300)


if __name__ == "__main__":
    sys.exit(cases.script("run_rules", stored_pairs, fresh, __doc__))
