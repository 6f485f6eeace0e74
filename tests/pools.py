"""Random acts on the pool, with the answers of the model in tests/model/pool.py.

  pools.py --write     writes the stored cases and answers of the program `run_pool`
  pools.py --stored    checks that the stored ones are what this script makes
  pools.py --fresh [SEED]   runs random act lists through the program
"""
import random
import struct
import sys

import cases
from cases import case
from model.pool import OWNERS, Pool, Record
from vectors import good_record


class Run:
    """One list of acts from the empty pool: cases and the model's answers."""

    def __init__(self, source, shape):
        self.source, self.shape = source, shape
        self.pool, self.sequence = Pool(), source.choice((0, 0, source.randrange(2**31)))
        self.pairs = []
        self.act("0", b"")

    def say(self, kind, body, answer):
        self.pairs.append((case(kind, body.hex()), answer.encode("ascii") + b"\n"))

    def act(self, kind, body):
        counts = "".join(f"{self.pool.held(owner)} {self.pool.lost[owner]} " for owner in range(OWNERS))
        self.say(kind, body, counts)

    def owner(self):
        return self.source.choices(range(OWNERS), weights=self.shape)[0]

    def issue(self, owner):
        record = Record(*good_record(self.source))
        record.owner, record.sequence = owner, self.sequence
        self.sequence += self.source.choice((1, 1, 1, 1, 7))
        self.pool.issue(record)
        self.act("i", struct.pack(">HHHHQII", record.owner, record.kind, record.item, record.flags, record.time, record.value,
                                  record.sequence))

    def some_sequence(self, owner):
        held = self.pool.of(owner)
        if held and self.source.random() < 0.9:
            return self.source.choice((held[0], self.source.choice(held), held[-1])).sequence
        return self.source.randrange(self.sequence + 2)

    def settle(self, owner):
        sequence = self.some_sequence(owner)
        self.pool.settle(owner, sequence)
        self.act("s", struct.pack(">HI", owner, sequence))

    def mark(self, owner):
        sequence = self.some_sequence(owner)
        self.pool.mark(owner, sequence)
        self.act("m", struct.pack(">HI", owner, sequence))

    def unmark(self, owner):
        self.pool.unmark(owner)
        self.act("u", struct.pack(">H", owner))

    def clear(self, owner):
        self.pool.clear(owner)
        self.act("c", struct.pack(">H", owner))

    def shown(self, record):
        return "-" if record is None else f"{2 if record.sent else 1} {record.packed().hex()}"

    def oldest(self, owner):
        self.say("o", struct.pack(">H", owner), self.shown(self.pool.oldest_unsent(owner)))

    def newest(self, owner):
        item = self.source.randrange(32)
        self.say("a", struct.pack(">HH", owner, item), self.shown(self.pool.newest_of_alarm(owner, item)))

    def look(self):
        """All that is held, in order, and one rank past it."""
        for owner in range(OWNERS):
            held = self.pool.of(owner)
            for rank, record in enumerate(held + [None]):
                self.say("k", struct.pack(">HH", owner, rank), self.shown(record))

    def run(self, count, weights):
        acts = (self.issue, self.settle, self.mark, self.unmark, self.oldest, self.newest, self.clear)
        for _ in range(count):
            self.source.choices(acts, weights=weights)[0](self.owner())
        self.look()
        return self.pairs


SHAPES = ((1, 1, 1, 1, 0, 0, 0, 0), (8, 8, 1, 1, 0, 0, 0, 0), (20, 0, 0, 0, 20, 1, 0, 0), (0, 0, 0, 0, 1, 0, 0, 0), (40, 40, 40, 1, 40, 1, 1, 1), (1, 1, 1, 1, 1, 1, 1, 1),
          (0, 20, 1, 0, 0, 0, 20, 1))
FILLING, CHURNING = (40, 2, 3, 0.2, 1, 1, 0.05), (10, 8, 4, 0.5, 1, 1, 0.1)


def marked():
    """Document 01's marked counts: 64, 64, 0 held, then seventeen records for link 2; and request 10's: the same of owners 0, 4 and 5; 17, 16 six times and 15,
    then one for owner 7; owners 3 and 6 with 17, then two; 16 each, then one for owner 3."""
    pairs = []
    for counts in (((0, 64), (1, 64), (2, 17)), ((0, 64), (4, 64), (5, 17)), ((0, 17), *((owner, 16) for owner in range(1, 7)), (7, 15), (7, 1), (3, 1)),
                   (*((owner, (16, 16, 16, 17, 15, 16, 17, 15)[owner]) for owner in range(8)), (4, 1), (7, 1))):
        run = Run(random.Random(0), SHAPES[0])
        for owner, count in counts:
            for _ in range(count):
                run.issue(owner)
        run.look()
        pairs += run.pairs
    return pairs


def lists(source, count):
    for _ in range(count):
        yield from Run(source, source.choice(SHAPES)).run(source.choice((30, 200, 400)), source.choice((FILLING, CHURNING)))


def beyond():
    """Owners that there are not: nothing is issued, held or found."""
    run = Run(random.Random(0), SHAPES[0])
    run.issue(0)
    run.issue(7)
    for link in (8, 9, 65535):
        run.act("i", struct.pack(">HHHHQII", link, 2, 0, 0, 5, 1, 900))
        for kind in "sm":
            run.act(kind, struct.pack(">HI", link, 900))
        for kind in "uc":
            run.act(kind, struct.pack(">H", link))
        run.say("o", struct.pack(">H", link), "-")
        run.say("k", struct.pack(">HH", link, 0), "-")
    return run.pairs


def stored_pairs():
    yield from marked()
    yield from beyond()
    yield from lists(random.Random(3), 12)


def fresh(source):
    yield "random acts", lists(source, 150)


if __name__ == "__main__":
    sys.exit(cases.script("run_pool", stored_pairs, fresh, __doc__))
