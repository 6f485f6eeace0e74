"""Random acts on a link, with the answers of the model in tests/model/link.py.

  links.py --write     writes the stored cases and answers of the program `run_links`
  links.py --stored    checks that the stored ones are what this script makes
  links.py --fresh [SEED]   runs random act lists through the program

Document 01 lets some acts never happen; they change nothing, and these are given too:
  connect on a link that is not Down, and any act but connect on a Down link: number 6;
  their Watchdog in Greeting, an answer to an identity that is not awaited: number 1;
  their Version before ours went out or after it was accepted: "Unexpected";
  a message of ours where it is not due: our Version but once in Greeting, a Watchdog but once in Beating and in Up, all else
  outside Up; and a message where sixteen are awaited (pump stops at 8, a reply is "Busy").
Not given: an identity that is already awaited (number 9), and times that go back (number 5).
"""
import copy
import random
import struct
import sys

import cases
from cases import case
from model.link import AWAITED, BEATING, DOWN, GREETING, OTHER, PUMP_LIMIT, RECORD, UP, VERSION, WAIT, WATCHDOG, Link

LAST = 253402300799999
NO_IDENTITY = bytes(16)
NEVER_AWAITED = b"a new act list.."
BEATS = "wyW", "wWy", "Wwy"
PURPOSES = {"v": VERSION, "w": WATCHDOG, "r": RECORD, "o": OTHER}


def due_number(due):
    if due is None:
        return 0
    return 5 + due[1] if due[0] == "alarm" else ("version", "watchdog", "aggregated", "record").index(due[0]) + 1


def purpose_number(purpose, sequence):
    return 4 + sequence if purpose == RECORD else {VERSION: 1, WATCHDOG: 2, OTHER: 3}[purpose]


class Run:
    """One list of acts from a closed link: cases and the model's answers."""

    def __init__(self, source, start=0, period=60, primary=True, alarms=3):
        self.source, self.link, self.time = source, Link(), start
        self.period, self.primary, self.alarms, self.unsent = period, primary, alarms, True
        self.pairs, self.used = [], []
        self.act("0", NEVER_AWAITED)

    # An act, and the line that the model has for it.

    def happens(self, kind):
        """Whether document 01 lets it happen to the link as it is."""
        link = self.link
        if kind == "c":
            return link.phase == DOWN
        if kind == "v":
            return link.phase == GREETING and not link.version_out
        if kind == "V":
            return link.may_judge_version()
        if kind == "w":
            return link.phase == UP or link.phase == BEATING and not link.watchdog_out
        if kind == "W":
            return link.phase in (BEATING, UP)
        if kind in "ro":
            return link.phase == UP and len(link.awaited) < AWAITED
        if kind in "ga":
            return link.phase == UP
        return True

    def do(self, kind, identity, sequence, chosen):
        link = self.link
        if kind == "0":
            link.close()
        elif kind == "c":
            link.connect()
        elif kind == "V":
            link.accept_version(chosen)
        elif kind == "W":
            link.take_watchdog()
        elif kind == "g":
            link.aggregated_sent = True
        elif kind == "a":
            link.next_alarm += 1
        elif kind in PURPOSES:
            link.sent(PURPOSES[kind], identity, self.time, sequence if kind == "r" else None)
        elif kind in "yn":
            link.answered(identity, kind == "y")

    def state(self, at):
        link, awaited = self.link, len(self.link.awaited)
        due = link.due(at, self.period * 1000, self.primary, self.alarms, self.unsent)
        return (link.phase, awaited, awaited >= PUMP_LIMIT, awaited >= AWAITED, link.late(at), due_number(due), *link.chosen,
                link.may_judge_version())

    def act(self, kind, identity=NO_IDENTITY, sequence=0, chosen=(0, 0, 0), ahead=0):
        """`ahead`: how much later than the act the link is looked at; only an act that sends nothing may look ahead."""
        at = self.time + ahead
        if kind == "V":
            identity = struct.pack(">4I", *chosen, 0)
        answer = copy.deepcopy(self.link).answered(identity, kind == "y")
        if self.happens(kind):
            self.do(kind, identity, sequence, chosen)
        answered = (0, False) if answer is None else (purpose_number(*answer[:2]), answer[2])
        body = identity + struct.pack(">QIII??", at, sequence, self.period, self.alarms, self.primary, self.unsent)
        line = "".join(f"{int(number)} " for number in (*self.state(at), *answered))
        self.pairs.append((case(kind, body.hex()), line.encode("ascii") + b"\n"))

    # Acts with arguments that tell something.

    def look(self, ahead):
        if self.time + ahead <= LAST:
            self.act("q", ahead=ahead)

    def looks(self):
        """At the edges of waiting, and of the watchdog's period."""
        times = [at + WAIT for _, _, at in self.link.awaited.values()] + [self.link.last_watchdog + self.period * 1000]
        edge = self.source.choice(times) - self.time
        for ahead in (edge - 1, edge):
            if ahead >= 0:
                self.look(ahead)

    def identity(self):
        while True:
            identity = self.source.choice((NO_IDENTITY, b"\xff" * 16, *[self.source.randbytes(16)] * 12))
            if self.used and self.source.random() < 0.3:
                near = bytearray(self.source.choice(self.used))
                near[self.source.randrange(16)] ^= 1 << self.source.randrange(8)
                identity = bytes(near)
            if identity not in self.link.awaited:
                return identity

    def out(self, kind):
        if kind == "w" and len(self.link.awaited) == AWAITED:
            kind = "o"
        identity = self.identity()
        self.used.append(identity)
        self.act(kind, identity, self.source.choice((0, 1, 2**32 - 1, self.source.randrange(2**32))))

    def answer(self, kind):
        awaited = list(self.link.awaited)
        if awaited and self.source.random() < 0.9:
            return self.act(kind, self.source.choice((awaited[0], awaited[-1], self.source.choice(awaited))))
        self.act(kind, self.source.choice((NO_IDENTITY, *self.used[-20:])))

    def answer_first(self, kind):
        """An answer to the identity that is awaited longest."""
        self.act(kind, next(iter(self.link.awaited), NO_IDENTITY))

    def version(self):
        largest = 2**32 - 1
        self.act("V", chosen=self.source.choice(((3, 2, 0), (3, 1, 5), (0, 0, 0), (largest, 1, 2), (1, largest, largest))))

    def passes(self):
        """Time goes on, mostly little."""
        step = self.source.choice((0, 0, 1, 7, 400))
        if self.source.random() < 0.1:
            step = self.source.choice((WAIT - 1, WAIT, self.period * 1000, self.source.randrange(2000000)))
        self.time = min(self.time + step, LAST)

    def ask(self):
        self.primary, self.unsent = self.source.random() < 0.7, self.source.random() < 0.5
        self.alarms = self.source.choice((0, 1, 3, 32, self.link.next_alarm, self.link.next_alarm + 1))

    def do_any(self, kind):
        if kind in PURPOSES:
            self.out(kind)
        elif kind in "yn":
            self.answer(kind)
        elif kind == "V":
            self.version()
        elif kind == "q":
            self.looks()
        else:
            self.act(kind)

    def do_first(self, kind):
        self.answer_first(kind) if kind in "yn" else self.do_any(kind)

    # Lists of acts.

    def greet(self):
        """Both Versions, in either order of what comes after ours."""
        self.act("c")
        self.out("v")
        steps = [self.version, lambda: self.answer_first("y")]
        self.source.shuffle(steps)
        for step in steps:
            step()

    def beat(self):
        """Both Watchdogs, and ours acknowledged, in any order that can be."""
        for kind in self.source.choice(BEATS):
            self.do_first(kind)

    def rise(self):
        self.greet()
        self.beat()

    def run(self, count, weights):
        for _ in range(count):
            self.ask()
            self.passes()
            if self.link.late(self.time) and self.source.random() < 0.3:
                self.act("0")
            if self.link.phase == DOWN and self.source.random() < 0.6:
                self.source.choice((self.rise, self.greet, lambda: self.act("c")))()
            while len(self.link.awaited) == AWAITED and self.source.random() < 0.5:
                self.answer(self.source.choice("yyn"))
            kinds = "vVwWroga" "yn" "qc0"
            self.do_any(self.source.choices(kinds, weights=weights[self.link.phase])[0])
        return self.pairs


# The weights of v V w W r o g a, y n, q c 0, in Down, Greeting, Beating and Up.
EVEN = (1, 1, 1, 1, 1, 1, 1, 1, 1, 1, 1, 1, 0.2)
FILLING = (EVEN, (8, 8, 1, 1, 1, 1, 1, 1, 6, 0.5, 1, 0.3, 0.2), (1, 1, 8, 6, 1, 1, 1, 1, 6, 0.5, 2, 0.3, 0.2),
           (0.2, 0.2, 4, 0.5, 16, 12, 1, 2, 3, 1, 3, 0.1, 0.02))
CHURNING = (EVEN, (6, 6, 1, 1, 1, 1, 1, 1, 5, 3, 2, 1, 1), (1, 1, 6, 4, 1, 1, 1, 1, 4, 3, 2, 1, 0.5),
            (0.5, 0.5, 3, 1, 8, 6, 2, 4, 9, 5, 4, 0.3, 0.3))


def lists(source, count, lengths=(20, 80, 250)):
    for _ in range(count):
        start = source.choice((0, 1254398371571, source.randrange(LAST), LAST - 400000))
        run = Run(source, start, source.choice((1, 2, 29, 30, 31, 60, 3600, source.randint(1, 3600))))
        yield from run.run(source.choice(lengths), source.choice((FILLING, CHURNING)))


# What document 01 says of a link, each once.

def risen(seed):
    run = Run(random.Random(seed), 1000000)
    run.rise()
    return run


def filled():
    """Sixteen awaited, one by one, a seventeenth not kept; then all answered."""
    run = risen(1)
    for number in range(AWAITED + 1):
        run.out("ro"[number % 2])
    for number in range(AWAITED):
        run.act("yn"[number % 2], list(run.link.awaited)[(number * 7) % len(run.link.awaited)])
    return run.pairs


def waited():
    """29,999 ms and 30,000 ms, in every phase with something awaited, and by the oldest of several."""
    pairs = []
    for seed, steps in enumerate(("cv", "cvyVw", "cvVywyWo", "cvVywyWor")):
        run = Run(random.Random(seed), 5)
        for kind in steps:
            run.time += 11
            run.do_first(kind)
        edge = min(at for _, _, at in run.link.awaited.values()) + WAIT - run.time
        for ahead in (0, edge - 1, edge, edge + 1):
            run.look(ahead)
        run.act("0")
        run.look(edge)
        pairs += run.pairs
    return pairs


def refused():
    """A MessageNotAck to our Version, and to our Watchdog in Beating, closes, in Up not; then another life."""
    run = Run(random.Random(2), 77)
    for kind in "cvn" "cvyVwn" "cvVywyW" "wn" "wy":
        run.do_first(kind)
    return run.pairs


def first_pass():
    """What is due in Up, in its order, for the primary and for a secondary, at the edge of the watchdog's period."""
    pairs = []
    for primary in (True, False):
        run = risen(3)
        run.primary, run.period = primary, 3600
        for kind in "qogqoaqoaqoaqro":
            run.do_any(kind) if kind != "q" else run.look(0)
        run.unsent = False
        for ahead in (0, 3599999, 3600000):
            run.look(ahead)
        run.period = 2**32 - 1
        run.look(2**32 * 1000 - 1001)
        run.look(2**32 * 1000 - 1000)
        pairs += run.pairs
    return pairs


def orders():
    """The six that make a link Up, in every order that can be."""
    pairs = []
    for greeting in ("yV", "Vy"):
        for beating in BEATS:
            run = Run(random.Random(6), 1254398371571)
            for kind in "cv" + greeting + beating:
                run.do_first(kind)
            pairs += run.pairs
    return pairs


def misplaced():
    """At every step of a life, all that document 01 does not let happen there."""
    run = Run(random.Random(5), 99)
    for kind in "cvyVwyWg0":
        for other in "cvVwWroga":
            if not run.happens(other):
                run.do_any(other)
        run.act("y", NEVER_AWAITED)
        run.act("n", NEVER_AWAITED)
        run.do_first(kind)
    return run.pairs


def stored_pairs():
    yield from filled()
    yield from waited()
    yield from refused()
    yield from first_pass()
    yield from orders()
    yield from misplaced()
    yield from lists(random.Random(4), 7, (20, 80, 120))


def fresh(source):
    yield "random acts", lists(source, 300)


if __name__ == "__main__":
    sys.exit(cases.script("run_links", stored_pairs, fresh, __doc__))
