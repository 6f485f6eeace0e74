"""Scripts of calls, played by the program `rsmp-replay` over the proved library and by the model in tests/model/site.py, which is
written from document 01 alone. Every line's answer is compared.

  replays.py --write     writes the stored scripts and answers, tests/scripts
  replays.py --stored    checks that the stored ones are what this script makes, and plays them
  replays.py --fresh [SEED [LINES]]   plays random scripts and prints how often each number, reason and due kind came
"""
import collections
import pathlib
import random
import subprocess
import sys
import time

import lives
import packets
from cases import ROOT
from model import message, table
from model.site import LAST_SEQUENCE
from player import CALLS, NORTH, SOUTH, Player
from supervisor import ANSWER, NO_ANSWER, Supervisor

PROGRAM = ROOT / "build" / "rsmp-replay"
SCRIPTS = ROOT / "tests" / "scripts"
FAILED = ROOT / "build" / "replay-failed.txt"
LINES = 120000
NOON = 1254398371571


# A small site whose links are led by hand.

BARRIER = table.Table(b"O+14439=481WA001", b"1.0.13", [b"O+14439=481WA001", b"O+14439=481BR001"],
                      [(0, 1, 1, b"A0001"), (1, 2, 0, b"A0001"), (1, 3, 1, b"A0002")],
                      [(0, b"S0001", b"uptime"), (1, b"S0001", b"release"), (1, b"S0002", b"release")])


# The same with commands: the last two are of other components, with the code and the name of the first.
COMMANDED = table.Table(BARRIER.site, BARRIER.sxl, [*BARRIER.components, b"O+14439=481BR002"], BARRIER.alarms, BARRIER.statuses,
                        [(1, b"M0101", b"boom", 0, 1), (1, b"M0102", b"limit", -2, 500), (1, b"M0102", b"brake", -2**15, 2**15 - 1),
                         (2, b"M0101", b"boom", 1, 1), (0, b"M0101", b"boom", -5, -5)])


class Hand:
    """A player with a counter for random bytes, so that every identity is another one."""

    def __init__(self, links=2, primary=0, period=60, first=0, at=NOON, site=BARRIER, player=None):
        self.player = player or Player()
        self.supervisor = Supervisor(Calm(1), self.player)
        self.time, self.count = at, 0
        self.player.start(site.bytes(), links, primary, period, first, at)

    def random(self):
        self.count += 1
        return self.count.to_bytes(4, "big") * 4

    def connect(self, link):
        return self.player.connect(link, self.time)

    def pump(self, link, **more):
        return self.player.pump(link, self.time, self.random(), **more)

    def tell(self, link, members, **more):
        return self.player.packet(link, self.time, self.random(), self.supervisor.written(members), **more)

    def awaited(self, link):
        return list(self.player.site.links[link].awaited)

    def answer(self, link, kind=ANSWER):
        """Answers the oldest awaited identity."""
        return self.tell(link, self.supervisor.answer(self.awaited(link)[0], kind))

    def beating(self, link, **theirs):
        self.connect(link)
        self.pump(link)
        self.answer(link)
        self.tell(link, self.supervisor.version(**theirs))

    def up(self, link, **theirs):
        self.beating(link, **theirs)
        self.pump(link)
        self.answer(link)
        self.tell(link, self.supervisor.watchdog(self.time))

    def sent_out(self, link):
        """Pumps and answers until nothing is due."""
        while not self.pump(link).number:
            self.answer(link)

    def subscribe(self, link, count=1, rate=("0", True)):
        return self.tell(link, self.supervisor.of_statuses("StatusSubscribe", count, rate))

    def release(self, link, count=1):
        """Subscribes so many times to one status, a record each."""
        one = [{"sCI": "S0001", "n": "release", "uRt": "0", "sOc": True}]
        for _ in range(count):
            self.tell(link, self.supervisor.head("StatusSubscribe") + [("cId", self.supervisor.component(1)), ("sS", one)])

    def command(self, link, *entries, **more):
        """Commands of one component, by their numbers and values."""
        return self.tell(link, self.supervisor.commands(entries=entries), **more)

    def done(self):
        self.player.counts()
        self.player.readings()
        return self.player


class Calm(random.Random):
    """Numbers at which a supervisor does nothing unusual."""

    def random(self):
        return 0.5

    def getrandbits(self, count):  # without it, choices would be made from random()
        return super().getrandbits(count)


# Stored scripts: each gives a player.

def start_limits():
    player = Player()
    good = dict(table=BARRIER.bytes(), links=2, primary=1, period=60, first=0, time=NOON)
    for name, values in (("links", (0, 1, 4, 5, 2**32 - 1)), ("primary", (None, 0, 1, 2, 2**32 - 2)), ("period", (0, 1, 3600, 3601)),
                         ("first", (LAST_SEQUENCE, LAST_SEQUENCE + 1, 2**64 - 1)), ("time", (0, message.LAST, message.LAST + 1, 2**64 - 1)),
                         ("table", (b"", BARRIER.bytes()[:-1], BARRIER.bytes() + b"\0"))):
        for value in values:
            given = {**good, name: value}
            if name == "links" and value == 1:
                given["primary"] = 0
            player.start(**given)
            player.counts()
    return player


def checks_in_order():
    """Each call with everything wrong at once, and then one thing less each time."""
    hand = Hand(links=1, primary=None)
    player, random_ = hand.player, bytes(range(16))
    long, bad_time, good_time = b"x" * 4097, NOON - 1, NOON
    for time_ in (bad_time, message.LAST + 1, good_time):
        for link in (1, 0):
            player.connect(link, time_)
            player.disconnect(link, time_)
            player.pump(link, time_, random_, 4095)
            player.pump(link, time_, random_)
            player.packet(link, time_, random_, long, 4095)
            player.packet(link, time_, random_, long)
            player.packet(link, time_, random_, b"")
        player.alarm(3, True, time_)
        player.alarm(0, True, time_)
        player.status(3, 1, time_)
        player.status(0, 1, time_)
        player.aggregated(1, time_)
        player.tick(time_)
    return hand.done()


def without_packets():
    """All that can happen where no supervisor says anything."""
    hand = Hand(links=4, primary=2, period=1)
    player = hand.player
    for link in range(4):
        hand.pump(link)
        hand.connect(link)
        hand.connect(link)
        hand.pump(link, room=4095)
        hand.pump(link)
        hand.pump(link)
    for step in range(70):
        player.alarm(step % 3, step % 2 == 0, hand.time + step)
        player.aggregated(step, hand.time + step)
        player.status(step % 3, step, hand.time + step)
    player.readings()
    player.tick(NOON + 29999)
    player.disconnect(1, NOON + 29999)
    player.tick(NOON + 30000)
    player.disconnect(0, NOON + 30000)
    player.connect(0, NOON + 30000)
    player.pump(0, NOON + 30000, bytes(16))
    return hand.done()


def sequence_end():
    hand = Hand(links=2, primary=1, first=LAST_SEQUENCE - 5)
    player = hand.player
    for value in (1, 2, 2, 3, 4, 5):
        player.aggregated(value, hand.time)
    player.alarm(0, True, hand.time)
    player.alarm(1, True, hand.time)
    player.tick(hand.time)
    return hand.done()


def time_end():
    hand = Hand(at=message.LAST - 30000)
    hand.connect(0)
    hand.pump(0)
    hand.player.tick(message.LAST - 1)
    hand.player.tick(message.LAST)
    hand.player.tick(message.LAST + 1)
    hand.player.connect(0, message.LAST)
    hand.player.pump(0, message.LAST, bytes(16))
    return hand.done()


def whole_life():
    """Greeting, first pass, records, a cut, what waited, the answer."""
    hand = Hand()
    player = hand.player
    player.alarm(1, True, hand.time)
    player.status(1, 190, hand.time)
    for link in (0, 1):
        hand.up(link)
    hand.sent_out(0)
    hand.sent_out(1)
    hand.subscribe(0, 2)
    hand.subscribe(1, 2, ("1", True))
    for value in (190, 240, 290, 340):
        hand.time += 500
        player.status(1, value, hand.time)
        player.tick(hand.time)
        hand.pump(0)
    player.disconnect(0, hand.time)
    player.counts()
    player.aggregated(5, hand.time)
    hand.up(0)
    hand.sent_out(0)
    hand.sent_out(1)
    return hand.done()


def decimals_of_a_watchdog():
    """Zero to seven decimals, from the primary and from a secondary, by the Watchdog that brings the link up and by one in Up."""
    hand = Hand()
    for decimals in [digits[:count] for digits in ("5000000", "9999999", "0004999") for count in range(8)]:
        for link in (0, 1):
            hand.beating(link)
            hand.pump(link)
            hand.answer(link)
            hand.tell(link, hand.supervisor.watchdog(hand.time, decimals))
            hand.player.readings()
            hand.tell(link, hand.supervisor.watchdog(message.LAST, decimals))
            hand.player.disconnect(link, hand.time)
    hand.beating(0)
    for text in ("2015-06-08T12:01:39.Z", "2015-06-08T12:01:39", "2015-06-08T12:01:39.5", "2015-06-08T12:01:39,5Z", "2015-06-08T12:01:39.5z"):
        hand.tell(0, changed(hand.supervisor.watchdog(0), "wTs", text))
    return hand.done()


def awaited_too_long():
    """29,999 ms and 30,000 ms."""
    hand = Hand()
    for link in (0, 1):
        hand.up(link)
        hand.pump(link)
        hand.time += 1
    hand.player.tick(NOON + 29999)
    hand.player.tick(NOON + 30000)
    hand.player.tick(NOON + 30001)
    return hand.done()


def lengths():
    """Outputs of 4,095 and 4,096 bytes, packets of 4,096 and 4,097."""
    hand = Hand()
    hand.connect(0)
    hand.pump(0, room=4095)
    hand.pump(0, room=4096)
    hand.answer(0)
    version = hand.supervisor.written(hand.supervisor.version())
    for length, room in ((4097, 4096), (4096, 4095), (4097, 4095), (4096, 4096)):
        hand.player.packet(0, hand.time, hand.random(), version + b" " * (length - len(version)), room)
    return hand.done()


def every_reason():
    hand = Hand()
    tell, supervisor = hand.tell, hand.supervisor
    hand.connect(0)
    tell(0, supervisor.version())
    tell(0, supervisor.watchdog(0))
    tell(0, supervisor.of_statuses("StatusRequest", 1))
    for spoiled in (dict(offer=("3.1.3",)), dict(site="another"), dict(sxl="1.0.130")):
        hand.pump(0)
        hand.answer(0)
        tell(0, supervisor.version(**spoiled))
        hand.connect(0)
    hand.pump(0)
    version = supervisor.version
    for members in (lacking(version(), "mType"), changed(version(), "mType", "rSMsgs"), lacking(version(), "SXL"), changed(version(), "SXL", 7),
                    changed(version(), "type", "Versions"), lacking(version(), "mId"), version(), version()):
        tell(0, members)
    hand.answer(0)
    tell(0, supervisor.of_statuses("StatusRequest", 1))
    hand.pump(0)
    hand.answer(0)
    tell(0, supervisor.watchdog(0))
    tell(0, supervisor.version())
    tell(0, changed(supervisor.order("Suspend", 0), "cId", "no such"))
    tell(0, changed(supervisor.order("Suspend", 0), "aCId", "no such"))
    tell(0, changed(supervisor.aggregated_request(), "cId", "O+14439=481BR001"))
    for kind in message.STATUS_TYPES:
        tell(0, changed(supervisor.of_statuses(kind, 1), "cId", "no such"))
        tell(0, changed(supervisor.of_statuses(kind, 1), "sS", [{"sCI": "no such", "n": "release", "uRt": "1", "sOc": True}]))
    tell(0, supervisor.of_statuses("StatusUnsubscribe", 1))
    for kind in message.TAKEN[1:]:
        tell(0, supervisor.head(kind))
    while not hand.tell(0, supervisor.aggregated_request()).written.count(b"Busy"):
        pass
    hand.pump(0)
    hand.answer(0)
    tell(0, supervisor.aggregated_request())
    return hand.done()


def lacking(members, name):
    return [(n, value) for n, value in members if n != name]


def changed(members, name, new):
    return [(n, new if n == name else value) for n, value in members]


def numbers_of_a_link():
    """7, 8 and 9, and 9 in a reply."""
    hand = Hand()
    hand.up(0)
    for _ in range(4):
        hand.pump(0)
    hand.player.aggregated(1, hand.time)
    for value in range(2, 9):
        hand.player.aggregated(value, hand.time)
        hand.pump(0)
    first = bytes.fromhex(hand.awaited(0)[0].replace("-", ""))
    hand.player.pump(0, hand.time, first)
    hand.player.packet(0, hand.time, first, hand.supervisor.written(hand.supervisor.aggregated_request()))
    hand.answer(0)
    hand.player.pump(0, hand.time, bytes.fromhex(hand.awaited(0)[0].replace("-", "")))
    hand.player.pump(0, hand.time, first)
    hand.sent_out(0)
    return hand.done()


def closing_answers():
    """MessageNotAck to our Version, to our Watchdog while Beating and while Up; answers settle either way."""
    hand = Hand(period=1)
    hand.connect(0)
    hand.pump(0)
    hand.answer(0, NO_ANSWER)
    hand.beating(0)
    hand.pump(0)
    hand.answer(0, NO_ANSWER)
    hand.up(0)
    hand.time += 1000
    hand.pump(0)
    hand.answer(0, NO_ANSWER)
    hand.player.alarm(0, True, hand.time)
    while not hand.pump(0).number:
        hand.answer(0, NO_ANSWER)
        hand.player.counts()
    return hand.done()


def alarm_orders():
    """Orders of the primary and of a secondary, in every state, suspended events without a record."""
    hand = Hand()
    for link in (0, 1):
        hand.up(link)
        hand.sent_out(link)
    for link in (0, 1):
        for order in ("Request", "Acknowledge", "Suspend", "Suspend", "Request", "Resume", "Resume"):
            for active in (True, False):
                hand.time += 1
                hand.tell(link, hand.supervisor.order(order, 1))
                hand.player.alarm(1, active, hand.time)
    hand.sent_out(0)
    hand.sent_out(1)
    return hand.done()


def errors_met():
    """The four that document 01 lists."""
    hand = Hand()
    hand.up(0)
    hand.sent_out(0)
    hand.player.alarm(0, True, hand.time)
    hand.pump(0)
    hand.player.counts()
    hand.player.disconnect(0, hand.time)
    hand.player.counts()
    hand.connect(0)
    hand.tell(0, hand.supervisor.of_statuses("StatusRequest", 1))
    hand.pump(0)
    hand.tell(0, hand.supervisor.of_statuses("StatusRequest", 1))
    hand.connect(1)
    hand.pump(1)
    hand.answer(1)
    hand.tell(1, hand.supervisor.version(offer=("3.2.0",)))
    hand.pump(1)
    hand.answer(1)
    hand.tell(1, hand.supervisor.watchdog(hand.time))
    hand.tell(1, hand.supervisor.order("Request", 0))
    return hand.done()


def filled_pool():
    """Held 64, 64, 0: a record for link 2 gives 63, 64, 1, the 16th 56, 56, 16, the 17th the same."""
    hand = Hand(links=3, primary=0)
    for link in (0, 1, 2):
        hand.up(link)
        hand.sent_out(link)
    for link in (0, 1):
        hand.release(link, 64)
    for _ in range(17):
        hand.release(2)
        hand.player.counts()
    for link in (0, 1, 2):
        hand.sent_out(link)
    return hand.done()


def late_answer():
    """An answer for a record that was lost meanwhile removes the awaited identity only."""
    hand = Hand(links=1)
    hand.up(0)
    hand.sent_out(0)
    hand.player.aggregated(1, hand.time)
    hand.pump(0)
    for value in range(2, 70):
        hand.player.aggregated(value, hand.time)
    hand.player.counts()
    hand.answer(0)
    hand.player.counts()
    return hand.done()


def old_is_old():
    """Request 02: what is issued while its link is Up is recent and stays so over a cut; Down, Greeting and Beating it is old and stays
    so when the link is Up; a tick closes before it issues; what has no value stays unknown."""
    hand = Hand()
    player, component = hand.player, hand.supervisor.site.table.components[1].decode()
    both = [{"sCI": code, "n": "release", "uRt": "30", "sOc": True} for code in ("S0001", "S0002")]
    for link in (0, 1):
        hand.up(link)
        hand.sent_out(link)
        hand.tell(link, hand.supervisor.head("StatusSubscribe") + [("cId", component), ("sS", both)])
    value = iter(range(100))
    measures = lambda: player.status(1, next(value), hand.time)
    measures()
    player.disconnect(0, hand.time)
    measures()
    hand.connect(0)
    measures()
    hand.pump(0)
    hand.answer(0)
    hand.tell(0, hand.supervisor.version())
    measures()
    player.readings()
    hand.pump(0)
    hand.answer(0)
    hand.tell(0, hand.supervisor.watchdog(hand.time))
    measures()
    hand.tell(0, hand.supervisor.of_statuses("StatusRequest", 2))
    hand.sent_out(0)
    hand.answer(0)
    hand.pump(1)
    hand.time += 30000
    player.tick(hand.time)
    player.readings()
    hand.sent_out(0)
    hand.up(1)
    hand.sent_out(1)
    return hand.done()


def many_members():
    """Unknown members before, behind and between those that are looked for, around as many as the library notes the places of."""
    hand = Hand()
    supervisor = hand.supervisor
    for link in (0, 1):
        hand.up(link)
        hand.sent_out(link)
    packets = (lambda: supervisor.watchdog(hand.time), lambda: supervisor.order("Suspend", 1), lambda: supervisor.order("Resume", 1),
               supervisor.aggregated_request, lambda: supervisor.of_statuses("StatusRequest", 2),
               lambda: supervisor.of_statuses("StatusSubscribe", 2, ("60", True)), lambda: supervisor.of_statuses("StatusUnsubscribe", 2))
    for packet in packets:
        for all_of_them in (31, 32, 33, 64):
            members = packet()
            others = [(f"x{number}", number) for number in range(all_of_them - len(members))]
            for told in (others + members, members + others, supervisor.among_others(members, len(others))):
                hand.tell(0, told)
                hand.sent_out(0)
    return hand.done()


def twin(name, key):
    """Another name with its mark under the key (packets.mark): the last character but one is one less, the last the key more."""
    other = name[:-2] + chr(ord(name[-2]) - 1) + chr(ord(name[-1]) + key)
    assert packets.mark(other.encode(), key) == packets.mark(name.encode(), key)
    return other


def edition_before():
    """Request 07: 3.1.4 is chosen where it is the latest that both have, and 3.2 wherever it stands; there a subscription has no sOc, uRt 0 is at each
    change and any other number by interval only; over a break into the other edition, either way, subscriptions stay as they were made."""
    hand = Hand()
    player, component = hand.player, hand.supervisor.site.table.components[1].decode()
    status = {"sCI": "S0001", "n": "release"}
    offers = {0: ("3.1.3", "3.1.4"), 1: ("3.2", "3.1.4", "3.1.5")}
    tell = lambda link, kind, **more: hand.tell(link, hand.supervisor.head(kind) + [("cId", component), ("sS", [{**status, **more}])])

    def values():
        for value in (190, 190, 340):
            hand.time += 1
            player.status(1, value, hand.time)
        for later in (4997, 1, 1, 5000):
            hand.time += later
            player.tick(hand.time)
        player.counts()
        for link in (0, 1):
            hand.sent_out(link)

    for link in (0, 1):
        hand.up(link, offer=offers[link])
        hand.sent_out(link)
    player.readings()
    for entry in (dict(uRt="0"), dict(), dict(uRt="2.5", sOc=True), dict(uRt=0), dict(uRt="86401"), dict(uRt="0", sOc=False), dict(uRt="5", sOc=True),
                  dict(uRt="5", sOc="x"), dict(uRt="86400")):
        for link in (0, 1):
            tell(link, "StatusSubscribe", **entry)
    for again in (dict(uRt="0", sOc=False), dict(uRt="5", sOc=True), dict(uRt="0", sOc=True)):
        for link in (0, 1):
            tell(link, "StatusSubscribe", **again)
        values()
    for link in (0, 1):
        player.disconnect(link, hand.time)
        hand.up(link, offer=offers[1 - link])
    values()
    for link in (0, 1):
        tell(link, "StatusRequest")
        tell(link, "StatusUnsubscribe")
    values()
    player.disconnect(1, hand.time)
    hand.up(1, offer=("3.1.4", "3.1.5"))
    tell(1, "StatusSubscribe", uRt="0")
    return hand.done()


def equal_marks():
    """Names that differ and have equal marks with the key of their own call, its first four random bytes: each is told from the other, whether it
    is an element that is looked for or not, and one that comes twice among them is found."""
    hand = Hand()
    supervisor = hand.supervisor
    hand.up(0)
    hand.sent_out(0)

    def told(members, *others):
        """Before all members, and behind them."""
        for place in (0, len(members)):
            key = hand.count + 1
            added = [(name if own else twin(name, key), "other") for name, own in others]
            hand.tell(0, members[:place] + added + members[place:])

    for request in (lambda: supervisor.watchdog(hand.time), lambda: supervisor.order("Suspend", 1), lambda: supervisor.of_statuses("StatusRequest", 1)):
        for name, _ in request():
            told(request(), (name, False))
            told(request(), (name, False), (name, False))
            hand.sent_out(0)
    for others in (("some", "some"), ("some", "one", "some"), ("one", "some", "two", "one", "some")):
        told(supervisor.watchdog(hand.time), *((name, bool(place % 2)) for place, name in enumerate(others)))
        told(supervisor.watchdog(hand.time), *((name, True) for name in others))
    for inside in ('{"some":0,"%s":0}', '[{"%s":0,"one":0,"some":0}]', '{"some":{"%s":0}}', '{"%s":0,"some":0,"%s":0}'):
        raw = inside.replace("%s", twin("some", hand.count + 1)).encode()
        packet = supervisor.written(supervisor.watchdog(hand.time) + [("x", None)]).replace(b'"x":null', b'"x":' + raw)
        assert raw in packet
        hand.player.packet(0, hand.time, hand.random(), packet)
    return hand.done()


def editions():
    """Starts with tables of both editions: heads of the other's length, commands at their limits, the longest table."""
    player = Player()
    first, second = BARRIER.bytes(), COMMANDED.bytes()
    none = table.Table(**{**vars(BARRIER), "edition": 2}).bytes()
    longest = table.Table(b"s" * 32, b"x" * 32, [b"%032d" % i for i in range(8)], [(i % 8, 1, 0, b"%032d" % i) for i in range(32)],
                          [(i % 8, b"%032d" % i, b"n" * 32) for i in range(32)],
                          [(i % 8, b"%032d" % i, b"n" * 32, -i, i) for i in range(16)]).bytes()
    for data in (first, second, none, longest, longest + b"\0", longest + bytes(8191 - len(longest)), longest + bytes(8192 - len(longest)),
                 longest[:-1], second + b"\0", second[:-1], second[:4], second[:3],
                 bytes([first[0] + 16]) + first[1:], bytes([second[0] - 16]) + second[1:], second[:3] + second[4:], first[:3] + b"\0" + first[3:],
                 first + second[-20:], bytes([second[0] + 16]) + second[1:], bytes([second[0] - 32]) + second[1:]):
        player.start(data, 1, 0, 60, 0, NOON)
    row = 2, b"M0101", b"boom"
    for rows in ([(*row, 0, 0)], [(*row, 1, 0)], [(*row, -2**15, 2**15 - 1)], [(*row, 2**15 - 1, -2**15)], [(*row, -1, -2)], [(*row, -2, -1)],
                 [(*row, 0, 1), (*row, 2, 3)], [(*row, 0, 1), (1, *row[1:], 0, 1)], [(*row, 0, 1), (*row[:2], b"Boom", 0, 1)],
                 [(*row, 0, 1), (2, b"M0102", b"boom", 0, 1)], [(3, *row[1:], 0, 1)], [(7, *row[1:], 0, 1)],
                 [(2, b"M%d" % i, b"boom", 0, i) for i in range(16)], [(2, b"M%d" % i, b"boom", 0, i) for i in range(17)],
                 [(2, b"M%d" % i, b"boom", 0, i) for i in range(31)]):
        player.start(table.Table(**{**vars(COMMANDED), "commands": rows}).bytes(), 1, 0, 60, 0, NOON)
    data = table.Table(**{**vars(COMMANDED), "commands": [(*row, 258, 259)]}).bytes()
    for bit in [*range(32), *range(8 * (len(data) - 16), 8 * len(data))]:
        player.start(data[:bit // 8] + bytes([data[bit // 8] ^ 0x80 >> bit % 8]) + data[bit // 8 + 1:], 1, 0, 60, 0, NOON)
    player.counts()
    return player


def commands():
    """Request 01: what is handed over, in the order of the entries and of the links, and what is not."""
    hand = Hand(site=COMMANDED)
    tell, command, ask = hand.tell, hand.command, hand.supervisor.command_request
    hand.connect(0)
    command(0, (0, 1))
    hand.pump(0)
    command(0, (0, 1))
    hand.answer(0)
    tell(0, hand.supervisor.version())
    command(0, (0, 1))
    hand.pump(0)
    hand.answer(0)
    tell(0, hand.supervisor.watchdog(hand.time))
    hand.sent_out(0)
    hand.up(1)
    hand.sent_out(1)
    north, south = (hand.supervisor.component(number) for number in (1, 2))
    for number, (_, _, _, lowest, highest) in enumerate(COMMANDED.commands):
        for value in (lowest, highest, lowest - 1, highest + 1, lowest - 2**16, highest + 2**16):
            hand.time += 1
            command(number % 2, (number, value))
            if hand.awaited(number % 2):
                hand.answer(number % 2)
    command(0, (0, 1), (1, -2), (0, 0), (0, 1), (2, 2**15 - 1), (1, 500))
    command(1, (0, 0), (0, 0))
    command(0, *[(1, value) for value in range(16)])
    command(0, *[(1, value) for value in range(17)])
    tell(0, ask(north, []))
    tell(1, ask("no such", []))
    # One entry that fails: none is handed over; a value out of its range before a command that is not there.
    command(0, (0, 1), (1, 501))
    command(0, (1, 501), (0, 1))
    for entries in ([("M0101", "boom", 1), ("M0101", "beam", 1)], [("M0101", "beam", 1), ("M0101", "boom", 1)],
                    [("M0101", "beam", 1), ("M0101", "boom", 2)], [("M0101", "boom", 2), ("M0101", "beam", 1)],
                    [("M0102", "boom", 1)], [("M0101", "limit", 1)], [("M0101", "boo", 1)], [("M0101", "boomx", 1)], [("m0101", "boom", 1)]):
        tell(0, ask(north, entries))
    tell(0, ask(south, [("M0102", "limit", 1)]))
    tell(0, ask(south, [("M0101", "boom", 1)]))
    tell(0, ask(south, [("M0101", "boom", 0)]))
    # An unknown component: its values must be numbers all the same, and are in no range.
    for value in (1, 2, 2**31 - 1, -2**31, 2**31, "x", "01"):
        tell(1, ask("no such", [("M0101", "boom", value), ("M0999", "x", 1)]))
    for name, value in (("v", 1), ("v", None), ("v", "1.0"), ("v", "-0"), ("v", " 1"), ("cO", ""), ("cO", "x" * 33), ("cO", 7), ("cCI", ""), ("n", None)):
        one = {"cCI": "M0101", "n": "boom", "cO": "setValue", "v": "1"}
        tell(0, hand.supervisor.head("CommandRequest") + [("cId", north), ("arg", [one, {**one, name: value}])])
        tell(0, hand.supervisor.head("CommandRequest") + [("cId", north), ("arg", [one, {n: v for n, v in one.items() if n != name}])])
    for members in (lacking(ask(north, []), "arg"), lacking(ask(north, []), "cId"), changed(ask(north, []), "arg", {}), changed(ask(north, []), "arg", [1])):
        tell(0, members)
    while not command(0, (0, 1)).written.count(b"Busy"):
        pass
    command(0, (0, 2))
    hand.answer(0)
    command(0, (0, 1))
    return hand.done()


def commands_refused():
    """A call that gives another number than 0 hands nothing over; called again it does."""
    hand = Hand(site=COMMANDED)
    hand.up(0)
    hand.pump(0)
    packet = hand.supervisor.written(hand.supervisor.commands(entries=[(0, 1), (1, 5)]))
    awaited = bytes.fromhex(hand.awaited(0)[0].replace("-", ""))
    fresh_ = hand.random()
    for link, time_, random_, room in ((2, hand.time, fresh_, 4096), (0, hand.time, fresh_, 4095), (0, hand.time - 1, fresh_, 4096),
                                       (0, message.LAST + 1, fresh_, 4096), (1, hand.time, fresh_, 4096), (0, hand.time, awaited, 4096),
                                       (0, hand.time, fresh_, 4096), (0, hand.time, fresh_, 4096)):
        hand.player.packet(link, time_, random_, packet, room)
    hand.player.packet(0, hand.time, hand.random(), packet + b" " * (4097 - len(packet)))
    hand.player.packet(0, hand.time, hand.random(), packet + b" " * (4096 - len(packet)))
    hand.player.packet(0, hand.time, hand.random(), packet[:-1])
    return hand.done()


def commands_of_edition_1():
    """A site without commands knows none; and a site of edition 2 without commands does no better."""
    hand = Hand()
    for site in (BARRIER, table.Table(**{**vars(BARRIER), "edition": 2})):
        hand.player.start(site.bytes(), 2, 0, 60, 0, hand.time)
        hand.up(0)
        hand.sent_out(0)
        ask = hand.supervisor.command_request
        for component in (*map(bytes.decode, site.components), "no such"):
            hand.tell(0, ask(component, [("M0101", "boom", 1)]))
            hand.tell(0, ask(component, []))
            hand.tell(0, ask(component, [("M0101", "boom", 2**31)]))
        hand.player.readings()
    return hand.done()


# Request 04: requests whose response carries the acknowledgement.

POLLED, ORDERED = message.INCLUDED
RELEASE = {"sCI": "S0001", "n": "release"}


class Gateway(Hand):
    """It polls the second component of the site with commands."""

    def __init__(self):
        super().__init__(site=COMMANDED)
        self.north = self.supervisor.component(1)

    def asking(self, kind, *entries, component=None):
        return self.supervisor.head(kind) + [("cId", component or self.north), ("sS", list(entries))]

    def ordering(self, kind, *entries, component=None):
        return self.supervisor.command_request(component or self.north, entries, kind)

    def both(self, link, **more):
        """One of each kind."""
        return self.tell(link, self.asking(POLLED, RELEASE), **more), self.tell(link, self.ordering(ORDERED, ("M0101", "boom", 1)), **more)

    def both_up(self):
        """The second link is of the edition before."""
        for link, offer in ((0, ("3.2",)), (1, ("3.1.4",))):
            self.up(link, offer=offer)
            self.sent_out(link)


def acknowledgement_included():
    """Good and bad ones beside the old ones, in every phase, on a primary and on a secondary of the edition before; the calls that are refused; a
    response sent to us."""
    hand = Gateway()
    player, supervisor, tell = hand.player, hand.supervisor, hand.tell
    responses = lambda: [supervisor.head(kind) + [("oMId", supervisor.head(kind)[2][1])] for kind in message.INCLUDED_RESPONSES]
    hand.both(0)
    hand.connect(0)
    hand.both(0)
    hand.pump(0)
    for members in (*responses(), *(lacking(members, "mId") for members in responses())):
        tell(0, members)
    hand.answer(0)
    hand.both(0)
    tell(0, supervisor.version())
    hand.both(0)
    for members in responses():
        tell(0, members)
    hand.pump(0)
    hand.answer(0)
    tell(0, supervisor.watchdog(hand.time))
    player.disconnect(0, hand.time)
    hand.both_up()

    def settled(link, members):
        tell(link, members)
        for _ in hand.awaited(link):
            hand.answer(link)

    for link in (0, 1):
        for asks, orders in (("StatusRequest", "CommandRequest"), (POLLED, ORDERED)):
            hand.time += 1
            ask = lambda *entries, **more: hand.asking(asks, *entries, **more)
            order = lambda *entries, **more: hand.ordering(orders, *entries, **more)
            other = {"sCI": "S0002", "n": "release"}
            for members in (ask(RELEASE), ask(RELEASE, other, RELEASE), ask(), ask(*[other] * 16), ask(*[other] * 17), ask(RELEASE, component="no such"),
                            ask({"sCI": "S0003", "n": "release"}), ask(RELEASE, {"sCI": "S0001", "n": "uptime"}), ask({"sCI": "S0001"}),
                            ask({**RELEASE, "n": ""}), changed(ask(), "sS", {}), changed(ask(), "cId", 1)):
                settled(link, members)
            one, boom = ("M0102", "limit", 250), ("M0101", "boom", 1)
            for members in (order(boom), order(boom, one, boom), order(), order(*[one] * 16), order(*[one] * 17), order(boom, component="no such"),
                            order(("M0101", "boom", 5000), component="no such"), order(("M0101", "beam", 1)), order(boom, ("M0101", "boom", 2)),
                            order(("M0101", "beam", 1), ("M0101", "boom", 2)), order(("M0101", "boom", "01")), changed(order(), "arg", [{}])):
                settled(link, members)
            for members in (ask(RELEASE), order(boom)):
                for name in ("mType", "type", "mId", "cId", "sS", "arg"):
                    settled(link, lacking(members, name))
                for name, value in (("mType", "rsmsg"), ("mId", "1"), ("mId", members[2][1].upper()), ("mId", members[2][1].title()),
                                    ("type", members[1][1] + "x"), ("type", members[1][1][:-1]), ("type", members[1][1].lower())):
                    settled(link, changed(members, name, value))
            player.status(1, -2**31, hand.time)
            player.status(2, 190, hand.time)
        for members in (*responses(), *(lacking(members, "mId") for members in responses()), hand.asking(message.INCLUDED_RESPONSES[0], RELEASE)):
            tell(link, members)
        for more in (dict(room=4095), dict(room=4096)):
            hand.both(link, **more)
    packet = supervisor.written(hand.ordering(ORDERED, ("M0101", "boom", 1)))
    for link, time_, room, given in ((2, hand.time, 4096, packet), (0, hand.time - 1, 4096, packet), (0, message.LAST + 1, 4096, packet),
                                     (0, hand.time, 4096, packet + b" " * (4097 - len(packet))), (0, hand.time, 4096, packet + b" " * (4096 - len(packet))),
                                     (0, hand.time, 4096, packet[:-1]), (0, hand.time, 4096, packet), (0, hand.time, 4096, packet)):
        player.packet(link, time_, hand.random(), given, room)
    return hand.done()


def included_awaits_nothing():
    """A response that carries the acknowledgement takes no awaited place and no identity: neither 9 nor "Busy", nothing to answer, no closing after 30
    seconds; on a link that subscribes and asks in the old way too."""
    hand = Gateway()
    player, supervisor, tell = hand.player, hand.supervisor, hand.tell
    hand.both_up()
    for link in (0, 1):
        for members in (hand.asking(POLLED, RELEASE), hand.ordering(ORDERED, ("M0101", "boom", 1))):
            for kind in (ANSWER, NO_ANSWER):
                tell(link, members)
                tell(link, supervisor.answer(dict(members)["mId"], kind))
        # Under an identity of ours that is awaited: answering it answers ours.
        player.aggregated(5 + link, hand.time)
        hand.pump(link)
        ours, = hand.awaited(link)
        tell(link, changed(hand.asking(POLLED, RELEASE), "mId", ours.upper()))
        player.counts()
        tell(link, supervisor.answer(ours))
        player.counts()
        hand.subscribe(link)
        hand.both(link)
        player.status(1, 190 + link, hand.time)
        hand.pump(link)
        hand.both(link)
        hand.sent_out(link)
        # Random bytes of an awaited identity.
        tell(link, hand.asking("StatusRequest", RELEASE))
        awaited = bytes.fromhex(hand.awaited(link)[0].replace("-", ""))
        for members in (hand.asking("StatusRequest", RELEASE), hand.asking(POLLED, RELEASE), hand.ordering("CommandRequest", ("M0101", "boom", 0)),
                        hand.ordering(ORDERED, ("M0101", "boom", 0)), hand.ordering(ORDERED, ("M0101", "boom", 2))):
            player.packet(link, hand.time, awaited, supervisor.written(members))
        # Sixteen awaited.
        while not tell(link, hand.asking("StatusRequest", RELEASE)).written.count(b"Busy"):
            hand.both(link)
        for members in (hand.asking(POLLED, RELEASE), hand.asking(POLLED, RELEASE, component="no such"), hand.asking(POLLED, {"sCI": "S", "n": "n"}),
                        hand.ordering(ORDERED, ("M0101", "boom", 1)), hand.ordering("CommandRequest", ("M0101", "boom", 1)),
                        hand.ordering(ORDERED, ("M0101", "boom", 2)), hand.ordering(ORDERED, ("M0109", "boom", 1))):
            tell(link, members)
        hand.pump(link)
        hand.answer(link)
        hand.both(link)
        tell(link, hand.asking("StatusRequest", RELEASE))
        tell(link, hand.asking("StatusRequest", RELEASE))
        while hand.awaited(link):
            hand.answer(link)
    # Nothing is wanted after 30 seconds; link 1 awaits an answer besides.
    tell(1, hand.asking("StatusRequest", RELEASE))
    for later in (0, 1, 29998, 1, 1):
        hand.time += later
        hand.both(0)
        hand.both(1)
        player.tick(hand.time)
    for later in (29999, 1):
        hand.time += later
        player.tick(hand.time)
        hand.both(0)
    # Their time is the last.
    for members in (hand.asking(POLLED, RELEASE), hand.ordering(ORDERED, ("M0101", "boom", 1))):
        hand.time += 1
        tell(0, members)
        player.tick(hand.time - 1)
    player.readings()
    hand.sent_out(0)
    return hand.done()


# Request 10: two sites in one box.

def boxed(north=(), south=()):
    """Both from the empty box, each with its own values."""
    player = Player(NORTH)
    return Hand(player=player, **dict(north)), Hand(player=Player(SOUTH, player), site=COMMANDED, **dict(south))


def greeted(*hands):
    for hand in hands:
        for link in range(len(hand.player.site.links)):
            hand.up(link)
            hand.sent_out(link)


def both_done(*hands):
    for hand in hands:
        hand.done()
    return hands[0].player


def shared_pool():
    """Held 64 | 64 of owners 0 and 4: a record for owner 5 gives 63 | 64, 1, north losing; the 16th 56 | 56, 16; the 17th the same, lost 8 | 8, 1."""
    north, south = boxed(dict(links=1), dict(links=2))
    greeted(north, south)
    north.release(0, 64)
    south.release(0, 64)
    for _ in range(17):
        south.release(1)
        north.player.counts()
        south.player.counts()
    for hand, link in ((north, 0), (south, 0), (south, 1)):
        hand.player.readings()
        hand.sent_out(link)
    return both_done(north, south)


def eight_owners():
    """17, 16 six times, 15: a record for owner 7 gives 16 to each, owner 0 losing; then each loses its own. Owners 3 and 6 with 17: 3 loses first."""
    hands = boxed(dict(links=4), dict(links=4))
    greeted(*hands)
    hold = lambda owner, count=1: hands[owner // 4].release(owner % 4, count)

    def counts():
        for hand in hands:
            hand.player.counts()

    for owner, count in enumerate((17, 16, 16, 16, 16, 16, 16, 15)):
        hold(owner, count)
    counts()
    for owner in (7, 3, 4, 0, 7):
        hold(owner)
        counts()
    for hand in hands:
        for link in range(4):
            hand.sent_out(link)
    for owner, count in enumerate((16, 16, 16, 17, 15, 16, 17, 15)):
        hold(owner, count)
    for owner in (4, 7):
        hold(owner)
        counts()
    return both_done(*hands)


def same_numbers():
    """Records of both sites under the same numbers: an answer settles, a message marks and a closing unmarks those of its own site."""
    north, south = boxed(dict(first=7), dict(first=7))
    greeted(north, south)
    for hand in (north, south):
        hand.player.alarm(1, True, hand.time)
        for link in (0, 1):
            hand.release(link, 2)
    for hand in (north, south):
        hand.pump(0)
        hand.pump(0)
        hand.player.readings()
    south.answer(0)
    both_done(north, south)
    north.player.disconnect(0, north.time)
    both_done(north, south)
    south.pump(0)
    north.up(0)
    for hand in (north, south):
        hand.sent_out(0)
        hand.sent_out(1)
    return both_done(north, south)


def starts_of_two():
    """South first; a start beside the other empties its own share, a refused one nothing, one that is alone ends the other."""
    player = Player(NORTH)
    south = Hand(player=Player(SOUTH, player), links=1, first=5)
    greeted(south)
    south.release(0, 3)
    north = Hand(player=player, site=COMMANDED)
    greeted(north)
    north.release(1, 70)
    both_done(north, south)
    values = dict(links=2, primary=0, period=60, first=0, time=north.time)
    for hand in (south, north):
        for wrong in (dict(links=5), dict(first=LAST_SEQUENCE + 1), dict(table=b"")):
            hand.player.start(**{"table": BARRIER.bytes(), **values, **wrong})
        player.start_alone(**{"table": BARRIER.bytes(), **values, "period": 0})
        both_done(north, south)
    north.player.start(table=BARRIER.bytes(), **values)
    both_done(north, south)
    south.release(0)
    greeted(north)
    north.release(0, 5)
    south.player.start(table=COMMANDED.bytes(), **values)
    both_done(north, south)
    player.start_alone(table=COMMANDED.bytes(), **values)
    north.done()
    south.player.start(table=BARRIER.bytes(), **values)
    greeted(south)
    south.release(0, 2)
    return both_done(north, south)


def ends_of_two():
    """Each site has its own last time and its own last number."""
    north, south = boxed(dict(first=LAST_SEQUENCE - 1, at=message.LAST - 5), dict(first=3, at=NOON))
    for hand in (north, south):
        for value in (1, 2):
            hand.player.aggregated(value, hand.time)
        hand.player.alarm(0, True, hand.time)
        hand.player.tick(hand.time - 1)
    north.player.tick(message.LAST + 1)
    south.player.tick(NOON + 1)
    return both_done(north, south)


STORED = (start_limits, checks_in_order, without_packets, sequence_end, time_end, whole_life, decimals_of_a_watchdog, awaited_too_long,
          lengths, every_reason, numbers_of_a_link, closing_answers, alarm_orders, errors_met, filled_pool, late_answer, old_is_old,
          edition_before, many_members, equal_marks, editions, commands, commands_refused, commands_of_edition_1,
          acknowledgement_included, included_awaits_nothing, shared_pool, eight_owners, same_numbers, starts_of_two, ends_of_two)


def texts(player):
    return ("".join(f"{given}\n" for given, _ in player.pairs), "".join(f"{answer}\n" for _, answer in player.pairs))


def paths(script):
    return SCRIPTS / f"{script.__name__}.txt", SCRIPTS / f"{script.__name__}.answers"


def write():
    SCRIPTS.mkdir(exist_ok=True)
    for script in STORED:
        for path, text in zip(paths(script), texts(script())):
            path.write_text(text)


def judge_unread():
    """A line for a site that is not started, or that a start alone has ended, cannot be read: status 2, and nothing is said of it."""
    start = f"start {BARRIER.bytes().hex()} 1 0 60 0 {NOON}"
    for lines in (["south counts"], ["tick 5"], [start, "south readings"], [f"south {start}", f"tick {NOON}"], [f"south {start}", f"north tick {NOON}"],
                  [f"north {start}", f"south {start}", "south counts", start, f"south tick {NOON}"], [start, "north restore 00"], [start, "east counts"],
                  [start, "south"], [f"south start {BARRIER.bytes().hex()} 0 0 60 0 {NOON}", "south counts"]):
        done = subprocess.run([PROGRAM], input="".join(f"{line}\n" for line in lines), capture_output=True, text=True)
        if done.returncode != 2 or len(done.stdout.splitlines()) != len(lines) - 1 or f"line {len(lines)}: " not in done.stderr:
            sys.exit(f"rsmp-replay: {[line[:20] for line in lines]}: status {done.returncode}: {done.stdout}{done.stderr}")


def stored():
    good = True
    judge_unread()
    for script in STORED:
        player = script()
        for path, text in zip(paths(script), texts(player)):
            if not path.exists() or path.read_text() != text:
                print(f"{path.relative_to(ROOT)} is not what the script makes (write it with --write)")
                good = False
        compare([player], f"stored script {script.__name__}")
    return good


# Playing.

def compare(players, what):
    """Plays the scripts in one run of the program and ends this one at the first answer that differs."""
    pairs = [pair for player in players for pair in player.pairs]
    given = "".join(f"{line}\n" for line, _ in pairs)
    began = time.perf_counter()
    done = subprocess.run([PROGRAM], input=given, stdout=subprocess.PIPE, text=True)
    taken = time.perf_counter() - began
    answers = done.stdout.splitlines()
    for place, (line, expected) in enumerate(pairs):
        answer = answers[place] if place < len(answers) else f"nothing (status {done.returncode})"
        if answer != expected:
            FAILED.write_text("".join(f"{line}\n" for line, _ in of_same_site(pairs[:place + 1])))
            sys.exit(f"rsmp-replay: {what}: line {place + 1}\n  {line}\n  expected {expected}\n  got      {answer}\n"
                     f"  the script up to it is in {FAILED.relative_to(ROOT)}")
    if len(answers) != len(pairs) or done.returncode:
        sys.exit(f"rsmp-replay: {what}: status {done.returncode}, {len(pairs)} lines given, {len(answers)} answered")
    print(f"rsmp-replay: {what}: {len(pairs)} lines agree, {len(pairs) / taken:.0f} a second")


def of_same_site(pairs):
    """From the last start that was done of a site alone."""
    last = max(place for place, (line, answer) in enumerate(pairs) if line.startswith("start ") and answer.startswith("0") or place == 0)
    return pairs[last:]


def fresh(seed, lines):
    print(f"rsmp-replay: seed {seed}")
    players = list(lives.lives(random.Random(seed), lines))
    compare(players, f"{len(players)} random scripts")
    came = sum((player.came for player in players), collections.Counter())
    print_coverage(came)


def print_coverage(came):
    for name in CALLS:
        numbers = {number: count for (kind, *key), count in keyed(came) if kind == "number" and key[0] == name for number in key[1:]}
        if numbers:
            print(f"  {name:12}" + "".join(f"  {number}: {numbers[number]}" for number in sorted(numbers)))
    for kind in ("due", "answered", "closed by"):
        rows = sorted((key[0], count) for (row, *key), count in keyed(came) if row == kind and count)
        if rows:
            print(f"  {kind:12}  " + ", ".join(f"{name} {count}" for name, count in rows))
    print(f"  clock hints {came['hint']}, records lost {came['lost']}, of them at a full pool {came['lost at a full pool']}, "
          f"commands handed over {came['command']}; records of a site that the other pushed out {came['lost by the other site']}")


def keyed(came):
    return [(key, count) for key, count in came.items() if isinstance(key, tuple)]


def main(words):
    if words == ["--write"]:
        write()
    elif words == ["--stored"]:
        return 0 if stored() else 1
    elif words[:1] == ["--fresh"]:
        seed = int(words[1]) if len(words) > 1 else time.time_ns() % 10**9
        fresh(seed, int(words[2]) if len(words) > 2 else LINES)
    else:
        print(__doc__)
        return 2
    return 0


if __name__ == "__main__":
    sys.exit(main(sys.argv[1:]))
