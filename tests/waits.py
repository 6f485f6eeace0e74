"""How long held records wait on the model (request 13): over random lives (tests/lives.py) each is sent or lost within 2 + A + K pumps that send something
other than a Watchdog, counted from any call after which its link is Up and it is not sent, and within what stands before it.

  waits.py --stored         models that let one wait longer, or lose one too soon: each is found out
  waits.py --fresh [SEED]   2,000 sequences, and so many again until a record has waited as long as it may and one was lost
  waits.py COUNT [SEED]     so many
"""
import collections
import contextlib
import random
import sys
from unittest import mock

import lives
from cases import stored_or_fresh
from model import link as links_
from model import pool, site
from player import Player

SEQUENCES = 2000
# So many times that at most, until a record has waited as long as it may and one was lost: with some seeds neither comes in the first.
TIMES = 10
KINDS = ("ordinary", "flood", "busy", "crumbling", "deaf")
BEAT = b'"type":"Watchdog"'


class Fault(Exception):
    pass


class Watched(Player):
    """Looks at every held record of an Up link after every call."""

    def start(self, *arguments, **named):
        done = super().start(*arguments, **named)
        if done:
            self.pumps = [0] * 4
            self.latest = [{} for _ in range(4)]   # by link and number: the pump by which it must be out
            self.bounds = [{} for _ in range(4)]   # .. by 2 + A + K from the first call after which it waits
        return done

    def call(self, name, words, *arguments):
        answer = super().call(name, words, *arguments)
        pumped = words[0] if name == "pump" and not answer.number else None
        if pumped is not None and BEAT not in answer.written:
            self.pumps[pumped] += 1
        for link, one in enumerate(self.site.links):
            if one.phase != links_.UP or not answer.number and link in answer.closed:
                self.latest[link], self.bounds[link] = {}, {}
            if one.phase == links_.UP:
                self.look(link, one, pumped)
        return answer

    def look(self, link, one, pumped):
        held = self.site.pool.of(link)
        unsent = [record for record in held if not record.sent]
        waiting = {record.sequence for record in unsent}
        for number in [number for number in self.latest[link] if number not in waiting]:
            self.ended(link, number, held, pumped)
        alarms = len(self.site.table.alarms) if link == self.site.primary else 0
        left = (not one.aggregated_sent) + (alarms - one.next_alarm if alarms else 0)
        for older, record in enumerate(unsent):
            before = self.pumps[link] + left + older + 1
            latest = self.latest[link][record.sequence] = min(before, self.latest[link].get(record.sequence, before))
            bound = self.bounds[link].setdefault(record.sequence, self.pumps[link] + 2 + alarms + older)
            if not self.pumps[link] < latest <= bound:
                raise Fault(f"record {record.sequence} of link {link} waits on after its last pump")

    def ended(self, link, number, held, pumped):
        latest, bound = self.latest[link].pop(number), self.bounds[link].pop(number)
        if any(record.sequence == number for record in held):
            if pumped != link or self.pumps[link] > latest:
                raise Fault(f"record {number} of link {link} is sent too late")
            self.came["sent"] += 1
            self.came["sent by the last pump"] += self.pumps[link] == bound
        else:
            if self.pumps[link] >= latest or sum(record.sequence > number for record in held) < 16:
                raise Fault(f"record {number} of link {link} is gone without 16 newer ones")
            self.came["lost while it waited"] += 1


class Sequence(lives.Life):
    def begin(self):
        super().begin()
        link = self.link()
        for _ in range(20):
            if self.site.links[link].phase != links_.UP:
                self.rise()


def play(source, count, came):
    for _ in range(count):
        player = Watched()
        Sequence(source, player, source.choice(KINDS)).go(source.choice((10, 20, 40, 80)))
        came.update(player.came)


# Models that are wrong in one rule.

def newest_first(one, link):
    return next((record for record in reversed(one.of(link)) if not record.sent), None)


def pass_anew_at_an_input(one, number, active, time, alarm=site.Site.alarm):
    done = alarm(one, number, active, time)
    for link in one.links:
        link.next_alarm = 0
    return done


def pass_anew_with_a_watchdog(one, purpose, identity, time, sequence=None, sent=links_.Link.sent):
    sent(one, purpose, identity, time, sequence)
    if purpose == links_.WATCHDOG:
        one.aggregated_sent, one.next_alarm = False, 0


def unmarks_every_link(one, link):
    for record in one.records:
        record.sent = False


def unmarks_instead_of_settling(one, link, sequence):
    record = one.find(link, sequence)
    if record:
        record.sent = False


WRONG = [
    (pool.Pool, "oldest_unsent", newest_first),
    (site.Site, "alarm", pass_anew_at_an_input),
    (links_.Link, "sent", pass_anew_with_a_watchdog),
    (pool.Pool, "unmark", unmarks_every_link),
    (pool.Pool, "settle", unmarks_instead_of_settling),
    (pool, "MOST", 15),
]


def found_out(place, name, wrong):
    with mock.patch.object(place, name, wrong), contextlib.suppress(Fault):
        play(random.Random(name), SEQUENCES, collections.Counter())
        return False
    return True


def stored():
    for place, name, wrong in WRONG:
        if not found_out(place, name, wrong):
            sys.exit(f"waits: a model with another {name} is not found out")
    print(f"waits: {len(WRONG)} wrong models found out")


def fresh(seed, count=SEQUENCES):
    print(f"waits: seed {seed}")
    came, chance = collections.Counter(), random.Random(seed)
    for turn in range(1, TIMES + 1):
        play(chance, count, came)
        if came["sent by the last pump"] and came["lost while it waited"]:
            break
    else:
        sys.exit("waits: no record waited as long as it may, or none was lost")
    print(f"waits: {turn * count} sequences, {came['sent']} records sent, {came['sent by the last pump']} of them by the last pump that the bound leaves, "
          f"{came['lost while it waited']} lost while they waited")


def main():
    if len(sys.argv) > 1 and sys.argv[1].isdigit():
        fresh(int(sys.argv[2]) if len(sys.argv) > 2 else 1, int(sys.argv[1]))
        return 0
    return stored_or_fresh(stored, fresh, __doc__)


if __name__ == "__main__":
    sys.exit(main())
