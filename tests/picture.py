"""Pictures by `rsmp-replay --picture`: well-formed, and with the numbers of records, commands and active alarms that the model in tests/model counts.

  picture.py --stored        pictures of the stored scripts
  picture.py --fresh [SEED]  .. of random ones
"""
import collections
import random
import subprocess
import sys
import xml.etree.ElementTree as xml

import lives
import replays
from cases import ROOT, stored_or_fresh
from model import link as links_
from model import pool, site
from player import Player

PROGRAM = ROOT / "build" / "rsmp-replay"
NAME = "{http://www.w3.org/2000/svg}"
PHASES = ("Down", "Greeting", "Beating", "Up")
WHAT = ("issued", "sent", "answered", "lost", "commands")
LINES = 4000
NOON, HOUR = replays.NOON, 3_600_000


class Counting:
    """The model's acts on records, counted while it is inside."""

    def __enter__(self):
        self.count = collections.Counter()
        self.kept = pool.Pool.issue, pool.Pool.lose, pool.Pool.settle, site.Site.pump, site.Site.packet, site.Site.alarm
        issue, lose, settle, pump, packet, alarm = self.kept
        count = self.count

        def issuing(one, record):
            issue(one, record)
            count["issued", record.owner] += 1

        def losing(one, record):
            lose(one, record)
            count["lost", record.owner] += 1

        def settling(one, owner, sequence):
            count["answered", owner] += one.find(owner, sequence) is not None
            settle(one, owner, sequence)

        def pumping(one, link, *more):
            done = pump(one, link, *more)
            count["sent", one.owner(link)] += list(one.links[link].awaited.values())[-1][0] == links_.RECORD
            return done

        def packeting(one, link, *more):
            done = packet(one, link, *more)
            count["commands", one.owner(link)] += len(done.commands)
            return done

        def alarming(one, number, active, *more):
            before = [alarm.active for alarm in one.alarms]
            done = alarm(one, number, active, *more)
            count["raised", 4 * one.number] += one.alarms[number].active and not before[number]
            return done

        self.put(issuing, losing, settling, pumping, packeting, alarming)
        return self

    def __exit__(self, *_):
        self.put(*self.kept)

    @staticmethod
    def put(*acts):
        pool.Pool.issue, pool.Pool.lose, pool.Pool.settle, site.Site.pump, site.Site.packet, site.Site.alarm = acts


def hold(good, what):
    if not good:
        sys.exit(f"picture: {what}")


def picture(script, status=0):
    done = subprocess.run([PROGRAM, "--picture"], input=script, stdout=subprocess.PIPE, stderr=subprocess.PIPE, text=True)
    hold(done.returncode == status, f"status {done.returncode}: {done.stderr}")
    return xml.fromstring(done.stdout)


def judge_alarms(what, group, last, raised):
    """A bar for each time that an alarm was active."""
    active = sum(alarm.active for alarm in last.alarms)
    hold((int(group.get("data-raised")), int(group.get("data-active"))) == (raised, active), f"{what}: {group.attrib}, and the model counts {raised}, {active}")
    bars = [bar.find(NAME + "title").text for bar in group.iter(NAME + "rect")]
    hold(len(bars) == raised and all(" active for " in bar for bar in bars), f"{what}: {len(bars)} bars of alarms, wanted {raised}")


def judge(what, player, count):
    """The picture of a script that ends with this player's sites."""
    root = picture(replays.texts(player)[0])
    drawn = {group.get("id"): group for group in root.iter(NAME + "g")}
    raised = [count.pop(("raised", owner), 0) for owner in (0, 4)]
    for site in filter(None, player.box.sites):
        begins = ("", "south-")[site.number]
        judge_alarms(what, drawn.pop(f"{begins}alarms"), site, raised[site.number])
        judge_links(what, drawn, begins, site, count)
    hold(len(drawn) >= len({owner for _, owner in count}), f"{what}: {len(drawn)} links are drawn")
    return len(root.findall(".//*"))


def judge_links(what, drawn, begins, site, count):
    for number, one in enumerate(site.links):
        group = drawn[f"{begins}link{number}"]
        wanted = {name: count[name, site.owner(number)] for name in WHAT}
        wanted["held"] = site.held(number)
        wanted["dropped"] = wanted["issued"] - wanted["answered"] - wanted["lost"] - wanted["held"]
        said = {name: int(group.get(f"data-{name}")) for name in wanted}
        hold(said == wanted, f"{what}, link {number}: {said}, and the model counts {wanted}")
        hold(group.get("data-phase") == PHASES[one.phase], f"{what}, link {number}: {group.get('data-phase')}")
        words = " ".join("".join(text.itertext()) for text in group.iter(NAME + "text"))
        hold(f"{wanted['answered']} answered, {wanted['held']} held at the end, {wanted['lost']} lost" in words, f"{what}: {words}")
        hold((f"{wanted['commands']} command" in words) == (wanted["commands"] > 0), f"{what}: {words}")


def stored():
    for script in replays.STORED:
        with Counting() as counting:
            player = script()
        judge(script.__name__, player, counting.count)
    whole = replays.paths(replays.whole_life)[0].read_text()
    hold(picture("", 0).findall(f".//{NAME}g") == [], "nothing is drawn of nothing")
    broken = picture(whole + "pump 0", 2)
    hold([group.get("id") for group in broken.findall(f"{NAME}g")] == ["alarms", "link0", "link1"], "what was played before a line that cannot be read is drawn")
    judge_few_beside_many()
    print(f"picture: {len(replays.STORED)} stored scripts drawn, with the model's numbers")


def judge_few_beside_many():
    """66 records in one minute and 2 in another: the bar of two is seen, and of two bars the higher one has more."""
    player = Player()
    player.start(replays.BARRIER.bytes(), 1, 0, 60, 0, NOON)
    for number in range(66):
        player.aggregated(1 + number % 2, NOON + number)
    player.tick(NOON + HOUR)
    for number in range(2):
        player.aggregated(3 + number, NOON + HOUR + number)
    player.tick(NOON + 12 * HOUR)
    bars = {}
    for bar in picture(replays.texts(player)[0]).iter(NAME + "rect"):
        said = "".join(bar.itertext())
        if " issued in the " in said:
            bars[int(said.split()[0])] = float(bar.get("height"))
    hold(set(bars) == {2, 66} and 4 <= bars[2] < bars[66] / 3, f"bars of 2 and 66 are {bars} high")


def fresh(seed):
    print(f"picture: seed {seed}")
    made = lives.lives(random.Random(seed), LINES)
    drawn = total = 0
    while True:
        with Counting() as counting:
            player = next(made, None)
        if player is None:
            break
        if player.site:
            judge(f"random script {drawn}", player, counting.count)
            drawn += 1
            total += sum(counting.count.values())
    print(f"picture: {drawn} random scripts with {total} acts on records drawn, with the model's numbers")


if __name__ == "__main__":
    sys.exit(stored_or_fresh(stored, fresh, __doc__))
