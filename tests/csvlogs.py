"""Every record of a day as CSV by `rsmp-replay --records`: the records that the model in tests/model issues, once, in the order of the calls; and back by `rsmp-csv`.

  csvlogs.py --stored        of the stored scripts
  csvlogs.py --fresh [SEED]  .. of random ones
"""
import random
import subprocess
import sys
import tempfile

import csvs
import lives
import replays
from cases import ROOT, stored_or_fresh
from model import pool, table
from player import Player
from replays import BARRIER, Hand

PROGRAM = ROOT / "build" / "rsmp-replay"
LINES = 4000


class Logging:
    """What the model issues while it is inside, and how many of these the very call lost that issued them."""

    def __enter__(self):
        self.records, self.at_once, self.calls, self.kept = [], 0, 0, (pool.Pool.issue, pool.Pool.lose, Player.call)
        issue, lose, call = self.kept

        def issuing(one, record):
            record.call = self.calls
            self.records.append(record)
            issue(one, record)

        def losing(one, record):
            lose(one, record)
            self.at_once += record.call == self.calls

        def calling(one, *words):
            self.calls += 1
            return call(one, *words)

        pool.Pool.issue, pool.Pool.lose, Player.call = issuing, losing, calling
        return self

    def __exit__(self, *_):
        pool.Pool.issue, pool.Pool.lose, Player.call = self.kept

    def bytes(self):
        return [record.packed() for record in self.records]


def hold(good, what):
    if not good:
        sys.exit(f"csvlogs: {what}")


def played(script, *words, status=0):
    done = subprocess.run([PROGRAM, "--records", *words], input=script, capture_output=True)
    hold(done.returncode == status, f"status {done.returncode}: {done.stderr.decode()}")
    return done.stdout


def judge(what, script, records):
    text = csvs.HEADER + b"".join(csvs.line_of(csvs.record_of(one)) for one in records)
    got = played(script.encode())
    for place, (wanted, line) in enumerate(zip(text.split(b"\r\n"), got.split(b"\r\n"))):
        hold(wanted == line, f"{what}: line {place + 1} is {line}, not {wanted}")
    hold(got == text, f"{what}: {len(got)} bytes, not {len(text)}")
    csvs.agree(what, "records", text, b"".join(records), [])
    return len(records)


def overrun():
    """A tick issues 32 records for a link that may keep 16, since two others fill the pool: the first 16 are lost by the call that issues them."""
    hand = Hand(links=3, site=table.Table(BARRIER.site, BARRIER.sxl, BARRIER.components, BARRIER.alarms, [(1, b"S%04d" % i, b"release") for i in range(32)]))
    for link in range(3):
        hand.up(link)
        hand.sent_out(link)
    for link, numbers, seconds in [(0, range(16), "0"), (1, range(16), "0")] * 4 + [(2, range(16), "1"), (2, range(16, 32), "1")]:
        entries = [{"sCI": f"S{i:04}", "n": "release", "uRt": seconds, "sOc": seconds == "0"} for i in numbers]
        hand.tell(link, hand.supervisor.head("StatusSubscribe") + [("cId", BARRIER.components[1].decode()), ("sS", entries)])
    hand.time += 1000
    hand.player.tick(hand.time)
    return hand.done()


def stored():
    counts, at_once, south = [], 0, 0
    for script in (*replays.STORED, overrun):
        with Logging() as log:
            player = script()
        counts.append(judge(script.__name__, replays.texts(player)[0], log.bytes()))
        at_once += log.at_once
        south += sum(record.owner >= 4 for record in log.records)
    whole = replays.paths(replays.whole_life)[0].read_text()
    hold(played(b"") == csvs.HEADER, "nothing was issued of nothing")
    hold(played((whole + "pump 0").encode(), status=2) == played(whole.encode()), "what was issued before a line that cannot be read")
    with tempfile.NamedTemporaryFile() as file:
        file.write(whole.encode())
        file.flush()
        hold(played(b"", file.name) == played(whole.encode()), "a script by its name")
    hold(played(b"", "/nowhere/at/all", status=2) == b"", "a script that is not there")
    hold(at_once == 16, f"{at_once} records were lost by the call that issued them")
    hold(south, "no record of a second site")
    print(f"rsmp-replay --records: {sum(counts)} records of {len(counts)} scripts, as the model issues them, {south} of them of a second site and {at_once} lost by "
          "the call that issued them")


def fresh(seed):
    print(f"rsmp-replay --records: seed {seed}")
    with Logging() as log:
        players = list(lives.lives(random.Random(seed), LINES))
    count = judge(f"seed {seed}", "".join(replays.texts(player)[0] for player in players), log.bytes())
    print(f"rsmp-replay --records: {count} records of {len(players)} random scripts, as the model issues them")


if __name__ == "__main__":
    sys.exit(stored_or_fresh(stored, fresh, __doc__))
