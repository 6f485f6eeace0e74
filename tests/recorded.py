"""Playing a record of `rsmp-site` again: by `rsmp-replay` and by the model."""
import subprocess

from cases import ROOT
from model import site as sites
from player import NORTH, SOUTH, shown
from process import hold

NAMES = [NORTH, SOUTH]


class Book:
    """Counts what the model issues and settles for each owner, from its site's start."""

    def __init__(self):
        self.issued, self.settled = [0] * 8, [0] * 8

    def begin(self, site):
        for owner in range(4 * site, 4 * site + 4):
            self.issued[owner] = self.settled[owner] = 0

    def watch(self, pool):
        issue, settle = pool.issue, pool.settle

        def issuing(record):
            self.issued[record.owner] += 1
            issue(record)

        def settling(owner, sequence):
            self.settled[owner] += pool.find(owner, sequence) is not None
            settle(owner, sequence)

        pool.issue, pool.settle = issuing, settling


def model_plays(lines):
    """The model's answers to a recorded script, its box, and the book of its records."""
    box, book, answers = sites.Box(), Book(), []
    book.watch(box.pool)
    for line in lines:
        named, (name, *words) = named_site(line.split())
        if name == "start":
            table_, links, primary, *rest = words
            pool = box.pool
            box.start(named, bytes.fromhex(table_), int(links), None if primary == "-" else int(primary), *map(int, rest))
            if box.pool is not pool:
                book = Book()
                book.watch(box.pool)
            book.begin(named or 0)
            answers.append("0 0 - -")
            continue
        site = box.sites[named or 0]
        if name == "packet":
            link, time_, random, room, packet = words
            given = int(link), int(time_), bytes.fromhex(random), int(room), b"" if packet == "-" else bytes.fromhex(packet)
        elif name == "pump":
            link, time_, random, room = words
            given = int(link), int(time_), bytes.fromhex(random), int(room)
        elif name == "alarm":
            given = int(words[0]), words[1] == "1", int(words[2])
        else:
            given = tuple(map(int, words))
        answers.append(shown(site.call({"aggregated": "aggregate"}.get(name, name), *given)))
    return answers, box, book


def named_site(words):
    """The number of the site that a line names, or None, and its other words."""
    return (NAMES.index(words[0]), words[1:]) if words[0] in NAMES else (None, words)


def judge_record(process, supervisors, beside=()):
    """The record, played again by rsmp-replay and by the model, gives the bytes that the supervisors got, and every record that was
    issued was answered, is held, or is counted lost. The supervisors beside are those of a second site."""
    script = process.record.read_text()
    lines = script.splitlines()
    played = subprocess.run([ROOT / "build" / "rsmp-replay"], input=script, stdout=subprocess.PIPE, text=True, check=True).stdout.splitlines()
    answers, box, book = model_plays(lines)
    for line, one, other in zip(lines, played, answers):
        hold(one == other, f"the record: {line}\n  rsmp-replay {one}\n  the model   {other}")
    hold(len(played) == len(lines), "the record is not played to its end")
    for site, of_site in enumerate((supervisors, beside)):
        name = f"{NAMES[site]} " if beside else ""
        for link, supervisor in enumerate(of_site):
            calls = [f"{name}{call} {link} " for call in ("packet", "pump")]
            sent = b"".join(written(answer) for line, answer in zip(lines, played) if line.startswith(tuple(calls)))
            got = b"".join(map(bytes, supervisor.connections))
            hold(got == sent or cut_short(supervisor, sent), f"{name}link {link}: {len(got)} bytes came, {len(sent)} in the record")
            owner, held, lost = 4 * site + link, box.sites[site].held(link), box.sites[site].lost(link)
            hold(book.issued[owner] == book.settled[owner] + held + lost, f"{name}link {link}: the records do not add up")
            summary = [line for line in process.lines if line.startswith(f"  {name}link {link} {supervisor.address}: ")]
            hold(len(summary) == 1 and summary[0].endswith(f"{held} records held, {lost} lost"), f"{name}link {link}: the summary")
    return len(lines), sum(book.issued), sum(book.settled)


def written(answer):
    out = answer.split()[3] if answer.startswith("0 ") else "-"
    return b"" if out == "-" else bytes.fromhex(out)


def cut_short(supervisor, sent):
    """Where a connection was cut, what was on its way may be missing: each connection's bytes stand in the record in order."""
    at = 0
    for connection in supervisor.connections:
        found = sent.find(bytes(connection), at)
        if found < 0:
            return False
        at = found + len(connection)
    return True
