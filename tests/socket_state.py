"""The state over restarts: what is held is sent, what was answered does not come back, whenever the process is killed."""
import pathlib
import random
import signal
import threading
import time

import stored
from process import NORTH, RELEASE, SITE, SXL, Dead, Process, hold, subscription, wait
from socket_time import NOON, FedClock
from supervisors import Supervisor

HOUR = 3_600_000


def started(room, supervisors, *options):
    return Process(room, supervisors, "--state", pathlib.Path(room) / "state", *options, record=False)


def values(supervisor):
    return [entry["s"] for said in supervisor.of("StatusUpdate") for entry in said["sS"]]


def restart(room):
    """Records, subscriptions, an alarm and a status are there after a restart, and the time does not go back."""
    clock, supervisor = FedClock(room, NOON), Supervisor(SITE, SXL)
    options = "--clock", clock.path
    process = started(room, [supervisor], *options)
    supervisor.wait_up()
    hold(supervisor.ask("StatusSubscribe", **subscription()) is True, "a subscription")
    hold(process.order("alarm 2 on") == "done", "an alarm")
    wait(lambda: supervisor.of("Alarm") and process.order("counts") == "link 0 holds 0, lost 0", "the alarm")
    supervisor.greets = False
    supervisor.cut()
    for value in (200, 210, 220):
        hold(process.order(f"status {RELEASE} {value}") == "done", "a status")
    hold(process.order("counts") == "link 0 holds 3, lost 0", "three are held")
    process.quit()
    supervisor.greets = True
    clock.set(NOON - HOUR)
    supervisor.messages.clear()
    process = started(room, [supervisor], *options)
    supervisor.wait(lambda: values(supervisor)[-3:] == ["200", "210", "220"], "what was held over the restart")
    hold(process.logged("goes on from ") == 1 and process.logged("link 0 holds 3, lost 0") == 1, "the log does not tell of the state")
    active = [said for said in supervisor.of("Alarm") if said["aS"] == "Active"]
    hold(len(active) == 1 and active[0]["cId"] == NORTH and active[0]["aTs"] >= "2009-10-01T11:59:31", f"the alarm after the restart: {active}")
    wait(lambda: process.order("counts") == "link 0 holds 0, lost 0", "answers")
    hold(process.order("alarm 2 on") == "done" and process.order(f"status {RELEASE} 220") == "done", "inputs as they were")
    hold(process.order("counts") == "link 0 holds 0, lost 0", "an input as it was is sent again")
    beats = [said["wTs"] for said in supervisor.of("Watchdog")]
    hold(beats == sorted(beats), f"the times of Watchdogs: {beats}")
    process.quit()
    supervisor.close()


def not_ours(room):
    """A damaged, foreign, older or other site's file is told of and kept aside; a new site starts."""
    room = pathlib.Path(room)
    state, supervisor = room / "state", Supervisor(SITE, SXL)

    def run(*options):
        process = started(room, [supervisor], *options)
        supervisor.wait_up()
        hold(process.order("save") == "done", "save")
        process.quit()
        supervisor.wait(lambda: supervisor.stream is None, "the end")
        return process

    run()
    good = state.read_bytes()
    hold(stored.fault(stored.of_state(good)) is None, f"the state's site: {stored.fault(stored.of_state(good))}")
    changed = bytearray(good)
    changed[len(good) // 2] ^= 4
    cases = [(bytes(changed), "its check sum is wrong", ()), (good[:-9], "its check sum is wrong", ()), (b"", "no state of rsmp-site", ()),
             (b"\x7fELF" * 4000, "no state of rsmp-site", ()), (good[:8] + b"\0\0\0\0" + good[12:], "it is of edition 0", ()),
             *((stored.state_of_edition(edition, good), f"it is a site of edition {edition}, where 4 is read", ()) for edition in stored.FORMER),
             (good, "of another table, or of other links", ("--period", "61"))]
    for number, (bytes_, words, options) in enumerate(cases, 1):
        state.write_bytes(bytes_)
        process = run(*options)
        hold(process.logged(words) == 1 and process.logged(" error   site    the state is not taken") == 1, f"{words}: {process.lines[:3]}")
        aside = room / f"state.aside{number}"
        hold(process.logged(str(aside)) == 1 and aside.read_bytes() == bytes_, f"{words}: the file is not kept")
    state.write_bytes(good)
    (room / "state.new").write_bytes(b"half of")
    hold(run().logged("goes on from ") == 1, "a write that was not finished is in the way")
    state.unlink()
    state.mkdir()
    process = started(room, [supervisor])
    hold(process.process.wait(10) == 1, "a state that cannot be read")
    supervisor.close()


def one_at_a_time(room):
    """A second program on the same state does not start, and the first goes on; after a kill the state is free."""
    state = pathlib.Path(room) / "state"
    process = started(room, ["127.0.0.1:1"])
    hold(process.order("alarm 1 on") == "done" and process.order("save") == "done", "the first")
    second = started(room, ["127.0.0.1:1"])
    hold(second.process.wait(10) == 1, "a second program takes the state")
    second.reader.join(5)
    hold(second.logged(f"{state}: another program keeps its state there") == 1, f"the second says {second.lines}")
    hold(process.order("counts") == "link 0 holds 1, lost 0", "the first is disturbed")
    process.kill()
    third = started(room, ["127.0.0.1:1"])
    hold(third.order("counts") == "link 0 holds 1, lost 0", "the state after a kill")
    third.quit()


class Book:
    """What must come, what must not come again."""

    def __init__(self, supervisor):
        self.supervisor, self.next, self.given, self.kept, self.settled = supervisor, 1000, 0, set(), {}

    def arrived(self):
        """Each value with the connection on which it came."""
        for said in list(self.supervisor.messages):
            if said["type"] == "StatusUpdate":
                for entry in said["sS"]:
                    if entry["s"] is not None:
                        yield int(entry["s"]), said["connection"]

    def judge(self):
        for value, connection in self.arrived():
            settled = self.settled.get(value)
            hold(settled is None or connection <= settled, f"{value} was answered and stored on connection {settled} and comes on {connection}")

    def missing(self):
        return self.kept - {value for value, _ in self.arrived()}


class Numbering(Supervisor):
    """Notes with each message the connection on which it came and whether it is answered; updates are not where it withholds."""
    withholds = False

    def take(self, said):
        self.answers = not (self.withholds and said["type"] == "StatusUpdate")
        said["connection"], said["answered"] = len(self.connections), self.answers
        super().take(said)


def one_life(process, supervisor, book, source, at_once):
    """Orders and answers until the process is gone. So few are held that none is pushed out."""
    given = set()
    while True:
        supervisor.withholds = source.random() < 0.2
        if int(process.order("counts").split()[3].rstrip(",")) > 40:
            time.sleep(0.02)
            continue
        for _ in range(source.randrange(1, 4)):
            book.next += 1
            if process.order(f"status {RELEASE} {book.next}") == "done":
                book.given += 1
                (book.kept if at_once else given).add(book.next)
        if not supervisor.up:
            time.sleep(0.05)
            continue
        connection = len(supervisor.connections)
        answered = {int(entry["s"]) for said in list(supervisor.messages) if said["type"] == "StatusUpdate" and said["answered"]
                    and said["connection"] == connection for entry in said["sS"] if entry["s"] is not None}
        identity = supervisor.send("AggregatedStatusRequest", cId=SITE)
        end = time.monotonic() + 10
        while identity not in supervisor.acknowledged:
            if process.process.poll() is not None:
                raise Dead
            hold(time.monotonic() < end, "no answer before the kill")
            time.sleep(0.005)
        if at_once or process.order("save") == "done":
            book.kept |= given
            for value in answered:
                book.settled.setdefault(value, connection)
            time.sleep(source.uniform(0, 0.3))  # so that some kills find nothing newer than the answers


def kill_later(process, supervisor, from_up, delay):
    """After so many seconds, counted from when its link is Up or from now."""
    before, end = len(supervisor.connections), time.monotonic() + 10
    while from_up and not (supervisor.up and len(supervisor.connections) > before) and time.monotonic() < end:
        time.sleep(0.01)
    time.sleep(delay)
    process.process.send_signal(signal.SIGKILL)


def kills(room, count=20, seed=None):
    """Killed at random points: nothing stored as answered comes back, nothing stored as held is lost."""
    seed = time.time_ns() % 10**9 if seed is None else seed
    print(f"rsmp-site: kills: seed {seed}", flush=True)
    source, supervisor = random.Random(seed), Numbering(SITE, SXL)
    book = Book(supervisor)
    process = started(room, [supervisor], "--state-interval", "0", "--quiet")
    supervisor.wait_up()
    hold(supervisor.ask("StatusSubscribe", **subscription()) is True, f"seed {seed}: the subscription")
    process.kill()
    for turn in range(count):
        at_once = turn % 2 == 0
        process = started(room, [supervisor], "--state-interval", "0" if at_once else "0.4", "--quiet")
        from_up = source.random() < 0.8
        killer = threading.Thread(target=kill_later, args=[process, supervisor, from_up, source.uniform(0, 1)])
        killer.start()
        try:
            one_life(process, supervisor, book, source, at_once)
        except (Dead, TimeoutError):
            pass
        killer.join()
        process.kill()
        book.judge()
    supervisor.withholds = False
    process = started(room, [supervisor], "--quiet")
    wait(lambda: process.order("counts") == "link 0 holds 0, lost 0", f"seed {seed}: everything to be answered")
    hold(not book.missing(), f"seed {seed}: {len(book.missing())} of {len(book.kept)} values that were stored are lost: {sorted(book.missing())[:9]}")
    process.quit()
    book.judge()
    supervisor.close()
    return (f"seed {seed}: {count} kills, {book.given} values given, {len(book.kept)} surely stored and all came, "
            f"{len(book.settled)} surely answered and none came back")


TESTS = [restart, not_ours, one_at_a_time, kills]
