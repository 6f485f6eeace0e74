"""Clocks that are set, through a clock that the test feeds."""
import pathlib
import time
from datetime import datetime, timezone

from process import RELEASE, SITE, SXL, Process, hold, subscription, wait
from supervisors import Supervisor

HOUR = 3_600_000
NOON = 1_254_398_371_571


class FedClock:
    """The system's clock at the program's start, and how much longer than it seems the program runs, in milliseconds."""

    def __init__(self, room, system):
        self.path, self.system, self.longer = pathlib.Path(room) / "clock", system, 0
        self.write()

    def write(self):
        new = self.path.with_suffix(".new")
        new.write_text(f"{self.system} {self.longer}\n")
        new.rename(self.path)

    def set(self, system):
        self.system = system
        self.write()

    def pass_(self, milliseconds):
        self.longer += milliseconds
        self.write()


def milliseconds(text):
    moment = datetime.strptime(text, "%Y-%m-%dT%H:%M:%S.%fZ").replace(tzinfo=timezone.utc)
    return round(moment.timestamp() * 1000)


def watchdogs(supervisor):
    return [milliseconds(said["wTs"]) for said in supervisor.of("Watchdog")]


def set_back(room):
    """An hour back: Watchdogs, updates at intervals and the closing after 30 s go on, and no time goes back."""
    clock, supervisor = FedClock(room, NOON), Supervisor(SITE, SXL)
    process = Process(room, [supervisor], "--clock", clock.path, "--period", "1")
    supervisor.wait_up()
    hold(process.order(f"status {RELEASE} 190") == "done", "a status")
    hold(supervisor.ask("StatusSubscribe", **subscription(rate="1", change=False)) is True, "a subscription at intervals")
    clock.set(NOON - HOUR)
    process.wait_logged("the system's clock is 36")
    beats, updates = len(watchdogs(supervisor)), len(supervisor.of("StatusUpdate"))
    supervisor.wait(lambda: len(watchdogs(supervisor)) >= beats + 2 and len(supervisor.of("StatusUpdate")) >= updates + 2,
                    "Watchdogs and updates after the clock was set back")
    supervisor.answers = False
    beats = len(watchdogs(supervisor))
    supervisor.wait(lambda: len(watchdogs(supervisor)) > beats, "a Watchdog that is not answered")
    clock.pass_(31_000)
    process.wait_logged("we close the connection: no answer for 30 seconds")
    supervisor.answers = True
    supervisor.wait_up()
    times = watchdogs(supervisor)
    hold(times == sorted(times) and NOON <= times[0] and times[-1] < NOON + 120_000, f"the times of Watchdogs: {times}")
    process.quit()
    supervisor.close()


def boots_in_1970(room):
    """The clock is set right while the site runs: its times are right from then on; and after an hour's jump, too."""
    clock, supervisor = FedClock(room, 0), Supervisor(SITE, SXL)
    process = Process(room, [supervisor], "--clock", clock.path, "--period", "1")
    supervisor.wait_up()
    hold(process.order("alarm 2 on") == "done", "an alarm in 1970")
    for turn, right in enumerate((NOON, NOON + HOUR), 1):
        clock.set(right)
        if turn == 1:
            process.wait_logged("ahead of our time, which is to be so for a minute or agree with the primary's clock before it is taken")
            clock.pass_(61_000)
        wait(lambda: process.logged("the system's clock was set") == turn, "the log to tell of the clock")
        supervisor.wait(lambda: watchdogs(supervisor)[-1] >= right, "a Watchdog at the right time")
        supervisor.wait_up()
        hold("link 0 Up" in process.order("links"), "the link after the clock was set")
    times = watchdogs(supervisor)
    hold(times[0] < 60_000 and times == sorted(times) and times[-1] < NOON + HOUR + 121_000, f"the times of Watchdogs: {times}")
    process.quit()
    supervisor.close()


def a_year_ahead(room):
    """A clock that is a year ahead for some seconds changes nothing, also over a restart in that time; one that agrees with the primary's is taken."""
    clock, supervisor = FedClock(room, NOON), Supervisor(SITE, SXL)
    options = "--clock", clock.path, "--period", "1", "--state", pathlib.Path(room) / "state"
    process = Process(room, [supervisor], *options, record=False)
    supervisor.wait_up()
    clock.set(NOON + 365 * 24 * HOUR)
    process.wait_logged("the system's clock is 3153")
    beats = len(watchdogs(supervisor))
    supervisor.wait(lambda: len(watchdogs(supervisor)) >= beats + 2, "Watchdogs meanwhile")
    process.quit()
    supervisor.wait(lambda: not supervisor.up, "the end")
    process = Process(room, [supervisor], *options, record=False)
    supervisor.wait_up()
    process.wait_logged("the system's clock is 3153")
    clock.set(NOON + 30_000)  # half a minute is taken at once
    beats = len(watchdogs(supervisor))
    supervisor.wait(lambda: len(watchdogs(supervisor)) >= beats + 2, "Watchdogs afterwards")
    times = watchdogs(supervisor)
    hold(times == sorted(times) and times[-1] < NOON + 60_000, f"the times of Watchdogs: {times}")
    hold(not process.logged("behind our time"), "the clock that was wrong is kept")
    now = int(time.time() * 1000)
    clock.set(now - 1000)  # as the supervisor's Watchdogs say
    supervisor.wait(lambda: watchdogs(supervisor)[-1] >= now - 1000, "a time that the primary agrees with")
    wait(lambda: process.logged("the system's clock was set: our time goes on") == 2, "the log to tell of it")
    process.quit()
    supervisor.close()


def fewer_decimals(room):
    """Supervisors whose clocks write zero to six decimals: the link comes up with each, and only from three on is there a hint."""
    for decimals in range(7):
        place = pathlib.Path(room) / str(decimals)
        place.mkdir()
        clock, supervisor = FedClock(place, NOON), Supervisor(SITE, SXL, decimals=decimals)
        process = Process(place, [supervisor], "--clock", clock.path, "--period", "1")
        supervisor.wait_up()
        again = supervisor.beat()
        supervisor.wait(lambda: again in supervisor.acknowledged, f"the acknowledgement of a Watchdog with {decimals} decimals")
        if decimals >= 3:
            process.wait_logged("the primary's clock is")
        process.quit()
        hold(process.logged("the primary's clock is") == (decimals >= 3), f"a hint at {decimals} decimals: {process.lines}")
        supervisor.close()


def seven_decimals(room):
    """Seven are refused: the link does not come up by such a Watchdog."""
    clock, supervisor = FedClock(room, NOON), Supervisor(SITE, SXL, decimals=7)
    process = Process(room, [supervisor], "--clock", clock.path)
    supervisor.wait(lambda: "Bad value" in supervisor.refused.values(), "a refused Watchdog")
    hold("link 0 Beating" in process.order("links"), "the link after seven decimals")
    supervisor.decimals = 0
    supervisor.beat()
    supervisor.wait_up()
    hold(not process.logged("the primary's clock is"), f"no hint: {process.lines}")
    process.quit()
    supervisor.close()


TESTS = [set_back, boots_in_1970, a_year_ahead, fewer_decimals, seven_decimals]
