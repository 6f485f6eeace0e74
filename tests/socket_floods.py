"""What a supervisor's flood or a clock's jump took from sites before 0.5: the disk by a record and by a log, the sequence numbers, the time. Told by messages
and files, and with options that 0.4 has, so that `sockets.py --program` shows it of an earlier build, too."""
import pathlib
import time

from process import NORTH, SITE, SXL, WITH_COMMANDS, Process, boom, commanding, hold, last_numbers, subscription, wait
from socket_commands import LIMIT, Program
from socket_files import SLACK
from socket_time import HOUR, NOON, FedClock, watchdogs
from supervisors import Supervisor


def flood(supervisor, seconds, packets):
    """The same packets for so long, as fast as they are taken."""
    end = time.monotonic() + seconds
    while time.monotonic() < end:
        supervisor.send_raw(packets)


def fills_the_record(room):
    """Commands for which there is no room do not make a record longer than it may be."""
    room = pathlib.Path(room)
    supervisor, program, most = Supervisor(SITE, SXL), Program(room, f"while [ ! -e {room}/go ]; do sleep 0.05; done"), 100 << 10
    process = Process(room, [supervisor], "--on-command", program.path, "--record-size", "100K", "--quiet", table=WITH_COMMANDS)
    supervisor.wait_up()
    for _ in range(16):
        hold(supervisor.ask("CommandRequest", **commanding(*[(*LIMIT, value) for value in range(100, 116)])) is True, "sixteen commands")
    hold(supervisor.ask("CommandRequest", **boom(1)) is True, "the last that fits")
    flood(supervisor, 1, supervisor.packet("CommandRequest", **boom(1))[1] * 20)
    process.kill()
    (room / "go").touch()
    sizes = [path.stat().st_size for path in room.glob("record.txt*")]
    hold(max(sizes) < most + SLACK, f"records of {sizes} bytes after a second, where {most} are allowed")
    supervisor.close()
    return f"records of {sizes} bytes, where {most} are allowed"


def fills_the_log(room):
    """Garbage is read no faster than packets are, and its lines are counted."""
    supervisor, log = Supervisor(SITE, SXL), pathlib.Path(room) / "log"
    process = Process(room, [supervisor], "--log", log, record=False)
    supervisor.wait_up()
    before = log.stat().st_size
    flood(supervisor, 2, b'{"type":"garbage","mId":"%s"}\x0c' % (b"y" * 200) * 50)
    grown = log.stat().st_size - before
    process.kill()
    hold(grown < 300_000, f"the log grew by {grown} bytes in two seconds of garbage")
    supervisor.close()
    return f"the log grew by {grown} bytes in two seconds of garbage"


def spends_the_numbers(room):
    """A secondary that subscribes in a flood and answers nothing does not bring the sequence numbers to their end, and never is the primary told that an active
    alarm is not."""
    centre, workshop = Supervisor(SITE, SXL), Supervisor(SITE, SXL)
    process = Process(room, [centre, workshop], "--first", last_numbers(200_000), "--quiet", record=False)
    centre.wait_up()
    workshop.wait_up()
    process.process.stdin.write("alarm 2 on\n")
    alarms = lambda: [said["aS"] for said in centre.of("Alarm") if (said["cId"], said["aCId"]) == (NORTH, "A0101")]
    centre.wait(lambda: alarms() == ["inActive", "Active"], "the alarm to be told")
    workshop.answers = False
    sixteen = {**subscription(), "sS": subscription()["sS"] * 16}
    flood(workshop, 3, workshop.packet("StatusSubscribe", **sixteen)[1] * 10)
    wait(lambda: centre.up, "the primary's link")
    time.sleep(0.5)
    told, calls = alarms(), len(centre.connections)
    process.kill()
    hold(told == ["inActive", "Active"] and calls == 1, f"200000 numbers are spent in 3 s: the primary was called {calls} times and told {told}")
    for one in (centre, workshop):
        one.close()


def a_year_for_seconds(room):
    """A clock that was a year ahead for some seconds is not kept, nor over a restart."""
    clock, supervisor = FedClock(room, NOON), Supervisor(SITE, SXL)
    options = "--clock", clock.path, "--period", "1", "--state", pathlib.Path(room) / "state"
    process = Process(room, [supervisor], *options, record=False)
    supervisor.wait_up()

    def beats():
        """Two Watchdogs more."""
        before = len(watchdogs(supervisor))
        supervisor.wait(lambda: len(watchdogs(supervisor)) >= before + 2, "Watchdogs")
        return watchdogs(supervisor)[-1]

    clock.set(NOON + 365 * 24 * HOUR)
    beats()
    clock.set(NOON)
    kept = beats() - NOON
    process.terminate()
    supervisor.wait(lambda: not supervisor.up, "the end")
    process = Process(room, [supervisor], *options, record=False)
    supervisor.wait_up()
    again = beats() - NOON
    process.terminate()
    hold(max(kept, again) < 60_000, f"the clock is right again, and Watchdogs are {kept // 1000} s ahead, {again // 1000} s after a restart")
    supervisor.close()


TESTS = [a_year_for_seconds, spends_the_numbers, fills_the_log, fills_the_record]
