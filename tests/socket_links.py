"""Links that do not come to Up, who closed one and why, pauses before the next, slow readers, memory in a flood."""
import json
import pathlib
import socket
import threading
import time

from model import message
from process import NORTH, SITE, SXL, Process, hold, wait
from supervisors import FORM_FEED, Supervisor


def silent_in_greeting(room):
    """One that acknowledges our Version and is silent then, and one that does not even that, are left and called again."""
    silent, mute = Supervisor(SITE, SXL, greets=False), Supervisor(SITE, SXL, answers=False, greets=False)
    process = Process(room, [silent, mute], "--greeting-limit", "1.5", "--quiet")
    for one in (silent, mute):
        one.wait(lambda: len(one.connections) >= 3, "the silent one to be called again")
    silent.greets = True
    silent.wait_up()
    time.sleep(2)
    hold(silent.up, "the limit closes a link that is Up")
    process.quit()
    hold(process.logged("link 0  we close the connection: it is not Up after 1.5 seconds") >= 2, "the log does not say why")
    hold(process.logged("the supervisor closed it") == 0, "the log says that the supervisor closed what we closed")
    for one in (silent, mute):
        one.close()


def who_closed(room):
    """Also in a quiet log: a refused Version with its reason, who closed, that the link is Up."""
    wrong, good, refusing = Supervisor("another", SXL), Supervisor(SITE, SXL), Refusing(SITE, SXL)
    process = Process(room, [good, wrong, refusing], "--quiet")
    good.wait_up()
    process.wait_logged("link 1  we close the connection: its Version is refused: ")
    process.wait_logged("link 2  we close the connection: it refuses our message: we do not like you")
    good.cut()
    process.wait_logged("link 0  the connection is gone: the supervisor closed it")
    wait(lambda: process.logged("link 0  Up, RSMP 3.2.0") == 2, "the second Up line")
    process.quit()
    hold(process.logged("link 1  the connection is gone") == 0, "the log says that the supervisor closed what we closed")
    for one in (wrong, good, refusing):
        one.close()


class Refusing(Supervisor):
    """Refuses what it gets."""

    def take(self, said):
        if "mId" in said:
            self.send_raw(message.not_ack(said["mId"], "we do not like you") + FORM_FEED)


def pauses_grow(room):
    """Twice as long each time, up to the limit; short again after a link was Up; the connection is kept alive."""
    listener, times = socket.create_server(("127.0.0.1", 0)), []
    process = Process(room, ["127.0.0.1:%d" % listener.getsockname()[1]], "--reconnect", "0.3", "--reconnect-limit", "1.2", record=False)
    for turn in range(6):
        stream, peer = listener.accept()
        times.append(time.monotonic())
        if turn == 5:
            wait(lambda: keepalive(peer[1]), "the connection to be kept alive", 5)
        stream.close()
    gaps = [after - before for before, after in zip(times, times[1:])]
    for gap, wanted in zip(gaps, (0.3, 0.6, 1.2, 1.2, 1.2)):
        hold(0.85 * wanted < gap < 1.15 * wanted + 0.9, f"pauses of {gaps}")
    process.quit()
    listener.close()


def keepalive(port):
    """Whether the system has the timer of keepalive for the connection from this port: 30 s at most."""
    lines = pathlib.Path("/proc/net/tcp").read_text().splitlines()[1:]
    timers = [line.split()[5] for line in lines if line.split()[1].endswith(":%04X" % port)]
    return any(timer.startswith("02:") and int(timer[3:], 16) <= 3000 for timer in timers)


class Slow(Supervisor):
    """Reads a little at a time."""

    def talk(self, stream):
        self.slow, rest = getattr(self, "slow", False), b""
        while True:
            data = stream.recv(256 if self.slow else 65536)
            if not data:
                return
            if self.slow:
                time.sleep(0.002)
            *packets, rest = (rest + data).split(FORM_FEED)
            for packet in packets:
                self.take(json.loads(packet))


def slow_reader(room):
    """One that reads little at a time gets everything in order, and does not hold up another."""
    slow, quick = Slow(SITE, SXL), Supervisor(SITE, SXL)
    process = Process(room, [slow, quick], "--quiet", record=False)
    slow.wait_up()
    quick.wait_up()
    slow.slow = True
    flood = threading.Thread(target=slow.flood, args=["StatusRequest", 80], kwargs={"cId": NORTH, "sS": [{"sCI": "S0101", "n": "release"}] * 16})
    flood.start()
    for _ in range(40):
        hold(quick.ask("AggregatedStatusRequest", cId=SITE) is True, "another link beside a slow one")
    flood.join()
    slow.wait(lambda: len(slow.of("StatusResponse")) == 80, "what the slow one asked for")
    process.quit()
    slow.close()
    quick.close()


class Deaf(Supervisor):
    """Reads nothing any more when it is told so, and has little room for what comes."""
    deaf = False

    def __init__(self, *words):
        super().__init__(*words)
        self.listener.setsockopt(socket.SOL_SOCKET, socket.SO_RCVBUF, 2048)

    def take(self, said):
        super().take(said)
        while self.deaf:
            time.sleep(0.05)


def never_reads(room):
    """One that sends and never reads is cut off, and the log says why; nothing piles up for it."""
    deaf, good = Deaf(SITE, SXL), Supervisor(SITE, SXL)
    process = Process(room, [deaf, good], "--quiet", record=False)
    deaf.wait_up()
    good.wait_up()
    wait(lambda: process.order("counts").startswith("link 0 holds 0") and len(deaf.of("Alarm")) == 6, "answers to all")
    time.sleep(0.5)
    deaf.deaf = True
    _, watchdog = deaf.packet("Watchdog", wTs=message.time_text(int(time.time() * 1000)))
    began = time.monotonic()
    while not process.logged("link 0  the connection is gone") and not process.logged("link 0  we close"):
        hold(time.monotonic() < began + 90, "the one that does not read is not cut off")
        deaf.send_raw(watchdog * 50)
    why = process.logged("the supervisor does not read what it is sent") + process.logged("Connection timed out")
    hold(why == 1, "the log does not say why")
    taken = time.monotonic() - began
    hold(good.up and good.ask("AggregatedStatusRequest", cId=SITE) is True, "another link")
    deaf.deaf = False
    deaf.wait_up()
    process.quit()
    deaf.close()
    good.close()
    return f"cut off after {taken:.0f} s"


def flooded(supervisor, seconds):
    """Requests as fast as they are answered, eight at a time."""
    end, count = time.monotonic() + seconds, 0
    while time.monotonic() < end:
        supervisor.flood("AggregatedStatusRequest", 8, cId=SITE)
        supervisor.messages.clear()
        supervisor.acknowledged.clear()
        supervisor.connections[-1].clear()
        count += 8
    return count


def memory_in_a_flood(room, short=4, long=14, looks=7):
    """As much memory at any time of a longer flood as after a short one, and when it is over; the log is read slowly."""
    supervisor = Supervisor(SITE, SXL)
    process = Process(room, [supervisor], "--state", pathlib.Path(room) / "state", "--state-interval", "1", "--record-size", "1M")
    supervisor.wait_up()
    idle = process.resident()
    count = flooded(supervisor, short)
    before, during = process.resident(), []
    for _ in range(looks):
        count += flooded(supervisor, long / looks)
        during.append(process.resident())
    time.sleep(1)
    after = process.resident()
    process.quit()
    supervisor.close()
    said = f"{idle >> 10} KB before, {before >> 10} KB after {short} s of flood, {min(during) >> 10} to {max(during) >> 10} KB in {long} s more, {after >> 10} KB behind it"
    hold(max(*during, after) < before + (2 << 20), said)
    return f"{count} requests; resident {said}"


TESTS = [memory_in_a_flood, silent_in_greeting, who_closed, pauses_grow, slow_reader]
LONG = [never_reads]
