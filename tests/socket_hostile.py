"""What a hostile or broken neighbour can do: forged lines, files in the way, spent files and numbers, constant random bytes, long orders."""
import pathlib
import re
import resource
import socket
import struct
import subprocess
import sys
import time

import stored
from model import message
from process import LOGGED, NORTH, PROGRAM, RELEASE, SITE, SXL, TABLE, Control, Process, hold, last_numbers, subscription, wait
from supervisors import FORM_FEED, Supervisor

BUSY = "import time; end = time.monotonic() + 3\nwhile time.monotonic() < end: pass\nprint(time.process_time())"
FORGED = "2026-01-01 00:00:00.000Z error   site    the barrier is open"


def forged_lines(room):
    """Nothing that is received reaches the log raw."""
    supervisor = Supervisor(SITE, SXL)
    process = Process(room, [supervisor], "--log-level", "debug")
    supervisor.wait_up()
    for text in (f"x\n{FORGED}\n", "\x1b[2J\x1b[31mred", "a\rb", "\u202egnp", "\u2028", "\x9b2J", "\x00"):
        quoted = text.encode()
        supervisor.send_raw(b'{"mType":"rSMsg","type":"' + quoted + b'","mId":"' + quoted + b'"}' + FORM_FEED)
        supervisor.send("Alarm", cId=text, aCId="A0101", aSp="Request")
        supervisor.send_raw(quoted + FORM_FEED)
    hold(supervisor.ask("Alarm", cId=f"x\n{FORGED}", aCId="A", aSp="Request") is not True, "an answer behind forged lines")
    hold("known:" in process.order("open\x1b[2J \u202e"), "an order with escapes")
    process.quit()
    for line in process.lines:
        hold(line.isprintable(), f"a line of the log has {line!r}")
        hold(line != FORGED and (LOGGED.match(line) or not line.startswith("2026-01-01")), "a forged line")
    supervisor.close()


def control_paths(room):
    """Only a socket that nobody serves is taken, and it is its owner's alone."""
    room, words = pathlib.Path(room), ["--table", TABLE, "--supervisor", "127.0.0.1:1", "--control"]

    def refused(path, why):
        done = subprocess.run([PROGRAM, *words, path], capture_output=True, text=True, timeout=20)
        hold(done.returncode == 1 and why in done.stderr, f"{path}: {done.returncode} {done.stderr}")

    precious, link, folder, path = room / "precious", room / "link", room / "folder", room / "control"
    precious.write_text("precious")
    link.symlink_to(precious)
    folder.mkdir()
    for one in (precious, link, folder):
        refused(one, "is no socket")
    hold(precious.read_text() == "precious" and link.is_symlink() and folder.is_dir(), "a file in the way is gone")
    dead = socket.socket(socket.AF_UNIX)
    dead.bind(str(path))
    dead.close()
    process = Process(room, ["127.0.0.1:1"], "--control", path, record=False)
    wait(lambda: path.exists() and path.stat().st_mode & 0o777 == 0o600, "a socket for its owner alone")
    control = Control(path)
    refused(path, "another program takes orders there")
    hold(control.order("counts") == "link 0 holds 0, lost 0", "the living one is disturbed")
    hold(control.order("quit") == "goodbye" and process.process.wait(10) == 0 and not path.exists(), "its end")


def open_files(room):
    """At the limit of open files no order is taken, the process does not spin, and it goes on when there is room."""
    path, limit = pathlib.Path(room) / "control", 16
    limited = lambda: resource.setrlimit(resource.RLIMIT_NOFILE, (limit, limit))
    process = Process(room, ["127.0.0.1:1"], "--control", path, record=False, preexec_fn=limited)
    Control(path).close()  # it waits until the socket is served
    streams = []
    for _ in range(limit + 8):
        stream = socket.socket(socket.AF_UNIX)
        stream.connect(str(path))
        streams.append(stream)
    process.wait_logged("no order can be taken: ")
    before = process.processor_seconds()
    busy = float(subprocess.run([sys.executable, "-c", BUSY], stdout=subprocess.PIPE, check=True).stdout)
    spent = process.processor_seconds() - before
    hold(spent < max(busy / 3, 0.3), f"{spent:.2f} s of processor time at the limit of open files, where a loop gets {busy:.2f} s")
    for stream in streams:
        stream.close()
    end = time.monotonic() + 10
    while True:
        control = Control(path)
        if control.order("counts") == "link 0 holds 0, lost 0":
            break
        control.close()
        hold(time.monotonic() < end, "no order is taken where there is room again")
        time.sleep(0.2)
    hold(control.order("quit") == "goodbye", "quit")
    process.ended()
    return f"{spent:.2f} s of processor time, where a loop gets {busy:.2f} s"


def is_served(path):
    try:
        return Control(path).order("links") == "link 0 Down"
    except (BrokenPipeError, ConnectionResetError):
        return False  # turned away before the order was written


def many_connections(room):
    path = pathlib.Path(room) / "control"
    process = Process(room, ["127.0.0.1:1"], "--control", path, record=False)
    controls = [Control(path) for _ in range(16)]
    for control in controls:
        hold(control.order("counts") == "link 0 holds 0, lost 0", "one of sixteen")
    hold("too many connections" in Control(path).stream.readline(), "the seventeenth is served")
    controls.pop().close()
    wait(lambda: is_served(path), "the next")
    controls[0].order("quit")
    process.ended()


def long_orders(room):
    """An order of 24 MB takes no memory and is refused; the next one is taken."""
    path = pathlib.Path(room) / "control"
    process = Process(room, ["127.0.0.1:1"], "--control", path, record=False)
    control = Control(path)
    hold(control.order("counts") == "link 0 holds 0, lost 0", "an order")
    before = process.resident()
    for _ in range(24):
        control.socket.sendall(b"x" * (1 << 20))
    grown = process.resident() - before
    hold(control.order("") == "refused: an order has at most 1024 bytes", "a long order")
    hold(grown < 4 << 20, f"a long order takes {grown} bytes")
    hold(control.order("alarm 0 on") == "done" and control.order("quit") == "goodbye", "the order after a long one")
    process.ended()


def constant_random_bytes(room):
    """The link is closed, the log says why, and the site goes on."""
    supervisor = Supervisor(SITE, SXL)
    process = Process(room, [supervisor], "--random", "/dev/zero", "--quiet")
    supervisor.wait(lambda: supervisor.of("Version"), "our Version")
    process.wait_logged("we close the connection: the random bytes repeat: their source is broken")
    hold(process.order("alarm 1 on") == "done", "an order beside constant random bytes")
    process.quit()
    supervisor.close()


def told(supervisor):
    """How the aggregated status and alarm 2 stand as the supervisor was last told."""
    aggregated = [sum(128 >> at for at, bit in enumerate(said["se"]) if bit) for said in supervisor.of("AggregatedStatus")]
    alarms = [said["aS"] for said in supervisor.of("Alarm") if (said["cId"], said["aCId"]) == (NORTH, "A0101")]
    return aggregated[-1:], alarms[-1:]


def spent_numbers(room):
    """The last sequence number: the log says what is not carried over, a new site starts with the inputs as they are and takes the one that found
    the end."""
    supervisor = Supervisor(SITE, SXL)
    process = Process(room, [supervisor], "--first", last_numbers(6), "--state", pathlib.Path(room) / "state", "--state-interval", "0")
    supervisor.wait_up()
    hold(process.order("alarm 2 on") == "done" and process.order("aggregated 5") == "done", "inputs")
    hold(supervisor.ask("StatusSubscribe", **subscription()) is True, "a subscription")
    wait(lambda: told(supervisor) == ([5], ["Active"]) and process.order("counts") == "link 0 holds 0, lost 0", "the inputs to be told")
    supervisor.greets = False
    supervisor.cut()
    supervisor.wait(lambda: supervisor.stream is None, "the cut")
    for value in (1, 2, 3, 4):
        hold(process.order(f"status {RELEASE} {value}") == "done", "a status at the end of the numbers")
    wait(lambda: any(re.search(r"are used up: a new site starts.* Not carried over: the records \(link 0 holds [1-3], lost 0\)", line)
                     for line in process.lines), "the log to say what is not carried over")
    supervisor.greets = True
    supervisor.messages.clear()
    supervisor.cut()
    supervisor.wait_up()
    supervisor.wait(lambda: told(supervisor) == ([5], ["Active"]), "the inputs as they are")
    hold(all(said["aS"] == "Active" for said in supervisor.of("Alarm") if (said["cId"], said["aCId"]) == (NORTH, "A0101")), "an active alarm is told inactive")
    hold(supervisor.ask("StatusSubscribe", **subscription()) is True, "a subscription to the new site")
    supervisor.wait(lambda: [said["sS"][0]["s"] for said in supervisor.of("StatusUpdate")][-1:] == ["4"], "the new site's status")
    process.kill()
    process = Process(room, [supervisor], "--state", pathlib.Path(room) / "state")
    hold(process.order("counts").endswith("lost 0"), "the new site is not what is stored")
    process.quit()
    hold(process.logged("goes on from ") == 1, "the new site is not what is stored")
    supervisor.close()


def numbers_end_early(room):
    """Where few numbers are left and nothing is held the new site starts: no record is lost, the inputs stay."""
    supervisor = Supervisor(SITE, SXL)
    process = Process(room, [supervisor], "--first", last_numbers(64))
    supervisor.wait_up()
    hold(process.order("alarm 2 on") == "done" and process.order("aggregated 5") == "done", "inputs")
    hold(supervisor.ask("StatusSubscribe", **subscription()) is True, "a subscription")
    value = 0
    while not process.logged("the sequence numbers are nearly used up: a new site starts"):
        value += 1
        hold(value < 64 and process.order(f"status {RELEASE} {value}") == "done", f"value {value}")
        wait(lambda: process.order("counts") == "link 0 holds 0, lost 0", "answers")
        time.sleep(0.3 if value > 55 else 0)
    hold(process.logged("Not carried over: the records (link 0 holds 0, lost 0)") == 1, "records are lost")
    supervisor.wait(lambda: len(supervisor.connections) == 2 and supervisor.up, "the new site")
    wait(lambda: process.order("counts") == "link 0 holds 0, lost 0", "answers of the new site")
    states = [said["aS"] for said in supervisor.of("Alarm") if (said["cId"], said["aCId"]) == (NORTH, "A0101")]
    hold(told(supervisor) == ([5], ["Active"]) and states == ["inActive", "Active", "Active"], f"the inputs as they are: {told(supervisor)}, {states}")
    hold(supervisor.ask("StatusSubscribe", **subscription()) is True, "a subscription to the new site")
    supervisor.wait(lambda: supervisor.of("StatusUpdate")[-1]["sS"][0]["s"] == str(value), "the value as it is")
    process.quit()
    hold(process.logged("a new site starts") == 2, "more than one start, or links that are not closed for it")
    supervisor.close()
    return f"after {value} of 64 numbers"


def silent_at_the_end(room):
    """A secondary that answers nothing, and so holds records for ever, does not keep the new site from starting while the primary holds nothing."""
    centre, workshop = Supervisor(SITE, SXL), Supervisor(SITE, SXL)
    process = Process(room, [centre, workshop], "--first", last_numbers(64), record=False)
    centre.wait_up()
    workshop.wait_up()
    hold(process.order("alarm 2 on") == "done", "an alarm")
    hold(workshop.ask("StatusSubscribe", **subscription()) is True, "a subscription")
    workshop.answers = False
    for value in range(1, 64):
        if process.logged("a new site starts with"):
            break
        hold(process.order(f"status {RELEASE} {value}") == "done", f"value {value}")
        time.sleep(0.3 if value > 55 else 0)
    hold(process.logged("the sequence numbers are nearly used up: a new site starts"), "the numbers come to their end first")
    wait(lambda: any(re.search(r"the records \(link 0 holds 0, lost 0; link 1 holds [1-9]", line) for line in process.lines), "what is not carried over")
    centre.wait(lambda: len(centre.connections) == 2 and told(centre)[1] == ["Active"], "the new site")
    process.quit()
    for one in (centre, workshop):
        one.close()


def without_packets(room):
    """Bytes without an end, and ends without a packet, take no more of the processor than packets do."""
    supervisor = Supervisor(SITE, SXL)
    process = Process(room, [supervisor], "--quiet", record=False)
    supervisor.wait_up()
    sent = {}
    for name, filler in (("no form feed", b"x"), ("form feeds alone", FORM_FEED)):
        end, sent[name] = time.monotonic() + 1, 0
        while time.monotonic() < end:
            supervisor.send_raw(filler * 65536)
            sent[name] += 65536
        supervisor.send_raw(FORM_FEED)
        hold(supervisor.ask("AggregatedStatusRequest", cId=SITE) is True, f"an answer behind {name}")
    process.quit()
    most = 2 * 1000 * 4096 + (8 << 20)  # a second's worth at once, a second, and what waits on the way
    hold(max(sent.values()) < 2 * most, f"bytes that were taken in a second: {sent}")
    supervisor.close()
    return ", ".join(f"{count >> 20} MB of {name}" for name, count in sent.items()) + " in a second"


def held_back(room):
    """A link that sends more packets than are read in a second waits, loses nothing and does not hold up another; the log tells it once."""
    flooding, other = Supervisor(SITE, SXL), Supervisor(SITE, SXL)
    process = Process(room, [flooding, other], "--link-rate", "40")
    flooding.wait_up()
    other.wait_up()
    began = time.monotonic()
    asked = {flooding.send("Watchdog", wTs=message.time_text(int(time.time() * 1000))) for _ in range(200)}
    hold(other.ask("AggregatedStatusRequest", cId=SITE) is True and not asked <= flooding.acknowledged, "another link waits for it")
    flooding.wait(lambda: asked <= flooding.acknowledged, "answers to all")
    took = time.monotonic() - began
    hold(took > 3, f"200 packets are read in {took:.1f} s at 40 a second")
    process.quit()
    hold(process.logged("link 0  it sends more packets than are read in a second, and is held back") == 1, "the log")
    hold(process.logged("link 1  it sends more") == 0, "the other is held back")
    flooding.close()
    other.close()
    return f"200 packets in {took:.1f} s at 40 a second"


def forged_state(room):
    """A state with right sums whose site has more links than it says: the site goes on."""
    state = pathlib.Path(room) / "state"
    process = Process(room, ["127.0.0.1:1"], "--state", state, record=False)
    hold(process.order("save") == "done", "save")
    process.quit()
    good = state.read_bytes()
    count = stored.POOL_WORDS + stored.SITE_WORDS
    words = list(struct.unpack(f"<{count}Q", stored.of_state(good)[16:16 + 8 * count]))
    for link in (1, 2, 3):
        base = stored.POOL_WORDS + 5 + 75 * link
        words[base + 3:base + 11] = [1] * 8  # connected, greeted, Up
        for slot in range(16):
            words[base + 11 + 4 * slot:base + 15 + 4 * slot] = [1, 0x0000_0001_0000_0001, 7, 7]  # awaited for long
    for link in range(4):
        words[8 + 4 * link + 2] = link << 48
    site = struct.pack(f"<{count}Q", *words) + stored.of_state(good)[16 + 8 * count:-8]
    state.write_bytes(stored.summed(good[:40] + stored.summed(stored.of_state(good)[:16] + site)))
    process = Process(room, ["127.0.0.1:1"], "--state", state, record=False)
    process.wait_logged("goes on from ")
    for order in ("alarm 1 on", "counts", "links", "commands"):
        hold(not process.order(order).startswith("refused"), order)
    time.sleep(0.6)
    process.quit()
    hold(not process.logged("panicked"), process.lines)


TESTS = [forged_lines, control_paths, open_files, many_connections, long_orders, constant_random_bytes, spent_numbers, numbers_end_early, silent_at_the_end, held_back,
         without_packets, forged_state]
