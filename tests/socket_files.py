"""The files of a site that runs: records and logs have their size, no line is torn, a full or slow disk stops nothing and is told of."""
import os
import pathlib
import re
import signal
import socket
import subprocess
import threading
import time

from cases import ROOT
from process import NORTH, RELEASE, SITE, SXL, WITH_COMMANDS, Control, Process, boom, commanding, hold, subscription, wait
from socket_commands import LIMIT, Program
from socket_end import NOWHERE, status
from supervisors import FORM_FEED, Supervisor

RESTORED = "restore 52534d5053495445"
TORN = "packet 0 1790000000000 0011"
SLACK = 34_000  # a stored site as a line, and a packet


def plays(record):
    """Plays a record and gives how many lines it has."""
    text = record.read_text()
    played = subprocess.run([ROOT / "build" / "rsmp-replay"], input=text, capture_output=True, text=True)
    hold(played.returncode == 0 and played.stdout.count("\n") == text.count("\n"),
         f"{record.name} is played to line {played.stdout.count(chr(10))} of {text.count(chr(10))}: {played.stderr}")
    return text.count("\n")


def record_has_its_size(room):
    """Neither packets for whose commands there is no room nor restarts from a state make it longer."""
    room = pathlib.Path(room)
    supervisor, program = Supervisor(SITE, SXL), Program(room, f"while [ ! -e {room}/go ]; do sleep 0.05; done")
    record, aside, most = room / "record.txt", room / "record.txt.1", 100 << 10
    process = Process(room, [supervisor], "--on-command", program.path, "--record-size", "100K", table=WITH_COMMANDS)
    supervisor.wait_up()
    for _ in range(16):
        hold(supervisor.ask("CommandRequest", **commanding(*[(*LIMIT, value) for value in range(100, 116)])) is True, "sixteen commands")
    hold(supervisor.ask("CommandRequest", **boom(1)) is True, "the last that fits")
    for _ in range(400):
        supervisor.send("CommandRequest", **boom(1))
    wait(lambda: "400 not taken" in process.order("commands"), "all of them")
    hold(not aside.exists() and "\nrestore " not in record.read_text(), "a packet that is not taken is written to the record")
    for _ in range(40):
        supervisor.flood("AggregatedStatusRequest", 8, cId=SITE, pad="x" * 400)
    wait(aside.exists, "the record to be put aside")
    process.kill_between_calls()
    (room / "go").touch()
    hold(max(record.stat().st_size, aside.stat().st_size) < most + SLACK, f"{record.stat().st_size} and {aside.stat().st_size} bytes of records")
    plays(record)
    supervisor.close()
    record.unlink()
    aside.unlink()
    for _ in range(7):
        process = Process(room, [NOWHERE], "--record-size", "100K", "--state", room / "state")
        hold(process.order("counts").startswith("link 0 holds 0"), "counts")
        process.quit()
    hold(aside.exists() and aside.stat().st_size < most + SLACK and record.stat().st_size < most + SLACK, "records of seven starts")
    hold(plays(aside) and plays(record), "records of seven starts")


def no_line_is_torn(room):
    """A kill just after a start from a state or after a long packet, between two system calls, leaves whole lines; a torn line is cut off and told of."""
    room = pathlib.Path(room)
    supervisor, record = Supervisor(SITE, SXL), room / "record.txt"
    process = Process(room, [supervisor], "--state", room / "state")
    supervisor.wait_up()
    process.quit()
    for turn in range(3):
        before = record.stat().st_size
        process = Process(room, [supervisor], "--state", room / "state")
        wait(lambda: record.stat().st_size > before, "the stored site in the record")
        process.kill_between_calls()
        hold(record.read_bytes().endswith(b"\n"), "a line is torn by a kill after a start")
    before = plays(record)
    with record.open("a") as out:
        out.write(TORN)
    process = Process(room, [supervisor], "--state", room / "state")
    process.wait_logged(f"the record ended in the middle of a line: its last {len(TORN)} bytes are cut off")
    supervisor.wait_up()
    supervisor.send_raw(b"x" * 4000 + FORM_FEED)
    hold(supervisor.ask("AggregatedStatusRequest", cId=SITE, pad="x" * 3800) is True, "a long packet")
    process.kill_between_calls()
    hold(record.read_bytes().endswith(b"\n"), "a line is torn by a kill after a long packet")
    hold(plays(record) > before and TORN not in record.read_text(), "the record after a torn line")
    supervisor.close()
    record.write_text("precious")
    code, said = status("--table", ROOT / "examples" / "barrier.txt", "--supervisor", NOWHERE, "--record", record)
    hold(code == 1 and "it is no record" in said and record.read_text() == "precious", f"a file that is no record: {code} {said}")


def garbage_is_counted(room):
    """A flood leaves a short log, which tells how much it left out; a log has its size."""
    room = pathlib.Path(room)
    supervisor, log = Supervisor(SITE, SXL), room / "log"
    process = Process(room, [supervisor], "--log", log, "--link-rate", "0", record=False)
    supervisor.wait_up()
    began, count = time.monotonic(), 12_000
    for turn in range(count // 100):
        supervisor.send_raw(b"".join(b'{"type":"%d garbage","mId":"%s"}\x0c' % (turn * 100 + one, b"y" * 200) for one in range(100)))
    hold(supervisor.ask("AggregatedStatusRequest", cId=SITE) is True, "an answer behind garbage")
    took = time.monotonic() - began
    told = lambda: sum(map(int, re.findall(r'left out here:(?:.*, | )(\d+) like "! \?"', log.read_text())))
    written = lambda: len(re.findall(r"link 0  ! \d+ garbage", log.read_text()))
    wait(lambda: told() + written() == count, "all garbage to be written or counted")
    hold(written() <= 100 * (took + 2), f"{written()} lines of garbage in {took:.1f} s")
    left = written()
    process.quit()
    process = Process(room, [supervisor], "--log", log, "--log-size", "20K", "--log-level", "debug", record=False)
    supervisor.wait_up()
    for _ in range(20):
        supervisor.flood("AggregatedStatusRequest", 8, cId=SITE, pad="x" * 1500)
    process.quit()
    sizes = [path.stat().st_size for path in (log, room / "log.1")]
    hold(max(sizes) <= 20 << 10, f"logs of {sizes} bytes")
    supervisor.close()
    return f"{count} packets of garbage in {took:.1f} s leave {left} lines"


def logs_that_stay(room):
    """A long log that cannot be put aside begins anew where it lies and says so; a pipe is not taken for a file of a size. Lines of a message are short."""
    room = pathlib.Path(room)
    supervisor, log, most = Supervisor(SITE, SXL), room / "log", 20 << 10
    (room / "log.1").mkdir()
    process = Process(room, [supervisor], "--log", log, "--log-size", "20K", record=False)
    supervisor.wait_up()
    spoiled = b'{"type":"Alarm","cId":"%s"}\x0c' % (b"\xff" * 3900)
    supervisor.send_raw(spoiled)
    wait(lambda: "! Alarm" in log.read_text(), "a line of bytes that are no text")
    hold(max(map(len, log.read_text().splitlines())) < 1000, "a line of the log is long")
    for _ in range(40):
        supervisor.flood("AggregatedStatusRequest", 8, cId=SITE, pad="x" * 300)
        hold(log.stat().st_size <= most, f"a log of {log.stat().st_size} bytes")
    process.quit()
    said = log.read_text()
    hold("the log is long and cannot be put aside, it begins anew: " in said and "ends as told" in said, f"the log ends with {said[-400:]}")
    supervisor.wait(lambda: not supervisor.up, "the end")
    pipes, read = [room / "pipe", room / "record.txt"], {}
    for path in pipes:
        os.mkfifo(path)
        threading.Thread(target=lambda path=path: read.update({path: path.read_text()}), daemon=True).start()
    process = Process(room, [supervisor], "--log", pipes[0], "--log-size", "4K", "--record-size", "4K")
    supervisor.wait_up()
    for _ in range(10):
        supervisor.flood("AggregatedStatusRequest", 8, cId=SITE, pad="x" * 300)
    hold(all(path.is_fifo() and not path.with_name(path.name + ".1").exists() for path in pipes), "a pipe is put aside")
    process.quit()
    wait(lambda: len(read) == 2, "the end of what was read")
    hold("summary" in read[pipes[0]] and min(len(text) for text in read.values()) > 8 << 10, "what was read of the pipes")
    supervisor.close()


def full_disk(room):
    """A record and a log that cannot be written are tried again and lose no line in the middle; SIGHUP tells what came of it."""
    room = pathlib.Path(room)
    supervisor, record, log, path = Supervisor(SITE, SXL), room / "record.txt", room / "logs" / "log", room / "control"
    log.parent.mkdir()
    record.symlink_to("/dev/full")
    log.symlink_to("/dev/full")
    process = Process(room, [supervisor], "--log", log, "--control", path)
    supervisor.wait_up()
    control = Control(path)
    time.sleep(0.6)
    log.unlink()
    wait(lambda: supervisor.ask("AggregatedStatusRequest", cId=SITE) is True and log.exists() and log.stat().st_size, "the log again")
    hold(re.match(r"\(\d+ lines of the log were dropped here\)\n", log.read_text()), f"the log begins with {log.read_text()[:99]}")
    process.process.send_signal(signal.SIGHUP)
    wait(lambda: "the log is opened again" in log.read_text() and "the record cannot be opened again" in log.read_text(), "the truth of SIGHUP")
    record.unlink()
    wait(lambda: "the record is written again" in log.read_text(), "the record again")
    hold(log.read_text().count("the record is written again") == 1 and "the record is opened again" not in log.read_text(), "the log")
    log.parent.rename(room / "moved")
    process.process.send_signal(signal.SIGHUP)
    former = room / "moved" / "log"
    wait(lambda: "the log cannot be opened again, the former file is written on" in former.read_text(), "what SIGHUP could not do")
    hold("the record is opened again" in former.read_text(), "what SIGHUP could do")
    hold(control.order("alarm 1 on") == "done", "an order")
    control.order("quit")
    process.ended()
    hold(record.read_text().startswith(RESTORED) and "\nalarm 1 1 " in record.read_text() and plays(record), "the record")
    supervisor.close()


def slow_disk(room):
    """While the disk takes the state, orders are answered; with interval 0 they wait, and the watchdog is fed."""
    room = pathlib.Path(room)
    state, new = room / "state", room / "state.new"
    process = Process(room, [NOWHERE], "--state", state, "--state-interval", "0.2", record=False)
    hold(process.order("save") == "done" and state.exists(), "the state")
    os.mkfifo(new)  # opening it waits for a reader, as a disk that does not answer
    began = time.monotonic()
    for order in ("alarm 1 on", f"status {RELEASE} 7", "alarm 2 on", "counts"):
        hold(process.order(order).startswith(("done", "link 0 holds 2")), order)
        time.sleep(0.25)
    took = time.monotonic() - began
    hold(took < 10, f"four orders take {took:.1f} s while the disk does not answer")
    answering = os.open(new, os.O_RDONLY | os.O_NONBLOCK)
    new.unlink()
    process.wait_logged("the state cannot be written: ")  # a pipe cannot be synced
    os.close(answering)
    process.wait_logged("the state is written again")
    hold(process.order("save") == "done", "save")
    process.kill()
    path = room / "notify"
    told = socket.socket(socket.AF_UNIX, socket.SOCK_DGRAM)
    told.bind(str(path))
    told.settimeout(5)
    environment = {**os.environ, "NOTIFY_SOCKET": str(path), "WATCHDOG_USEC": "900000"}
    process = Process(room, [NOWHERE], "--state", state, "--state-interval", "0", record=False, env=environment)
    hold(process.order("counts") == "link 0 holds 2, lost 0", "what was stored")
    hold(process.order("alarm 3 on") == "done", "an alarm that is stored")
    (room / "copy").write_bytes(state.read_bytes())
    (room / "copy").rename(state)  # another file there, so that a new one is written
    os.mkfifo(new)
    replies = []
    asking = threading.Thread(target=lambda: replies.append(process.order("alarm 4 on")))
    asking.start()
    time.sleep(0.3)
    told.setblocking(False)
    while drained(told):
        pass
    told.settimeout(2)
    hold([told.recv(100) for _ in range(4)] == [b"WATCHDOG=1"] * 4 and not replies, "the watchdog is not fed while the disk does not answer")
    answering = os.open(new, os.O_RDONLY | os.O_NONBLOCK)
    new.unlink()
    asking.join()
    os.close(answering)
    hold(replies == ["done, not stored"], f"an order that is not stored: {replies}")
    wait(lambda: process.order(f"status {RELEASE} 8") == "done", "an order that is stored")
    process.kill()
    process = Process(room, [NOWHERE], "--state", state, record=False)
    hold(process.order("counts") == "link 0 holds 4, lost 0", "what was stored when the disk was back")
    process.quit()
    told.close()


def drained(stream):
    try:
        return stream.recv(100)
    except BlockingIOError:
        return None


def what_is_set_is_stored(room):
    """What the cabinet sets does not wait for the interval that the start or a supervisor began, and an alarm waits for none."""
    supervisor, state = Supervisor(SITE, SXL), pathlib.Path(room) / "state"
    options = "--state", state, "--state-interval", "600"
    process = Process(room, [supervisor], *options, record=False)
    supervisor.wait_up()
    hold(supervisor.ask("AggregatedStatusRequest", cId=SITE) is True, "a request")
    time.sleep(0.7)
    for order in (f"status {RELEASE} 77", "alarm 3 on", "alarm 4 on"):
        before = state.read_bytes()
        hold(process.order(order) == "done", order)
        wait(lambda: state.read_bytes() != before, f"{order}: the state")
    process.kill()
    supervisor.wait(lambda: not supervisor.up, "the kill")
    process = Process(room, [supervisor], *options, record=False)
    supervisor.wait_up()
    hold(supervisor.ask("StatusSubscribe", **subscription()) is True, "a subscription")
    supervisor.wait(lambda: [said["sS"][0]["s"] for said in supervisor.of("StatusUpdate")] == ["77"], "the value that was set before the kill")
    active = {(said["cId"], said["aCId"]) for said in supervisor.of("Alarm")[-6:] if said["aS"] == "Active"}
    hold(len(active) == 2 and NORTH in {component for component, _ in active}, f"the alarms that were active before the kill: {active}")
    process.quit()
    supervisor.close()


TESTS = [slow_disk, full_disk, record_has_its_size, no_line_is_torn, garbage_is_counted, logs_that_stay, what_is_set_is_stored]
