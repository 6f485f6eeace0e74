"""How `rsmp-site` begins, ends and is led: words, files of words, quit, signals, the log that nobody reads, the record, systemd."""
import os
import pathlib
import signal
import socket
import subprocess
import time

from cases import ROOT
from process import LOGGED, PROGRAM, SITE, SXL, TABLE, Control, Process, hold, wait
from supervisors import Supervisor

NOWHERE = "127.0.0.1:1"


def status(*words):
    done = subprocess.run([PROGRAM, *words], capture_output=True, stdin=subprocess.DEVNULL, timeout=20)
    return done.returncode, (done.stdout + done.stderr).decode(errors="replace")


def usage(room):
    for word in ("--help", "-h"):
        code, said = status(word)
        hold(code == 0 and "--state-interval" in said, word)
    code, said = status("--version")
    hold(code == 0 and said.startswith("rsmp-site "), "--version")
    supervised = ("--table", TABLE, "--supervisor")
    for words, wanted in (((), "--table is missing"), (("--table", TABLE), "0 supervisors, 1 to 4 are allowed"),
                          ((*supervised, "a:1", "--primary", "1"), "the links are numbered 0 to 0"),
                          (("--table", TABLE, "--period", "0"), "1 to 3600 seconds"), (("--what",), "no such option"),
                          (("--period=",), "1 to 3600 seconds"), (("--link-rate", "fast"), "0 to 1000000 packets"), (("--log-size", "big"), "a number of bytes"), (("--table",), "--table needs a value"),
                          ((*supervised, "centre"), "has no port"), ((*supervised, "centre:99999"), "no port from 1 to 65535"),
                          ((*supervised, "\x1b[31m:x"), "\\u{1b}[31m"), ((b"--table=\xff\xfe",), "a word is not UTF-8"),
                          (("--config", "/nowhere/at/all"), "No such file")):
        code, said = status(*words)
        hold(code == 2 and wanted in said and "\x1b" not in said, f"{words}: {code} {said}")
    code, said = status("--table", ROOT / "Makefile", "--supervisor", "a:1")
    hold(code == 3 and "Makefile:1: a line begins with" in said, said)
    code, said = status("--table", "/nowhere/at/all", "--supervisor", "a:1")
    hold(code == 1 and "/nowhere/at/all: No such file" in said, said)
    code, said = status("--table", TABLE, "--supervisor", "a:1", "--random", "/dev/null")
    hold(code == 1 and "/dev/null" in said, f"no random bytes: {said}")


def words_in_a_file(room):
    file = pathlib.Path(room) / "rsmp-site.conf"
    supervisor = Supervisor(SITE, SXL)
    file.write_text(f"# the barrier\nsupervisor {supervisor.address}  # the centre\nperiod 7\nlog-level info\n")
    process = Process(room, [], f"--config={file}", record=False)
    supervisor.wait_up()
    process.quit()
    hold(process.logged("link 0  Up, RSMP 3.2.0") == 1 and not process.logged(" message "), "the file's words are not taken")
    file.write_text("supervisor a:1\nperiod soon\n")
    code, said = status("--table", TABLE, "--config", file)
    hold(code == 2 and f"{file}:2: period: wanted 1 to 3600 seconds" in said, said)


def quits(room):
    """The reply to quit is written before the process ends, connected or not."""
    supervisor = Supervisor(SITE, SXL)
    for turn in range(16):
        process = Process(room, [supervisor if turn % 4 == 0 else NOWHERE], record=False)
        if turn % 4 == 0:
            supervisor.wait_up()
        process.quit()
        hold(process.replies() == ["goodbye"] and process.lines[-1].startswith("  link 0 "), f"turn {turn}: {process.lines}")
    path = pathlib.Path(room) / "control"
    for turn in range(6):
        process = Process(room, [NOWHERE], "--control", path, record=False)
        hold(Control(path).order("quit") == "goodbye", f"turn {turn}: quit by the control socket has no reply")
        process.ended()
    supervisor.close()
    return "22 times quit, 22 times goodbye"


def nobody_reads_the_log(room):
    """The log's reader stalls, reads again, is gone: the site goes on, tells of what was dropped, and ends when told."""
    supervisor, path = Supervisor(SITE, SXL), pathlib.Path(room) / "control"
    ours, its = os.pipe()
    process = Process(room, [supervisor], "--control", path, "--log-level", "debug", record=False, stdout=its)
    os.close(its)
    supervisor.wait_up()
    control = Control(path)

    def asks(count):
        for _ in range(count):
            hold(supervisor.ask("AggregatedStatusRequest", cId=SITE) is True, "a request while nobody reads the log")

    supervisor.flood("AggregatedStatusRequest", 136, cId=SITE, pad="x" * 3800)
    hold("link 0 Up" in control.order("links"), "an order while nobody reads the log")
    said, end = b"", time.monotonic() + 20
    while b" lines of the log were dropped here)\n" not in said:
        hold(time.monotonic() < end, "the log does not tell of dropped lines")
        asks(1)
        said += os.read(ours, 1 << 16)
    os.close(ours)
    asks(40)
    process.terminate()
    stalled, its = os.pipe()
    process = Process(room, [supervisor], "--control", path, "--log-level", "debug", record=False, stdout=its)
    os.close(its)
    wait(lambda: supervisor.up, "the link again")
    supervisor.flood("AggregatedStatusRequest", 136, cId=SITE, pad="x" * 3800)
    began = time.monotonic()
    process.terminate()
    taken = time.monotonic() - began
    hold(1.5 < taken < 6, f"with a stalled log SIGTERM takes {taken:.1f} s")
    os.close(stalled)
    supervisor.close()
    return f"with a stalled log SIGTERM takes {taken:.1f} s"


def files_opened_again(room):
    """SIGHUP has the log and the record opened again; the record is appended to, and put aside when it is long."""
    room = pathlib.Path(room)
    supervisor, log, record = Supervisor(SITE, SXL), room / "log", room / "record.txt"
    process = Process(room, [supervisor], "--log", log, "--quiet")
    supervisor.wait_up()
    wait(lambda: "Up, RSMP" in log.read_text(), "the log's file")
    log.rename(room / "log.old")
    record.rename(room / "record.old")
    process.process.send_signal(signal.SIGHUP)
    wait(lambda: log.exists() and "the log is opened again" in log.read_text(), "the log to be opened again")
    hold("the record is opened again" in log.read_text() + (room / "log.old").read_text(), "the record is not told of")
    hold(process.order("alarm 1 on") == "done", "an order after SIGHUP")
    process.quit()
    hold(all(LOGGED.match(line) for line in (room / "log.old").read_text().splitlines()), "a line of the log")
    hold((room / "record.old").read_text().startswith("start "), "the record before SIGHUP")
    hold(record.read_text().startswith("restore 52534d5053495445") and "\nalarm 1 1 " in record.read_text(), "the record after SIGHUP")
    record.unlink()
    for _ in range(2):
        process = Process(room, [NOWHERE])
        hold(process.order("counts").startswith("link 0 holds 0"), "counts")
        process.quit()
    hold(sum(line.startswith("start ") for line in record.read_text().splitlines()) == 2, "the record is not appended to")
    record.unlink()
    process = Process(room, [NOWHERE], "--record-size", "1K")
    aside = room / "record.txt.1"
    wait(aside.exists, "a long record to be put aside")
    process.quit()
    hold(aside.stat().st_size >= 1024 and record.read_text().startswith("restore 52534d5053495445"), "the records put aside")
    supervisor.close()


def told_to_systemd(room):
    path = pathlib.Path(room) / "notify"
    for name in (str(path), f"@rsmp-site-test-{os.getpid()}-{time.monotonic_ns()}"):
        told = socket.socket(socket.AF_UNIX, socket.SOCK_DGRAM)
        told.bind(name.replace("@", "\0"))
        told.settimeout(10)
        environment = {**os.environ, "NOTIFY_SOCKET": name, "WATCHDOG_USEC": "900000"}
        process = Process(room, [NOWHERE], record=False, env=environment)
        heard = [told.recv(100).decode() for _ in range(4)]
        process.terminate()
        while "STOPPING=1" not in heard:
            heard.append(told.recv(100).decode())
        told.close()
        hold(heard[0] == "READY=1" and set(heard[1:-1]) == {"WATCHDOG=1"} and heard[-1] == "STOPPING=1", f"systemd is told {heard}")


TESTS = [usage, words_in_a_file, quits, nobody_reads_the_log, files_opened_again, told_to_systemd]
