"""The program `rsmp-site` as a process, led by its standard input or its control socket."""
import os
import pathlib
import re
import signal
import socket
import subprocess
import threading
import time

import tabletexts
from cases import ROOT

PROGRAM = ROOT / "build" / "rsmp-site"
TABLE, WITH_COMMANDS = ROOT / "examples" / "barrier.txt", ROOT / "examples" / "commands.txt"
BARRIER = tabletexts.table_of(TABLE.read_text())
SITE, SXL = BARRIER.site.decode(), BARRIER.sxl.decode()
NORTH, SOUTH = (BARRIER.components[number].decode() for number in (1, 2))
RELEASE = 1
LOGGED = re.compile(r"\d{4}-\d\d-\d\d \d\d:\d\d:\d\d\.\d{3}Z (error  |warning|info   |message|debug  ) (site  |link \d|south \d)  ")

NO_REPLY = re.compile(r"summary|  (north |south )?(link|commands) |\(\d+ lines")


def last_numbers(count):
    """The word for `--first` with so many sequence numbers left: they end at 2147483647, in builds before Req 10 at 4294967295."""
    refused = subprocess.run([PROGRAM, "--first", str(1 << 31)], text=True, stderr=subprocess.PIPE).stderr
    return str((1 << 31 if "2147483647" in refused else 1 << 32) - count)


class Failed(Exception):
    """A test does not hold."""


class Dead(Exception):
    """The process is gone."""


def hold(good, what):
    if not good:
        raise Failed(what)


def wait(test, what, seconds=20):
    end = time.monotonic() + seconds
    while not test():
        hold(time.monotonic() < end, f"waited {seconds} s for {what}")
        time.sleep(0.02)


def told(reply):
    """What a reply tells behind the word that says that its order was done; one that was refused is given whole."""
    hold(reply.startswith(("done", "refused: ")) or not reply, f"a reply begins with neither done nor refused: {reply!r}")
    return reply[len("done: "):] if reply.startswith("done: ") else reply


def subscription(name="release", code="S0101", rate="0", change=True):
    """To one status; in the edition before, without sOc, where `change` is None."""
    said = {"sCI": code, "n": name, "uRt": rate}
    return {"cId": NORTH, "sS": [said if change is None else {**said, "sOc": change}]}


def commanding(*entries, component=NORTH):
    """The fields of a CommandRequest: code, name and value of each command."""
    return {"cId": component, "arg": [{"cCI": code, "n": name, "cO": "setValue", "v": str(value)} for code, name, value in entries]}


def boom(value, component=NORTH):
    return commanding(("M0101", "boom", value), component=component)


def addressed(supervisors):
    return [word for one in supervisors for word in ("--supervisor", getattr(one, "address", one))]


class Process:
    """rsmp-site with supervisors; and, beside, with those of a second site and the options of its own."""
    started = []

    def __init__(self, room, supervisors, *options, record=True, table=TABLE, beside=None, beside_table=TABLE, beside_options=(), **more):
        self.record, self.lines, self.said = pathlib.Path(room) / "record.txt", [], []
        words = ["--table", table, "--reconnect", "0.2", "--reconnect-limit", "0.4"]
        words += addressed(supervisors)
        words += ["--record", self.record] if record else []
        if beside is not None:
            options += ("--beside", "--table", beside_table, *addressed(beside), *beside_options)
        more = {"stdin": subprocess.PIPE, "stdout": subprocess.PIPE, "stderr": subprocess.STDOUT, **more}
        self.process = subprocess.Popen([PROGRAM, *words, *options], text=True, bufsize=1, errors="replace", **more)
        self.pid, self.reader, self.room = self.process.pid, None, str(room)
        self.started.append(self)
        if self.process.stdout:
            self.reader = threading.Thread(target=self.read, daemon=True)
            self.reader.start()

    def read(self):
        for line in self.process.stdout:
            line = line.rstrip("\n")
            self.lines.append(line)
            if not NO_REPLY.match(line) and not LOGGED.match(line):
                self.said.append(line)

    def order(self, line):
        """Gives an order and gives its reply."""
        before = len(self.said)
        try:
            self.process.stdin.write(line + "\n")
        except OSError:
            raise Dead
        end = time.monotonic() + 20
        while len(self.said) == before:
            if self.process.poll() is not None and not self.reader.is_alive() and len(self.said) == before:
                raise Dead
            hold(time.monotonic() < end, f"no reply to {line!r}")
            time.sleep(0.005)
        return told(self.said[-1])

    def replies(self):
        return [told(reply) for reply in self.said]

    def quit(self):
        hold(self.order("quit") == "goodbye", "quit is not taken")
        self.ended()

    def terminate(self):
        self.process.terminate()
        self.ended()

    def ended(self):
        hold(self.process.wait(10) == 0, f"ends with status {self.process.returncode}")
        if self.reader:
            self.reader.join(5)

    def kill(self):
        self.process.kill()
        self.process.wait()
        if self.reader:
            self.reader.join(5)

    def kill_between_calls(self):
        """A kill in the middle of a write to a file ends it between two pages, whatever the program does; a stop waits until the write is done."""
        self.process.send_signal(signal.SIGSTOP)
        wait(self.is_stopped, "the process to stop")
        self.kill()

    def is_stopped(self):
        try:
            return {path.read_text().rsplit(")", 1)[1].split()[0] for path in pathlib.Path(f"/proc/{self.pid}/task").glob("*/stat")} == {"T"}
        except OSError:  # a thread of it has just ended
            return False

    @classmethod
    def end_all(cls, room):
        """Those of a room that a failed test left."""
        for one in list(cls.started):
            if one.room == str(room):
                cls.started.remove(one)
                one.process.kill()
                one.process.wait()

    def logged(self, words):
        return sum(words in line for line in list(self.lines))

    def wait_logged(self, words, seconds=20):
        wait(lambda: self.logged(words), f"the log to say {words!r}; it says {self.lines[-5:]}", seconds)

    def resident(self):
        """Bytes of memory in use."""
        status = pathlib.Path(f"/proc/{self.pid}/status").read_text()
        return 1024 * int(re.search(r"VmRSS:\s*(\d+) kB", status).group(1))

    def processor_seconds(self):
        fields = pathlib.Path(f"/proc/{self.pid}/stat").read_text().rsplit(")", 1)[1].split()
        return (int(fields[11]) + int(fields[12])) / os.sysconf("SC_CLK_TCK")


def connected(path):
    """A connection to a Unix socket, or None while it is not there or, just made, not listened on."""
    made = socket.socket(socket.AF_UNIX)
    made.settimeout(10)
    try:
        made.connect(str(path))
        return made
    except (FileNotFoundError, ConnectionRefusedError):
        made.close()
        return None


class Control:
    """A connection to the control socket."""

    def __init__(self, path):
        tries = []
        wait(lambda: tries.append(connected(path)) or tries[-1], "the control socket")
        self.socket = tries[-1]
        self.stream = self.socket.makefile("rw", errors="replace")

    def order(self, line):
        self.stream.write(line + "\n")
        self.stream.flush()
        return told(self.stream.readline().rstrip("\n"))

    def close(self):
        self.stream.close()
        self.socket.close()
