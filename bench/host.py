"""How many messages a second `rsmp-site` takes and sends over loopback, and how many times the processor time of one link without anything a message takes
on four links, with a log, a record and a state: all in one run, taking turns. bench/supervisors.c asks for the aggregated status, eight requests in
flight a link.

  host.py [SECONDS [ROUNDS]]     a round measures each setup so long; after `make build`
  host.py --flash                bytes of the state, in whole pages, and syncs a message for each --state-interval; wants strace
"""
import pathlib
import re
import statistics
import subprocess
import sys
import tempfile
import time

from built import program
from process import PROGRAM, SITE, SXL, TABLE, Process, subscription
from supervisors import Supervisor

SECONDS, ROUNDS, PAGE = 2, 5, 4096
SETUPS = {
    "one link": (1, "--quiet"),
    "four links": (4, "--quiet"),
    "one link, a log of every message": (1, "--log", "ROOM/log"),
    "one link, a record": (1, "--quiet", "--record", "ROOM/record"),
    "one link, state each 10 s": (1, "--quiet", "--state", "ROOM/state"),
    "one link, state at once": (1, "--quiet", "--state", "ROOM/state", "--state-interval", "0"),
}


def rate(supervisors, links, *options, seconds):
    """Messages a second of both ways, and the site's processor time a message in microseconds."""
    with tempfile.TemporaryDirectory() as room:
        peer = subprocess.Popen([supervisors, str(links), str(seconds), SITE, SXL], stdout=subprocess.PIPE, text=True)
        words = [word for port in peer.stdout.readline().split() for word in ("--supervisor", f"127.0.0.1:{port}")]
        options = [option.replace("ROOM", room) for option in options]
        process = subprocess.Popen([PROGRAM, "--table", TABLE, "--link-rate", "0", *words, *options], stdin=subprocess.DEVNULL, stdout=subprocess.DEVNULL)
        try:
            said = peer.communicate(timeout=60 + 2 * seconds)[0]
            spent = processor_seconds(process.pid)
        finally:
            peer.kill()
            process.kill()
            process.wait()
    messages, taken, all_messages = said.split()
    return int(messages) / float(taken), 1e6 * spent / int(all_messages)


def processor_seconds(number):
    """Of all threads of a process, to the nanosecond: ticks miss the short turns that it gets beside other work."""
    return sum(int(path.read_text().split()[0]) for path in pathlib.Path(f"/proc/{number}/task").glob("*/schedstat")) / 1e9


def rates(seconds, rounds):
    with tempfile.TemporaryDirectory() as room:
        supervisors = program("supervisors", room)
        found = {name: [] for name in SETUPS}
        for _ in range(rounds):
            for name, (links, *options) in SETUPS.items():
                found[name].append(rate(supervisors, links, *options, seconds=seconds))
    base = [spent for _, spent in found["one link"]]
    for name, each in found.items():
        times = sorted(spent / one for one, (_, spent) in zip(base, each))
        print(f"{name:34} {statistics.median(rate for rate, _ in each):7.0f} messages a second, {statistics.median(spent for _, spent in each):6.1f} us of processor time each: "
              f"{statistics.median(times):5.2f} times one link's ({times[0]:.2f} to {times[-1]:.2f})")


def pages_of(trace):
    """Bytes of the pages that states were written to."""
    return sum(-(-int(size) // PAGE) * PAGE for size in re.findall(r'write(?:64)?\(\d+, "RSMP(?:HOST|TURN)[^"]*"\.\.\., (\d+)', trace))


def flash():
    """A value a tenth of a second, each sent and answered."""
    for interval in ("0", "1", "10", "60"):
        with tempfile.TemporaryDirectory() as room:
            trace, supervisor = pathlib.Path(room) / "trace", Supervisor(SITE, SXL)
            process = Process(room, [supervisor], "--quiet", "--link-rate", "0", "--state", pathlib.Path(room) / "state", "--state-interval", interval,
                              record=False)
            supervisor.wait_up()
            supervisor.ask("StatusSubscribe", **subscription())
            time.sleep(1)
            tracer = subprocess.Popen(["strace", "-f", "-q", "-e", "trace=fsync,fdatasync,write,pwrite64", "-o", trace, "-p", str(process.pid)])
            time.sleep(1)
            before, began = len(supervisor.of("StatusUpdate")), time.monotonic()
            for value in range(200):
                process.order(f"status 1 {value}")
                time.sleep(0.1)
            supervisor.wait(lambda: len(supervisor.of("StatusUpdate")) - before >= 200, "the updates")
            taken, sent = time.monotonic() - began, len(supervisor.of("StatusUpdate")) - before
            tracer.terminate()
            tracer.wait()
            bytes_, syncs = pages_of(trace.read_text()), len(re.findall(r"sync\(\d+\)|sync resumed", trace.read_text()))
            process.quit()
            supervisor.close()
        print(f"interval {interval:>2}: {sent} messages in {taken:.0f} s, a message {bytes_ / sent:8.0f} bytes and {syncs / sent:.3f} syncs")


def main(words):
    if words == ["--flash"]:
        return flash()
    rates(float(words[0]) if words else SECONDS, int(words[1]) if len(words) > 1 else ROUNDS)
    return 0


if __name__ == "__main__":
    sys.exit(main(sys.argv[1:]))
