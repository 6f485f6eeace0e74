"""How much processor time reading an ordinary packet of each taken type and writing each message takes, as a ratio to a C JSON library
(Debian's libcjson) parsing the same packet, or the packet that was written, in the same run.

  messages.py        runs the program `bench_messages`, which `rt ci`, or `rt run` in its folder, leaves in crates/bench_messages/out, and bench/peer.c

The peer is compiled for x86-64, as the programs are, by the compiler in CC (default: cc; on another processor a cross compiler),
with the flags in CJSON (default: -lcjson), and run in the same way. Under an emulator only the ratios say something.
"""
import os
import pathlib
import resource
import subprocess
import sys
import tempfile

HERE = pathlib.Path(__file__).resolve().parent
sys.path.insert(0, str(HERE.parent / "tests"))

import cases
from model import message

TIMES = {"2": 100, "3": 1000, "4": 10000}
DIGIT = "4"
IDENTITY, COMPONENT = "d6d97f8b-e9db-4572-8084-70b55e312584", "AA+BBCCC=DDDEE001"


def request(kind, **more):
    about = {} if kind in ("Version", "Watchdog") else {"ntsOId": "", "xNId": "", "cId": COMPONENT}
    return message.text({**message.head(kind, IDENTITY), **about, **more})


def entries(count, **more):
    return [{"sCI": "S0001", "n": f"release{place}", **more} for place in range(count)]


COMMANDS = [{"cCI": "M0001", "n": f"limit{place}", "cO": "setValue", "v": str(250 - place)} for place in range(4)]
READ = {
    "Version": message.version(IDENTITY, COMPONENT, "1.0.13"),
    "Watchdog": message.watchdog(IDENTITY, 1254398371571),
    "MessageAck": message.ack(IDENTITY),
    "Alarm": request("Alarm", aCId="A0001", xACId="", xNACId="", aSp="Acknowledge"),
    "AggregatedStatusRequest": request("AggregatedStatusRequest"),
    "StatusRequest": request("StatusRequest", sS=entries(4)),
    "StatusSubscribe": request("StatusSubscribe", sS=entries(4, uRt="60", sOc=True)),
    "StatusUnsubscribe": request("StatusUnsubscribe", sS=entries(4)),
    "CommandRequest": request("CommandRequest", arg=COMMANDS),
    "StatusRequestAckIncluded": request("StatusRequestAckIncluded", sS=entries(4)),
    "CommandRequestAckIncluded": request("CommandRequestAckIncluded", arg=COMMANDS),
}
WRITTEN = {
    "Version": ("V", message.version(IDENTITY, COMPONENT, "1.0.13")),
    "Watchdog": ("W", message.watchdog(IDENTITY, 1254398371571)),
    "MessageAck": ("K", message.ack(IDENTITY)),
    "MessageNotAck": ("N", message.not_ack(IDENTITY, "Unknown component")),
    "Alarm": ("A", message.alarm(IDENTITY, COMPONENT, "A0001", 0, 0, 1, 0, 1254398371571, 1, 2)),
    "AggregatedStatus": ("G", message.aggregated(IDENTITY, COMPONENT, 1254398371571, 170)),
    "StatusUpdate": ("U", message.statuses("StatusUpdate", IDENTITY, COMPONENT, 1254398371571, [("S0001", "release", 190, "recent")])),
}


def processor_time():
    used = resource.getrusage(resource.RUSAGE_CHILDREN)
    return used.ru_utime + used.ru_stime


def seconds(command, given=b""):
    """The least processor time of five runs: other work on the machine hardly changes it."""
    best = None
    for _ in range(5):
        began = processor_time()
        subprocess.run(command, input=given, stdout=subprocess.DEVNULL, check=True)
        taken = processor_time() - began
        best = taken if best is None else min(best, taken)
    return best


def ours(kind, body):
    command = cases.command("bench_messages")
    return (seconds(command, cases.case(kind, DIGIT.encode() + body)) - seconds(command)) / TIMES[DIGIT]


def main():
    with tempfile.TemporaryDirectory() as room:
        peer, packet = pathlib.Path(room) / "peer", pathlib.Path(room) / "packet"
        flags = os.environ.get("CJSON", "-lcjson").split()
        subprocess.run([os.environ.get("CC", "cc"), "-O2", "-o", peer, HERE / "peer.c", *flags], check=True)
        command = cases.wrapped(peer)

        def theirs(text):
            packet.write_bytes(text)
            return (seconds([*command, packet, str(TIMES[DIGIT])]) - seconds([*command, packet, "0"])) / TIMES[DIGIT]

        for what, rows in (("reading", [(name, "r", text, text) for name, text in READ.items()]),
                           ("writing", [(name, "w", letter.encode(), text) for name, (letter, text) in WRITTEN.items()])):
            for name, kind, body, text in rows:
                mine, other = ours(kind, body), theirs(text)
                print(f"{what} {name:25} {len(text):4} bytes {mine * 1e6:8.1f} us, libcjson {other * 1e6:8.1f} us, ratio {mine / other:5.2f}")
    return 0


if __name__ == "__main__":
    sys.exit(main())
