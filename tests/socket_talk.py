"""Talk over real sockets: cut links, half packets, several in one segment, floods, garbage, four supervisors at once of which one never
answers; then the record is played again, and the counts must add up."""
import json
import pathlib
import re
import socket
import uuid

from model import message
from process import NORTH, RELEASE, SITE, SXL, Control, Process, hold, subscription
from recorded import judge_record
from supervisors import FORM_FEED, Supervisor

IDENTITY = re.compile(r"[0-9a-f]{8}-[0-9a-f]{4}-4[0-9a-f]{3}-[89ab][0-9a-f]{3}-[0-9a-f]{12}")
TIME = re.compile(r"\d{4}-\d\d-\d\dT\d\d:\d\d:\d\d\.\d{3}Z")


def odd_framing(supervisor):
    """Leading and repeated form feeds, half packets, several in one segment, too long ones, garbage."""
    supervisor.send_raw(FORM_FEED * 3)
    first, packet = supervisor.packet("StatusRequest", cId=NORTH, sS=[{"sCI": "S0101", "n": "release"}])
    supervisor.send_raw(packet[:10], packet[10:-1], packet[-1:])
    several = [supervisor.packet("AggregatedStatusRequest", cId=SITE) for _ in range(4)]
    supervisor.send_raw(b"".join(packet for _, packet in several) + FORM_FEED)
    long, packet = supervisor.packet("AggregatedStatusRequest", cId=SITE, pad="x" * 4000)
    supervisor.send_raw(packet)
    supervisor.send_raw(b"y" * 100000 + FORM_FEED + b"{]" + FORM_FEED + b"\xff\xfe\x00" + FORM_FEED)
    last, packet = supervisor.packet("AggregatedStatusRequest", cId=SITE)
    supervisor.send_raw(packet)
    wanted = {first, last, *(identity for identity, _ in several)}
    supervisor.wait(lambda: wanted <= supervisor.acknowledged, "answers behind odd framing")
    hold(long not in supervisor.acknowledged and long not in supervisor.refused, "a packet of more than 4,096 bytes is answered")


def conversation(room):
    primary, secondary = Supervisor(SITE, SXL), Supervisor(SITE, SXL, offer="3.1.5")
    deaf, garbled = Supervisor(SITE, SXL, answers=False), Supervisor(SITE, SXL)
    supervisors = [primary, secondary, deaf, garbled]
    process = Process(room, supervisors, "--period", "2")
    for one in (primary, secondary, garbled):
        one.wait_up()
    hold("link 0 Up, RSMP 3.2.0; link 1 Up, RSMP 3.1.5" in process.order("links"), "the links are not Up")

    hold(process.order("alarm 2 on") == "done" and process.order(f"status {RELEASE} 190") == "done", "inputs are not taken")
    hold("number 3" in process.order("alarm 6 on") and "number 3" in process.order("status 7 1"), "a wrong number is taken")
    hold("known:" in process.order("alarm two on") and "known:" in process.order("open the barrier"), "a wrong order is taken")
    primary.wait(lambda: any(said["aS"] == "Active" for said in primary.of("Alarm")), "the alarm")
    hold(not secondary.of("Alarm"), "the secondary got an alarm")
    hold(secondary.ask("Alarm", cId=NORTH, aCId="A0101", aSp="Request") is True, "a secondary's Request is not acknowledged")
    hold(primary.ask("Alarm", cId=NORTH, aCId="A0101", aSp="Acknowledge") is True, "Acknowledge")
    hold(primary.ask("Alarm", cId="nowhere", aCId="A0101", aSp="Suspend") == "Unknown component", "Unknown component")

    hold(primary.ask("StatusSubscribe", **subscription()) is True, "the primary's subscription")
    odd_framing(garbled)
    odd_framing(garbled)
    cut_and_back(process, primary)
    flood(process, primary, secondary)
    garbled.send_raw(b"z" * 300000 + FORM_FEED)

    deaf.wait(lambda: len(deaf.connections) >= 2, "the one that never answers to be dropped and called again", 60)
    hold(process.logged("no answer for 30 seconds") >= 1, "the log does not say why")
    for one in (primary, secondary, garbled):
        hold(one.stream is not None, "another link was disturbed")
    process.quit()
    hold(process.logged("a packet of 100000 bytes is dropped") == 2, "the log does not tell of the long packet")
    for one in supervisors:
        one.close()
    return judged(process, supervisors)


def edition_before(room):
    """Request 07: a supervisor that stops at 3.1.4, and what it made stays when it comes back with 3.2."""
    older = Supervisor(SITE, SXL, offer="3.1.4")
    process = Process(room, [older])
    older.wait_up()
    hold("link 0 Up, RSMP 3.1.4" in process.order("links"), "3.1.4 is not chosen")
    hold(older.ask("StatusSubscribe", **subscription(change=None)) is True, "a subscription without sOc")
    hold(older.ask("StatusSubscribe", **subscription(rate="2.5", change=None)) == "Bad value", "decimals of uRt")
    told = lambda: [entry["s"] for said in older.of("StatusUpdate") for entry in said["sS"]]
    for value in ("190", "340"):
        hold(process.order(f"status {RELEASE} {value}") == "done", "the value")
        older.wait(lambda: value in told(), f"{value} at its change")
    older.offer = "3.2"
    older.cut()
    older.wait(lambda: len(older.connections) >= 2, "the link anew")
    older.wait_up()
    hold("link 0 Up, RSMP 3.2.0" in process.order("links"), "3.2 is not chosen")
    process.order(f"status {RELEASE} 350")
    older.wait(lambda: "350" in told(), "350 at its change")
    hold(older.ask("StatusSubscribe", **subscription(change=None)) == "Missing element", "a subscription without sOc under 3.2")
    process.quit()
    older.close()
    return judged(process, [older])


def cut_and_back(process, primary):
    """What is issued while a link is down arrives when it is back."""
    before = len(primary.of("StatusUpdate"))
    primary.greets = False
    primary.cut()
    primary.wait(lambda: primary.stream is None, "the cut")
    for value in (200, 240, 290, 340):
        hold(process.order(f"status {RELEASE} {value}") == "done", "a status while the link is down")
    primary.greets = True
    primary.cut()
    values = lambda: [said["sS"][0]["s"] for said in primary.of("StatusUpdate")][before:]
    primary.wait(lambda: values()[-4:] == ["200", "240", "290", "340"], "what waited")


def flood(process, primary, secondary):
    """A secondary that subscribes without end and does not answer pushes nothing of the primary's out."""
    secondary.answers = False
    for _ in range(40):
        entries = [{"sCI": "S0101", "n": "release", "uRt": "0", "sOc": True}] * 16
        secondary.send("StatusSubscribe", cId=NORTH, sS=entries)
    hold(secondary.ask("StatusUnsubscribe", **{"cId": NORTH, "sS": [{"sCI": "S0101", "n": "release"}]}) is True, "the end of the flood")
    before = len(primary.of("StatusUpdate"))
    hold(process.order(f"status {RELEASE} 350") == "done", "a status in the flood")
    primary.wait(lambda: len(primary.of("StatusUpdate")) > before, "the primary's status in the flood")
    counts = process.order("counts")
    hold(re.match(r"link 0 holds \d+, lost 0; link 1 holds 64, lost [1-9]", counts), f"the flood: {counts}")
    secondary.answers = True
    secondary.cut()
    secondary.wait_up()
    secondary.wait(lambda: len(secondary.of("StatusUpdate")) >= 64, "what is held after the flood")


def control_socket(room):
    """Orders by a Unix socket; SIGTERM ends cleanly."""
    supervisor = Supervisor(SITE, SXL)
    path = pathlib.Path(room) / "control"
    process = Process(room, [supervisor], "--control", path, "--primary", "none", "--quiet")
    supervisor.wait_up()
    control = Control(path)
    for line, wanted in (("aggregated 5", "done"), ("counts", "link 0 holds"), ("links", "link 0 Up"), ("aggregated 256", "known:"),
                         ("save", "refused: there is no state")):
        hold(wanted in control.order(line), f"control socket: {line}")
    supervisor.wait(lambda: any(said["se"][5] and said["se"][7] for said in supervisor.of("AggregatedStatus")), "the aggregated status")
    process.terminate()
    hold(process.logged("summary") == 1 and not path.exists(), "no clean end after SIGTERM")
    supervisor.close()
    return judged(process, [supervisor])


class Strict:
    """A supervisor that takes one packet after the other and nothing that it does not expect."""

    def __init__(self):
        self.listener, self.stream, self.rest = socket.create_server(("127.0.0.1", 0)), None, b""
        self.address = "127.0.0.1:%d" % self.listener.getsockname()[1]

    def accept(self):
        self.listener.settimeout(20)
        self.stream, _ = self.listener.accept()

    def next(self, kind, *names):
        """The next packet, which is of this type and has these elements in this order beside mType, type and mId."""
        self.stream.settimeout(20)
        while FORM_FEED not in self.rest:
            data = self.stream.recv(4096)
            hold(data, f"the connection is closed where a {kind} is expected")
            self.rest += data
        packet, self.rest = self.rest.split(FORM_FEED, 1)
        said = json.loads(packet.decode("ascii"))
        hold(message.text(said) == packet and said["mType"] == "rSMsg" and said["type"] == kind, f"{packet} where a {kind} is expected")
        head = ["mType", "type"] if kind in message.ANSWERS else ["mType", "type", "mId"]
        hold(list(said) == head + list(names), f"the elements of a {kind}: {list(said)}")
        hold("mId" not in said or IDENTITY.fullmatch(said["mId"]), f"the identity of a {kind}: {said}")
        return said

    def silence(self, when):
        self.stream.settimeout(0.4)
        try:
            self.rest += self.stream.recv(4096)
        except TimeoutError:
            pass
        hold(not self.rest, f"{self.rest} {when}")

    def send(self, kind, **more):
        identity = str(uuid.uuid4())
        self.stream.sendall(message.text({**message.head(kind, identity), **more}) + FORM_FEED)
        return identity

    def acknowledge(self, said):
        self.stream.sendall(message.ack(said["mId"]) + FORM_FEED)


def strict_greeting(room):
    """Each step of the greeting waits for the one before, and nothing else is sent before the link is Up."""
    strict = Strict()
    process = Process(room, [strict], "--period", "3600")
    strict.accept()
    version = strict.next("Version", "RSMP", "siteId", "SXL")
    hold(version["RSMP"] == [{"vers": "3.1.4"}, {"vers": "3.1.5"}, {"vers": "3.2"}] and version["siteId"] == [{"sId": SITE}] and version["SXL"] == SXL, f"{version}")
    hold(process.order("alarm 2 on") == "done", "an alarm before the greeting")
    strict.silence("before our Version is acknowledged")
    strict.acknowledge(version)
    strict.silence("before theirs has come")
    theirs = strict.send("Version", RSMP=[{"vers": "3.2.0"}, {"vers": "2.0"}], siteId=[{"sId": "another"}, {"sId": SITE}], SXL=SXL)
    hold(strict.next("MessageAck", "oMId")["oMId"] == theirs, "the acknowledgement of their Version")
    watchdog = strict.next("Watchdog", "wTs")
    hold(TIME.fullmatch(watchdog["wTs"]), f"{watchdog}")
    early = strict.send("AggregatedStatusRequest", cId=SITE)
    refused = strict.next("MessageNotAck", "oMId", "rea")
    hold(refused["oMId"] == early and refused["rea"] == "Not ready", f"{refused}")
    strict.acknowledge(watchdog)
    strict.silence("before their Watchdog has come")
    theirs = strict.send("Watchdog", wTs=watchdog["wTs"])
    hold(strict.next("MessageAck", "oMId")["oMId"] == theirs, "the acknowledgement of their Watchdog")
    status = strict.next("AggregatedStatus", "ntsOId", "xNId", "cId", "aSTS", "fP", "fS", "se")
    hold(status["se"] == [False] * 8 and status["cId"] == SITE and status["fP"] == "" and TIME.fullmatch(status["aSTS"]), f"{status}")
    alarms = [strict.next("Alarm", "ntsOId", "xNId", "cId", "aCId", "xACId", "xNACId", "aSp", "ack", "aS", "sS", "aTs", "cat", "pri", "rvs")
              for _ in range(6)]
    hold([said["aS"] for said in alarms] == ["inActive", "inActive", "Active", "inActive", "inActive", "inActive"], f"{alarms}")
    strict.silence("when all is said")
    for said in [status, *alarms]:
        strict.acknowledge(said)
    strict.silence("when all is answered")
    hold(process.order("counts") == "link 0 holds 0, lost 0", "the alarm's record is answered by the alarm of the greeting")
    process.quit()
    strict.listener.close()


def judged(process, supervisors):
    calls, issued, settled = judge_record(process, supervisors)
    messages = sum(len(one.messages) for one in supervisors)
    return (f"{messages} messages; {calls} calls played again to the same bytes, {issued} records issued, {settled} answered, "
            "the rest held or lost")


TESTS = [conversation, edition_before, control_socket, strict_greeting]
