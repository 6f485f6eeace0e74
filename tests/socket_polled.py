"""A gateway that polls over real sockets: requests whose response carries the acknowledgement, beside a subscription and requests of the old kind."""
from process import NORTH, RELEASE, SITE, SOUTH, SXL, boom, commanding, hold, subscription
from recorded import judge_record
from socket_commands import LIMIT, Program, started
from socket_time import NOON, FedClock
from supervisors import Supervisor

POLL, ORDER = "StatusRequestAckIncluded", "CommandRequestAckIncluded"
STATUS_ANSWER, COMMAND_ANSWER = "StatusResponseAckIncluded", "CommandResponseAckIncluded"
ASKED = {"cId": NORTH, "sS": [{"sCI": "S0101", "n": "release"}]}


def response(supervisor, identity):
    """The one message that answers this request."""
    answers = lambda: [said for said in supervisor.messages if said.get("oMId") == identity]
    supervisor.wait(answers, "a response")
    said, = answers()
    return said


def polled(room):
    """Both kinds mixed on a primary that subscribes and on a secondary of the edition before. Nobody answers the responses: twenty are sent where sixteen
    may be awaited, and after 30 seconds only the link that owes an answer to a StatusResponse is closed."""
    clock, program = FedClock(room, NOON), Program(room)
    gateway, other = supervisors = Supervisor(SITE, SXL), Supervisor(SITE, SXL, offer="3.1.4")
    process = started(room, supervisors, "--clock", clock.path, "--period", "3600", "--on-command", program.path)
    gateway.wait(lambda: len(gateway.of("Alarm")) == 6, "the first pass")
    hold(gateway.ask("StatusSubscribe", **subscription()) is True, "a subscription")
    unknown = response(gateway, gateway.send(POLL, **ASKED))
    hold(unknown["sS"] == [{"sCI": "S0101", "n": "release", "s": None, "q": "unknown"}], f"{unknown}")
    wanted = []
    for value, (one, component) in enumerate(((gateway, NORTH), (other, SOUTH)), 190):
        hold(process.order(f"status {RELEASE} {value}") == "done", "a status")
        identity, packet = one.packet(POLL, **ASKED)
        one.send_raw(packet.replace(identity.encode(), identity.upper().encode()))
        said = response(one, identity.upper())
        hold(list(said) == ["mType", "type", "oMId", "ntsOId", "xNId", "cId", "sTs", "sS"] and said["type"] == STATUS_ANSWER, f"{said}")
        hold([list(entry.items()) for entry in said["sS"]] == [[("sCI", "S0101"), ("n", "release"), ("s", str(value)), ("q", "recent")]], f"{said}")
        said = response(one, one.send(ORDER, **commanding((*LIMIT, 250), ("M0101", "boom", 1), component=component)))
        hold(list(said) == ["mType", "type", "oMId", "ntsOId", "xNId", "cId", "cTS", "rvs"] and said["type"] == COMMAND_ANSWER, f"{said}")
        hold([list(entry.items()) for entry in said["rvs"]] == [[("cCI", code), ("n", name), ("v", v), ("age", "recent")]
                                                                for code, name, v in ((*LIMIT, "250"), ("M0101", "boom", "1"))], f"{said}")
        wanted += [f"{component} {' '.join(LIMIT)} 250", f"{component} M0101 boom 1"]
        for kind, asked, reason in ((POLL, {**ASKED, "sS": [{"sCI": "S0999", "n": "release"}]}, "Unknown status"), (POLL, {"cId": NORTH}, "Missing element"),
                                    (ORDER, boom(2), "Bad value"), (ORDER, commanding(("M0109", "boom", 1)), "Unknown command"),
                                    (STATUS_ANSWER, ASKED, "Unexpected"), (COMMAND_ANSWER, boom(1), "Unexpected")):
            hold(one.ask(kind, **asked) == reason, f"{asked}: {reason}")
        nowhere = response(one, one.send(ORDER, **boom(1, "nowhere")))
        hold(nowhere["rvs"] == [{"cCI": "M0101", "n": "boom", "v": None, "age": "undefined"}], f"{nowhere}")
        for kind, old, asked in ((POLL, "StatusRequest", ASKED), (ORDER, "CommandRequest", boom(0, component))):
            hold(one.ask(kind, **asked) is True and one.ask(old, **asked) is True and one.ask(kind, **asked) is True, f"a {kind} beside a {old}")
        wanted += [f"{component} M0101 boom 0"] * 3
    gateway.wait(lambda: [said["sS"][0]["s"] for said in gateway.of("StatusUpdate")] == [None, "190", "191"], "the subscription beside the polls")
    for one in supervisors:
        one.answers = False
    for value in range(100, 110):
        hold(gateway.ask(POLL, **ASKED) is True and gateway.ask(ORDER, **commanding((*LIMIT, value))) is True, "more than may be awaited")
        wanted.append(f"{NORTH} {' '.join(LIMIT)} {value}")
    hold(other.ask("StatusRequest", **ASKED) is True, "a request whose response is not answered")
    clock.pass_(31_000)
    process.wait_logged("link 1  we close the connection: no answer for 30 seconds")
    other.answers = True
    other.wait(lambda: len(other.connections) == 2, "the link anew")
    other.wait_up()
    hold(gateway.ask(POLL, **ASKED) is True and len(gateway.connections) == 1, "a link to which nobody owes an answer")
    gateway.wait(lambda: program.ended() == len(wanted), "all commands")
    hold(program.began() == wanted, f"{program.began()}")
    process.quit()
    for kind in (f"< {POLL} mId=", f"< {ORDER} mId=", f"> {STATUS_ANSWER} oMId=", f"> {COMMAND_ANSWER} oMId="):
        hold(process.logged(kind), f"the log does not show {kind}")
    for one in supervisors:
        one.close()
    calls, _, _ = judge_record(process, supervisors)
    many = sum(len(one.of(kind)) for one in supervisors for kind in (STATUS_ANSWER, COMMAND_ANSWER))
    return f"{many} responses that carry their acknowledgement; {calls} calls played again to the same bytes and commands"


TESTS = [polled]
