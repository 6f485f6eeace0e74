"""Commands over real sockets: a program is run for each, one after the other in the order in which they came over all links, and the site goes
on meanwhile; what was acknowledged is run or told of."""
import os
import pathlib
import signal
import threading
import time

from process import NORTH, RELEASE, SITE, SOUTH, SXL, WITH_COMMANDS, Process, boom, commanding, hold, subscription, wait
from recorded import judge_record
from socket_end import status
from supervisors import Supervisor

LIMIT = "M0102", "release limit"


class Program:
    """A shell script for --on-command. It notes when it begins and ends, and whether another ran beside it."""

    def __init__(self, room, does=""):
        room = pathlib.Path(room)
        self.path, self.notes, self.lock = room / "program", room / "notes", room / "runs"
        self.path.write_text(f"""#!/bin/sh
mkdir {self.lock} || echo beside another >>{self.notes}
echo "begin $# $1 $2 $3 $4" >>{self.notes}
{does}
echo "end $4" >>{self.notes}
rmdir {self.lock}
""")
        self.path.chmod(0o755)

    def lines(self):
        return self.notes.read_text().splitlines() if self.notes.exists() else []

    def began(self):
        return [line.split(" ", 2)[2] for line in self.lines() if line.startswith("begin 4 ")]

    def ended(self):
        return sum(line.startswith("end ") for line in self.lines())


def started(room, supervisors, *options, **more):
    process = Process(room, supervisors, *options, table=WITH_COMMANDS, **more)
    for one in supervisors:
        one.wait_up()
    return process


def in_order(room):
    """The primary's and the secondary's, several in a packet, one that is slow, one that fails; the site answers all the while."""
    primary, secondary = Supervisor(SITE, SXL), Supervisor(SITE, SXL, offer="3.1.5")
    program = Program(room, '[ "$4" = 1 ] && sleep 0.4\n[ "$4" = 777 ] && { rmdir ' + str(pathlib.Path(room) / "runs") + "; exit 3; }")
    process = started(room, [primary, secondary], "--on-command", program.path)
    began = time.monotonic()
    wanted = []
    for turn in range(3):
        for one, component in ((primary, NORTH), (secondary, SOUTH)):
            values = (100 + turn, 777 if turn == 1 else 2000)
            hold(one.ask("CommandRequest", **boom(1, component)) is True, "a command")
            hold(one.ask("CommandRequest", **commanding((*LIMIT, values[0]), ("M0101", "boom", 0), (*LIMIT, values[1]), component=component)) is True,
                 "three commands")
            wanted += [f"{component} M0101 boom 1", *(f"{component} {' '.join(LIMIT)} {value}" for value in values)]
            wanted.insert(-1, f"{component} M0101 boom 0")
    hold(primary.ask("CommandRequest", **commanding(("M0001", "heater offset", -20), component=SITE)) is True, "a value below 0")
    wanted.append(f"{SITE} M0001 heater offset -20")
    # Not one of these is run.
    for asked, reason in ((boom(2), "Bad value"), (commanding(("M0101", "beam", 1)), "Unknown command"),
                          (commanding(("M0101", "boom", 1), (*LIMIT, 99)), "Bad value"), (commanding(("M0101", "boom", "1.0")), "Bad value")):
        hold(secondary.ask("CommandRequest", **asked) == reason, f"{asked}: {reason}")
    hold(secondary.ask("CommandRequest", **boom(1, "nowhere")) is True, "an unknown component")
    for one in (primary, secondary):
        hold(one.ask("AggregatedStatusRequest", cId=SITE) is True, "another request")
    hold(process.order(f"status {RELEASE} 190") == "done", "an order")
    taken = time.monotonic() - began
    hold(len(program.began()) < len(wanted) and taken < 6 * 0.4, f"the site waits for the program: {taken:.1f} s")
    wait(lambda: program.began() == wanted and "none runs, 0 wait" in process.order("commands"), f"all commands: {program.lines()}")
    hold("beside another" not in program.lines(), "two programs ran at a time")
    hold(process.order("commands") == f"{len(wanted)} handed over: {len(wanted) - 2} done, 2 failed, none runs, 0 wait; 0 not taken", process.order("commands"))
    secondary.wait(lambda: len(secondary.of("CommandResponse")) == 7, "the responses")
    undefined = secondary.of("CommandResponse")[-1]
    hold(undefined["rvs"] == [{"cCI": "M0101", "n": "boom", "v": None, "age": "undefined"}], f"{undefined}")
    first = primary.of("CommandResponse")[1]
    hold(list(first) == ["mType", "type", "mId", "ntsOId", "xNId", "cId", "cTS", "rvs"] and first["cId"] == NORTH, f"{first}")
    hold([list(entry.items()) for entry in first["rvs"]][0] == [("cCI", "M0102"), ("n", "release limit"), ("v", "100"), ("age", "recent")], f"{first}")
    process.quit()
    hold(process.logged(f'link 1  command 3: {SOUTH} M0101 "boom" 1') == 3, "the log does not tell of each command")
    hold(process.logged("ends with exit status: 3: command ") == 2, "the log does not tell of a program that fails")
    hold(process.logged(f"  commands {len(wanted)} handed over") == 1, "the summary does not tell of commands")
    for one in (primary, secondary):
        one.close()
    calls, _, _ = judge_record(process, [primary, secondary])
    return f"{len(wanted)} commands over two links in {taken:.1f} s, run one after the other; {calls} calls played again to the same bytes and commands"


def at_once(room):
    """Both links command at the same time, and a subscription goes on: each link's stay in their order, none is lost."""
    supervisors = [Supervisor(SITE, SXL), Supervisor(SITE, SXL)]
    program = Program(room)
    process = started(room, supervisors, "--on-command", program.path, record=False)
    hold(supervisors[0].ask("StatusSubscribe", **subscription()) is True, "a subscription")

    def ask(supervisor, component):
        for value in range(100, 140):
            hold(supervisor.ask("CommandRequest", **commanding((*LIMIT, value), component=component)) is True, "a command")

    asking = [threading.Thread(target=ask, args=pair) for pair in zip(supervisors, (NORTH, SOUTH))]
    for thread in asking:
        thread.start()
    for value in range(20):
        hold(process.order(f"status {RELEASE} {value}") == "done", "a status beside commands")
    for thread in asking:
        thread.join()
    wait(lambda: program.ended() == 80, "all commands")
    for component in (NORTH, SOUTH):
        own = [line.split()[-1] for line in program.began() if line.startswith(component)]
        hold(own == [str(value) for value in range(100, 140)], f"{component}: {own}")
    hold("beside another" not in program.lines(), "two programs ran at a time")
    supervisors[0].wait(lambda: [said["sS"][0]["s"] for said in supervisors[0].of("StatusUpdate")][-1] == "19", "the subscription beside commands")
    process.quit()
    for one in supervisors:
        one.close()


def no_room(room):
    """256 wait at most: a packet that finds no room is not taken and not answered, and told of; the link stays, others are answered."""
    supervisor, other = Supervisor(SITE, SXL), Supervisor(SITE, SXL)
    program = Program(room, f"while [ ! -e {room}/go ]; do sleep 0.05; done")
    process = started(room, [supervisor, other], "--on-command", program.path)
    sixteen = commanding(*[(*LIMIT, value) for value in range(100, 116)])
    for _ in range(16):
        hold(supervisor.ask("CommandRequest", **sixteen) is True, "sixteen commands")
    wait(lambda: "one runs, 255 wait" in process.order("commands"), "the queue to be full")
    hold(other.ask("CommandRequest", **boom(1)) is True, "the last that fits")
    too_many = supervisor.send("CommandRequest", **boom(1))
    process.wait_logged("link 0  a packet with 1 commands is not taken: 256 wait already")
    hold(other.ask("AggregatedStatusRequest", cId=SITE) is True and supervisor.ask("AggregatedStatusRequest", cId=SITE) is True, "other requests")
    hold(supervisor.ask("CommandRequest", **boom(2)) == "Bad value", "a command that is refused")
    hold(supervisor.ask("CommandRequest", **boom(1, "nowhere")) is True, "a component that is not there")
    hold(too_many not in supervisor.acknowledged and too_many not in supervisor.refused, "what finds no room is answered")
    supervisor.wait(lambda: len(supervisor.of("CommandResponse")) == 17, "the responses")
    (pathlib.Path(room) / "go").touch()
    wait(lambda: program.ended() == 257, "all that were acknowledged", 60)
    hold(supervisor.ask("CommandRequest", **boom(0)) is True, "a command when there is room again")
    wait(lambda: program.ended() == 258, "the next")
    hold("beside another" not in program.lines(), "two programs ran at a time")
    process.quit()
    hold(process.logged("commands 258 handed over: 258 done, 0 failed, none runs, 0 wait; 1 not taken") == 1, "the summary")
    judge_record(process, [supervisor, other])
    for one in (supervisor, other):
        one.close()


def after_a_kill(room):
    """A site that is killed takes its program with it, and what that has started is waited for: nothing runs beside it, with a state or without."""
    room, supervisor = pathlib.Path(room), Supervisor(SITE, SXL)
    for turn, options in enumerate(((), ("--state", room / "state"))):
        notes, program = room / f"notes{turn}", room / f"program{turn}"
        program.write_text(f"""#!/bin/sh
exec 2>/dev/null
echo "begin $4 $$" >>{notes}
[ "$4" = 100 ] || exit 0
(while [ ! -e {notes}.go ]; do sleep 0.1; done; echo "late" >>{notes})
echo "end $4" >>{notes}
""")
        program.chmod(0o755)
        lines = lambda: notes.read_text().splitlines() if notes.exists() else []
        process = started(room, [supervisor], "--on-command", program, *options, record=False)
        hold(supervisor.ask("CommandRequest", **commanding((*LIMIT, 100))) is True, "a command")
        wait(lambda: lines(), "the program")
        time.sleep(0.3)
        process.kill()
        supervisor.wait(lambda: supervisor.stream is None, "the kill")
        number = lines()[0].split()[2]
        wait(lambda: not is_running(number), "the program to be killed with the site")
        process = started(room, [supervisor], "--on-command", program, *options, record=False)
        hold(supervisor.ask("CommandRequest", **commanding((*LIMIT, 101))) is True, "a command after the restart")
        process.wait_logged("waits, a program of a former start still runs: command ")
        notes.with_suffix(".go").touch()
        wait(lambda: len(lines()) == 3, "the next program")
        hold([line.split()[:2] for line in lines()] == [["begin", "100"], ["late"], ["begin", "101"]], f"beside what a former program started: {lines()}")
        process.quit()
        supervisor.wait(lambda: supervisor.stream is None, "the end")
    supervisor.close()


def is_running(number):
    """Not where it has ended and nobody has asked for its status."""
    try:
        return pathlib.Path(f"/proc/{number}/stat").read_text().rsplit(")", 1)[1].split()[0] != "Z"
    except FileNotFoundError:
        return False


def leaves_behind(room):
    """What a program leaves running when it ends does not hold up the next."""
    supervisor = Supervisor(SITE, SXL)
    left = pathlib.Path(room) / "left"
    program = Program(room, f"sleep 60 2>/dev/null & echo $! >>{left}")
    process = started(room, [supervisor], "--on-command", program.path, record=False)
    hold(supervisor.ask("CommandRequest", **commanding((*LIMIT, 100), (*LIMIT, 101), (*LIMIT, 102))) is True, "commands")
    wait(lambda: program.ended() == 3, "programs beside what they left")
    process.quit()
    for number in left.read_text().split():
        os.kill(int(number), signal.SIGKILL)
    supervisor.close()


def at_the_end(room):
    """What runs and waits gets five seconds; what is left then is ended or told of, each by its name."""
    supervisor = Supervisor(SITE, SXL)
    program = Program(room, '[ "$4" -ge 500 ] && sleep 60')
    process = started(room, [supervisor], "--on-command", program.path, record=False)
    hold(supervisor.ask("CommandRequest", **commanding(*[(*LIMIT, value) for value in range(100, 110)])) is True, "commands")
    process.quit()
    hold(program.ended() == 10 and process.logged("not carried out") == 0, "what waits at the end is not run")
    supervisor.wait(lambda: supervisor.stream is None, "the end")
    process = started(room, [supervisor], "--on-command", program.path, record=False)
    hold(supervisor.ask("CommandRequest", **commanding((*LIMIT, 500), (*LIMIT, 501), (*LIMIT, 100))) is True, "commands")
    wait(lambda: len(program.began()) == 11, "the first")
    began = time.monotonic()
    process.terminate()
    taken = time.monotonic() - began
    hold(4.5 < taken < 9.5 and program.ended() == 10, f"the end takes {taken:.1f} s")
    hold(process.logged("still runs and is ended, we end: command 2: ") == 1 and process.logged("not carried out, we end: command 2: ") == 2, "the log")
    hold(process.logged("commands 3 handed over: 0 done, 3 failed, none runs, 0 wait; 0 not taken") == 1, "the summary")
    supervisor.close()
    return f"SIGTERM with a program that does not end takes {taken:.1f} s"


def told_alone(room):
    """Without a program the log tells; one that runs too long is ended; words in a file; a program that is not there."""
    supervisor, room = Supervisor(SITE, SXL), pathlib.Path(room)
    process = started(room, [supervisor], "--quiet", record=False)
    hold(supervisor.ask("CommandRequest", **commanding((*LIMIT, 250), ("M0101", "boom", 1))) is True, "commands")
    hold(process.order("commands") == "2 handed over", "the count")
    process.quit()
    said = [line.split("link 0  ")[1] for line in process.lines if " command " in line and "link 0" in line]
    hold(said == [f'command 2: {NORTH} M0102 "release limit" 250', f'command 1: {NORTH} M0101 "boom" 1'], f"the log: {said}")
    supervisor.wait(lambda: supervisor.stream is None, "the end")
    program, words = Program(room, "sleep 60"), room / "rsmp-site.conf"
    words.write_text(f"on-command {program.path}\ncommand-limit 0.3\n")
    process = started(room, [supervisor], "--config", words, record=False)
    hold(supervisor.ask("CommandRequest", **boom(1)) is True, "a command")
    process.wait_logged("runs for too long and is ended: command 1: ")
    process.quit()
    hold(program.ended() == 0, "a program that was ended goes on")
    supervisor.wait(lambda: supervisor.stream is None, "the end")
    process = Process(room, [supervisor], record=False)
    supervisor.wait_up()
    hold(process.order("commands") == "the table has no commands" and supervisor.ask("CommandRequest", **boom(1)) == "Unknown command", "edition 1")
    process.quit()
    hold(not process.logged("  commands "), "a summary of commands that the table does not have")
    (room / "text").write_text("no program")
    for words, wanted, code in ((("--on-command", "/nowhere/at/all"), "/nowhere/at/all: No such file", 1), (("--on-command=",), "wanted a program", 2),
                                (("--on-command", room), f"{room}: is no program: it is no file", 1),
                                (("--on-command", room / "text"), "text: is no program: it cannot be run", 1),
                                (("--on-command", "no-such-program"), "no-such-program: no such program in PATH", 1),
                                (("--command-limit", "0"), "0.1 to 86400 seconds", 2)):
        found, said = status("--table", WITH_COMMANDS, "--supervisor", "127.0.0.1:1", *words)
        hold(found == code and wanted in said, f"{words}: {found} {said}")
    supervisor.close()


TESTS = [in_order, at_once, no_room, after_a_kill, leaves_behind, at_the_end, told_alone]
