"""`rsmp-site --beside` over real sockets: two sites of one cabinet."""
import json
import pathlib
import subprocess

import stored
from process import PROGRAM, RELEASE, SITE, SXL, TABLE, WITH_COMMANDS, Process, boom, hold, last_numbers, subscription, wait
from recorded import judge_record
from supervisors import Supervisor


def supervisors(count=2):
    """So many of each site."""
    return [[Supervisor(SITE, SXL) for _ in range(count)] for _ in range(2)]


def closing(*all_of_them):
    for one in all_of_them:
        one.close()


def values(supervisor):
    return [entry["s"] for said in supervisor.of("StatusUpdate") for entry in said["sS"] if entry["s"] is not None]


def two_sites(room):
    """Both over TCP: each has its own table, links, alarms, values and numbers; one log, one record that is played again, one summary."""
    north, south = supervisors()
    process = Process(room, north, "--period", "1", beside=south, beside_table=WITH_COMMANDS, beside_options=("--primary", "1", "--first", "500"))
    for one in (*north, *south):
        one.wait_up()
    hold(process.order("north links") == process.order("links") == "link 0 Up, RSMP 3.2.0; link 1 Up, RSMP 3.2.0", "links of north")
    hold(process.order("south links") == "link 0 Up, RSMP 3.2.0; link 1 Up, RSMP 3.2.0", "links of south")
    north[0].ask("StatusSubscribe", **subscription())
    south[0].ask("StatusSubscribe", **subscription())
    for order in (f"status {RELEASE} 190", f"south status {RELEASE} 340", "alarm 2 on", "south alarm 3 on", "north aggregated 5", "south aggregated 9"):
        hold(process.order(order) == "done", order)
    north[0].wait(lambda: values(north[0]) == ["190"] and any(said["aS"] == "Active" for said in north[0].of("Alarm")), "north's value and alarm")
    south[1].wait(lambda: any(said["aS"] == "Active" for said in south[1].of("Alarm")), "south's alarm, at its primary")
    south[0].wait(lambda: values(south[0]) == ["340"], "south's value")
    hold(not south[0].of("Alarm") and not north[1].of("Alarm"), "an alarm goes to its site's primary alone")
    wait(lambda: process.order("counts") == process.order("south counts") == "link 0 holds 0, lost 0; link 1 holds 0, lost 0", "the answers")
    for order in ("east counts", "southern counts", "south", "south south counts"):
        hold(process.order(order).startswith("refused: "), order)
    process.quit()
    hold(process.logged(" south 0  ") and process.logged("begins with two sites, north and south, with 2 and 2 links"), "the log names south's links")
    lines, issued, settled = judge_record(process, north, south)
    closing(*north, *south)
    return f"{lines} calls, {issued} records, {settled} answered"


def one_state(room):
    """Killed while both hold something; from one state both go on, and what they held arrives. A state of one site is none of two."""
    room = pathlib.Path(room)
    state, nobody = room / "state", "127.0.0.1:1"
    options = "--state", state, "--state-interval", "0"
    process = Process(room, [nobody], *options, beside=[nobody], beside_table=WITH_COMMANDS)
    for order in ("alarm 2 on", "alarm 3 on", "south alarm 2 on", "south aggregated 7"):
        hold(process.order(order) == "done", order)
    process.kill()
    north, south = supervisors(1)
    process = Process(room, north, *options, beside=south, beside_table=WITH_COMMANDS)
    process.wait_logged("north: link 0 holds 2, lost 0; south: link 0 holds 2, lost 0")
    for one in (*north, *south):
        one.wait_up()
    active = lambda one: {said["aCId"] for said in one.of("Alarm") if said["aS"] == "Active"}
    north[0].wait(lambda: len(active(north[0])) == 2, "what north held")
    south[0].wait(lambda: len(active(south[0])) == 1, "what south held")
    wait(lambda: process.order("counts") == process.order("south counts") == "link 0 holds 0, lost 0", "the answers")
    hold(process.order("south save") == "done", "save")
    process.quit()
    played = subprocess.run([PROGRAM.parent / "rsmp-replay"], input=process.record.read_text(), capture_output=True, text=True)
    hold(played.returncode == 0, f"the record over the restart: {played.stderr}")
    bytes_ = stored.of_state(newest(state), 2)
    hold(stored.fault(bytes_, stored.BOX_BYTES) is None, f"the state's box: {stored.fault(bytes_, stored.BOX_BYTES)}")
    alone = Process(room, [nobody], *options)
    alone.wait_logged("it is of two sites, where one is started")
    alone.quit()
    both = Process(room, [nobody], *options, beside=[nobody], beside_table=WITH_COMMANDS)
    both.wait_logged("it is of one site, where two are started")
    both.quit()
    closing(*north, *south)


def newest(state):
    """The content of a file of two places that was put last."""
    bytes_ = state.read_bytes()
    half = len(bytes_) // 2
    places = [(int.from_bytes(place[8:16], "little"), place[24:24 + int.from_bytes(place[16:24], "little")]) for place in (bytes_[:half], bytes_[half:])
              if place[:8] == b"RSMPTURN"]
    return max(places)[1] if places else bytes_


def other_floods(room):
    """The south site is flooded by who answers nothing: the north keeps its share, and its values arrive."""
    north, south = [Supervisor(SITE, SXL)], [Supervisor(SITE, SXL) for _ in range(2)]
    process = Process(room, north, beside=south)
    for one in (*north, *south):
        one.wait_up()
    north[0].ask("StatusSubscribe", **subscription())
    north[0].wait(lambda: process.order("counts") == "link 0 holds 0, lost 0", "the answer")
    for one in (*north, *south):
        one.answers = False

    def flood():
        for _ in range(10):
            for one in south:
                one.send("StatusSubscribe", cId=subscription()["cId"], sS=subscription()["sS"] * 16)

    flood()
    wait(lambda: process.order("south counts").count("holds 64, lost 96") == 2, "a pool full of the south's")
    for value in range(16):
        process.order(f"status {RELEASE} {value}")
    hold(process.order("south counts") == "link 0 holds 56, lost 104; link 1 holds 56, lost 104", process.order("south counts"))
    flood()
    wait(lambda: process.order("south counts") == "link 0 holds 56, lost 264; link 1 holds 56, lost 264", "the flood that goes on")
    hold(process.order("north counts") == "link 0 holds 16, lost 0", f"north keeps its share: {process.order('north counts')}")
    north[0].answers = True
    north[0].cut()
    north[0].wait(lambda: values(north[0])[-16:] == [str(value) for value in range(16)], "what north held")
    process.quit()
    closing(*north, *south)


def south_is_spent(room):
    """Where the south site's numbers come to their end it alone starts anew; north's links stay."""
    north, south = supervisors(1)
    process = Process(room, north, beside=south, beside_options=("--first", last_numbers(4)))
    for one in (*north, *south):
        one.wait_up()
    for order in ("alarm 2 on", "south alarm 2 on"):
        hold(process.order(order) == "done", order)
    for value in range(1, 9):
        hold(process.order(f"south aggregated {value}") == "done", f"aggregated {value}")
    process.wait_logged("south: the sequence numbers are ")
    wait(lambda: len(south[0].connections) > 1 and south[0].up, "south's new greeting")
    hold(len(north[0].connections) == 1 and north[0].up, "north is disturbed")
    hold(not process.logged("north: the sequence numbers"), "north starts anew")
    process.quit()
    starts = [line.split()[:2] for line in process.record.read_text().splitlines() if " start " in line]
    hold(starts[:2] == [["north", "start"], ["south", "start"]] and ["north", "start"] not in starts[2:] and len(starts) > 2, f"starts {starts}")
    judge_record(process, north, south)
    closing(*north, *south)


def programs_of_two(room):
    """Each site runs its own program for its commands."""
    room = pathlib.Path(room)
    north, south = supervisors(1)
    notes = room / "notes"
    program = room / "move"
    program.write_text(f'#!/bin/sh\necho "$3 $4" >>{notes}\n')
    program.chmod(0o755)
    process = Process(room, north, "--state", room / "state", table=WITH_COMMANDS, beside=south, beside_table=WITH_COMMANDS,
                      beside_options=("--on-command", program))
    for one in (*north, *south):
        one.wait_up()
    north[0].ask("CommandRequest", **boom(1))
    south[0].ask("CommandRequest", **boom(0))
    wait(notes.exists, "south's program")
    wait(lambda: process.order("south commands").startswith("1 handed over: 1 done"), "south's program to end")
    hold(process.order("commands") == "1 handed over", process.order("commands"))
    hold(notes.read_text() == "boom 0\n", "north has no program")
    process.quit()
    closing(*north, *south)


def words_of_two(room):
    """A file with both, what --check-config says of it, and wrong words."""
    room = pathlib.Path(room)
    config = room / "site.conf"
    config.write_text(f"table {TABLE}\nsupervisor 127.0.0.1:1\nstate {room / 'state'}\nbeside\ntable {WITH_COMMANDS}\nsupervisor 127.0.0.1:2\nperiod 9\n")

    def said(*words):
        done = subprocess.run([PROGRAM, *map(str, words)], capture_output=True, text=True)
        return done.returncode, done.stdout + done.stderr

    code, text = said("--config", config, "--check-config")
    lines = text.splitlines()
    hold(code == 0 and lines[-1] == "ok" and sum(line.startswith("table ") for line in lines) == 2, f"{code} {text}")
    hold("beside    the site south" in lines and sum(line.startswith("link 0 ") for line in lines) == 2, text)
    code, text = said("--table", TABLE, "--supervisor", "a:1", "--beside", "--table", TABLE, "--supervisor", "b:2", "--beside")
    hold(code == 2 and "two sites at most" in text, f"{code} {text}")
    code, text = said("--table", TABLE, "--supervisor", "a:1", "--beside", "--table", "/dev/null", "--supervisor", "b:2")
    hold(code == 3, f"a second table that is none: {code} {text}")
    process = Process(room, ["127.0.0.1:1"], record=False)
    hold(process.order("south counts") == "refused: there is no site south here", process.order("south counts"))
    hold(process.order("north counts") == process.order("counts"), "north is the only one")
    process.quit()


def shown_of_two(room):
    """What is shown is the named site's; the metrics are of both, each with its place."""
    room = pathlib.Path(room)
    control, metrics = room / "control", room / "site.prom"
    process = Process(room, ["127.0.0.1:1"], "--control", control, "--metrics", metrics, beside=["127.0.0.1:2"], beside_table=WITH_COMMANDS)
    wait(control.exists, "the control socket")

    def send(*order):
        done = subprocess.run([PROGRAM, "--send", control, *order], capture_output=True, text=True)
        hold(done.returncode == 0, f"{order}: {done.stdout}{done.stderr}")
        return done.stdout

    send("south", "aggregated", "9")
    shown = {name: json.loads(send(name, "show", "--json")) for name in ("north", "south")}
    hold([shown[name]["aggregated"] for name in shown] == [0, 9] and shown["north"]["commands"] is None, f"{shown}")
    hold(send("show").count("127.0.0.1:1") == 1 and "127.0.0.1:2" in send("south", "show"), "show")
    wait(metrics.exists, "the metrics")
    page = metrics.read_text()
    hold(page.count("# TYPE rsmp_site_held ") == 1 and page.count("rsmp_site_held{place=") == 2, page)
    send("quit")
    process.ended()


TESTS = [two_sites, one_state, other_floods, south_is_spent, programs_of_two, words_of_two, shown_of_two]
