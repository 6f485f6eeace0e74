"""What an operator reaches for: orders by `--send`, by name, who may give them, how the site stands, the log's forms, a look at the words, the end that waits."""
import grp
import json
import os
import pathlib
import re
import shutil
import socket
import stat
import subprocess

from cases import ROOT
from model import message
from process import NORTH, PROGRAM, RELEASE, SITE, SXL, TABLE, WITH_COMMANDS, Control, Process, boom, hold, subscription, wait
from socket_end import NOWHERE, status
from supervisors import FORM_FEED, Supervisor

MOVE = ROOT / "examples" / "move"
METRIC = re.compile(r"rsmp_site_([a-z_]+)(?:\{(.*)\})? (-?\d+)")


def sent(path, *words):
    """The status and the lines that an order's reply is."""
    done = subprocess.run([PROGRAM, "--send", path, *words], capture_output=True, text=True)
    hold(not done.stderr or done.returncode, f"--send {words}: {done.stderr}")
    return done.returncode, (done.stdout + done.stderr).splitlines()


def metrics_of(text):
    """Each value by its name and its labels; what is no line of Prometheus' text form fails."""
    found, kinds = {}, {}
    for line in text.splitlines():
        if line.startswith("# TYPE "):
            _, _, name, kind = line.split()
            hold(kind in ("gauge", "counter") and (kind == "counter") == name.endswith("_total"), line)
            kinds[name.removeprefix("rsmp_site_")] = kind
        elif not line.startswith("# HELP rsmp_site_"):
            one = METRIC.fullmatch(line)
            hold(one and one[1] in kinds, f"no line of metrics: {line!r}")
            labels = tuple(value for _, value in re.findall(r'(\w+)="([^"]*)"', one[2] or ""))
            found[(one[1], *labels)] = int(one[3])
    hold(text.endswith("\n"), "metrics end in mid-line")
    return found


def orders_by_name(room):
    """By --send, with quotes where a name has spaces; the status tells done from refused."""
    path = pathlib.Path(room) / "control"
    process = Process(room, [NOWHERE], "--control", path, record=False)
    Control(path).close()
    for words, wanted in ((("alarm", NORTH, "A0101", "on"), ["done"]), (("status", NORTH, "S0101", "release limit", "-7"), ["done"]),
                          (("status", str(RELEASE), "190"), ["done"]), (("counts",), ["done: link 0 holds 1, lost 0"])):
        hold(sent(path, *words) == (0, wanted), f"{words}: {sent(path, *words)}")
    for words, wanted in ((("alarm", NORTH, "A0001", "on"), f"refused: {NORTH} has no alarm 'A0001'"), (("alarm", "6", "on"), "refused: no such"),
                          (("status", "nobody", "S", "n", "1"), "refused: the table has no component 'nobody'"), (("open",), "refused: the order is 'open'")):
        code, said = sent(path, *words)
        hold(code == 1 and len(said) == 1 and said[0].startswith(wanted), f"{words}: {code} {said}")
    code, said = sent(path, "show")
    hold(code == 0 and any(line.startswith(f"alarm 2 {NORTH} A0101: active, not acknowledged, not suspended, since ") for line in said), said)
    hold(f'status 2 {NORTH} S0101 "release limit": -7' in said and f'status {RELEASE} {NORTH} S0101 "release": 190' in said, said)
    control = Control(path)
    hold(control.order("show") == f"done, {len(said)} lines follow", "how many lines show has")
    hold(len([control.stream.readline() for _ in said]) == len(said) and control.order("counts") == "link 0 holds 1, lost 0", "what comes behind show")
    hold(sent(path, "quit") == (0, ["done: goodbye"]), "quit")
    process.ended()
    code, said = sent(path, "counts")
    hold(code == 1 and "No such file" in said[0], f"no site: {code} {said}")
    hold(status("--send")[0] == 2 and status("--send", path)[0] == 2, "--send without words")


def who_may_order(room):
    path = pathlib.Path(room) / "control"
    for words, wanted in (((), 0o600), (("--control-mode", "660"), 0o660)):
        process = Process(room, [NOWHERE], "--control", path, *words, record=False)
        hold(Control(path).order("counts") == "link 0 holds 0, lost 0", "an order")
        wait(lambda: stat.S_IMODE(path.stat().st_mode) == wanted, f"mode {wanted:o}")
        process.terminate()
    ours = grp.getgrgid(os.getgid()).gr_name
    other = next((one for one in grp.getgrall() if one.gr_gid not in (os.getgid(), 0)), None) if os.getuid() == 0 else None
    for name, number in ((ours, os.getgid()), *(((other.gr_name, other.gr_gid), (str(other.gr_gid), other.gr_gid)) if other else ())):
        process = Process(room, [NOWHERE], "--control", path, "--control-mode=660", "--control-group", name, record=False)
        hold(Control(path).order("counts") == "link 0 holds 0, lost 0", "an order")
        wait(lambda: (path.stat().st_gid, stat.S_IMODE(path.stat().st_mode)) == (number, 0o660), f"group {name}")
        process.terminate()
    for words, code, wanted in ((("--control-mode", "9"), 2, "wanted octal digits"), (("--control-group", "no such group"), 1, "no such group")):
        said = status("--table", TABLE, "--supervisor", NOWHERE, "--control", path, *words)
        hold(said[0] == code and wanted in said[1], f"{words}: {said}")
    return f"groups {ours}{' and ' + other.gr_name if other else ''}"


def shown_and_counted(room):
    """show --json and the metrics tell what the supervisors were told, and the metrics are written again."""
    path, metrics = pathlib.Path(room) / "control", pathlib.Path(room) / "site.prom"
    centre, workshop = Supervisor(SITE, SXL), Supervisor(SITE, SXL, offer="3.1.5")
    process = Process(room, [centre, workshop], "--control", path, "--metrics", metrics, "--on-command", MOVE, "--quiet",
                      table=WITH_COMMANDS, record=False, env={**os.environ, "OUTPUTS": str(room)})
    centre.wait_up()
    workshop.wait_up()
    wait(metrics.exists, "the metrics")
    first, file = metrics.stat().st_mtime_ns, metrics.open()
    hold(stat.S_IMODE(metrics.stat().st_mode) == 0o644 and ("info", process_version(), SITE) in metrics_of(metrics.read_text()), "the first metrics")
    hold(centre.ask("StatusSubscribe", **subscription(rate="60")) is True, "a subscription")
    hold(workshop.ask("StatusSubscribe", **subscription(change=False, rate="5")) is True, "another")
    hold(centre.ask("CommandRequest", **boom(1)) is True, "a command")
    control = Control(path)
    for order in ("alarm 2 on", f"status {RELEASE} 190", "aggregated 5"):
        hold(control.order(order) == "done", order)
    hold(centre.ask("Alarm", cId=NORTH, aCId="A0101", xACId="", xNACId="", aSp="Suspend") is True, "an alarm is suspended")
    wait(lambda: control.order("counts").startswith("link 0 holds 0") and "1 done" in control.order("commands"), "answers")
    code, lines = sent(path, "show", "--json")
    shown = json.loads(lines[0])
    hold(code == 0 and len(lines) == 1 and (shown["site"], shown["primary"], shown["aggregated"]) == (SITE, 0, 5), lines)
    hold([(link["phase"], link["version"], link["held"], link["lost"], link["connections"], link["unanswered"]) for link in shown["links"]]
         == [("Up", "3.2.0", 0, 0, 1, 0), ("Up", "3.1.5", shown["links"][1]["held"], 0, 1, 0)], shown["links"])
    alarm = shown["alarms"][2]
    hold((alarm["component"], alarm["code"], alarm["active"], alarm["acknowledged"], alarm["suspended"]) == (NORTH, "A0101", True, False, True), alarm)
    value = shown["statuses"][RELEASE]
    hold((value["name"], value["value"]) == ("release", 190) and value["subscriptions"] == [
        {"link": 0, "seconds": 60, "on_change": True}, {"link": 1, "seconds": 5, "on_change": False}], value)
    hold(shown["statuses"][0]["value"] is None and shown["commands"] == {"handed": 1, "done": 1, "failed": 0, "running": 0, "waiting": 0, "not_taken": 0}, shown)
    hold((pathlib.Path(room) / "BR001.boom").read_text() == "1\n", "the example of --on-command")
    wait(lambda: metrics.stat().st_mtime_ns != first, "the metrics to be written again", 30)
    hold(metrics.stat().st_ino != os.fstat(file.fileno()).st_ino and metrics_of(file.read()), "the metrics are written where they are read")
    file.close()
    seen, page = metrics_of(metrics.read_text()), metrics.read_text()
    for wanted, value in ((("alarm_active", NORTH, "A0101"), 1), (("alarm_suspended", NORTH, "A0101"), 1), (("alarm_active", SITE, "A0001"), 0),
                          (("status", NORTH, "S0101", "release"), 190), (("aggregated",), 5), (("link_up", "0", centre.address), 1),
                          (("held", "0", centre.address), 0), (("lost_total", "1", workshop.address), 0), (("commands_done_total",), 1),
                          (("connections_total", "1", workshop.address), 1)):
        hold(seen.get(wanted) == value, f"{wanted} is {seen.get(wanted)}, not {value}")
    hold(seen["sent_total", "0", centre.address] >= 8 and ("status", SITE, "S0001", "battery voltage") not in seen, "counters")
    control.order("quit")
    process.ended()
    hold(not metrics.exists() and not metrics.with_name("site.prom.new").exists(), "the metrics of a site that has ended")
    centre.close()
    workshop.close()
    return f"{len(page.splitlines())} lines of metrics"


def process_version():
    return (ROOT / "VERSION").read_text().strip()


def metrics_that_cannot_be_written(room):
    process = Process(room, [NOWHERE], "--metrics", "/nowhere/at/all.prom", record=False)
    process.wait_logged("/nowhere/at/all.prom: No such file")
    process.quit()


def forms_of_the_log(room):
    """JSON, an object a line to the last; priorities where standard output is the journal's."""
    room = pathlib.Path(room)
    supervisor, log, path = Supervisor(SITE, SXL), room / "log", room / "control"
    process = Process(room, [supervisor], "--log", log, "--log-format", "json", "--log-level", "debug", "--control", path, record=False)
    supervisor.wait_up()
    supervisor.send_raw(b'{"type":"a \\"quoted\\" \\u001b word"}\x0c')
    supervisor.ask("AggregatedStatusRequest", cId=SITE)
    process.terminate()
    lines = [json.loads(line) for line in log.read_text().splitlines()]
    hold(all({"time", "level", "link", "text"} <= set(line) for line in lines), lines)
    kinds = {(line["way"], line["type"]) for line in lines if line["level"] == "message"}
    hold({("sent", "Version"), ("received", "Watchdog"), ("sent", "AggregatedStatus")} <= kinds and any(way == "not answered" for way, _ in kinds), kinds)
    hold(lines[-1]["text"].startswith("link 0 ") and any(line["text"].startswith("Up, RSMP") and line["link"] == 0 for line in lines), lines[-1])
    ours, its = os.pipe()
    about = os.fstat(its)
    for stream, priorities in ((f"{about.st_dev}:{about.st_ino}", True), (f"{about.st_dev}:{about.st_ino + 1}", False)):
        process = Process(room, [supervisor], "--control", path, "--metrics", "/nowhere/at/all.prom", record=False, stdout=its,
                          env={**os.environ, "JOURNAL_STREAM": stream})
        wait(lambda: supervisor.up, "the link")
        supervisor.send_raw(b"x" * 5000 + FORM_FEED)
        supervisor.ask("AggregatedStatusRequest", cId=SITE)
        process.terminate()
        said = os.read(ours, 1 << 16).decode().splitlines()
        hold(all(re.match(r"<[3-7]>", line) for line in said) == priorities, f"{stream}: {said}")
        if priorities:
            told = {(found[2], found[1]) for found in (re.match(r"<(\d+)>\S+ \S+ (\w+) +(?:link|site)", line) for line in said) if found}
            hold(told == {("error", "3"), ("warning", "4"), ("info", "6"), ("message", "7")}, f"priorities: {told}")
        wait(lambda: not supervisor.up, "the end of the link")
    os.close(ours)
    os.close(its)
    supervisor.close()


def looked_at_before(room):
    """--check-config says what would be done, changes nothing, and tells by its status whether what is held would be lost."""
    room = pathlib.Path(room)
    state, file = room / "state", room / "rsmp-site.conf"
    file.write_text(f"table {TABLE}\nsupervisor {NOWHERE}\nstate {state}\ncontrol {room / 'control'}\n")
    code, said = status("--config", file, "--check-config")
    hold(code == 0 and f"state     {state}: is not there: a new site starts" in said and said.endswith("\nok\n"), f"{code} {said}")
    hold(sorted(path.name for path in room.iterdir()) == ["rsmp-site.conf"], "a look leaves something behind")
    process = Process(room, [NOWHERE], "--state", state, record=False)
    hold(process.order("alarm 1 on") == "done", "an alarm")
    process.quit()
    before = state.read_bytes()
    code, said = status("--check-config", "--config", file)
    hold(code == 0 and "goes on from 20" in said and "link 0 holds 1, lost 0" in said, f"{code} {said}")
    code, said = status("--check-config", "--config", file, "--table", WITH_COMMANDS)
    hold(code == 1 and "would NOT be taken" in said and "it is of another table" in said and "are told of in the log alone" in said, f"{code} {said}")
    code, said = status("--check-config", "--config", file, "--table", WITH_COMMANDS, "--on-command", MOVE, "--state", room / "none")
    hold(code == 0 and f"run {MOVE}, each 60 s at most" in said and f"link 0    {NOWHERE}, the primary" in said, f"{code} {said}")
    for words, wanted in ((("--on-command", room / "nothing"), 1), (("--table", ROOT / "Makefile"), 1), (("--period", "0"), 2)):
        code, said = status("--check-config", "--config", file, *words)
        hold(code == wanted and "ok" not in said.split(), f"{words}: {code} {said}")
    hold(state.read_bytes() == before, "a look changes the state")
    for words, wanted in ((("--metrics", "/nowhere/at/all.prom"), "not ok: there is no folder /nowhere/at"),
                          (("--control-group", "no such group"), "not ok: --control-group: no such group: no such group")):
        code, said = status("--check-config", "--config", file, *words)
        hold(code == 1 and said.endswith(f"\n{wanted}\n"), f"{words}: {code} {said}")
    every = re.sub(r"^#(?=[a-z-]+( +[^# ]+)?( +#.*)?$)", "", (ROOT / "examples" / "rsmp-site.conf").read_text(), flags=re.MULTILINE)
    hold("#" not in {line[:1] for line in every.splitlines()[3:]}, f"the example's lines: {every}")
    for folder in ("/etc/rsmp-site", "/var/lib/rsmp-site", "/run/rsmp-site", "/var/log/rsmp-site"):
        every = every.replace(folder + "/", f"{room}/")
    every = every.replace("barrier.txt", "commands.txt").replace("group adm", f"group {os.getgid()}")
    for name in ("commands.txt", "move"):
        shutil.copy(ROOT / "examples" / name, room)
    shutil.copy(ROOT / "examples" / "commands.txt", room / "south.txt")
    file.write_text(every)
    code, said = status("--check-config", "--config", file, "--state", room / "none")
    hold(code == 0 and f"run {room}/move" in said and f"metrics   {room}/rsmp-site.prom" in said and "mode 660" in said, f"{code} {said}")


def drained(room):
    """Told to end it waits for answers, so long at most, tells systemd so, and then says what is left."""
    told = socket.socket(socket.AF_UNIX, socket.SOCK_DGRAM)
    told.bind(str(pathlib.Path(room) / "notify"))
    told.settimeout(10)
    supervisor = Supervisor(SITE, SXL, answers=True)
    process = Process(room, [supervisor], "--drain", "30", record=False, env={**os.environ, "NOTIFY_SOCKET": told.getsockname()})
    supervisor.wait_up()
    supervisor.answers = False
    hold(process.order("alarm 2 on") == "done", "an alarm")
    wait(lambda: process.order("counts") == "link 0 holds 1, lost 0", "a held record")
    process.process.terminate()
    process.wait_logged("is to end, and waits up to 30 s for answers: link 0 holds 1, lost 0")
    hold(process.order("counts") == "link 0 holds 1, lost 0" and process.process.poll() is None, "it does not wait")
    heard = [told.recv(100).decode() for _ in range(2)]
    longer = re.fullmatch(r"STOPPING=1\nEXTEND_TIMEOUT_USEC=(\d+)", heard[1])
    hold(heard[0] == "READY=1" and longer and 40e6 < int(longer[1]) <= 45e6, f"systemd is told {heard}")
    supervisor.answers = True
    for said in supervisor.of("Alarm"):
        supervisor.send_raw(message.ack(said["mId"]) + FORM_FEED)
    process.ended()
    hold(process.logged("0 records held, 0 lost") == 1 and not process.logged("not answered: link"), process.lines[-3:])
    process = Process(room, [NOWHERE], "--drain", "0.5", record=False)
    hold(process.order("alarm 2 on") == "done", "an alarm")
    process.quit()
    hold(process.logged("ends with records that are not answered: link 0 holds 1, lost 0") == 1, process.lines[-3:])
    supervisor.close()
    told.close()


def state_in_two_places(room):
    """With interval 0 the state is written where it lies, in turn; of a torn one the other is taken, and of two torn ones neither."""
    path = pathlib.Path(room) / "state"
    words = ([NOWHERE], "--state", path, "--state-interval", "0", "--quiet")
    process, seen = Process(room, *words, record=False), []
    for number in (1, 2, 3):
        hold(process.order(f"alarm {number} on") == "done", "an alarm")
        seen.append((path.stat().st_ino, path.read_bytes()))
    process.kill()
    hold(len({inode for inode, _ in seen}) == 1 and not path.with_name("state.new").exists(), "the state is not written in place")
    half = len(seen[0][1]) // 2
    hold(all(sum(before[at:at + half] != behind[at:at + half] for at in (0, half)) == 1 for (_, before), (_, behind) in zip(seen, seen[1:])), "one place at a time")
    newest = 0 if seen[1][1][:half] != seen[2][1][:half] else half
    for torn, held in (((), 3), ((newest,), 2), ((0, half), 0)):
        spoiled = bytearray(seen[-1][1])
        for at in torn:
            spoiled[at + 5000] ^= 1
        path.write_bytes(spoiled)
        process = Process(room, *words, record=False)
        hold(process.order("counts") == f"link 0 holds {held}, lost 0", f"places torn: {torn}")
        hold(process.logged("the state is not taken") == (held == 0), process.lines)
        process.quit()
    process = Process(room, *words, "--state-interval", "10", record=False)
    hold(process.order("alarm 1 on") == "done" and process.order("save") == "done" and path.read_bytes()[:8] == b"RSMPHOST", "another interval")
    process.quit()


TESTS = [shown_and_counted, orders_by_name, who_may_order, forms_of_the_log, looked_at_before, drained, metrics_that_cannot_be_written, state_in_two_places]
