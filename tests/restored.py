"""A record of `rsmp-site` over a restart: it begins again with the stored site, and `rsmp-replay` plays and draws it.

  restored.py --stored
"""
import pathlib
import subprocess
import sys
import tempfile
import xml.etree.ElementTree as xml

from cases import ROOT
from process import Failed, Process, hold

REPLAY = ROOT / "build" / "rsmp-replay"
NOBODY = "127.0.0.1:1"
NAME = "{http://www.w3.org/2000/svg}"


def run_site(room, orders):
    """Gives orders to a site whose supervisors are not there."""
    site = Process(room, [NOBODY, NOBODY], "--state", pathlib.Path(room) / "state", "--state-interval", "0")
    for order in orders:
        site.order(order)
    site.quit()


def played(lines):
    done = subprocess.run([REPLAY], input="".join(f"{line}\n" for line in lines), capture_output=True, text=True)
    hold(done.returncode == 0, f"rsmp-replay: status {done.returncode}: {done.stderr}")
    return done.stdout.splitlines()


def drawn(lines):
    done = subprocess.run([REPLAY, "--picture"], input="".join(f"{line}\n" for line in lines), capture_output=True, text=True)
    hold(done.returncode == 0, f"rsmp-replay --picture: status {done.returncode}: {done.stderr}")
    links = [group for group in xml.fromstring(done.stdout).iter(NAME + "g") if group.get("id") != "alarms"]
    return [{name: int(link.get(f"data-{name}")) for name in ("issued", "held", "lost", "brought", "dropped")} for link in links]


def judge(room):
    run_site(room, ("alarm 2 on", "aggregated 5"))
    run_site(room, ("alarm 3 on", "aggregated 7"))
    record = (pathlib.Path(room) / "record.txt").read_text().splitlines()
    names = [line.split()[0] for line in record]
    hold(names[0] == "start" and names.count("start") == 1 and names.count("restore") == 1, f"the record has {names}")
    at = names.index("restore")
    hold(played([*record, "counts"])[-1] == "4/0 2/0", "the record played over the restart")
    hold(played([*record[at:], "counts"])[-1] == "4/0 2/0", "the record played from the restart on")
    whole, rest = drawn(record), drawn(record[at:])
    hold(whole == [{"issued": count, "held": count, "lost": 0, "brought": 0, "dropped": 0} for count in (4, 2)], f"the whole is drawn as {whole}")
    hold(rest == [{"issued": count, "held": 2 * count, "lost": 0, "brought": count, "dropped": 0} for count in (2, 1)], f"the rest is drawn as {rest}")
    stored = record[at].split()[1]
    for spoiled in (stored[:-2], "ff" + stored[2:], stored[:-2] + f"{int(stored[-2:], 16) ^ 1:02x}"):
        done = subprocess.run([REPLAY], input=f"restore {spoiled}\n", capture_output=True, text=True)
        hold(done.returncode == 2 and "line 1: " in done.stderr, f"a spoiled stored site: status {done.returncode}, {done.stderr}")


def main(words):
    if words != ["--stored"]:
        print(__doc__)
        return 2
    try:
        with tempfile.TemporaryDirectory() as room:
            judge(room)
    except Failed as failed:
        sys.exit(f"restored: {failed}")
    print("restored: a record over a restart is played and drawn, the whole and from the stored site on")
    return 0


if __name__ == "__main__":
    sys.exit(main(sys.argv[1:]))
