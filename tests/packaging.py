"""What `make` promises: nothing changed means nothing done, help, an installed tree that a C program builds with, and a Debian package that is installed,
started and purged in a folder of its own.

  packaging.py --stored
"""
import os
import pathlib
import re
import shutil
import subprocess
import sys
import tempfile

from cases import ROOT

VERSION = (ROOT / "VERSION").read_text().strip()
CC, RUN = ROOT / "build" / "tools" / "cc", ROOT / "build" / "tools" / "run"
PROGRAMS = ["rsmp-site", "rsmp-replay", "rsmp-table", "rsmp-week", "rsmp-csv"]
TREE = {*(f"bin/{name}" for name in PROGRAMS), *(f"share/man/man1/{name}.1" for name in PROGRAMS), "include/rsmp_site.h",
        "include/rsmp_week.h", "include/rsmp_csv.h", "lib/librsmp_site.a", "lib/librsmp_week.a", "lib/librsmp_csv.a",
        "lib/pkgconfig/rsmp_site.pc", "lib/pkgconfig/rsmp_week.pc", "lib/pkgconfig/rsmp_csv.pc",
        "lib/systemd/system/rsmp-site.service",
        *(f"share/bash-completion/completions/{name}" for name in PROGRAMS),
        *(f"share/doc/rsmp-site/examples/{name}" for name in ("rsmp-site.conf", "rsmp-site.logrotate", "barrier.txt", "commands.txt", "move"))}
# A program for each library, and the status it ends with.
ENDS = {"rsmp_site": ("""#include <rsmp_site.h>
static rsmp_site site;
int main(void) { return (int)rsmp_start(&site, (const uint8_t *)"", 0, 1, 0, 60, 0, 0); }
""", 11), "rsmp_week": ("""#include <rsmp_week.h>
static uint64_t words[RSMP_WEEK_WORDS];
int main(void) { return (int)(rsmp_week_begin(words, RSMP_WEEK_WORDS) * 2 + rsmp_week_begin(words, 1)); }
""", 1), "rsmp_csv": ("""#include <rsmp_csv.h>
static uint8_t out[RSMP_CSV_HEADER];
int main(void) { return (int)(rsmp_csv_header(out, sizeof out).written + rsmp_csv_read(out, sizeof out, 0, 1).answer + rsmp_csv_header(out, 72).number); }
""", 84)}


def hold(good, what):
    if not good:
        sys.exit(f"packaging: {what}")


def make(*words, umask=-1):
    """Not as a part of a make that runs us."""
    environment = {name: value for name, value in os.environ.items() if name not in ("MAKEFLAGS", "MFLAGS", "MAKELEVEL")}
    done = subprocess.run(["make", "-C", ROOT, "--no-print-directory", *words], capture_output=True, text=True, env=environment, umask=umask)
    hold(done.returncode == 0, f"make {' '.join(words)}: {done.stdout[-2000:]}{done.stderr[-2000:]}")
    return done.stdout


def files(place):
    return {str(path.relative_to(place)): path for path in place.rglob("*") if path.is_file()}


def times():
    """Of what make made; the compilers are not made each time, and other tests may be writing where cargo builds."""
    made = [path for path in (ROOT / "build").iterdir() if path.name not in ("tools", "cargo")]
    paths = [path for one in made for path in (one.iterdir() if one.is_dir() else [one])]
    return {path: path.stat().st_mtime_ns for path in [*paths, *(ROOT / "crates").glob("*_c/out/lib*.a")]}


def judge_nothing_done():
    before = times()
    said = make()
    hold(said == "", f"nothing has changed, and make does {said!r}")
    hold(before == times(), "nothing has changed, and make has written files")


def judge_help():
    said = make("help")
    for word in ("build", "run", "test", "library", "install", "uninstall", "deb", "clean"):
        hold(re.search(rf"^  make {word} ", said, re.MULTILINE), f"make help does not tell of {word}")


def judge_tree(place):
    hold(set(files(place)) == TREE, f"installed are {sorted(set(files(place)) ^ TREE)} too many or too few")
    for name, path in files(place).items():
        if name.split("/")[0] in ("share", "include") or path.suffix in (".pc", ".service"):
            hold(not re.search(r"@[A-Z]+@", path.read_text()), f"{name} has a place that is not filled in")
    for name in PROGRAMS:
        said = subprocess.run([RUN, place / "bin" / name, "--version"], capture_output=True, text=True).stdout
        hold(said == f"{name} {VERSION}\n", f"the installed {name} says {said!r}")


def judge_linking(place, room, library):
    """By the flags of the pkg-config file."""
    said = (place / "lib" / "pkgconfig" / f"{library}.pc").read_text()
    values = {name: value for name, value in re.findall(r"^(\w+)=(.*)$", said, re.MULTILINE)}
    filled = re.sub(r"\$\{(\w+)\}", lambda found: values[found[1]], said)
    flags = {name: value.split() for name, value in re.findall(r"^(\w+): (.*)$", filled, re.MULTILINE)}
    hold(flags["Version"] == [VERSION], f"the pkg-config file says {flags['Version']}")
    if shutil.which("pkg-config"):
        told = subprocess.run(["pkg-config", "--cflags", "--libs", library], capture_output=True, text=True,
                              env={**os.environ, "PKG_CONFIG_PATH": str(place / "lib" / "pkgconfig")})
        hold(told.stdout.split() == flags["Cflags"] + flags["Libs"], f"pkg-config says {told.stdout}{told.stderr}")
    text, status = ENDS[library]
    (room / "ends.c").write_text(text)
    subprocess.run([CC, "-o", room / "ends", room / "ends.c", *flags["Cflags"], *flags["Libs"]], check=True)
    hold(subprocess.run([RUN, room / "ends"]).returncode == status, f"a program that is built with the installed {library} does not run")


def judge_modes(place):
    """Everybody may read what is installed, also where the umask is narrow."""
    for path in [place, *place.rglob("*")]:
        wanted = 0o755 if path.is_dir() or path.parent.name == "bin" or path.name == "move" else 0o644
        hold(path.stat().st_mode & 0o777 == wanted, f"{path} has the mode {path.stat().st_mode & 0o777:o}")


def judge_pages(place):
    """No warning, and every option of a program's help on its page."""
    for name in PROGRAMS:
        page = place / "share" / "man" / "man1" / f"{name}.1"
        if shutil.which("man"):
            done = subprocess.run(["man", "--warnings", "-l", "-Tutf8", page], capture_output=True, text=True,
                                  env={**os.environ, "LC_ALL": "C.UTF-8", "MANWIDTH": "100", "MAN_KEEP_FORMATTING": "0"})
            hold(done.returncode == 0 and not done.stderr, f"man {name}: {done.stderr}")
        if shutil.which("mandoc"):
            done = subprocess.run(["mandoc", "-Tlint", "-Werror", page], capture_output=True, text=True)
            hold(done.returncode == 0, f"mandoc {name}: {done.stdout}")
        said = subprocess.run([ROOT / "build" / name, "--help"], capture_output=True, text=True).stdout
        words = page.read_text().replace("\\-", "-")
        for option in sorted(set(re.findall(r"(?<![\w-])--[a-z][a-z-]*", said))):
            hold(option in words, f"{option} is not on the page of {name}")


def judge_unit(place):
    unit = place / "lib" / "systemd" / "system" / "rsmp-site.service"
    said = unit.read_text()
    for line in ("Type=notify", "WatchdogSec=30", "RestartPreventExitStatus=2 3", f"ExecStart={place}/bin/rsmp-site --config /etc/rsmp-site/rsmp-site.conf"):
        hold(line in said.splitlines(), f"the unit has no line {line}")
    if shutil.which("systemd-analyze"):
        done = subprocess.run(["systemd-analyze", "verify", "--man=no", unit], capture_output=True, text=True)
        hold(done.returncode == 0 and not done.stderr, f"systemd-analyze verify: {done.stdout}{done.stderr}")


def completed(place, *words):
    """What bash offers for the last of these words."""
    script = f'''. {place}/share/bash-completion/completions/{words[0]}
COMP_WORDS=("$@"); COMP_CWORD=$(($# - 1))
$(complete -p "$1" | sed 's/.*-F \\([^ ]*\\) .*/\\1/') "{ROOT}/build/$1"
printf "%s\\n" "${{COMPREPLY[@]}}"'''
    done = subprocess.run(["bash", "-c", script, "bash", *words], capture_output=True, text=True)
    hold(not done.stderr, f"completing {words}: {done.stderr}")
    return done.stdout.split()


def judge_completions(place):
    for words, wanted in (
            (("rsmp-site", "--check"), ["--check-config"]), (("rsmp-site", "--log-l"), ["--log-level"]),
            (("rsmp-site", "--log-level", "w"), ["warning"]), (("rsmp-site", "--quiet", "--met"), ["--metrics"]),
            (("rsmp-site", "--send", "/x", "s"), ["status", "show", "save", "south"]), (("rsmp-site", "--send", "/x", "show", ""), ["--json"]),
            (("rsmp-site", "--send", "/x", "south", "c"), ["counts", "commands"]), (("rsmp-site", "--send", "/x", "north", "show", ""), ["--json"]),
            (("rsmp-site", "--beside", "--tab"), ["--table"]),
            (("rsmp-site", "--send", "/x", "alarm", "2", "o"), ["on", "off"]), (("rsmp-site", "--table", f"{ROOT}/VER"), [f"{ROOT}/VERSION"]),
            (("rsmp-replay", "--st"), ["--stream"]), (("rsmp-week", f"{ROOT}/VER"), [f"{ROOT}/VERSION"]), (("rsmp-table", "un"), ["unpack"]),
            (("rsmp-replay", "--rec"), ["--records"]), (("rsmp-site", "--send", "/x", "rec"), ["records"]), (("rsmp-csv", "rec"), ["records"]),
            (("rsmp-site", "--send", "/x", "south", "rec"), ["records"]), (("rsmp-csv", "st"), ["state"]),
            (("rsmp-csv", "state", f"{ROOT}/VER"), [f"{ROOT}/VERSION"])):
        hold(completed(place, *words) == wanted, f"bash completes {words} to {completed(place, *words)}")


# The Debian package.

DPKG = ("dpkg", "dpkg-deb", "dpkg-shlibdeps", "dpkg-gencontrol")


def judge_deb(room):
    """Made by anybody; installed, started and purged by root, in a folder that dpkg takes for the whole system."""
    if not all(map(shutil.which, DPKG)):
        return "no package: dpkg-dev is not here"
    make("deb")
    package = ROOT / "build" / "deb" / f"rsmp-site_{VERSION}_amd64.deb"
    said = subprocess.run(["dpkg-deb", "--field", package, "Package", "Version", "Architecture", "Depends"], capture_output=True, text=True, check=True).stdout
    hold(said.startswith(f"Package: rsmp-site\nVersion: {VERSION}\nArchitecture: amd64\n"), f"the package says {said}")
    listed = [line.split(None, 5) for line in subprocess.run(["dpkg-deb", "-c", package], capture_output=True, text=True, check=True).stdout.splitlines()]
    hold(all(owner == "root/root" and mode[7] == "r" for mode, owner, *_ in listed), "an owner or a mode in the package")
    there = {name.removeprefix("./usr/") for *_, name in listed if not name.endswith("/")}
    wanted = {name + ".gz" if name.startswith("share/man/") else name for name in TREE if not name.endswith(".logrotate")}
    wanted |= {"./etc/logrotate.d/rsmp-site", "share/doc/rsmp-site/changelog.gz"}
    hold(there == wanted, f"in the package are {sorted(there ^ wanted)} too many or too few")
    if os.getuid() != 0:
        return "a package made, not installed: that is root's"
    return lived(package, room / "system")


def dpkg(system, *words):
    done = subprocess.run(["dpkg", f"--root={system}", f"--log={system}/dpkg.log", "--force-script-chrootless", *words], capture_output=True, text=True)
    hold(done.returncode == 0, f"dpkg {words}: {done.stdout}{done.stderr}")


def lived(package, system):
    """What is held goes over a second installation; a purge leaves the operator's own file alone."""
    (system / "var" / "lib" / "dpkg" / "info").mkdir(parents=True)
    (system / "var" / "lib" / "dpkg" / "updates").mkdir()
    shutil.copy("/var/lib/dpkg/status", system / "var" / "lib" / "dpkg" / "status")
    own = files(system).keys() | {"dpkg.log", "etc/rsmp-site/barrier.txt"}
    dpkg(system, "--install", package)
    options = system / "etc" / "rsmp-site" / "rsmp-site.conf"
    for folder in (options.parent, *(system / name / "rsmp-site" for name in ("var/lib", "var/log", "run"))):
        folder.mkdir(parents=True)
    examples = system / "usr" / "share" / "doc" / "rsmp-site" / "examples"
    shutil.copy(examples / "barrier.txt", options.parent)
    text = (examples / "rsmp-site.conf").read_text().replace("10.0.0.1:12111", "127.0.0.1:1").replace("\ndrain  ", "\n#drain  ")
    options.write_text(re.sub(r"(?<= )/(?=etc|var|run)", f"{system}/", text))
    control = system / "run" / "rsmp-site" / "control"
    for held, order in ((1, ["alarm", "2", "on"]), (2, ["alarm", "3", "on"])):
        program = [RUN, system / "usr" / "bin" / "rsmp-site"]
        with subprocess.Popen([*program, "--config", options], stdout=subprocess.PIPE, text=True) as site:
            for line in site.stdout:
                if "cannot connect" in line:
                    break
            for words, said in ((order, "done\n"), (["counts"], f"done: link 0 holds {held}, lost 0\n")):
                told = subprocess.run([*program, "--send", control, *words], capture_output=True, text=True)
                hold((told.returncode, told.stdout) == (0, said), f"the installed site at {words}: {told}")
            site.terminate()
            site.stdout.read()
        hold(site.returncode == 0, f"the installed site ends with {site.returncode}")
        dpkg(system, "--install", package)
    dpkg(system, "--remove", "rsmp-site")
    hold(options.exists() and (system / "etc/logrotate.d/rsmp-site").exists() and not (system / "usr/bin/rsmp-site").exists(), "what removing leaves")
    dpkg(system, "--purge", "rsmp-site")
    left = {name for name in files(system) if not name.startswith("var/lib/dpkg/")} - own
    hold(not left and (system / "etc/rsmp-site/barrier.txt").exists(), f"a purge leaves {left}")
    return "a Debian package installed twice, started, removed and purged"


def main(words):
    if words != ["--stored"]:
        print(__doc__)
        return 2
    judge_nothing_done()
    judge_help()
    with tempfile.TemporaryDirectory() as name:
        room = pathlib.Path(name)
        place = room / "there"
        make("install", f"PREFIX={place}", umask=0o077)
        judge_tree(place)
        judge_modes(place)
        for library in ENDS:
            judge_linking(place, room, library)
        judge_pages(place)
        judge_unit(place)
        judge_completions(place)
        make("install", f"DESTDIR={room}/image", "PREFIX=/usr")
        hold(set(files(room / "image" / "usr")) == TREE, "DESTDIR is not kept")
        hold(f"{room}" not in (room / "image" / "usr" / "lib" / "pkgconfig" / "rsmp_site.pc").read_text(), "DESTDIR stands in a file")
        make("uninstall", f"PREFIX={place}")
        hold(not files(place), f"uninstall leaves {sorted(files(place))}")
        deb = judge_deb(room)
    with_tools = [name for name in ("pkg-config", "man", "mandoc", "systemd-analyze") if shutil.which(name)]
    print(f"packaging: nothing done where nothing changed; {len(TREE)} files installed and taken away, judged by {', '.join(with_tools)}; {deb}")
    return 0


if __name__ == "__main__":
    sys.exit(main(sys.argv[1:]))
