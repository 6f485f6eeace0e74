"""One version for library, header, crates, programs and manual pages, and a header of another one is not linked.

  versions.py --stored
"""
import pathlib
import re
import subprocess
import sys
import tempfile

from cases import ROOT

VERSION = (ROOT / "VERSION").read_text().strip()
PROVED, LIBRARY, HEADER = ROOT / "crates" / "sitec_c" / "out" / "libsitec_c.a", ROOT / "build" / "librsmp_site.a", ROOT / "build" / "rsmp_site.h"
CC, RUN = ROOT / "build" / "tools" / "cc", ROOT / "build" / "tools" / "run"
PROGRAMS = ("rsmp-site", "rsmp-replay", "rsmp-table", "rsmp-week", "rsmp-csv")
STARTS = """#include "rsmp_site.h"
#include <stdio.h>
static rsmp_site site;
int main(void) {
    unsigned number = rsmp_start(&site, (const uint8_t *)"", 0, 1, 0, 60, 0, 0);
    printf("%s %s %u\\n", RSMP_VERSION, rsmp_library_version, number);
    return 0;
}
"""


def hold(good, what):
    if not good:
        sys.exit(f"versions: {what}")


def versioned(version):
    """The name by which a header of this version starts a site."""
    return "rsmp_lent_start_" + version.replace(".", "_")


def names(archive):
    listed = subprocess.run(["nm", archive], capture_output=True, text=True, check=True).stdout
    return set(re.findall(r"\s[A-Za-z]\s+(\S+)$", listed, re.MULTILINE))


def compiled(room, header):
    """A program that starts a site, and what the linker says where there is none."""
    source, program = room / "starts.c", room / "starts"
    source.write_text(STARTS)
    done = subprocess.run([CC, "-O2", "-I", header.parent, "-o", program, source, LIBRARY], capture_output=True, text=True)
    return (program, "") if done.returncode == 0 else (None, done.stderr)


def judge_linking(room):
    program, faults = compiled(room, HEADER)
    hold(program, faults)
    said = subprocess.run([RUN, program], capture_output=True, text=True, check=True).stdout
    hold(said == f"{VERSION} {VERSION} 11\n", f"header and library say {said!r}, and VERSION is {VERSION}")
    later, other = VERSION + "1", room / "other" / "rsmp_site.h"
    other.parent.mkdir()
    other.write_text(HEADER.read_text().replace(f'"{VERSION}"', f'"{later}"').replace(versioned(VERSION), versioned(later)))
    program, faults = compiled(room, other)
    hold(not program and f"undefined reference to `{versioned(later)}'" in faults, f"a header of version {later} is linked: {faults}")
    added = names(LIBRARY) - names(PROVED)
    hold(added == {"rsmp_library_version", versioned(VERSION)}, f"beside what is proved the library has {sorted(added)}")


def judge_texts():
    cargo = re.search(r'^version = "(.*)"$', (ROOT / "host" / "Cargo.toml").read_text(), re.MULTILINE)[1]
    hold(cargo == VERSION, f"host/Cargo.toml says {cargo}, and VERSION is {VERSION}")
    for name in PROGRAMS:
        done = subprocess.run([ROOT / "build" / name, "--version"], capture_output=True, text=True)
        hold((done.returncode, done.stdout) == (0, f"{name} {VERSION}\n"), f"{name} --version: {done.stdout!r}")


def main(words):
    if words != ["--stored"]:
        print(__doc__)
        return 2
    judge_texts()
    with tempfile.TemporaryDirectory() as room:
        judge_linking(pathlib.Path(room))
    print(f"versions: {VERSION} in library, header, crates and {', '.join(PROGRAMS)}; a header of another version is not linked")
    return 0


if __name__ == "__main__":
    sys.exit(main(sys.argv[1:]))
