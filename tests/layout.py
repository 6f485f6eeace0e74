"""The host's Rust as it stands: in rustfmt's layout, and a SAFETY comment at every `unsafe`.

  layout.py --stored
"""
import pathlib
import re
import shutil
import subprocess
import sys

from cases import ROOT

FILES = sorted((ROOT / "host").rglob("*.rs"))


def without_safety(path):
    """The lines with an `unsafe` that no SAFETY comment stands above: right above it, or above the statement it is in."""
    lines = path.read_text().splitlines()
    for place, line in enumerate(lines):
        code = line.split("//")[0]
        if not re.search(r"\bunsafe\b", code) or line.lstrip().startswith("#"):
            continue
        above = place - 1
        while above >= 0 and not lines[above].lstrip().startswith("//") and not re.search(r"[;{}]\s*$", lines[above]):
            above -= 1
        comment = []
        while above >= 0 and lines[above].lstrip().startswith("//"):
            comment.append(lines[above])
            above -= 1
        if not any("SAFETY:" in one for one in comment):
            yield place + 1


def main(words):
    if words != ["--stored"]:
        print(__doc__)
        return 2
    faults = [f"{path.relative_to(ROOT)}:{line}: an unsafe without a SAFETY comment" for path in FILES for line in without_safety(path)]
    formatted = "rustfmt is not there to be asked"
    if shutil.which("rustfmt"):
        done = subprocess.run(["rustfmt", "--edition", "2021", "--check", "-l", *FILES], cwd=ROOT, capture_output=True, text=True)
        faults += [f"{pathlib.Path(name).relative_to(ROOT)}: not in rustfmt's layout" for name in sorted(set(done.stdout.split()))] or ([done.stderr] if done.returncode else [])
        formatted = "in rustfmt's layout"
    if faults:
        sys.exit("\n".join(faults))
    print(f"layout: {len(FILES)} files of Rust, {formatted}, a SAFETY comment at each unsafe")
    return 0


if __name__ == "__main__":
    sys.exit(main(sys.argv[1:]))
