"""What a reader must believe behind the statements of a crate: every file below specs/ that is reached by `use` from crates/CRATE/specs, with the lines that say
something (no blanks, comments, imports or module lines). Computed examples are counted apart, since the checker judges them: nobody need believe a wrong one.

  behind.py --stored        of certain: printed by the gate, which fails above LIMIT
  behind.py CRATE           of any crate, with each file's lines
"""
import pathlib
import re
import sys

CRATES = pathlib.Path(__file__).resolve().parent.parent / "crates"
LIMIT = 4250
COMMENT = re.compile(r"--[^\n]*")
IMPORT = re.compile(r"^\s*(?:pub )?use [^{\n]*(?:\{[^}]*\})?", re.M)
EXAMPLES = re.compile(r"machine_cases/specs/|/(?:Example|Computed|Spelled)\.antt$")
CITED = re.compile(r"Rattle\.([A-Za-z0-9_]+)\.((?:[A-Za-z0-9_'-]+\.?)+)")


def cited(text):
    """The files of specs/ that a text names."""
    for crate, path in CITED.findall(COMMENT.sub("", text)):
        parts = path.rstrip(".").split(".")
        for count in range(len(parts), 0, -1):
            file = CRATES.joinpath(crate, *parts[:count]).with_suffix(".antt")
            if file.is_file():
                if "specs" in file.relative_to(CRATES).parts:
                    yield file
                break


def said(text):
    lines = IMPORT.sub("", COMMENT.sub("", text)).split("\n")
    return sum(1 for line in lines if line.strip() and not re.match(r"\s*(pub )?mod ", line))


def behind(crate):
    found, left = {}, [file for file in (CRATES / crate / "specs").glob("*.antt") if file.name != "Lib.antt"]
    while left:
        file = left.pop()
        if file not in found:
            text = file.read_text()
            found[file] = said(text)
            left += cited(text)
    return found


def summary(crate):
    found = behind(crate)
    examples = {file: lines for file, lines in found.items() if EXAMPLES.search(file.as_posix())}
    rules = {file: lines for file, lines in found.items() if file not in examples}
    machine = sum(lines for file, lines in rules.items() if file.parent.parent.name == "machine")
    said = f"{sum(rules.values())} lines in {len(rules)} files, of which the machine {machine}; computed examples {sum(examples.values())} in {len(examples)}"
    return f"behind {crate}: {said}", found, sum(rules.values())


def main():
    if len(sys.argv) != 2:
        sys.exit(__doc__)
    stored = sys.argv[1] == "--stored"
    line, found, rules = summary("certain" if stored else sys.argv[1])
    if not stored:
        for file in sorted(found, key=found.get, reverse=True):
            print(f"{found[file]:5} {file.relative_to(CRATES)}")
    print(line)
    if stored and rules > LIMIT:
        sys.exit(f"more than {LIMIT} lines stand behind certain")


main()
