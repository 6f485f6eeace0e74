#!/usr/bin/env python3
"""Calls the machine's own choice by a test `if'◌then◌else◌`: today's gate keeps the name `if◌then◌else◌` for the library's. Run once, behind respell.py.

Turned: specs/ and proofs/ of the files that take it from machine/specs/Words, that file itself, and the edits of such files. Comments and strings stay.
"""
import os
import re
import subprocess

NAME = "if◌then◌else◌"
TOKEN = re.compile(r"--[^\n]*|\"(?:[^\"\\\n]|\\.)*\"|" + re.escape(NAME) + r"|(?<![\w◌'.·-])if(?=\s)")


def turned(text):
    return TOKEN.sub(lambda m: m[0] if m[0][0] in '-"' else m[0].replace("if", "if'", 1), text)


def main():
    root = subprocess.run(["git", "rev-parse", "--show-toplevel"], capture_output=True, text=True, check=True).stdout.strip()
    files, edits = set(), []
    for top in ("crates", "tests/tried"):
        for folder, dirs, names in os.walk(os.path.join(root, top)):
            dirs[:] = [d for d in dirs if d != "out"]
            for name in sorted(names):
                path = os.path.join(folder, name)
                if name.endswith(".edit"):
                    edits.append(path)
                elif name.endswith(".antt"):
                    with open(path, encoding="utf-8") as f:
                        text = f.read()
                    if NAME in text:
                        files.add(path)
                        with open(path, "w", encoding="utf-8") as f:
                            f.write(turned(text))
    for path in edits:
        with open(path, encoding="utf-8") as f:
            lines = f.read().split("\n")
        crate = os.path.relpath(path, root).split(os.sep)[-3 if "must-fail" in path else -2]
        place = None
        for k, line in enumerate(lines):
            if line.startswith("file: "):
                place = line[6:] if line[6:].startswith("crates/") else f"crates/{crate}/{line[6:]}"
            elif line.startswith(("old: ", "new: ")) and os.path.join(root, place) in files:
                lines[k] = line[:5] + turned(line[5:])
        with open(path, "w", encoding="utf-8") as f:
            f.write("\n".join(lines))
    print(f"own_if: {len(files)} files")


if __name__ == "__main__":
    main()
