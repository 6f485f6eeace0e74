#!/usr/bin/env python3
"""Brings the repository's own definitions and lemmas to the spelling of today's Rattle: words in snake case. Run once, behind port.py.

A name that a file of specs/ or proofs/ declares and that begins with a small letter gets underscores for its dashes and its inner
capitals. Left as they are: names of a library, goals of a function's proof (Proof.antt), words of Rust, strings. Where two names fall together in a
file, the definition has the plain name, and the lemma or the field named after it gets `_lem`.

Turned: specs/, proofs/, the clauses of src/; must-fail edits and tests/tried; in pages, names between backticks. What it left or could not
place is printed.
"""
import collections
import os
import re
import subprocess
import sys

WORD = r"[^\s(){}.;,@\"«»]+"
DECLARED = re.compile(r"(?m)^( *)((?:(?:pub|abbrev|unfoldable|mutual|ruleset) )*)([^\s(){}.;,@\"«»:]+)((?: \{[^{}\n]*\})*) :(?= |$)")
USE = re.compile(r"(?m)^ *(?:pub |ghost )*use ([^\s{;]+)\.\{([^}]*)\}")
OF_RATTLE = re.compile(r"Rattle\.(std|core|std_\w+|check|io)\b")
TOKEN = re.compile(r"--[^\n]*|//[^\n]*|\"(?:[^\"\\\n]|\\.)*\"|" + WORD)


# What basis/proofs/Std lends of the library has the library's name.
OF_THE_LIBRARY = {
    "List·getD-append": "get_or-append",
    "List·getD-eq-default": "get_or-eq_default",
    "List·getD-map": "get_or-map",
    "eqb·suc-suc": "eqb-suc-suc",
    "eqb·zero-suc": "eqb-zero-suc",
    "leb·suc-zero": "leb-suc-zero",
}


def snake(name):
    if "·" in name:
        return OF_THE_LIBRARY.get(name) or name.lower().replace("·", "_").replace("-", "_")
    return re.sub(r"(?<=[a-z0-9])[A-Z]", lambda m: "_" + m[0].lower(), name).replace("-", "_")


def read(path):
    with open(path, encoding="utf-8", newline="") as f:
        return f.read()


def quiet(path, text):
    text = re.sub(r"--[^\n]*" if path.endswith(".antt") else r"//[^\n]*", "", text)
    return re.sub(r'"(\\.|[^"\\\n])*"', '""', text)


def files(root):
    for folder, dirs, names in os.walk(os.path.join(root, "crates")):
        dirs[:] = sorted(d for d in dirs if d != "out")
        for name in sorted(names):
            if name.endswith((".antt", ".rt")):
                yield os.path.join(folder, name)


def fields_of(code):
    for block in re.finditer(r"(?m)^( *)(?:pub )?record [^\n]* where\n((?:\1 +[^\n]*\n|\n)*)", code):
        yield from re.findall(r"(?m)^ +pub (\S+) :", block[2])


class Names:
    def __init__(self, root):
        declared, self.words, library, self.fields = collections.defaultdict(set), {}, set(), set()
        for path in files(root):
            code = quiet(path, read(path))
            self.words[path] = set(re.findall(WORD, re.sub(r"(?m)^( *(?:pub |ghost )*use )[^\s{;]+", r"\1", code)))
            if path.endswith(".antt"):
                for found in DECLARED.finditer(code):
                    declared[found[3]].add(path)
                self.fields.update(fields_of(code))
                for found in re.findall(r"(?m)^ *(?:pub )?use [^\n]*", code):
                    for alias in re.findall(r" as ([^\s,{};]+)", found):
                        if path.endswith("/Proof.antt") and re.search(r"\.(Tie|Statement|Lts\S*) as ", found):
                            continue
                        declared[alias].add(path[:-1] if path.endswith("/Proof.antt") else path)
            else:
                for found in re.findall(r"(?m)^ *ghost use [^;]*", code):
                    for alias in re.findall(r" as ([^\s,{};]+)", found):
                        declared[alias].add(path)
            for where, items in USE.findall(code):
                if not where.startswith("Rattle.") or OF_RATTLE.match(where):
                    library.update(it.split(" as ")[0].strip() for it in items.split(","))
        self.own = {n for n, ps in declared.items() if (n[0].islower() or "·" in n) and not all(p.endswith("/Proof.antt") for p in ps)} - library
        self.new = {n: snake(n) for n in self.own if snake(n) != n}
        self.apart()

    def apart(self):
        """Two names that fall together in a file: the one with a capital, the definition, has the plain name."""
        for path, words in self.words.items():
            if path.endswith(".rt"):
                continue
            met = collections.defaultdict(set)
            for word in words & self.own:
                met[snake(word)].add(word)
            for plain, names in met.items():
                definitions = [n for n in names if re.search(r"[a-z0-9][A-Z]", n)]
                rest = names - set(definitions)
                if len(names) < 2:
                    continue
                if len(definitions) > 1 or len(rest) > 1 and not definitions and len(rest) > 2:
                    print(f"left: {path}: {sorted(names)} fall together")
                if definitions:
                    for n in rest:
                        self.new[n] = plain + "_lem"
                else:
                    for n in (n for n in rest if "-" in n):
                        self.new[n] = plain + "_lem"

    def of(self, word):
        """The new name of a word as it stands now or as it stood before the port."""
        if word in self.new:
            return self.new[word]
        plain = snake(word)
        if plain != word and word[0].islower() and plain in self.own:
            return self.new.get(plain, plain)
        return word


def turned(text, name, is_rust):
    def one(found):
        word = found[0]
        if word.startswith('"'):
            return word
        if word.startswith("--") or word.startswith("//"):
            return re.sub(r"`[^`]*`", lambda span: re.sub(WORD.replace('"', '"`'), lambda w: name(w[0]), span[0]), word)
        before = text[max(0, found.start() - 160) : found.start()]
        line = before[before.rfind("\n") + 1 :]
        if re.search(r"\buse [^\s{;]*\Z", line) and not line.endswith("use "):
            # the last step of a path that ends the line names an item; the others are modules and functions
            return word
        if is_rust and not re.search(r"[a-z0-9][A-Z]|-", word):
            return word
        return name(word)

    return TOKEN.sub(one, text)


def edit_turned(text, names):
    """An edit of src/ has words of Rust, which stay: only what has a dash or an inner capital is a name of ours there."""
    out, is_rust = [], False
    for line in text.split("\n"):
        if line.startswith("file: "):
            is_rust = line.endswith(".rt")
        if line.startswith(("old: ", "new: ")):
            ours = lambda w: w if w.startswith('"') or is_rust and not re.search(r"[a-z0-9][A-Z]|\w-\w", w) else names.of(w)
            line = line[:5] + TOKEN.sub(lambda found: ours(found[0]), line[5:])
        out.append(line)
    return "\n".join(out)


# Rattle makes a module specs/contracts of its own.
MOVED = ("crates/equation/specs/Contracts.antt", "crates/equation/specs/Allows.antt", "equation")


def move(root):
    old, new, crate = MOVED
    if not os.path.exists(os.path.join(root, old)):
        return
    os.rename(os.path.join(root, old), os.path.join(root, new))
    was, now = (os.path.splitext(os.path.basename(it))[0] for it in (old, new))
    for path in files(root):
        text = read(path)
        turned_text = text.replace(f"Rattle.{crate}.specs.{was}", f"Rattle.{crate}.specs.{now}")
        if path == os.path.join(root, f"crates/{crate}/specs/Lib.antt"):
            turned_text = re.sub(rf"(?m)^pub mod {was}$", f"pub mod {now}", turned_text)
        if turned_text != text:
            with open(path, "w", encoding="utf-8", newline="") as f:
                f.write(turned_text)


def main():
    root = subprocess.run(["git", "rev-parse", "--show-toplevel"], capture_output=True, text=True, check=True).stdout.strip()
    move(root)
    names = Names(root)
    changed = 0
    for path in files(root):
        text = read(path)
        kept = set()
        if path.endswith("/Proof.antt"):
            kept = set(n[2] for n in DECLARED.findall(quiet(path, text)))
        is_rust = path.endswith(".rt")

        def name(word):
            if word in kept or word.endswith("_lem") or word not in names.new:
                return word
            if is_rust and not re.search(r"[a-z0-9][A-Z]|-", word):
                return word
            return names.new[word]

        new = turned(text, name, is_rust)
        if re.search(r"(?m)^(?:pub )?use Rattle\.basis\.proofs\.Std\.\{[^}]*\bneeds\b", new):
            new = re.sub(r"(?<![\w.-])needs(?![\w-])", "rules", new)
        new = re.sub(r"([\w-]+) as \1(?=[,}])", r"\1", new) if path.endswith("basis/proofs/Std.antt") else new
        if new != text:
            changed += 1
            with open(path, "w", encoding="utf-8", newline="") as f:
                f.write(new)
    print(f"respell: {len(names.new)} names in {changed} files")
    edits = pages = 0
    for folder, dirs, found in os.walk(root):
        dirs[:] = sorted(d for d in dirs if d not in ("out", ".git", "target", "build"))
        for each in sorted(found):
            path = os.path.join(folder, each)
            if each.endswith(".edit"):
                text = read(path)
                new = edit_turned(text, names)
                edits += new != text
            elif each.endswith(".md"):
                text = read(path)
                new = re.sub(r"`[^`\n]+`", lambda span: re.sub(WORD.replace('"', '"`'), lambda w: names.of(w[0]), span[0]), text)
                pages += new != text
            else:
                continue
            if new != text:
                with open(path, "w", encoding="utf-8", newline="") as f:
                    f.write(new)
    print(f"respell: {edits} edits, {pages} pages")


if __name__ == "__main__":
    sys.exit(main())
