#!/usr/bin/env python3
"""Counts what docs/DESIGN-PASS.md counts: places of an older form in crates/*/src, point by point; with a point's number, each place by file and line.

1 own enums of the shape of Option or Result (one variant with a value and others without, or two of which one says that there is nothing), structs of a flag
  or a verdict with values beside, and functions that answer a number past the end for nothing or no room
2 functions of six lines or more that become the same when names and numbers are replaced in the order in which they come
3 loops that are no `for`
4 functions that only compare, convert or copy by hand
5 facts of a `requires`, names replaced, that stand in three or more contracts; largest groups of three or more parameters of the same names and types that five or more
  functions take together
6 arrays with a count or a length beside them in a struct, and two or more arrays side by side
7 matches each of whose arms only calls a function
8 lines of the answers of proofs, and files
"""
import collections
import glob
import re
import sys

SOURCES = sorted(glob.glob("crates/*/src/*.rt"))
ITEM = re.compile(r"^( *)(?:pub )?(?:extern \"C\" )?fn (\w+)[^\n]*", re.M)
WORD = re.compile(r"[A-Za-z_]\w*|\d[\w]*|\S")
KEPT = {"fn", "let", "mut", "if", "else", "match", "while", "for", "in", "return", "true", "false", "as", "loop", "break", "continue", "usize", "bool", "requires", "ensures"}


def text_of(path):
    with open(path, encoding="utf-8") as f:
        return f.read()


def bare(text):
    return re.sub(r"//[^\n]*", "", text)


def line_of(text, at):
    return text.count("\n", 0, at) + 1


def block(text, at):
    """The text from the brace at or behind a place to its partner."""
    start = text.index("{", at)
    depth = 0
    for i in range(start, len(text)):
        if text[i] == "{":
            depth += 1
        elif text[i] == "}":
            depth -= 1
            if depth == 0:
                return start, i + 1
    return start, len(text)


def functions():
    """Each function: path, line, name, head (signature and clauses), body."""
    for path in SOURCES:
        text = bare(text_of(path))
        for m in ITEM.finditer(text):
            indent = m[1]
            head_end = re.compile(r"^%s\{|\{ *$|\) (?:-> [^\n{]+ )?\{[^\n]*$" % indent, re.M).search(text, m.start())
            body = re.compile(r"^%s\{" % indent, re.M).search(text, m.start())
            end = re.compile(r"^%s\}" % indent, re.M).search(text, m.start())
            if not end:
                continue
            if body and body.start() < end.start():
                yield path, line_of(text, m.start()), m[2], text[m.start():body.start()], text[body.start():end.end()]
            elif head_end:
                yield path, line_of(text, m.start()), m[2], text[m.start():head_end.start()], text[head_end.start():end.end()]


def types():
    for path in SOURCES:
        text = bare(text_of(path))
        for m in re.finditer(r"^(?:pub )?(enum|struct) (\w+)[^\n{;]*\{", text, re.M):
            start, end = block(text, m.start())
            yield path, line_of(text, m.start()), m[1], m[2], text[start + 1:end - 1]


def point1():
    for path, line, kind, name, body in types():
        if kind == "enum":
            variants = re.findall(r"^\s*(\w+)(\([^\n]*\))?(?:\s*=[^,]*)?,", body, re.M)
            holding = [v for v in variants if v[1]]
            if holding and len(variants) - len(holding) >= 1 and (len(variants) == 2 or len(holding) == 1) or len(holding) == 2 == len(variants):
                yield path, line, f"enum {name}"
        elif re.search(r"^\s*(?:pub )?(?:found|good|ok|packet|there|spent|changed|happened|verdict|sure)\s*:", body, re.M) and body.count(":") > 1:
            yield path, line, f"struct {name}"
    for path in SOURCES:
        numbered = re.findall(r"^(?:pub )?const (\w+): (?:u16|u32|usize) = (?:\d|types::END)", bare(text_of(path)), re.M)
        if len(numbered) >= 3:
            yield path, 1, f"{len(numbered)} numbers for kinds"
    for path, line, name, head, body in functions():
        if re.search(r"\.len\(\) \+ 1$", body, re.M) or re.search(r"return \w+\.len\(\) \+ 1;|^\s*(?:16|128|FAR|NO_MARK)\s*$|return (?:16|128|NO_MARK);|next: FAR", body, re.M):
            yield path, line, f"fn {name}"


def normal(text):
    names = {}
    out = []
    for word in WORD.findall(text):
        if re.match(r"\d", word):
            word = "0"
        elif re.match(r"[A-Za-z_]", word) and word not in KEPT:
            word = names.setdefault(word, f"n{len(names)}")
        out.append(word)
    return " ".join(out)


def point2():
    groups = collections.defaultdict(list)
    for path, line, name, head, body in functions():
        if body.count("\n") >= 6:
            parameters = head.split("requires")[0].split("ensures")[0]
            groups[normal(parameters[parameters.index("("):] + body)].append((path, line, f"fn {name}"))
    for group in groups.values():
        if len(group) > 1:
            yield from group


def point3():
    for path in SOURCES:
        text = bare(text_of(path))
        for m in re.finditer(r"^\s*(?:'\w+: )?(while|loop)\b([^\n]*)", text, re.M):
            yield path, line_of(text, m.start(1)), (m[1] + m[2]).strip()


def point4():
    for path, line, name, head, body in functions():
        inner = body.strip()[1:-1].strip()
        if re.fullmatch(r"\w+ as \w+", inner) or re.fullmatch(r"if (\w+) \{ (\w+) \} else \{ (false|0) \}|if \w+ \{ true \} else \{ \w+ \}|if \w+ \{ 1 \} else \{ 0 \}", inner):
            yield path, line, f"fn {name}"
        elif re.fullmatch(r"match \w+ \{(?:\s*[\w:|() ]+ => (?:true|false|\d+|[A-Z]\w*::\w+|[A-Z_0-9]+),)+\s*\}", inner):
            yield path, line, f"fn {name}"
        elif re.fullmatch(r"(?:let \w+ = \w+\.\w+;\s*)*check::same\([^;]*\)", inner):
            yield path, line, f"fn {name}"
        elif re.fullmatch(r"(?:if [^{}]+\{\s*return (?:true|false);\s*\}\s*)+(?:true|false|[^;{}]+)", inner):
            yield path, line, f"fn {name}"


def point5():
    seen = collections.defaultdict(list)
    groups = collections.defaultdict(list)
    for path, line, name, head, body in functions():
        for clause in re.findall(r"^\s*requires(?: \w+)? \{ (.*) \}\s*$", head, re.M):
            for fact in {f.strip(" ()") for f in clause.split("×")}:
                seen[re.sub(r"\b(?!length\b|Indexed\b|Lent\b)([a-z]\w*)((?:\.\w+)*)\.(now|old)\b", "x", re.sub(r"\b(q\.)?[a-z]\b(?!\.)", "v", fact))].append((path, line, name))
        parameters = re.findall(r"(\w+): ([^,()]+)", head.split("requires")[0].split("ensures")[0].split("->")[0])
        groups[path, line, name] = frozenset((n, t.strip()) for n, t in parameters)
    for fact, places in sorted(seen.items(), key=lambda x: -len(x[1])):
        if len(places) >= 3:
            yield places[0][0], places[0][1], f"{len(places)} times: {fact}"
    sets = set(groups.values())
    common = {a & b for a in sets for b in sets if len(a & b) >= 3} | {a for a in sets if len(a) >= 3}
    often = {c for c in common if sum(c <= g for g in groups.values()) >= 5}
    for c in sorted((c for c in often if not any(c < d for d in often)), key=sorted):
        places = [k for k, g in groups.items() if c <= g]
        yield places[0][0], places[0][1], f"{len(places)} times: " + ", ".join(f"{n}: {t}" for n, t in sorted(c))


def point6():
    for path, line, kind, name, body in types():
        arrays = re.findall(r"(\w+): \[", body)
        if kind == "struct" and arrays and (len(arrays) > 1 or re.search(r"\b(count|length|size|from|\w+count)\s*:", body)):
            yield path, line, f"struct {name}"


def point7():
    for path, line, name, head, body in functions():
        for m in re.finditer(r"match [^{]+\{", body):
            start, end = block(body, m.start())
            arms = re.findall(r"=> ([^\n]*)", body[start:end])
            if len(arms) > 2 and all(re.match(r"[a-z_:\w.]+\(", a) for a in arms):
                yield path, line, f"fn {name}"


def point8():
    for path in sorted(glob.glob("crates/*/proofs/**/Answers.antt", recursive=True)):
        yield path, 1, f"{text_of(path).count(chr(10))} lines"


POINTS = [point1, point2, point3, point4, point5, point6, point7, point8]


def main():
    wanted = sys.argv[1:]
    for k, point in enumerate(POINTS, 1):
        places = list(point())
        if str(k) in wanted:
            for path, line, what in places:
                print(f"{path}:{line}: {what}")
        more = f", {sum(int(w.split()[0]) for _, _, w in places)} lines" if k == 8 else ""
        print(f"point {k}: {len(places)} places{more}")


main()
