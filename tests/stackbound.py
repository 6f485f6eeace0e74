"""How much stack each exported function takes at most, computed from the machine code of the archives, held to a limit, and that painting
(bench/stack.py) never finds more.

What a function takes itself and what stands at each of its calls is in frames.py; a call adds a return address and the bound of what is
called. Nothing is called through a pointer, and nothing calls itself but the JSON reader, level by level.

  stackbound.py --stored [ARCHIVE ..]    after `make build`: the bounds, and painting over the stored scripts
  stackbound.py --fresh [SEED]           painting over random scripts
"""
import collections
import pathlib
import re
import subprocess
import sys
import tempfile

from cases import ROOT, stored_or_fresh
from frames import WORD, Unclear, Walk, disassembled, tables

sys.path.insert(0, str(ROOT / "bench"))
import stack

LIMIT = 32 * 1024
CC = ROOT / "build" / "tools" / "cc"
SITE, WEEK, CSV = (ROOT / "build" / f"librsmp_{name}.a" for name in ("site", "week", "csv"))

# What the archive is linked with; those of the usual C libraries take less.
OUTSIDE = dict.fromkeys(("memcpy", "memmove", "memset", "memcmp"), 256)
# A value of so many levels is read by one activation more: `levels` falls to 0 from what a packet may have.
# A packet's object is one level more than its values have; it is read outside the recursion, and counted with it.
LEVELS = 1 + int(re.search(r"^const LEVELS_INSIDE: u8 = (\d+);$", (ROOT / "crates" / "json_sure" / "src" / "lib.rt").read_text(), re.MULTILINE)[1])
ACTIVATIONS = dict.fromkeys(("json_value", "json_sure"), LEVELS + 1)


class Bounds:
    def __init__(self, archive):
        functions = disassembled(archive)
        tables(archive, functions)
        self.walks = {one.name: Walk(one) for one in functions}
        if len(self.walks) != len(functions):
            raise Unclear(f"{archive}: two functions of one name")
        self.at = {(one.section, self.walks[one.name].start): one.name for one in functions}
        self.edges = {name: self.deepest_at(walk.calls) for name, walk in self.walks.items()}
        self.bounds = dict(OUTSIDE)
        for group in self.groups():
            self.bind(group)

    def deepest_at(self, calls):
        """What stands at the deepest call of each function."""
        found = collections.Counter()
        for symbol, depth in calls.items():
            found[self.named(symbol)] = max(found[self.named(symbol)], depth)
        return found

    def named(self, symbol):
        name, add = symbol
        name = self.at.get((name, add + 4), name)
        if name not in self.walks and name not in OUTSIDE:
            raise Unclear(f"calls {name}, which is not known")
        return name

    def groups(self):
        """The functions that call each other in a circle together, each group behind those it calls (Tarjan)."""
        index, low, open_, order = {}, {}, [], []

        def visit(name):
            index[name] = low[name] = len(index)
            open_.append(name)
            for called in self.edges[name]:
                if called in OUTSIDE:
                    continue
                if called not in index:
                    visit(called)
                if called in open_:
                    low[name] = min(low[name], low[called])
            if low[name] == index[name]:
                at = open_.index(name)
                order.append(open_[at:])
                del open_[at:]

        for name in self.walks:
            if name not in index:
                visit(name)
        return order

    def bind(self, group):
        circle = len(group) > 1 or group[0] in self.edges[group[0]]
        if not circle:
            self.bounds[group[0]] = self.down(group[0], ())
            return
        crates = {name.split("::")[0] for name in group}
        if len(crates) != 1 or not crates <= set(ACTIVATIONS):
            raise Unclear(f"a circle of calls: {', '.join(group)}")
        head = next((name for name in group if not self.has_circle(set(group) - {name})), None)
        if head is None:
            raise Unclear(f"circles of calls: {', '.join(group)}")
        again, times = self.back(head, head, group), ACTIVATIONS[crates.pop()]
        self.bounds[head] = (times - 1) * again + self.down(head, group, head)
        for name in group:
            if name != head:
                self.bounds[name] = max(self.down(name, group, head), (self.back(name, head, group) or 0) + self.bounds[head])

    def has_circle(self, names):
        left = set(names)
        while left:
            free = {name for name in left if not left & set(self.edges[name])}
            if not free:
                return True
            left -= free
        return False

    def down(self, name, group, head=None):
        """The most from here without another turn through the head of a circle."""
        most = self.walks[name].peak
        for called, depth in self.edges[name].items():
            if called not in group:
                most = max(most, depth + self.bounds[called])
            elif called != head:
                most = max(most, depth + self.down(called, group, head))
        return most

    def back(self, name, head, group):
        """The most from here to the head of a circle, nothing where it is not reached."""
        ways = [depth + (0 if called == head else self.back(called, head, group)) for called, depth in self.edges[name].items()
                if called == head or (called in group and self.back(called, head, group) is not None)]
        return max(ways, default=None)

    def exported(self):
        """Each with its return address."""
        return {name: WORD + self.bounds[name] for name in self.walks if name.startswith("rsmp_") and not re.search(r"\d", name)}

    def often(self, name):
        return f" {ACTIVATIONS[name.split('::')[0]]} times" if name in self.edges[name] else ""

    def deepest(self, name):
        """The way down that is the longest, with what stands at each call."""
        way = [name]
        while True:
            calls = self.edges[way[-1]].items()
            called, depth = max(calls, key=lambda call: call[1] + self.bounds[call[0]], default=(None, 0))
            if called is None or called in OUTSIDE or called in way or depth + self.bounds[called] < self.walks[way[-1]].peak:
                return " > ".join(f"{one} {self.walks[one].peak}{self.often(one)}" for one in way)
            way.append(called)


# That it sees what it is for: functions of C, compiled, with what must be said of them.

HEAD = "void *memset(void *, int, unsigned long);\n"
REFUSED = {
    "is called through a pointer": "int f(int (*g)(int)) { return g(1) + g(2); }",
    "is not known": "int f(unsigned long n) { char a[n]; memset(a, 1, n); return a[n / 2]; }",
    "circle": "int f(int n) { return n < 2 ? n : f(n - 1) * f(n - 2) + n; }",
    "calls g, which": "int g(int); int f(int n) { return g(n) + 1; }",
}
TAKES_1000 = "int rsmp_f(int n) { char a[1000]; memset(a, n, sizeof a); __asm__ volatile(\"\" : : \"r\"(a) : \"memory\"); return a[n & 7]; }"


def bounds_of_c(text):
    with tempfile.TemporaryDirectory() as name:
        source, made = pathlib.Path(name) / "one.c", pathlib.Path(name) / "one.o"
        source.write_text(HEAD + text)
        subprocess.run([CC, "-O2", "-ffunction-sections", "-fno-builtin", "-c", "-o", made, source], check=True)
        return Bounds(made)


def judge_ourselves():
    for wanted, text in REFUSED.items():
        try:
            bounds_of_c(text)
        except Unclear as unclear:
            if wanted in str(unclear):
                continue
            sys.exit(f"stackbound: of {text} it says {unclear}")
        sys.exit(f"stackbound: it takes {text}")
    found = bounds_of_c(TAKES_1000).exported()["rsmp_f"]
    if not 1000 + OUTSIDE["memset"] < found < 1100 + OUTSIDE["memset"]:
        sys.exit(f"stackbound: {found} for a frame of 1000")


READ_BY = {"counts": ("held", "lost"), "readings": ("phase", "version_of", "record")}


def bound_of(bounds, name):
    """Of the functions that a line of a script calls."""
    return max(bounds[f"rsmp_lent_{one}"] for one in READ_BY.get(name, (name,)))


def judge_painted(bounds, painted):
    for name, (calls, most) in painted.items():
        bound = bound_of(bounds, name)
        print(f"stackbound: {name:12} {most:6} bytes painted in {calls} calls, {bound:6} at most")
        if most > bound:
            sys.exit(f"stackbound: {name}: {most} bytes were painted, and the bound is {bound}")


def judged(archive):
    computed = Bounds(archive)
    exported = computed.exported()
    print(f"stackbound: {archive.name}, {len(computed.walks)} functions")
    for name, bound in sorted(exported.items(), key=lambda one: -one[1]):
        print(f"  {bound:6} {name}")
    print(f"  the deepest, each with its own: {computed.deepest(max(exported, key=exported.get))}")
    return exported


def stored(archives=(SITE, WEEK, CSV)):
    judge_ourselves()
    found = {archive: judged(archive) for archive in archives}
    if SITE in found:
        judge_painted(found[SITE], stack.painted(stack.stored_scripts()))
    above = [f"{name} {bound}" for bounds in found.values() for name, bound in bounds.items() if bound > LIMIT]
    if above:
        sys.exit(f"stackbound: above {LIMIT}: {', '.join(above)}")


def fresh(seed):
    print(f"stackbound: seed {seed}")
    judge_painted(Bounds(SITE).exported(), stack.painted(stack.random_scripts(seed)))


if __name__ == "__main__":
    try:
        if sys.argv[1:2] == ["--stored"] and sys.argv[2:]:
            stored([pathlib.Path(word) for word in sys.argv[2:]])
        else:
            sys.exit(stored_or_fresh(stored, fresh, __doc__))
    except Unclear as unclear:
        sys.exit(f"stackbound: {unclear}")
