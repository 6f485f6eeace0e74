"""What each function of an archive takes of the stack itself and what stands at each of its calls, by following its machine code.

Every instruction is followed from the function's entry, on all ways, so that the distance of the stack pointer from where it was at the entry
is known at each. What moves the stack pointer otherwise than is known here raises Unclear.
"""
import collections
import re
import subprocess

from cases import ROOT

OBJDUMP = ROOT / "build" / "tools" / "objdump"
WORD = 8
RED_ZONE = 128  # below the stack pointer a function without a call instruction may use so much
PAGE = 4096

PREFIXES = {"notrack", "bnd", "data16", "cs", "ds", "es", "ss", "rep", "repz", "repnz", "lock"}
TRACKED = {"%rbp": ("%rbp", "%ebp", "%bp", "%bpl"), "%r11": ("%r11", "%r11d", "%r11w", "%r11b")}
ENDS = {"ud2", "hlt", "int3"}


class Unclear(Exception):
    """The stack pointer cannot be followed."""


# What objdump prints.

Instruction = collections.namedtuple("Instruction", "at name operands symbol")
Function = collections.namedtuple("Function", "name section instructions tables")


def split(operands):
    """At the commas outside parentheses."""
    return [part.strip() for part in re.split(r",(?![^(]*\))", operands)] if operands else []


def instruction(at, text):
    words = text.split("#")[0].split(None, 1)
    while len(words) == 2 and words[0] in PREFIXES:
        words = words[1].split(None, 1)
    return Instruction(at, words[0], split(re.sub(r"<.*>", "", words[1]).strip()) if len(words) == 2 else [], None)


def disassembled(archive):
    """Each function with its instructions; a reference to a symbol stands with the instruction that has it."""
    said = subprocess.run([OBJDUMP, "-d", "-r", "--no-show-raw-insn", archive], capture_output=True, text=True, check=True).stdout
    section, found = None, []
    for line in said.splitlines():
        if head := re.fullmatch(r"Disassembly of section (\S+):", line):
            section = head[1]
        elif head := re.fullmatch(r"[0-9a-f]+ <(.*)>:", line):
            found.append(Function(head[1], section, [], {}))
        elif row := re.fullmatch(r"\s+([0-9a-f]+):\t(.*)", line):
            found[-1].instructions.append(instruction(int(row[1], 16), row[2]))
        elif row := re.fullmatch(r"\s+[0-9a-f]+: R_X86_64_\w+\t(\S+?)([-+]0x[0-9a-f]+)?", line):
            last = found[-1].instructions.pop()
            found[-1].instructions.append(last._replace(symbol=(row[1], int(row[2] or "0", 16))))
    return found


def tables(archive, functions):
    """The targets of the jumps through a table: the table's words are distances from where it begins."""
    said = subprocess.run([OBJDUMP, "-r", archive], capture_output=True, text=True, check=True).stdout
    for name, rows in re.findall(r"^RELOCATION RECORDS FOR \[\.rodata\.(\S+)\]:\n.*\n((?:[0-9a-f]+ .*\n)+)", said, re.MULTILINE):
        function = next(one for one in functions if one.section == f".text.{name}")
        begins = sorted({one.symbol[1] + 4 for one in function.instructions if one.symbol and one.symbol[0] == f".rodata.{name}"})
        for row in rows.splitlines():
            at, kind, value = row.split()
            target = re.fullmatch(rf"{re.escape(function.section)}\+0x([0-9a-f]+)", value)
            if kind != "R_X86_64_PC32" or not target:
                raise Unclear(f"{name}: a table has {row}")
            begin = max(one for one in begins if one <= int(at, 16))
            function.tables[int(at, 16)] = int(target[1], 16) - (int(at, 16) - begin)


# One function.

State = collections.namedtuple("State", "depth rbp r11")


def number(text):
    """With its sign, which objdump leaves in the highest of 64 bits."""
    value = int(text.lstrip("$"), 16)
    return value - (1 << 64) if value >> 63 else value


def offset(operand, register):
    """N of `N(REGISTER)`."""
    found = re.fullmatch(rf"(-?0x[0-9a-f]+)?\({register}\)", operand)
    return found and int(found[1] or "0", 16)


class Walk:
    """What a function takes itself, and what stands at each of its calls."""

    def __init__(self, function):
        self.function, self.code = function, {one.at: one for one in function.instructions}
        places = sorted(self.code)
        self.behind = dict(zip(places, places[1:]))
        self.start, self.peak, self.calls = places[0], 0, collections.Counter()
        self.follow()

    def unclear(self, one, why):
        raise Unclear(f"{self.function.name}+{one.at - self.start:#x}: {one.name} {','.join(one.operands)}: {why}")

    def follow(self):
        seen, left = {}, [(self.start, State(0, None, None))]
        while left:
            at, state = left.pop()
            if at not in self.code:
                raise Unclear(f"{self.function.name}: goes on at {at:#x}, where no instruction is")
            if at in seen:
                state = self.met(at, seen[at], state)
                if state == seen[at]:
                    continue
            seen[at] = state
            self.peak = max(self.peak, state.depth)
            left.extend(self.next(self.code[at], state))
        unseen = [one for at, one in self.code.items() if at not in seen and not one.name.startswith("nop") and one.name not in ("xchg", *ENDS)]
        if unseen:
            self.unclear(unseen[0], "is never reached")
        if not any(one.name.startswith("call") for one in self.code.values()):
            self.peak += RED_ZONE

    def met(self, at, one, other):
        if one.depth != other.depth:
            self.unclear(self.code[at], f"the stack pointer is {one.depth} or {other.depth} below")
        return State(one.depth, *(a if a == b else None for a, b in zip(one[1:], other[1:])))

    def called(self, depth, symbol):
        self.calls[symbol] = max(self.calls[symbol], depth)

    def next(self, one, state):
        """Where it goes on, and with what."""
        behind = self.behind.get(one.at)
        if one.name == "ret":
            if state.depth:
                self.unclear(one, f"with {state.depth} bytes left")
            return []
        if one.name in ENDS:
            return []
        if one.name.startswith("call"):
            self.called(state.depth + WORD, self.target(one))
            return [(behind, state._replace(r11=None))]
        if one.name.startswith("j"):
            return self.jump(one, state, behind)
        return [(behind, self.after(one, state))]

    def target(self, one):
        if one.operands[0].startswith("*"):
            self.unclear(one, "is called through a pointer")
        if one.symbol:
            return one.symbol
        if int(one.operands[0], 16) != self.start:
            self.unclear(one, "calls a part of itself")
        return self.function.name, 0

    def jump(self, one, state, behind):
        ends = one.name.startswith("jmp")
        if one.operands[0].startswith("*"):
            if not self.function.tables:
                self.unclear(one, "there is no table")
            return [(target, state) for target in self.function.tables.values()]
        if one.symbol:  # as the last act, another function
            self.called(state.depth, one.symbol)
            return [] if ends else [(behind, state)]
        target = int(one.operands[0], 16)
        step = self.probes(target, one)
        if step:
            # The loop has run once: what is left is a whole number of its steps.
            if state.r11 is None or state.r11 < state.depth or (state.r11 - state.depth) % step:
                self.unclear(one, "the pages that are touched")
            self.peak = max(self.peak, state.r11)
            return [(behind, state._replace(depth=state.r11))]
        return [(target, state)] + ([] if ends else [(behind, state)])

    def probes(self, target, one):
        """The step of the loop that touches a large frame down to %r11, a page at most, where this jump ends it; else 0."""
        loop = [self.code.get(target)]
        while loop[-1] and loop[-1].at < one.at:
            loop.append(self.code.get(self.behind[loop[-1].at]))
        said = [(each.name, *each.operands) for each in loop[:-1] if each]
        if len(said) != 3 or said[1:] != [("movq", "$0x0", "(%rsp)"), ("cmp", "%r11", "%rsp")] or one.name != "jne":
            return 0
        name, step, register = (*said[0], "", "")[:3]
        return number(step) if name == "sub" and register == "%rsp" and step.startswith("$") and 0 < number(step) <= PAGE else 0

    def after(self, one, state):
        last = one.operands[-1] if one.operands else ""
        if one.name in ("push", "pushq"):
            return state._replace(depth=state.depth + WORD)
        if one.name in ("pop", "popq") and last != "%rsp":
            state = state._replace(depth=state.depth - WORD)
        elif one.name == "leave" and state.rbp is not None:
            return state._replace(depth=state.rbp - WORD, rbp=None)
        elif one.name != "popcnt" and one.name.startswith(("push", "pop", "enter", "leave", "iret", "sys")):
            self.unclear(one, "is not known")
        elif last in ("%rsp", "%esp", "%sp", "%spl") and one.name not in ("cmp", "test"):
            return state._replace(depth=self.moved(one, state))
        elif any(operand in ("%rsp", "%esp", "%sp") for operand in one.operands) and one.name not in ("mov", "add", "cmp", "test"):
            self.unclear(one, "is not known")
        return self.tracked(one, state)

    def moved(self, one, state):
        """The depth after an instruction that writes the stack pointer."""
        first = one.operands[0]
        if one.name == "sub" and first.startswith("$"):
            return state.depth + number(first)
        if one.name == "add" and first.startswith("$"):
            return state.depth - number(first)
        if one.name == "and" and first.startswith("$") and number(first) < 0:
            return state.depth - number(first) - WORD
        if one.name == "mov" and first == "%rbp" and state.rbp is not None:
            return state.rbp
        for register, base in (("%rsp", state.depth), ("%rbp", state.rbp)):
            if one.name == "lea" and base is not None and offset(first, register) is not None:
                return base - offset(first, register)
        self.unclear(one, "is not known")

    def tracked(self, one, state):
        """Which depths %rbp and %r11 hold."""
        for register, parts in TRACKED.items():
            if not set(parts) & set(one.operands) or one.name in ("cmp", "test") or (one.operands[-1] not in parts and one.name != "xchg"):
                continue
            first, held = one.operands[0], getattr(state, register[1:])
            now = None
            if one.name == "mov" and first == "%rsp":
                now = state.depth
            elif one.name == "lea" and offset(first, "%rsp") is not None:
                now = state.depth - offset(first, "%rsp")
            elif one.name == "sub" and first.startswith("$") and held is not None and one.operands[-1] == register:
                now = held + number(first)
            state = state._replace(**{register[1:]: now})
        return state
