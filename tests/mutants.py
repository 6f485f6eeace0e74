"""Small changes of the machine's rules that every computed claim keeps: where a rule still lacks a case. On demand, not in the gate.

  mutants.py [MODULE ..]     each definition of these modules (RULES where none is named): literals, truth values, connectives, branches,
                             entries of lists, constructors, fields, variables and functions exchanged for others of their kind, numbers
                             for 0, 1 and 2, one at a time, until a claim breaks. Prints those that break none
"""
import copy
import multiprocessing
import re
import signal
import sys

import claims
from machines import deeply

BUILT_IN = {("Words", "if'◌then◌else◌"), ("Words", "◌and◌"), ("Words", "◌or◌")}
RULES = ["Words", "State", "Json", "Table", "Life", "Answers", "Items", "Messages", "Pool", "Effects", "Step", "Readings"]
FAMILIES = [("Issue", "Acknowledge", "Suspend"), ("Recent", "Old"), ("Unknown", "Undefined"), ("Response", "Update", "Command"),
            ("own_version", "own_watchdog", "no_record"), ("the_version", "the_watchdog", "the_aggregated"), ("true", "false"), ("leb", "ltb"),
            ("pos", "negsuc")]
FIELDS = [("active", "acknowledged", "suspended"), ("sent", "acknowledged", "taken"), ("versions", "watchdogs"),
          ("link", "status", "interval", "since"), ("beat", "pass"), ("lowest", "highest"), ("site", "sxl"), ("code", "name"),
          ("alarms", "statuses", "commands"), ("aggregated", "aggregated_time", "last"), ("component", "priority", "category"),
          ("link", "sequence"), ("period", "links", "first", "time")]
NUMBERS = (0, 1, 2)
SECONDS = 60


def arguments(type_):
    """The types of a definition's explicit arguments."""
    depth, parts = 0, [""]
    for token in re.findall(r"[(){}]|→|[^(){}→]+", type_):
        depth += (token in "({") - (token in ")}")
        if token == "→" and depth == 0:
            parts.append("")
        else:
            parts[-1] += token
    return [part.strip() for part in parts if not part.strip().startswith("{")]


class Kinds:
    """What may stand for what: definitions by type, and the variables of a clause by type."""

    def __init__(self, modules):
        self.same = {}
        for module, found in modules.items():
            for name, type_ in found.types.items():
                self.same.setdefault(type_, []).append(name)
        self.modules = modules

    def siblings(self, module, name):
        here = self.modules[module]
        origin = module if name in here.clauses else (here.uses.get(name) or (None, None))[1]
        type_ = self.modules[origin].types.get(name) if origin in self.modules else None
        visible = set(here.clauses) | set(here.uses)
        return [other for other in self.same.get(type_, []) if other != name and other in visible]


def variables(module, name, patterns):
    types = arguments(module.types.get(name, ""))
    return {pattern[1]: type_ for pattern, type_ in zip(patterns, types) if pattern[0] == "name"}


def replaced(kinds, module, bound, expression):
    """What an expression itself may be exchanged for."""
    kind = expression[0]
    if kind == "literal" and isinstance(expression[1], int):
        yield "literal", expression[1] + 1
        if expression[1]:
            yield "literal", expression[1] - 1
    elif kind == "literal":
        yield "literal", expression[1] + "x"
    elif kind == "name":
        name = expression[1]
        for family in FAMILIES:
            if name in family:
                yield from (("name", other) for other in family if other != name)
        if name in bound:
            yield from (("name", other) for other in bound if other != name and bound[other] == bound[name])
            yield from (("literal", number) for number in NUMBERS if bound[name] == "ℕ")
        else:
            yield from (("name", other) for other in kinds.siblings(module, name))
    elif kind == "if":
        yield expression[2]
        yield expression[3]
        yield "if", expression[1], expression[3], expression[2]
    elif kind == "operator":
        operator, left, right = expression[1:]
        if operator in ("and", "or"):
            yield "operator", {"and": "or", "or": "and"}[operator], left, right
        if operator in ("and", "or", "+", "-", "*", "++"):
            yield left
            yield right
        if operator == "++":
            yield "operator", operator, right, left
        if operator == "∷":
            yield right
            if right[:2] == ("operator", "∷"):
                yield "operator", operator, right[2], ("operator", operator, left, right[3])
        if operator == "when":
            yield "operator", operator, left, ("name", "false")
    elif kind == "field":
        for family in FIELDS:
            if expression[2] in family:
                yield from (("field", expression[1], other) for other in family if other != expression[2])
    elif kind == "apply":
        function, parts = expression[1:]
        if function == ("name", "not"):
            yield parts[0]
        if function in (("name", "leb"), ("name", "ltb"), ("name", "at_most")):
            yield "apply", function, parts[::-1]
        if function == ("name", "some"):
            yield ("name", "none")
        if function[0] == "name" and function[1] in ("pick",):
            yield parts[1]
            yield parts[2]
        if function == ("name", "map"):
            yield ("name", "[]")


def inside(expression):
    """The parts of an expression, each with how to put another in its place."""
    if isinstance(expression, (tuple, list)):
        for place, part in enumerate(expression):
            def put(other, place=place):
                whole = list(expression)
                whole[place] = other
                return type(expression)(whole)
            yield part, put


def mutants(kinds, module, bound, expression):
    if isinstance(expression, tuple) and expression and isinstance(expression[0], str):
        yield from replaced(kinds, module, bound, expression)
    if expression[:1] == ("literal",) or expression[:1] == ("name",):
        return
    for part, put in inside(expression):
        if isinstance(part, (tuple, list)):
            for other in mutants(kinds, module, bound, part):
                yield put(other)


def shown(expression):
    """An expression as text, roughly as it stands."""
    kind = expression[0]
    if kind in ("literal", "name"):
        return repr(expression[1]) if kind == "literal" else expression[1]
    if kind == "if":
        return "if {} then {} else {}".format(*map(shown, expression[1:]))
    if kind == "let":
        return f"let {expression[1]} = {shown(expression[2])} in {shown(expression[3])}"
    if kind == "function":
        return f"(λ {' '.join(expression[1])}. {shown(expression[2])})"
    if kind == "field":
        return f"{shown(expression[1])}.{expression[2]}"
    if kind == "pair":
        return f"({', '.join(map(shown, expression[1]))})"
    if kind == "record":
        return "record { " + "; ".join(f"{name} = {shown(value)}" for name, value in expression[1]) + " }"
    if kind == "operator":
        return f"({shown(expression[2])} {expression[1]} {shown(expression[3])})"
    return f"({shown(expression[1])} {' '.join(map(shown, expression[2]))})"


def difference(before, after):
    """The texts without what they begin and end with alike."""
    a, b = shown(before).split(" "), shown(after).split(" ")
    first = next((i for i, (x, y) in enumerate(zip(a, b)) if x != y), min(len(a), len(b)))
    last = next((i for i, (x, y) in enumerate(zip(a[first:][::-1], b[first:][::-1])) if x != y), min(len(a), len(b)) - first)
    return f"{' '.join(a[first - 3 if first > 3 else 0:len(a) - last])}  =>  {' '.join(b[first:len(b) - last])}"


def survives(mutant):
    """Whether every claim keeps the mutant; a word where it cannot be evaluated."""
    module, name, place, body = mutant
    changed = copy.copy(ALL.translation.modules[module])
    changed.clauses = {**changed.clauses, name: list(changed.clauses[name])}
    changed.clauses[name][place] = changed.clauses[name][place][0], body
    signal.alarm(SECONDS)
    try:
        return not ALL.broken_with({module: changed}, first=True)
    except Exception as error:
        return type(error).__name__
    finally:
        signal.alarm(0)


def late(*_):
    raise TimeoutError


def listed(modules):
    kinds = Kinds(ALL.translation.modules)
    for module in modules:
        found = ALL.translation.modules[module]
        for name, lines in found.clauses.items():
            for place, (patterns, body) in enumerate(lines if (module, name) not in BUILT_IN else []):
                bound = variables(found, name, patterns)
                seen = [body]
                for other in mutants(kinds, module, bound, body):
                    if other not in seen:
                        seen.append(other)
                        yield module, name, place, other


def begin():
    signal.signal(signal.SIGALRM, late)
    sys.setrecursionlimit(20000)


def main(words):
    global ALL
    ALL = claims.Claims()
    if ALL.broken():
        sys.exit("a claim does not hold")
    every = list(listed(words or RULES))
    survivors = errors = 0
    with multiprocessing.get_context("fork").Pool(2, begin) as pool:
        for mutant, kept in zip(every, pool.imap(survives, every, chunksize=4)):
            module, name, place, body = mutant
            errors += isinstance(kept, str)
            if kept is True or kept == "TimeoutError":
                survivors += 1
                before = ALL.translation.modules[module].clauses[name][place][1]
                print(f"{module}.{name}: {difference(before, body)}{'' if kept is True else '  (too long)'}", flush=True)
    print(f"mutants: {len(every)}, of which {survivors} keep every claim and {errors} cannot be evaluated")


if __name__ == "__main__":
    sys.exit(deeply(main, sys.argv[1:]))
