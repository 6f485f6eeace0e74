"""Translates the machine's definitions to Python functions. A list is a tuple, a record a dict, a constructor a tuple that begins with
its name; a function that is passed on takes one argument at a time."""
import inspect
import re

from . import given
from .grammar import claims, clause, declarations, places

USE = re.compile(r"use (\S+)\.\{(.*)\}", re.S)
OWN = re.compile(r"Rattle\.(\w+)\.specs\.(\w+)")
DEFINED = re.compile(r"use |pub |infix|abbrev|unfoldable")
SIGNED = re.compile(r"(?:abbrev|unfoldable)(?: pub)? (\S+) : (.*)", re.S)


class Module:
    """A file of specs/: constructors, the types of what is defined, the defining lines, what is used from where, and the claims."""

    def __init__(self, crate, text):
        self.crate, self.constructors, self.types, self.clauses, self.uses, self.claims = crate, {}, {}, {}, {}, []
        for part in declarations(text):
            if part.startswith("pub data") and "→ Type" not in part:
                for line in part.split("\n")[1:]:
                    names, type_ = line.split(" : ", 1)
                    self.constructors.update(dict.fromkeys(names.split(), places(type_)))
            elif part.startswith("use "):
                path, names = USE.match(part).groups()
                own = OWN.match(path)
                leaves = (leaf.rpartition(".")[2] for leaf in re.findall(r"[^,\s]+", names))
                self.uses.update(dict.fromkeys(leaves, own and own.groups()))
            elif part.startswith("pub record"):
                self.claims += claims(part)
            elif SIGNED.match(part):
                name, type_ = SIGNED.match(part).groups()
                self.types[name] = " ".join(type_.split())
            elif not DEFINED.match(part):
                name, patterns, body = clause(part)
                self.clauses.setdefault(name, []).append((patterns, body))


def module_at(path):
    return Module(path.parent.parent.name, path.read_text())


def files_of(specs):
    return [path for path in specs.glob("*.antt") if path.stem != "Lib"]


class Translation:
    """The functions by module and name, translation["Step", "step"]; each is translated when it is first asked for. `seen` are the
    definitions that were used since it was cleared."""

    def __init__(self, files):
        self.modules = {path.stem: module_at(path) for path in files}
        self.seen, self.constants, self.wanted = set(), {}, []
        self.space = {"given": given, "When": When, "seen": self.seen, "constant": self.constant}

    def constant(self, function):
        """Computed once, with what it uses."""

        def value():
            if function not in self.constants:
                before = set(self.seen)
                self.seen.clear()
                self.constants[function] = function(), frozenset(self.seen)
                self.seen.update(before)
            self.seen.update(self.constants[function][1])
            return self.constants[function][0]

        return value

    def __getitem__(self, place):
        self.wanted.append(place)
        while self.wanted:
            module, name = self.wanted.pop()
            if spelled(module, name) not in self.space:
                exec(self.definition(module, name), self.space)
        return self.space[spelled(*place)]

    def value(self, module, expression):
        """What an expression of a module comes to."""
        text = self.python(module, expression, set())
        for place in list(self.wanted):
            self[place]
        return eval(text, self.space)

    def change(self, modules):
        """Puts other modules in place of theirs. Gives the definitions that differ, by module and name."""
        self.before = {name: self.modules[name] for name in modules}
        self.modules.update(modules)
        self.changed = {(module, name) for module in modules for name in {**modules[module].clauses, **self.before[module].clauses}
                        if modules[module].clauses.get(name) != self.before[module].clauses.get(name)}
        self.forget()
        return self.changed

    def restore(self):
        self.wanted.clear()
        self.modules.update(self.before)
        self.forget()

    def forget(self):
        for place in self.changed:
            self.space.pop(spelled(*place), None)
        self.constants.clear()
        for module, name in self.changed:
            if name in self.modules[module].clauses:
                self[module, name]

    def definition(self, module, name):
        clauses = self.modules[module].clauses[name]
        arguments = [f"a{i}" for i in range(len(clauses[0][0]))]
        lines = [] if arguments else ["@constant"]
        lines += [f"def {spelled(module, name)}({', '.join(arguments)}):", f"    seen.add({(module, name)})"]
        for patterns, body in clauses:
            tests, binds = [], {}
            for argument, pattern in zip(arguments, patterns):
                self.match(module, pattern, argument, tests, binds)
            lines.append(f"    if {' and '.join(tests) or 'True'}:")
            lines += [f"        {local(name)} = {value}" for name, value in binds.items()]
            lines.append(f"        return {self.python(module, body, set(binds))}")
        return "\n".join(lines)

    def match(self, module, pattern, value, tests, binds):
        kind = pattern[0]
        if kind == "operator":
            tests.append(f"len({value}) > 0")
            self.match(module, pattern[2], value + "[0]", tests, binds)
            self.match(module, pattern[3], value + "[1:]", tests, binds)
            return
        name, parts = (pattern[1][1], pattern[2]) if kind == "apply" else (pattern[1], [])
        if name == "suc":
            tests.append(f"{value} > 0")
            self.match(module, parts[0], f"({value} - 1)", tests, binds)
        elif name in given.LITERALS:
            tests.append(f"{value} == {given.LITERALS[name]!r}")
        elif self.constructor(module, name) is None:
            binds[name] = value
        else:
            tests.append(f"{value}[0] == {name!r}")
            for place, part in enumerate(parts):
                self.match(module, part, f"{value}[{place + 1}]", tests, binds)

    def constructor(self, module, name):
        """How many arguments the constructor of this name takes, if it is one here."""
        here = self.modules[module]
        if name in here.constructors:
            return here.constructors[name]
        if name in here.uses:
            origin = self.origin(here, name)
            return self.modules[origin].constructors.get(name) if origin else given.CONSTRUCTORS.get(name)
        return None

    def origin(self, here, name):
        """The module that a used name comes from, if it is one of these."""
        crate, module = here.uses.get(name) or (None, None)
        return module if module in self.modules and self.modules[module].crate == crate else None

    def python(self, module, expression, bound):
        kind = expression[0]

        def inside(part, *more):
            return self.python(module, part, bound | set(more))

        if kind == "literal":
            return repr(expression[1])
        if kind == "name":
            return self.applied(module, expression[1], [], bound)
        if kind == "if":
            return f"({inside(expression[2])} if {inside(expression[1])} else {inside(expression[3])})"
        if kind == "let":
            return f"(lambda {local(expression[1])}: {inside(expression[3], expression[1])})({inside(expression[2])})"
        if kind == "function":
            return "(" + "".join(f"lambda {local(name)}: " for name in expression[1]) + inside(expression[2], *expression[1]) + ")"
        if kind == "field":
            place = expression[2] if expression[2].isdigit() else repr(expression[2])
            return f"{inside(expression[1])}[{place}]"
        if kind == "pair":
            return f"({', '.join(map(inside, expression[1]))})"
        if kind == "record":
            return "{" + ", ".join(f"{name!r}: {inside(value)}" for name, value in expression[1]) + "}"
        if kind == "elim":
            return self.chosen(module, inside(expression[1]), expression[2], bound)
        if kind == "operator":
            return self.operated(module, expression[1], inside(expression[2]), inside(expression[3]))
        function, arguments = expression[1], [inside(part) for part in expression[2]]
        if function == ("name", "pick"):
            return f"({arguments[1]} if {arguments[0]} else {arguments[2]})"
        if function[0] == "name":
            return self.applied(module, function[1], arguments, bound)
        return inside(function) + "".join(f"({argument})" for argument in arguments)

    def chosen(self, module, value, cases, bound):
        text = "None"
        for pattern, body in reversed(cases):
            tests, binds = [], {}
            self.match(module, pattern, "chosen", tests, binds)
            names = "".join(f"lambda {local(name)}: " for name in binds)
            result = f"({names}{self.python(module, body, bound | set(binds))})" + "".join(f"({part})" for part in binds.values())
            text = f"{result} if {' and '.join(tests) or 'True'} else {text}"
        return f"(lambda chosen: {text})({value})"

    def operated(self, module, operator, left, right):
        if operator in ("and", "or", "+", "*", "/", "%"):
            return f"({left} {operator.replace('/', '//')} {right})"
        if operator == "when":
            return f"When({left}, lambda: {right})"
        forms = {"∷": f"(({left},) + {right})", "++": f"({left} + {right})", "-": f"max(0, {left} - {right})"}
        return forms.get(operator) or self.applied(module, f"◌{operator}◌", [left, right], set())

    def applied(self, module, name, arguments, bound):
        if name in bound:
            return local(name) + "".join(f"({argument})" for argument in arguments)
        if name in given.LITERALS:
            return repr(given.LITERALS[name])
        here = self.modules[module]
        origin = module if name in here.clauses else self.origin(here, name)
        if self.constructor(module, name) is not None:
            function, count = f"given.made({name!r})", self.constructor(module, name)
        elif origin:
            self.wanted.append((origin, name))
            function, count = spelled(origin, name), len(self.modules[origin].clauses[name][0][0])
        else:
            function, count = f"given.{given.spelled(name)}", len(inspect.signature(getattr(given, given.spelled(name))).parameters)
        lacking = [f"q{i}" for i in range(count - len(arguments))]
        call = f"{function}({', '.join(arguments[:count] + lacking)})" + "".join(f"({argument})" for argument in arguments[count:])
        return "(" + "".join(f"lambda {name}: " for name in lacking) + call + ")" if lacking else call


class When:
    """A case whose condition is looked at only if it is asked for."""

    def __init__(self, gives, applies):
        self.gives, self.applies = gives, applies

    def __getitem__(self, field):
        return self.gives if field == "gives" else self.applies()


def spelled(module, name):
    return f"{module}_{name.replace('◌', '_')}"


def local(name):
    return f"v_{name}"
