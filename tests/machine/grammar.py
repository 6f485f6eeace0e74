"""Reads the part of antt that the machine is written in: declarations, patterns and expressions as tuples."""
import re

NAME = r'[^\s(){}.;,"]+'
TOKEN = re.compile(rf'"(?:[^"\\]|\\.)*"|\.{NAME}|[(){{}};,.]|{NAME}')
QUOTED_OR_COMMENT = re.compile(r'"(?:[^"\\]|\\.)*"|(?:^|(?<=\s))--(?=\s|$).*')
INFIX = {"∷": (67, "r"), "++": (65, "l"), "+": (65, "l"), "-": (65, "l"), "*": (70, "l"), "/": (70, "l"), "%": (70, "l"),
         "and": (30, "r"), "or": (20, "r"), "when": (70, "r"), "is": (75, "n"), "≡": (4, "n")}
ENDS = {")", "}", ";", ",", "then", "else", "in", "=", "↦", "|", "]", None}
FIELD = re.compile(r"\n  pub (\S+) : ")


def without_comment(line):
    return QUOTED_OR_COMMENT.sub(lambda found: found[0] if found[0][0] == '"' else "", line).rstrip()


def declarations(text):
    """The texts that begin at a line's start, each with the lines that belong to it."""
    parts = []
    for line in filter(None, map(without_comment, text.split("\n"))):
        if parts and (line[0].isspace() or line[0] in "})"):
            parts[-1] += "\n" + line
        else:
            parts.append(line)
    return parts


class Reader:
    """Reads one expression from a text."""

    def __init__(self, text):
        self.tokens, self.at = TOKEN.findall(" " + text), 0

    def peek(self):
        return self.tokens[self.at] if self.at < len(self.tokens) else None

    def next(self):
        self.at += 1
        return self.tokens[self.at - 1]

    def want(self, token):
        if self.next() != token:
            raise SyntaxError(f"{token} wanted: {' '.join(self.tokens)}")

    def whole(self):
        expression = self.expression()
        if self.peek() is not None:
            raise SyntaxError(" ".join(self.tokens[self.at:]))
        return expression

    def expression(self, level=0):
        left = self.prefix()
        while self.peek() in INFIX and INFIX[self.peek()][0] >= level:
            operator = self.next()
            strength, side = INFIX[operator]
            left = "operator", operator, left, self.expression(strength if side == "r" else strength + 1)
        return left

    def prefix(self):
        token = self.peek()
        if token == "if'":
            self.next()
            test = self.expression()
            self.want("then")
            first = self.expression()
            self.want("else")
            return "if", test, first, self.expression()
        if token == "let":
            self.next()
            name = self.next()
            self.want("=")
            value = self.expression()
            self.want("in")
            return "let", name, value, self.expression()
        if token == "λ":
            self.next()
            names = []
            while self.peek() != ".":
                names.append(self.next())
            self.next()
            return "function", names, self.expression()
        if token == "elim":
            self.next()
            value, cases = self.field(), []
            while self.next() in "[|":
                pattern = self.expression()
                self.want("↦")
                cases.append((pattern, self.expression()))
            return "elim", value, cases
        return self.application()

    def implicit(self):
        """An argument in braces says nothing of what is computed."""
        while self.next() != "}":
            pass

    def application(self):
        function, arguments = self.field(), []
        while self.peek() not in ENDS and self.peek() not in INFIX:
            token = self.peek()
            if token == "{":
                self.implicit()
            else:
                arguments.append(self.prefix() if token == "λ" else self.field())
        return ("apply", function, arguments) if arguments else function

    def field(self):
        """What stands alone, and the field of it that a point without spaces asks for."""
        of = self.atom()
        while self.peek() is not None and self.peek()[0] == "." and len(self.peek()) > 1:
            of = "field", of, self.next()[1:]
        return of

    def atom(self):
        token = self.next()
        if token == "(":
            inside = [self.expression()]
            while self.peek() == ",":
                self.next()
                inside.append(self.expression())
            self.want(")")
            return ("pair", inside) if len(inside) > 1 else inside[0]
        if token == "record":
            self.want("{")
            fields = []
            while self.peek() != "}":
                name = self.next()
                self.want("=")
                fields.append((name, self.expression()))
                if self.peek() == ";":
                    self.next()
            self.next()
            return "record", fields
        if token[0] == '"':
            return "literal", eval(token)
        return ("literal", int(token, 0)) if token[0].isdigit() else ("name", token)


def clause(text):
    """A defining line: the name, the patterns and the expression."""
    tokens = Reader(text)
    head = tokens.expression()
    tokens.want("=")
    name, patterns = (head[1], []) if head[0] == "name" else (head[1][1], head[2])
    return name, patterns, tokens.whole()


def claims(text):
    """The fields of a record without parameters that are equations, by name: the two sides. `EachComputes` of a name is as many as its
    rows."""
    head, *fields = FIELD.split(text)
    for name, type_ in zip(fields[::2], fields[1::2]) if "(" not in head else ():
        if type_.startswith("EachComputes "):
            yield name, ("name", type_.split()[1]), None
        elif "≡" in type_ and "→" not in type_:
            _, _, left, right = Reader(type_).whole()
            yield name, left, right


def places(type_):
    """How many explicit arguments a constructor of this type takes."""
    count = 0
    for part in re.split(r"→(?![^(]*\))", type_)[:-1]:
        groups = re.findall(r"\(([^:()]*) :", part)
        count += sum(len(names.split()) for names in groups) if groups else 1
    return count
