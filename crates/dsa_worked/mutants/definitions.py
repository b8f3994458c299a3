"""Reads modules of definitions: their names, types and clauses, each part with its place in the text."""

import re
from dataclasses import dataclass, field

TOKEN = re.compile(
    r"""(?P<space>\s+)|(?P<comment>--(?=\s|$)[^\n]*)|(?P<text>"(?:[^"\\]|\\.)*")"""
    r"""|(?P<mark>[(){};,λ])|(?P<dot>\.)|(?P<word>[^\s(){};,."λ]+)"""
)
# How tightly each operator binds, and to which side.
FIXITY = {
    "→": (0, "right"), ">>=": (10, "left"), "⊎": (1, "right"), "×": (2, "right"), "↔": (3, "none"), "≡": (4, "none"), "≢": (4, "none"),
    "||": (20, "right"), "&&": (30, "right"), "==": (50, "none"), "≤": (50, "none"), "<": (50, "none"),
    "++": (55, "right"), "∷": (55, "right"), "+": (60, "left"), "-": (60, "left"), "*": (70, "left"),
    "/": (70, "left"), "%": (70, "left"), "^": (80, "right"),
}
CLOSING = {")", "}", ";", ",", "then", "else", "in", "=", "|", "]"}


class Unknown(Exception):
    """A text of another form."""


@dataclass
class Token:
    kind: str
    text: str
    start: int
    end: int
    # The column, if it is the first of its line.
    edge: int = None


@dataclass
class Node:
    """A part of a text. Its kind says what it is, its parts are in order."""

    kind: str
    start: int
    end: int
    value: object = None
    parts: list = field(default_factory=list)

    def every(self):
        """This part and all parts of it."""
        yield self
        for part in self.parts:
            yield from part.every()


@dataclass
class Clause:
    patterns: list
    body: Node
    start: int
    end: int


@dataclass
class Definition:
    """A name with its type, and its clauses; of a record its fields, of data its constructors."""

    kind: str
    name: str
    start: int
    end: int = 0
    type: Node = None
    clauses: list = field(default_factory=list)
    fields: list = field(default_factory=list)
    parameters: list = field(default_factory=list)
    # The names that all definitions of its section take first.
    section: tuple = ()


def tokens_of(text, at=0):
    found, place = [], 0
    while place < len(text):
        it = TOKEN.match(text, place)
        if not it:
            raise Unknown(f"{text[place:place + 20]!r}")
        if it.lastgroup not in ("space", "comment"):
            line = text[text.rfind("\n", 0, place) + 1:place]
            edge = None if line.strip() else len(line)
            found.append(Token(it.lastgroup, it.group(), at + it.start(), at + it.end(), edge))
        place = it.end()
    return found


class Reader:
    """Reads terms and types from tokens."""

    def __init__(self, tokens):
        self.tokens, self.at = tokens, 0
        # The names of the functions around, of which one may be a word such as 'then'.
        self.bound = []
        # Where the step ends that is read.
        self.last = len(tokens)

    def peek(self, ahead=0):
        return self.tokens[self.at + ahead] if self.at + ahead < self.last else None

    def sees(self, *texts):
        return self.peek() is not None and self.peek().kind != "text" and self.peek().text in texts

    def take(self, text=None):
        it = self.peek()
        if it is None or (text is not None and it.text != text):
            raise Unknown(f"{text!r} is wanted, not {it.text if it else 'the end'!r}")
        self.at += 1
        return it

    def term(self, least=0):
        left = self.applied()
        while self.peek() and self.peek().kind == "word" and self.peek().text in FIXITY:
            word = self.peek().text
            binds, side = FIXITY[word]
            if binds < least:
                break
            operator = self.take()
            right = self.term(binds if side == "right" else binds + 1)
            left = Node("operator", left.start, right.end, (word, operator.start, operator.end), [left, right])
        return left

    def begins(self):
        it = self.peek()
        if it is None:
            return False
        if it.kind == "text" or it.text in ("(", "λ"):
            return True
        closing = it.text in CLOSING and it.text not in self.bound
        return it.kind == "word" and it.text not in FIXITY and not closing and it.text not in ("as", ":")

    def applied(self):
        head = self.single()
        parts = [head]
        while self.begins() or self.sees("{"):
            if self.sees("{"):
                self.implicit()
            else:
                parts.append(self.single())
        if len(parts) == 1:
            return head
        return Node("apply", head.start, parts[-1].end, None, parts)

    def implicit(self):
        while not self.sees("}"):
            self.take()
        self.take("}")

    def single(self):
        it = self.take()
        if it.kind == "text":
            node = Node("text", it.start, it.end, it.text)
        elif it.text == "λ":
            return self.function(it)
        elif it.text == "(":
            node = self.brackets(it)
        elif it.text == "{":
            return self.binder(it, "}")
        elif it.text == "let":
            return self.let(it)
        elif it.text == "if":
            return self.choice(it)
        elif it.text == "do" and self.peek() and self.peek().edge is not None:
            return self.steps(it)
        elif it.text == "record":
            node = self.record(it)
        elif re.fullmatch(r"0x[0-9a-fA-F_]+|[0-9][0-9_]*", it.text):
            node = Node("number", it.start, it.end, int(it.text.replace("_", ""), 0))
        elif it.kind == "word":
            node = Node("name", it.start, it.end, it.text)
        else:
            raise Unknown(f"{it.text!r}")
        while (
            self.peek() and self.peek().kind == "dot" and self.peek().start == node.end
            and self.peek(1) and self.peek(1).kind == "word" and self.peek(1).start == self.peek().end
        ):
            self.take()
            name = self.take()
            node = Node("field", node.start, name.end, (name.text, name.start, name.end), [node])
        return node

    def function(self, first):
        names = []
        while not self.sees("."):
            if self.sees("("):
                self.take("(")
                while not self.sees(":"):
                    names.append(self.take().text)
                self.take(":")
                self.term()
                self.take(")")
            else:
                names.append(self.take().text)
        self.take(".")
        self.bound = [*self.bound, *names]
        body = self.term()
        self.bound = self.bound[:len(self.bound) - len(names)]
        return Node("function", first.start, body.end, names, [body])

    def brackets(self, first):
        here, names = self.at, []
        while self.peek() and self.peek().kind == "word" and self.peek().text not in FIXITY and not self.sees(":"):
            names.append(self.take().text)
        if names and self.sees(":"):
            self.at = here
            return self.binder(first, ")")
        self.at = here
        parts = [self.term()]
        while self.sees(","):
            self.take(",")
            if not self.sees(")"):
                parts.append(self.term())
        last = self.take(")")
        if len(parts) == 1:
            return Node("brackets", first.start, last.end, None, parts)
        return Node("tuple", first.start, last.end, None, parts)

    def binder(self, first, closing):
        """(x y : A) → B, or (x : A) × B."""
        names = []
        while not self.sees(":"):
            names.append(self.take().text)
        self.take(":")
        kind = self.term()
        self.take(closing)
        while self.sees("(", "{") and self.peek(1) and self.binds():
            more = self.take()
            inner = self.binder(more, ")" if more.text == "(" else "}")
            return Node("binder", first.start, inner.end, (names, closing, "→"), [kind, inner])
        arrow = self.take()
        if arrow.text not in ("→", "×"):
            raise Unknown(f"{arrow.text!r} after a name with its type")
        body = self.term(0 if arrow.text == "→" else 2)
        return Node("binder", first.start, body.end, (names, closing, arrow.text), [kind, body])

    def binds(self):
        """Whether a name with its type follows."""
        ahead = 1
        while self.peek(ahead) and self.peek(ahead).kind == "word" and self.peek(ahead).text != ":":
            ahead += 1
        return ahead > 1 and self.peek(ahead) is not None and self.peek(ahead).text == ":"

    def let(self, first):
        name = self.take().text
        if self.sees(":"):
            self.take(":")
            self.term()
        self.take("=")
        value = self.term()
        self.take("in")
        body = self.term()
        return Node("let", first.start, body.end, name, [value, body])

    def choice(self, first):
        test = self.term()
        self.take("then")
        yes = self.term()
        self.take("else")
        no = self.term()
        return Node("if", first.start, no.end, None, [test, yes, no])

    def steps(self, first):
        """Steps, a line each: a name, or none, with a term that gives its value. All lines of a step but the first are indented."""
        edge, last, names, parts = self.peek().edge, self.last, [], []
        while self.peek() and self.peek().edge == edge:
            here = self.at
            self.last = next((i for i in range(here + 1, last) if self.is_next_step(i, edge)), last)
            name = self.single()
            if self.sees("←"):
                self.take("←")
            else:
                name, self.at = None, here
            names.append(name)
            parts.append(self.term())
            self.last = last
        return Node("do", first.start, parts[-1].end, names, parts)

    def is_next_step(self, i, edge):
        token = self.tokens[i]
        return token.edge is not None and token.edge <= edge and token.text not in (")", "}")

    def record(self, first):
        parts, fields = [], []
        if not self.sees("{"):
            parts.append(self.single())
        self.take("{")
        while not self.sees("}"):
            name = self.take()
            self.take("=")
            value = self.term()
            parts.append(value)
            fields.append((name.text, name.start, name.end))
            if self.sees(";"):
                self.take(";")
        last = self.take("}")
        return Node("record", first.start, last.end, fields, parts)


def term_of(text, at=0):
    reader = Reader(tokens_of(text, at))
    node = reader.term()
    if reader.peek():
        raise Unknown(f"{reader.peek().text!r} is left")
    return node


def items_of(text):
    """The parts of a module: each begins at the edge of the page, and goes on while it is indented or in brackets."""
    items, depth, place = [], 0, 0
    for line in text.splitlines(keepends=True):
        code = re.sub(r"--(?=\s|$).*", "", re.sub(r'"(?:[^"\\]|\\.)*"', '""', line))
        if code.strip():
            if items and (depth or code[0].isspace() or code[0] in ")}"):
                items[-1][1] = place + len(line.rstrip())
            else:
                items.append([place, place + len(line.rstrip())])
            depth += sum(code.count(it) for it in "({") - sum(code.count(it) for it in ")}")
        place += len(line)
    return items


def names_used(text):
    """What a line of 'use' brings in: each name as it is called here, with its path."""
    found = []

    def visit(path, rest):
        rest, depth, parts = rest.strip(), 0, [""]
        for it in rest:
            depth += (it == "{") - (it == "}")
            parts = [*parts, ""] if it == "," and not depth else [*parts[:-1], parts[-1] + it]
        for part in parts:
            part = part.strip()
            if not part:
                continue
            inner = re.fullmatch(r"((?:[^.{}]+\.)*)\{(.*)\}", part, re.S)
            if inner:
                visit(path + inner[1], inner[2])
                continue
            name, _, other = part.partition(" as ")
            whole = path + name.strip()
            found.append(((other or whole.rpartition(".")[2]).strip(), whole))

    visit("", re.sub(r"^(?:pub )?use ", "", text.strip()).rstrip(";"))
    return found


def patterns_of(tokens):
    """The patterns before '=', each as a term."""
    reader, found = Reader(tokens), []
    while reader.peek():
        if reader.sees("{"):
            while not reader.sees("}"):
                reader.take()
            reader.take("}")
        else:
            found.append(reader.single())
    return found


class Module:
    """A module of definitions: the names that it uses and those that it defines."""

    def __init__(self, crate, name, text):
        self.crate, self.name, self.text = crate, name, text
        self.uses, self.definitions = {}, {}
        for start, end in items_of(text):
            self.read(text[start:end], start, end)

    def read(self, text, start, end):
        words = text.split()
        if text.startswith(("use ", "pub use ")):
            for name, path in names_used(text):
                self.uses.setdefault(name, []).append(path)
        elif words[0] in ("infix", "infixl", "infixr", "unfolding") or text.startswith("pub mod "):
            return
        elif words[0] == "module":
            self.section(text, start)
        elif re.match(r"(pub )?(record|data) ", text):
            self.fields(text, start, end)
        else:
            self.clause(text, start, end)

    def fields(self, text, start, end):
        head, _, rest = text.partition("where\n")
        name = re.match(r"(?:pub )?(?:record|data) (\S+)", text)[1]
        it = Definition("record" if "record " in head[:12] else "data", name, start, end)
        for names in re.findall(r"\(([^():]+) : ", head):
            it.parameters += names.split()
        self.definitions[name] = it
        base = start + len(head) + len("where\n")
        columns = len(rest) - len(rest.lstrip(" "))
        less = dedent(rest, columns)
        for first, last in items_of(less):
            part = less[first:last]
            label = re.match(r"(?:pub )?(\S+) : ", part)
            if not label:
                continue
            place = original(rest, first + label.end(), columns)
            last_place = original(rest, last, columns)
            body = rest[place:last_place]
            it.fields.append((label[1], term_of(body, base + place), base + place, base + last_place))

    def section(self, text, start):
        """The definitions of a section, each with its parameters before its own."""
        head, _, rest = text.partition("where\n")
        names = tuple(it for some in re.findall(r"\(([^():]+) : ", head) for it in some.split())
        base, less, before = start + len(head) + len("where\n"), dedent(rest), set(self.definitions)
        for first, last in items_of(less):
            place = original(rest, first)
            self.clause(less[first:last], base + place, base + original(rest, last))
        for it in set(self.definitions) - before:
            self.definitions[it].section = names
            for clause in self.definitions[it].clauses:
                clause.patterns = [Node("name", clause.start, clause.start, name) for name in names] + clause.patterns

    def clause(self, text, start, end):
        signature = re.match(r"(?:(?:abbrev|unfoldable) )?(?:pub )?([^\s:]+)\s+: ", text)
        if signature and not re.match(r"[^\n]* = ", text[: signature.end()]):
            it = Definition("value", signature[1], start, end)
            it.type = term_of(text[signature.end():], start + signature.end())
            self.definitions[it.name] = it
            return
        tokens = tokens_of(text, start)
        depth = 0
        for i, token in enumerate(tokens):
            depth += (token.text in ("(", "{")) - (token.text in (")", "}"))
            if token.text == "=" and not depth:
                break
        else:
            return
        if tokens[0].text == "if":
            return
        if len(tokens) > 2 and tokens[1].text in FIXITY:
            tokens[0], tokens[1] = Token("word", f"◌{tokens[1].text}◌", tokens[1].start, tokens[1].end), tokens[0]
        it = self.definitions.get(tokens[0].text)
        if it is None:
            raise Unknown(f"a clause of {tokens[0].text!r}")
        reader = Reader(tokens[i + 1:])
        body = reader.term()
        if reader.peek():
            raise Unknown(f"{it.name}: {reader.peek().text!r} is left")
        it.clauses.append(Clause(patterns_of(tokens[1:i]), body, start, end))
        it.end = end


def dedent(text, columns=2):
    return re.sub(rf"(?m)^ {{{columns}}}", "", text)


def original(text, place, columns=2):
    """The place in a text of what is there once each line lost its first columns."""
    lost, at = 0, 0
    for line in text.splitlines(keepends=True):
        cut = columns if line.startswith(" " * columns) else 0
        if at + len(line) - cut > place:
            return place + lost + cut
        at, lost = at + len(line) - cut, lost + cut
    return place + lost
