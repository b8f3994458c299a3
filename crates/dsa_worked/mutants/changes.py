"""Makes wrong definitions of a module: each is a change of one place of one definition."""

import os
import re
from dataclasses import dataclass, field

from definitions import Node

NUMBERS = {"u8", "u16", "u32", "u64", "usize"}
# What the toolchain's own functions take, where two neighbouring arguments are of one type.
ALIKE = {"nat_lt": [(0, 1)], "nat_le": [(0, 1)], "cond": [(1, 2)]}
# Where a function asks whether something holds of each element.
ASKING = {"list_any", "list_all", "filter", "find", "count_by", "position", "position_or_len", "passes", "any_in", "holds_any"}
OTHER = {
    "&&": ["||"], "||": ["&&"], "+": ["-"], "-": ["+"], "*": ["+"], "/": ["*"], "%": ["/"], "^": ["*"], "≤": ["<"], "<": ["≤"],
}
OTHER_NAME = {"nat_lt": "nat_le", "nat_le": "nat_lt", "min": "max", "max": "min", "list_any": "list_all", "list_all": "list_any"}
SWAPPED = {"-", "++", "≤", "<", "/", "%", "^"}


@dataclass
class Change:
    """A kind of change, what it puts in place of what, and the names that it needs."""

    kind: str
    old: str
    new: str
    edits: list
    needs: list = field(default_factory=list)
    key: str = ""


class Types:
    """What the crates declare: records with their fields, and constructors with the types of their arguments."""

    def __init__(self, crates, top, modules):
        self.records, self.families, self.records_of, self.own = {}, {}, {}, {}
        for crate in crates:
            source, known = f"{top}/crates/{crate}/src", (self.records, self.families)
            self.records, self.families = {}, {}
            for name in sorted(os.listdir(source)) if os.path.isdir(source) else []:
                if name.endswith(".rt"):
                    with open(f"{source}/{name}", encoding="utf-8") as it:
                        self.declared(re.sub(r"^\s*(//|#\[).*$", "", it.read(), flags=re.M))
            # Two crates may have types of one name.
            self.own[crate] = self.records, self.families
            self.records, self.families = {**known[0], **self.records}, {**known[1], **self.families}
        for module in modules:
            for it in module.definitions.values():
                labels = [(label, module.text[start:end]) for label, _, start, end in it.fields]
                if it.kind == "record" and " : Type 0 where" in module.text[it.start:it.end]:
                    self.records[it.name] = labels
                elif it.kind == "value" and module.text[it.type.start:it.type.end] == "Type 0" and len(it.clauses) == 1:
                    self.records_of[it.name] = shown(module.text[it.clauses[0].body.start:it.clauses[0].body.end])
                elif it.kind == "data":
                    self.families[it.name] = {label: tuple(kind.split(" → ")[:-1]) for label, kind in labels}

    def family(self, path):
        """The constructors of the type whose variants this path has, by its crate."""
        parts = path.split(".")
        name = parts[parts.index("TheVariants") - 1]
        return self.own.get(parts[1], ({}, {}))[1].get(name) or self.families.get(name, {})

    def declared(self, text):
        for name, body in re.findall(r"^(?:pub(?:\(crate\))? )?struct (\w+)(?:<.*?>)? \{\n(.*?)^\}", text, re.M | re.S):
            self.records[name] = [(it, plain(kind)) for it, kind in re.findall(r"^    (?:pub )?(\w+): (.*?),?$", body, re.M)]
        for name, kind in re.findall(r"^(?:pub(?:\(crate\))? )?struct (\w+)\((?:pub )?(\w+)\);", text, re.M):
            self.records[name] = [("0", plain(kind))]
        for name, body in re.findall(r"^(?:pub(?:\(crate\))? )?enum (\w+)(?:<.*?>)? \{\n(.*?)^\}", text, re.M | re.S):
            family = {}
            for label, given in re.findall(r"^    (\w+)\s*(\(.*?\)|\{.*?\})?,", body, re.M | re.S):
                kinds = re.findall(r"\w+: ([^,}]+)", given) if given.startswith("{") else [
                    it for it in given.strip("()").split(",") if it.strip()
                ]
                family[label] = tuple(plain(it.strip()) for it in kinds)
            self.families[name] = family


def plain(kind):
    """A type of the code as the definitions have it."""
    kind = re.sub(r"Option<(.*)>", r"Option \1", kind.strip())
    return re.sub(r"\w+", lambda it: "ℕ" if it[0] in NUMBERS else "Bool" if it[0] == "bool" else it[0], kind)


def bare(kind):
    """A type without the brackets around it."""
    return kind[1:-1] if kind.startswith("(") and kind.endswith(")") else kind


def parts_of(kind):
    """The parts of a pair."""
    return [bare(it) for it in re.split(r" × (?![^(]*\))", kind)]


def shown(text):
    """A text on one line."""
    return re.sub(r"\s+", " ", text).strip()


class Changes:
    """The changes of one module."""

    def __init__(self, module, types, signatures):
        self.module, self.types, self.signatures, self.text = module, types, signatures, module.text
        records, families = types.own.get(module.crate, ({}, {}))
        self.records, self.families = {**types.records, **records}, {**types.families, **families}

    def of(self, node):
        return self.text[node.start:node.end]

    def single(self, node):
        """The text of a term, in brackets where it needs them."""
        text = self.of(node)
        return text if node.kind in ("name", "number", "field", "brackets", "tuple", "record") else f"({text})"

    def replaced(self, kind, node, new, needs=()):
        return Change(kind, shown(self.of(node)), shown(new), [(node.start, node.end, new)], list(needs))

    def exchanged(self, kind, a, b, single=False):
        """Two terms in each other's place."""
        first, second = (self.single(a), self.single(b)) if single else (self.of(a), self.of(b))
        edits = [(a.start, a.end, second), (b.start, b.end, first)]
        return Change(kind, f"{shown(first)} .. {shown(second)}", f"{shown(second)} .. {shown(first)}", edits)

    # ---- all changes of a definition

    def all(self, definition):
        found = []
        for i, clause in enumerate(definition.clauses):
            self.bound = {n.value for p in clause.patterns for n in p.every() if n.kind == "name"}
            self.local = {}
            for pattern, kind in zip(clause.patterns, self.signatures.get(definition.name, [])):
                self.learn(pattern, kind)
            self.visit(clause.body, found)
            if self.gives_truth(definition):
                self.negated(self.inner(clause.body), found)
            if i + 1 < len(definition.clauses):
                self.rows(definition, clause, definition.clauses[i + 1], found)
            self.dropped(definition, i, found)
        if definition.kind == "record":
            for label, node, start, end in definition.fields:
                self.bound, self.local = set(), self.parameters(definition)
                for other, kind, *_ in definition.fields:
                    self.of_this_kind([other], kind)
                if self.is_statement(node):
                    found.append(Change("no clause", f"{label} : {shown(self.text[start:end])}", "⊤", [(start, end, "⊤")], ["⊤"]))
                    self.visit(node, found)
        counts = {}
        for it in found:
            key = f"{self.module.crate}.{self.module.name}.{definition.name} | {it.kind} | {it.old} => {it.new}"
            counts[key] = counts.get(key, 0) + 1
            it.key = key if counts[key] == 1 else f"{key} ({counts[key]})"
        return [it for it in found if it.old != it.new]

    def is_statement(self, node):
        """Whether the type of a field says something, and is not what the field holds."""
        while node.kind == "binder" or node.kind == "operator" and node.value[0] == "→":
            node = node.parts[1]
        head = node.parts[0] if node.kind == "apply" else node
        if node.kind == "operator":
            return node.value[0] in ("≡", "≢", "≤", "<", "×", "⊎")
        return head.kind == "name" and head.value not in self.types.records_of and self.is_proposition(head.value)

    def is_proposition(self, name):
        kind = self.signatures.get(name)
        return bool(kind) and kind[-1].startswith("Type 0") or name[:2] in ("Is", "Ha")

    def gives_truth(self, definition):
        kinds = self.signatures.get(definition.name, [])
        return bool(kinds) and kinds[-1] == "Bool" and bool(definition.clauses) and len(definition.clauses[0].patterns) == len(kinds) - 1

    def inner(self, node):
        while node.kind in ("brackets", "let"):
            node = node.parts[-1]
        return node

    # ---- types, as far as they are plain

    def parameters(self, definition):
        """The types of what a record is about."""
        head = self.text[definition.start:definition.end].split(" : Type 0 where")[0]
        found = {}
        for names, kind in re.findall(r"\(([^():]+) : ([^()]+)\)", head):
            found.update({it: kind for it in names.split()})
        return found

    def of_this_kind(self, names, node):
        """Notes the type of what is said to be of one, where the type is known."""
        kind = shown(self.of(node))
        if kind in self.records or kind in self.types.records_of:
            self.local = {**self.local, **{it: kind for it in names}}

    def learn(self, pattern, kind):
        """Notes the types of the names in a pattern."""
        pattern, parts = self.inner(pattern), kind.split(" ", 1)
        if pattern.kind == "name" and self.made(pattern.value)[0] is None:
            self.local[pattern.value] = kind
        elif pattern.kind == "operator" and parts[0] == "List":
            self.learn(pattern.parts[0], bare(parts[1]))
            self.learn(pattern.parts[1], kind)
        elif pattern.kind == "apply" and pattern.parts[0].kind in ("name", "field"):
            name = pattern.parts[0].value
            name, kinds = (name, self.made(name)[1]) if isinstance(name, str) else (name[0], ())
            kinds = self.families.get(kind, {}).get(name, kinds)
            kinds = (bare(parts[1]),) if parts[0] == "Option" else kinds
            for it, its in zip(pattern.parts[1:], kinds):
                self.learn(it, its)

    def kind_of(self, node):
        """The type of a term, if it shows."""
        node = self.inner(node)
        if node.kind == "name":
            return self.local.get(node.value) or self.result(node.value, 0)
        if node.kind == "field":
            record = self.kind_of(node.parts[0])
            if record in self.types.records_of:
                parts = parts_of(self.types.records_of[record])
                return parts[int(node.value[0])] if node.value[0].isdigit() and int(node.value[0]) < len(parts) else None
            return dict(self.records.get(record, [])).get(node.value[0])
        if node.kind == "apply" and node.parts[0].kind == "name":
            name, given = node.parts[0].value, node.parts[1:]
            if name in ("get_or", "slice_index_or") and len(given) == 3:
                return self.kind_of(given[2])
            if name in ("filter", "find", "take", "drop"):
                return self.kind_of(given[-1])
            return self.result(name, len(given))
        if node.kind == "operator" and node.value[0] == "++":
            return self.kind_of(node.parts[0]) or self.kind_of(node.parts[1])
        if node.kind == "record" and len(node.parts) > len(node.value):
            return self.kind_of(node.parts[0])
        return None

    def result(self, name, count):
        kinds = self.signatures.get(name)
        return kinds[-1] if kinds and len(kinds) == count + 1 else None

    def lambdas(self, node):
        """Notes the type of what a function is given that is asked of each element."""
        head, given = node.parts[0], node.parts[1:]
        function = self.inner(given[0]) if given else None
        if head.kind != "name" or function is None or function.kind != "function":
            return
        kind, kinds = None, self.signatures.get(head.value, [])
        if len(function.value) > 1:
            given = kinds[0].strip("()").split(" → ") if kinds and "(" not in kinds[0][1:] else []
            if len(given) > len(function.value):
                self.local = {**self.local, **dict(zip(function.value, given))}
            return
        if len(given) > 1:
            whole = self.kind_of(given[1])
            whole = self.types.records_of.get(whole, whole)
            kind = bare(whole.split(" ", 1)[1]) if whole and whole.split(" ")[0] in ("List", "Option") else None
        if kind is None and kinds and kinds[0].startswith("("):
            kind = kinds[0].strip("()").split(" → ")[0]
        if kind:
            self.local = {**self.local, function.value[0]: kind}

    # ---- one part

    def visit(self, node, found):
        self.bound = self.bound | (set(node.value) if node.kind == "function" else {node.value} if node.kind == "let" else set())
        if node.kind == "do":
            self.bound = self.bound | {part.value for it in node.value if it for part in it.every() if part.kind == "name"}
        if node.kind == "apply":
            self.lambdas(node)
        if node.kind == "let":
            self.local = {**self.local, node.value: self.kind_of(node.parts[0])}
        if node.kind == "binder":
            self.of_this_kind(node.value[0], node.parts[0])
        getattr(self, f"at_{node.kind}", lambda *_: None)(node, found)
        for part in node.parts:
            self.visit(part, found)

    def at_number(self, node, found):
        text = self.of(node)
        new = f"{node.value + 1:#x}" if text.startswith("0x") else str(node.value + 1)
        found.append(self.replaced("bound", node, new))

    def at_text(self, node, found):
        if len(node.value) > 2:
            cut = node.value[1:-1]
            cut = cut[:-2] if cut[-2:-1] == "\\" else cut[:-1]
            found.append(self.replaced("text", node, f'"{cut}"'))

    def at_operator(self, node, found):
        word, start, end = node.value
        left, right = node.parts
        for other in OTHER.get(word, []):
            old, new = self.of(node), self.text[node.start:start] + other + self.text[end:node.end]
            found.append(Change("operator", shown(old), shown(new), [(start, end, other)], [f"◌{other}◌"]))
        if word == "==":
            for a, b in ((left, right), (right, left)):
                new = f"nat_le {self.single(a)} {self.single(b)}"
                # What is at most 0 is 0.
                if self.of(b) not in ("0", "0x00"):
                    found.append(Change("operator", shown(self.of(node)), new, [(node.start, node.end, f"({new})")], ["nat_le"]))
        if word in ("&&", "||"):
            self.negated(self.inner(left), found)
            if not (right.kind == "operator" and right.value[0] == word):
                self.negated(self.inner(right), found)
        if word in ("&&", "||", "++", "×", "⊎"):
            found.append(self.replaced("part alone", node, self.single(left)))
            found.append(self.replaced("part alone", node, self.single(right)))
        if word in SWAPPED:
            found.append(self.exchanged("exchange", left, right, True))
        if word == "→":
            found.append(self.replaced("no premise", node, self.of(right)))
        if word == "∷":
            self.row(node, found)

    def row(self, node, found):
        """An element of a list that is written out: without it, and in the place of the next one."""
        if not self.is_list(node):
            return
        element, rest = node.parts
        if element.kind == "tuple" and len(element.parts) == 2:
            self.negated(self.inner(element.parts[0]), found)
        new = self.of(rest) if rest.start < rest.end else "[]"
        found.append(Change("no row", shown(self.of(element)), "", [(node.start, node.end, new)]))
        if rest.kind == "operator" and rest.value[0] == "∷" and self.is_list(rest) and not self.excludes(element, rest.parts[0]):
            found.append(self.exchanged("exchange of rows", element, rest.parts[0], True))

    def excludes(self, a, b):
        """Whether two rows ask whether the same is one number or another, so that their order means nothing."""
        tests = [self.inner(it.parts[0]) for it in (a, b) if it.kind == "tuple"]
        return len(tests) == 2 and all(
            it.kind == "operator" and it.value[0] == "==" and it.parts[1].kind == "number" for it in tests
        ) and self.of(tests[0].parts[0]) == self.of(tests[1].parts[0]) and tests[0].parts[1].value != tests[1].parts[1].value

    def is_list(self, node):
        while node.kind == "operator" and node.value[0] == "∷":
            node = node.parts[1]
        return node.kind == "name" and node.value == "[]"

    def at_apply(self, node, found):
        head, arguments = node.parts[0], node.parts[1:]
        if head.kind != "name":
            return
        name = head.value
        if name == "not" and len(arguments) == 1:
            found.append(self.replaced("no negation", node, self.single(arguments[0])))
        if name in OTHER_NAME and name not in self.bound:
            found.append(self.replaced("operator", head, OTHER_NAME[name], [OTHER_NAME[name]]))
            found[-1].old, found[-1].new = shown(self.of(node)), shown(OTHER_NAME[name] + self.of(node)[len(name):])
        if name == "cond" and arguments:
            self.negated(self.inner(arguments[0]), found)
        if name in ASKING and arguments and self.inner(arguments[0]).kind == "function":
            self.negated(self.inner(self.inner(arguments[0]).parts[0]), found)
        for a, b in self.alike(name, len(arguments)):
            found.append(self.exchanged("exchange", arguments[a], arguments[b]))

    def alike(self, name, count):
        """The pairs of neighbouring arguments that are of one type."""
        pairs = ALIKE.get(name, [])
        kinds = self.signatures.get(name, [])[:-1] or self.made(name)[1]
        if name not in self.bound:
            pairs = pairs + [(i, i + 1) for i in range(len(kinds) - 1) if kinds[i] == kinds[i + 1]]
        return [it for it in pairs if it[1] < count]

    def at_if(self, node, found):
        self.negated(self.inner(node.parts[0]), found)
        found.append(self.exchanged("exchange", node.parts[1], node.parts[2]))

    def negated(self, node, found):
        """A test with the other answer; one that is made of others is changed there."""
        simple = not (node.kind == "operator" and node.value[0] in ("&&", "||"))
        is_negation = node.kind == "apply" and self.of(node.parts[0]) == "not"
        is_choice = node.kind == "if" or node.kind == "apply" and self.of(node.parts[0]) in ("cond",)
        is_text = node.kind == "apply" and self.of(node.parts[0]) == "codes"
        if simple and not (is_negation or is_choice or is_text) and self.of(node) not in ("true", "false"):
            change = self.replaced("negation", node, f"(not ({self.of(node)}))", ["not"])
            change.new = f"not ({shown(self.of(node))})"
            if all(it.edits != change.edits for it in found):
                found.append(change)

    # ---- names

    def made(self, name):
        """The family of a constructor, and the types of its arguments."""
        for path in self.module.uses.get(name, []):
            parts = path.split(".")
            if "TheVariants" in parts[:-1]:
                family = self.types.family(path)
                if name in family:
                    return path.rpartition(".")[0], family[name], family
            elif parts[-1] in ("true", "false"):
                return path.rpartition(".")[0], (), {"true": (), "false": ()}
        for it in self.module.definitions.values():
            if it.kind == "data" and name in self.types.families.get(it.name, {}):
                return "", self.types.families[it.name][name], self.types.families[it.name]
        return None, (), {}

    def at_name(self, node, found):
        if node.value in self.bound:
            return
        place, kinds, family = self.made(node.value)
        for other, its in family.items():
            if other != node.value and its == kinds:
                path = f"{place}.{other}" if place else None
                found.append(self.replaced("constructor", node, other, [path] if path else []))

    def at_field(self, node, found):
        name, start, end = node.value
        paths = self.module.uses.get(self.of(node.parts[0]), [])
        if any(path.endswith("TheVariants") for path in paths):
            path = next(path for path in paths if path.endswith("TheVariants"))
            family = self.types.family(path)
            for other, kinds in family.items():
                if other != name and kinds == family.get(name):
                    new = self.text[node.start:start] + other
                    found.append(Change("constructor", shown(self.of(node)), shown(new), [(start, end, other)]))
            return
        others = {}
        record = self.kind_of(node.parts[0])
        known = self.records.get(record)
        for fields in [known] if known else self.records.values():
            kinds = dict(fields)
            if name in kinds and (known or record is None):
                others.update({it: None for it, kind in fields if kind == kinds[name] and it != name})
        if name in ("0", "1") and not known:
            parts = parts_of(self.types.records_of.get(record, record or ""))
            others = {} if len(parts) == 2 and parts[0] != parts[1] else {"1" if name == "0" else "0": None}
        for other in others:
            new = self.text[node.start:start] + other
            found.append(Change("field", shown(self.of(node)), shown(new), [(start, end, other)]))

    def at_record(self, node, found):
        names = [it[0] for it in node.value]
        base = len(node.parts) > len(names)
        values = node.parts[base:]
        if base and len(names) > 1:
            for (name, start, _), value in zip(node.value, values):
                last = value.end + 1 if self.text[value.end:value.end + 1] == ";" else value.end
                found.append(Change("no field", f"{name} = {shown(self.of(value))}", "", [(start, last, "")]))
        elif base:
            found.append(self.replaced("no field", node, self.single(node.parts[0])))
        for record, fields in self.records.items():
            kinds = dict(fields)
            if all(it in kinds for it in names) and (base or len(kinds) == len(names)):
                for i in range(len(names) - 1):
                    if kinds[names[i]] == kinds[names[i + 1]]:
                        found.append(self.exchanged("exchange of fields", values[i], values[i + 1]))
                if base:
                    for (name, start, end) in node.value:
                        for other, kind in fields:
                            if kind == kinds[name] and other not in names:
                                new = self.of(node).replace(f"{name} =", f"{other} =", 1)
                                found.append(Change("field", shown(self.of(node)), shown(new), [(start, end, other)]))
                break

    # ---- clauses

    def kinds_in(self, definition, clause):
        """The declared types of the names in a clause's patterns."""
        kept, self.local = self.local, {}
        for pattern, kind in zip(clause.patterns, self.signatures.get(definition.name, [])):
            self.learn(pattern, kind)
        found, self.local = self.local, kept
        plain = {it: kind for it, kind in found.items() if " " not in kind or kind.startswith("&")}
        return {it: kind for it, kind in plain.items() if not re.fullmatch("[A-Z]", kind)}

    def rows(self, definition, clause, following, found):
        """What two neighbouring clauses give, in each other's place, where each has the names that the other's needs."""
        bound = [{n.value for p in it.patterns for n in p.every() if n.kind == "name"} for it in (clause, following)]
        needed = [{n.value for n in it.body.every() if n.kind == "name"} for it in (clause, following)]
        if needed[0] & (bound[0] - bound[1]) or needed[1] & (bound[1] - bound[0]):
            return
        if shown(self.of(clause.body)) == shown(self.of(following.body)):
            return
        kinds = [self.kinds_in(definition, it) for it in (clause, following)]
        if any(kinds[0][it] != kinds[1][it] for it in kinds[0].keys() & kinds[1].keys() & (needed[0] | needed[1])):
            return
        found.append(self.exchanged("exchange of rows", clause.body, following.body))
        found[-1].old = f"{shown(self.text[clause.start:clause.end])} .. {shown(self.text[following.start:following.end])}"

    def dropped(self, definition, i, found):
        """Without a clause, where the last one covers it."""
        last = definition.clauses[-1]
        made = ("[]", "None", "zero", "tt")
        covers = all(it.kind == "name" and self.made(it.value)[0] is None and it.value not in made for it in last.patterns)
        if i + 1 < len(definition.clauses) and last.patterns and covers:
            clause = definition.clauses[i]
            old = shown(self.text[clause.start:clause.end])
            found.append(Change("no row", old, "", [(clause.start, clause.end + 1, "")]))


def changed(module, change):
    """The module's text with a change, and the names that it needs."""
    text = module.text
    for start, end, new in sorted(change.edits, reverse=True):
        text = text[:start] + new + text[end:]
    lines = []
    for it in change.needs:
        name = it.rpartition(".")[2]
        path = it if "." in it else f"Rattle.std.specs.{'List' if it.startswith('list_') else 'Prelude'}.{it}"
        known = module.uses.get(name, [])
        if not known or "TheVariants" in path and path not in known:
            lines.append(f"use {path.rpartition('.')[0]}.{{{name}}}\n")
    if lines:
        place = re.search(r"^(pub )?use ", text, re.M).start()
        text = text[:place] + "".join(lines) + text[place:]
    return text
