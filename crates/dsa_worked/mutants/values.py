"""Values as definitions compute them, and some values of each type, of which something is said."""

import itertools
import re


class Stuck(Exception):
    """What cannot be computed here."""


class Lacking(Exception):
    """A field that a record does not have."""


class TooLong(Exception):
    """What takes too long."""


class Part(dict):
    """A record of which not all fields are there."""


class Made:
    """A constructor with its arguments."""

    __slots__ = ("name", "arguments")

    def __init__(self, name, arguments=()):
        self.name, self.arguments = name, arguments

    def __call__(self, argument):
        return Made(self.name, (*self.arguments, argument))

    def __eq__(self, other):
        return isinstance(other, Made) and self.name == other.name and self.arguments == other.arguments

    def __repr__(self):
        return f"({self.name} {self.arguments})" if self.arguments else self.name


class Any:
    """What is the same as any value: with it a row computes that there is no state of which something holds."""

    def __eq__(self, other):
        return True

    __hash__ = None


NONE = Made("None")
# What a value of another form than a definition wants comes to.
UNFIT = (Stuck, KeyError, IndexError, TypeError, AttributeError, ValueError, RecursionError, OverflowError)


def some(x):
    return Made("Some", (x,))


def all_over(holds, values):
    """Whether something holds of all these values, of those of which that computes."""
    values, unknown = list(values), 0
    for it in values:
        try:
            if not holds(it):
                return False
        except UNFIT:
            unknown += 1
    if values and unknown == len(values):
        raise Stuck("no value of which it computes")
    return True


def any_over(holds, values):
    """Whether something holds of one of these values."""
    values, fault = list(values), None
    for it in values:
        try:
            if holds(it):
                return True
        except UNFIT as unfit:
            fault = unfit
    if fault is not None:
        raise Stuck(f"no value of which it computes: {fault}")
    return False


def cut_off(had, left):
    """The known bytes that were there and are not left."""
    if had.name == "None":
        return [[]]
    if left.name == "None":
        return []
    xs, ys = had.arguments[0], left.arguments[0]
    return [xs[:len(xs) - len(ys)]] if xs[len(xs) - len(ys):] == ys else []


def grown_by(held, holds):
    """The known bytes that came behind those that were there."""
    if held.name == "None":
        return [[]]
    if holds.name == "None":
        return []
    xs, ys = held.arguments[0], holds.arguments[0]
    return [ys[len(xs):]] if ys[:len(xs)] == xs else []


def fronts_of(some_lists):
    """Bytes that these begin with: all fronts of short ones, and of others those of telling lengths."""
    found = []
    for xs in some_lists:
        near = {0, 1, 2 ** 20 - 1, 2 ** 20, 2 ** 20 + 1, len(xs) - 2 ** 16 - 1, len(xs) - 2 ** 16, len(xs) - 1, len(xs)}
        places = range(len(xs) + 1) if len(xs) < 200 else sorted(it for it in near if 0 <= it <= len(xs))
        found += [xs[:it] for it in places]
    return found


def with_field(record, path, value):
    """The record with this value at a field, or at a field of one."""
    if not path:
        return value
    inner = record.get(path[0], Part()) if isinstance(record, dict) else Part()
    kind = type(record) if isinstance(record, dict) else Part
    return kind({**record, path[0]: with_field(inner, path[1:], value)}) if isinstance(record, dict) else kind()


class Type:
    """A type: a name with its arguments, a pair or a function."""

    def __init__(self, name, arguments=()):
        self.name, self.arguments = name, list(arguments)


def type_of(text):
    """A type by its text, as definitions or as the code write it."""
    text = re.sub(r"&(?:'\w+ )?(?:mut )?", "", text).replace("<", " (").replace(">", ")")
    tokens = re.findall(r"[(),×→]|[^\s(),×→]+", text)

    def whole(at):
        left, at = applied(at)
        if at < len(tokens) and tokens[at] in "×→":
            right, end = whole(at + 1)
            return Type(tokens[at], [left, right]), end
        return left, at

    def applied(at):
        parts = []
        while at < len(tokens) and tokens[at] not in ("×", "→", ")", ","):
            one, at = single(at)
            parts.append(one)
        if not parts:
            raise Stuck(f"the type {text}")
        head = parts[0]
        return (Type(head.name, head.arguments + parts[1:]) if parts[1:] else head), at

    def single(at):
        if tokens[at] != "(":
            return Type(tokens[at]), at + 1
        inner, at = whole(at + 1)
        parts = [inner]
        while at < len(tokens) and tokens[at] == ",":
            inner, at = whole(at + 1)
            parts.append(inner)
        return (parts[0] if len(parts) == 1 else Type("tuple", parts)), at + 1

    return whole(0)[0]


class Samples:
    """Some values of each type: of numbers and lists a few, of a type of the code each constructor and other values of each
    field, and those that definitions without arguments have."""

    def __init__(self, types, known):
        self.types, self.known, self.found, self.asked = types, known, {}, set()
        # Whether something was computed with them.
        self.are_used = False

    def of(self, text, most=24):
        """Values of the type that has this text."""
        self.are_used = True
        if text not in self.found:
            self.found[text] = self.values(type_of(text))
        return self.found[text][:most]

    def values(self, kind):
        name, given = kind.name, kind.arguments
        if name == "ℕ":
            return [0, 1, 2, 7, 40]
        if name == "Bool":
            return [False, True]
        if name in ("Global", "Unit", "PhantomData"):
            return [None]
        if name == "str":
            return [Part(now=[97]), Part(now=[])]
        if name == "→":
            return [(lambda x: lambda _: x)(it) for it in self.values(given[1])[:3]]
        if name in ("×", "tuple"):
            return list(itertools.islice(itertools.product(*(self.values(it)[:4] for it in given)), 24))
        if name in ("List", "Vec", "Option", "Box"):
            return self.of_parts(name, self.values(given[0]))
        if name == "Result":
            return [Made(label, (x,)) for label, it in zip(("Ok", "Err"), given) for x in self.values(it)[:6]]
        if name == "String":
            return [Made("String", ([],)), Made("String", ([97, 126],))]
        return self.of_name(name)

    def of_parts(self, name, parts):
        """Values of a type that is made of another."""
        if name == "Option":
            return [NONE, *map(some, parts[:12])]
        if name == "Box":
            return parts
        lists = [[], *([it] for it in parts[:5]), parts[:2], parts[1::-1], parts[:3]]
        lists = [it for i, it in enumerate(lists) if it not in lists[:i]]
        return lists if name == "List" else [Part(items=it, alloc=None) for it in lists]

    def of_name(self, name):
        """Values of a type that the code or the definitions declare."""
        if name in self.asked:
            raise Stuck(f"values of {name} in one another")
        self.asked.add(name)
        try:
            found = list(self.known(name))
            if name in self.types.records:
                found += self.of_record(self.types.records[name])
            elif name in self.types.families:
                found += self.of_family(self.types.families[name])
            elif name in self.types.records_of:
                found += self.values(type_of(self.types.records_of[name]))
        finally:
            self.asked.discard(name)
        if not found:
            raise Stuck(f"values of {name}")
        return found[:24]

    def of_record(self, fields):
        """Records, of which each has another value in one field."""
        values = {label: self.of(kind) for label, kind in fields}
        base = {label: some_values[0] for label, some_values in values.items()}
        others = [{**base, label: it} for label, some_values in values.items() for it in some_values[1:4]]
        return [base, *others]

    def of_family(self, family):
        """Each constructor, with some arguments."""
        found = []
        for label, kinds in family.items():
            try:
                given = [self.of(kind)[:3] for kind in kinds]
            except Stuck:
                continue
            found += [Made(label, some_given) for some_given in itertools.islice(itertools.product(*given), 4)]
        return found
