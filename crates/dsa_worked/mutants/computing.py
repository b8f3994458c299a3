"""Computes definitions, so that a mutant is tried at once. What it says is a guess: the checker decides."""

import functools
import hashlib
import json
import os
import re
import shutil
import sys

from definitions import Module, Node, Unknown, names_used, term_of
from values import NONE, UNFIT, Any, Lacking, Made, Part, Samples, Stuck
from values import all_over, any_over, cut_off, fronts_of, grown_by, some, with_field

sys.setrecursionlimit(20000)


def same(a, b):
    """Whether two values are the same."""
    if callable(a) and not isinstance(a, Made) or callable(b) and not isinstance(b, Made):
        raise Stuck("functions")
    return a == b


def put(xs, i, x):
    return xs[:i] + [x] + xs[i + 1:] if i < len(xs) else xs


def first_place(test, xs):
    return next((i for i, x in enumerate(xs) if test(x)), len(xs))


def in_digits(base, upper, n):
    glyphs = "0123456789ABCDEF" if upper else "0123456789abcdef"
    found = ""
    while True:
        found = glyphs[n % base] + found
        n //= base
        if not n:
            return [ord(it) for it in found]


def chars_of(xs):
    """The characters of a text; of other bytes no row speaks."""
    try:
        return [ord(it) for it in bytes(xs).decode()]
    except ValueError as fault:
        raise Stuck("no text") from fault


def units_of(c):
    """The units of a character in UTF-16."""
    return [c] if c < 0x10000 else [0xd800 + (c - 0x10000) // 0x400, 0xdc00 + (c - 0x10000) % 0x400]


def in_json(x):
    """What stands in a JSON text for a byte."""
    return list(json.dumps(chr(x), ensure_ascii=False)[1:-1].encode("latin-1"))


def fold(f, a, xs):
    for x in xs:
        a = f(a)(x)
    return a


def found_first(test, xs):
    place = first_place(test, xs)
    return some(xs[place]) if place < len(xs) else NONE


def place_of(test, xs):
    place = first_place(test, xs)
    return some(place) if place < len(xs) else NONE


def at_place(xs, i, other):
    return xs[i] if i < len(xs) else other


def chosen(option, default):
    return option.arguments[0] if option.name == "Some" else default


def all_chosen(xs):
    return [x.arguments[0] for x in xs if x.name == "Some"]


def little(n, xs):
    return sum((xs[i] if i < len(xs) else 0) << (8 * i) for i in range(n))


def padded(form, negative, prefix, digits):
    """A number under a format with zeros in front, or with fill."""
    fill, flags, width = form
    sign = [45] if negative else [43] * (flags & 1)
    front = sign + (prefix if flags & 2 else [])
    padding = width - len(front) - len(digits)
    return front + [48] * padding + digits if flags & 4 else [fill] * padding + front + digits


def members_of(d):
    """The members of a JSON object, or none."""
    members = d.arguments[0] if d.name == "object" else Made("no_members")
    while members.name == "member":
        yield members.arguments[:2]
        members = members.arguments[2]


def as_kind(kind):
    """What a JSON value of this kind holds."""
    return 1, lambda d: some(d.arguments[0]) if d.name == kind else NONE


def signed(n):
    """A whole number as it is written with a sign."""
    return Made("pos", (n,)) if n >= 0 else Made("negsuc", (-n - 1,))


def as_i64(n):
    if n.name == "negative":
        return some(n.arguments[0])
    return some(signed(n.arguments[0])) if n.name == "unsigned" and n.arguments[0] < 2 ** 63 else NONE


def bytes_of_digits(i, text):
    """The bytes of pairs of hexadecimal digits, the first of them at this place."""
    odd = len(text) % 2
    try:
        return Made("Ok", (list(bytes.fromhex(bytes(text[:len(text) - odd]).decode("ascii"))),)) if not odd else Made("Err", (None,))
    except ValueError:
        return Made("Err", (None,))


def then(x, f):
    """The second step, where the first gave a value."""
    return f(x.arguments[0]) if x.name in ("Some", "Ok") else x


def in_signs(z):
    """A number with its sign, in decimal digits."""
    return list(str(as_int(z)).encode())


def in_json_digits(n):
    """A number of JSON as it is written."""
    return [] if n.name == "float" else in_digits(10, False, n.arguments[0]) if n.name == "unsigned" else in_signs(n.arguments[0])


def as_int(z):
    """A whole number with its sign."""
    return z.arguments[0] if z.name == "pos" else -z.arguments[0] - 1


def parts_between(test, xs):
    """What stands between the elements that pass."""
    found = [[]]
    for x in xs:
        if test(x):
            found.append([])
        else:
            found[-1].append(x)
    return found


def joined(f, between, xs):
    return [y for i, x in enumerate(xs) for y in (between if i else []) + f(x)]


def text_of(string):
    """The bytes of a string, which is one of all or a record."""
    return string.arguments[0] if isinstance(string, Made) else string["bytes"]["items"]


def text_of_option(name, rows):
    """The first value of the first option of this name."""
    place = first_place(lambda row: row["id"] == name, rows)
    return some(rows[place]["values"][0]) if place < len(rows) and rows[place]["values"] else NONE


def appends(old, new, more):
    """Whether known bytes grew by these."""
    return old.name == "None" or new.name == "Some" and new.arguments[0] == old.arguments[0] + more


def passes_all(test, xs, ys):
    return len(xs) == len(ys) and all(test(x)(y) for x, y in zip(xs, ys))


def is_utf8(xs):
    """Whether bytes are a text."""
    try:
        return bytes(xs).decode() is not None
    except ValueError:
        return False


def no_number(text):
    raise ValueError(text)


def data_of(value):
    """A JSON value as definitions have it."""
    if value is None or isinstance(value, bool):
        return Made("null") if value is None else Made("boolean", (value,))
    if isinstance(value, float) or isinstance(value, int) and not -2 ** 63 <= value < 2 ** 64:
        return Made("number", (Made("float", (value,)),))
    if isinstance(value, int):
        return Made("number", (Made("unsigned", (value,)) if value >= 0 else Made("negative", (signed(value),)),))
    if isinstance(value, str):
        return Made("string", (list(value.encode()),))
    if isinstance(value, list):
        return Made("array", (items_of([data_of(it) for it in value]),))
    members = functools.reduce(lambda found, it: members_with(list(it[0].encode()), data_of(it[1]), found), value, Made("no_members"))
    return Made("object", (members,))


def read_json(xs):
    """What bytes are as JSON, or nothing."""
    try:
        text = bytes(xs).decode()
        if "-0" in text or text.count("[") + text.count("{") > 100:
            raise Stuck("JSON of another kind")
        found = json.JSONDecoder(object_pairs_hook=tuple, parse_constant=no_number).decode(text) if text.isascii() else None
    except ValueError:
        return NONE
    if not text.isascii():
        raise Stuck("JSON that is not ASCII")
    return some(data_of(found))


def edits(xs, ys):
    """The table of edits between two names, of which the last row is looked at: a character more, less or changed, or two beside
    each other exchanged."""
    rows = [list(range(len(ys) + 1))]
    for i, x in enumerate(xs):
        row = [i + 1]
        for j, y in enumerate(ys):
            least = min(rows[i][j] + (x != y), rows[i][j + 1] + 1, row[j] + 1)
            if i and j and x == ys[j - 1] and xs[i - 1] == y:
                least = min(least, rows[i - 1][j - 1] + 1)
            row.append(least)
        rows.append(row)
    return {"last_row": lambda j: rows[-1][j]}


def item_at(n, d):
    """Item n of a JSON array, if it has one."""
    d = d.arguments[0] if d.name == "array" else Made("no_items")
    while d.name == "item" and n:
        d, n = d.arguments[1], n - 1
    return some(d.arguments[0]) if d.name == "item" else NONE


def keys_of(d):
    """The keys of the members of an object, each as often as it stands there."""
    return [name for name, _ in members_of(Made("object", (d,)))]


def members_with(k, d, members):
    """The members of an object in the order of their keys, with this value at the key."""
    there = [(name, x) for name, x in members_of(Made("object", (members,))) if name != k] + [(k, d)]
    return functools.reduce(lambda ms, it: Made("member", (*it, ms)), sorted(there, key=lambda it: it[0], reverse=True), Made("no_members"))


def items_of(values):
    """A list of JSON values as the items of an array."""
    return functools.reduce(lambda ds, d: Made("item", (d, ds)), values[::-1], Made("no_items"))


# What the toolchain's own library has, by name: how many arguments, and what they give.
LIBRARY = {
    "not": (1, lambda a: not a), "map": (2, lambda f, xs: [f(x) for x in xs]),
    "filter": (2, lambda f, xs: [x for x in xs if f(x)]), "length": (1, len),
    "min": (2, min), "max": (2, max), "nat_lt": (2, lambda a, b: a < b), "nat_le": (2, lambda a, b: a <= b),
    "ltb": (2, lambda a, b: a < b), "option_or": (2, lambda x, y: x if x.name == "Some" else y),
    "nat_eq": (2, lambda a, b: a == b), "beq": (2, lambda a, b: a == b), "bytes_eq": (2, lambda a, b: a == b),
    "get_or": (3, at_place), "slice_index_or": (3, at_place), "slice_index": (2, lambda xs, i: at_place(xs, i, 0)),
    "slice_get": (2, lambda xs, i: some(xs[i]) if i < len(xs) else NONE), "slice_set": (3, put),
    "set": (3, put), "range_with_len": (2, lambda i, n: list(range(i, i + n))), "slice_range": (3, lambda xs, i, j: xs[i:j]),
    "before_first": (2, lambda f, xs: xs[:first_place(f, xs)]),
    "take": (2, lambda n, xs: xs[:n]), "drop": (2, lambda n, xs: xs[n:]), "replicate": (2, lambda n, x: [x] * n),
    "sum_by": (2, lambda f, xs: sum(f(x) for x in xs)), "count_by": (2, lambda f, xs: sum(1 for x in xs if f(x))),
    "list_any": (2, lambda f, xs: any(f(x) for x in xs)), "list_all": (2, lambda f, xs: all(f(x) for x in xs)),
    "find": (2, found_first), "position": (2, place_of), "position_or_len": (2, first_place),
    "flat_map": (2, lambda f, xs: [y for x in xs for y in f(x)]), "reverse": (1, lambda xs: xs[::-1]),
    "filter_map": (2, lambda f, xs: all_chosen([f(x) for x in xs])), "fold": (3, fold),
    "is_some": (1, lambda x: x.name == "Some"), "is_none": (1, lambda x: x.name == "None"),
    "option_map": (2, lambda f, x: some(f(x.arguments[0])) if x.name == "Some" else NONE),
    "option_map_or": (3, lambda f, x, d: f(x.arguments[0]) if x.name == "Some" else d),
    "option_and_then": (2, lambda f, x: f(x.arguments[0]) if x.name == "Some" else NONE),
    "ok_or": (2, lambda x, e: Made("Ok", x.arguments) if x.name == "Some" else Made("Err", (e,))),
    "unwrap_or": (2, chosen), "codes": (1, lambda x: x), "suc": (1, lambda n: n + 1), "bit_at": (2, lambda n, i: n >> i & 1),
    "is_in_range": (3, lambda low, high, c: low <= c <= high), "hex_digit_at": (2, lambda place, n: in_digits(16, False, n // place % 16)[0]),
    "chars": (1, chars_of), "encode_utf16": (1, units_of), "escape_byte": (1, in_json),
    "encode_utf8_all": (1, lambda cs: list("".join(map(chr, cs)).encode())),
    "decimal": (1, lambda n: in_digits(10, False, n)), "digits": (3, in_digits),
    "little_number": (2, little), "little_bytes": (2, lambda n, x: [x >> (8 * i) & 255 for i in range(n)]),
    "format_spec": (5, lambda fill, align, flags, width, precision: (fill, flags, width)), "padded_integral": (4, padded),
    "get": (2, lambda k, d: next((some(x) for name, x in members_of(d) if name == k), NONE)),
    "as_bool": as_kind("boolean"), "as_number": as_kind("number"), "as_str": as_kind("string"), "as_array": as_kind("array"),
    "as_object": as_kind("object"), "as_u64": as_kind("unsigned"), "as_i64": (1, as_i64), "decode_pairs": (2, bytes_of_digits),
    "put": (3, members_with), "items_of": (1, items_of), "encode_lower": (1, lambda bs: list(bytes(bs).hex().encode())),
    "bit_or": (2, lambda a, b: a | b), "bit_xor": (2, lambda a, b: a ^ b), "signed_decimal": (1, in_signs),
    "number_text": (1, in_json_digits), "sha256": (1, lambda bs: list(hashlib.sha256(bytes(bs)).digest())), "string_bytes": (1, text_of),
    "is_ascii_hexdigit": (1, lambda c: 48 <= c <= 57 or 65 <= c <= 70 or 97 <= c <= 102),
    "suffix_len": (2, lambda f, xs: first_place(lambda x: not f(x), xs[::-1])),
    "IsUtf8": (1, is_utf8), "AllPairs": (2, lambda f, xs: all(f(x)(y) for i, x in enumerate(xs) for y in xs[i + 1:])),
    "HoldsAt": (3, lambda f, xs, i: i < len(xs) and f(xs[i])), "AllByRecursion": (2, lambda f, xs: all(map(f, xs))),
    "IsSome": (1, lambda x: x.name == "Some"), "IsNone": (1, lambda x: x.name == "None"),
    "IsErrOf": (2, lambda r, e: r == Made("Err", (e,))),
    "neg_ℤ": (1, lambda z: signed(-as_int(z))), "vec_len": (1, lambda v: len(v["items"])), "read": (1, read_json),
    "IsTrue": (1, lambda a: a), "Contains": (2, lambda xs, x: x in xs),
    "IsSomeAnd": (2, lambda x, f: x.name == "Some" and f(x.arguments[0])),
    "IfSome": (2, lambda x, f: x.name == "None" or f(x.arguments[0])),
    "MatchOption": (3, lambda x, none, f: f(x.arguments[0]) if x.name == "Some" else none),
    "one_of": (2, text_of_option), "Appends": (3, appends),
    "All": (2, lambda f, xs: all(f(x) for x in xs)), "AllZip": (3, passes_all),
    "to_ascii_lowercase": (1, lambda c: c + 32 if 65 <= c <= 90 else c), "osa_table": (2, edits), "at": (2, item_at), "keys": (1, keys_of),
    "is_ascii_alphanumeric": (1, lambda c: c < 128 and chr(c).isalnum()), "is_ascii_digit": (1, lambda c: 48 <= c <= 57),
    "starts_with": (3, lambda f, xs, front: xs[:len(front)] == front), "abs_diff": (2, lambda a, b: abs(a - b)),
    "ends_with": (3, lambda f, xs, back: xs[::-1][:len(back)] == back[::-1]),
    "slice_split": (2, parts_between), "after_first": (2, lambda f, xs: xs[first_place(f, xs) + 1:]), "join_by": (3, joined),
    "int_le": (2, lambda a, b: as_int(a) <= as_int(b)), "encode_utf8": (1, lambda c: list(chr(c).encode())),
    "zip": (2, lambda xs, ys: [(x, y) for x, y in zip(xs, ys)]), "digit_glyph": (2, lambda u, d: in_digits(16, u, d)[0]),
}
# Where the toolchain's own definitions are, for those that are computed by their text.
KIT = os.path.dirname(os.path.dirname(os.path.realpath(shutil.which("rt") or "/")))
# What many rows come to again with the same values: computed once for each mutant.
AGAIN = {("dsa_book", "Machine", "next"), ("dsa_book", "State", "opening")}
# Values of types of which something is said of all.
SOME_OF = {
    "String": [Made("String", ([],)), Made("String", ([97, 126],))],
    "Key": [{"name": Part(now=[97]), "in_caps": it} for it in (False, True)],
    "Vec": [Part(items=[], alloc=None)],
    "WatchedWriter": [{"writer": Part(now=[n]), "refused": r, "closed": c} for n in (0, 1) for r in (0, 1) for c in (0, 1)],
    "CountedReader": [
        {"reader": Part(now=[n]), "asked": n, "given": n, "last": n, "failed": it} for n in (0, 1) for it in (False, True)
    ],
    "Cell": [{"0": it} for it in range(40)],
    "Global": [None],
    "Finding": [
        {"fault": fault, "place": {"line": line, "column": column, "kind": NONE}, "reasons": Part(items=items, alloc=None)}
        for fault in (Made("BadCaps"), Made("BadStep", (0,)), Made("BadStep", (1,))) for line in (NONE, some(1))
        for column in (NONE, some(1)) for items in [[Made("NotUtf8")] * n for n in range(3)]
    ],
    "Block": [
        Made("Nothing"), Made("Fence", (4,)), Made("Failed", (4, 2)), Made("Buffers", (0, 4)), Made("Buffers", (1, 4)),
        Made("NoGroup"),
    ],
    "Operation": [
        {"name": Part(now=[97]), "word": Part(now=[98]), "is_transfer": a, "reads": b, "is_for_batches": c}
        for a in (False, True) for b in (False, True) for c in (False, True)
    ],
}
# The constructors of JSON values and of whole numbers.
MADE = {
    "null", "boolean", "number", "string", "array", "object", "no_items", "item", "no_members", "member", "unsigned", "negative",
    "pos", "negsuc", "Ok", "Err",
}
# What stands in a record and is never computed: proofs, and the place of a vector in memory.
UNSEEN = {"refl", "omega", "lit≤", "null_ptr", "∣", "IsUtf8-nil"}
VALUES = {"true": True, "false": False, "[]": [], "zero": 0, "tt": None, "⊤": True, "⊥": False, "Unit": True,
          "quote": 34, "backslash": 92}
# As many numbers are tried where something is said of all.
MANY = 70


def constant_of(path):
    """A constant of the code, a text or a number, as definitions read it."""
    crate, *modules, name = [it for it in path.split(".")[1:] if it not in ("specs", "declared", "TheConstants")]
    folder = os.path.dirname(os.path.dirname(os.path.dirname(os.path.abspath(__file__))))
    with open(f"{folder}/{crate}/src/{'/'.join(modules)}.rt", encoding="utf-8") as it:
        found = re.search(rf'const {name}: [^=]* = (?:"((?:[^"\\]|\\.)*)"|([0-9a-fx_]+));', it.read())
    if not found:
        raise Stuck(name)
    return {"now": list(found[1].encode())} if found[1] is not None else int(found[2].replace("_", ""), 0)


def curried(arity, function, given=()):
    """A function that takes its arguments one at a time."""
    if arity == len(given):
        return function(*given)
    return lambda x: curried(arity, function, (*given, x))


def applied(f, *arguments):
    for it in arguments:
        f = f(it)
    return f


def settled(values, said):
    """These values, each with what is said of it."""
    for path, value in said:
        if path == ["length"]:
            values = [[49] * value()]
        elif not path:
            values = [value()]
        else:
            values = [with_field(it, path, value()) for it in values]
    return values


def candidates(computer, kind, asked, known, most):
    """Values that are asked for, and of numbers and of types of the code some others."""
    found, head, computer.samples.are_used = [], kind.split(" ")[0], True
    for it in asked:
        try:
            found += it()
        except UNFIT:
            pass
    if head in OF_FIELDS or head in SOME_OF or head in CHOICES or head in MARKS:
        return [*found, *some_of(head, known())]
    try:
        return (found + computer.samples.of(kind, most))[:40]
    except Stuck:
        if not found:
            raise
        return found[:40]


def space_of(computer):
    """What the code of a definition or of a row may name."""
    return {
        "Stuck": Stuck, "Made": Made, "C": computer, "L": LIBRARY, "V": VALUES, "curried": curried, "applied": applied,
        "same": same, "field": field_of, "record": dict, "then": then, "SOME_OF": SOME_OF, "some_of": some_of, "ANY": Any(),
        "all_over": all_over, "any_over": any_over, "settled": settled, "candidates": candidates, "cut_off": cut_off,
        "grown_by": grown_by, "fronts_of": fronts_of,
    }


class Computer:
    """Modules whose definitions are computed. A mutant takes the place of one module for a while."""

    def __init__(self, modules, types):
        self.modules, self.samples = modules, Samples(types, self.constants)
        self.reached, self.values, self.known = set(), {}, {}
        self.code, self.basic, self.kit = {}, {}, {}
        for module in modules.values():
            self.load(module, self.code)
        self.basic = dict(self.code)

    @functools.lru_cache(maxsize=None)
    def constants(self, kind):
        """What definitions without arguments have that are of this type."""
        found, reached = [], self.reached
        self.reached = set()
        for module in self.modules.values():
            for it in module.definitions.values():
                is_one = it.kind == "value" and it.type.kind == "name" and it.type.value == kind and len(it.clauses) == 1
                try:
                    found += [self.value((module.crate, module.name, it.name))] if is_one and not it.clauses[0].patterns else []
                except (*UNFIT, Lacking, SyntaxError):
                    pass
        self.reached = reached
        return found[:10]

    def load(self, module, code):
        for it in module.definitions.values():
            if it.kind in ("value", "record"):
                code[(module.crate, module.name, it.name)] = Defined(self, module, it)

    def replaced(self, module, only):
        """Takes this module's definition of that name in place of the one that is there."""
        self.code = dict(self.basic)
        self.code[(module.crate, module.name, only)] = Defined(self, module, module.definitions[only])
        self.forget()

    def restore(self):
        self.code = self.basic
        self.forget()

    def forget(self):
        """Leaves what was computed."""
        self.values, self.known = {}, {}

    def once(self, key, function):
        """A function that computes the same arguments once. They are kept, so that no others are taken for them."""

        def known(*arguments):
            place = (key, *map(id, arguments))
            if place not in self.known:
                self.known[place] = (arguments, function(*arguments))
            return self.known[place][1]

        return known

    def value(self, key):
        """What a name with no arguments means."""
        if key not in self.values:
            self.values[key] = self.code[key].function()
        return self.values[key]

    def resolve(self, module, name):
        """What a name means in a module."""
        if name in module.definitions and module.definitions[name].kind in ("value", "record"):
            return "own", (module.crate, module.name, name)
        if name in module.definitions:
            raise Stuck(name)
        for it in module.definitions.values():
            if it.kind == "data" and any(label == name for label, *_ in it.fields):
                return "made", name
        for path in module.uses.get(name, []):
            parts = path.split(".")
            if "TheConstants" in parts[:-1]:
                return "constant", path
            if "TheVariants" in parts[:-1] or parts[-1] in ("Some", "None") or parts[-1] in MADE and not parts[1].startswith("dsa_"):
                return "made", parts[-1]
            if parts[0] == "Rattle" and len(parts) == 5 and parts[2] == "specs":
                key = (parts[1], parts[3], parts[4])
                if key in self.code:
                    return "own", key
                other = self.modules.get((parts[1], parts[3]))
                if other and any(
                    it.kind == "data" and any(label == parts[4] for label, *_ in it.fields) for it in other.definitions.values()
                ):
                    return "made", parts[4]
            if parts[-1] in VALUES:
                return "value", parts[-1]
            if parts[-1] in LIBRARY:
                return "library", parts[-1]
            found = self.of_the_kit(parts)
            if found:
                return found
        if name in VALUES:
            return "value", name
        raise Stuck(f"{name} in {module.crate}.{module.name}")

    def of_the_kit(self, parts):
        """What a path of the toolchain's own definitions means, by their text, or nothing."""
        crate, place, name = parts[1], parts[3:-1], parts[-1]
        if parts[0] != "Rattle" or parts[2] != "specs" or crate.startswith("dsa_") or "declared" in place:
            return None
        module = self.kit.setdefault((crate, *place), self.kit_module(crate, place))
        for path in module.uses.get(name, []) if module and name not in module.definitions else []:
            if path != ".".join(parts) and path.split(".")[-1] == name:
                found = self.of_the_kit(path.split("."))
                if found:
                    return found
        if module is None or name not in module.definitions:
            made = module and any(name == label for it in module.definitions.values() if it.kind == "data" for label, *_ in it.fields)
            return ("made", name) if made else None
        return "own", (module.crate, module.name, name)

    def kit_module(self, crate, place):
        """A module of the toolchain's definitions, whose code is known from then on."""
        if (crate, *place) in self.kit:
            return self.kit[(crate, *place)]
        for one in (crate, "core"):
            path = f"{KIT}/rattle/{one}/specs/{'/'.join(place)}.antt"
            if os.path.exists(path):
                try:
                    with open(path, encoding="utf-8") as it:
                        module = Module(one, ".".join(place), it.read())
                except Unknown:
                    continue
                self.load(module, self.basic)
                self.load(module, self.code)
                return module
        return None


class Defined:
    """A definition as a function, made when it is first used."""

    def __init__(self, computer, module, definition):
        self.computer, self.module, self.definition = computer, module, definition
        self.key = (module.crate, module.name, definition.name)
        self.arity = len(definition.clauses[0].patterns) if definition.clauses else None
        if definition.kind == "record":
            self.arity = len(definition.parameters)
        self.made = None

    @property
    def function(self):
        if self.made is None:
            self.made = self.make()
        self.computer.reached.add(self.key)
        return self.made

    def make(self):
        if self.arity is None:
            raise Stuck(self.definition.name)
        writer = Writer(self.computer, self.module, self.definition.section)
        if self.definition.kind == "record":
            return self.holds(writer)
        names = [f"a{i}" for i in range(self.arity)]
        lines = [f"def it({', '.join(names)}):"]
        for clause in self.definition.clauses:
            tests, local = [], {}
            for name, pattern in zip(names, clause.patterns):
                writer.pattern(pattern, name, tests, local)
            body = writer.term(clause.body, local)
            lines.append(f"    if {' and '.join(tests) or 'True'}: return {body}")
        lines.append(f"    raise Stuck('no clause of {self.definition.name}')")
        space = space_of(self.computer)
        exec("\n".join(lines), space)
        return self.computer.once(self.key, space["it"]) if self.key in AGAIN else space["it"]


    def holds(self, writer):
        """Of a record whose fields say something: whether all of it holds, of some values where fields are values."""
        names = [f"a{i}" for i in range(self.arity)]
        local = dict(zip(self.definition.parameters, names))
        parts = []
        for label, node, *_ in self.definition.fields:
            if is_type(node):
                values = self.values_for(writer, label, node, local)
                local[label] = f"v{len(local)}"
                parts.append((local[label], values))
            else:
                parts.append((None, writer.term(node, local)))
        space = space_of(self.computer)
        return eval(f"lambda {', '.join(names)}: {self.tested(parts)}", space)

    def values_for(self, writer, label, node, local):
        """Code of the values that are tried for a field."""
        return writer.found_for(label, node, [it for _, it, *_ in self.definition.fields], local)

    def tested(self, parts):
        """Each test as soon as its values are there."""
        values = [it for it in parts if it[0]]
        tests = [code for name, code in parts if not name]
        if not values:
            return " and ".join(tests) or "True"
        clauses, seen = [], set()
        for name, code in [(None, None), *values]:
            seen.add(name)
            if name:
                clauses.append(f"for {name} in {code}")
            for test in [it for it in tests if set(re.findall(r"\bv\d+\b", it)) <= seen]:
                clauses.append(f"if {test}" if name else f"for _ in ([0] if {test} else [])")
                tests.remove(test)
        return f"any(True {' '.join(clauses)})"


# The constructors of types of which a record has a value, and what those with an argument take.
CHOICES = {
    "Portal": ("Limited", "Unlimited"), "Outcome": ("Success", "PageFault"), "Cause": ("NotEnabled", "WrongKind", "AtLimit"),
    "Kind": ("Movdir64b", "Enqcmd"),
    "Command": (
        "EnableDevice", "DisableDevice", "DrainAll", "AbortAll", "ResetDevice", "EnableWq", "DisableWq", "DrainWq", "AbortWq",
        "ResetWq", "DrainPasid", "AbortPasid",
    ),
}
NUMBERS = range(8)
TAKEN = {it: NUMBERS for it in ("Enqcmd", "EnableWq", "DrainPasid", "AbortPasid")}
TAKEN |= {f"{it}Wq": [{"group": 0, "mask": mask} for mask in NUMBERS] for it in ("Disable", "Drain", "Abort", "Reset")}
# A field of the records of a type, by which its values are known.
MARKS = {
    "Descriptor": "op", "QueueConfig": "priority", "GroupConfig": "reserved", "BatchNote": "fetched", "NotedError": "overflow",
    "Found": "finding",
}

# Plain values of a type, which are tried with those that are found.
NO_OPS = [{"pasid": 0, "flags": flags, "op": 0, "size": 0} for flags in (0, 1)]
PLAIN = {
    "Descriptor": NO_OPS,
    "NotedError": [{"queue": 0, "cause": Made("NotEnabled"), "overflow": False}],
    "BatchNote": [{"batch": n, "count": 2, "fetched": 1, "failed": False, "closed": False} for n in NUMBERS],
    "HeldEntry": [
        ({"0": n}, {"name": n, "parent": NONE, "desc": desc, "queue": 0, "running": False}) for n in NUMBERS for desc in NO_OPS
    ],
}


# The types of which what is around has values.
OF_FIELDS = {"ℕ", "List", "HeldEntry", "Ticket", "ActiveCommand"}


def is_type(node):
    """Whether a field has a value, and says nothing."""
    if node.kind == "apply":
        return node.parts[0].kind == "name" and node.parts[0].value in ("List", "Option", "Vec", "Result")
    return node.kind == "name" and node.value not in VALUES or node.kind == "operator" and node.value[0] == "×" and all(
        map(is_type, node.parts))


def inside(x):
    """What a value has in it, with itself."""
    yield x
    for it in x.values() if isinstance(x, dict) else x if isinstance(x, (list, tuple)) else getattr(x, "arguments", ()):
        yield from inside(it)


def some_of(kind, arguments):
    """Values of a type, of which one is to be found: small numbers, each constructor, what the arguments hold, and the ends of
    the lists there."""
    if kind == "ℕ":
        return range(12)
    if kind in SOME_OF:
        return SOME_OF[kind]
    if kind in CHOICES:
        return [Made(it, some) for it in CHOICES[kind] for some in [(n,) for n in TAKEN.get(it, ())] or [()]]
    if kind == "ActiveCommand":
        return [{"command": command, "mark": mark} for command in some_of("Command", ()) for mark in range(12)]
    everything = list(inside(arguments))
    if kind == "List":
        return [it[i:] for it in everything if isinstance(it, list) and len(it) < 300 for i in range(len(it) + 1)]
    pairs = [it for it in everything if isinstance(it, tuple) and len(it) == 2 and isinstance(it[1], dict) and "running" in it[1]]
    if kind == "HeldEntry":
        return pairs + PLAIN[kind]
    if kind == "Ticket":
        return [{"cell": cell, "name": entry["name"]} for cell, entry in pairs]
    if kind in MARKS:
        return [it for it in everything if isinstance(it, dict) and MARKS[kind] in it] + PLAIN.get(kind, [])
    raise Stuck(f"some {kind}")


def field_of(x, name):
    if isinstance(x, dict):
        if name not in x:
            raise Stuck(name) if isinstance(x, Part) else Lacking(name)
        return x[name]
    if isinstance(x, tuple):
        return x[int(name)]
    raise Stuck(f"{name} of {x!r}")


def without_brackets(node):
    while node.kind == "brackets":
        node = node.parts[0]
    return node


def is_name(node, name):
    return node.kind == "name" and node.value == name


class Writer:
    """Writes terms as Python."""

    def __init__(self, computer, module, section=()):
        self.computer, self.module, self.section, self.count = computer, module, section, 0
        # The text that is written, and of how many values around something is said.
        self.source, self.depth = getattr(module, "text", ""), 0

    def pattern(self, node, place, tests, local):
        if node.kind == "brackets":
            self.pattern(node.parts[0], place, tests, local)
        elif node.kind == "tuple":
            for i, part in enumerate(node.parts):
                self.pattern(part, f"{place}[{i}]", tests, local)
        elif node.kind == "operator" and node.value[0] == "∷":
            tests.append(f"{place} != []")
            self.pattern(node.parts[0], f"{place}[0]", tests, local)
            self.pattern(node.parts[1], f"{place}[1:]", tests, local)
        elif node.kind == "name":
            self.named(node.value, [], place, tests, local)
        elif node.kind == "apply" and node.parts[0].kind in ("name", "field"):
            self.named(node.parts[0].value, node.parts[1:], place, tests, local)
        elif node.kind == "field":
            self.constructor(node.value[0], [], place, tests, local)
        else:
            raise Stuck(node.kind)

    def named(self, name, arguments, place, tests, local):
        if isinstance(name, tuple):
            return self.constructor(name[0], arguments, place, tests, local)
        if name == "_":
            return None
        if name == "suc":
            tests.append(f"{place} > 0")
            return self.pattern(arguments[0], f"({place} - 1)", tests, local)
        if name in VALUES:
            tests.append(f"{place} == V[{name!r}]")
            return None
        try:
            kind, _ = self.computer.resolve(self.module, name)
        except Stuck:
            kind = None
        if kind == "made":
            return self.constructor(name, arguments, place, tests, local)
        if arguments:
            raise Stuck(name)
        local[name] = place
        return None

    def constructor(self, name, arguments, place, tests, local):
        name = next((p.split(".")[-1] for p in self.module.uses.get(name, []) if "TheVariants." in p), name)
        tests.append(f"{place}.name == {name!r}")
        for i, part in enumerate(arguments):
            self.pattern(part, f"{place}.arguments[{i}]", tests, local)

    def term(self, node, local):
        if not hasattr(self, f"of_{node.kind}"):
            raise Stuck(node.kind)
        return getattr(self, f"of_{node.kind}")(node, local)

    def of_number(self, node, local):
        return str(node.value)

    def of_text(self, node, local):
        text = node.value[1:-1].encode().decode("unicode_escape") if "\\" in node.value else node.value[1:-1]
        return repr([ord(it) for it in text])

    def of_brackets(self, node, local):
        return self.term(node.parts[0], local)

    def of_tuple(self, node, local):
        return "(" + "".join(self.term(it, local) + ", " for it in node.parts) + ")"

    def of_if(self, node, local):
        test, yes, no = (self.term(it, local) for it in node.parts)
        return f"({yes} if {test} else {no})"

    def of_let(self, node, local):
        self.count += 1
        name = f"x{self.count}"
        value = self.term(node.parts[0], local)
        return f"(lambda {name}: {self.term(node.parts[1], {**local, node.value: name})})({value})"

    def of_function(self, node, local):
        names = {}
        for it in node.value:
            self.count += 1
            names[it] = f"x{self.count}"
        body = self.term(node.parts[0], {**local, **{k: v for k, v in names.items() if k != "_"}})
        return "(" + "".join(f"lambda {it}: " for it in names.values()) + body + ")"

    def of_record(self, node, local):
        base = len(node.parts) > len(node.value)
        parts = [self.term(it, local) for it in node.parts]
        values = ", ".join(f"{name[0]!r}: {it}" for name, it in zip(node.value, parts[base:]))
        return f"{{**{parts[0]}, {values}}}" if base else f"{{{values}}}"

    def of_field(self, node, local):
        inner = node.parts[0]
        if inner.kind == "name" and inner.value not in local:
            paths = self.module.uses.get(inner.value, [])
            if any(path.endswith(("TheVariants", ".specs.Json", ".specs.Token")) for path in paths):
                return f"Made({node.value[0]!r})"
            if node.value[0][0].isupper() and any(".declared." in path for path in paths):
                return f"Made({node.value[0]!r})"
        if node.value[0] == "it" and inner.kind == "field" and inner.value[0] == "eq-value":
            return "curried(2, same)"
        return f"field({self.term(inner, local)}, {node.value[0]!r})"

    def of_operator(self, node, local):
        word, first = node.value[0], node.parts[0]
        if word in ("≡", "≢", "≤", "<") and first.kind == "apply" and first.parts[0].kind == "name" and first.parts[0].value == "¬":
            # That something does not hold is said of all that follows.
            inner = first.parts[1] if len(first.parts) == 2 else Node("apply", first.parts[1].start, first.end, None, first.parts[1:])
            return f"(not {self.term(Node('operator', inner.start, node.end, node.value, [inner, node.parts[1]]), local)})"
        left, right = (self.term(it, local) for it in node.parts)
        if word == "↔":
            return f"(bool({left}) == bool({right}))"
        if word == "∷":
            return f"([{left}] + {right})"
        if word == "→":
            return f"(not {left} or {right})"
        simple = {"&&": "and", "||": "or", "×": "and", "⊎": "or", "++": "+", "+": "+", "*": "*", "^": "**", "≤": "<=", "<": "<"}
        if word in simple:
            return f"({left} {simple[word]} {right})"
        if word == "==" or word == "≡":
            return f"same({left}, {right})"
        if word == "≢":
            return f"(not same({left}, {right}))"
        if word == "-":
            return f"max(0, {left} - {right})"
        if word in "/%":
            return f"(lambda a, b: (a {'//' if word == '/' else '%'} b) if b else {'0' if word == '/' else 'a'})({left}, {right})"
        if word == ">>=":
            return f"then({left}, {right})"
        raise Stuck(word)

    def of_binder(self, node, local):
        """Of all numbers: those up to a bound that no row comes to; of all values of another type, some."""
        (names, _, arrow), kind, said = node.value, node.parts[0], node.parts[1]
        head, inner, wrapped = kind.parts[0] if kind.kind == "apply" else kind, dict(local), []
        for it in names:
            self.count += 1
            if arrow == "×":
                values = self.found_for(it, kind, [said], inner)
            elif self.says_none_of(head, said):
                values = "[ANY]"
            elif head.kind == "name" and head.value == "ℕ" and self.depth < 2:
                values = f"range({MANY})"
            else:
                values = self.values_of(it, kind, said, inner)
            inner[it] = f"x{self.count}"
            wrapped.append((f"{'any' if arrow == '×' else 'all'}_over", inner[it], values))
            self.depth += 1
        body = self.term(said, inner)
        self.depth -= len(names)
        for over, name, values in reversed(wrapped):
            body = f"{over}(lambda {name}: {body}, {values})"
        return body

    def text(self, node):
        return self.source[node.start:node.end]

    def says_none_of(self, kind, node):
        """Whether something is said of no state."""
        return kind.kind == "name" and kind.value == "State" and node.kind == "apply" and node.parts[0].value == "¬"

    def values_of(self, name, kind, node, local):
        """The list that this value is said to be in, before an arrow, or what it is said to be the value of, or some of its type."""
        settled = []
        while node.kind in ("binder", "operator") and (node.kind == "binder" or node.value[0] == "→"):
            first = node.parts[0]
            if first.kind == "apply" and [it.value for it in first.parts[:2]] == ["In", name]:
                return self.term(first.parts[2], local)
            words = [it.value for it in first.parts[1].parts] if first.kind == "operator" else []
            if words == ["Some", name] and first.value[0] == "≡":
                return f"{self.term(first.parts[0], local)}.arguments"
            if node.kind == "operator" and first.kind == "operator" and first.value[0] == "≡":
                settled += self.settled(name, first, local)
            node = node.parts[1]
        head, known = kind.parts[0] if kind.kind == "apply" else kind, ", ".join(settled)
        if head.kind == "name" and head.value in SOME_OF:
            return f"settled(SOME_OF[{head.value!r}], [{known}])"
        return f"settled(C.samples.of({self.text(kind)!r}, {max(2, 12 >> self.depth)}), [{known}])"

    def settled(self, name, node, local):
        """What a premise says that a value, or a field of it, is; or how long it is."""
        path, place = [], node.parts[0]
        while place.kind == "field":
            path, place = [place.value[0], *path], place.parts[0]
        if place.kind == "apply" and [it.value for it in place.parts if it.kind == "name"] == ["length", name] and len(place.parts) == 2:
            path, place = ["length"], place.parts[1]
        if place.kind != "name" or place.value != name:
            return []
        try:
            return [f"({path!r}, lambda: {self.term(node.parts[1], local)})"]
        except Stuck:
            return []

    def found_for(self, name, kind, said, local):
        """Values of which one is to be found: those that what is said of it asks for, and some of its type."""
        asked = ", ".join(it for node in said for it in self.asked_of(name, node, local))
        known = "".join(f"{it}, " for it in local.values())
        most = max(3, 12 >> self.depth)
        return f"candidates(C, {self.text(kind)!r}, [{asked}], lambda: ({known}), {most})"

    def code(self, form, parts, local):
        """Code of a list of values, where its parts can be written here."""
        try:
            return ["lambda: " + form.format(*(self.term(it, local) for it in parts))]
        except Stuck:
            return []

    def asked_of(self, name, node, local):
        """Code of lists of values that what is said asks this value to be one of."""
        node = without_brackets(node)
        if node.kind == "binder" or node.kind == "operator" and node.value[0] in ("×", "⊎", "→"):
            return [it for part in node.parts for it in self.asked_of(name, part, local)]
        if node.kind == "operator" and node.value[0] == "≡":
            one, other = node.parts
            return self.asked_to_be(name, one, other, local) + self.asked_to_be(name, other, one, local)
        if node.kind == "apply" and node.parts[0].kind == "name":
            return self.asked_by_word(name, node.parts[0].value, node.parts[1:], local)
        return []

    def asked_to_be(self, name, one, other, local):
        """What a value is, where a term with it is the same as another."""
        if is_name(one, name):
            return self.code("[{}]", [other], local)
        if one.kind == "operator" and one.value[0] == "++" and is_name(one.parts[0], name):
            return self.code("fronts_of([{}])", [other], local)
        if one.kind == "apply" and len(one.parts) > 1 and is_name(one.parts[1], name):
            forms = {("Some", 2): "list({}.arguments)", ("take", 3): "[len({})]"}
            form = forms.get((one.parts[0].value, len(one.parts)))
            return self.code(form, [other], local) if form else []
        return []

    def asked_by_word(self, name, word, given, local):
        """What a value is by what some words say of it: of bytes that are read or written, of lists and of JSON."""
        if word in ("Consumes", "Appends") and len(given) == 3:
            all_bytes = "cut_off({}, {})" if word == "Consumes" else "grown_by({}, {})"
            return self.asked_of_bytes(name, all_bytes, without_brackets(given[2]), given[:2], local)
        if word == "In" and len(given) == 2 and is_name(given[0], name):
            return self.code("{}", given[1:], local)
        if word == "IsJson" and len(given) == 2 and is_name(given[1], name):
            return self.code("list(L['read'][1]({}).arguments)", given[:1], local)
        return []

    def asked_of_bytes(self, name, all_bytes, it, known, local):
        """What a value is that is all of these bytes, or a part of them, or counts the first of them."""
        if is_name(it, name):
            return self.code(all_bytes, known, local)
        if it.kind == "operator" and it.value[0] == "++" and is_name(it.parts[0], name):
            return self.code(f"fronts_of({all_bytes})", known, local)
        if it.kind == "operator" and it.value[0] == "++" and is_name(it.parts[1], name):
            return self.code(f"[xs[len({{}}):] for xs in {all_bytes}]", [it.parts[0], *known], local)
        if it.kind == "apply" and it.parts[0].value == "take" and is_name(it.parts[1], name):
            return self.code(f"[len(xs) for xs in {all_bytes}]", known, local)
        return []

    def of_name(self, node, local):
        return self.called(node.value, [], local)

    def of_apply(self, node, local):
        head, arguments = node.parts[0], node.parts[1:]
        if head.kind == "name" and head.value not in local:
            return self.called(head.value, arguments, local)
        return f"applied({', '.join(self.term(it, local) for it in node.parts)})"

    def of_do(self, node, local):
        """Steps, of which a name stands for what its step gives, and the last one gives what all do."""
        return self.after_steps(list(zip(node.value, node.parts)), local)

    def after_steps(self, steps, local):
        (name, term), *rest = steps
        given = self.term(term, local)
        if not rest:
            return given
        self.count += 1
        place, inner = f"x{self.count}", dict(local)
        if name:
            self.pattern(name, place, [], inner)
        return f"then({given}, lambda {place}: {self.after_steps(rest, inner)})"

    def called(self, name, arguments, local):
        if name == "¬" and name not in local:
            inner = arguments[0]
            if len(arguments) > 1:
                inner = Node("apply", inner.start, arguments[-1].end, None, arguments)
            return f"(not {self.term(inner, local)})"
        if name in UNSEEN and name not in local:
            return "None"
        given = [self.term(it, local) for it in arguments]
        if name in local:
            return f"applied({', '.join([local[name], *given])})" if given else local[name]
        if name == "cond" and len(given) >= 3:
            chosen = f"({given[1]} if {given[0]} else {given[2]})"
            return f"applied({', '.join([chosen, *given[3:]])})" if given[3:] else chosen
        if name.startswith("◌") and len(given) == 2:
            raise Stuck(name)
        kind, key = self.computer.resolve(self.module, name)
        if kind == "value":
            return f"V[{key!r}]"
        if kind == "constant":
            return repr(constant_of(key))
        if kind == "made":
            return f"Made({key!r}, ({''.join(it + ', ' for it in given)}))"
        if kind == "library":
            arity, function = LIBRARY[key][0], f"L[{key!r}][1]"
        else:
            section = self.computer.code[key].definition.section
            given = [local[it] for it in section if section == self.section] + given
            arity, function = self.computer.code[key].arity, f"C.code[{key!r}].function"
            if arity is None:
                raise Stuck(name)
            if arity == 0:
                whole = f"C.value({key!r})"
                return f"applied({', '.join([whole, *given])})" if given else whole
        if len(given) == arity:
            return f"{function}({', '.join(given)})"
        if len(given) > arity:
            return f"applied({function}({', '.join(given[:arity])}), {', '.join(given[arity:])})"
        return f"applied(curried({arity}, {function}), {', '.join(given)})" if given else f"curried({arity}, {function})"


class Uses:
    """The names that a module of rows uses, as a module of definitions."""

    def __init__(self, lines):
        self.crate, self.name, self.uses, self.definitions = "", "", {}, {}
        for line in lines:
            for name, path in names_used(line):
                self.uses.setdefault(name, []).append(path)


def computed(computer, uses, text):
    """Whether the clause of a row holds, as it computes."""
    writer = Writer(computer, uses)
    writer.source = text
    code = writer.term(term_of(text), {})
    space = space_of(computer)
    return compile(code, "row", "eval"), space
