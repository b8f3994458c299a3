"""The kinds of steps of a scenario document: the keys of each beside `do`, and their forms.

A form is the bits of a whole number, TRUTH or HEX. The tables of docs/SCENARIO.md say them for
those who write documents, and the definition of `row_of_kind` for the proofs."""
import re

TRUTH, HEX = "a truth value", "hexadecimal digits"
PAGE, DEFINITIONS = "docs/SCENARIO.md", "crates/dsa_scenario/specs/Actions.antt"
STEPS = re.compile(r"^\| `do` \|.*\n\|[-|]+\n((?:\|.*\n)+)", re.M)
VALUES = re.compile(r"^\| key \| value \|\n\|[-|]+\n((?:\|.*\n)+)", re.M)
KIND = re.compile(r"= kind_row \(codes \"(\w+)\"\)(.*?)(?=^row_of_kind|\Z)", re.S | re.M)
KEY = re.compile(r"\(codes \"(\w+)\", (?:bits (\d+)|form\.(\w+))\)")
FORMS = {"Truth": TRUTH, "Digits": HEX}


def names_in(cell):
    return re.findall(r"`(\w+)`", cell)


def form_said(cell):
    """The form that a cell of the page says."""
    bits = re.search(r"(\d+) bits", cell)
    return int(bits[1]) if bits else TRUTH if TRUTH in cell else HEX


def kinds_on_page(top):
    """The kinds of the page, in its order."""
    page = (top / PAGE).read_text()
    steps = STEPS.search(page)
    values = VALUES.search(page, steps.end())
    forms = {}
    for _, keys, value, *_ in (line.split("|") for line in values[1].splitlines()):
        forms.update(dict.fromkeys(names_in(keys), form_said(value)))
    kinds = {}
    for _, kind, keys, *_ in (line.split("|") for line in steps[1].splitlines()):
        kinds[names_in(kind)[0]] = {key: forms[key] for key in names_in(keys)}
    return kinds


def kinds_defined(top):
    """The kinds of the definitions, in their order."""
    return {
        kind: {key: int(bits) if bits else FORMS[form] for key, bits, form in KEY.findall(row)}
        for kind, row in KIND.findall((top / DEFINITIONS).read_text())
    }


def differences(top):
    """Where the page says other kinds, keys or forms than the definitions, or another order."""
    said, defined = kinds_on_page(top), kinds_defined(top)
    for kind in sorted({*said, *defined}):
        if list(said.get(kind, {}).items()) != list(defined.get(kind, {}).items()):
            yield f"{PAGE}: '{kind}' has {said.get(kind)}, but {DEFINITIONS} {defined.get(kind)}"
    if list(said) != list(defined):
        yield f"{PAGE}: the kinds are {list(said)}, but of {DEFINITIONS} {list(defined)}"
