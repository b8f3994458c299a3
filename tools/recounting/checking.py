"""Documents that are broken in a known way, and what 'check' says of them, with the places.

Each step is on a line of its own, so that the line and the column of each value are known.
docs/COMMANDS.md, chapter 'check', has the reasons."""
from __future__ import annotations

import json
import random
from typing import Any, Callable, Dict, List, NamedTuple, Optional, Tuple

from .features import Features
from .program import Comparer
from .run import Document

LEFT, BEFORE, FROM = 3, 60, 40
BITS = {"priority": 8, "batch": 8, "xfer": 8, "pasid": 32, "name": 32, "word": 32}
RANGES = {
    "queues": (1, 64),
    "groups": (1, 8),
    "engines": (1, 64),
    "total_size": (1, 4096),
    "read_buffers": (1, 255),
    "slots": (1, 16),
    "max_batch_shift": (1, 10),
    "max_xfer_shift": (0, 31),
}
MOST_STEPS = 1048576
NAMED = ("enqcmd", "movdir", "fetch")
NO_OWN_NAME = (
    '"as" is no own name, 1 to 40 printable ASCII characters other than " and \\ are wanted'
)
KINDS = "queue, group, enqcmd, movdir, dispatch, fetch, start, finish, command, poll and clear"
Pairs = List[Tuple[str, str]]


class Finding(NamedTuple):
    """A line of 'check'."""

    line: int
    column: int
    part: str
    reason: str
    key: Optional[str] = None
    step: Optional[int] = None
    kind: Optional[str] = None
    is_warning: bool = False

    @property
    def text(self) -> str:
        part = "" if self.part == "text" else f", {self.part}"
        if self.step is not None:
            part += f" {self.step}" + (f" ({self.kind})" if self.kind else "")
        reason = f"not JSON: {self.reason}" if self.part == "text" else self.reason
        begin = "warning: " if self.is_warning else ""
        return f"{begin}line {self.line}, column {self.column}{part}: {reason}"

    @property
    def json(self) -> str:
        said: Dict[str, Any] = {"line": self.line, "column": self.column, "part": self.part}
        for key in "step", "kind", "key":
            if getattr(self, key) is not None:
                said[key] = getattr(self, key)
        said["level"] = "warning" if self.is_warning else "fault"
        said["reason"] = self.reason
        return json.dumps(said, separators=(",", ":"))

    def source(self, text: str) -> List[str]:
        """The line of the document, and a mark below the place."""
        line = text.split("\n")[self.line - 1]
        first = max(0, self.column - 1 - BEFORE)
        shown = line[first : self.column - 1 + FROM]
        return [self.text, shown, " " * (self.column - 1 - first) + "^"]


class Change(NamedTuple):
    """A changed step: its pairs or another item, and what 'check' says of which place."""

    pairs: Pairs
    reason: str
    key: str
    place: str
    is_warning: bool = False
    item: Optional[str] = None
    # whether the value is one of a friendly document
    is_friendly: bool = False


class Line:
    """A step object in a line, with the columns of its keys and values."""

    def __init__(self, pairs: Pairs) -> None:
        self.keys: List[Tuple[str, int]] = []
        self.values: List[Tuple[str, int]] = []
        text = " " * (LEFT - 1) + "{"
        for index, (key, value) in enumerate(pairs):
            text += ", " if index else ""
            self.keys.append((key, len(text) + 1))
            text += json.dumps(key) + ": "
            self.values.append((key, len(text) + 1))
            text += value
        self.text = text + "}"

    def column(self, place: str, key: str) -> int:
        """The column of the last key or value of this name, or of the object."""
        if place == "object":
            return LEFT
        return dict(self.keys if place == "key" else self.values)[key]


def pairs_of(step: Dict[str, Any]) -> Pairs:
    return [(key, json.dumps(value)) for key, value in step.items()]


def replaced(pairs: Pairs, key: str, value: str) -> Pairs:
    return [(own, value if own == key else old) for own, old in pairs]


def numbers(pairs: Pairs) -> List[str]:
    return [key for key, value in pairs if value.isdigit()]


def most_of(step: Dict[str, Any], key: str) -> int:
    """The greatest number that fits the field of a key."""
    bits = BITS.get(key, 64 if step["do"] == "group" and key in ("queues", "engines") else 16)
    return (1 << bits) - 1


# changes of a step: each gives what is said of it, or None where the step has nothing of the kind


def too_large(source: random.Random, step: Dict[str, Any]) -> Optional[Change]:
    pairs = pairs_of(step)
    keys = [key for key in numbers(pairs) if most_of(step, key) < 1 << 63]
    if not keys:
        return None
    key = source.choice(keys)
    number = most_of(step, key) + source.choice([1, 2, 1000])
    reason = f'"{key}" is {number}, at most {most_of(step, key)} is wanted'
    return Change(replaced(pairs, key, str(number)), reason, key, "value")


def of_another_type(source: random.Random, step: Dict[str, Any]) -> Optional[Change]:
    pairs = pairs_of(step)
    key, value = source.choice(pairs)
    if key == "do":
        reason = '"do" is 7, a text is wanted'
        return Change(replaced(pairs, key, "7"), reason, key, "value")
    other, said = source.choice([("null", "null"), ("[ ]", "an array"), ("{}", "an object")])
    if value in ("true", "false"):
        wanted = "true or false"
    elif value.isdigit():
        wanted = f"a whole number from 0 to {most_of(step, key)}"
    else:
        wanted = "a text of hexadecimal digits"
    reason = f'"{key}" is {said}, {wanted} is wanted'
    is_set = step["do"] == "group" and key in ("queues", "engines") and other == "[ ]"
    is_friendly = is_set or key == "desc" and other == "{}"
    changed = replaced(pairs, key, other)
    return Change(changed, reason, key, "value", is_friendly=is_friendly)


def missing(source: random.Random, step: Dict[str, Any]) -> Optional[Change]:
    pairs = pairs_of(step)
    key = source.choice(pairs)[0]
    left = [(own, value) for own, value in pairs if own != key]
    return Change(left, f'"{key}" is missing', key, "object")


def misspelled(source: random.Random, step: Dict[str, Any]) -> Optional[Change]:
    pairs = pairs_of(step)
    keys = [key for key, _ in pairs if len(key) >= 4]
    if not keys:
        return None
    key = source.choice(keys)
    other = source.choice([key[:-1], key.upper(), key + "_", key[1:]])
    renamed = [(other if own == key else own, value) for own, value in pairs]
    reason = f'"{key}" is missing, and "{other}" is no key here'
    return Change(renamed, reason, other, "key")


def bad_digits(source: random.Random, step: Dict[str, Any]) -> Optional[Change]:
    if "desc" not in step:
        return None
    digits = step["desc"]
    at = source.randint(1, len(digits) + 1)
    changes = [
        (digits[:-1] or "0", f"{len(digits[:-1] or '0')} digits, an even number is wanted"),
        (digits.ljust(130, "0"), "130 digits, at most 128 are wanted"),
        (f"{digits[: at - 1]}g{digits[at - 1 :]}0", f"no hexadecimal digit at character {at}"),
    ]
    other, reason = source.choice(changes)
    reason = f'"desc" has {reason}'.replace("has 1 digits", "has 1 digit")
    return Change(replaced(pairs_of(step), "desc", f'"{other}"'), reason, "desc", "value")


def unknown_kind(source: random.Random, step: Dict[str, Any]) -> Optional[Change]:
    kind = step["do"]
    near = kind[:-1]
    other, reason = source.choice(
        [
            ("fly", f'"do" is "fly", none of {KINDS}'),
            (near, f'"do" is "{near}", which is no kind of step, but "{kind}" is'),
            ("x" * 41, '"do" names no kind of step'),
        ]
    )
    return Change(replaced(pairs_of(step), "do", f'"{other}"'), reason, "do", "value")


def no_object(source: random.Random, step: Dict[str, Any]) -> Optional[Change]:
    item, said = source.choice([("7", "7"), ('"poll"', "a text"), ("[]", "an array")])
    reason = f"{said} stands here, an object is wanted"
    return Change([], reason, "", "object", item=item)


def unknown_key(source: random.Random, step: Dict[str, Any]) -> Optional[Change]:
    pairs = pairs_of(step) + [("colour", "1")]
    return Change(pairs, '"colour" is no key here', "colour", "key", True)


def twice(source: random.Random, step: Dict[str, Any]) -> Optional[Change]:
    pairs = pairs_of(step)
    key, value = source.choice(pairs)
    return Change(pairs + [(key, value)], f'"{key}" comes twice', key, "key", True)


def bad_seen(source: random.Random, step: Dict[str, Any]) -> Optional[Change]:
    key, wanted = source.choice([("answer", "a text"), ("zf", "true or false")])
    reason = f'"{key}" is 7, {wanted} is wanted'
    return Change(pairs_of(step) + [(key, "7")], reason, key, "value", True)


def bad_own_name(source: random.Random, step: Dict[str, Any]) -> Optional[Change]:
    if step["do"] not in NAMED or "as" in step:
        return None
    values = ['""', '"a\\""', '"\\\\"', '"\\n"', f'"{"k" * 41}"', "7"]
    value = source.choice(values)
    reason = '"as" is 7, a text is wanted' if value == "7" else NO_OWN_NAME
    return Change(pairs_of(step) + [("as", value)], reason, "as", "value", True)


CHANGES: List[Callable[[random.Random, Dict[str, Any]], Optional[Change]]] = [
    *(too_large, of_another_type, missing, misspelled, bad_digits, unknown_kind, no_object),
    *(unknown_key, twice, bad_seen),
]


class Broken:
    """A document with changes, its text, and what 'check' says of it."""

    def __init__(
        self, source: random.Random, document: Document, features: Features
    ) -> None:
        self.source, self.steps, self.features = source, document["steps"], features
        self.findings: List[Finding] = []
        self.caps, self.capacity = dict(document["caps"]), document["capacity"]
        self.changes: Dict[int, Change] = {}
        for number in sorted(source.sample(range(len(self.steps)), min(3, len(self.steps)))):
            changes = [*CHANGES, bad_own_name] if features.warns_of_names else CHANGES
            change = source.choice(changes)(source, self.steps[number])
            if change:
                self.changes[number] = change
        if source.random() < 0.2:
            self.change_caps()
        if source.random() < 0.1:
            self.capacity = MOST_STEPS + 1
        self.text = "\n".join(self.lines())
        self.find()

    def change_caps(self) -> None:
        key = self.source.choice(list(RANGES))
        least, most = RANGES[key]
        self.caps[key] = most + 1 if least == 0 else self.source.choice([least - 1, most + 1])

    def lines(self) -> List[str]:
        first = f'{{"caps": {json.dumps(self.caps)}, "capacity": {self.capacity},'
        lines = []
        for number, step in enumerate(self.steps):
            change = self.changes.get(number)
            text = Line(change.pairs if change else pairs_of(step)).text
            if change and change.item:
                text = " " * (LEFT - 1) + change.item
            lines.append(text)
        body = ",\n".join(lines).split("\n")
        return [first, ' "steps": [', *body, " ]}", ""]

    def find(self) -> None:
        warnings = []
        for number, change in sorted(self.changes.items()):
            kind = self.steps[number]["do"]
            if change.item or change.key == "do" and not change.is_warning:
                kind = None
            column = Line(change.pairs).column(change.place, change.key)
            key, reason = change.key or None, change.reason
            if change.is_friendly and self.features.names_expand:
                reason += " (dsa_run expand writes it)"
            found = Finding(number + 3, column, "step", reason, key, number, kind)
            if change.is_warning:
                warnings.append(found._replace(is_warning=True))
            else:
                self.findings.append(found)
        self.find_in_caps()
        self.findings += warnings

    def find_in_caps(self) -> None:
        line = self.text.split("\n")[0]
        for key, number in self.caps.items():
            least, most = RANGES[key]
            column = line.index(f'"{key}": ') + len(key) + 5
            if not least <= number <= most:
                bound = f"at most {most}" if number > most else f"at least {least}"
                reason = f'"{key}" is {number}, {bound} is wanted'
                self.findings.append(Finding(1, column, "caps", reason, key))
        if self.capacity > MOST_STEPS:
            column = line.index('"capacity": ') + len('"capacity": ') + 1
            reason = f'"capacity" is {self.capacity}, at most {MOST_STEPS} is wanted'
            self.findings.append(Finding(1, column, "capacity", reason, "capacity"))

    @property
    def fault(self) -> str:
        """The fault that a run reports, or nothing."""
        faults = [finding for finding in self.findings if not finding.is_warning]
        return fault_of(faults[0]) if faults else ""


def fault_of(finding: Finding) -> str:
    where = f"step {finding.step}" if finding.part == "step" else finding.part
    return f"dsa_run: bad {where}"


class NoJson:
    """A text that is not JSON, since one of its steps is broken, and what is said of it."""

    def __init__(
        self, source: random.Random, document: Document, features: Features
    ) -> None:
        steps = document["steps"]
        number = source.randrange(len(steps))
        head = f'{{"caps": {json.dumps(document["caps"])}, "capacity": {document["capacity"]},'
        own = [Line(pairs_of(step)).text for step in steps]
        comma = "" if number == len(steps) - 1 else ","
        self.line = number + 3
        lines = [head, ' "steps": [', *(line + "," for line in own[:-1]), own[-1], " ]}", ""]
        if source.random() < 0.2:
            lines[self.line - 1 :] = [own[number]]
            column = len(own[number]) + 1
            end = f"{features.end} is" if features.end else "the document ends"
            reason = f"{end} here, a ] for the [ of line 2, column 11 is wanted"
        else:
            changed, column, reason = source.choice(self.changes(own[number]))
            remark = reason.startswith("a comment")
            lines[self.line - 1] = changed + comma + (" // remark" if remark else "")
            column += len(comma) if remark else 0
        self.text = "\n".join(lines)
        self.finding = Finding(self.line, column, "text", reason)

    def changes(self, own: str) -> List[Tuple[str, int, str]]:
        """Broken lines of a step, each with the column of what is wrong, and the reason."""
        value = own.index(": ") + 3
        begin, rest = own[: value - 1], own[value - 1 :]
        word = "true, false, null or a text in double quotes"
        bracket = f"a }} for the {{ of line {self.line}, column {LEFT}"
        return [
            (f"{own[:-1]},}}", len(own) + 1, "a comma before }"),
            (f"{begin}'{rest}", value, "' stands here, a double quote is wanted"),
            (f"{begin}True, {rest}", value, f"True stands here, {word} is wanted"),
            (
                f"{begin}01",
                value,
                "01 stands here, a number with no 0 before its other digits is wanted",
            ),
            (own, len(own) + 2, "a comment, of which JSON has none"),
            (f"{own[:-1]}]", len(own), f"] stands here, {bracket} is wanted"),
        ]


def compare_checks(comparer: Comparer, source: random.Random, document: Document) -> None:
    """Compares what 'check' says of a document, of a broken one, and of a text that is no JSON."""
    comparer.ran(["check"], json.dumps(document), [])
    if not document["steps"]:
        return
    broken = Broken(source, document, comparer.program.features)
    lines = [finding.text for finding in broken.findings]
    status = 1 if broken.fault else 0
    comparer.ran(["check"], broken.text, lines, status, broken.fault)
    objects = [finding.json for finding in broken.findings]
    comparer.ran(["check", "--json"], broken.text, objects, status, broken.fault)
    shown = [line for finding in broken.findings for line in finding.source(broken.text)]
    comparer.ran(["check", "--source"], broken.text, shown, status, broken.fault)
    strict = fault_of(broken.findings[0]) if broken.findings else ""
    comparer.ran(["check", "--strict"], broken.text, lines, 1 if strict else 0, strict)
    if broken.fault:
        comparer.ran([], broken.text, [], 1, broken.fault)
        comparer.ran(["explain"], broken.text, [], 1, broken.fault)
    broken_text = NoJson(source, document, comparer.program.features)
    said = [broken_text.finding.text]
    comparer.ran(["check"], broken_text.text, said, 1, "dsa_run: not JSON")
