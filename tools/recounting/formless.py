"""Friendly steps that have no strict form, as docs/EXPAND.md has them, and documents with them."""
from __future__ import annotations

import json
import random
from typing import Any, Dict, List, NamedTuple, Optional, Tuple

from .answers import Event
from .checking import MOST_STEPS, RANGES
from .friendly import KEYS, Friendly, expanded_text
from .program import Comparer
from .run import Document

MOST_BYTES = 1048576

# what a 'command' has in place of its word
COMMANDS: List[Dict[str, Any]] = [
    *({}, {"command": 7}, {"command": ""}, {"command": "fly"}, {"command": "Drain-All"}),
    *({"command": name} for name in ("enable-wq", "drain-wq", "drain-pasid")),
    {"command": "drain-pasid", "operand": 1048576},
    {"command": "drain-pasid", "operand": "5"},
    {"command": "drain-all", "operand": 1048576},
    {"command": "drain-pasid", "queues": [5]},
    {"command": "drain-wq", "operand": 1, "queues": [0]},
    {"command": "drain-wq", "queues": [0, 16]},
    {"command": "drain-wq", "queues": ["0"]},
    {"command": "drain-wq", "queues": 1},
    {"command": "enable-wq", "queues": [0, 1]},
    {"command": "enable-wq", "queues": []},
    {"command": "enable-wq", "operand": 0, "queues": [0]},
    {"command": "drain-all", "word": 3 << 20},
]
DESCRIPTORS: List[Dict[str, Any]] = [
    *({}, {"size": 4}, {"op": "copy"}, {"op": "Move"}, {"op": 256}, {"op": -1}, {"op": None}),
    {"op": "move", "size": 1 << 32},
    {"op": "move", "size": -1},
    {"op": "move", "size": "4096"},
    {"op": "move", "sizes": 4096},
    {"op": "move", "flags": 1 << 24},
    {"op": "move", "pasid": 1 << 20},
    {"op": "move", "fence": 1},
]
SETS: List[Any] = [[64], [0, 1, 64], [-1], [1.5], ["0"], [True], [None], [[0]]]
NAMES: List[Any] = ["never given", "X1"]
OTHERS: Dict[str, List[Any]] = {
    "desc": DESCRIPTORS,
    "queues": SETS,
    "engines": SETS,
    "name": NAMES,
}


class Formless(NamedTuple):
    """A step without a strict form, and the first key that has none. An own name that no step gave
    is none only where a device can be made."""

    step: Event
    key: str
    is_unknown_name: bool


def without_form(source: random.Random, step: Event, key: str) -> bool:
    """Takes the strict form from a key of a step. Says whether the key is still there."""
    if key == "word":
        for other in "word", "command", "operand", "queues":
            step.pop(other, None)
        step.update(source.choice(COMMANDS))
        return False
    del step[key]
    is_set = key in ("queues", "engines") and step["do"] == "group"
    if (key in ("desc", "name") or is_set) and source.random() < 0.8:
        step[key] = source.choice(OTHERS[key])
    return key in step


def formless(source: random.Random, event: Event) -> Optional[Formless]:
    """A step of which one key or two have no strict form, or nothing of a kind without keys."""
    keys = KEYS[event["do"]]
    if not keys:
        return None
    step = dict(event)
    chosen = source.sample(keys, min(len(keys), source.choice([1, 1, 2])))
    left = [key for key in chosen if without_form(source, step, key)]
    key = min(chosen, key=keys.index)
    return Formless(step, key, chosen == left == ["name"])


def without_device(source: random.Random, document: Document) -> Tuple[Document, str]:
    """The document, now and then of a device that cannot be made, and which fault it has then."""
    choice = source.random()
    if choice < 0.2:
        key = source.choice(list(RANGES))
        return {**document, "caps": {**document["caps"], key: RANGES[key][1] + 1}}, "caps"
    if choice < 0.3:
        return {**document, "capacity": MOST_STEPS + 1}, "capacity"
    return document, ""


def compare_faults(
    comparer: Comparer, document: Document, fault: str, is_of_answers: bool = False
) -> None:
    """Compares the fault of a friendly document, with each command that reads one. A fault of
    answers that were seen is none of 'expand'."""
    features, text = comparer.program.features, json.dumps(document)
    if not is_of_answers:
        comparer.ran(["expand"], text, [], 1, f"dsa_run: {fault}")
    if features.reads_friendly:
        comparer.ran(["conform", "--friendly"], text, [], 1, f"dsa_run: {fault}")
    if features.begins_friendly:
        lines = f'{text}\n{{"do": "poll"}}\n'
        comparer.ran(["serve", "--friendly"], lines, [], 1, f"dsa_run: {fault}")


def compare_formless(comparer: Comparer, source: random.Random, document: Document) -> None:
    """Compares the fault of a friendly document with steps that have no strict form."""
    changed, fault = without_device(source, Friendly(source, document).document)
    steps = list(changed["steps"])
    bad: List[int] = []
    for number in source.sample(range(len(steps)), min(2, len(steps))):
        found = formless(source, steps[number])
        if found:
            steps[number] = found.step
            if not (fault and found.is_unknown_name):
                bad.append(number)
    if bad:
        fault = f"step {min(bad)}"
    is_of_answers = False
    if steps and source.random() < 0.2:
        number = source.randrange(len(steps))
        steps[number] = {**steps[number], source.choice(["answer", "zf"]): 7}
        is_of_answers = not fault
        fault = fault or f"step {number}"
    if fault:
        compare_faults(comparer, {**changed, "steps": steps}, f"bad {fault}", is_of_answers)


def long_document(document: Document, desc: Any, count: int, note: str) -> Document:
    """A document of as many fetches, the last one with a note."""
    step = {"do": "fetch", "engine": 65535, "desc": desc}
    return {**document, "steps": [*[step] * (count - 1), {**step, "note": note}]}


def compare_long(comparer: Comparer, source: random.Random, document: Document) -> None:
    """Compares a friendly document whose strict form has as many bytes as a document may have, and
    one whose strict form has more."""
    count = source.randint(4000, 5500)
    strict = long_document(document, "0" * 128, count, "")
    note = "x" * (MOST_BYTES - len(expanded_text(strict)))
    friendly = long_document(document, {"op": 0}, count, note)
    strict = long_document(document, "0" * 128, count, note)
    output = comparer.output(["expand"], json.dumps(friendly))
    expected = expanded_text(strict).split("\n")
    comparer.same("expand of a long document", expected, output.split("\n"))
    compare_served(comparer, friendly, document, count)
    friendly = long_document(document, {"op": 0}, count, note + "x")
    for words in (["expand"], ["conform", "--friendly"]):
        comparer.ran(words, json.dumps(friendly), [], 1, "dsa_run: document too long")
    compare_served(comparer, friendly, document, count)


def compare_served(comparer: Comparer, friendly: Document, document: Document, count: int) -> None:
    """Compares a friendly dialogue that begins with a document of so many fetches, however long its
    strict form is."""
    if comparer.program.features.begins_friendly:
        answers = ["no-batch" if document["capacity"] else "full"] * count
        lines = json.dumps(friendly) + "\n"
        comparer.ran(["serve", "--friendly"], lines, [*answers, f"ready {count}"])
