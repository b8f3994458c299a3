"""Friendly documents, and the strict ones that 'expand' makes of them (docs/EXPAND.md)."""
from __future__ import annotations

import json
import random
from typing import Any, Dict, List

from .answers import Answer, Event
from .configuration import bits
from .descriptor import COMMANDS, ENABLE_WQ, OF_MASKS, OF_PASIDS, OPERATIONS, Command
from .conforming import changed, recording_of
from .drawing import whole
from .picture import compare_drawing
from .program import Comparer
from .run import Document, Run, run_of
from .texts import explained, traced, traced_changes, traced_json

KEYS = {
    "queue": ("queue", "size", "threshold", "dedicated", "priority", "pasid", "batch", "xfer"),
    "group": ("group", "queues", "engines", "reserved", "allowed"),
    "enqcmd": ("client", "queue", "limited", "pasid", "desc"),
    "movdir": ("client", "queue", "limited", "desc"),
    "dispatch": ("engine",),
    "fetch": ("engine", "desc"),
    "start": ("engine",),
    "finish": ("engine", "name", "fault"),
    "command": ("word",),
    "poll": (),
    "clear": (),
}

# values at 'as': texts, and what is no own name
OWN_NAMES: List[Any] = [
    *("x1", "x2", "x3", "x4", "the first", "[it] is, so", "<a & b>", 'say "no"'),
    *("x" * 41, "", 7),
]


class Pair:
    """A friendly step, and the strict step that it means."""

    def __init__(self, source: random.Random, event: Event) -> None:
        self.source = source
        self.friendly, self.strict = dict(event), dict(event)
        self.is_friendly = False

    def change(self) -> None:
        """Writes the step in a friendly form, where it has one."""
        kind = self.strict["do"]
        if kind == "command":
            self.change_command()
        elif kind == "group":
            for key in "queues", "engines":
                self.friendly[key] = bits(self.strict[key])
            self.is_friendly = True
        elif "desc" in self.strict:
            self.change_descriptor()

    def change_command(self) -> None:
        word = self.strict["word"]
        command = Command.of(word)
        if command is None or word >> 25:
            return
        del self.friendly["word"]
        self.friendly["command"] = COMMANDS[command.number]
        queues = command.queues if command.number in OF_MASKS else []
        if queues and self.source.random() < 0.6:
            self.friendly["queues"] = queues
        elif command.number == ENABLE_WQ and self.source.random() < 0.5:
            self.friendly["queues"] = [command.operand]
        elif command.number in (*OF_MASKS, *OF_PASIDS, ENABLE_WQ):
            self.friendly["operand"] = command.operand
        else:
            # these commands have no operand, and one that is given is ignored
            self.strict["word"] = command.number << 20
            if command.operand:
                self.friendly["operand"] = command.operand
        self.is_friendly = True

    def change_descriptor(self) -> None:
        content = bytes.fromhex(self.strict["desc"]).ljust(64, b"\0")
        operation, size = content[7], int.from_bytes(content[32:36], "little")
        flags, pasid = int.from_bytes(content[4:7], "little"), self.source.choice([0, 0, 7])
        said: Dict[str, Any] = {"op": operation}
        if operation < len(OPERATIONS) and self.source.random() < 0.8:
            said["op"] = OPERATIONS[operation]
        fence = flags & 1
        if size or self.source.random() < 0.3:
            said["size"] = size
        if fence or self.source.random() < 0.2:
            said["fence"] = bool(fence)
        if self.source.random() < 0.2:
            said["flags"] = flags
        else:
            flags = fence
        if pasid:
            said["pasid"] = pasid
        made = bytearray(64)
        made[0:4], made[4:7] = pasid.to_bytes(4, "little"), flags.to_bytes(3, "little")
        made[7], made[32:36] = operation, size.to_bytes(4, "little")
        self.friendly["desc"], self.strict["desc"] = said, bytes(made).hex()
        self.is_friendly = True


class OwnNames:
    """The own names that steps gave, each with the name of the last entry that was given it."""

    def __init__(self, source: random.Random) -> None:
        self.source = source
        self.known: Dict[str, int] = {}

    def pair(self, event: Event) -> Pair:
        """A step that is friendly, or as it is, with own names here and there."""
        pair = Pair(self.source, event)
        if self.source.random() < 0.5:
            pair.change()
        self.name(pair)
        return pair

    def name(self, pair: Pair) -> None:
        """Gives a submission or a fetch an own name, or uses one in a finish."""
        kind = pair.strict["do"]
        if kind in ("enqcmd", "movdir", "fetch") and self.source.random() < 0.6:
            text = self.source.choice(OWN_NAMES)
            pair.friendly["as"] = pair.strict["as"] = text
        if kind == "finish":
            known = [text for text, name in self.known.items() if name == pair.strict["name"]]
            if known:
                pair.friendly["name"] = known[0]
                pair.is_friendly = True

    def note(self, event: Event, given: Answer) -> None:
        """Notes the own name that a step gave."""
        text = event.get("as")
        if given.kind in ("accepted", "fetched") and isinstance(text, str):
            self.known[text] = given.values["name"]


class Friendly:
    """A friendly document beside its strict one, with own names for entries."""

    def __init__(self, source: random.Random, document: Document) -> None:
        self.pairs: List[Pair] = []
        names = OwnNames(source)
        run = Run({**document, "steps": []}, keeps_states=False)
        for event in document["steps"]:
            pair = names.pair(event)
            names.note(pair.strict, run.make(pair.strict).answer)
            if source.random() < 0.1:
                pair.friendly["note"] = pair.strict["note"] = 'a "remark"'
            self.pairs.append(pair)
        self.document = {**document, "steps": [pair.friendly for pair in self.pairs]}
        self.strict = {**document, "steps": [pair.strict for pair in self.pairs]}

    @property
    def text(self) -> str:
        return json.dumps(self.document)

    @property
    def expanded(self) -> str:
        """The text of the strict document."""
        if not any(pair.is_friendly for pair in self.pairs):
            return self.text
        return expanded_text(self.strict)


def expanded_text(strict: Document) -> str:
    """The text that 'expand' writes of a document with a friendly step, whose strict form this
    is."""
    caps = json.dumps(strict["caps"], sort_keys=True, separators=(",", ":"))
    head = f'{{\n  "caps": {caps},\n  "capacity": {strict["capacity"]},\n  "steps": [\n'
    steps = ",\n".join(f"    {line_of(step)}" for step in strict["steps"])
    return f"{head}{steps}\n  ]\n}}"


def line_of(strict: Event) -> str:
    """A step of the strict document: 'do', the keys of its kind, and all others."""
    keys = ("do", *KEYS[strict["do"]])
    others = sorted(set(strict) - set(keys))
    members = (f"{json.dumps(key)}: {json.dumps(strict[key])}" for key in (*keys, *others))
    return f"{{{', '.join(members)}}}"


def compare_own_names(comparer: Comparer, source: random.Random, friendly: Friendly) -> None:
    """Compares the texts of the strict document, whose steps have own names."""
    run = run_of(friendly.strict)
    features = comparer.program.features
    shown = dict(
        has_own_names=features.shows_own_names, has_awaited=features.shows_awaited_names
    )
    text = json.dumps(run.document)
    lines = explained(run, **shown)
    comparer.ran(["explain"], text, lines, name="explain with own names")
    name = source.randint(0, run.device.next_name)
    lines = explained(run, name, **shown)
    comparer.ran(["explain", "--name", str(name)], text, lines, name="explain of an own name")
    if features.traces_own_names:
        comparer.ran(["trace"], text, traced(run), name="trace with own names")
        comparer.ran(["trace", "--wide"], text, traced(run, True), name="wide with own names")
        comparer.ran(["trace", "--json"], text, traced_json(run), name="objects with own names")
        lines = traced_changes(run)
        comparer.ran(["trace", "--changes"], text, lines, name="changes with own names")
    compare_drawing(comparer, run, [], whole(run))


def compare_friendly_recording(
    comparer: Comparer, source: random.Random, friendly: Friendly
) -> None:
    """Compares what 'conform --friendly' says of a friendly document with answers."""
    seen = changed(source, recording_of(source, friendly.strict), source.choice([0, 1]))
    steps = []
    for pair, step in zip(friendly.pairs, seen["steps"]):
        answers = {key: step[key] for key in ("answer", "zf") if key in step}
        steps.append({**pair.friendly, **answers})
    text = json.dumps({**friendly.document, "steps": steps})
    found = comparer.program.run(["conform", "--friendly"], text)
    expected = comparer.program.run(["conform"], json.dumps(seen))
    comparer.same("conform --friendly", expected.lines, found.lines)


def compare_expand(comparer: Comparer, source: random.Random, document: Document) -> None:
    """Compares the text of 'expand', of the friendly document and of the strict one."""
    friendly = Friendly(source, document)
    output = comparer.output(["expand"], friendly.text)
    comparer.same("expand", friendly.expanded.split("\n"), output.split("\n"))
    compare_own_names(comparer, source, friendly)
    if comparer.program.features.reads_friendly:
        compare_friendly_recording(comparer, source, friendly)
    strict = json.dumps(document)
    comparer.same("expand of a strict document", [strict], [comparer.output(["expand"], strict)])
    unknown = {"do": "finish", "engine": 0, "name": "never given", "fault": False}
    last = len(document["steps"])
    broken = {**document, "steps": [*document["steps"], unknown]}
    comparer.ran(["expand"], json.dumps(broken), [], 1, f"dsa_run: bad step {last}")
