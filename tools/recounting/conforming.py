"""What 'conform' says of answers that were seen, and which runs '--seen' may show.

Several devices are followed at once: one for each queue that an engine may have taken from."""
from __future__ import annotations

import json
import pickle
import random
import re
from typing import Any, Dict, List, NamedTuple, Optional, Sequence

from .answers import Answer, Event, allowed, answer, make
from .descriptor import counted
from .device import Device
from .facts import facts
from .program import Comparer
from .reasons import reason
from .run import Document, Run, run_of, words_of

MOST_DEVICES = 400
CHANGES = [
    *("?", "idle", "full", "accepted", "nothing", "done 01", "active", "", "retry at-limit"),
    *("done 1", "taken 0", "taken from 00", "idle ", "accepted 07", "ended", "refused 16 Busy"),
    *('a "text"\n', "caf\u00e9", "\U0001f600", "a\\b"),
]


def shows(event: Event, given: Answer) -> bool:
    """Whether an answer shows what was seen of a step."""
    if "answer" in event and event["answer"] not in (given.text, given.without_name):
        return False
    return "zf" not in event or event["zf"] == zero_flag(event, given)


def zero_flag(event: Event, given: Answer) -> Optional[bool]:
    """The zero flag that an answer reports, or None."""
    if event["do"] != "enqcmd" or given.kind == "full":
        return None
    return given.kind == "retry"


def is_seen(event: Event) -> bool:
    return "answer" in event or "zf" in event


def quoted(text: str) -> str:
    """A text as it is if it is plain, and else as a JSON string."""
    is_plain = all(" " <= letter <= "~" and letter not in '"\\' for letter in text)
    return text if is_plain else escaped(text)


def escaped(text: str) -> str:
    """A JSON string in which each character that is not printable ASCII is '\\u' with digits."""
    said = []
    for letter in text:
        if letter in '"\\':
            said.append("\\" + letter)
        elif " " <= letter <= "~":
            said.append(letter)
        else:
            pairs = letter.encode("utf-16-be").hex()
            said += [f"\\u{pairs[begin : begin + 4]}" for begin in range(0, len(pairs), 4)]
    return f'"{"".join(said)}"'


def seen_line(event: Event) -> str:
    said = [quoted(event["answer"])] if "answer" in event else []
    if "zf" in event:
        said.append(f"zf {json.dumps(event['zf'])}")
    return f"seen: {', '.join(said)}"


class Difference(NamedTuple):
    """A step that differs, and the lines that are allowed there."""

    number: int
    event: Event
    allowed: List[str]
    facts: List[str]
    is_of_one: bool


class Verdict(NamedTuple):
    """What was found: all differences, and whether all devices could be followed."""

    differences: List[Difference]
    is_whole: bool


def state_of(device: Device) -> bytes:
    """What later answers and reasons depend on: all but the turns of groups."""
    turns = [group.turn for group in device.groups]
    for group in device.groups:
        group.turn = 0
    state = pickle.dumps(device, pickle.HIGHEST_PROTOCOL)
    for group, turn in zip(device.groups, turns):
        group.turn = turn
    return state


def distinct(devices: List[Device]) -> List[Device]:
    return list({state_of(device): device for device in devices}.values())


def lines_allowed(devices: Sequence[Device], event: Event) -> List[str]:
    """The lines of all answers that the devices allow, each once."""
    lines: Dict[str, None] = {}
    for device in devices:
        for given in allowed(device, event):
            why = reason(device, event, given)
            lines[f"allowed: {given.text}" + ("" if why is None else f": {why}")] = None
    return list(lines)


def after(devices: Sequence[Device], event: Event, is_any: bool) -> List[Device]:
    """The devices after a step whose answer is allowed and shows what was seen."""
    pairs = [
        (device, given)
        for device in devices
        for given in allowed(device, event)
        if is_any or shows(event, given)
    ]
    if len(pairs) == 1:
        # nothing else is followed, so no copy is needed
        device, given = pairs[0]
        make(device, event, given)
        return [device]
    found = [(device.copy(), given) for device, given in pairs]
    for device, given in found:
        make(device, event, given)
    return distinct([device for device, _ in found])


def follow(document: Document) -> Verdict:
    """Follows all devices, and goes on after a difference as if nothing had been seen there."""
    devices = [Device(document["caps"], document["capacity"])]
    differences = []
    for number, event in enumerate(document["steps"]):
        left = after(devices, event, False)
        if not left:
            lines = lines_allowed(devices, event)
            against = facts(devices, event)
            differences.append(Difference(number, event, lines, against, len(devices) == 1))
            left = after(devices, event, True)
        devices = left
        if len(devices) > MOST_DEVICES:
            return Verdict(differences, False)
    return Verdict(differences, True)


# recordings


def recording_of(source: random.Random, document: Document) -> Document:
    """The document with answers of a run in which engines take from any queue that qualifies."""
    run = Run(document, keeps_states=False)
    percent, hides_queues = source.choice([20, 50, 80, 100]), source.random() < 0.5
    steps = []
    for event in document["steps"]:
        step = run.make(event, source.choice(allowed(run.device, event)))
        seen: Dict[str, Any] = {}
        is_hidden = hides_queues and event["do"] == "dispatch"
        if source.random() * 100 < percent and not is_hidden:
            is_named = source.random() < 0.5
            seen["answer"] = step.answer.text if is_named else step.answer.without_name
        flag = zero_flag(event, step.answer)
        if flag is not None and source.random() < 0.3:
            seen["zf"] = flag
        steps.append({**event, **seen})
    return {**document, "steps": steps}


def changed(source: random.Random, document: Document, count: int) -> Document:
    """The document with other answers at some steps."""
    steps = list(document["steps"])
    for number in source.sample(range(len(steps)), min(count, len(steps))):
        event = dict(steps[number])
        choice = source.random()
        if choice < 0.3 and event["do"] == "enqcmd":
            event["zf"] = not event.get("zf", False)
        elif choice < 0.7 and event.get("answer"):
            event["answer"] = re.sub(r"\d+", lambda it: str(int(it[0], 16) + 1), event["answer"])
        else:
            event["answer"] = source.choice(CHANGES)
        steps[number] = event
    return {**document, "steps": steps}


# comparing


def split(lines: Sequence[str]) -> List[List[str]]:
    """The lines of each difference, without the last line of '--all'."""
    parts: List[List[str]] = []
    for line in lines:
        if line.startswith("step "):
            parts.append([])
        if parts and not line.startswith("differs: "):
            parts[-1].append(line)
    return parts


def answers_of(lines: Sequence[str]) -> List[str]:
    """The answers alone of lines that are allowed."""
    return sorted({line[len("allowed: ") :].partition(": ")[0] for line in lines})


def compare_difference(comparer: Comparer, what: str, own: Difference, found: List[str]) -> None:
    """Compares the lines of a step that differs. Where several devices are followed, a reason that
    depends on fates alone may be that of one of them."""
    head = [f"step {own.number}: {words_of(own.event)}", seen_line(own.event)]
    if not comparer.same(what, head, found[:2]):
        return
    lines = found[2:]
    if comparer.program.features.says_against:
        is_fact = bool(lines) and lines[0] in own.facts
        said = f"{seen_line(own.event)}: expected one of {own.facts}, found {lines[:1]}"
        comparer.holds(what, is_fact, said)
        lines = lines[1:]
    if own.is_of_one:
        comparer.same(what, own.allowed, lines)
        return
    comparer.same(what, answers_of(own.allowed), answers_of(lines))
    queues = [line.split()[4] for line in lines if line.startswith("allowed: taken ")]
    comparer.same(f"{what}, order of queues", sorted(queues, key=int), queues)
    others = [line for line in lines if line not in own.allowed]
    comparer.same(what, [], others)


def compare_conform(comparer: Comparer, document: Document) -> Optional[Verdict]:
    """Compares what 'conform' says of a document, with and without '--all'. Of a document with too
    many devices nothing is compared."""
    verdict = follow(document)
    if not verdict.is_whole:
        return None
    text = json.dumps(document)
    steps, seen = len(document["steps"]), sum(map(is_seen, document["steps"]))
    answers = f"{counted(seen, 'answer')} seen"
    if not verdict.differences:
        for words in ["conform"], ["conform", "--all"]:
            comparer.ran(words, text, [f"conforms: {counted(steps, 'step')}, {answers}"])
        return verdict
    compare_differences(comparer, ["conform"], text, verdict.differences[:1])
    lines = compare_differences(comparer, ["conform", "--all"], text, verdict.differences)
    last = f"differs: {counted(len(verdict.differences), 'step')} of {steps}, {answers}"
    comparer.same("conform --all", [last], lines[-1:])
    return verdict


def compare_differences(
    comparer: Comparer, words: Sequence[str], text: str, wanted: Sequence[Difference]
) -> List[str]:
    """Compares the lines of steps that differ, and gives all lines that the program writes."""
    ran, what = comparer.program.run(words, text), " ".join(words)
    errors = f"dsa_run: step {wanted[0].number} differs"
    comparer.same(what, [errors, "status 1"], [ran.errors.strip(), f"status {ran.status}"])
    parts = split(ran.lines)
    if comparer.same(what, [f"{len(wanted)} parts"], [f"{len(parts)} parts"]):
        for own, found in zip(wanted, parts):
            compare_difference(comparer, what, own, found)
    return ran.lines


def seen_run(comparer: Comparer, document: Document, verdict: Verdict) -> Optional[Run]:
    """The run that 'explain --seen' shows, if it may show it: it has to show what was seen before
    the first difference, and to answer by itself from there; and where the plain run shows as
    much, it has to be that."""
    ran = comparer.program.run(["explain", "--seen"], json.dumps(document))
    first = verdict.differences[0].number if verdict.differences else len(document["steps"])
    plain = run_of(document)
    is_plain = all(shows(step.event, step.answer) for step in plain.steps[:first])
    if is_plain:
        comparer.same("explain --seen", [step.explained for step in plain.steps], ran.lines)
        return plain
    run = Run(document)
    for number, (event, line) in enumerate(zip(document["steps"], ran.lines)):
        wanted = [answer(run.device, event)]
        if number < first:
            wanted = [given for given in allowed(run.device, event) if shows(event, given)]
        said = line.partition(" -> ")[2].partition(": ")[0]
        fitting = [given for given in wanted if given.text == said]
        if not fitting:
            comparer.holds("explain --seen", False, f"step {number} is answered {said}")
            return None
        run.make(event, fitting[0])
    comparer.same("explain --seen", [step.explained for step in run.steps], ran.lines)
    return run
