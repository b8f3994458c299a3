"""The texts of a run that follow its steps: lines, reasons and traces (docs/COMMANDS.md)."""
from __future__ import annotations

import json
import re
from typing import Any, Callable, Dict, Iterable, List, Optional, Set, Tuple

from .answers import Answer
from .descriptor import COMMANDS
from .device import Device, Fate
from .run import Run, Step

MOST_OF_OWN_NAME = 40


def plain(run: Run) -> List[str]:
    return run.lines()


def is_about(step: Step, name: int) -> bool:
    """Whether a step is about the entry of a name, as docs/EXPLAIN.md says."""
    if step.event["do"] == "finish" and step.event["name"] == name:
        return True
    return step.name == name or any(fate.name == name for fate in step.fates)


def awaited_names(step: Step) -> Set[int]:
    """The names of which the line of a step says that a command waits for them."""
    reason = step.reason or ""
    found = re.findall(r"first for (\d+) in", reason)
    if step.event["do"] == "command" and step.answer.kind == "active":
        for part in reason.partition(", ")[2].split("; "):
            found += part.partition(": ")[2].split(", ")
    return set(map(int, found))


def is_own_name(text: Any) -> bool:
    """Whether a value at 'as' is an own name."""
    if not isinstance(text, str) or not 1 <= len(text) <= MOST_OF_OWN_NAME:
        return False
    return all(" " <= letter <= "~" and letter not in '"\\' for letter in text)


def own_name(step: Step) -> Dict[int, str]:
    """The own name that a step gave, by the name of its entry."""
    if step.answer.kind in ("accepted", "fetched") and is_own_name(step.event.get("as")):
        return {step.name: step.event["as"]}
    return {}


def own_names(run: Run, others: Callable[[Step], Set[int]]) -> List[Dict[int, str]]:
    """The own names that the line of each step has: of those that were given up to it, those of
    entries that it is about, and of these others."""
    known: Dict[int, str] = {}
    found = []
    for step in run.steps:
        known.update(own_name(step))
        told = others(step)
        shown = [name for name in sorted(known) if name in told or is_about(step, name)]
        found.append({name: known[name] for name in shown})
    return found


def note(shown: Dict[int, str]) -> str:
    """What comes at the end of a line that has these own names."""
    said = ", ".join(f"{name} is {text}" for name, text in shown.items())
    return f" [{said}]" if said else ""


def no_names(step: Step) -> Set[int]:
    return set()


def held_names(step: Step) -> Set[int]:
    """The names of the entries that are held after a step."""
    return {entry.name for _, entries in step.after.lists() for entry in entries}


def explained(
    run: Run,
    name: Optional[int] = None,
    client: Optional[int] = None,
    only: Iterable[str] = (),
    has_own_names: bool = False,
    has_awaited: bool = False,
) -> List[str]:
    """The lines of 'explain' that its options leave."""
    steps = run.steps
    if name is not None:
        steps = [step for step in steps if is_about(step, name)]
    if client is not None:
        steps = [step for step in steps if is_submission(step) and step.event["client"] == client]
    if only:
        steps = [step for step in steps if step.answer.kind in only]
    own = own_names(run, awaited_names if has_awaited else no_names) if has_own_names else []
    lines = [step.explained + (note(own[step.number]) if own else "") for step in steps]
    return lines + [fate.line for fate in run.device.fates if fate.name == name]


def is_submission(step: Step) -> bool:
    return step.event["do"] in ("enqcmd", "movdir")


# traces


def padded(number: int, most: int) -> str:
    """A number that is as wide as the greatest one."""
    return str(number).rjust(len(str(most)))


def queue_columns(device: Device, is_wide: bool) -> str:
    said = []
    for number, queue in enumerate(device.queues):
        if queue.size or is_wide:
            threshold = f"/{queue.threshold}" if is_wide or not queue.dedicated else ""
            waiting = padded(len(queue.waiting), queue.size)
            said.append(f"q{number} {waiting}{threshold}/{queue.size}")
    return " ".join(said)


def engine_columns(device: Device, is_wide: bool) -> str:
    said, slots = [], device.caps["slots"]
    most = 1 << device.caps["max_batch_shift"]
    for number, engine in enumerate(device.engines):
        if is_wide or device.group_of(number) is not None:
            in_use = padded(len(engine.progress), slots)
            said.append(f"e{number} {in_use}/{slots} m{padded(len(engine.members), most)}")
    return " ".join(said)


def group_columns(device: Device, is_wide: bool) -> str:
    said = []
    for number, group in enumerate(device.groups):
        if is_wide or group.queues or group.engines:
            used = padded(device.used(number), group.allowed)
            said.append(f"g{number} {used}/{group.allowed}")
    return " ".join(said)


def awaited(device: Device) -> int:
    """How many entries the active command waits for."""
    return sum(len(entries) for _, entries in device.awaited(*device.active))


def row(step: Step, is_wide: bool) -> str:
    device = step.after
    parts = [
        padded(step.number, device.capacity).rjust(1),
        queue_columns(device, is_wide),
        engine_columns(device, is_wide),
        group_columns(device, is_wide),
        f"{step.words} -> {step.answer.text}",
    ]
    for where, entries in device.lists():
        if entries:
            parts.append(f"{where} [{','.join(str(entry.name) for entry in entries)}]")
    if device.active:
        parts.append(f"{device.active.command.words} awaits {awaited(device)}")
    return " |" .join(part and (" " + part if index else part) for index, part in enumerate(parts))


def held(run: Run) -> List[Any]:
    """The names of all held entries, each with its list."""
    return [(entry.name, where) for where, entries in run.device.lists() for entry in entries]


def traced(run: Run, is_wide: bool = False) -> List[str]:
    own = own_names(run, held_names)
    rows = [row(step, is_wide) + note(shown) for step, shown in zip(run.steps, own)]
    return rows + [f"held {name} in {where}" for name, where in held(run)]


def changing_texts(device: Device) -> List[Tuple[str, str, bool]]:
    """The texts of a device that a row of changes may have: each with what it is of, and whether it
    comes before the event."""
    found = []
    for number, queue in enumerate(device.queues):
        said = f"q{number} {len(queue.waiting)}/{queue.threshold}/{queue.size}"
        found.append((f"queue {number}", said, True))
    for number, engine in enumerate(device.engines):
        said = f"e{number} {len(engine.progress)}/{device.caps['slots']} m{len(engine.members)}"
        found.append((f"engine {number}", said, True))
    for number, group in enumerate(device.groups):
        said = f"g{number} {device.used(number)}/{group.allowed}"
        found.append((f"group {number}", said, True))
    for where, entries in device.lists():
        said = f"{where} [{','.join(str(entry.name) for entry in entries)}]"
        found.append((f"list {where}", said, False))
    said = f"{device.active.command.words} awaits {awaited(device)}" if device.active else ""
    return found + [("command", said or "no command", False)]


def traced_changes(run: Run) -> List[str]:
    """The rows of 'trace --changes': what each step changed."""
    rows, before = [], changing_texts(Device(run.device.caps, run.device.capacity))
    for step, own in zip(run.steps, own_names(run, no_names)):
        after = changing_texts(step.after)
        changed = [it for old, it in zip(before, after) if old != it]
        first = [text for _, text, is_before in changed if is_before]
        last = [text for _, text, is_before in changed if not is_before]
        number = " ".join([str(step.number), *first])
        said = " | ".join([number, f"{step.words} -> {step.answer.text}", *last])
        rows.append(said + note(own))
        before = after
    return rows + [f"held {name} in {where}" for name, where in held(run)]


def result(given: Answer) -> Dict[str, Any]:
    return {"kind": given.kind, **given.values}


def fate_object(fate: Fate) -> Dict[str, Any]:
    said: Dict[str, Any] = {"name": fate.name, "parent": fate.parent, "how": fate.how}
    if fate.how == "completed":
        said["status"] = fate.number
    if fate.how == "aborted":
        said["command"] = COMMANDS[fate.number]
    return said


def names(entries: list) -> List[int]:
    return [entry.name for entry in entries]


def queue_object(number: int, device: Device) -> Dict[str, Any]:
    queue = device.queues[number]
    return {
        "queue": number,
        "occupancy": len(queue.waiting),
        "threshold": queue.threshold,
        "size": queue.size,
        "phase": queue.phase,
        "waiting": names(queue.waiting),
    }


def engine_object(number: int, device: Device) -> Dict[str, Any]:
    engine = device.engines[number]
    return {
        "engine": number,
        "in_progress": len(engine.progress),
        "slots": device.caps["slots"],
        "members": len(engine.members),
        "names": names(engine.progress),
        "member_names": names(engine.members),
        "batch": vars(engine.note).copy() if engine.note else None,
    }


def group_object(number: int, device: Device) -> Dict[str, Any]:
    group, used = device.groups[number], device.used(number)
    return {"group": number, "used": used, "allowed": group.allowed, "reserved": group.reserved}


def shown(device: Device) -> Dict[str, Any]:
    """What the device shows, with the keys of 'trace --json' from 'phase' on."""
    active = None
    if device.active:
        active = {"command": device.active.command.words, "awaited": awaited(device)}
    return {
        "phase": device.phase,
        "error": device.error._asdict() if device.error else None,
        "queues": [queue_object(number, device) for number in range(len(device.queues))],
        "engines": [engine_object(number, device) for number in range(len(device.engines))],
        "groups": [group_object(number, device) for number in range(len(device.groups))],
        "active": active,
    }


def compact(value: Any) -> str:
    return json.dumps(value, separators=(",", ":"))


def traced_json(run: Run) -> List[str]:
    lines = []
    for step, own in zip(run.steps, own_names(run, held_names)):
        said = {
            "step": step.number,
            "event": step.words,
            "answer": step.answer.text,
            "result": result(step.answer),
            "fates": [fate_object(fate) for fate in step.fates],
            **shown(step.after),
            **({"as": own} if own else {}),
        }
        lines.append(compact(said))
    return lines + [compact({"held": name, "list": where}) for name, where in held(run)]
