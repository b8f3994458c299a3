"""The events of 'trace --chrome', as docs/COMMANDS.md has them, without the lanes of engines.

Which lane an entry has is left open there; 'faults_of_lanes' looks whether a lane has one entry at
a time, of the engine after which it is named."""
from __future__ import annotations

import json
from typing import Any, Dict, Iterator, List, Tuple

from .counts import waits
from .descriptor import ABORTS, RESETS, Command
from .drawing import ENGINE_STEPS, Bar, bars_of
from .run import Run, Step
from .texts import is_submission

DEVICE, ENGINES, STEPS_OF_ENGINES = 1, 2, 3
CLIENTS, ADMINISTRATOR = 1, 2
Item = Dict[str, Any]


def names_of_threads(run: Run) -> Iterator[Item]:
    processes = {DEVICE: "device", ENGINES: "engines", STEPS_OF_ENGINES: "steps of engines"}
    for process, name in processes.items():
        yield named("process_name", process, 0, name)
    yield named("thread_name", DEVICE, CLIENTS, "clients")
    yield named("thread_name", DEVICE, ADMINISTRATOR, "administrator")
    for number in range(len(run.device.engines)):
        yield named("thread_name", STEPS_OF_ENGINES, number + 1, f"engine {number}")


def named(what: str, process: int, thread: int, name: str) -> Item:
    return {"name": what, "ph": "M", "pid": process, "tid": thread, "args": {"name": name}}


def instant(step: Step) -> Item:
    process, thread = DEVICE, ADMINISTRATOR
    if is_submission(step):
        thread = CLIENTS
    if step.event["do"] in ENGINE_STEPS:
        process, thread = STEPS_OF_ENGINES, step.event["engine"] + 1
    args = {"step": step.number, "event": step.words, "answer": step.answer.text}
    place = {"ts": step.number, "pid": process, "tid": thread}
    return {"name": step.answer.text, "ph": "i", "s": "t", **place, "args": args}


def changed(step: Step) -> Tuple[List[int], List[int]]:
    """The queues and the groups whose counters a step may have changed."""
    device, kind, event = step.after, step.answer.kind, step.event
    if kind == "ended" and step.fates and Command.of(event["word"]).number in ABORTS + RESETS:
        return list(range(len(device.queues))), list(range(len(device.groups)))
    queues = [event["queue"]] if kind == "accepted" else []
    if kind == "taken":
        queues = [step.answer.values["queue"]]
    groups = []
    if kind in ("taken", "started", "done"):
        groups = [device.group_of(event["engine"])]
    return queues, groups


def counters(step: Step) -> Iterator[Item]:
    queues, groups = changed(step)
    place = {"ph": "C", "ts": step.number, "pid": DEVICE}
    for number in queues:
        args = {"entries": len(step.after.queues[number].waiting)}
        yield {"name": f"queue {number}", **place, "args": args}
    for number in groups:
        args = {"read buffers": step.after.used(number)}
        yield {"name": f"group {number}", **place, "args": args}


def slice_of(bar: Bar) -> Item:
    """The slice of an entry that an engine had, without its lane."""
    entry, descriptor = bar.entry, bar.entry.descriptor
    args: Item = {"entry": entry.name}
    if entry.parent is not None:
        args["batch"] = entry.parent
    args.update(queue=entry.queue, opcode=descriptor.operation, pasid=descriptor.pasid)
    args["size"] = descriptor.size
    if entry.parent is None:
        args["client"] = entry.client
    args["end"] = bar.fate.end if bar.fate else "held"
    place = {"ts": bar.first, "pid": ENGINES, "args": args}
    name = f"{entry.name} {descriptor.words}"
    if bar.fate is None:
        return {"name": name, "ph": "B", **place}
    return {"name": name, "ph": "X", "dur": bar.end - bar.first, **place}


def slices_of_commands(run: Run) -> Iterator[Item]:
    thread = {"pid": DEVICE, "tid": ADMINISTRATOR}
    for wait in waits(run):
        words = wait.step.words[len("command ") :]
        yield {"name": words, "ph": "B", "ts": wait.step.number, **thread}
        if wait.is_over:
            yield {"ph": "E", "ts": wait.last, **thread}


def sorted_texts(items: List[Item]) -> List[str]:
    return sorted(json.dumps(item, sort_keys=True) for item in items)


def expected(run: Run) -> List[str]:
    """All events but those that name lanes, as sorted texts."""
    items = list(names_of_threads(run))
    for step in run.steps:
        items += [instant(step), *counters(step)]
    items += [slice_of(bar) for bar in bars_of(run)]
    return sorted_texts(items + list(slices_of_commands(run)))


def is_of_lane(item: Item) -> bool:
    return item["pid"] == ENGINES and item["name"] != "process_name"


def found(text: str) -> List[str]:
    """The same of a text of the program."""
    items = []
    for item in json.loads(text)["traceEvents"]:
        if is_of_lane(item) and item["ph"] == "M":
            continue
        if is_of_lane(item):
            item = {key: value for key, value in item.items() if key != "tid"}
        items.append(item)
    return sorted_texts(items)


def faults_of_lanes(text: str, run: Run) -> List[str]:
    """What is wrong with lanes: entries at the same time, or a name of another engine."""
    items = [item for item in json.loads(text)["traceEvents"] if is_of_lane(item)]
    names = {it["tid"]: it["args"]["name"] for it in items if it["name"] == "thread_name"}
    engines = {bar.entry.name: bar.engine for bar in bars_of(run)}
    faults, ends = [], {}
    slices = [item for item in items if item["ph"] != "M"]
    for item in sorted(slices, key=lambda item: item["ts"]):
        lane, entry = item["tid"], item["args"]["entry"]
        if names.get(lane) != f"engine {engines.get(entry)}":
            faults.append(f"entry {entry} is in a lane of {names.get(lane)}")
        if item["ts"] < ends.get(lane, 0):
            faults.append(f"entry {entry} shares its lane")
        ends[lane] = item["ts"] + item.get("dur", len(run.steps))
    lanes = {item["tid"] for item in slices}
    faults += [f"lane {lane} has no entry" for lane in set(names) - lanes]
    return faults
