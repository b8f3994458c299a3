"""The answers of a device, as docs/MODEL.md has them, and what each step changes.

'answer' reads a device and changes nothing; 'make' makes a step with an answer. An event is a step
object of docs/SCENARIO.md. Of several queues that an engine may take from, 'answer' takes the one
that is chosen, and otherwise the one that the device takes from on its own."""
from __future__ import annotations

from typing import Any, Callable, Dict, List, NamedTuple, Optional

from . import configuration
from .descriptor import (
    ABORTS,
    BATCH,
    DISABLE_DEVICE,
    DISABLES,
    DRAIN,
    DRAINS,
    ENABLE_DEVICE,
    ENABLE_WQ,
    MEMBER_FAILED,
    OF_MASKS,
    PAGE_FAULT,
    RESET_WQ,
    RESETS,
    SUCCESS,
    Command,
    Descriptor,
)
from .device import CONFIGURATION, OFF, ON, STOPPING, Active, Device, Entry, Fate, Note, Noted

FAULTS = (
    "",
    *("SizesTooLarge", "TwoGroups", "ReservedTooMany", "AllowedOutOfRange", "GroupWithoutEngine"),
    *("GroupWithoutQueue", "SizeZero", "PriorityZero", "ThresholdZero", "ThresholdAboveSize"),
    *("BatchTooLarge", "NoGroup", "BadCommand", "BadQueue", "Locked", "WrongState", "Busy"),
    *("PriorityTooLarge", "TransferTooLarge", "BadIndex"),
)
STORED = (
    *("accepted", "retry", "dropped", "taken", "fetched", "started", "abandoned", "done", "ended"),
    *("finished", "written", "cleared"),
)
Event = Dict[str, Any]


class Answer(NamedTuple):
    """The first word of an answer, and what it says."""

    kind: str
    values: Dict[str, Any] = {}

    @property
    def text(self) -> str:
        """The answer as a run prints it."""
        values = dict(self.values)
        if self.kind == "taken":
            return f"taken {values['name']} from {values['queue']}"
        if self.kind == "done":
            return f"done {values['status']:02x}"
        if "overflow" in values:
            values["overflow"] = "overflow" if values["overflow"] else ""
        return " ".join(filter(None, [self.kind, *map(str, values.values())]))

    @property
    def without_name(self) -> str:
        """The same without the name of the entry."""
        if self.kind == "taken":
            return f"taken from {self.values['queue']}"
        return self.kind if "name" in self.values else self.text


def refused(fault: str) -> Answer:
    return Answer("refused", {"fault": FAULTS.index(fault), "fault_name": fault})


def is_word_without_command(event: Event) -> bool:
    return event["do"] == "command" and Command.of(event["word"]) is None


def submission(device: Device, event: Event) -> Answer:
    turned_away = "retry" if event["do"] == "enqcmd" else "dropped"
    number = event["queue"]
    if not device.has_queue(number) or device.queues[number].phase != ON:
        return Answer(turned_away, {"cause": "not-enabled"})
    queue = device.queues[number]
    if queue.dedicated != (event["do"] == "movdir"):
        return Answer(turned_away, {"cause": "wrong-kind"})
    if len(queue.waiting) >= limit_of(device, event):
        return Answer(turned_away, {"cause": "at-limit"})
    return Answer("accepted", {"name": device.next_name})


def limit_of(device: Device, event: Event) -> int:
    """The occupancy from which on a submission is not accepted."""
    queue = device.queues[event["queue"]]
    return queue.threshold if event["limited"] and not queue.dedicated else queue.size


def dispatch(device: Device, event: Event, chosen: Optional[int] = None) -> Answer:
    queue = device.chosen(event["engine"]) if chosen is None else chosen
    if queue is None:
        return Answer("idle")
    return Answer("taken", {"name": device.queues[queue].waiting[0].name, "queue": queue})


def fetch(device: Device, event: Event) -> Answer:
    if not device.has_engine(event["engine"]):
        return Answer("no-batch")
    note = device.engines[event["engine"]].note
    if note is None:
        return Answer("no-batch")
    if note.is_fetched:
        return Answer("all-fetched")
    return Answer("fetched", {"name": device.next_name})


def start(device: Device, event: Event) -> Answer:
    if not device.has_engine(event["engine"]):
        return Answer("nothing")
    engine = device.engines[event["engine"]]
    member = engine.waiting_member
    if member is None:
        return Answer("nothing")
    before = engine.members.index(member)
    if member.descriptor.fence and before:
        return Answer("fence-wait")
    if member.descriptor.fence and engine.note.failed:
        return Answer("abandoned", {"count": len(engine.members)})
    if not device.fits(device.group_of(event["engine"]), device.need(member)):
        return Answer("no-buffers")
    return Answer("started", {"name": member.name})


def running(device: Device, event: Event) -> Optional[Entry]:
    """The running entry of a finish."""
    if not device.has_engine(event["engine"]):
        return None
    engine = device.engines[event["engine"]]
    for entry in engine.progress + engine.members:
        if entry.name == event["name"] and entry.runs:
            return entry
    return None


def finish(device: Device, event: Event) -> Answer:
    entry = running(device, event)
    if entry is None:
        return Answer("gone")
    engine = device.engines[event["engine"]]
    if device.is_well_formed(entry, BATCH) and (engine.members or not engine.note.is_fetched):
        return Answer("not-ready")
    if device.is_well_formed(entry, DRAIN) and device.drain_waits_for(entry):
        return Answer("not-ready")
    return Answer("done", {"status": status_of(device, event, entry)})


def status_of(device: Device, event: Event, entry: Entry) -> int:
    """The status with which an entry completes."""
    is_member = entry.parent is not None
    failed = device.failed_check(entry.descriptor, entry.queue, is_member)
    if failed is not None:
        return failed
    if entry.descriptor.operation == BATCH:
        return MEMBER_FAILED if device.engines[event["engine"]].note.failed else SUCCESS
    return PAGE_FAULT if event["fault"] and entry.descriptor.is_transfer else SUCCESS


def command(device: Device, event: Event) -> Answer:
    asked = Command.of(event["word"])
    fault = configuration.refusal(device, asked)
    if fault:
        return refused(fault.name)
    if asked.number in ABORTS + RESETS:
        lists = device.removed(asked)
        return Answer("ended", {"aborted": sum(len(entries) for _, entries in lists)})
    if asked.number in DRAINS + DISABLES and device.awaited(asked, device.next_name):
        return Answer("active")
    return Answer("ended", {"aborted": 0})


def poll(device: Device, event: Event) -> Answer:
    if device.active is None:
        return Answer("nothing")
    return Answer("active" if device.awaited(*device.active) else "finished")


def write_queue(device: Device, event: Event) -> Answer:
    if not device.has_queue(event["queue"]):
        return refused("BadIndex")
    queue = device.queues[event["queue"]]
    if queue.phase != OFF or device.phase != OFF and queue.size != event["size"]:
        return refused("Locked")
    return Answer("written")


def write_group(device: Device, event: Event) -> Answer:
    if event["group"] >= len(device.groups):
        return refused("BadIndex")
    return refused("Locked") if device.phase != OFF else Answer("written")


def clear(device: Device, event: Event) -> Answer:
    return Answer("cleared", device.error._asdict()) if device.error else Answer("nothing")


ANSWERS: Dict[str, Callable[..., Answer]] = {
    "queue": write_queue,
    "group": write_group,
    "enqcmd": submission,
    "movdir": submission,
    "dispatch": dispatch,
    "fetch": fetch,
    "start": start,
    "finish": finish,
    "command": command,
    "poll": poll,
    "clear": clear,
}


def answer(device: Device, event: Event, chosen: Optional[int] = None) -> Answer:
    """What the device answers to an event."""
    if is_word_without_command(event):
        return refused("BadCommand")
    if device.is_full:
        return Answer("full")
    if chosen is not None:
        return dispatch(device, event, chosen)
    return ANSWERS[event["do"]](device, event)


def allowed(device: Device, event: Event) -> List[Answer]:
    """All answers that a device may give to an event, in ascending order of the queues."""
    queues = device.qualifying(event["engine"]) if event["do"] == "dispatch" else []
    if device.is_full or not queues:
        return [answer(device, event)]
    return [answer(device, event, queue) for queue in queues]


# what a step changes


def make_submission(device: Device, event: Event, given: Answer) -> None:
    if given.kind == "dropped":
        first = device.error or Noted(event["queue"], given.values["cause"], False)
        device.error = first._replace(overflow=True) if device.error else first
    if given.kind == "accepted":
        queue = device.queues[event["queue"]]
        pasid = event["pasid"] if event["do"] == "enqcmd" else queue.pasid
        descriptor = Descriptor.of(event["desc"], pasid)
        queue.waiting.append(
            Entry(device.next_name, descriptor, event["queue"], client=event["client"])
        )
        device.next_name += 1


def make_dispatch(device: Device, event: Event, given: Answer) -> None:
    engine, queue = device.engines[event["engine"]], given.values["queue"]
    entry = device.queues[queue].waiting.pop(0)
    entry.runs = True
    engine.progress.append(entry)
    if device.is_well_formed(entry, BATCH):
        engine.note = Note(entry.name, entry.descriptor.size)
    device.groups[device.group_of(event["engine"])].turn = queue + 1


def make_fetch(device: Device, event: Event, given: Answer) -> None:
    engine = device.engines[event["engine"]]
    batch = next(entry for entry in engine.progress if entry.name == engine.note.name)
    descriptor = Descriptor.of(event["desc"], batch.descriptor.pasid)
    engine.members.append(Entry(device.next_name, descriptor, batch.queue, batch.name))
    engine.note.fetched += 1
    device.next_name += 1


def make_start(device: Device, event: Event, given: Answer) -> None:
    engine = device.engines[event["engine"]]
    if given.kind == "started":
        engine.waiting_member.runs = True
        return
    device.fates += [Fate(entry.name, entry.parent, "abandoned") for entry in engine.members]
    engine.members.clear()
    engine.note.closed = True


def make_finish(device: Device, event: Event, given: Answer) -> None:
    engine, entry = device.engines[event["engine"]], running(device, event)
    status = given.values["status"]
    is_batch = device.is_well_formed(entry, BATCH)
    (engine.progress if entry.parent is None else engine.members).remove(entry)
    device.fates.append(Fate(entry.name, entry.parent, "completed", status))
    if entry.parent is not None and status != SUCCESS:
        engine.note.failed = True
    if is_batch:
        engine.note = None


def make_removal(device: Device, asked: Command) -> None:
    """Removes all entries of a command's scope, and the notes of batches among them."""
    for engine in device.engines:
        for entry in engine.progress:
            if engine.note and entry.name == engine.note.name and device.is_in_scope(asked, entry):
                engine.note = None
    for _, entries in device.lists():
        for entry in [entry for entry in entries if device.is_in_scope(asked, entry)]:
            entries.remove(entry)
            device.fates.append(Fate(entry.name, entry.parent, "aborted", asked.number))


def make_reset(device: Device, asked: Command) -> None:
    if asked.number == RESET_WQ:
        for number in asked.queues:
            device.queues[number].configure(size=device.queues[number].size)
            device.queues[number].phase = OFF
        return
    for queue in device.queues:
        queue.configure()
        queue.phase = OFF
    for group in device.groups:
        group.queues = group.engines = group.reserved = group.allowed = 0
    device.error, device.phase = None, OFF


def stop(device: Device, asked: Command, phase: str) -> None:
    """Gives what a disable stops another phase, which it has until or after its end."""
    stopped = asked.queues if asked.number in OF_MASKS else range(len(device.queues))
    for number in stopped:
        if device.queues[number].phase != OFF:
            device.queues[number].phase = phase
    if asked.number == DISABLE_DEVICE:
        device.phase = phase


def make_command(device: Device, event: Event, given: Answer) -> None:
    asked = Command.of(event["word"])
    if asked.number == ENABLE_DEVICE:
        device.phase = ON
    if asked.number == ENABLE_WQ:
        device.queues[asked.operand].phase = ON
    if asked.number in ABORTS + RESETS:
        make_removal(device, asked)
    if asked.number in RESETS:
        make_reset(device, asked)
    if asked.number in DISABLES:
        stop(device, asked, STOPPING if given.kind == "active" else OFF)
    if given.kind == "active":
        device.active = Active(asked, device.next_name)


def make_poll(device: Device, event: Event, given: Answer) -> None:
    if device.active.command.number in DISABLES:
        stop(device, device.active.command, OFF)
    device.active = None


def make_queue(device: Device, event: Event, given: Answer) -> None:
    device.queues[event["queue"]].configure(**{key: event[key] for key in CONFIGURATION})


def make_group(device: Device, event: Event, given: Answer) -> None:
    group = device.groups[event["group"]]
    group.queues, group.engines = event["queues"], event["engines"]
    group.reserved, group.allowed = event["reserved"], event["allowed"]


def make_clear(device: Device, event: Event, given: Answer) -> None:
    device.error = None


MAKERS: Dict[str, Callable[[Device, Event, Answer], None]] = {
    "queue": make_queue,
    "group": make_group,
    "enqcmd": make_submission,
    "movdir": make_submission,
    "dispatch": make_dispatch,
    "fetch": make_fetch,
    "start": make_start,
    "finish": make_finish,
    "command": make_command,
    "poll": make_poll,
    "clear": make_clear,
}


def make(device: Device, event: Event, given: Answer) -> None:
    """Makes a step with this answer. An answer that is not stored changes nothing."""
    if given.kind in STORED or given.kind == "active" and event["do"] == "command":
        MAKERS[event["do"]](device, event, given)
        device.stored += 1
