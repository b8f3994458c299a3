"""The reason of an answer, as a sentence of docs/EXPLAIN.md: read from the device before a step."""
from __future__ import annotations

from typing import Callable, Dict, List, Optional, Tuple

from . import configuration
from .answers import Answer, Event, is_word_without_command, limit_of, running
from .descriptor import (
    ABORTS,
    BAD_COUNT,
    BAD_FENCE,
    BATCH,
    COMMANDS,
    MEMBER_FAILED,
    OPERATIONS,
    PAGE_FAULT,
    RESETS,
    SUCCESS,
    UNSUPPORTED,
    Command,
    counted,
)
from .device import OFF, Device, Entry, Fate

Lists = List[Tuple[str, List[Entry]]]


def of_submission(device: Device, event: Event, given: Answer) -> str:
    number = event["queue"]
    if not device.has_queue(number):
        return f"the device has no q{number}"
    queue, cause = device.queues[number], given.values["cause"]
    if cause == "not-enabled":
        return f"the device is {device.phase}, and q{number} is {queue.phase}"
    if cause == "wrong-kind":
        mode, takes = ("dedicated", "movdir") if queue.dedicated else ("shared", "enqcmd")
        return f"q{number} is {mode}, and takes {takes}"
    holds = counted(len(queue.waiting), "entry", "entries")
    portal = "limited" if event["limited"] else "unlimited"
    return f"q{number} holds {holds}, and the {portal} portal goes up to {limit_of(device, event)}"


def buffers(device: Device, group: int, need: int) -> str:
    """Why the read buffers of a need do not fit a group."""
    used = [device.used(number) for number in range(len(device.groups))]
    kept = device.kept(group)
    total = sum(count for _, count in kept)
    said = [f"{'is' if total == 1 else 'are'} kept", *(f"{n} for group {g}" for g, n in kept)]
    needs = counted(need, "read buffer")
    of_group = f"group {group} uses {used[group]} of {device.groups[group].allowed}"
    of_all = f"all groups use {sum(used)} of {device.caps['read_buffers']}"
    return f"needs {needs}, {of_group}, {of_all}, and {total} {', '.join(said)}"


def of_queue(device: Device, engine: int, queue: int) -> str:
    """Why an engine does not take from a queue."""
    cause = device.hindrance(engine, queue)
    if cause == "empty":
        return f"q{queue} is empty"
    front = device.queues[queue].waiting[0]
    begin = f"q{queue}'s front {front.name}"
    if cause == "slots":
        used, slots = len(device.engines[engine].progress), device.caps["slots"]
        verb = "is" if used == 1 else "are"
        return f"{begin} waits for a slot, of which {used} of {slots} {verb} in use"
    if cause == "buffers":
        return f"{begin} {buffers(device, device.group_of(engine), device.need(front))}"
    if cause == "batch":
        batch = device.engines[engine].note.name
        return f"{begin} is a batch, and the engine works on batch {batch}"
    drain = device.drain_on(engine).name
    return f"{begin} is a drain, and drain {drain} is in progress on the engine"


def of_dispatch(device: Device, event: Event, given: Answer) -> Optional[str]:
    engine = event["engine"]
    if given.kind == "taken":
        return None
    if not device.has_engine(engine):
        return f"the device has no e{engine}"
    group = device.group_of(engine)
    if group is None:
        return f"e{engine} is of no group"
    queues = device.queues_of(group)
    if not queues:
        return f"e{engine} is of a group without a queue"
    return "; ".join(of_queue(device, engine, queue) for queue in queues)


def of_fetch(device: Device, event: Event, given: Answer) -> Optional[str]:
    number = event["engine"]
    if given.kind == "fetched":
        return None
    if not device.has_engine(number):
        return f"the device has no e{number}"
    note = device.engines[number].note
    if note is None:
        return f"e{number} works on no batch"
    said = f"e{number} has fetched {note.fetched} of {note.count} members"
    return f"{said}, and the rest is abandoned" if note.closed else said


def of_start(device: Device, event: Event, given: Answer) -> Optional[str]:
    number = event["engine"]
    if given.kind == "started":
        return None
    if not device.has_engine(number):
        return f"the device has no e{number}"
    engine = device.engines[number]
    member = engine.waiting_member
    if member is None:
        return f"no member waits on e{number}"
    fence = f"member {member.name} has a fence"
    if given.kind == "fence-wait":
        return f"{fence}, and waits for {engine.members[0].name}"
    if given.kind == "abandoned":
        failed = failed_members(device, engine.note.name)
        which = f"member {failed[0].name}" if failed else "a member"
        count = given.values["count"]
        end = f"{count} {'ends' if count == 1 else 'end'} unstarted"
        return f"{fence}, {which} before it failed, and {end}"
    return f"the member {buffers(device, device.group_of(number), device.need(member))}"


def failed_members(device: Device, batch: int) -> List[Fate]:
    """The fates of the members of a batch that were not successful, in the order of their ends,
    without those that were forgotten."""
    return [
        fate
        for fate in device.fates
        if fate.parent == batch and fate.how == "completed" and fate.number != SUCCESS
    ]


def of_gone(device: Device, event: Event) -> str:
    name, number = event["name"], event["engine"]
    if not device.has_engine(number):
        return f"the device has no e{number}"
    fate, place = device.fate(name), device.place(name)
    if fate and fate.how == "completed":
        return f"{name} has completed"
    if fate and fate.how == "aborted":
        return f"{name} was aborted by {COMMANDS[fate.number]}"
    if fate:
        return f"{name} was abandoned"
    if place is None and device.cells and name < device.next_name:
        return device.cells.of_ticket(name)
    if place is None:
        return f"no entry has the name {name}"
    where, _ = place
    is_own = where == f"batch of e{number}"
    return "the member has not started" if is_own else f"the entry stands in {where}"


def of_not_ready(device: Device, event: Event) -> str:
    number, entry = event["engine"], running(device, event)
    if not device.is_well_formed(entry, BATCH):
        return f"the drain waits for {device.drain_waits_for(entry).name}"
    engine = device.engines[number]
    if engine.members:
        verb = "has" if len(engine.members) == 1 else "have"
        return f"{counted(len(engine.members), 'member')} {verb} not ended"
    return f"e{number} has fetched {engine.note.fetched} of {engine.note.count} members"


def of_status(device: Device, entry: Entry, status: int) -> Optional[str]:
    """Why an entry completes with a status."""
    descriptor, queue = entry.descriptor, device.queues[entry.queue]
    if status == SUCCESS:
        return None
    if status == PAGE_FAULT:
        return "page fault"
    if status == MEMBER_FAILED:
        failed = failed_members(device, entry.name)
        if not failed:
            return "a member failed"
        first, *others = failed
        said = f"member {first.name} ended with {first.number:02x}"
        return f"{said}, the first of {len(others) + 1}" if others else said
    if status == UNSUPPORTED and descriptor.operation < len(OPERATIONS):
        return f"{OPERATIONS[descriptor.operation]} is not supported in a batch"
    if status == UNSUPPORTED:
        return f"operation 0x{descriptor.operation:x} is not supported"
    if status == BAD_FENCE:
        return "a fence outside a batch"
    is_count = status == BAD_COUNT
    what, least, limit = ("count", 2, "batch") if is_count else ("size", 1, "transfer")
    if descriptor.size < least:
        return f"{what} {descriptor.size} is below {least}"
    most = 1 << (queue.batch if is_count else queue.xfer)
    return f"{what} {descriptor.size} is above {most}, the {limit} limit of q{entry.queue}"


def of_finish(device: Device, event: Event, given: Answer) -> Optional[str]:
    if given.kind == "gone":
        return of_gone(device, event)
    if given.kind == "not-ready":
        return of_not_ready(device, event)
    return of_status(device, running(device, event), given.values["status"])


def names(entries: List[Entry]) -> str:
    return ", ".join(str(entry.name) for entry in entries)


def of_command(device: Device, event: Event, given: Answer) -> Optional[str]:
    asked = Command.of(event["word"])
    if given.kind == "refused":
        return configuration.refusal(device, asked).reason
    if given.kind == "active":
        lists = device.awaited(asked, device.next_name)
        count = counted(sum(len(entries) for _, entries in lists), "entry", "entries")
        said = "; ".join(f"{where}: {names(entries)}" for where, entries in lists)
        return f"the command waits for {count}, {said}"
    if asked.number in ABORTS + RESETS and given.values["aborted"]:
        lists = device.removed(asked)
        return "; ".join(f"{where} loses {names(entries)}" for where, entries in lists)
    return None


def of_poll(device: Device, event: Event, given: Answer) -> Optional[str]:
    if given.kind == "finished":
        return None
    if given.kind == "nothing":
        return "no command is active"
    return f"the command {configuration.waits_for(device.awaited(*device.active))}"


def of_write_queue(device: Device, event: Event, given: Answer) -> Optional[str]:
    if given.kind == "written":
        return None
    if not device.has_queue(event["queue"]):
        return f"the device has {counted(len(device.queues), 'queue')}"
    queue = device.queues[event["queue"]]
    if queue.phase != OFF:
        return f"the queue is {queue.phase}"
    return f"the device is {device.phase}, and the size stays {queue.size}"


def of_write_group(device: Device, event: Event, given: Answer) -> Optional[str]:
    if given.kind == "written":
        return None
    if event["group"] >= len(device.groups):
        return f"the device has {counted(len(device.groups), 'group')}"
    return f"the device is {device.phase}"


def of_clear(device: Device, event: Event, given: Answer) -> Optional[str]:
    return "no error is noted" if given.kind == "nothing" else None


REASONS: Dict[str, Callable[[Device, Event, Answer], Optional[str]]] = {
    "queue": of_write_queue,
    "group": of_write_group,
    "enqcmd": of_submission,
    "movdir": of_submission,
    "dispatch": of_dispatch,
    "fetch": of_fetch,
    "start": of_start,
    "finish": of_finish,
    "command": of_command,
    "poll": of_poll,
    "clear": of_clear,
}


def reason(device: Device, event: Event, given: Answer) -> Optional[str]:
    """The reason of an answer, or None of a step that did what it asked for."""
    if is_word_without_command(event):
        number, others = event["word"] >> 20 & 31, event["word"] >> 25 & 63
        return f"no command has the number {number}, with {others} in bits 30:25"
    if given.kind == "full":
        return f"the history has room for {counted(device.capacity, 'step')}"
    if given.kind == "accepted":
        return None
    return REASONS[event["do"]](device, event, given)
