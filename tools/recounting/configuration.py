"""Why a command is refused: the checks of docs/MODEL.md, with the sentences of docs/EXPLAIN.md.

One function gives the fault and its sentence, since both are of the first cause that holds."""
from __future__ import annotations

import functools
import operator
from typing import Iterator, List, NamedTuple, Optional, Sequence, Tuple

from .descriptor import (
    ENABLE_DEVICE,
    ENABLE_WQ,
    MOST_BUFFERS,
    OF_MASKS,
    RESET_DEVICE,
    RESET_WQ,
    Command,
    counted,
)
from .device import OFF, ON, Device, Entry

HIGHEST_PRIORITY = 15


class Refusal(NamedTuple):
    """The name of a fault, and the reason as a sentence."""

    name: str
    reason: str


def bits(mask: int) -> List[int]:
    return [bit for bit in range(mask.bit_length()) if mask >> bit & 1]


def missing_parts(device: Device) -> Iterator[Refusal]:
    """Groups that name what the device does not have."""
    queues, engines = len(device.queues), len(device.engines)
    for number, group in enumerate(device.groups):
        for queue in bits(group.queues):
            if queue >= queues:
                what = f"group {number} names q{queue}, and the device has"
                yield Refusal("BadIndex", f"{what} {counted(queues, 'queue')}")
        for engine in bits(group.engines):
            if engine >= engines:
                what = f"group {number} names e{engine}, and the device has"
                yield Refusal("BadIndex", f"{what} {counted(engines, 'engine')}")


def in_two_groups(device: Device) -> Iterator[Refusal]:
    """Queues and engines that two groups have."""
    for letter, key in ("q", "queues"), ("e", "engines"):
        masks = [getattr(group, key) for group in device.groups]
        for number in bits(functools.reduce(operator.or_, masks)):
            groups = [index for index, mask in enumerate(masks) if mask >> number & 1]
            if len(groups) > 1:
                where = f"group {groups[0]} and in group {groups[1]}"
                yield Refusal("TwoGroups", f"{letter}{number} is in {where}")


def out_of_range(device: Device) -> Iterator[Refusal]:
    """Groups whose allowed read buffers are too few or too many."""
    reserved = sum(group.reserved for group in device.groups)
    for number, group in enumerate(device.groups):
        left = device.caps["read_buffers"] - reserved + group.reserved
        says = f"group {number} may use {counted(group.allowed, 'read buffer')}"
        if group.allowed < group.reserved:
            reason = f"{says}, below the {group.reserved} that it reserves"
            yield Refusal("AllowedOutOfRange", reason)
        if group.allowed > left:
            yield Refusal("AllowedOutOfRange", f"{says}, above the {left} that others leave")
        if group.allowed < MOST_BUFFERS and group.engines:
            reason = f"{says}, below the {MOST_BUFFERS} that a descriptor may need"
            yield Refusal("AllowedOutOfRange", reason)


def device_faults(device: Device) -> Iterator[Refusal]:
    """The faults that Enable Device finds, in their order."""
    yield from missing_parts(device)
    sizes, most = sum(queue.size for queue in device.queues), device.caps["total_size"]
    if sizes > most:
        yield Refusal("SizesTooLarge", f"the sizes of the queues are {sizes}, of {most}")
    yield from in_two_groups(device)
    reserved, most = sum(group.reserved for group in device.groups), device.caps["read_buffers"]
    if reserved > most:
        reason = f"the groups reserve {counted(reserved, 'read buffer')}, of {most}"
        yield Refusal("ReservedTooMany", reason)
    yield from out_of_range(device)
    for number, group in enumerate(device.groups):
        if group.queues and not group.engines:
            yield Refusal("GroupWithoutEngine", f"group {number} has a queue and no engine")
    for number, group in enumerate(device.groups):
        if group.engines and not group.queues:
            yield Refusal("GroupWithoutQueue", f"group {number} has an engine and no queue")


def queue_faults(device: Device, number: int) -> Iterator[Refusal]:
    """The faults that Enable WQ finds, in their order."""
    queue = device.queues[number]
    if queue.size == 0:
        yield Refusal("SizeZero", f"the size of q{number} is 0")
    if queue.priority == 0:
        yield Refusal("PriorityZero", f"the priority of q{number} is 0")
    if queue.priority > HIGHEST_PRIORITY:
        reason = f"the priority of q{number} is {queue.priority}, above {HIGHEST_PRIORITY}"
        yield Refusal("PriorityTooLarge", reason)
    if not queue.dedicated and queue.threshold == 0:
        yield Refusal("ThresholdZero", f"the threshold of q{number} is 0")
    if not queue.dedicated and queue.threshold > queue.size:
        reason = f"the threshold of q{number} is {queue.threshold}, above its size of {queue.size}"
        yield Refusal("ThresholdAboveSize", reason)
    shifts = (
        ("BatchTooLarge", "batch", queue.batch, device.caps["max_batch_shift"]),
        ("TransferTooLarge", "transfer", queue.xfer, device.caps["max_xfer_shift"]),
    )
    for fault, what, shift, most in shifts:
        if shift > most:
            reason = f"the {what} shift of q{number} is {shift}, above the device's {most}"
            yield Refusal(fault, reason)
    if not any(group.queues >> number & 1 for group in device.groups):
        yield Refusal("NoGroup", f"no group has q{number}")


def busy(device: Device) -> Iterator[Refusal]:
    """That another command is active."""
    if device.active is None:
        return
    words, lists = device.active.command.words, device.awaited(*device.active)
    if lists:
        yield Refusal("Busy", f"{words} is active, and {waits_for(lists)}")
    else:
        yield Refusal("Busy", f"{words} has ended, and no poll has reported it")


def waits_for(lists: Sequence[Tuple[str, List[Entry]]]) -> str:
    """How many entries a command waits for, and the first of them."""
    count = sum(len(entries) for _, entries in lists)
    where, entries = lists[0]
    said = counted(count, "entry", "entries")
    return f"waits for {said}, first for {entries[0].name} in {where}"


def wrong_states(device: Device, asked: Command) -> Iterator[Refusal]:
    """Phases of the device and of queues that a command cannot have."""
    wanted = OFF if asked.number == ENABLE_DEVICE else ON
    if asked.number != RESET_DEVICE and device.phase != wanted:
        yield Refusal("WrongState", f"the device is {device.phase}")
    if asked.number == ENABLE_WQ or asked.number in OF_MASKS and asked.number != RESET_WQ:
        wanted = OFF if asked.number == ENABLE_WQ else ON
        for number in asked.queues:
            if device.queues[number].phase != wanted:
                yield Refusal("WrongState", f"q{number} is {device.queues[number].phase}")


def refusals(device: Device, asked: Command) -> Iterator[Refusal]:
    """Why a command is refused: all causes, in their order."""
    yield from busy(device)
    if asked.number == ENABLE_WQ or asked.number in OF_MASKS:
        if not asked.queues:
            yield Refusal("BadQueue", "no queue is named")
        for number in asked.queues:
            if not device.has_queue(number):
                yield Refusal("BadQueue", f"the device has no q{number}")
    yield from wrong_states(device, asked)
    if asked.number == ENABLE_DEVICE:
        yield from device_faults(device)
    if asked.number == ENABLE_WQ:
        yield from queue_faults(device, asked.operand)


def refusal(device: Device, asked: Command) -> Optional[Refusal]:
    """Why a command is refused: the first cause, or None."""
    return next(refusals(device, asked), None)
