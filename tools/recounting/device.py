"""The state of a device, what it shows, and which answers it may give.

Each rule is one of docs/MODEL.md. Lists of entries are plain lists, front first. Cells are left
out of a run, of which no line depends on them: only a dialogue keeps them."""
from __future__ import annotations

import pickle
from dataclasses import dataclass, field
from typing import Any, Dict, List, NamedTuple, Optional, Tuple

from .cells import Cells
from .descriptor import (
    BAD_COUNT,
    BAD_FENCE,
    BAD_SIZE,
    BATCH,
    BUFFER_BYTES,
    COMPARE,
    DRAIN,
    DRAINS,
    FILL,
    MOST_BUFFERS,
    MOVE,
    OF_MASKS,
    OF_PASIDS,
    UNSUPPORTED,
    Command,
    Descriptor,
)

OFF, ON, STOPPING = "off", "on", "stopping"
CONFIGURATION = ("size", "threshold", "dedicated", "priority", "pasid", "batch", "xfer")


@dataclass
class Entry:
    """A descriptor that the device holds."""

    name: int
    descriptor: Descriptor
    queue: int
    parent: Optional[int] = None
    client: Optional[int] = None
    runs: bool = False


class Fate(NamedTuple):
    """How an entry ended: completed with a status, aborted by a command, or abandoned."""

    name: int
    parent: Optional[int]
    how: str
    number: int = 0

    @property
    def end(self) -> str:
        if self.how == "completed":
            return f"completed {self.number:02x}"
        return f"aborted {self.number}" if self.how == "aborted" else "abandoned"

    @property
    def line(self) -> str:
        return f"fate {self.name} {'-' if self.parent is None else self.parent} {self.end}"


@dataclass
class Queue:
    """The configuration of a queue, its phase, and what waits in it."""

    size: int = 0
    threshold: int = 0
    dedicated: bool = False
    priority: int = 0
    pasid: int = 0
    batch: int = 0
    xfer: int = 0
    phase: str = OFF
    waiting: List[Entry] = field(default_factory=list)

    def configure(self, **values: Any) -> None:
        """Sets the given fields, and all others to zero."""
        for key in CONFIGURATION:
            setattr(self, key, values.get(key, False if key == "dedicated" else 0))
        self.pasid %= 1 << 20


@dataclass
class Group:
    """The configuration of a group, and its turn."""

    queues: int = 0
    engines: int = 0
    reserved: int = 0
    allowed: int = 0
    turn: int = 0


@dataclass
class Note:
    """What an engine keeps of the batch that it works on."""

    name: int
    count: int
    fetched: int = 0
    failed: bool = False
    closed: bool = False

    @property
    def is_fetched(self) -> bool:
        return self.closed or self.fetched == self.count


@dataclass
class Engine:
    """What an engine has in progress, the members of its batch, and the note of it."""

    progress: List[Entry] = field(default_factory=list)
    members: List[Entry] = field(default_factory=list)
    note: Optional[Note] = None

    @property
    def waiting_member(self) -> Optional[Entry]:
        return next((member for member in self.members if not member.runs), None)


class Active(NamedTuple):
    """The active command, with its mark."""

    command: Command
    mark: int


class Noted(NamedTuple):
    """The noted error."""

    queue: int
    cause: str
    overflow: bool


class Device:
    """A device of some capabilities, with room for a number of steps."""

    def __init__(self, caps: Dict[str, int], capacity: int) -> None:
        self.caps, self.capacity, self.stored = caps, capacity, 0
        self.phase = OFF
        self.queues = [Queue() for _ in range(caps["queues"])]
        self.groups = [Group() for _ in range(caps["groups"])]
        self.engines = [Engine() for _ in range(caps["engines"])]
        self.active: Optional[Active] = None
        self.error: Optional[Noted] = None
        self.next_name = 0
        self.fates: List[Fate] = []
        self.cells: Optional[Cells] = None

    def copy(self) -> Device:
        return pickle.loads(pickle.dumps(self, pickle.HIGHEST_PROTOCOL))

    def begin_anew(self, keeps_fates: bool) -> None:
        """Empties the history. It has room for as many steps as before, since more names are left
        than a dialogue gives."""
        self.stored = 0
        if not keeps_fates:
            self.fates.clear()

    def has_queue(self, number: int) -> bool:
        return number < len(self.queues)

    def has_engine(self, number: int) -> bool:
        return number < len(self.engines)

    @property
    def is_full(self) -> bool:
        return self.stored == self.capacity

    # what is held

    def lists(self) -> List[Tuple[str, List[Entry]]]:
        """All lists with their names, in the order in which aborts go through them."""
        engines = list(enumerate(self.engines))
        return [
            *((f"q{number}", queue.waiting) for number, queue in enumerate(self.queues)),
            *((f"e{number}", engine.progress) for number, engine in engines),
            *((f"batch of e{number}", engine.members) for number, engine in engines),
        ]

    def place(self, name: int) -> Optional[Tuple[str, Entry]]:
        """The list of a held entry of this name, with the entry."""
        for where, entries in self.lists():
            for entry in entries:
                if entry.name == name:
                    return where, entry
        return None

    def fate(self, name: int) -> Optional[Fate]:
        return next((fate for fate in self.fates if fate.name == name), None)

    def is_in_scope(self, command: Command, entry: Entry) -> bool:
        """Whether a command applies to an entry."""
        if command.number in OF_MASKS:
            return entry.queue in command.queues
        return command.number not in OF_PASIDS or entry.descriptor.pasid == command.operand

    def awaited(self, command: Command, mark: int) -> List[Tuple[str, List[Entry]]]:
        """What a drain or a disable waits for: the lists that have some of it."""

        def is_awaited(entry: Entry) -> bool:
            if command.number in DRAINS and (entry.parent is not None or entry.name >= mark):
                return False
            return self.is_in_scope(command, entry)

        found = [(where, list(filter(is_awaited, entries))) for where, entries in self.lists()]
        return [(where, entries) for where, entries in found if entries]

    def removed(self, command: Command) -> List[Tuple[str, List[Entry]]]:
        """What an abort or a reset removes: the lists that lose some of it."""
        found = [
            (where, [entry for entry in entries if self.is_in_scope(command, entry)])
            for where, entries in self.lists()
        ]
        return [(where, entries) for where, entries in found if entries]

    # descriptors

    def failed_check(self, descriptor: Descriptor, queue: int, is_member: bool) -> Optional[int]:
        """The status of the first check that fails, or None of a well-formed descriptor."""
        operation, size = descriptor.operation, descriptor.size
        if operation > COMPARE or is_member and operation in (BATCH, DRAIN):
            return UNSUPPORTED
        if descriptor.fence and not is_member:
            return BAD_FENCE
        limits = self.queues[queue]
        if operation in (MOVE, FILL, COMPARE) and not 1 <= size <= 1 << limits.xfer:
            return BAD_SIZE
        if operation == BATCH and not 2 <= size <= 1 << limits.batch:
            return BAD_COUNT
        return None

    def is_well_formed(self, entry: Entry, operation: int) -> bool:
        """Whether an entry is a well-formed one of this operation."""
        failed = self.failed_check(entry.descriptor, entry.queue, entry.parent is not None)
        return failed is None and entry.descriptor.operation == operation

    def need(self, entry: Entry) -> int:
        """How many read buffers an entry needs."""
        if not (self.is_well_formed(entry, MOVE) or self.is_well_formed(entry, COMPARE)):
            return 0
        return min(MOST_BUFFERS, -(-entry.descriptor.size // BUFFER_BYTES))

    def drain_waits_for(self, drain: Entry) -> Optional[Entry]:
        """What a well-formed Drain waits for, first in the order of the lists."""
        for _, entries in self.lists():
            for entry in entries:
                is_same = entry.queue == drain.queue and entry.parent is None
                is_older = entry.name < drain.name
                if is_same and is_older and entry.descriptor.pasid == drain.descriptor.pasid:
                    return entry
        return None

    # groups and read buffers

    def group_of(self, engine: int) -> Optional[int]:
        """The first group with an engine of this number."""
        for number, group in enumerate(self.groups):
            if group.engines >> engine & 1:
                return number
        return None

    def queues_of(self, group: int) -> List[int]:
        mask = self.groups[group].queues
        return [number for number in range(len(self.queues)) if mask >> number & 1]

    def used(self, group: int) -> int:
        """The read buffers that the running entries of a group's engines need."""
        total = 0
        for number, engine in enumerate(self.engines):
            if self.groups[group].engines >> number & 1:
                running = [entry for entry in engine.progress + engine.members if entry.runs]
                total += sum(self.need(entry) for entry in running)
        return total

    def kept(self, group: int) -> List[Tuple[int, int]]:
        """The other groups for which read buffers are kept, each with how many."""
        found = [
            (number, other.reserved - self.used(number))
            for number, other in enumerate(self.groups)
            if number != group
        ]
        return [(number, count) for number, count in found if count > 0]

    def fits(self, group: int, count: int) -> bool:
        """Whether a number of further read buffers fits a group."""
        used = [self.used(number) for number in range(len(self.groups))]
        used[group] += count
        totals = [max(own, it.reserved) for own, it in zip(used, self.groups)]
        is_allowed = used[group] <= self.groups[group].allowed
        return is_allowed and sum(totals) <= self.caps["read_buffers"]

    def hindrance(self, engine: int, queue: int) -> Optional[str]:
        """Why a queue of the engine's group does not qualify: the first cause, or None."""
        own, waiting = self.engines[engine], self.queues[queue].waiting
        if not waiting:
            return "empty"
        front = waiting[0]
        if len(own.progress) >= self.caps["slots"]:
            return "slots"
        if not self.fits(self.group_of(engine), self.need(front)):
            return "buffers"
        if self.is_well_formed(front, BATCH) and own.note:
            return "batch"
        if self.is_well_formed(front, DRAIN) and self.drain_on(engine):
            return "drain"
        return None

    def drain_on(self, engine: int) -> Optional[Entry]:
        """A well-formed Drain that is in progress on the engine."""
        for entry in self.engines[engine].progress:
            if self.is_well_formed(entry, DRAIN):
                return entry
        return None

    def qualifying(self, engine: int) -> List[int]:
        """The queues that qualify for an engine, in ascending order."""
        if not self.has_engine(engine):
            return []
        group = self.group_of(engine)
        queues = [] if group is None else self.queues_of(group)
        return [queue for queue in queues if self.hindrance(engine, queue) is None]

    def chosen(self, engine: int) -> Optional[int]:
        """The queue that an engine takes from on its own: by priority, and then in turn."""
        queues = self.qualifying(engine)
        if not queues:
            return None
        highest = max(self.queues[queue].priority for queue in queues)
        best = [queue for queue in queues if self.queues[queue].priority == highest]
        turn = self.groups[self.group_of(engine)].turn
        return next((queue for queue in best if queue >= turn), best[0])
