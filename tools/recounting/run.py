"""The run of a document: the words, answer, reason and fates of each step, and the device after."""
from __future__ import annotations

from typing import Any, Dict, Iterable, List, NamedTuple, Optional, Union

from .answers import Answer, Event, answer, make
from .descriptor import Command, Descriptor
from .device import Device, Fate
from .reasons import reason

Document = Dict[str, Any]


class Step(NamedTuple):
    """A step of a run. 'after' is the device after it."""

    number: int
    event: Event
    words: str
    answer: Answer
    reason: Optional[str]
    fates: List[Fate]
    after: Device

    @property
    def explained(self) -> str:
        """Its line of 'explain'."""
        line = f"{self.number} {self.words} -> {self.answer.text}"
        return line if self.reason is None else f"{line}: {self.reason}"

    @property
    def name(self) -> Optional[int]:
        """The name of the entry that the answer names."""
        return self.answer.values.get("name")


def words_of(event: Event) -> str:
    """The words of an event, as docs/COMMANDS.md has them."""
    kind = event["do"]
    if kind in ("enqcmd", "movdir"):
        portal = "limited" if event["limited"] else "unlimited"
        how = f"enqcmd pasid {event['pasid'] % (1 << 20)}" if kind == "enqcmd" else "movdir"
        what = Descriptor.of(event["desc"]).words
        return f"submit q{event['queue']} {portal} {how} client {event['client']} {what}"
    if kind == "fetch":
        return f"fetch e{event['engine']} {Descriptor.of(event['desc']).words}"
    if kind == "finish":
        outcome = "page-fault" if event["fault"] else "success"
        return f"finish e{event['engine']} name {event['name']} {outcome}"
    if kind in ("dispatch", "start"):
        return f"{kind} e{event['engine']}"
    if kind == "command":
        command = Command.of(event["word"])
        return f"command {command.words}" if command else f"command 0x{event['word']:x}"
    return f"write {kind} {event[kind]}" if kind in ("queue", "group") else kind


class Run:
    """The steps that were made on a device, one after the other. A run that keeps no states has
    the same device after each of its steps, as it is at the end."""

    def __init__(self, document: Document, keeps_states: bool = True) -> None:
        self.document, self.keeps_states = document, keeps_states
        self.device = Device(document["caps"], document["capacity"])
        self.steps: List[Step] = []

    def make(self, event: Event, given: Union[Answer, None] = None) -> Step:
        """Makes a step, with the answer that the device gives on its own where none is given."""
        given = answer(self.device, event) if given is None else given
        why = reason(self.device, event, given)
        known = len(self.device.fates)
        make(self.device, event, given)
        fates = self.device.fates[known:]
        number = len(self.steps)
        after = self.device.copy() if self.keeps_states else self.device
        step = Step(number, event, words_of(event), given, why, fates, after)
        self.steps.append(step)
        return step

    def lines(self) -> List[str]:
        """The lines of a plain run."""
        return [step.answer.text for step in self.steps] + [fate.line for fate in self.device.fates]


def run_of(document: Document, events: Iterable[Event] = ()) -> Run:
    """The plain run of a document, and of further events after its steps."""
    run = Run(document)
    for event in [*document["steps"], *events]:
        run.make(event)
    return run
