"""The fact that 'conform' prints against what was seen of a step, if a program does so.

docs/COMMANDS.md has the table of facts in chapter 'conform'. Its rows are tried from the top."""
from __future__ import annotations

import re
from typing import Callable, Dict, List, Optional

from .answers import (
    FAULTS,
    Answer,
    Event,
    allowed,
    is_word_without_command,
    limit_of,
)
from .descriptor import counted
from .device import Device
from .reasons import of_queue, reason

CAUSES = ["not-enabled", "wrong-kind", "at-limit"]
# the answers that steps of each kind have
NUMBER = "(0|[1-9][0-9]*)"
CAUSE = f"({'|'.join(CAUSES)})"
REFUSED = f"refused ({'|'.join(f'{number} {name}' for number, name in enumerate(FAULTS) if name)})"
FORMS: Dict[str, str] = {
    "queue": f"written|{REFUSED}|full",
    "group": f"written|{REFUSED}|full",
    "enqcmd": f"accepted( {NUMBER})?|retry {CAUSE}|full",
    "movdir": f"accepted( {NUMBER})?|dropped {CAUSE}|full",
    "dispatch": f"taken( {NUMBER})? from {NUMBER}|idle|full",
    "fetch": f"fetched( {NUMBER})?|no-batch|all-fetched|full",
    "start": f"started( {NUMBER})?|fence-wait|no-buffers|abandoned {NUMBER}|nothing|full",
    "finish": "done [0-9a-f]{2}|not-ready|gone|full",
    "command": f"ended {NUMBER}|active|{REFUSED}|full",
    "poll": "finished|active|nothing|full",
    "clear": f"cleared {NUMBER} {CAUSE}( overflow)?|nothing|full",
}
LAST: Dict[str, Callable[[Device, Event, Answer], str]] = {
    "accepted": lambda device, event, own: f"the next name is {device.next_name}",
    "started": lambda device, event, own: f"e{event['engine']} has a member that may start",
    "done": lambda device, event, own: f"nothing of {event['name']} failed",
    "ended": lambda device, event, own: "the command removes no entry",
    "written": lambda device, event, own: "the device has it, and nothing locks it",
    "cleared": lambda device, event, own: f"an error of q{own.values['queue']} is noted",
    "finished": lambda device, event, own: (
        f"{device.active.command.words} has ended, and no poll has reported it"
    ),
}


def seen_text(device: Device, event: Event) -> Optional[str]:
    """The answer that was seen, or None where no step of the kind is answered so. If the device may
    give it and the zero flag alone differs, it is the answer that the flag means."""
    text = event.get("answer")
    if event.get("zf") is not None and event["do"] != "enqcmd":
        return None
    if text is not None and is_word_without_command(event) and not re.fullmatch(REFUSED, text):
        return None
    if text in [said for own in allowed(device, event) for said in (own.text, own.without_name)]:
        text = None
    if text is None and event["do"] != "enqcmd":
        return None
    if text is None:
        text = "retry at-limit" if event["zf"] else "accepted"
    return text if re.fullmatch(FORMS[event["do"]], text) else None


def against_submission(device: Device, event: Event, seen: str, own: Answer) -> Optional[str]:
    """What the check of a cause looks at, if it was passed."""
    cause = seen.partition(" ")[2]
    found = own.values.get("cause")
    if cause not in CAUSES or found and CAUSES.index(found) <= CAUSES.index(cause):
        return None
    number = event["queue"]
    queue = device.queues[number]
    if cause == "not-enabled":
        return f"the device is {device.phase}, and q{number} is {queue.phase}"
    if cause == "wrong-kind":
        mode, takes = ("dedicated", "movdir") if queue.dedicated else ("shared", "enqcmd")
        return f"q{number} is {mode}, and takes {takes}"
    holds = counted(len(queue.waiting), "entry", "entries")
    portal = "limited" if event["limited"] else "unlimited"
    return f"q{number} holds {holds}, and the {portal} portal goes up to {limit_of(device, event)}"


def against_dispatch(device: Device, event: Event, seen: str, own: Answer) -> Optional[str]:
    engine = event["engine"]
    if seen == "idle" or not device.has_engine(engine):
        first = own.values
        return f"e{engine} may take {first['name']} from q{first['queue']}" if first else None
    group, queue = device.group_of(engine), int(seen.split(" ")[-1])
    if group is None:
        return f"e{engine} is of no group"
    if not device.has_queue(queue):
        return f"the device has {counted(len(device.queues), 'queue')}"
    if queue not in device.queues_of(group):
        return f"q{queue} is not in group {group}"
    if device.hindrance(engine, queue) is None:
        return f"q{queue}'s front is {device.queues[queue].waiting[0].name}"
    return of_queue(device, engine, queue)


def against_finish(device: Device, event: Event, seen: str, own: Answer) -> Optional[str]:
    if seen == "gone":
        return f"the entry stands in {device.place(event['name'])[0]}"
    if seen == "not-ready" and own.kind == "done":
        return f"{event['name']} waits for nothing"
    return None


def against_command(device: Device, event: Event, seen: str, own: Answer) -> Optional[str]:
    if seen == "refused 17 Busy" and device.active is None:
        return "no command is active"
    if seen == "active" and own.kind == "ended":
        return "the command waits for 0 entries"
    return None


FIRST: Dict[str, Callable[[Device, Event, str, Answer], Optional[str]]] = {
    "enqcmd": against_submission,
    "movdir": against_submission,
    "dispatch": against_dispatch,
    "finish": against_finish,
    "command": against_command,
}


def fact(device: Device, event: Event) -> str:
    """The fact against what was seen of a step that differs."""
    seen, kind = seen_text(device, event), event["do"]
    if seen is None:
        return f"no {kind} is answered so"
    if device.is_full and not is_word_without_command(event):
        return f"the history has room for {counted(device.capacity, 'step')}"
    if seen == "full":
        room = counted(device.capacity, "step")
        return f"the history has room for {room}, and has {device.stored}"
    own = allowed(device, event)[0]
    first = FIRST[kind](device, event, seen, own) if kind in FIRST else None
    if first is not None:
        return first
    why = reason(device, event, own)
    if why is not None:
        return why
    if own.kind == "fetched" and not seen.startswith("fetched"):
        note = device.engines[event["engine"]].note
        return f"e{event['engine']} has fetched {note.fetched} of {note.count} members"
    return LAST["accepted" if own.kind == "fetched" else own.kind](device, event, own)


def facts(devices: List[Device], event: Event) -> List[str]:
    """The facts of all devices that are followed."""
    return [f"against: {fact(device, event)}" for device in devices]
