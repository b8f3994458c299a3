"""The file of a mutant, NAME.edit: what it replaces, and what is said of how it is refused."""
from __future__ import annotations

import re
from dataclasses import dataclass, field
from typing import List, Optional, Set

# A search for a goal ends after this many steps of the checker, which by itself tries 10,000,000.
# A goal that only the changed text has is searched as the checker does it.
STEPS = 1_000_000

LINE = re.compile(r"(file|old|new|goal|new goal|steps|clause|refuses):(?: (.*))?")
ONCE = ("goal", "steps", "clause", "refuses")


class BadMutant(Exception):
    """Why a mutant cannot be tried."""


@dataclass(frozen=True)
class Change:
    """One text of a file, and what replaces it."""

    file: str
    old: str
    new: str


@dataclass
class Edit:
    changes: List[Change] = field(default_factory=list)
    goal: Optional[str] = None
    is_new_goal: bool = False
    steps: int = STEPS
    clause: Optional[str] = None
    refuses: Optional[str] = None


def read_edit(text: str) -> Edit:
    """Reads the lines of a mutant's file. Raises BadMutant with the first line that is wrong."""
    edit = Edit()
    file: Optional[str] = None
    old: Optional[str] = None
    seen: Set[str] = set()
    for number, line in enumerate(text.splitlines(), 1):
        found = LINE.fullmatch(line)
        if not found:
            raise BadMutant(f"line {number} is not understood: {line[:80]}")
        key, value = found[1], found[2] or ""
        if not value.strip() and key != "new":
            raise BadMutant(f"line {number} says nothing after '{key}:'")
        if (old is not None) != (key == "new"):
            raise BadMutant(f"line {number}: a line 'new:' comes right after each line 'old:'")
        if key == "file":
            file = value.strip()
        elif key == "old":
            old = value
        elif key == "new":
            edit.changes.append(Change(needed(file, number), needed(old, number), value))
            old = None
        else:
            note_once(edit, key, value.strip(), number, seen)
    if old is not None:
        raise BadMutant("its last line 'old:' has no line 'new:'")
    if not edit.changes:
        raise BadMutant("it has no lines 'old:' and 'new:'")
    if "steps" in seen and (not edit.goal or edit.is_new_goal):
        raise BadMutant("a line 'steps:' goes with a line 'goal:'")
    return edit


def needed(text: Optional[str], number: int) -> str:
    if text is None:
        raise BadMutant(f"line {number}: a line 'file:' has to come before this one")
    return text


def note_once(edit: Edit, key: str, value: str, number: int, seen: Set[str]) -> None:
    """Notes what is said of the whole mutant, and so only once."""
    kind = "goal" if key == "new goal" else key
    if kind in seen:
        raise BadMutant(f"line {number}: it has two lines '{kind}:'")
    seen.add(kind)
    if kind == "goal":
        edit.goal, edit.is_new_goal = value, key == "new goal"
    elif kind == "steps":
        if not re.fullmatch("[1-9][0-9]{0,8}", value):
            raise BadMutant(f"line {number}: the steps are a number from 1 to 999999999")
        edit.steps = int(value)
    elif kind == "clause":
        edit.clause = value
    else:
        edit.refuses = value
