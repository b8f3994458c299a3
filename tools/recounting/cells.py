"""Which cell each entry has: only the reason of a 'gone' whose fate was forgotten depends on it.

docs/MODEL.md, chapter 3, has how many cells there are. docs/DECISIONS.md, *Stores*, says which one
an entry gets: the first free one. A cell that is freed becomes the last free one."""
from __future__ import annotations

from collections import deque
from typing import TYPE_CHECKING, Deque, Dict

if TYPE_CHECKING:
    from .run import Step


class Cells:
    """The free cells in order, the cell of each name that was given, and what each cell holds."""

    def __init__(self, caps: Dict[str, int]) -> None:
        of_engine = caps["slots"] + (1 << caps["max_batch_shift"])
        count = caps["total_size"] + caps["engines"] * of_engine
        self.free: Deque[int] = deque(range(count))
        self.given: Dict[int, int] = {}
        self.held: Dict[int, int] = {}

    def follow(self, step: Step) -> None:
        """Gives an entry that came in its cell, and takes those of entries that ended."""
        if step.answer.kind in ("accepted", "fetched"):
            name, cell = step.answer.values["name"], self.free.popleft()
            self.given[name], self.held[cell] = cell, name
        for fate in step.fates:
            cell = self.given[fate.name]
            del self.held[cell]
            self.free.append(cell)

    def of_ticket(self, name: int) -> str:
        """What the cell that was given with a name holds, as a sentence."""
        holds = self.held.get(self.given[name])
        what = "no entry" if holds is None else f"{holds} by now"
        return f"the cell of the ticket holds {what}"
