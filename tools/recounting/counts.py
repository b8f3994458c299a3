"""The totals of a run, as docs/COMMANDS.md has them, chapter 'count'."""
from __future__ import annotations

from typing import Dict, Iterable, List, Tuple

from .descriptor import counted
from .run import Run, Step
from .texts import is_submission

WAYS = [
    *("retry at-limit", "retry not-enabled", "retry wrong-kind"),
    *("dropped at-limit", "dropped not-enabled", "dropped wrong-kind", "full"),
]
ENDS = ["done", "aborted", "abandoned"]


def tally(texts: Iterable[str]) -> Dict[str, int]:
    found: Dict[str, int] = {}
    for text in texts:
        found[text] = found.get(text, 0) + 1
    return found


def totals(first: str, found: Dict[str, int], order: List[str]) -> str:
    """A total and the other parts, of which those that do not occur are left out."""
    return ", ".join([first, *(f"{found[part]} {part}" for part in order if found.get(part))])


def submissions(steps: List[Step]) -> str:
    found = tally(step.answer.text for step in steps)
    accepted = sum(step.answer.kind == "accepted" for step in steps)
    return totals(f"{accepted} accepted", found, WAYS)


def submission_lines(run: Run) -> List[str]:
    steps = [step for step in run.steps if is_submission(step)]
    lines = [f"submissions: {submissions(steps)}"]
    for key in "client", "queue":
        for number in sorted({step.event[key] for step in steps}):
            of_number = [step for step in steps if step.event[key] == number]
            lines.append(f"{key} {number}: {submissions(of_number)}")
    return lines


def peak_lines(run: Run) -> List[str]:
    lines, states = [], [step.after for step in run.steps]
    for number in range(len(run.device.queues)):
        size = max((state.queues[number].size for state in states), default=0)
        peak = max((len(state.queues[number].waiting) for state in states), default=0)
        if size:
            lines.append(f"peak queue {number}: {peak} of {size} entries")
    for number in range(len(run.device.groups)):
        allowed = max((state.groups[number].allowed for state in states), default=0)
        peak = max((state.used(number) for state in states), default=0)
        if allowed:
            lines.append(f"peak group {number}: {peak} of {allowed} read buffers")
    return lines


class Wait:
    """A command that was answered 'active', and the step whose poll reported its end."""

    def __init__(self, step: Step, last: int) -> None:
        self.step, self.last, self.is_over = step, last, False

    @property
    def steps(self) -> int:
        return self.last - self.step.number


def waits(run: Run) -> List[Wait]:
    """All commands that were answered 'active'."""
    found: List[Wait] = []
    for step in run.steps:
        if step.answer.kind == "active" and step.event["do"] == "command":
            found.append(Wait(step, len(run.steps) - 1))
        if step.answer.kind == "finished":
            found[-1].last, found[-1].is_over = step.number, True
    return found


def wait_line(wait: Wait) -> str:
    words = wait.step.words.replace("command", f"command {wait.step.number}", 1)
    end = "finished" if wait.is_over else "still active"
    return f"{words}: {end} after {counted(wait.steps, 'step')}"


def order_of_end(end: str) -> Tuple[int, int]:
    kind, _, number = end.partition(" ")
    return ENDS.index(kind), int(number or "0", 16 if kind == "done" else 10)


def counted_lines(run: Run) -> List[str]:
    """The lines of 'count'."""
    found = tally(fate.end.replace("completed", "done") for fate in run.device.fates)
    first = f"{len(run.device.fates)} ended"
    fates = totals(first, found, sorted(found, key=order_of_end))
    waited = [wait_line(wait) for wait in waits(run)]
    return submission_lines(run) + peak_lines(run) + waited + [f"fates: {fates}"]
