"""The facts that the drawing of a run should have, as docs/COMMANDS.md says in chapter 'draw'.

They are lists of texts, as those that picture.py reads from the drawing. A pair of numbers is a
range of columns, counted from 0, without the last one."""
from __future__ import annotations

from typing import Dict, Iterator, List, NamedTuple, Optional, Tuple

from .counts import waits
from .descriptor import BATCH, Command, counted
from .device import OFF, Device, Entry, Fate
from .run import Run, Step
from .texts import awaited_names, note, own_name, own_names

HEIGHT, LEAST = 48, 2
ENGINE_STEPS = ("dispatch", "fetch", "start", "finish")
FAILED = ("refused", "dropped", "gone", "full", "abandoned")
DONE = (
    *("accepted", "taken", "fetched", "started", "done", "ended", "finished", "written"),
    "cleared",
)
Facts = Dict[str, List[str]]


class Span(NamedTuple):
    """The steps that a drawing shows, the last one included."""

    first: int
    last: int

    def has(self, number: int) -> bool:
        return self.first <= number <= self.last

    def clip(self, begin: int, end: int) -> Optional[Tuple[int, int]]:
        """The columns of steps from a first one up to before an end, as far as they are shown."""
        begin, end = max(begin, self.first), min(end, self.last + 1)
        return (begin - self.first, end - self.first) if begin < end else None


def whole(run: Run) -> Span:
    return Span(0, len(run.steps) - 1)


def part(run: Run, first: int, last: int) -> Span:
    """The steps from a first to a last one, as far as the run has them."""
    every = len(run.steps)
    return Span(min(first, every), min(last, every - 1))


def mark_of(step: Step) -> str:
    """The mark of a step: a green dot, an amber ring or a red cross."""
    kind = step.answer.kind
    if kind in FAILED or kind == "done" and step.answer.text != "done 01":
        return "failed"
    return "done" if kind in DONE else "wait"


def row_of(step: Step, run: Run) -> Optional[str]:
    kind = step.event["do"]
    if kind in ENGINE_STEPS:
        number = step.event["engine"]
        return f"engine {number}" if run.device.has_engine(number) else None
    return "clients" if kind in ("enqcmd", "movdir") else "administrator"


def expected_marks(run: Run, span: Span) -> List[str]:
    found = []
    for step in run.steps:
        row = row_of(step, run)
        if span.has(step.number) and row:
            found.append(f"{row}, step {step.number}: {mark_of(step)}")
        if span.has(step.number) and step.fates:
            is_done = all(fate.end == "completed 01" for fate in step.fates)
            found.append(f"fates, step {step.number}: {'done' if is_done else 'failed'}")
    return found


def expected_fates(run: Run, span: Span) -> List[str]:
    found = []
    for step in run.steps:
        if step.fates and span.has(step.number):
            lines = [f"step {step.number}", *(fate.line for fate in step.fates)]
            more = [str(len(step.fates))] if len(step.fates) > 1 else []
            found.append("; ".join(lines + more))
    return found


def expected_waits(run: Run, span: Span) -> List[str]:
    found = []
    for wait in waits(run):
        first, words = wait.step.number, wait.step.words[len("command ") :]
        steps = counted(wait.steps, "step")
        if wait.is_over:
            end = f"active from step {first} to {wait.last}: finished after {steps}"
        else:
            end = f"active from step {first}: still active after {steps}"
        columns = span.clip(first, wait.last + (not wait.is_over))
        if columns:
            found.append(f"{words}, {end}; {columns}")
    return found


def spans_of(phases: List[str]) -> Iterator[str]:
    """Where a phase is not off: its name, and the columns."""
    begin = 0
    for index in range(1, len(phases) + 1):
        if index == len(phases) or phases[index] != phases[begin]:
            if phases[begin] != OFF:
                yield f"{phases[begin]}; {(begin, index)}"
            begin = index


def expected_phases(run: Run, span: Span) -> List[str]:
    states = [step.after for step in run.steps if span.has(step.number)]
    found = [f"device {it}" for it in spans_of([state.phase for state in states])]
    for number in configured(run, span)[0]:
        phases = [state.queues[number].phase for state in states]
        found += [f"queue {number} {it}" for it in spans_of(phases)]
    return found


def queue_values(device: Device, number: int) -> Tuple[int, int, int]:
    """The occupancy of a queue, its threshold while it is shared, and its size."""
    queue = device.queues[number]
    return len(queue.waiting), 0 if queue.dedicated else queue.threshold, queue.size


def group_values(device: Device, number: int) -> Tuple[int, int, int]:
    """The read buffers of a group: in use, reserved and allowed."""
    group = device.groups[number]
    return device.used(number), group.reserved, group.allowed


def configured(run: Run, span: Span) -> Tuple[List[int], List[int]]:
    """The queues and the groups of which a value was not 0 after some step that is shown."""
    states = [step.after for step in run.steps if span.has(step.number)]
    queues, groups = range(len(run.device.queues)), range(len(run.device.groups))
    return (
        [number for number in queues if any(any(queue_values(it, number)) for it in states)],
        [number for number in groups if any(any(group_values(it, number)) for it in states)],
    )


def levels(values: List[int], most: int) -> str:
    """The heights of a level above its columns."""
    return str([max(LEAST, HEIGHT * value // most) if value else 0 for value in values])


def level_fact(name: str, rows: List[Tuple[int, int, int]]) -> str:
    """The range and the peak of a row, and its three levels."""
    most, peak = max(max(row) for row in rows), max(row[0] for row in rows)
    said = [levels([row[index] for row in rows], most) for index in range(3)]
    return f"{name}: 0 to {most}, peak {peak}; {'; '.join(said)}"


def expected_levels(run: Run, span: Span) -> List[str]:
    queues, groups = configured(run, span)
    states = [step.after for step in run.steps if span.has(step.number)]
    found = []
    for number in queues:
        rows = [queue_values(state, number) for state in states]
        found.append(level_fact(f"queue {number}", rows))
    for number in groups:
        rows = [group_values(state, number) for state in states]
        found.append(level_fact(f"buffers {number}", rows))
    return found


class Bar:
    """What an engine had of one entry."""

    def __init__(self, entry: Entry, engine: int, first: int, is_batch: bool) -> None:
        self.entry, self.engine, self.first, self.is_batch = entry, engine, first, is_batch
        self.started: Optional[int] = first if entry.parent is None else None
        self.end: Optional[int] = None
        self.fate: Optional[Fate] = None
        # why it completed with another status than 01
        self.reason: Optional[str] = None

    def title(self, has_reasons: bool, names: Dict[int, str]) -> str:
        entry = self.entry
        kind = "batch" if self.is_batch else "entry"
        own = f" is {names[entry.name]}" if entry.name in names else ""
        asked = f"{entry.descriptor.words}, PASID {entry.descriptor.pasid}"
        what = f"{kind} {entry.name}{own}: {asked}"
        is_member = entry.parent is not None
        whose = f"member of batch {entry.parent}" if is_member else f"client {entry.client}"
        where = f"on e{self.engine} from step {self.first}"
        if self.fate is None:
            return f"{what}, {whose}, {where}, still held"
        end = self.fate.end.replace("aborted", "aborted by command")
        if has_reasons and self.reason is not None:
            end = f"{end}: {self.reason}"
        return f"{what}, {whose}, {where} to {self.end}: {end}"

    @property
    def colour(self) -> str:
        if self.fate is None:
            return "held"
        if self.fate.how != "completed":
            return "lost"
        return "success" if self.fate.number == 1 else "failure"

    def parts(self, run: Run, span: Span) -> List[str]:
        """The parts of the bar with their columns: a member waits, and then runs."""
        end = len(run.steps) if self.end is None else self.end
        started = end if self.started is None else self.started
        waited, ran = span.clip(self.first, started), span.clip(started, end)
        found = [f"waits {waited}"] if waited and self.entry.parent is not None else []
        return found + ([f"{self.colour} {ran}"] if ran else [])


def bars_of(run: Run) -> List[Bar]:
    """What each engine had, in the order in which it came."""
    found: Dict[int, Bar] = {}
    for step in run.steps:
        if step.answer.kind in ("taken", "fetched"):
            _, entry = step.after.place(step.name)
            is_batch = step.after.is_well_formed(entry, BATCH)
            found[step.name] = Bar(entry, step.event["engine"], step.number, is_batch)
        if step.answer.kind == "started":
            found[step.name].started = step.number
        for fate in step.fates:
            if fate.name in found:
                found[fate.name].end, found[fate.name].fate = step.number, fate
                if fate.how == "completed":
                    found[fate.name].reason = step.reason
    return list(found.values())


def expected_bars(run: Run, span: Span, has_reasons: bool, has_own_names: bool) -> List[str]:
    found, names = [], {}
    for step in run.steps if has_own_names else []:
        names.update(own_name(step))
    for bar in bars_of(run):
        parts = bar.parts(run, span)
        if parts:
            found.append("; ".join([bar.title(has_reasons, names), *parts]))
        if bar.is_batch and parts:
            columns = span.clip(bar.first, len(run.steps) if bar.end is None else bar.end)
            name = bar.entry.name
            found.append(f"batch of e{bar.engine}: batch {name} and its members; {columns}")
    return found


def is_command(step: Step) -> bool:
    """Whether a step is a command: a word that is none has no name above its column."""
    return step.event["do"] == "command" and Command.of(step.event["word"]) is not None


def title_of(run: Run, span: Span) -> str:
    every, shown = len(run.steps), span.last - span.first + 1
    if shown == every:
        return f"Run of {counted(every, 'step')}"
    part_of_run = counted(shown, "step")
    return f"{part_of_run} from step {span.first} of a run of {counted(every, 'step')}"


def labels_of(run: Run, span: Span) -> List[str]:
    """The names of the rows, from the top: an engine has one if it made a step of the whole run."""
    queues, groups = configured(run, span)
    steps = [step for step in run.steps if step.event["do"] in ENGINE_STEPS]
    engines = {step.event["engine"] for step in steps if row_of(step, run)}
    return [
        *("step", "clients", "administrator", "device", "active", "fates"),
        *(f"queue {number}" for number in queues),
        *(f"buffers {number}" for number in groups),
        *(f"engine {number}" for number in sorted(engines)),
    ]


def expected(run: Run, span: Span, has_reasons: bool, has_own_names: bool) -> Facts:
    """All facts of a run, of the steps that are shown."""
    steps = [step for step in run.steps if span.has(step.number)]
    titles = [f"step {step.number}: {step.words}: {step.answer.text}" for step in steps]
    if has_reasons:
        own = own_names(run, awaited_names) if has_own_names else [{} for _ in run.steps]
        lines = [step.explained + note(own[step.number]) for step in steps]
        titles = [f"step {line.replace(' ', ': ', 1)}" for line in lines]
    commands = [step for step in steps if is_command(step)]
    return {
        "title": [title_of(run, span)],
        "columns": titles,
        "rows": labels_of(run, span),
        "commands": [f"{step.number}: {step.words[len('command '):]}" for step in commands],
        "marks": sorted(expected_marks(run, span)),
        "fates": expected_fates(run, span),
        "active": expected_waits(run, span),
        "phases": sorted(expected_phases(run, span)),
        "levels": expected_levels(run, span),
        "bars": sorted(expected_bars(run, span, has_reasons, has_own_names)),
    }
