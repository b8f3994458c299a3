"""A mutant: what its file makes of its crate, and how it can be tried."""
from __future__ import annotations

import hashlib
import pathlib
from dataclasses import dataclass
from typing import Dict, List, Optional, Set

from .answers import resting_on
from .edit import BadMutant, Change, read_edit
from .shape import Moves, is_same_code, moves_of
from .source import FUNCTION, Source, Span, declared_in, with_one_clause

# The checker leaves the goals open that have no answer.
NO_SEARCH = "#[tactic(none)]\n"


# How many parts a sample is chosen from.
PARTS_OF_SAMPLE = 10


@dataclass(frozen=True)
class Options:
    """What is tried: without the changes, all goals of a function, what was refused before, and a
    sample, of which each is tried with all goals, and without the change too."""

    is_baseline: bool = False
    whole: bool = False
    anew: bool = False
    sample: Optional[int] = None

    def tries_all(self) -> bool:
        return self.is_baseline or self.whole or self.anew

    def is_sampled(self, label: str) -> bool:
        """Whether the sample has this mutant. Ten seeds in a row have each mutant once."""
        if self.sample is None or self.is_baseline:
            return False
        number = int(hashlib.sha256(label.encode()).hexdigest(), 16)
        return (number + self.sample) % PARTS_OF_SAMPLE == 0


@dataclass
class Copy:
    """A changed copy of a function. It is put beside the function, and nothing calls it."""

    span: Span
    name: str
    text: str
    is_const: bool


class Mutant:
    """Raises BadMutant where it cannot be tried."""

    def __init__(
        self, path: pathlib.Path, source: Source, options: Options, is_unchanged: bool = False
    ) -> None:
        self.label, self.crate = label_of(path), source.crate
        edit = read_edit(path.read_text(encoding="utf-8"))
        self.changes, self.clause, self.steps = edit.changes, edit.clause, edit.steps
        self.is_unchanged = is_unchanged or options.is_baseline
        self.is_sampled = options.is_sampled(self.label)
        self.is_new_goal = edit.is_new_goal
        self.goal = None if self.needs_all_goals(options) else edit.goal
        self.moves = moves_of(edit.changes)
        # The goals with an answer by hand, those of which it is left out, those of these whose
        # answer only rests on another that is, and those of which it names what is gone.
        self.proof = ""
        self.without: Set[str] = set()
        self.resting: Set[str] = set()
        self.gone: Set[str] = set()
        self.copy: Optional[Copy] = None
        self.was_tried_in_vain = False
        changed = changed_functions(edit.changes, source)
        known = {it for it in changed if it}
        # The functions of which one has to be refused, by the ends of the checker's names.
        self.functions: Set[str] = {edit.refuses} if edit.refuses else set(known)
        if len({*changed}) == 1 and known and is_named(next(iter(known)), edit.refuses):
            self.make_copy(source)
        if len(known) == 1:
            self.proof = source.answers_of(next(iter(known)))
        self.answers = declared_in(self.proof)
        self.names = {it.rpartition("::")[2] for it in self.functions}
        self.changed = self.functions | known
        # What is in no function, as a constant, may change any.
        self.is_alone = not self.copy and None in changed
        self.stop_on_lines_that_need_more(changed[0], source)

    def needs_all_goals(self, options: Options) -> bool:
        """Whether all goals of the function are asked for, whichever the mutant names. Without the
        change a new goal is not there."""
        if self.is_unchanged:
            return self.is_new_goal or options.whole
        return options.whole or self.is_sampled

    def stop_on_lines_that_need_more(self, first: Optional[str], source: Source) -> None:
        if self.copy:
            return
        if self.clause:
            raise BadMutant("a line 'clause:' needs a function that can be copied")
        if self.goal and (self.functions != {first} or first not in source.proofs):
            raise BadMutant(
                "a line 'goal:' needs a first change in the function that is refused, "
                "and one whose proof can be found"
            )

    def make_copy(self, source: Source) -> None:
        """Makes a changed copy of the function, where it has all that the mutant changes."""
        first = self.changes[0]
        at = source.texts[first.file].find(first.old) + len(first.old)
        span = source.span_at(first.file, at)
        text = source.texts[first.file][span.begin : span.end] if span else ""
        for change in self.changes:
            if change.file != first.file or text.count(change.old) != 1:
                return
            text = text if self.is_unchanged else text.replace(change.old, change.new)
        if not span:
            return
        if self.clause:
            promised = with_one_clause(text, self.clause)
            if promised is None:
                raise BadMutant(f"its function has no clause {self.clause}")
            text = promised
        name, head = source.next_copy_of(span.function), FUNCTION.search(text)
        text = FUNCTION.sub(lambda it: it[0][: -len(it[2])] + name, text, count=1)
        is_const = bool(head and "const fn" in head[0])
        self.copy = Copy(span, name, without_search(text) if self.goal else text, is_const)
        self.functions = {f"{span.function.rpartition('::')[0]}::{name}"}

    def ask_all_goals(self) -> None:
        """The goal that the mutant names is proved, so its next run asks for all goals."""
        self.goal = None
        if self.copy:
            self.copy.text = self.copy.text.partition("\n")[2]

    def leave_out(self, goals: Set[str]) -> None:
        """Leaves out the answers by hand to these goals, and those that rest on them."""
        self.resting |= resting_on(self.proof, goals) - self.without - goals
        self.without |= goals | self.resting

    def decides_alone(self) -> bool:
        """Whether its function alone has to refuse it: nothing else rests on that one's body, and
        the crate's own proof of it may have an answer that is left out here."""
        return bool(self.without) or bool(self.copy) and not self.copy.is_const

    def takes_answer_to_goal(self) -> bool:
        """Whether the goal that it names has an answer by hand, which is tried."""
        return self.goal in self.answers - self.without

    def place(self) -> str:
        """The line that keeps the place of the copy until the crate's own text is changed."""
        return f"// {self.copy.name if self.copy else ''} of {self.label}\n"


def label_of(path: pathlib.Path) -> str:
    return f"{path.parent.parent.name}/{path.name}"


def is_named(function: str, name: Optional[str]) -> bool:
    """Whether a line 'refuses:' names this function, or there is none."""
    return f"::{function}".endswith(f"::{name or function}")


def without_search(text: str) -> str:
    head = FUNCTION.search(text)
    if not head or "#[tactic" in text[: head.start()]:
        raise BadMutant("a line 'goal:' needs a function without an attribute 'tactic'")
    return f"{head[1]}{NO_SEARCH}{text}"


def changed_functions(changes: List[Change], source: Source) -> List[Optional[str]]:
    """The function that each change is in, or None. Raises BadMutant where a change cannot be made,
    and where nothing is changed in the end."""
    before: Dict[str, str] = {it.file: text_of(it.file, source) for it in changes}
    texts, functions = dict(before), []
    for change in changes:
        file, old = change.file, change.old
        count = texts[file].count(old)
        if count != 1:
            raise BadMutant(f"its old text occurs {count} times in {file}, not once: {old[:80]}")
        at = texts[file].find(old) + len(old)
        is_code = file in source.texts
        functions.append(source.function_at(file, texts[file], at) if is_code else None)
        texts[file] = texts[file].replace(old, change.new)
    if any(it.old == it.new for it in changes):
        raise BadMutant("it changes nothing: an old and its new text are the same")
    if texts == before:
        raise BadMutant("it changes nothing: its changes cancel out")
    if all(is_same_code(before[it], texts[it]) for it in texts):
        raise BadMutant("it changes nothing: only spaces or comments differ")
    return functions


def text_of(file: str, source: Source) -> str:
    path = source.folder / file
    is_within = pathlib.PurePath(file).parts[:1] in (("src",), ("specs",), ("proofs",))
    if not is_within or ".." in path.parts or not path.is_file():
        raise BadMutant(f"its crate has no file {file} below src, specs or proofs")
    return source.texts.get(file) or path.read_text(encoding="utf-8")
