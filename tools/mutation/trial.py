"""The trial of one crate's mutants: many in each run of the checker."""
from __future__ import annotations

import os
import pathlib
import tempfile
import threading
from typing import Dict, List, NamedTuple, Optional, Sequence, Set

from .checker import Checker
from .edit import BadMutant
from .mutant import Mutant, Options, label_of
from .refusals import Refusals
from .shape import Moves
from .source import Source
from .toolchain import Crate
from .verdict import (
    Finding,
    Verdict,
    fault_of,
    finding_of,
    first_unreadable,
    is_unjudged,
    refused_functions,
)

COPIES_AT_ONCE = 80

printing = threading.Lock()


def say(text: str) -> None:
    with printing:
        print(f"mutants: {text}", flush=True)


class Outcome(NamedTuple):
    """Whether a mutant was refused, or, where nothing was changed, whether it was proved."""

    is_right: bool
    text: str


BASELINE_PROVED = Outcome(True, "proved without its change")
BASELINE_REFUSED = Outcome(False, "NOT PROVED without its change, so its refusal says nothing")
NOT_REFUSED = Outcome(False, "NOT REFUSED: the crate is still proved")
FUNCTION_PROVED = Outcome(False, "NOT REFUSED: its function is still proved")
PROVED_WITHOUT_ANSWERS = Outcome(
    False, "NOT REFUSED: its function is proved without the answers by hand that do not fit it"
)
NAMES_GONE = Outcome(
    False, "BAD MUTANT: it is refused only because a proof names what the change takes away"
)
UNJUDGED = Outcome(
    False, "BAD MUTANT: the checker has no rule for the changed text, or asks for a loop's measure"
)


class Case:
    """A mutant's file: its changed function, and the unchanged one where its refusal rests on
    that."""

    def __init__(self, path: pathlib.Path, mutant: Mutant, control: Optional[Mutant]) -> None:
        self.path, self.mutant = path, mutant
        self.sampled = control
        self.controls: Set[Mutant] = {control} if control else set()
        self.refusal: Optional[str] = None

    def tried(self) -> List[Mutant]:
        return [self.mutant, *self.controls]


class Trial:
    """Reads a crate's mutants. Its method run tries them."""

    def __init__(
        self, crate: Crate, folder: pathlib.Path, refusals: Refusals, options: Options
    ) -> None:
        self.crate, self.source = crate, Source(folder)
        self.refusals, self.options = refusals, options
        self.files = sorted((folder / "must-fail").glob("*.edit"))
        self.cases: Dict[Mutant, Case] = {}
        self.sums: Dict[pathlib.Path, str] = {it: refusals.sum_for(it) for it in self.files}
        self.bad: Dict[pathlib.Path, str] = {}
        for path in self.files:
            try:
                self.add_case(path)
            except (BadMutant, UnicodeDecodeError) as fault:
                self.bad[path] = str(fault)
        self.left: List[Mutant] = []
        self.results: List[bool] = []

    def add_case(self, path: pathlib.Path) -> None:
        mutant = Mutant(path, self.source, self.options)
        # What is tried on the whole crate needs none: the gate has proved the crate.
        has_control = mutant.is_sampled and not mutant.is_alone
        case = Case(path, mutant, self.unchanged(path) if has_control else None)
        for it in case.tried():
            self.cases[it] = case

    def number_sampled(self) -> int:
        return len({it.path for it in self.cases.values() if it.mutant.is_sampled})

    def unchanged(self, path: pathlib.Path) -> Mutant:
        return Mutant(path, self.source, self.options, is_unchanged=True)

    def run(self, checker: Checker) -> List[bool]:
        """Tries the mutants, each run of the checker over what those before it found out."""
        for path, fault in self.bad.items():
            self.report(path, Outcome(False, f"BAD MUTANT: {fault}"))
        self.left = self.without_refused()
        with tempfile.TemporaryDirectory(prefix="dsa-mutants-") as kept:
            most = COPIES_AT_ONCE
            while self.left:
                some = next_together(self.left, self.source, most) if most else self.left[:1]
                # Keeping takes a run a while, and is of use only to a later one.
                is_last = len(some) == len(self.left)
                over = None if is_last and not os.listdir(kept) else kept
                most = self.next_number(some, self.try_together(checker, some, over))
        return self.results

    def next_number(self, some: Sequence[Mutant], is_further: Optional[bool]) -> int:
        """How many copies the next run tries. Where a text of some is wrong, half as many find it.
        Where a run brought nothing, the next one tries a single mutant, which 0 stands for."""
        if is_further is None:
            return len(some) // 2
        return COPIES_AT_ONCE if is_further else 0

    def without_refused(self) -> List[Mutant]:
        """Counts what was refused before, and returns what is to be tried of all others."""
        if self.options.tries_all():
            return list(self.cases)
        before = {
            case.path
            for case in self.cases.values()
            if all(self.refusals.has(it, self.sums[case.path]) for it in self.kept_as(case.path))
        }
        if before:
            say(
                f"{self.crate.name}: {len(before)} of {len(self.files)} were refused before on "
                "this machine, and nothing that they rest on has changed"
            )
        self.results += [True] * len(before)
        return [it for it, case in self.cases.items() if case.path not in before]

    def kept_as(self, path: pathlib.Path) -> List[str]:
        """The names under which a refusal is kept. One in a sample has a name more, since it says
        more."""
        return [path.name] + [f"{path.name}.sampled"] * self.options.is_sampled(label_of(path))

    def report(self, path: pathlib.Path, outcome: Outcome) -> None:
        say(f"{label_of(path)}: {outcome.text}")
        if outcome.is_right and not self.options.is_baseline:
            for name in self.kept_as(path):
                self.refusals.keep(name, self.sums[path])
        self.results.append(outcome.is_right)

    def give_up(self, why: str) -> List[bool]:
        for path in self.files:
            self.report(path, Outcome(False, f"NOT TRIED: {why}"))
        return self.results

    def conclude(self, case: Case, outcome: Outcome) -> bool:
        self.left = [it for it in self.left if self.cases[it] is not case]
        self.report(case.path, outcome)
        return True

    def try_together(
        self, checker: Checker, mutants: Sequence[Mutant], over: Optional[str]
    ) -> Optional[bool]:
        """Tries the mutants by one run, and says whether it brought anything. None where a text is
        wrong and it is not known whose."""
        is_single = len(mutants) == 1
        if not any(it.functions for it in mutants):
            for it in mutants:
                self.try_alone(checker, it, over)
            return True
        said = checker.check_functions(self.crate, self.source, mutants, over)
        if not said[-1].startswith(("only=", "rattle: no verdict")) or first_unreadable(said):
            return self.try_alone(checker, mutants[0], over) if is_single else None
        is_further = False
        for mutant in mutants:
            if mutant not in self.left:  # its case was concluded by another
                continue
            finding = finding_of(mutant, said)
            mutant.was_tried_in_vain = True
            if mutant.is_unchanged:
                is_further |= self.take_unchanged(mutant, finding, is_single)
            elif Verdict.UNJUDGED in finding.verdicts:
                is_further |= self.conclude(self.cases[mutant], UNJUDGED)
            elif Verdict.REFUSED in finding.verdicts:
                is_further |= self.take_refusal(mutant, finding)
            else:
                is_further |= self.take_changed(checker, mutant, finding, is_single, over)
        return is_further

    def take_unchanged(self, mutant: Mutant, finding: Finding, is_single: bool) -> bool:
        """Takes in what is said of a function without the change."""
        case = self.cases[mutant]
        if Verdict.CALLS in finding.verdicts and not is_single:
            return False
        is_proved = finding.verdicts == {Verdict.PROVED}
        if self.options.is_baseline:
            return self.conclude(case, BASELINE_PROVED if is_proved else BASELINE_REFUSED)
        if not is_proved and mutant is case.sampled:
            return self.conclude(case, BASELINE_REFUSED)
        self.left.remove(mutant)
        case.controls.remove(mutant)
        if not is_proved:
            return self.ask_more(case)
        if case.refusal and not case.controls:
            return self.conclude(case, Outcome(True, case.refusal))
        return True

    def ask_more(self, case: Case) -> bool:
        """The refusal of the goal says nothing, since it is not proved without the change either.
        Then all goals are asked for."""
        if not case.mutant.goal:
            return self.conclude(case, NAMES_GONE)
        case.refusal = None
        case.mutant.ask_all_goals()
        self.left.append(case.mutant)
        return True

    def take_refusal(self, mutant: Mutant, finding: Finding) -> bool:
        """A refusal counts at once, but for two kinds. Where a proof by hand may not fit for what
        it names, and not for what it says, it is left out. Where a search ended at its number of
        steps, the unchanged function has to be proved in as many."""
        case = self.cases[mutant]
        unfit = self.unfit_goals(mutant, finding)
        is_firm = bool(
            (finding.by_hand - unfit) | (finding.open_goals - mutant.gone - mutant.resting)
        )
        if unfit and not is_firm:
            new = unfit & mutant.answers - mutant.without
            if not new:
                return self.conclude(case, NAMES_GONE)
            mutant.gone |= finding.gone
            mutant.leave_out(new)
            return True
        case.refusal = "refused"
        if case.sampled:
            case.refusal = "refused, by all its goals, and proved without its change"
        self.left.remove(mutant)
        is_for_want = bool(finding.open_goals) and not is_firm
        if is_for_want or mutant.goal and finding.has_ended and not mutant.without:
            self.add_control(case)
        if not case.controls:
            return self.conclude(case, Outcome(True, case.refusal))
        return True

    def add_control(self, case: Case) -> None:
        """Has the function tried without the change, as the mutant was tried last."""
        control = self.unchanged(case.path)
        control.leave_out(case.mutant.without)
        if control.goal and not case.mutant.goal:
            control.ask_all_goals()
        self.cases[control] = case
        case.controls.add(control)
        self.left.append(control)

    def unfit_goals(self, mutant: Mutant, finding: Finding) -> Set[str]:
        """The goals whose proof by hand may be refused for how it was written, and not for what it
        says: it may name what is gone, or fit one way only to say the same. The latter is tried in
        a sample."""
        if mutant.moves is Moves.TAKES or mutant.is_sampled:
            return finding.gone | finding.by_hand & mutant.answers
        return finding.gone

    def take_changed(
        self,
        checker: Checker,
        mutant: Mutant,
        finding: Finding,
        is_single: bool,
        over: Optional[str],
    ) -> bool:
        """Takes in what is said of a changed function that is not refused."""
        case = self.cases[mutant]
        if mutant.goal and mutant.goal in finding.gone and mutant.takes_answer_to_goal():
            mutant.gone.add(mutant.goal)
            mutant.leave_out({mutant.goal})
        elif mutant.goal:
            mutant.ask_all_goals()
        elif is_single and Verdict.LIMIT in finding.verdicts:
            self.conclude(case, Outcome(True, "refused: the prover met a limit"))
        elif finding.verdicts == {Verdict.PROVED} and mutant.decides_alone():
            self.conclude(case, PROVED_WITHOUT_ANSWERS if mutant.without else FUNCTION_PROVED)
        elif is_single or finding.verdicts <= {Verdict.PROVED, None}:
            self.try_alone(checker, mutant, over)
        else:
            return False
        return True

    def try_alone(self, checker: Checker, mutant: Mutant, over: Optional[str]) -> bool:
        """Tries one mutant on the whole crate."""
        case = self.cases[mutant]
        if mutant is not case.mutant:
            return self.conclude(case, BASELINE_REFUSED)
        return self.conclude(case, self.outcome_alone(checker, mutant, over))

    def outcome_alone(self, checker: Checker, mutant: Mutant, over: Optional[str]) -> Outcome:
        said = checker.check_crate(self.crate, self.source, mutant, over)
        bad = first_unreadable(said)
        if bad:
            return Outcome(False, f"BAD MUTANT: the changed text cannot be read: {bad[:200]}")
        is_proved = said[-1].startswith("logic=proved")
        if not is_proved and not said[-1].startswith("logic=not-proved"):
            return Outcome(False, f"BAD MUTANT: {fault_of(said)}")
        if mutant.is_unchanged:
            return BASELINE_PROVED if is_proved else BASELINE_REFUSED
        if is_unjudged(mutant, said):
            return UNJUDGED
        if is_proved:
            return NOT_REFUSED
        by = ", ".join(refused_functions(said)[:3])
        return Outcome(True, f"refused by {by}, on the whole crate (see 'refuses:' in --help)")


def next_together(mutants: Sequence[Mutant], source: Source, most: int) -> List[Mutant]:
    """What the next run tries: copies, and one in place for each function, at most so many. None of
    the latter is near another where one of the two was tried in vain."""
    some = [it for it in mutants if it.copy][:most]
    functions: Set[str] = set()
    for mutant in mutants:
        if mutant.is_alone and not some:
            return [mutant]
        if mutant.copy or mutant.is_alone or mutant.changed & functions:
            continue
        if any(is_near(mutant, it, source) for it in some):
            continue
        # Where a goal of a function is tried alone, the function is not proved, and so nothing that
        # calls it. Where nothing is changed, both have to be.
        others = [it for it in some if not it.copy]
        if any(is_apart(mutant, it) for it in others):
            continue
        some.append(mutant)
        functions |= mutant.changed
    return some[:most]


def is_apart(mutant: Mutant, other: Mutant) -> bool:
    """Whether what is in place without its change does not share a run with the other."""
    if not mutant.is_unchanged and not other.is_unchanged:
        return False
    return mutant.is_unchanged != other.is_unchanged or bool(mutant.goal) != bool(other.goal)


def is_near(mutant: Mutant, other: Mutant, source: Source) -> bool:
    """Whether one was tried in vain and one may call what the other changes."""
    if not mutant.was_tried_in_vain and not other.was_tried_in_vain:
        return False
    for one, two in ((mutant, other), (other, mutant)):
        for name in one.names:
            if name in two.names or two.names & source.reaches(name):
                return True
    return False
