"""What the checker says of mutants."""
from __future__ import annotations

import enum
import re
from typing import List, NamedTuple, Optional, Pattern, Sequence, Set

from .mutant import Mutant

Lines = Sequence[str]

# How the checker says that a text cannot be read, as the toolchain's own command for edits has it.
UNREADABLE = re.compile(
    r"is not in scope|has no field|is no name|operand is missing|expected the end|cannot continue"
)
# How it says that a proof names what is not there.
NAMED = re.compile(r"has no field|is not in scope|has no `|was not admitted")
# How it says that a search ended at its number of steps, so that more of them may prove the goal.
ENDED = re.compile(r"took more than \d+ steps")
# How it says that it has no rule for a text, as the borrow checker for some loans, or that a proof
# has to be written first, as a loop's measure.
UNJUDGED = re.compile(r"no proof: expected (?!answers in )|the borrow checker does not cover ")


class Verdict(enum.Enum):
    REFUSED = "refused for a reason of its own"
    LIMIT = "the prover met a limit"
    CALLS = "only what it calls is refused"
    PROVED = "proved"
    UNJUDGED = "the checker asks for a proof that no search gives"


def first_unreadable(lines: Lines) -> Optional[str]:
    """The first line that says of a text of src/ or specs/ that it cannot be read."""
    for line in lines:
        found = re.match(r"(?:\./)?((?:src|specs)/\S+?):\d+:\d+: error: (?:(`[^`]*`): )?(.*)", line)
        if found and (not found[2] or UNREADABLE.search(re.sub(r"`[^`]*`", "", found[3]))):
            return line
    return None


def error_in(crate: str, function: str) -> str:
    """How a line begins that says an error of this function's proof. The proof of a function at a
    crate's root has no folder of the crate's name."""
    path = function[len(crate) + 2 :] if function.startswith(f"{crate}::") else function
    return rf"\S*proofs/(?:\S*/)?{re.escape(path.replace('::', '/'))}/\S+: error: "


def verdict_of_function(crate: str, function: str, lines: Lines) -> Optional[Verdict]:
    """None where nothing is said of the function."""
    name = function.rpartition("::")[2]
    own = re.compile(rf"{error_in(crate, function)}(?!.*was not admitted)")
    found: Set[Verdict] = set()
    for line in lines:
        said = re.match(r"fn (\S+): (.*)", line)
        if said and (f"::{said[1]}".endswith(f"::{function}") or f"::fn::{name}::" in said[1]):
            found.add(verdict_of_line(said[2], own, lines))
    order = (Verdict.UNJUDGED, Verdict.REFUSED, Verdict.LIMIT, Verdict.CALLS, Verdict.PROVED)
    for verdict in order:
        if verdict in found:
            return verdict
    return None


def verdict_of_line(said: str, own_error: Pattern[str], lines: Lines) -> Verdict:
    if said.startswith(("proved", "no holes", "depends on a hole")):
        return Verdict.PROVED
    if said.startswith("could not tell"):
        return Verdict.LIMIT
    if UNJUDGED.match(said):
        return Verdict.UNJUDGED
    # What is not proved of a cycle of calls is not proved of any of its functions.
    is_of_calls = re.search(r"\bit calls |\bcycle of calls", said)
    if said.startswith("no proof: expected answers in ") or not is_of_calls:
        return Verdict.REFUSED
    # Its own proof can fail as well as what it calls: then its own files have an error.
    if "; it calls " in said and any(own_error.match(it) for it in lines):
        return Verdict.REFUSED
    return Verdict.CALLS


def verdict_of_goal(mutant: Mutant, lines: Lines) -> Optional[Verdict]:
    """The verdict of the goal that the mutant names. Of its other goals nothing is known."""
    function, said = next(iter(mutant.functions)), None
    for line in lines:
        found = re.match(r"fn (\S+): (.*)", line)
        if found and f"::{found[1]}".endswith(f"::{function}"):
            said = found[2]
    if not said:
        return None
    if UNJUDGED.match(said):
        return Verdict.UNJUDGED
    errors = errors_of(mutant, lines)
    fails = any(it.startswith(f"`{mutant.goal}`: ") for it in errors)
    if fails and not any(map(NAMED.search, errors)):
        return Verdict.REFUSED
    is_unknown = errors or said.startswith("could not tell")
    return Verdict.LIMIT if is_unknown else Verdict.PROVED


def errors_of(mutant: Mutant, lines: Lines) -> Sequence[str]:
    """What is wrong in the proofs of the mutant's functions, with the lines that explain it."""
    own = [re.compile(rf"{error_in(mutant.crate, it)}(.*)") for it in mutant.functions]
    found: List[str] = []
    is_own = False
    for line in lines:
        error = next((it for it in (one.match(line) for one in own) if it), None)
        if error:
            found.append(error[1])
        elif is_own and line.startswith(" "):
            found[-1] += f"\n{line}"
        is_own = bool(error) or is_own and line.startswith(" ")
    return found


class Finding(NamedTuple):
    """What a run says of a mutant: its verdicts, and the goals that are not proved."""

    verdicts: Set[Optional[Verdict]]
    # Whether a search ended at its number of steps.
    has_ended: bool
    # Goals whose proof by hand names what is not there, others whose proof by hand is refused, and
    # those that the search does not prove.
    gone: Set[str]
    by_hand: Set[str]
    open_goals: Set[str]


def finding_of(mutant: Mutant, lines: Lines) -> Finding:
    errors = errors_of(mutant, lines)
    gone: Set[str] = set()
    for error in errors:
        if NAMED.search(error):
            # An error beside the answers, as in an import, can be of each of them.
            goal = goal_in(error)
            gone |= {goal} if goal in mutant.answers else {*mutant.answers, goal}
    by_hand = {goal_in(it) for it in errors} - gone
    if mutant.goal:
        verdicts = {verdict_of_goal(mutant, lines)}
        open_goals = by_hand & {mutant.goal} if not mutant.takes_answer_to_goal() else set()
        by_hand -= open_goals
    else:
        verdicts = {verdict_of_function(mutant.crate, it, lines) for it in mutant.functions}
        open_goals = {goal for it in own_lines(mutant, lines) for goal in open_in(it)}
    return Finding(verdicts, any(map(ENDED.search, errors)), gone, by_hand, open_goals)


def goal_in(error: str) -> str:
    """The goal or lemma of an error of a proof, or nothing where it is of none."""
    found = re.match(r"`([^`]+)`: ", error)
    return found[1] if found else ""


def open_in(line: str) -> List[str]:
    """The goals that the checker's own search did not prove, by the line of a function."""
    found = re.match(r"fn \S+: no proof: expected answers in .*?(?:did not prove|leaves) (.*)", line)
    return re.findall(r"`([^`]+)`", found[1]) if found else []


def own_lines(mutant: Mutant, lines: Lines) -> Sequence[str]:
    """The line of each of the mutant's functions."""
    found = [(re.match(r"fn (\S+): ", it), it) for it in lines]
    return [
        line
        for said, line in found
        if said and any(f"::{said[1]}".endswith(f"::{it}") for it in mutant.functions)
    ]


def is_unjudged(mutant: Mutant, lines: Lines) -> bool:
    """Whether a run on the whole crate says so of a function that the mutant changes."""
    found = [re.match(r"fn (\S+): (.*)", it) for it in lines]
    return any(
        UNJUDGED.match(it[2]) and it[1].rpartition("::")[2] in mutant.names for it in found if it
    )


def refused_functions(lines: Lines) -> Sequence[str]:
    """The functions that a run on a whole crate refuses."""
    found = [re.match(r"fn (\S+): (?:not proved|no proof: expected)", it) for it in lines]
    return [it[1] for it in found if it]


def fault_of(lines: Lines) -> str:
    """What is wrong where the checker gave no verdict."""
    for line in lines:
        if re.match(r"(\./)?(src|specs)/\S+:\d+:\d+: error", line):
            return f"the changed text does not compile: {line[:200]}"
    return f"the checker gave no verdict: {lines[-1][:200]}"
