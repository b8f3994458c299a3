"""The answers of a proof (Answers.antt), cut down to what one mutant asks."""
from __future__ import annotations

import re
from typing import TYPE_CHECKING, List, Optional, Set, Tuple

from .source import declared_in

if TYPE_CHECKING:
    from .mutant import Mutant

# The searches that the checker tries first on a goal without an answer, in turn. It goes on with
# more lemmas and more steps.
SEARCHES = ("search (tests, rules)", "grind (arith, common_steps) steps 2000000")
# Where the names in them come from.
MODULES = {
    "tests": "borrow.Author.Tests",
    "rules": "borrow.Author.Rules",
    "arith": "native.Mathlib.Omega",
    "common_steps": "Rattle.std.proofs.lemmas.Grind",
}


def answers_of_clause(text: str, clause: str) -> str:
    """The answers without those to what other clauses say. What calls require is still asked."""
    items = re.split(r"^(?=\S)", text, flags=re.M)
    kept = []
    for item in items:
        other = re.match(r"(?:abbrev )?(?:pub )?returns\S*clause-(\w+)", item)
        if not other or other[1] == clause:
            kept.append(item)
    return "".join(kept)


def name_of(item: str) -> Optional[str]:
    """The name that an item of a proof declares or defines. An import has none."""
    found = re.match(r"(?:abbrev |unfoldable )?(?:pub )?(?!use |mod |--)(\S+)", item)
    return found[1] if found else None


def items_of(text: str) -> List[str]:
    """The imports, declarations and definitions of a proof."""
    items = re.split(r"^(?=[^\s\])}])", text, flags=re.M)
    return [it for it in items if it and not it.startswith("--")]


def answers_of_goal(text: str, goal: str) -> Tuple[str, bool]:
    """The answers that this goal's needs, and whether its own is among them."""
    return only_for(text, {goal}), goal in declared_in(text)


def answers_without(text: str, goals: Set[str]) -> str:
    """The answers to all goals but these."""
    return only_for(text, declared_in(text) - goals)


def resting_on(text: str, goals: Set[str]) -> Set[str]:
    """The other answers that use one of these, or use what does."""
    return {it for it in declared_in(text) - goals if goals & needed_by(text, {it})}


def needed_by(text: str, goals: Set[str]) -> Set[str]:
    """The names of these answers, and of all that they need of this text."""
    items = items_of(text)
    names = {it for it in map(name_of, items) if it}
    needed, left = {*goals}, {*goals}
    while left:
        said = "".join(it for it in items if name_of(it) in left)
        words = {*re.findall(r"[^\s()\[\]{},.]+", said)}
        left = {it for it in names if it in words and it not in needed}
        needed |= left
    return needed


def only_for(text: str, goals: Set[str]) -> str:
    """What these answers need, and they themselves."""
    items, needed = items_of(text), needed_by(text, goals)
    said = "".join(it for it in items if name_of(it) in needed)
    words = {*re.findall(r"[^\s()\[\]{},.]+", said)}

    def is_kept(item: str) -> bool:
        if name_of(item) is not None:
            return name_of(item) in needed
        # The branches that led to a goal have names only where an answer uses them.
        names = re.findall(r"[^\s{},]+", item.partition(".Goals.{")[2])
        return ".Goals.{" not in item or bool(words & {*names})

    return "".join(it for it in items if is_kept(it))


def with_search(text: str, goals: str, mutant: Mutant) -> str:
    """The answers, and one to the mutant's goal: what the checker tries first, within the mutant's
    steps, or, where only the changed text has the goal, what it tries first and second."""
    found = re.search(rf"^use {re.escape(goals)} as (\S+)$", text, re.M)
    uses = [] if found else [f"use {goals} as goal"]
    tactics = f"{SEARCHES[0]} steps {mutant.steps}"
    if mutant.is_new_goal:
        tactics = f"first_of ({', '.join(SEARCHES)})"
    for name, module in MODULES.items():
        if re.search(rf"\b{name}\b", tactics):
            uses.append(f"use {module}.{{{name} as checkers_{name}}}")
            tactics = re.sub(rf"\b{name}\b", f"checkers_{name}", tactics)
    declared = f"pub {mutant.goal} : {found[1] if found else 'goal'}.{mutant.goal}"
    return "\n".join([*uses, text, declared, f"{mutant.goal} = {tactics}"]) + "\n"
