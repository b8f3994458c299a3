"""A copy of a crate in which mutants are tried."""
from __future__ import annotations

import pathlib
import re
import shutil
from typing import Collection, Dict, List, Sequence, Tuple

from .answers import answers_of_clause, answers_of_goal, answers_without, with_search
from .edit import Change
from .mutant import NO_SEARCH, Copy, Mutant
from .source import FUNCTION, ProofPath, Source, last_before, without_body

# The proof of a function that is left open, by one hole that all of them share.
OPEN_PROOF = """use {proofs}.{path}.Statement.{{statement}}
use {proofs}.LeftOpen.{{left_open}}

pub {name}_spec : {{M : Type 1}} → statement M
{name}_spec = left_open
"""
HOLE = "pub left_open {ℓ} : {A : Type ℓ} → A\nleft_open = ?\n"


class Room:
    def __init__(self, folder: pathlib.Path, source: Source, parts: Sequence[str]) -> None:
        self.folder, self.source = folder, source
        for part in parts:
            if (source.folder / part).is_dir():
                shutil.copytree(source.folder / part, folder / part)

    def read(self, file: str) -> str:
        path = self.folder / file
        return path.read_text(encoding="utf-8") if path.is_file() else ""

    def write(self, file: str, text: str) -> None:
        path = self.folder / file
        path.parent.mkdir(parents=True, exist_ok=True)
        path.write_text(text, encoding="utf-8")

    def change_crate(self, mutant: Mutant) -> None:
        """Makes one mutant's changes, and leaves all proofs as they are."""
        self.change_in_place([mutant], [])

    def change_functions(self, mutants: Sequence[Mutant], only: Collection[str]) -> None:
        """Makes the changes of mutants, each in a copy where it has one, and leaves the proofs of
        all functions but these open."""
        copies = [it for it in mutants if it.copy]
        in_place = [it for it in mutants if not it.copy]
        by_goal = [it for it in in_place if it.goal]
        self.add_copies(copies)
        self.change_in_place(in_place, by_goal)
        for mutant in in_place:
            if mutant.goal or mutant.without:
                self.cut_answers(mutant)
        for mutant in copies:
            self.fill_place(mutant)
        self.leave_open(only)

    def add_copies(self, mutants: Sequence[Mutant]) -> None:
        """Keeps a place for each copy after its function, and writes its proof."""
        copies = [(it.copy, it) for it in mutants if it.copy]
        for copy, mutant in sorted(copies, key=lambda it: it[0].span.end, reverse=True):
            text = self.read(copy.span.file)
            end = copy.span.end
            self.write(copy.span.file, f"{text[:end]}\n{mutant.place()}{text[end:]}")
            self.copy_proof(copy, mutant)

    def copy_proof(self, copy: Copy, mutant: Mutant) -> None:
        path = self.source.proofs[copy.span.function]
        target = (*path[:-1], copy.name)
        old_module = re.compile(rf"\b{re.escape('.'.join(path))}\.")
        old_name = re.compile(rf"\b{path[-1]}_spec\b")
        proofs: Dict[str, str] = {
            it.name: it.read_text(encoding="utf-8")
            for it in sorted(self.folder.joinpath("proofs", *path).glob("*.antt"))
        }
        if mutant.goal:
            proofs.setdefault("Answers.antt", "")
        for name, text in proofs.items():
            text = old_module.sub(f"{'.'.join(target)}.", text)
            if mutant.clause:
                text = answers_of_clause(text, mutant.clause)
            if name == "Answers.antt":
                text = self.answers_for(mutant, target, text)
            file = "/".join(("proofs", *target, name))
            self.write(file, old_name.sub(f"{copy.name}_spec", text))

    def cut_answers(self, mutant: Mutant) -> None:
        """Leaves the answers that a mutant asks for, which is tried in its place."""
        path = self.source.proofs.get(next(iter(mutant.functions)))
        file = "/".join(("proofs", *(path or ()), "Answers.antt"))
        if path and (mutant.goal or self.read(file)):
            self.write(file, self.answers_for(mutant, path, self.read(file)))

    def answers_for(self, mutant: Mutant, path: ProofPath, text: str) -> str:
        """The answers that the mutant asks for, of the proof with this path."""
        if mutant.without:
            text = answers_without(text, mutant.without)
        if not mutant.goal:
            return text
        text, has_own = answers_of_goal(text, mutant.goal)
        goals = ".".join(("Rattle", self.source.crate, "proofs", *path, "Goals"))
        return text if has_own else with_search(text, goals, mutant)

    def change_in_place(self, mutants: Sequence[Mutant], by_goal: Sequence[Mutant]) -> None:
        """Makes the changes of all these mutants at once, by the places where the old texts are in
        the unchanged crate: a text that one puts there may be one that another replaces."""
        parts: Dict[str, List[Tuple[int, int, str]]] = {}
        later: List[Change] = []
        for mutant in mutants:
            for change in mutant.changes:
                at = self.read(change.file).find(change.old)
                if at == -1:  # it replaces what an earlier change of the same mutant puts there
                    later += [] if mutant.is_unchanged else [change]
                    continue
                new = change.old if mutant.is_unchanged else change.new
                parts.setdefault(change.file, []).append((at, at + len(change.old), new))
            if mutant in by_goal:
                parts[mutant.changes[0].file].append(self.no_search_at(mutant.changes[0]))
        for file, places in parts.items():
            text = self.read(file)
            for begin, end, new in sorted(places, reverse=True):
                text = text[:begin] + new + text[end:]
            for change in later:
                if change.file == file:
                    text = text.replace(change.old, change.new)
            self.write(file, text)

    def no_search_at(self, change: Change) -> Tuple[int, int, str]:
        """Has the checker leave the goals open that have no answer, of the changed function."""
        text = self.read(change.file)
        head = last_before(FUNCTION, text, text.find(change.old) + len(change.old))
        if not head:
            raise ValueError(f"no function has the text that is changed: {change.old}")
        return head.start(), head.start(), f"{head[1]}{NO_SEARCH}"

    def fill_place(self, mutant: Mutant) -> None:
        if mutant.copy:
            file = mutant.copy.span.file
            self.write(file, self.read(file).replace(mutant.place(), mutant.copy.text))

    def leave_open(self, only: Collection[str]) -> None:
        """Leaves the proofs of all functions but these open, and their bodies out."""
        crate = self.source.crate
        left = {
            name: path
            for name, path in self.source.proofs.items()
            if not any(f"::{'::'.join((crate, *path))}".endswith(f"::{it}") for it in only)
        }
        proofs = f"Rattle.{crate}.proofs"
        for path in left.values():
            folder = "/".join(("proofs", *path))
            for name in ("Answers.antt", "Invariants.antt"):
                (self.folder / folder / name).unlink(missing_ok=True)
            proof = OPEN_PROOF.format(proofs=proofs, path=".".join(path), name=path[-1])
            self.write(f"{folder}/Proof.antt", proof)
        self.write("proofs/LeftOpen.antt", HOLE)
        self.write("proofs/Lib.antt", self.read("proofs/Lib.antt") + "\nmod LeftOpen\n")
        for file in self.source.texts:
            self.leave_out_bodies(file, left)

    def leave_out_bodies(self, file: str, functions: Collection[str]) -> None:
        """Leaves out the bodies of these functions. Constants may be made by a const function."""
        text = self.read(file)
        for start in reversed(list(FUNCTION.finditer(text))):
            function = self.source.function_at(file, text, start.end())
            if function in functions and "const fn" not in start[0]:
                text = without_body(text, start)
        self.write(file, text)
