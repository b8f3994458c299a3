"""The functions of a crate, found in the text of its files.

The expressions below read code as this repository writes it and 'rt fmt' lays it out. Where they do
not find the proof of a function, its mutants are tried in place or on the whole crate. That takes
longer and is as strict."""
from __future__ import annotations

import pathlib
import re
from typing import Dict, List, Match, NamedTuple, Optional, Pattern, Set, Tuple

FUNCTION = re.compile(
    r'^( *)(?:pub(?:\([a-z]+\))? )?(?:const )?(?:unsafe )?(?:extern "C" )?fn (\w+)', re.M
)
TRAIT = re.compile(r"^(?:pub )?trait (\w+)", re.M)
IMPL = re.compile(
    r"^impl\b(?:<[^{]*?>)? ?(?:(?:\w+::)*(\w+)(?:<.*>)? for )?&?(?:'\w+ )?(?:mut )?(?:\w+::)*(\w+)",
    re.M,
)
TYPE = re.compile(r"^(?:pub(?:\([a-z]+\))? )?(?:struct|enum) (\w+)", re.M)
CLAUSE = re.compile(r"^ *ensures\*? (?:(\w+) )?\{", re.M)
CALL = re.compile(r"(\w+)(?:::<[^()]*>)?\(")
# Functions of the standard library have these names. Who calls whom is only asked to choose which
# mutants share a run, so a function of the crate with such a name is left out at no harm.
OF_THE_LIBRARY = {
    *"all and_then any drop find finish from get get_mut insert is_empty iter len map max".split(),
    *"min new next push read set take write".split(),
}

ProofPath = Tuple[str, ...]


class Span(NamedTuple):
    """The text of a function, with what belongs to it above its head."""

    function: str
    file: str
    begin: int
    end: int


def last_before(pattern: Pattern[str], text: str, end: int) -> Optional[Match[str]]:
    found = None
    for found in pattern.finditer(text, 0, end):
        pass
    return found


def module_of(file: str) -> ProofPath:
    path = pathlib.PurePath(file).relative_to("src").with_suffix("").parts
    if path in (("lib",), ("main",)):
        return ()
    return path[:-1] if path[-1] == "mod" else path


def is_for_some_arguments(head: str) -> bool:
    """Whether an impl with this head gives its type other arguments than its own parameters. Any
    lifetime is one of these."""
    found = re.fullmatch(r"impl(?:<(.*?)>)? \w+<(.*)>\s*", head)
    if not found:
        return False
    given = re.sub(r"'\w+", "", found[2])
    return not {*re.findall(r"\w+", given)} <= {*re.findall(r"\w+", found[1] or "")}


def with_one_clause(text: str, name: str) -> Optional[str]:
    """A function that promises this clause only: its others say nothing. None where it has no such
    clause."""
    clauses = list(CLAUSE.finditer(text))
    for clause in reversed(clauses):
        depth, end = 1, clause.end()
        while depth:
            depth += {"{": 1, "}": -1}.get(text[end], 0)
            end += 1
        if clause[1] != name:
            text = f"{text[: clause.end()]} Unit {{0}} }}{text[end:]}"
    return text if any(it[1] == name for it in clauses) else None


def declared_in(text: str) -> Set[str]:
    """The names of the answers in a proof: what it declares for all to use."""
    return {*re.findall(r"^(?:abbrev |unfoldable )?pub (?!use |mod )(\S+)", text, re.M)}


def without_body(text: str, start: Match[str]) -> str:
    """The text, where the function that starts here has a body that never ends."""
    indent = start[1]
    end = text.find(f"\n{indent}}}\n", start.end())
    if end == -1 or FUNCTION.search(text, start.end(), end):
        return text
    # A body opens on a line of its own after clauses, and else on the last line of the head.
    line = text.rfind("\n", 0, start.end()) + 1
    for before in ("", r"\S.*"):
        opened = re.compile(rf"^{indent}{before}\{{$", re.M).search(text, line, end)
        if opened:
            return f"{text[: opened.end()]}\n{indent}    loop {{}}{text[end:]}"
    return text


class Source:
    def __init__(self, folder: pathlib.Path) -> None:
        self.folder, self.crate = folder, folder.name
        self.texts: Dict[str, str] = {
            str(path.relative_to(folder)): path.read_text(encoding="utf-8")
            for path in sorted((folder / "src").rglob("*.rt"))
        }
        self.homes: Dict[str, ProofPath] = {
            found[1]: module_of(file)
            for file, text in self.texts.items()
            for found in TYPE.finditer(text)
        }
        self.calls: Dict[str, Set[str]] = {}
        self.proofs: Dict[str, ProofPath] = {}
        self.of_traits: Set[str] = set()
        self.copies: Dict[str, int] = {}
        for file, text in self.texts.items():
            self.note_functions(file, text)

    def note_functions(self, file: str, text: str) -> None:
        starts = list(FUNCTION.finditer(text))
        ends = [*[it.start() for it in starts[1:]], len(text)]
        for start, end in zip(starts, ends):
            self.note_proof(file, text, start)
            called = {*CALL.findall(text[start.end() : end])} - OF_THE_LIBRARY
            self.calls.setdefault(start[2], set()).update(called)

    def note_proof(self, file: str, text: str, start: Match[str]) -> None:
        """Notes where the function's proof is, below the crate's proofs. That is not known of a
        function in a cycle of calls or in a trait, nor where an impl is for some arguments only."""
        if "#[cycle" in text[: start.start()].rpartition("\n\n")[2]:
            return
        name = self.function_at(file, text, start.end())
        if name is None:
            return
        if not start[1]:
            self.proofs[name] = (*module_of(file), start[2])
            return
        block = self.impl_of(text, start)
        if not block:
            return
        # A method's proof is where its type is, and that of a trait's method where its impl is.
        within = module_of(file) if block[1] else self.homes.get(block[2])
        if within is not None:
            self.proofs[name] = (*within, block[2] + (block[1] or ""), start[2])
            if block[1]:
                self.of_traits.add(name)

    def impl_of(self, text: str, start: Match[str]) -> Optional[Match[str]]:
        """The impl that a method is in, where its proof can be found by it."""
        block = last_before(IMPL, text, start.start())
        trait = last_before(TRAIT, text, start.start())
        if not block or trait and trait.start() > block.start():
            return None
        head = text[block.start() : text.find("{", block.start())]
        return None if block[1] in ("Drop", "From") or is_for_some_arguments(head) else block

    def function_at(self, file: str, text: str, at: int) -> Optional[str]:
        """The function at this place of the file's text, by the end of the path with which the
        checker names it."""
        start = last_before(FUNCTION, text, at)
        if not start:
            return None
        end = text.find(f"\n{start[1]}}}", start.end())
        if end != -1 and end < at:
            return None
        block = last_before(IMPL, text, start.start()) if start[1] else None
        if block:
            return f"{block[2]}{block[1] or ''}::{start[2]}"
        module = pathlib.Path(file).stem
        return f"{self.crate if module in ('lib', 'main') else module}::{start[2]}"

    def span_at(self, file: str, at: int) -> Optional[Span]:
        """The function at this place of the file's text, if it can be copied."""
        text = self.texts[file]
        name, start = self.function_at(file, text, at), last_before(FUNCTION, text, at)
        if name is None or not start or name not in self.proofs or name in self.of_traits:
            return None
        lines = text[: start.start()].split("\n")[:-1]
        first = len(lines)
        while first and belongs_to_next(lines[first - 1], start[1]):
            first -= 1
        begin = sum(len(it) + 1 for it in lines[:first])
        close = f"\n{start[1]}}}\n"
        end = text.find(close, start.end()) + len(close)
        return Span(name, file, begin, end) if begin <= at <= end else None

    def answers_of(self, function: str) -> str:
        """The answers by hand to goals of this function."""
        path = self.proofs.get(function)
        file = self.folder.joinpath("proofs", *(path or ()), "Answers.antt")
        return file.read_text(encoding="utf-8") if path and file.is_file() else ""

    def next_copy_of(self, function: str) -> str:
        """A name for one more copy of this function."""
        self.copies[function] = self.copies.get(function, 0) + 1
        return f"{self.proofs[function][-1]}_copy{self.copies[function]}"

    def reaches(self, name: str) -> Set[str]:
        """The names of the functions that one of this name may call, itself or through others."""
        found: Set[str] = set()
        left: List[str] = [name]
        while left:
            for called in self.calls.get(left.pop(), ()):
                if called in self.calls and called not in found:
                    found.add(called)
                    left.append(called)
        return found


def belongs_to_next(line: str, indent: str) -> bool:
    """Whether a line above a function's head, as a comment or an attribute, belongs to it."""
    return line.startswith(indent) and not re.fullmatch(r"\s*\}?|.*[{;]", line)
