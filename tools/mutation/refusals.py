"""Which mutants were refused on this machine, and what the refusals rest on."""
from __future__ import annotations

import hashlib
import os
import pathlib
import tempfile
from typing import Sequence

HERE = pathlib.Path(__file__).resolve().parent


def cache_folder() -> pathlib.Path:
    cache = os.environ.get("XDG_CACHE_HOME") or pathlib.Path.home() / ".cache"
    return pathlib.Path(cache, "bizhgora", "refused")


def sum_of_program() -> str:
    """A sum of this program. A refusal by another one is not kept."""
    files = [HERE.parent / "mutants", *sorted(HERE.glob("*.py"))]
    return sum_of([(it.name, it.read_bytes()) for it in files])


def sum_of(parts: object) -> str:
    return hashlib.sha256(repr(parts).encode()).hexdigest()


class Refusals:
    """The refusals of one crate's mutants: under the name of each file, a sum of all that it rested
    on: the sources of the crate and of those below, the file, this program and the toolchain."""

    def __init__(self, crate: str, stamps: Sequence[str], program: str) -> None:
        self.folder = cache_folder() / crate
        self.stamps, self.program = tuple(stamps), program

    def sum_for(self, file: pathlib.Path) -> str:
        return sum_of((self.stamps, file.read_bytes(), self.program))

    def has(self, name: str, wanted: str) -> bool:
        kept = self.folder / name
        return kept.is_file() and kept.read_text(encoding="utf-8") == wanted

    def keep(self, name: str, found: str) -> None:
        self.folder.mkdir(parents=True, exist_ok=True)
        new, path = tempfile.mkstemp(dir=self.folder)
        with open(new, "w", encoding="utf-8") as file:
            file.write(found)
        os.replace(path, self.folder / name)
