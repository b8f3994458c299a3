"""What tools/mutants needs of the toolchain: the module with which rt calls the checker."""
from __future__ import annotations

import functools
import importlib
import os
import pathlib
import shutil
import sys
from typing import Any, List, Protocol, Sequence, TextIO


class Unusable(Exception):
    """There is no toolchain here, or it does not work as these tools expect."""


class Crate(Protocol):
    """A crate as the toolchain describes it."""

    name: str
    folder: str
    out: TextIO

    def below(self) -> List[Crate]:
        """The crates of the repository that this one is built on, lowest first."""

    def stamp(self) -> str:
        """A sum of all that the crate is built from, and of the toolchain."""

    def words(self, flags: Sequence[str], keeps: bool) -> List[str]:
        """The words with which the checker is called for this crate."""

    def build_rlib(self, flags: Sequence[str], anew: bool) -> int:
        """Builds the crate's library where it is not built, and returns an exit status."""


class Toolchain:
    def __init__(self) -> None:
        command = shutil.which("rt")
        if not command:
            raise Unusable("the toolchain's command rt is not on the path")
        sys.path.insert(0, str(pathlib.Path(os.path.realpath(command)).parent))
        try:
            module: Any = importlib.import_module("rtlib")
            # The stamp of a crate asks for the stamps of all crates below it, again and again.
            module.Crate.stamp = functools.lru_cache(maxsize=None)(module.Crate.stamp)
            self.parts: Sequence[str] = module.PARTS
            self.checker: str = module.RATTLE
            self.crates_below = module.crates_below
            self.guarded = module.guarded
            os.environ.pop(module.ALLOW_C, None)
        except (ImportError, AttributeError) as fault:
            raise Unusable(f"this toolchain is not understood: {fault}") from fault

    def crates(self, folder: pathlib.Path) -> List[Crate]:
        """All crates of a copy of the repository, lowest first."""
        found: List[Crate] = self.crates_below(str(folder))
        return found

    def guard(self) -> List[str]:
        """The words before a command that end it when this process ends, however it ends. The first
        call has to come from the main thread, since it sets a signal's handler."""
        words: List[str] = self.guarded()
        return words


def build(library: Crate) -> bool:
    """Builds a library where it is not built, and returns whether it is."""
    library.out = sys.stderr
    return library.build_rlib(["--jobs", "1"], anew=False) == 0
