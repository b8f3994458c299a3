"""Runs of the checker on copies of crates."""
from __future__ import annotations

import os
import pathlib
import subprocess
import tempfile
from typing import Dict, List, Optional, Sequence

from .mutant import Mutant
from .room import Room
from .source import Source
from .toolchain import Crate, Toolchain


class Checker:
    def __init__(self, toolchain: Toolchain) -> None:
        self.toolchain = toolchain
        # The processor seconds of each run, by crate.
        self.seconds: Dict[str, List[float]] = {}

    def check_crate(
        self, crate: Crate, source: Source, mutant: Mutant, over: Optional[str]
    ) -> List[str]:
        """What the checker says of the whole crate with one mutant's changes. What it finds out is
        kept in the folder `over`, for later runs."""
        with tempfile.TemporaryDirectory(prefix="dsa-mutants-") as folder:
            room = self.room(folder, source)
            room.change_crate(mutant)
            return self.run(crate, folder, [], over)

    def check_functions(
        self,
        crate: Crate,
        source: Source,
        mutants: Sequence[Mutant],
        over: Optional[str],
    ) -> List[str]:
        """What it says of the functions that these mutants change, where all others are open."""
        only = sorted(set().union(*[it.functions for it in mutants]))
        words = [word for name in only for word in ("--only", name)]
        with tempfile.TemporaryDirectory(prefix="dsa-mutants-") as folder:
            self.room(folder, source).change_functions(mutants, only)
            return self.run(crate, folder, ["--allow-holes", *words], over)

    def room(self, folder: str, source: Source) -> Room:
        return Room(pathlib.Path(folder), source, self.toolchain.parts)

    def run(
        self, crate: Crate, folder: str, flags: Sequence[str], over: Optional[str]
    ) -> List[str]:
        words = [*self.toolchain.guard(), self.toolchain.checker, "check"]
        words += crate.words(["--jobs", "1", *flags], keeps=False)
        words += ["--incremental", over] if over else []
        ran = subprocess.Popen(
            words,
            cwd=folder,
            stdin=subprocess.DEVNULL,
            stdout=subprocess.PIPE,
            stderr=subprocess.STDOUT,
            text=True,
            errors="replace",
        )
        assert ran.stdout
        said = ran.stdout.read()
        _, status, used = os.wait4(ran.pid, 0)
        ran.returncode = status
        ran.stdout.close()
        self.seconds.setdefault(crate.name, []).append(used.ru_utime + used.ru_stime)
        return said.rstrip("\n").split("\n")
