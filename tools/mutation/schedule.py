"""Which crate's mutants are tried next, by how many runs beside one another."""
from __future__ import annotations

import os
import pathlib
import re
import threading
import time
from concurrent.futures import ThreadPoolExecutor
from typing import List, Optional

from .checker import Checker
from .toolchain import Crate
from .trial import Trial

SECONDS_BETWEEN_LOOKS = 5


class Libraries:
    """Which libraries are proved: all, or those that the log of a running 'rt ci' calls so."""

    def __init__(self, log: Optional[pathlib.Path]) -> None:
        self.log = log

    def found(self, pattern: str) -> List[str]:
        if not self.log:
            return []
        text = self.log.read_text(encoding="utf-8", errors="replace")
        return re.findall(pattern, text, re.M)

    def are_final(self) -> bool:
        return not self.log or bool(self.found(r"^\d+ passed, \d+ failed$"))

    def are_below(self, crate: Crate) -> bool:
        """Whether all libraries below this crate are proved."""
        proved = {*self.found(r"^rt: (\w+) (?:proved$|is kept)")}
        return not self.log or {it.name for it in crate.below()} <= proved


class Lanes:
    """One lane for each processor. Each tries the mutants of one crate after the other."""

    def __init__(self, trials: List[Trial], libraries: Libraries, checker: Checker) -> None:
        self.left, self.libraries, self.checker = list(trials), libraries, checker
        self.count = len(os.sched_getaffinity(0))
        self.results: List[bool] = []
        self.taking = threading.Lock()

    def next_trial(self, lane: int) -> Optional[Trial]:
        """The highest crate whose libraries are there, since the highest take longest. None where
        this lane has to wait: half of them do as long as 'rt ci' runs."""
        are_final = self.libraries.are_final()
        if not are_final and lane >= self.count // 2:
            return None
        with self.taking:
            ready = [it for it in self.left if are_final or self.libraries.are_below(it.crate)]
            if not ready:
                return None
            self.left.remove(ready[-1])
            return ready[-1]

    def work(self, lane: int) -> None:
        while self.left:
            trial = self.next_trial(lane)
            if not trial:
                time.sleep(SECONDS_BETWEEN_LOOKS)
            elif self.libraries.are_below(trial.crate):
                self.results += trial.run(self.checker)
            else:
                self.results += trial.give_up("a library below its crate is not proved")

    def run(self) -> List[bool]:
        with ThreadPoolExecutor(self.count) as pool:
            for lane in [pool.submit(self.work, it) for it in range(self.count)]:
                lane.result()
        return self.results
