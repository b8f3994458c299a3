"""Runs the built program, and keeps what differs from what is expected."""
from __future__ import annotations

import itertools
import subprocess
from typing import List, NamedTuple, Optional, Sequence

from .features import Features

SECONDS = 60
SHOWN = 300


class Ran(NamedTuple):
    """What the program leaves."""

    output: str
    errors: str
    status: int

    @property
    def lines(self) -> List[str]:
        return self.output.split("\n")[:-1]


class Program:
    """A built dsa_run."""

    def __init__(self, path: str) -> None:
        self.path = path
        self.features = Features(self)

    def run(self, words: Sequence[str], text: str) -> Ran:
        try:
            ran = subprocess.run(
                [self.path, *words], input=text.encode(), capture_output=True, timeout=SECONDS
            )
        except subprocess.TimeoutExpired:
            return Ran("", f"no end within {SECONDS} seconds", -1)
        output, errors = (it.decode("utf-8", "replace") for it in (ran.stdout, ran.stderr))
        return Ran(output, errors, ran.returncode)


class Comparer:
    """Compares the texts of one document after the other, and counts the differences."""

    def __init__(self, program: Program, seed: str) -> None:
        self.program, self.seed, self.name = program, seed, ""
        self.texts = self.differences = 0

    def differs(self, what: str, how: str) -> None:
        self.differences += 1
        print(f"seed {self.seed}, {self.name}: {what}: {how}", flush=True)

    def holds(self, what: str, is_so: bool, how: str) -> bool:
        """Counts a text that a check of its own compares."""
        self.texts += 1
        if not is_so:
            self.differs(what, how)
        return is_so

    def same(self, what: str, expected: Sequence[str], found: Sequence[str]) -> bool:
        """Compares lines, and prints the first that differ."""
        self.texts += 1
        pairs = itertools.zip_longest(expected, found)
        for number, (own, other) in enumerate(pairs, 1):
            if own != other:
                said = f"line {number}: expected {shortened(own)}, found {shortened(other)}"
                self.differs(what, said)
                return False
        return True

    def output(self, words: Sequence[str], text: str) -> str:
        """What the program writes of a document without a fault."""
        ran = self.program.run(words, text)
        if ran.errors or ran.status:
            self.differs(" ".join(words), f"{ran.errors.strip()}, status {ran.status}")
        return ran.output

    def ran(
        self,
        words: Sequence[str],
        text: str,
        expected: Sequence[str],
        status: int = 0,
        errors: str = "",
        name: Optional[str] = None,
    ) -> Ran:
        """Runs the program, and compares the lines, the errors and the exit status."""
        ran = self.program.run(words, text)
        what = name or " ".join(["run", *words])
        if self.same(what, expected, ran.lines):
            left = (ran.errors.strip(), ran.status)
            if left != (errors, status) or ran.output and not ran.output.endswith("\n"):
                self.differs(what, f"expected {(errors, status)}, found {left}")
        return ran


def shortened(line: Optional[str]) -> str:
    """A line as it is shown, or 'no line'."""
    if line is None:
        return "no line"
    return repr(line if len(line) <= SHOWN else line[:SHOWN] + "..")
