#!/usr/bin/env python3
"""Runs a scenario document on the C library and prints the lines of docs/SCENARIO.md.

    python3 run_document.py FILE

The document has to be a valid one: this example looks for no fault in it. `./run check FILE` does.
"""

from __future__ import annotations

import json
import os
import sys
from typing import Any, Dict, List

sys.path.insert(0, os.path.join(os.path.dirname(os.path.abspath(__file__)), ".."))
import dsa_model as dsa  # noqa: E402
from dsa_model import Kind  # noqa: E402

Step = Dict[str, Any]


def words(member: Any) -> str:
    """The name of a member of an enum as it is in the lines: `at-limit` for AT_LIMIT."""
    return str(member.name).lower().replace("_", "-")


def line_of(answer: dsa.Answer) -> str:
    """The line of a step that was answered so."""
    line, kind = words(answer.kind), answer.kind
    if kind in (Kind.ACCEPTED, Kind.FETCHED, Kind.STARTED):
        return f"{line} {answer.name}"
    if kind == Kind.TAKEN:
        return f"{line} {answer.name} from {answer.queue}"
    if kind in (Kind.RETRY, Kind.DROPPED):
        return f"{line} {words(answer.cause)}"
    if kind in (Kind.ABANDONED, Kind.ENDED):
        return f"{line} {answer.lost}"
    if kind == Kind.DONE:
        return f"{line} {answer.more:02x}"
    if kind == Kind.REFUSED:
        return f"{line} {answer.more} {dsa.Fault(answer.more).name}"
    if kind == Kind.CLEARED:
        overflow = " overflow" if answer.overflow else ""
        return f"{line} {answer.queue} {words(answer.cause)}{overflow}"
    return line


def line_of_fate(ending: dsa.Ending) -> str:
    head = f"fate {ending.name} {'-' if ending.parent is None else ending.parent}"
    if ending.kind == dsa.EndingKind.COMPLETED:
        return f"{head} completed {ending.number:02x}"
    if ending.kind == dsa.EndingKind.ABORTED:
        return f"{head} aborted {ending.number}"
    return f"{head} abandoned"


def bytes_of(step: Step) -> bytes:
    return bytes.fromhex(step["desc"]).ljust(64, b"\0")


def portal_of(step: Step) -> dsa.Portal:
    return dsa.Portal.LIMITED if step["limited"] else dsa.Portal.UNLIMITED


class Run:
    """A run of a document, with the cell under which each name was given."""

    def __init__(self, device: dsa.Device) -> None:
        self.device = device
        self.cells: Dict[int, int] = {}

    def answer(self, step: Step) -> dsa.Answer:
        """Makes the step on the device."""
        answer: dsa.Answer = getattr(self, step["do"])(step)
        if answer.kind in (Kind.ACCEPTED, Kind.FETCHED):
            self.cells[answer.name] = answer.cell
        return answer

    def queue(self, step: Step) -> dsa.Answer:
        return self.device.write_queue(step["queue"], dsa.Queue(
            step["size"], step["threshold"], step["dedicated"], step["priority"], step["batch"],
            step["xfer"], step["pasid"]))

    def group(self, step: Step) -> dsa.Answer:
        return self.device.write_group(step["group"], dsa.Group(
            step["queues"], step["engines"], step["reserved"], step["allowed"]))

    def enqcmd(self, step: Step) -> dsa.Answer:
        return self.device.enqcmd(step["client"], step["queue"], portal_of(step), step["pasid"],
                                  bytes_of(step))

    def movdir(self, step: Step) -> dsa.Answer:
        return self.device.movdir64b(step["client"], step["queue"], portal_of(step),
                                     bytes_of(step))

    def dispatch(self, step: Step) -> dsa.Answer:
        return self.device.dispatch(step["engine"])

    def fetch(self, step: Step) -> dsa.Answer:
        return self.device.fetch(step["engine"], bytes_of(step))

    def start(self, step: Step) -> dsa.Answer:
        return self.device.start(step["engine"])

    def finish(self, step: Step) -> dsa.Answer:
        outcome = dsa.Outcome.PAGE_FAULT if step["fault"] else dsa.Outcome.SUCCESS
        cell = self.cells.get(step["name"], 0)
        return self.device.finish(step["engine"], cell, step["name"], outcome)

    def command(self, step: Step) -> dsa.Answer:
        return self.device.command(step["word"])

    def poll(self, step: Step) -> dsa.Answer:
        return self.device.poll()

    def clear(self, step: Step) -> dsa.Answer:
        return self.device.clear_error()


def lines_of(document: Dict[str, Any]) -> List[str]:
    """The lines of a document: one for each step, then one for each entry that ended."""
    caps = dsa.Caps(**{key: document["caps"][key] for key in dsa.Caps._fields})
    with dsa.Device(caps, document["capacity"]) as device:
        run = Run(device)
        lines = [line_of(run.answer(step)) for step in document["steps"]]
        return lines + [line_of_fate(ending) for ending in device.fates()]


def main() -> None:
    if len(sys.argv) != 2:
        print("usage: python3 run_document.py FILE", file=sys.stderr)
        sys.exit(2)
    try:
        with open(sys.argv[1], encoding="utf-8") as file:
            lines = lines_of(json.load(file))
    except (OSError, dsa.DsaError) as error:
        sys.exit(f"run_document: {error}")
    sys.stdout.writelines(f"{line}\n" for line in lines)


if __name__ == "__main__":
    main()
