"""Writes scenario documents, with names for commands and operations.

    python3 examples/write_document.py | ./run
    python3 examples/write_document.py --line | ./run serve

run the document of one-move.json, the second one in one line. docs/SCENARIO.md describes documents.
Only command words are checked here; what else is wrong with a document is told by the program that
runs it.
"""

import json
import os
import sys

sys.path.insert(0, os.path.join(os.path.dirname(os.path.abspath(__file__)), "..", "python"))
from dsa_model import Command, Operation  # needs no library: only the numbers are used here


def bits(numbers):
    """The set in which bit k names k."""
    return sum(1 << k for k in set(numbers))


def mask(queues):
    """The operand of commands 7 to 10, for queues of one group of sixteen."""
    group = min(queues, default=0) // 16
    if any(queue // 16 != group for queue in queues):
        raise ValueError("a mask names queues of one group of sixteen")
    return group << 16 | bits(queue % 16 for queue in queues)


def word(name, operand=0, interrupt=False):
    """The command word: operand in bits 19:0, number in bits 24:20, interrupt request in bit 31."""
    if not 0 <= operand < 1 << 20:
        raise ValueError("an operand has 20 bits")
    number = Command[name.upper().replace(" ", "_")]
    return interrupt << 31 | number << 20 | operand


def descriptor(operation, size=0, flags=0):
    """The text of the first 36 bytes; all others are zero, and so is the PASID."""
    code = Operation[operation.upper()].to_bytes(1, "little")
    head = bytes(4) + flags.to_bytes(3, "little") + code
    return (head + bytes(24) + size.to_bytes(4, "little")).hex()


def move(size, fence=False):
    return descriptor("memmove", size, int(fence))


class Document:
    """A device and its steps, in order; what is not given is as in most examples."""

    def __init__(self, queues=2, groups=2, engines=2, total_size=8, read_buffers=16, slots=2,
                 max_batch_shift=3, max_xfer_shift=20, capacity=100):
        self.caps = dict(queues=queues, groups=groups, engines=engines, total_size=total_size,
                         read_buffers=read_buffers, slots=slots,
                         max_batch_shift=max_batch_shift, max_xfer_shift=max_xfer_shift)
        self.capacity = capacity
        self.steps = []

    def step(self, do, **fields):
        self.steps.append({"do": do, **fields})

    def note(self, text):
        """A note on the last step, which the program ignores."""
        self.steps[-1]["note"] = text

    def queue(self, queue, size, threshold=0, dedicated=False, priority=1, pasid=0,
              batch=3, xfer=20):
        self.step("queue", queue=queue, size=size, threshold=threshold, dedicated=dedicated,
                  priority=priority, pasid=pasid, batch=batch, xfer=xfer)

    def group(self, group, queues, engines, reserved=0, allowed=4):
        """The queues and engines by their numbers."""
        self.step("group", group=group, queues=bits(queues), engines=bits(engines),
                  reserved=reserved, allowed=allowed)

    def command(self, name, operand=0, interrupt=False):
        """The operand is a queue for command 6, a mask for 7 to 10, a PASID for 11 and 12."""
        self.step("command", word=word(name, operand, interrupt))

    def submit(self, desc, queue=0, pasid=None, limited=True, client=0):
        """By ENQCMD under this PASID, or by MOVDIR64B where none is given."""
        kind, more = ("movdir", {}) if pasid is None else ("enqcmd", {"pasid": pasid})
        self.step(kind, client=client, queue=queue, limited=limited, **more, desc=desc)

    def dispatch(self, engine):
        self.step("dispatch", engine=engine)

    def fetch(self, engine, desc):
        self.step("fetch", engine=engine, desc=desc)

    def start(self, engine):
        self.step("start", engine=engine)

    def finish(self, engine, name, fault=False):
        self.step("finish", engine=engine, name=name, fault=fault)

    def poll(self):
        self.step("poll")

    def clear_error(self):
        self.step("clear")

    def line(self):
        """The document in one line, as `serve` reads it first."""
        return json.dumps({"caps": self.caps, "capacity": self.capacity, "steps": self.steps})

    def __str__(self):
        steps = ",\n".join("    " + json.dumps(step) for step in self.steps)
        head = f'  "caps": {json.dumps(self.caps)},\n  "capacity": {self.capacity},'
        return f'{{\n{head}\n  "steps": [\n{steps}\n  ]\n}}'


if __name__ == "__main__":
    if sys.argv[1:] not in ([], ["--line"]):
        print("usage: python3 write_document.py [--line]", file=sys.stderr)
        sys.exit(2)
    document = Document()
    document.queue(0, size=4, threshold=2)
    document.queue(1, size=2, dedicated=True, pasid=7)
    document.group(0, queues=[0], engines=[0], reserved=4, allowed=8)
    document.group(1, queues=[1], engines=[1], reserved=8, allowed=12)
    document.command("enable device")
    document.command("enable wq", 0)
    document.command("enable wq", 1)
    document.submit(move(4096), queue=0, pasid=5)
    document.dispatch(0)
    document.finish(0, name=0)
    print(document.line() if sys.argv[1:] else document)
