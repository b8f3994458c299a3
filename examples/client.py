"""A client that backs off, on a device over `serve`. python3 examples/client.py [PROGRAM] prints
client.out; PROGRAM is a built dsa_run, and ../run where none is given."""

import json
import os
import sys
from subprocess import PIPE, Popen

from write_document import Document, move

RUN = os.path.join(os.path.dirname(os.path.abspath(__file__)), "..", "run")
DESCRIPTORS, STEPS_OF_WORK, LONGEST_WAIT = 6, 6, 4


class Device:
    """A device in another process: each step is a line to it, and each answer a line from it."""

    def __init__(self, program, document):
        self.process = Popen([program, "serve"], stdin=PIPE, stdout=PIPE, text=True)
        *self.answers, self.ready = self.ask(document.line(), len(document.steps) + 1)

    def ask(self, line, count=1):
        print(line, file=self.process.stdin, flush=True)
        return [self.process.stdout.readline().rstrip("\n") for _ in range(count)]

    def step(self, do, **fields):
        return self.ask(json.dumps({"do": do, **fields}))[0]

    def engine(self):
        """Each `next` is a step of engine 0: it takes a descriptor, works on it, finishes it."""
        while True:
            yield (answer := self.step("dispatch", engine=0))
            if answer.startswith("taken"):
                yield from ["works"] * STEPS_OF_WORK
                yield self.step("finish", engine=0, name=int(answer.split()[1]), fault=False)


def submit(device, engine):
    """Submits until no retry is asked for. Returns how many were."""
    wait, retries, fields = 1, 0, dict(client=0, queue=0, limited=True, pasid=5, desc=move(4096))
    while (answer := device.step("enqcmd", **fields)) == "retry at-limit":
        print(f"{answer}; engine: {', '.join(next(engine) for _ in range(wait))}")
        wait, retries = min(2 * wait, LONGEST_WAIT), retries + 1
    print(answer)
    return retries


if __name__ == "__main__":
    document = Document(slots=1, capacity=1000)
    document.queue(0, size=4, threshold=2)
    document.group(0, queues=[0], engines=[0])
    document.command("Enable Device")
    document.command("Enable WQ", 0)
    device = Device(sys.argv[1] if sys.argv[1:] else RUN, document)
    engine = device.engine()
    retries = sum(submit(device, engine) for _ in range(DESCRIPTORS))
    while next(engine) not in ("idle", "full"):
        pass
    completions = device.process.communicate()[0].count(" completed ")
    print(f"{DESCRIPTORS + retries} submissions, {retries} retries, {completions} completions")
