"""Random scenario documents: a device, its set-up, and steps that make an interesting run.

The author steps the model beside the document that it writes, so that it can name entries that
exist, fetch while a batch is open and poll while a command is active."""
from __future__ import annotations

import json
import random
from typing import Any, Dict, Sequence

from .answers import finish
from .descriptor import (
    ABORT_ALL,
    ABORT_PASID,
    ABORT_WQ,
    BATCH,
    COMPARE,
    DISABLE_DEVICE,
    DISABLE_WQ,
    DRAIN,
    DRAIN_ALL,
    DRAIN_PASID,
    DRAIN_WQ,
    ENABLE_DEVICE,
    ENABLE_WQ,
    FILL,
    MOVE,
    NO_OP,
    OF_MASKS,
    OF_PASIDS,
    RESET_DEVICE,
    RESET_WQ,
)
from .device import OFF, ON
from .run import Document, Run

PASIDS = [5, 5, 5, 6, 6, 7]
SIZES = [1, 4095, 4096, 4097, 8192, 12288, 16384, 70000]
OPERATIONS = [NO_OP] * 4 + [BATCH] * 7 + [DRAIN] * 2 + [MOVE] * 6 + [FILL, COMPARE, COMPARE]
COMMANDS = [
    *([DRAIN_ALL, DRAIN_WQ, DRAIN_PASID] * 4),
    *([ABORT_WQ, ABORT_PASID, DISABLE_WQ, ENABLE_WQ] * 2),
    *(DISABLE_DEVICE, DISABLE_DEVICE, ABORT_ALL, RESET_WQ, RESET_DEVICE, ENABLE_DEVICE),
]


class Author:
    """Writes one document, whose choices are those of a generator of random numbers."""

    def __init__(self, source: random.Random) -> None:
        self.source = source
        document = {"caps": self.caps(), "capacity": self.capacity(), "steps": []}
        self.run = Run(document, keeps_states=False)

    def chance(self, percent: float) -> bool:
        return self.source.random() * 100 < percent

    def one(self, items: Sequence[Any]) -> Any:
        return self.source.choice(items)

    def between(self, least: int, most: int) -> int:
        return self.source.randint(least, most)

    def write(self, do: str, **keys: Any) -> None:
        """Adds a step to the document, and makes it."""
        event = {"do": do, **keys}
        self.run.document["steps"].append(event)
        self.run.make(event)

    # the device

    def caps(self) -> Dict[str, int]:
        """The capabilities of a device, which is mostly small."""
        if self.chance(3):
            sizes = dict(queues=self.between(17, 64), groups=8, engines=self.between(9, 64))
            sizes.update(total_size=self.between(64, 4096), read_buffers=self.between(32, 255))
            return {**sizes, "slots": 16, "max_batch_shift": 10, "max_xfer_shift": 31}
        return {
            "queues": self.between(1, 4),
            "groups": self.between(1, 3),
            "engines": self.between(1, 3),
            "total_size": self.one([4, 8, 8, 12, 16]),
            "read_buffers": self.one([3, 4, 8, 8, 12, 16, 24]),
            "slots": self.one([1, 2, 2, 3, 4, 10]) if self.chance(95) else 16,
            "max_batch_shift": self.one([1, 2, 2, 3, 3, 4]),
            "max_xfer_shift": self.one([12, 13, 16, 20, 31]),
        }

    def capacity(self) -> int:
        if self.chance(88):
            return self.one([100, 500, 1000, 1048576])
        return self.between(0, 12) if self.chance(20) else self.between(15, 60)

    def queue_step(self, number: int) -> None:
        caps = self.run.document["caps"]
        size = self.between(1, max(1, min(16, caps["total_size"] // caps["queues"])))
        values = {
            "size": size,
            "threshold": self.between(1, size),
            "dedicated": self.chance(30),
            "priority": self.between(1, 3),
            "pasid": self.one([0, 5, 6, 7, 1048576 + 5]),
            "batch": self.between(1, caps["max_batch_shift"]),
            "xfer": self.between(max(0, caps["max_xfer_shift"] - 8), caps["max_xfer_shift"]),
        }
        if self.chance(6):
            key = self.one(list(values))
            bad = {"size": [0, 9, 40], "threshold": [0, 9, 70], "priority": [0, 16, 255]}
            bad.update(batch=[0, 11, 255], xfer=[0, 32, 255])
            values[key] = self.one(bad.get(key, [values[key]]))
        self.write("queue", queue=number, **values)

    def group_steps(self) -> None:
        """Writes groups, of which each has queues and engines, or neither."""
        caps = self.run.document["caps"]
        count = min(caps["groups"], caps["queues"], caps["engines"])
        count = 1 if self.chance(40) else self.between(1, count)
        groups = self.source.sample(range(caps["groups"]), count)
        masks = {group: [0, 0] for group in groups}
        for place, key in enumerate(("queues", "engines")):
            numbers = list(range(caps[key]))
            self.source.shuffle(numbers)
            for index, number in enumerate(numbers):
                if self.chance(92) or index < len(groups):
                    group = groups[index] if index < len(groups) else self.one(groups)
                    masks[group][place] |= 1 << number
        left, reserved = caps["read_buffers"] - 4, {}
        for group in groups:
            reserved[group] = self.between(0, max(0, left)) if self.chance(50) else 0
            left -= reserved[group]
        for group in groups:
            most = caps["read_buffers"] - sum(reserved.values()) + reserved[group]
            least = min(most, max(4, reserved[group]))
            self.group_step(group, *masks[group], reserved[group], self.between(least, most))

    def group_step(
        self, group: int, queues: int, engines: int, reserved: int, allowed: int
    ) -> None:
        """Writes a group, now and then with a value that is wrong."""
        if self.chance(5):
            queues = self.one([queues | 1, queues | 16, 0, queues | 1 << 63])
        if self.chance(5):
            engines = self.one([engines | 1, engines | 8, 0, engines | 1 << 63])
        if self.chance(4):
            reserved = self.between(0, 40)
        if self.chance(4):
            allowed = self.between(0, 40)
        keys = dict(queues=queues, engines=engines, reserved=reserved, allowed=allowed)
        self.write("group", group=group, **keys)

    def set_up(self) -> None:
        """Configures and enables a device, mostly all of it."""
        caps = self.run.document["caps"]
        for number in range(caps["queues"]):
            if self.chance(93):
                self.queue_step(number)
        self.group_steps()
        if self.chance(96):
            self.write("command", word=ENABLE_DEVICE << 20)
        for number in range(caps["queues"]):
            if self.chance(93):
                self.write("command", word=ENABLE_WQ << 20 | number)

    def wild_queue_step(self, number: int) -> None:
        values = dict(size=self.between(0, 9), threshold=self.between(0, 9))
        values.update(dedicated=self.chance(30), priority=self.one([0, 1, 15, 16]))
        values.update(pasid=0, batch=self.between(0, 5), xfer=self.one([0, 12, 21, 32]))
        self.write("queue", queue=number, **values)

    def wild_group_step(self, group: int) -> None:
        masks = [self.one([0, 1, 2, 3, 5, 9, 16, 1 << 63]) for _ in range(2)]
        reserved, allowed = self.between(0, 6), self.between(0, 12)
        keys = dict(queues=masks[0], engines=masks[1], reserved=reserved, allowed=allowed)
        self.write("group", group=group, **keys)

    def wild_set_up(self) -> None:
        """Configurations that mostly have several faults, and the commands that find them."""
        caps = self.run.document["caps"]
        for _ in range(self.between(2, 6)):
            for number in range(caps["queues"]):
                if self.chance(50):
                    self.wild_queue_step(number)
            for group in range(caps["groups"]):
                if self.chance(60):
                    self.wild_group_step(group)
            self.write("command", word=ENABLE_DEVICE << 20)
            self.write("dispatch", engine=self.an_engine())
            self.write("command", word=ENABLE_WQ << 20 | self.a_queue())
            if self.chance(20):
                self.write("command", word=RESET_DEVICE << 20)

    # descriptors and submissions

    def descriptor(self, is_member: bool = False, operation: int = -1) -> str:
        """The digits of a descriptor, with other bytes that no line depends on."""
        operation = self.one(OPERATIONS) if operation < 0 else operation
        if is_member and operation in (BATCH, DRAIN) and self.chance(85):
            operation = MOVE
        if self.chance(3):
            operation = self.one([6, 15, 16, 70, 255])
        size = self.one(SIZES)
        if operation == BATCH:
            size = 1024 if self.chance(1) else self.one([2, 2, 2, 3, 3, 4])
        if self.chance(4):
            size = self.one([0, 1, 17, 1 << 20, (1 << 32) - 1])
        if operation in (NO_OP, DRAIN) and self.chance(70):
            size = 0
        fence = self.chance(30 if is_member else 3)
        content = bytearray(64)
        if self.chance(20):
            content = bytearray(self.source.getrandbits(8) for _ in range(64))
        content[4] = content[4] & 0xFE | fence
        content[7] = operation
        content[32:36] = size.to_bytes(4, "little")
        digits = bytes(content).rstrip(b"\0").hex()
        return digits.upper() if self.chance(10) else digits

    def a_queue(self) -> int:
        return 9 if self.chance(1) else self.between(0, len(self.run.device.queues) - 1)

    def an_engine(self) -> int:
        """An engine, mostly one that has something or can take something."""
        device = self.run.device
        numbers = range(len(device.engines))
        busy = [it for it in numbers if device.engines[it].progress or device.qualifying(it)]
        if busy and self.chance(85):
            return self.one(busy)
        return 9 if self.chance(2) else self.one(numbers)

    def submission(self, operation: int = -1) -> None:
        device, queue = self.run.device, self.a_queue()
        on = [number for number, it in enumerate(device.queues) if it.phase == ON]
        if on and self.chance(85):
            queue = self.one(on)
        is_dedicated = device.has_queue(queue) and device.queues[queue].dedicated
        if self.chance(4):
            is_dedicated = not is_dedicated
        keys = dict(client=self.between(0, 2), queue=queue, limited=self.chance(60))
        desc = self.descriptor(operation=operation)
        if is_dedicated:
            self.write("movdir", **keys, desc=desc)
        else:
            pasid = (1 << 20) + 5 if self.chance(2) else self.one(PASIDS)
            self.write("enqcmd", **keys, pasid=pasid, desc=desc)

    # engines

    def is_ready(self, engine: int, name: int) -> bool:
        """Whether an engine can end the entry of a name."""
        event = {"do": "finish", "engine": engine, "name": name, "fault": False}
        return finish(self.run.device, event).kind == "done"

    def finish(self, engine: int) -> None:
        own = self.run.device.engines[engine]
        entries = own.progress + own.members
        wrong = range(self.run.device.next_name + 2)
        ready = [entry for entry in entries if self.is_ready(engine, entry.name)]
        if ready and self.chance(70):
            entries = ready
        name = self.one(wrong) if not entries or self.chance(8) else self.one(entries).name
        number = self.an_engine() if self.chance(3) else engine
        self.write("finish", engine=number, name=name, fault=self.chance(25))

    def engine_step(self) -> None:
        """A step of an engine, mostly one that gets on with what it has."""
        number = self.an_engine()
        if not self.run.device.has_engine(number):
            kind = self.one(["dispatch", "fetch", "start", "finish"])
            more = {"fetch": {"desc": ""}, "finish": {"name": 0, "fault": False}}
            self.write(kind, engine=number, **more.get(kind, {}))
            return
        engine = self.run.device.engines[number]
        weights = [30 if self.run.device.qualifying(number) else 3, 1, 1, 1]
        if engine.note:
            weights[1] = 3 if engine.note.is_fetched else 30
        if engine.waiting_member:
            weights[2] = 40
        if engine.progress or engine.members:
            weights[3] = 35
        kind = self.source.choices(["dispatch", "fetch", "start", "finish"], weights)[0]
        if kind == "fetch":
            self.write("fetch", engine=number, desc=self.descriptor(is_member=True))
        elif kind == "finish":
            self.finish(number)
        else:
            self.write(kind, engine=number)

    # the administrator

    def mask(self, queue: int) -> int:
        """A mask that names a queue, or others of its block."""
        block = queue // 16
        bit, count = queue % 16, len(self.run.device.queues) - 16 * block
        queues = 1 << bit
        if self.chance(15):
            queues = self.between(0, (1 << max(1, min(16, count))) - 1)
        return block << 16 | queues

    def command(self) -> None:
        number = self.one(COMMANDS)
        operand = self.between(0, 3) if self.chance(20) else 0
        if number == ENABLE_WQ:
            operand = self.a_queue()
        if number in OF_MASKS:
            queues = len(self.run.device.queues)
            on = [queue for queue in range(queues) if self.run.device.queues[queue].phase == ON]
            operand = self.mask(self.one(on) if on and self.chance(90) else self.a_queue())
            if self.chance(2):
                operand |= 1 << self.between(4, 19)
        if number in OF_PASIDS:
            operand = self.one(PASIDS)
        word = number << 20 | operand
        if self.chance(2):
            word = self.one([0, 31 << 20, word | 1 << 25, 13 << 20, (1 << 32) - 1])
        if self.chance(3):
            word |= 1 << 31
        self.write("command", word=word)

    def administrator_step(self) -> None:
        device = self.run.device
        choice = self.source.random() * 100
        if choice < 6:
            self.queue_step(9 if self.chance(10) else self.a_queue())
        elif choice < 9:
            self.group_step(self.between(0, len(device.groups)), 1, 1, 0, 4)
        elif choice < 18:
            self.write("clear")
        elif choice < 23:
            self.write("poll")
        else:
            self.command()

    def enable_again(self) -> None:
        """After a disable or a reset: the set-up, or one part of it."""
        device = self.run.device
        if device.phase == OFF and self.chance(60):
            if not any(queue.size for queue in device.queues):
                self.set_up()
            else:
                self.write("command", word=ENABLE_DEVICE << 20)
            return
        off = [number for number, queue in enumerate(device.queues) if queue.phase == OFF]
        if device.phase == ON and off:
            queue = self.one(off)
            if self.chance(50):
                self.write("command", word=ENABLE_WQ << 20 | queue)
            else:
                self.queue_step(queue)

    def step(self) -> None:
        device = self.run.device
        is_off = any(queue.phase == OFF for queue in device.queues)
        if device.active and self.chance(12):
            self.write("poll")
        elif is_off and not device.active and self.chance(18):
            self.enable_again()
        else:
            choice = self.source.random() * 100
            if choice < 27:
                self.submission()
            elif choice < (97 if device.active else 91):
                self.engine_step()
            else:
                self.administrator_step()


def decorated(source: random.Random, document: Document) -> str:
    """The text of a document in another layout, with keys that nothing reads, and with keys that
    come twice, of which the last one counts."""
    steps = []
    for step in document["steps"]:
        members = [f"{json.dumps(key)}: {json.dumps(value)}" for key, value in step.items()]
        if source.random() < 0.3:
            others = ['"note": "a \\"remark\\""', '"Do": [1, {}]', '"pasids": -1.5e3', '"x": null']
            members.insert(source.randint(0, len(members)), source.choice(others))
        if source.random() < 0.2:
            key = source.choice(list(step))
            members.insert(0, f"{json.dumps(key)}: {source.choice(['7', 'null', '{}'])}")
        space = source.choice(["", " ", "\n\t"])
        steps.append("{" + f",{space}".join(members) + "}")
    caps = json.dumps(document["caps"], indent=2)
    last = f'"note": [], "capacity": {document["capacity"]}, "caps": {caps}'
    return f'{{"steps": [{", ".join(steps)}], {last}}}\n'


def document_of(source: random.Random) -> Document:
    """A random document, by the numbers of a generator."""
    author = Author(source)
    if author.chance(8):
        author.wild_set_up()
    elif author.chance(97):
        author.set_up()
    if author.chance(50):
        for _ in range(3):
            author.submission(BATCH)
    for _ in range(author.one([0, 10, 30, 60, 60, 90])):
        author.step()
    return author.run.document
