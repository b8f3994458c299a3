"""Descriptors and command words, as docs/MODEL.md has them in chapters 1 and 6."""
from __future__ import annotations

from typing import List, NamedTuple, Optional

NO_OP, BATCH, DRAIN, MOVE, FILL, COMPARE = range(6)
OPERATIONS = ["no-op", "batch", "drain", "move", "fill", "compare"]
SUCCESS, PAGE_FAULT, MEMBER_FAILED = 0x01, 0x03, 0x05
UNSUPPORTED, BAD_FENCE, BAD_SIZE, BAD_COUNT = 0x10, 0x11, 0x13, 0x14
BUFFER_BYTES, MOST_BUFFERS = 4096, 4
PASIDS = 1 << 20

(
    ENABLE_DEVICE,
    DISABLE_DEVICE,
    DRAIN_ALL,
    ABORT_ALL,
    RESET_DEVICE,
    ENABLE_WQ,
    DISABLE_WQ,
    DRAIN_WQ,
    ABORT_WQ,
    RESET_WQ,
    DRAIN_PASID,
    ABORT_PASID,
) = range(1, 13)
COMMANDS = [
    "",
    "enable-device",
    "disable-device",
    "drain-all",
    "abort-all",
    "reset-device",
    "enable-wq",
    "disable-wq",
    "drain-wq",
    "abort-wq",
    "reset-wq",
    "drain-pasid",
    "abort-pasid",
]
OF_MASKS = (DISABLE_WQ, DRAIN_WQ, ABORT_WQ, RESET_WQ)
OF_PASIDS = (DRAIN_PASID, ABORT_PASID)
DRAINS = (DRAIN_ALL, DRAIN_WQ, DRAIN_PASID)
DISABLES = (DISABLE_DEVICE, DISABLE_WQ)
ABORTS = (ABORT_ALL, ABORT_WQ, ABORT_PASID)
RESETS = (RESET_DEVICE, RESET_WQ)


def counted(count: int, one: str, many: str = "") -> str:
    """A number with what it counts: the plural is regular where none is named."""
    return f"{count} {one if count == 1 else many or one + 's'}"


class Descriptor(NamedTuple):
    """What the model reads of 64 bytes."""

    operation: int
    size: int
    fence: bool
    pasid: int

    @staticmethod
    def of(digits: str, pasid: Optional[int] = None) -> Descriptor:
        """The descriptor of bytes in hexadecimal, with another PASID where one is named."""
        content = bytes.fromhex(digits).ljust(64, b"\0")
        own = int.from_bytes(content[0:4], "little") if pasid is None else pasid
        size = int.from_bytes(content[32:36], "little")
        return Descriptor(content[7], size, content[4] % 2 == 1, own % PASIDS)

    @property
    def is_transfer(self) -> bool:
        return self.operation in (MOVE, FILL, COMPARE)

    @property
    def words(self) -> str:
        """The operation with what its size counts."""
        if self.is_transfer:
            what = f"{OPERATIONS[self.operation]} {counted(self.size, 'byte')}"
        elif self.operation == BATCH:
            what = f"batch of {self.size}"
        elif self.operation < len(OPERATIONS):
            what = OPERATIONS[self.operation]
        else:
            what = f"operation 0x{self.operation:x}"
        return what + (" fence" if self.fence else "")


class Command(NamedTuple):
    """A command of the table, with its operand."""

    number: int
    operand: int

    @staticmethod
    def of(word: int) -> Optional[Command]:
        """The command of a word, or None where the word is no command."""
        number = word >> 20 & 31
        if word >> 25 & 63 or not 1 <= number <= ABORT_PASID:
            return None
        return Command(number, word % PASIDS)

    @property
    def name(self) -> str:
        return COMMANDS[self.number]

    @property
    def words(self) -> str:
        """The name, and the operand where the command has one."""
        if self.number in OF_MASKS:
            return f"{self.name} 0x{self.operand:x}"
        if self.number == ENABLE_WQ or self.number in OF_PASIDS:
            return f"{self.name} {self.operand}"
        return self.name

    @property
    def queues(self) -> List[int]:
        """The queues that the operand names, of a command on queues."""
        if self.number == ENABLE_WQ:
            return [self.operand]
        first = (self.operand >> 16) * 16
        return [first + bit for bit in range(16) if self.operand >> bit & 1]
