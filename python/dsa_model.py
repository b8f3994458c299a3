"""The shared part of the Intel Data Streaming Accelerator (DSA), as a model that a program steps.

One file over ctypes, for tests of drivers and simulators in Python. It calls libdsa_model.so.1, the
project's C library. dsa_model.h describes each call, docs/PYTHON.md this module.

    import dsa_model as dsa

    caps = dsa.Caps(queues=1, groups=1, engines=1, total_size=4, read_buffers=4, slots=1,
                    max_batch_shift=1, max_xfer_shift=20)
    with dsa.Device(caps, capacity=100) as device:
        device.write_queue(0, dsa.Queue(size=4, threshold=1, dedicated=False, priority=1,
                                        max_batch_shift=1, max_xfer_shift=20))
        device.write_group(0, dsa.Group(queues=1, engines=1, reserved=0, allowed=4))
        device.command(dsa.command_word(dsa.Command.ENABLE_DEVICE))
        device.command(dsa.command_word(dsa.Command.ENABLE_WQ, 0))
        move = dsa.descriptor(dsa.Operation.MEMMOVE, size=4096)
        answer = device.enqcmd(0, 0, dsa.Portal.LIMITED, 5, move)
        assert answer.kind == dsa.Kind.ACCEPTED and answer.zf is False

Arguments come in the order of the header. The device answers a number that it does not have, as a
queue, an engine or a portal. An argument of another type raises TypeError, and a number that its C
field cannot hold raises ValueError; no call was made then.

Calls on one device have to come one at a time. ctypes.CDLL lets go of the interpreter lock during a
call; this module loads the library with ctypes.PyDLL, which keeps it, so the calls of Python
threads come one after another. Where calls belong together, as a dispatch and the finish of what it
took, take a lock of your own around them. In a Python that was built without the interpreter lock
(3.13t), take one around each call on a device that threads share.
"""

from __future__ import annotations

import ctypes
import functools
import operator
import os
import re
import struct
import weakref
from enum import IntEnum, IntFlag
from typing import Any, Dict, Iterable, List, NamedTuple, NoReturn, Optional, Tuple, Type, TypeVar
from typing import Union

VERSION = 2000  # of the header that this module was written for: 0.2.0
LIBRARY = "libdsa_model.so.1"
Bytes = Union[bytes, bytearray, memoryview]


class DsaError(Exception):
    """What this module raises, beside TypeError and ValueError for arguments."""


class LibraryNotFound(DsaError):
    """There is no library, or it cannot be loaded; the text says where it was looked for."""


class WrongLibrary(DsaError):
    """The library is of another version, or lacks a call."""


class ClosedDevice(DsaError):
    """The device was closed."""


class OpenError(DsaError):
    """No device was opened; `result`, an OpenResult, has the number and the name of the fault."""

    def __init__(self, result: OpenResult) -> None:
        super().__init__(f"no device was opened: {result.value} {result.name}")
        self.result = result


class NotSaved(DsaError):
    """The device is not saved, since its history began anew."""


class LoadError(DsaError):
    """No device was loaded; `result`, a LoadResult, has the number and the name of the fault."""

    def __init__(self, result: LoadResult) -> None:
        super().__init__(f"no device was loaded: {result.value} {result.name}")
        self.result = result


# ---- numbers with names, as in the header ----

# The kinds of answers; the properties of Answer say which kinds have which numbers.
Kind = IntEnum("Kind", "NO_DEVICE ACCEPTED RETRY DROPPED TAKEN IDLE FETCHED NO_BATCH ALL_FETCHED "
               "STARTED FENCE_WAIT NO_BUFFERS ABANDONED NOTHING DONE NOT_READY GONE ENDED ACTIVE "
               "REFUSED FINISHED WRITTEN CLEARED FULL BAD_ARGUMENT", start=0)

# Why a submission was not accepted, and why a command or a write was refused (docs/MODEL.md).
Cause = IntEnum("Cause", "AT_LIMIT NOT_ENABLED WRONG_KIND")
Fault = IntEnum("Fault", "SizesTooLarge TwoGroups ReservedTooMany AllowedOutOfRange "
                "GroupWithoutEngine GroupWithoutQueue SizeZero PriorityZero ThresholdZero "
                "ThresholdAboveSize BatchTooLarge NoGroup BadCommand BadQueue Locked WrongState "
                "Busy PriorityTooLarge TransferTooLarge BadIndex")

Portal = IntEnum("Portal", "LIMITED UNLIMITED", start=0)
Outcome = IntEnum("Outcome", "SUCCESS PAGE_FAULT", start=0)
Phase = IntEnum("Phase", "OFF ON STOPPING", start=0)
EndingKind = IntEnum("EndingKind", "NOT_ENDED COMPLETED ABORTED BEHIND_FENCE", start=0)
OpenResult = IntEnum("OpenResult", {
    "OPENED": 0, "BAD_CAPACITY": 2, "BAD_STORE": 3, "OUT_OF_MEMORY": 4, "ALREADY_OPEN": 5,
    "BAD_QUEUES": 6, "BAD_GROUPS": 7, "BAD_ENGINES": 8, "BAD_TOTAL_SIZE": 9, "BAD_READ_BUFFERS": 10,
    "BAD_SLOTS": 11, "BAD_MAX_BATCH_SHIFT": 12, "BAD_MAX_XFER_SHIFT": 13})
LoadResult = IntEnum("LoadResult", "LOADED TRUNCATED BAD_MAGIC BAD_VERSION BAD_LENGTH BAD_CHECKSUM "
                     "BAD_CAPS BAD_CAPACITY OUT_OF_MEMORY BAD_EVENT BAD_STEP ALREADY_OPEN", start=0)
AnewResult = IntEnum("AnewResult", "BEGUN NO_DEVICE NO_MEMORY", start=0)
Command = IntEnum("Command", "ENABLE_DEVICE DISABLE_DEVICE DRAIN_ALL ABORT_ALL RESET_DEVICE "
                  "ENABLE_WQ DISABLE_WQ DRAIN_WQ ABORT_WQ RESET_WQ DRAIN_PASID ABORT_PASID")
# The kinds of reasons; the header says which fields each has.
ReasonKind = IntEnum("ReasonKind", "NONE HISTORY_FULL NAMES_SHORT NO_SUCH_QUEUE NO_SUCH_ENGINE "
                      "QUEUE_NOT_ON QUEUE_DEDICATED QUEUE_SHARED PORTAL_AT_LIMIT "
                      "ENGINE_IDLE ENGINE_WITHOUT_GROUP ENGINE_WITHOUT_QUEUE "
                      "QUEUE_EMPTY NO_SLOT FRONT_LACKS_BUFFERS OTHER_BATCH "
                      "OTHER_DRAIN NO_BATCH ALL_FETCHED BATCH_CLOSED NO_MEMBER "
                      "FENCE_WAITS FENCE_FAILED FENCE_FAILED_FORGOTTEN "
                      "MEMBER_LACKS_BUFFERS CELL_EMPTY CELL_OF_OTHER ELSEWHERE "
                      "NOT_STARTED MEMBERS_LEFT STILL_TO_FETCH DRAIN_WAITS COMPLETED "
                      "ABORTED ABANDONED NO_SUCH_NAME NOT_SUPPORTED FENCE_OUTSIDE "
                      "SIZE_OUTSIDE COUNT_OUTSIDE MEMBERS_FAILED "
                      "MEMBERS_FAILED_FORGOTTEN PAGE_FAULT COMMAND_ACTIVE "
                      "COMMAND_OVER NO_QUEUE_NAMED WRONG_QUEUE_PHASE "
                      "WRONG_DEVICE_PHASE WOULD_REMOVE WOULD_WAIT NO_COMMAND "
                      "COMMAND_WAITS NOTHING_NOTED GROUP_NAMES_NO_QUEUE "
                      "GROUP_NAMES_NO_ENGINE SIZES_TOO_LARGE QUEUE_IN_TWO_GROUPS "
                      "ENGINE_IN_TWO_GROUPS RESERVED_TOO_MANY ALLOWED_BELOW_RESERVED "
                      "ALLOWED_ABOVE_REST ALLOWED_BELOW_NEED GROUP_WITHOUT_ENGINE "
                      "GROUP_WITHOUT_QUEUE SIZE_ZERO PRIORITY_ZERO PRIORITY_TOO_LARGE "
                      "THRESHOLD_ZERO THRESHOLD_ABOVE_SIZE BATCH_TOO_LARGE "
                      "TRANSFER_TOO_LARGE QUEUE_WITHOUT_GROUP", start=0)
ListKind = IntEnum("ListKind", "NONE QUEUE ENGINE BATCH", start=0)
EventKind = IntEnum("EventKind", "ENQCMD MOVDIR64B DISPATCH FETCH START FINISH COMMAND POLL "
                    "WRITE_QUEUE WRITE_GROUP CLEAR_ERROR")

# The next three have the names of linux/idxd.h, with DSA_COMP_, DSA_OPCODE_ and IDXD_OP_FLAG_
# before them. Of the flags only the fence has an effect.
Status = IntEnum("Status", {"NONE": 0x00, "SUCCESS": 0x01, "PAGE_FAULT_NOBOF": 0x03,
                            "BATCH_FAIL": 0x05, "BAD_OPCODE": 0x10, "INVALID_FLAGS": 0x11,
                            "XFER_ERANGE": 0x13, "DESC_CNT_ERANGE": 0x14})
Operation = IntEnum("Operation", "NOOP BATCH DRAIN MEMMOVE MEMFILL COMPARE", start=0)
Flag = IntFlag("Flag", {"FENCE": 0x0001, "BOF": 0x0002, "CRAV": 0x0004, "RCR": 0x0008,
                        "RCI": 0x0010, "CRSTS": 0x0020, "CR": 0x0080, "CC": 0x0100,
                        "ADDR1_TCS": 0x0200, "ADDR2_TCS": 0x0400, "ADDR3_TCS": 0x0800,
                        "CR_TCS": 0x1000, "STORD": 0x2000, "DRDBK": 0x4000, "DSTS": 0x8000})

# ---- what goes in and what comes out: the structs of the header ----


class Caps(NamedTuple):
    """What a device has."""

    queues: int  # work queues, 1 to 64
    groups: int  # 1 to 8
    engines: int  # 1 to 64
    total_size: int  # entries that all queues together may hold, 1 to 4096
    read_buffers: int  # 1 to 255
    slots: int  # submitted descriptors that an engine may have in progress, 1 to 16
    max_batch_shift: int  # a batch has at most 2 to this many members, 1 to 10
    max_xfer_shift: int  # a transfer has at most 2 to this many bytes, 0 to 31


class Queue(NamedTuple):
    """The configuration of a work queue."""

    size: int
    threshold: int  # of the limited portal; a dedicated queue ignores it
    dedicated: bool
    priority: int  # 1 to 15
    max_batch_shift: int
    max_xfer_shift: int
    pasid: int = 0  # of a dedicated queue; 20 bits


class Group(NamedTuple):
    """The configuration of a group; bit_set makes a set of numbers."""

    queues: int  # bit k for queue k
    engines: int  # bit k for engine k
    reserved: int  # read buffers that are kept for the group
    allowed: int  # read buffers that it may have in use


class Limits(NamedTuple):
    """What a queue allows its descriptors, as powers of two."""

    max_batch_shift: int
    max_xfer_shift: int


class Answer(NamedTuple):
    """What a call did. Numbers that its kind does not have are 0."""

    kind: Kind
    name: int
    cell: int
    more: int

    @property
    def zf(self) -> Optional[bool]:
        """ENQCMD's zero flag: False: accepted, True: come again, None: no instruction was made."""
        return {Kind.ACCEPTED: False, Kind.RETRY: True}.get(self.kind)

    @property
    def cause(self) -> Optional[Cause]:
        """Of RETRY, DROPPED and CLEARED."""
        caused = self.kind in (Kind.RETRY, Kind.DROPPED, Kind.CLEARED)
        return Cause(self.more) if caused else None

    @property
    def queue(self) -> Optional[int]:
        """Of TAKEN, the queue that the entry came from; of CLEARED, the queue of the error."""
        return {Kind.TAKEN: self.more, Kind.CLEARED: self.name}.get(self.kind)

    @property
    def overflow(self) -> Optional[bool]:
        """Of CLEARED: whether more were dropped after the noted one."""
        return self.cell == 1 if self.kind == Kind.CLEARED else None

    @property
    def lost(self) -> Optional[int]:
        """How many entries this step aborted (ENDED) or abandoned (ABANDONED)."""
        return self.more if self.kind in (Kind.ENDED, Kind.ABANDONED) else None

    @property
    def status(self) -> Optional[Status]:
        """Of DONE."""
        return Status(self.more) if self.kind == Kind.DONE else None

    @property
    def fault(self) -> Optional[Fault]:
        """Of REFUSED."""
        return Fault(self.more) if self.kind == Kind.REFUSED else None


class Ending(NamedTuple):
    """How an entry ended: its fate."""

    kind: EndingKind
    name: int
    parent: Optional[int]  # the name of its batch; None: it was submitted
    number: int  # the status, or the number of the command that aborted it

    @property
    def status(self) -> Optional[Status]:
        """Of COMPLETED."""
        return Status(self.number) if self.kind == EndingKind.COMPLETED else None

    @property
    def command(self) -> Optional[Command]:
        """Of ABORTED: the command that aborted it."""
        return Command(self.number) if self.kind == EndingKind.ABORTED else None


class Entry(NamedTuple):
    """A descriptor that the device holds. Cell and name are its ticket, which finish takes."""

    name: int
    cell: int
    parent: Optional[int]  # the name of its batch; None: it was submitted
    pasid: int
    flags: int  # 24 bits
    size: int  # bytes; in a Batch the number of its members
    queue: int  # that it, or its batch, was submitted to
    operation: int
    running: bool


# The call of a stored step. The header says which kind of event has which numbers; the others are
# 0, and `command` is None.
Event = NamedTuple("Event", [
    ("kind", EventKind), ("name", int), ("cell", int), ("pasid", int), ("flags", int),
    ("size", int), ("operand", int), ("descriptor_pasid", int), ("client", int), ("queue", int),
    ("group", int), ("engine", int), ("operation", int), ("portal", Portal),
    ("outcome", Outcome), ("command", Optional[Command])])

# The batch that an engine works on: its name; how many members it has, and how many of these were
# fetched; whether a member was not successful; whether the rest was abandoned behind a fence.
Batch = NamedTuple("Batch", [("name", int), ("count", int), ("fetched", int), ("failed", bool),
                             ("closed", bool)])

# Why `step` would answer an event as it would: a kind, and its numbers; the others are 0.
Reason = NamedTuple("Reason", [
    ("kind", ReasonKind), ("queue", int), ("group", int), ("engine", int), ("list", ListKind),
    ("name", int), ("other", int), ("count", int), ("limit", int), ("needed", int),
    ("in_use", int), ("buffers", int), ("kept", int), ("phase", int), ("device_phase", int),
    ("portal", int), ("command", int), ("operand", int), ("operation", int), ("status", int),
    ("shift", int)])

# ---- descriptors and command words ----


def bit_set(numbers: Iterable[int]) -> int:
    """The set of these queues or engines, as a Group has it: bit k for number k."""
    return sum(1 << number for number in set(numbers))


def queue_mask(queues: Iterable[int]) -> int:
    """The operand of the commands 7 to 10, which names queues of one group of sixteen."""
    named = sorted(queues)
    high = named[0] // 16 if named else 0
    if any(queue // 16 != high for queue in named) or not 0 <= high < 16:
        raise ValueError(f"queues are {named}, those of one group of sixteen below 256 are wanted")
    return high << 16 | bit_set(queue % 16 for queue in named)


def command_word(command: int, operand: int = 0, *, interrupt: bool = False) -> int:
    """The word that Device.command takes; a command of 5 bits that is none is refused there."""
    word = _bits("command", 5, command) << 20 | _bits("operand", 20, operand)
    return word | _bits("interrupt", 1, interrupt) << 31


def descriptor(operation: int, *, flags: int = 0, pasid: int = 0, size: int = 0,
               completion_addr: int = 0, src_addr: int = 0, dst_addr: int = 0) -> bytes:
    """The 64 bytes of a descriptor, by the layout of the Intel DSA specification.

    In a Batch the size is the number of its descriptors. The addresses have no effect, and neither
    has this PASID: an entry has that of ENQCMD, of its dedicated queue or of its batch.
    """
    return struct.pack(
        "<IIQQQI28x", _bits("pasid", 20, pasid),
        _bits("flags", 24, flags) | _bits("operation", 8, operation) << 24,
        _bits("completion_addr", 64, completion_addr), _bits("src_addr", 64, src_addr),
        _bits("dst_addr", 64, dst_addr), _bits("size", 32, size))


# ---- the C library ----

# The types of C: how many bits a number has, and what ctypes and C call it.
_TYPES: Dict[str, Tuple[int, Any, str]] = {
    "B": (8, ctypes.c_uint8, "uint8_t"), "H": (16, ctypes.c_uint16, "uint16_t"),
    "I": (32, ctypes.c_uint32, "uint32_t"), "Q": (64, ctypes.c_uint64, "uint64_t"),
    "?": (1, ctypes.c_bool, "bool"), "P": (64, ctypes.c_void_p, "void *"),
    "D": (512, ctypes.c_uint8 * 64, "uint8_t [64]"), "void": (0, None, "void"),
    "char*": (0, ctypes.c_char_p, "char *"),
    "I*": (0, ctypes.POINTER(ctypes.c_uint32), "uint32_t *"),
    "B*": (0, ctypes.POINTER(ctypes.c_uint8), "uint8_t *"),
    "bytes*": (0, ctypes.c_char_p, "const uint8_t *"),
}

# The structs of the header, each with its fields and their types.
_Handle = NamedTuple("_Handle", [("at", int), ("holds", bool)])
_Descriptor = NamedTuple("_Descriptor", [("bytes", bytes)])
_LAYOUTS: Dict[str, Tuple[Any, str]] = {
    "dsa_model": (_Handle, "P?"), "dsa_descriptor": (_Descriptor, "D"),
    "dsa_caps": (Caps, "HHHHHHBB"), "dsa_queue": (Queue, "HHBBBBI"),
    "dsa_group": (Group, "QQHH"), "dsa_limits": (Limits, "BB"), "dsa_answer": (Answer, "IIII"),
    "dsa_ending": (Ending, "IIII"), "dsa_entry": (Entry, "IIIIIIHBB"),
    "dsa_batch": (Batch, "IIIBB"), "dsa_event": (Event, "IIIIIIIIHHHHBBBB"),
    "dsa_reason": (Reason, "I" * 21),
}
_STRUCTS: Dict[str, Any] = {
    name: type(name, (ctypes.Structure,),
               {"_fields_": [(field, _TYPES[it][1]) for field, it in zip(kind._fields, types)]})
    for name, (kind, types) in _LAYOUTS.items()
}

# The calls of the header, by what they give. To a struct a pointer is passed; a call writes what
# has > before its type. A step takes a handle that it may change, a read one that it does not.
_HEADER = {
    "dsa_answer": """enqcmd(handle client:H queue:H portal:I pasid:I descriptor:dsa_descriptor)
        movdir64b(handle client:H queue:H portal:I descriptor:dsa_descriptor)
        dispatch(handle engine:H) dispatch_from(handle engine:H queue:H)
        fetch(handle engine:H descriptor:dsa_descriptor)
        start(handle engine:H) finish(handle engine:H cell:I name:I outcome:I)
        command(handle word:I) poll(handle) write_queue(handle queue:H config:dsa_queue)
        write_group(handle group:H config:dsa_group) clear_error(handle)
        step(handle event:dsa_event) noted(read)
        history_answer(read position:Q)""",
    "dsa_ending": "fate_at(read position:Q) fate_of(read name:I)",
    "Q": """capacity(read) occupancy(read queue:H) used(read group:H) held(read)
        next_name(read) awaited(read) history_length(read) fates_length(read)
        in_progress(read engine:H) members(read engine:H) size(caps:dsa_caps capacity:Q)
        awaited_names(read names:I* count:Q) why(read event:dsa_event buffer:char* size:Q)
        room(read) saved_size(read) save(read buffer:B* size:Q)""",
    "I": """open(handle caps:dsa_caps capacity:Q) load(handle bytes:bytes* size:Q)
        cell_count(caps:dsa_caps)
        list_count(caps:dsa_caps) caps_of(read caps:>dsa_caps)
        entry_in(read cell:I entry:>dsa_entry) holds(read cell:I name:I)
        history_is_full(read) active(read) phase(read) queue_phase(read queue:H)
        queue_config(read queue:H config:>dsa_queue) group_config(read group:H config:>dsa_group)
        waiting_at(read queue:H place:Q entry:>dsa_entry)
        in_progress_at(read engine:H place:Q entry:>dsa_entry)
        member_at(read engine:H place:Q entry:>dsa_entry)
        batch(read engine:H batch:>dsa_batch) history_event(read position:Q event:>dsa_event)
        history_queue_config(read position:Q config:>dsa_queue)
        history_group_config(read position:Q config:>dsa_group)
        check(descriptor:dsa_descriptor limits:dsa_limits member:I)
        need(descriptor:dsa_descriptor limits:dsa_limits member:I)
        status(descriptor:dsa_descriptor limits:dsa_limits member:I outcome:I) version()
        begin_anew(handle keep_fates:I) is_anew(read)
        reason_of(read event:dsa_event reason:>dsa_reason)
        queue_reason(read engine:H queue:H reason:>dsa_reason)""",
    "void": "close(handle) image(descriptor:dsa_descriptor pasid:I image:>dsa_descriptor)",
}
_CALLS: Dict[str, Tuple[str, List[Tuple[str, str]]]] = {
    f"dsa_{name}": (result, re.findall(r"(\w+):(\S+)", parameters))
    for result, calls in _HEADER.items()
    for name, parameters in re.findall(r"(\w+)\((.*?)\)",
                                       calls.replace("(handle", "(handle:>dsa_model")
                                       .replace("(read", "(handle:dsa_model"))
}
_NO_NUMBER = (1 << 32) - 1  # DSA_NO_NUMBER
_NONE = (1 << 64) - 1  # DSA_NONE
_NO_MEMORY = _NONE - 1  # DSA_NO_MEMORY
_NOT_SAVED = _NONE - 2  # DSA_NOT_SAVED
_NO_PARENT = (1 << 32) - 1
_TRUTHS = ("dedicated", "member", "interrupt", "keep_fates")  # these take True and False


def _places() -> List[str]:
    """Beside the module, in an installed prefix, in an unpacked release, in the repository."""
    folder = os.path.dirname(os.path.realpath(__file__))
    beside = (".", "../../../lib", "../lib", "../out")
    return [os.path.normpath(os.path.join(folder, place, LIBRARY)) for place in beside]


def _find() -> str:
    """The file of the library, or its name alone for the loader's own search."""
    named = os.environ.get("DSA_MODEL_LIBRARY")
    if named:
        return os.path.abspath(named)
    return next(filter(os.path.isfile, _places()), LIBRARY)


def _load(path: str) -> Dict[str, Any]:
    """The calls of the library in this file, by their names."""
    try:
        library = ctypes.PyDLL(path)
    except OSError as error:
        failed = [f"{path} cannot be loaded: {error}"]
        if path == LIBRARY:
            failed = [f"{LIBRARY} was not found. It was looked for in this order:",
                      "  the environment variable DSA_MODEL_LIBRARY, which is not set",
                      *(f"  {place}" for place in _places()), f"  the loader's search: {error}"]
        failed += ["Build the library with ./lib, or name its file in DSA_MODEL_LIBRARY."]
        raise LibraryNotFound("\n".join(failed)) from None
    found = library.dsa_version() if hasattr(library, "dsa_version") else None
    if found is None or found // 1000 != VERSION // 1000:
        has = "no version" if found is None else f"version {_version_text(found)}"
        raise WrongLibrary(f"{path} has {has}; this module is for {_version_text(VERSION)}, of "
                           "which only the last number may be another")
    missing = [name for name in _CALLS if not hasattr(library, name)]
    if missing:
        raise WrongLibrary(f"{path} has no call {missing[0]}")
    for name, (result, parameters) in _CALLS.items():
        call, kinds = getattr(library, name), [kind.lstrip(">") for _, kind in parameters]
        call.restype = _STRUCTS[result] if result in _STRUCTS else _TYPES[result][1]
        call.argtypes = [ctypes.POINTER(_STRUCTS[kind]) if kind in _STRUCTS else _TYPES[kind][1]
                         for kind in kinds]
    return {name: getattr(library, name) for name in _CALLS}


def _version_text(number: int) -> str:
    return f"{number // 1000000}.{number // 1000 % 1000}.{number % 1000}"


@functools.lru_cache(maxsize=None)
def _calls() -> Dict[str, Any]:
    return _load(_find())


def _bits(name: str, bits: int, value: object) -> int:
    """The value, where it is a number of so many bits."""
    try:
        if isinstance(value, bool) and name not in _TRUTHS:
            raise TypeError
        number = operator.index(value)  # type: ignore[arg-type]
    except TypeError:
        raise TypeError(f"{name} is {value!r}, a whole number is wanted") from None
    if not 0 <= number < 1 << bits:
        raise ValueError(f"{name} is {number}, 0 to {(1 << bits) - 1} is wanted")
    return number


def _passed(name: str, kind: str, value: Any) -> Any:
    """An argument as ctypes takes it: a number that fits, or a pointer to a struct."""
    if kind.endswith("*"):
        return value
    if kind in _TYPES:
        return _bits(name, _TYPES[kind][0], value)
    if kind.startswith(">") or kind == "dsa_model":
        return ctypes.byref(value)
    if kind == "dsa_descriptor":
        if not isinstance(value, (bytes, bytearray, memoryview)):
            raise TypeError(f"{name} is {value!r}, 64 bytes are wanted")
        content = bytes(value)
        if len(content) != 64:
            raise ValueError(f"{name} has {len(content)} bytes, 64 are wanted")
        return ctypes.byref(_STRUCTS[kind].from_buffer_copy(content))
    wanted, types = _LAYOUTS[kind]
    if not isinstance(value, wanted):
        raise TypeError(f"{name} is {value!r}, a {wanted.__name__} is wanted")
    numbers = (_bits(field, _TYPES[it][0], number)
               for field, it, number in zip(wanted._fields, types, value))
    return ctypes.byref(_STRUCTS[kind](*numbers))


def _call(name: str, *arguments: Any) -> Any:
    """Makes the call, once all arguments are right."""
    passed = [_passed(parameter, kind, value)
              for (parameter, kind), value in zip(_CALLS[name][1], arguments)]
    return _calls()[name](*passed)


def _parent(name: int) -> Optional[int]:
    return None if name == _NO_PARENT else name


# How the fields of the structs that a call gives are read; the others are whole numbers.
_READ_AS: Dict[Any, Dict[str, Any]] = {
    Answer: {"kind": Kind}, Ending: {"kind": EndingKind, "parent": _parent},
    Entry: {"parent": _parent, "running": bool}, Queue: {"dedicated": bool},
    Batch: {"failed": bool, "closed": bool},
    Event: {"kind": EventKind, "portal": Portal, "outcome": Outcome,
            "command": lambda number: Command(number) if number else None},
    Reason: {"kind": ReasonKind, "list": ListKind},
}
_READERS: Dict[Any, List[Tuple[str, Any]]] = {
    kind: [(field, _READ_AS.get(kind, {}).get(field, int)) for field in kind._fields]
    for kind, _ in _LAYOUTS.values()
}
_T = TypeVar("_T")


def _read(kind: Type[_T], found: Any) -> _T:
    """A struct that the library gave, as its named tuple."""
    return kind(*[read(getattr(found, field)) for field, read in _READERS[kind]])


def _said(event: Any) -> Any:
    """The event as C reads it: of no command it is the number 0."""
    return event._replace(command=event.command or 0) if isinstance(event, Event) else event


# ---- what needs no device ----


def check(descriptor: Bytes, limits: Limits, member: bool = False) -> Status:
    """The status of the first failed check, else Status.NONE."""
    return Status(_call("dsa_check", descriptor, limits, member))


def need(descriptor: Bytes, limits: Limits, member: bool = False) -> int:
    """How many read buffers the descriptor holds while it runs."""
    return int(_call("dsa_need", descriptor, limits, member))


def status(descriptor: Bytes, limits: Limits, member: bool, outcome: int) -> Status:
    """The status that the descriptor completes with; Status.NONE where the outcome is neither."""
    return Status(_call("dsa_status", descriptor, limits, member, outcome))


def image(descriptor: Bytes, pasid: int) -> bytes:
    """The 64 bytes that ENQCMD writes for this descriptor under this PASID."""
    written = _STRUCTS["dsa_descriptor"]()
    _call("dsa_image", descriptor, pasid, written)
    return bytes(written)


def size(caps: Caps, capacity: int) -> int:
    """How many bytes a device takes; 0 where these capabilities or this capacity are refused."""
    return int(_call("dsa_size", caps, capacity))


def cell_count(caps: Caps) -> int:
    """How many cells a device has, numbered from 0; 0 where these capabilities are refused."""
    return int(_call("dsa_cell_count", caps))


def list_count(caps: Caps) -> int:
    """How many lists a device has; 0 where these capabilities are refused."""
    return int(_call("dsa_list_count", caps))


def version() -> int:
    """The version of the library: 1000000 * first + 1000 * second + third number."""
    return int(_call("dsa_version"))


# ---- the device ----


def _close(handle: Any) -> None:
    if handle.holds:
        _call("dsa_close", handle)


class Device:
    """A device of these capabilities, off, whose history has room for `capacity` steps.

    At most 1,048,576 steps. Their memory is taken here; `close` frees it, and a second `close` does
    nothing. A device is a context manager, and it is closed once nothing refers to it. Each method
    of a closed device but `close` raises ClosedDevice. A device is never copied. The first lines of
    this module say how threads share one. Where the history is full every step is answered FULL,
    until `begin_anew` makes room.
    """

    __slots__ = ("_handle", "_close", "__weakref__")

    def __init__(self, caps: Caps, capacity: int) -> None:
        self._hold()
        result = OpenResult(_call("dsa_open", self._handle, caps, capacity))
        if result != OpenResult.OPENED:
            raise OpenError(result)

    def _hold(self) -> None:
        """Takes a closed handle, which is closed again with this object."""
        self._handle = _STRUCTS["dsa_model"](None, False)
        self._close = weakref.finalize(self, _close, self._handle)
        self._close.atexit = False  # the system takes the memory; a forked child may not close

    @classmethod
    def load(cls, saved: Bytes) -> Device:
        """The device that these bytes save, as `save` gives them; else LoadError is raised."""
        if not isinstance(saved, (bytes, bytearray, memoryview)):
            raise TypeError(f"saved is {saved!r}, bytes are wanted")
        content, device = bytes(saved), cls.__new__(cls)
        device._hold()
        result = LoadResult(_call("dsa_load", device._handle, content, len(content)))
        if result != LoadResult.LOADED:
            raise LoadError(result)
        return device

    def __enter__(self) -> Device:
        self.held()  # raises ClosedDevice
        return self

    def __exit__(self, *raised: object) -> None:
        self.close()

    def __reduce__(self) -> NoReturn:
        raise TypeError("a device is never copied")

    def close(self) -> None:
        """Closes the device and frees its memory; on a closed device it does nothing."""
        self._close()

    @property
    def closed(self) -> bool:
        return not self._handle.holds

    def begin_anew(self, keep_fates: bool) -> None:
        """Begins the history anew at the present state: no step is stored then. What is held and
        active stays, and names go on. The fates of what ended are kept, or forgotten. MemoryError:
        memory for the fates to come was refused, and nothing changed."""
        result = AnewResult(self._call("dsa_begin_anew", keep_fates))
        if result == AnewResult.NO_MEMORY:
            raise MemoryError("there is no memory for the fates to come")

    def _call(self, name: str, *arguments: Any) -> Any:
        # A call on a closed handle is harmless. Looking at the handle after the call, and not
        # before it, leaves no gap in which another thread could close the device.
        found = _call(name, self._handle, *arguments)
        if self.closed:
            raise ClosedDevice("the device is closed")
        return found

    def _answer(self, name: str, *arguments: Any) -> Answer:
        return _read(Answer, self._call(name, *arguments))

    def _number(self, name: str, *arguments: Any) -> Optional[int]:
        found, none = int(self._call(name, *arguments)), {"I": _NO_NUMBER, "Q": _NONE}
        return None if found == none[_CALLS[name][0]] else found

    def _ending(self, name: str, *arguments: Any) -> Optional[Ending]:
        found = _read(Ending, self._call(name, *arguments))
        return None if found.kind == EndingKind.NOT_ENDED else found

    def _written(self, kind: Type[_T], name: str, *arguments: Any) -> Optional[_T]:
        """What the call writes to its last parameter; None where there is nothing to read."""
        written = _STRUCTS[_CALLS[name][1][-1][1].lstrip(">")]()
        return _read(kind, written) if self._call(name, *arguments, written) else None

    # steps

    def enqcmd(self, client: int, queue: int, portal: int, pasid: int,
               descriptor: Bytes) -> Answer:
        """A client writes a descriptor to a portal by ENQCMD: ACCEPTED, RETRY."""
        return self._answer("dsa_enqcmd", client, queue, portal, pasid, descriptor)

    def movdir64b(self, client: int, queue: int, portal: int, descriptor: Bytes) -> Answer:
        """A client writes a descriptor to a portal by MOVDIR64B: ACCEPTED, DROPPED."""
        return self._answer("dsa_movdir64b", client, queue, portal, descriptor)

    def dispatch(self, engine: int) -> Answer:
        """An engine takes the front of a queue of its group: TAKEN, IDLE."""
        return self._answer("dsa_dispatch", engine)

    def dispatch_from(self, engine: int, queue: int) -> Answer:
        """An engine takes the front of this queue: TAKEN, IDLE."""
        return self._answer("dsa_dispatch_from", engine, queue)

    def fetch(self, engine: int, descriptor: Bytes) -> Answer:
        """An engine hands in the next member of its batch: FETCHED, NO_BATCH, ALL_FETCHED."""
        return self._answer("dsa_fetch", engine, descriptor)

    def start(self, engine: int) -> Answer:
        """An engine starts the first of its members that does not run: STARTED, FENCE_WAIT,
        NO_BUFFERS, ABANDONED, NOTHING."""
        return self._answer("dsa_start", engine)

    def finish(self, engine: int, cell: int, name: int, outcome: int) -> Answer:
        """An engine ends the running entry of that cell and name: DONE, NOT_READY, GONE."""
        return self._answer("dsa_finish", engine, cell, name, outcome)

    def command(self, word: int) -> Answer:
        """A word is written to the command register, see command_word: ENDED, ACTIVE, REFUSED."""
        return self._answer("dsa_command", word)

    def poll(self) -> Answer:
        """Asks whether the active command is over: FINISHED, ACTIVE, NOTHING."""
        return self._answer("dsa_poll")

    def write_queue(self, queue: int, config: Queue) -> Answer:
        """Writes the configuration of a queue: WRITTEN, REFUSED."""
        return self._answer("dsa_write_queue", queue, config)

    def write_group(self, group: int, config: Group) -> Answer:
        """Writes the configuration of a group: WRITTEN, REFUSED."""
        return self._answer("dsa_write_group", group, config)

    def clear_error(self) -> Answer:
        """Clears the noted error, and gives it: CLEARED, NOTHING."""
        return self._answer("dsa_clear_error")

    def step(self, event: Event) -> Answer:
        """The step of an event, as history_event gives it, that writes no configuration."""
        return self._answer("dsa_step", _said(event))

    def why(self, event: Event) -> Optional[str]:
        """Why `step` would answer the event as it would now, as `./run explain` says it; "": there
        is no reason, and the step would do what it asks for; None: BAD_ARGUMENT. No step is made.
        """
        length = 255
        for _ in range(2):
            buffer = ctypes.create_string_buffer(length + 1)
            length = int(self._call("dsa_why", _said(event), buffer, len(buffer)))
            if length == _NO_MEMORY:
                raise MemoryError("there is no memory for the text")
            if length < len(buffer):
                return buffer.value.decode("ascii")
            if length == _NONE:
                return None
        raise RuntimeError("another thread made a step of the device")

    def reason_of(self, event: Event) -> Optional[Reason]:
        """The same reason as a kind and its numbers; of the kind NONE: there is no reason; None:
        BAD_ARGUMENT."""
        return self._written(Reason, "dsa_reason_of", _said(event))

    def queue_reason(self, engine: int, queue: int) -> Optional[Reason]:
        """Why the engine does not take the front of the queue; of the kind NONE: it may take it;
        None: the queue is not one of the engine's group."""
        return self._written(Reason, "dsa_queue_reason", engine, queue)

    # snapshots

    def saved_size(self) -> int:
        """How many bytes `save` gives: 84, and 44 for each stored step; 0: the history began anew.
        """
        return int(self._call("dsa_saved_size"))

    def save(self) -> bytes:
        """The device as bytes, of which Device.load makes an equal device. NotSaved: its history
        began anew."""
        buffer = (ctypes.c_uint8 * self.saved_size())()
        size = int(self._call("dsa_save", buffer, len(buffer)))
        if size == _NOT_SAVED:
            raise NotSaved("the history of the device began anew")
        if size == _NO_MEMORY:
            raise MemoryError("there is no memory for the bytes")
        if size != len(buffer):
            raise RuntimeError("another thread made a step of the device")
        return bytes(buffer)

    # counts, and what happened

    def capacity(self) -> int:
        """How many steps the history has room for."""
        return int(self._call("dsa_capacity"))

    def room(self) -> int:
        """For how many steps memory was taken; the capacity is less only where names ran short."""
        return int(self._call("dsa_room"))

    def is_anew(self) -> bool:
        """Whether the history began anew."""
        return bool(self._call("dsa_is_anew"))

    def held(self) -> int:
        """How many entries are in all queues and engines."""
        return int(self._call("dsa_held"))

    def next_name(self) -> int:
        """The name that the next entry gets."""
        return int(self._call("dsa_next_name"))

    def occupancy(self, queue: int) -> Optional[int]:
        """How many entries wait in the queue; None: no such queue."""
        return self._number("dsa_occupancy", queue)

    def used(self, group: int) -> Optional[int]:
        """How many read buffers the group uses; None: no such group."""
        return self._number("dsa_used", group)

    def active(self) -> Optional[Command]:
        """The command that is not over; None: none."""
        number = self._number("dsa_active")
        return None if number is None else Command(number)

    def awaited(self) -> Optional[int]:
        """How many entries the active command still waits for; None: none is active."""
        return self._number("dsa_awaited")

    def awaited_names(self) -> List[int]:
        """The names of these entries: those in the queues, and then those on the engines."""
        names = (ctypes.c_uint32 * (self.awaited() or 0))()
        count = self._number("dsa_awaited_names", names, len(names))
        return list(names)[:count or 0]

    def noted(self) -> Optional[Answer]:
        """The noted error, as clear_error would give it; None: none."""
        answer = self._answer("dsa_noted")
        return None if answer.kind == Kind.NOTHING else answer

    def history_length(self) -> int:
        """How many steps are stored."""
        return int(self._call("dsa_history_length"))

    def history_is_full(self) -> bool:
        """Whether every step is answered FULL."""
        return bool(self._call("dsa_history_is_full"))

    def history_answer(self, position: int) -> Optional[Answer]:
        """The answer of a stored step, the first at 0; None: no such step."""
        answer = self._answer("dsa_history_answer", position)
        return None if answer.kind == Kind.NOTHING else answer

    def history_event(self, position: int) -> Optional[Event]:
        """The call of a stored step; None: no such step."""
        return self._written(Event, "dsa_history_event", position)

    def history_queue_config(self, position: int) -> Optional[Queue]:
        """What a stored step wrote to a queue; None: it wrote to none."""
        return self._written(Queue, "dsa_history_queue_config", position)

    def history_group_config(self, position: int) -> Optional[Group]:
        """What a stored step wrote to a group; None: it wrote to none."""
        return self._written(Group, "dsa_history_group_config", position)

    def history(self) -> List[Tuple[Event, Answer]]:
        """The stored steps, in order."""
        stored = ((self.history_event(position), self.history_answer(position))
                  for position in range(self.history_length()))
        return [(event, answer) for event, answer in stored if event and answer]

    def fates_length(self) -> int:
        """How many entries ended, without those whose fates were forgotten."""
        return int(self._call("dsa_fates_length"))

    def fate_at(self, position: int) -> Optional[Ending]:
        """How an entry ended, in the order of endings, the first at 0; None: no such one."""
        return self._ending("dsa_fate_at", position)

    def fate_of(self, name: int) -> Optional[Ending]:
        """How the entry of that name ended; None: it is still held, there is no such name, or its
        fate was forgotten."""
        return self._ending("dsa_fate_of", name)

    def fates(self) -> List[Ending]:
        """How the entries ended, in that order."""
        return [it for it in map(self.fate_at, range(self.fates_length())) if it]

    # what is configured

    def phase(self) -> Phase:
        """The phase of the device."""
        return Phase(self._call("dsa_phase"))

    def queue_phase(self, queue: int) -> Optional[Phase]:
        """The phase of a queue; None: no such queue."""
        number = self._number("dsa_queue_phase", queue)
        return None if number is None else Phase(number)

    def caps_of(self) -> Optional[Caps]:
        """What the device has, as it was opened."""
        return self._written(Caps, "dsa_caps_of")

    def queue_config(self, queue: int) -> Optional[Queue]:
        """The configuration of a queue; None: no such queue."""
        return self._written(Queue, "dsa_queue_config", queue)

    def group_config(self, group: int) -> Optional[Group]:
        """The configuration of a group; None: no such group."""
        return self._written(Group, "dsa_group_config", group)

    # entries; places count from 0, in the order in which they came

    def waiting_at(self, queue: int, place: int) -> Optional[Entry]:
        """An entry that waits in a queue; None: no such queue or place."""
        return self._written(Entry, "dsa_waiting_at", queue, place)

    def in_progress(self, engine: int) -> Optional[int]:
        """How many submitted entries the engine has in progress; None: no such engine."""
        return self._number("dsa_in_progress", engine)

    def in_progress_at(self, engine: int, place: int) -> Optional[Entry]:
        """A submitted entry in progress on an engine; None: no such engine or place."""
        return self._written(Entry, "dsa_in_progress_at", engine, place)

    def members(self, engine: int) -> Optional[int]:
        """How many members of the engine's batch have not ended; None: no such engine."""
        return self._number("dsa_members", engine)

    def member_at(self, engine: int, place: int) -> Optional[Entry]:
        """A member of the engine's batch that has not ended; None: no such engine or place."""
        return self._written(Entry, "dsa_member_at", engine, place)

    def entry_in(self, cell: int) -> Optional[Entry]:
        """The entry that the cell holds; None: it holds none."""
        return self._written(Entry, "dsa_entry_in", cell)

    def batch(self, engine: int) -> Optional[Batch]:
        """The batch that the engine works on; None: none, or no such engine."""
        return self._written(Batch, "dsa_batch", engine)

    def holds(self, cell: int, name: int) -> bool:
        """Whether the entry of that ticket is held."""
        return bool(self._call("dsa_holds", cell, name))
