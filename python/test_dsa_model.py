#!/usr/bin/env python3
"""Tests of dsa_model.py over the built library.

What is expected comes from docs/MODEL.md, docs/SCENARIO.md, examples/*.out and the C tests. The
library is found as the module finds it: build it with ./lib, or name it in DSA_MODEL_LIBRARY.
"""

from __future__ import annotations

import _ctypes
import copy
import ctypes
import gc
import hashlib
import importlib
import itertools
import json
import os
import pathlib
import pickle
import re
import shutil
import subprocess
import sys
import tempfile
import threading
import unittest
from typing import Any, Callable, Dict, Iterator, List, Optional, Tuple
from unittest import mock

import dsa_model as dsa
from dsa_model import Cause, Command, EndingKind, EventKind, Fault, Kind, Operation, Outcome
from dsa_model import Phase, Portal, Status

FOLDER = pathlib.Path(__file__).resolve().parent
TOP = FOLDER.parent

# the device of c/tests/check.h: queue 0 shared, queue 1 dedicated, one group with one engine
CAPS = dsa.Caps(queues=2, groups=1, engines=1, total_size=16, read_buffers=16, slots=2,
                max_batch_shift=3, max_xfer_shift=20)
SHARED = dsa.Queue(size=8, threshold=3, dedicated=False, priority=1, max_batch_shift=3,
                   max_xfer_shift=20, pasid=0)
OWN = dsa.Queue(size=4, threshold=0, dedicated=True, priority=2, max_batch_shift=3,
                max_xfer_shift=20, pasid=7)
GROUP = dsa.Group(queues=0b11, engines=0b1, reserved=4, allowed=4)
LIMITS = dsa.Limits(max_batch_shift=3, max_xfer_shift=20)
NOTHING = bytes(64)
POLL = dsa.Event(kind=dsa.EventKind.POLL, name=0, cell=0, pasid=0, flags=0, size=0, operand=0,
                 descriptor_pasid=0, client=0, queue=0, group=0, engine=0, operation=0,
                 portal=dsa.Portal.LIMITED, outcome=dsa.Outcome.SUCCESS, command=None)


def enabled(capacity: int = 100) -> dsa.Device:
    """The device of c/tests/check.h, both queues On: seven steps are stored."""
    device = dsa.Device(CAPS, capacity)
    answers = [device.write_queue(0, SHARED), device.write_queue(1, OWN),
               device.write_group(0, GROUP), command(device, Command.ENABLE_DEVICE),
               command(device, Command.ENABLE_WQ, 0), command(device, Command.ENABLE_WQ, 1)]
    assert [answer.kind for answer in answers] == [Kind.WRITTEN] * 3 + [Kind.ENDED] * 3
    return device


def command(device: dsa.Device, number: int, operand: int = 0) -> dsa.Answer:
    return device.command(dsa.command_word(number, operand))


def finish(device: dsa.Device, ticket: dsa.Answer, outcome: int = Outcome.SUCCESS) -> dsa.Answer:
    return device.finish(0, ticket.cell, ticket.name, outcome)


def changed(config: Any, field: str, value: Any) -> Any:
    """The same with another value in that field."""
    return config._replace(**{field: value})


def snapshot(device: dsa.Device) -> Dict[str, Any]:
    """What all reads say of the device, at every number that it has and one more."""
    counts = ["capacity", "held", "next_name", "active", "awaited", "noted", "phase",
              "history_length", "history_is_full", "history", "fates_length", "fates"]
    found = {name: getattr(device, name)() for name in counts}
    for name in ("occupancy", "used", "queue_phase", "queue_config", "group_config", "in_progress",
                 "members", "batch", "fate_of"):
        found[name] = [getattr(device, name)(number) for number in range(4)]
    for name in ("waiting_at", "in_progress_at", "member_at"):
        found[name] = [getattr(device, name)(number, place)
                       for number in range(3) for place in range(9)]
    stored = range(device.history_length() + 1)
    found["queue_configs"] = [device.history_queue_config(position) for position in stored]
    found["group_configs"] = [device.history_group_config(position) for position in stored]
    found["holds"] = [device.holds(cell, name) for cell in range(8) for name in range(8)]
    return found


class Steps(unittest.TestCase):
    """Courses of steps, with the answers that the model's pages give them."""

    def test_first_path(self) -> None:
        """The first document of README.md."""
        caps = dsa.Caps(1, 1, 1, 4, 4, 1, 1, 20)
        move = dsa.descriptor(Operation.MEMMOVE, size=4096)
        with dsa.Device(caps, capacity=100) as device:
            self.assertEqual(device.write_queue(0, dsa.Queue(4, 1, False, 1, 1, 20)).kind,
                             Kind.WRITTEN)
            self.assertEqual(device.write_group(0, dsa.Group(1, 1, 0, 4)).kind, Kind.WRITTEN)
            for word in (1048576, 6291456):
                self.assertEqual(device.command(word), (Kind.ENDED, 0, 0, 0))
            accepted = device.enqcmd(0, 0, Portal.LIMITED, 5, move)
            self.assertEqual((accepted.kind, accepted.name, accepted.zf), (Kind.ACCEPTED, 0, False))
            retry = device.enqcmd(1, 0, Portal.LIMITED, 6, NOTHING)
            self.assertEqual((retry.kind, retry.cause, retry.zf),
                             (Kind.RETRY, Cause.AT_LIMIT, True))
            taken = device.dispatch(0)
            self.assertEqual((taken.kind, taken.name, taken.cell, taken.queue, taken.zf),
                             (Kind.TAKEN, 0, accepted.cell, 0, None))
            done = finish(device, taken)
            self.assertEqual((done.kind, done.status, done.more), (Kind.DONE, Status.SUCCESS, 1))
            self.assertEqual(device.fates(), [(EndingKind.COMPLETED, 0, None, 1)])

    def test_lockstep(self) -> None:
        """An engine takes from the queue that is named, and a cell tells its entry."""
        with enabled() as device:
            accepted = device.enqcmd(0, 0, Portal.UNLIMITED, 5, NOTHING)
            self.assertEqual(device.dispatch_from(0, 1), (Kind.IDLE, 0, 0, 0))
            entry = device.entry_in(accepted.cell)
            self.assertEqual(entry, device.waiting_at(0, 0))
            taken = device.dispatch_from(0, 0)
            self.assertEqual(taken, (Kind.TAKEN, accepted.name, accepted.cell, 0))
            self.assertEqual(device.entry_in(taken.cell), device.in_progress_at(0, 0))
            caps = device.caps_of()
            self.assertEqual((caps, dsa.list_count(CAPS)), (CAPS, CAPS.queues + 2 * CAPS.engines))
            self.assertIsNone(device.entry_in(dsa.cell_count(CAPS)))
            held = filter(None, map(device.entry_in, range(dsa.cell_count(CAPS))))
            self.assertEqual(list(held), [device.in_progress_at(0, 0)])
        for refused in CAPS._replace(slots=17), dsa.Caps(*[0] * 8):
            self.assertEqual((dsa.cell_count(refused), dsa.list_count(refused)), (0, 0))

    def test_drain_waits(self) -> None:
        """Drain All waits for three entries (c/tests/every_answer.c); 17 is Busy."""
        with enabled() as device:
            self.assertEqual((device.poll().kind, device.active()), (Kind.NOTHING, None))
            for _ in range(3):
                device.enqcmd(0, 0, Portal.LIMITED, 5, NOTHING)
            self.assertEqual(command(device, Command.DRAIN_ALL).kind, Kind.ACTIVE)
            self.assertEqual((device.active(), device.awaited()), (Command.DRAIN_ALL, 3))
            self.assertEqual(device.awaited_names(), [0, 1, 2])
            self.assertEqual(device.why(POLL),
                             "the command waits for 3 entries, first for 0 in q0")
            reason = device.reason_of(POLL)
            assert reason is not None
            self.assertEqual((reason.kind, reason.count, reason.name, reason.list, reason.queue),
                             (dsa.ReasonKind.COMMAND_WAITS, 3, 0, dsa.ListKind.QUEUE, 0))
            self.assertEqual(device.poll().kind, Kind.ACTIVE)
            refused = command(device, Command.DRAIN_ALL)
            self.assertEqual((refused.kind, refused.more, refused.fault),
                             (Kind.REFUSED, 17, Fault.Busy))
            for left in (2, 1, 0):
                self.assertEqual(finish(device, device.dispatch(0)).kind, Kind.DONE)
                self.assertEqual(device.awaited(), left)
            self.assertEqual(command(device, Command.ABORT_ALL).fault, Fault.Busy)
            self.assertEqual(device.poll().kind, Kind.FINISHED)
            self.assertEqual((device.active(), device.awaited()), (None, None))
            self.assertEqual(device.awaited_names(), [])
            self.assertIsNone(device.why(POLL._replace(portal=2, kind=EventKind.ENQCMD)))
            self.assertIsNone(device.reason_of(POLL._replace(portal=2, kind=EventKind.ENQCMD)))
            self.assertIsNone(device.queue_reason(0, 99))
            self.assertEqual(device.dispatch(0).kind, Kind.IDLE)

    def test_long_reason(self) -> None:
        """A text has room, however many names it has."""
        caps, queue = CAPS._replace(total_size=400), SHARED._replace(size=400, threshold=400)
        with dsa.Device(caps, 1000) as device:
            device.write_queue(0, queue)
            device.write_group(0, dsa.Group(queues=1, engines=1, reserved=4, allowed=4))
            for number in (Command.ENABLE_DEVICE, Command.ENABLE_WQ):
                self.assertEqual(command(device, number).kind, Kind.ENDED)
            for _ in range(400):
                device.enqcmd(0, 0, Portal.LIMITED, 5, NOTHING)
            drain = POLL._replace(kind=EventKind.COMMAND, command=Command.DRAIN_ALL)
            names = ", ".join(str(name) for name in range(400))
            self.assertEqual(device.why(drain), f"the command waits for 400 entries, q0: {names}")
            self.assertEqual(command(device, Command.DRAIN_ALL).kind, Kind.ACTIVE)
            self.assertEqual(device.awaited_names(), list(range(400)))

    def test_drain_descriptor_waits(self) -> None:
        """A Drain waits for its program's entries alone (c/tests/drains.c)."""
        drain = dsa.descriptor(Operation.DRAIN)
        with enabled() as device:
            for desc, pasid in itertools.product((NOTHING, drain), (5, 6)):
                device.enqcmd(0, 0, Portal.UNLIMITED, pasid, desc)
            first, other = device.dispatch(0), device.dispatch(0)
            self.assertEqual(finish(device, other).status, Status.SUCCESS)
            waits = device.dispatch(0)
            self.assertEqual((waits.name, finish(device, waits).kind), (2, Kind.NOT_READY))
            self.assertEqual(finish(device, first).status, Status.SUCCESS)
            self.assertEqual(device.dispatch(0).kind, Kind.IDLE)
            self.assertEqual(finish(device, waits).status, Status.SUCCESS)
            self.assertEqual(device.dispatch(0).name, 3)

    def test_abort(self) -> None:
        """An abort names its command in the fate, and what it took is gone."""
        with enabled() as device:
            self.assertEqual(device.movdir64b(0, 1, Portal.UNLIMITED, NOTHING).name, 0)
            device.enqcmd(0, 0, Portal.LIMITED, 5, NOTHING)
            taken = device.dispatch(0)
            ended = command(device, Command.ABORT_ALL)
            self.assertEqual((ended.kind, ended.lost, device.held()), (Kind.ENDED, 2, 0))
            self.assertEqual(finish(device, taken).kind, Kind.GONE)
            self.assertEqual([(it.kind, it.number, it.command, it.status)
                              for it in device.fates()],
                             [(EndingKind.ABORTED, 4, Command.ABORT_ALL, None)] * 2)

    def test_batch_with_fence(self) -> None:
        """The course of c/examples/batch.c, with the lines of its output."""
        move, fill = dsa.descriptor(Operation.MEMMOVE, size=8192), dsa.descriptor(4, size=64)
        last = dsa.descriptor(Operation.MEMMOVE, size=64, flags=dsa.Flag.FENCE)
        batch = dsa.descriptor(Operation.BATCH, size=3)
        with enabled() as device:
            device.enqcmd(0, 0, Portal.UNLIMITED, 5, batch)
            self.assertEqual(device.fetch(0, move).kind, Kind.NO_BATCH)
            taken = device.dispatch(0)
            kinds = [device.fetch(0, it).kind for it in (move, fill, last, fill)]
            self.assertEqual(kinds, [Kind.FETCHED] * 3 + [Kind.ALL_FETCHED])
            first, second = device.start(0), device.start(0)
            self.assertEqual((first.kind, second.kind), (Kind.STARTED, Kind.STARTED))
            self.assertEqual(device.start(0).kind, Kind.FENCE_WAIT)
            self.assertEqual(finish(device, taken).kind, Kind.NOT_READY)
            self.assertEqual(finish(device, first, Outcome.PAGE_FAULT).status,
                             Status.PAGE_FAULT_NOBOF)
            self.assertEqual(finish(device, second).status, Status.SUCCESS)
            abandoned = device.start(0)
            self.assertEqual((abandoned.kind, abandoned.lost), (Kind.ABANDONED, 1))
            self.assertEqual(finish(device, taken).status, Status.BATCH_FAIL)
            self.assertEqual(device.fates(), [
                (EndingKind.COMPLETED, 1, 0, 0x03), (EndingKind.COMPLETED, 2, 0, 0x01),
                (EndingKind.BEHIND_FENCE, 3, 0, 0), (EndingKind.COMPLETED, 0, None, 0x05)])

    def test_buffers(self) -> None:
        """A member waits for read buffers (c/tests/every_answer.c)."""
        big = dsa.descriptor(Operation.MEMMOVE, size=16384)
        with enabled() as device:
            device.enqcmd(0, 0, Portal.UNLIMITED, 5, dsa.descriptor(Operation.BATCH, size=2))
            device.dispatch(0)
            self.assertEqual(device.start(0).kind, Kind.NOTHING)
            for _ in range(2):
                device.fetch(0, big)
            self.assertEqual((device.start(0).kind, device.used(0)), (Kind.STARTED, 4))
            self.assertEqual(device.start(0).kind, Kind.NO_BUFFERS)

    def test_errors_are_noted(self) -> None:
        """Two drops (c/tests/every_answer.c)."""
        with enabled() as device:
            self.assertEqual((device.noted(), device.clear_error().kind), (None, Kind.NOTHING))
            dropped = device.movdir64b(1, 0, Portal.UNLIMITED, NOTHING)
            self.assertEqual((dropped.kind, dropped.cause, dropped.zf),
                             (Kind.DROPPED, Cause.WRONG_KIND, None))
            self.assertEqual(device.movdir64b(1, 9, Portal.UNLIMITED, NOTHING).cause,
                             Cause.NOT_ENABLED)
            expected = (Kind.CLEARED, 0, 1, Cause.WRONG_KIND)
            self.assertEqual(device.noted(), expected)
            cleared = device.clear_error()
            self.assertEqual((cleared, cleared.queue, cleared.overflow, cleared.cause),
                             (expected, 0, True, Cause.WRONG_KIND))
            self.assertIsNone(device.noted())

    def test_history_is_full(self) -> None:
        """c/tests/standing.c: at a capacity of 7 one step more is stored."""
        with enabled(7) as device:
            self.assertFalse(device.history_is_full())
            self.assertEqual(device.movdir64b(0, 1, Portal.UNLIMITED, NOTHING).kind, Kind.ACCEPTED)
            self.assertTrue(device.history_is_full())
            self.assertEqual((device.poll().kind, device.history_length()), (Kind.FULL, 7))

    def test_begins_anew(self) -> None:
        """All but the history stays, and the fates as the caller chooses."""
        for keep_fates in (False, True):
            with self.subTest(keep_fates=keep_fates), enabled(12) as device:
                device.enqcmd(0, 0, Portal.UNLIMITED, 5, dsa.descriptor(Operation.BATCH, size=2))
                device.enqcmd(0, 0, Portal.UNLIMITED, 5, NOTHING)
                taken, other = device.dispatch(0), device.dispatch(0)
                finish(device, other)
                self.assertEqual(command(device, Command.DRAIN_ALL).kind, Kind.ACTIVE)
                self.assertTrue(device.history_is_full() and not device.is_anew())
                before, fates = snapshot(device), device.fates()
                device.begin_anew(keep_fates)
                after = snapshot(device)
                self.assertEqual([field for field in before if before[field] != after[field]], [
                    "history_length", "history_is_full", "history",
                    *([] if keep_fates else ["fates_length", "fates", "fate_of"]),
                    "queue_configs", "group_configs"])
                self.assertEqual((device.history(), device.room(), device.is_anew()),
                                 ([], 12, True))
                self.assertEqual(device.fates(), fates if keep_fates else [])
                self.assertEqual(device.saved_size(), 0)
                self.assertRaisesRegex(dsa.NotSaved, "began anew", device.save)
                for _ in range(2):
                    device.fetch(0, NOTHING)
                    finish(device, device.start(0))
                self.assertEqual(finish(device, taken).status, Status.SUCCESS)
                self.assertEqual(device.poll().kind, Kind.FINISHED)
                self.assertEqual([ending.name for ending in device.fates()],
                                 [1, 2, 3, 0] if keep_fates else [2, 3, 0])

    def test_refusals(self) -> None:
        """The numbers of faults in docs/MODEL.md, as c/tests/layout.c has them."""
        queues = [("size", 0, 7), ("threshold", 0, 9), ("threshold", 9, 10), ("priority", 0, 8),
                  ("priority", 16, 18), ("max_batch_shift", 4, 11), ("max_xfer_shift", 21, 19)]
        for field, number, fault in queues:
            with self.subTest(field, number=number), dsa.Device(CAPS, 10) as device:
                device.write_queue(0, changed(SHARED, field, number))
                device.write_group(0, GROUP)
                self.assertEqual(command(device, Command.ENABLE_DEVICE).kind, Kind.ENDED)
                self.assertEqual(command(device, Command.ENABLE_WQ, 0).more, fault)
        groups = [("queues", 4, 20), ("queues", 0, 6), ("engines", 0, 5), ("reserved", 17, 3),
                  ("allowed", 17, 4)]
        for field, number, fault in groups:
            with self.subTest(field, number=number), dsa.Device(CAPS, 10) as device:
                device.write_queue(0, SHARED)
                device.write_group(0, changed(GROUP, field, number))
                refused = command(device, Command.ENABLE_DEVICE)
                self.assertEqual((refused.kind, refused.more), (Kind.REFUSED, fault))


class Reads(unittest.TestCase):
    """What the reads give."""

    def test_all_reads(self) -> None:
        """The device of c/tests/standing.c: a batch with one member fetched, and a No-op waits."""
        with enabled() as device:
            fenced = dsa.descriptor(Operation.MEMMOVE, flags=1, size=8)
            device.enqcmd(0, 0, Portal.UNLIMITED, 5, dsa.descriptor(Operation.BATCH, size=3))
            taken, fetched = device.dispatch(0), device.fetch(0, fenced)
            waits = device.movdir64b(0, 1, Portal.UNLIMITED, NOTHING)
            self.assertEqual(command(device, Command.DRAIN_ALL).kind, Kind.ACTIVE)
            batch = (0, taken.cell, None, 5, 0, 3, 0, Operation.BATCH, True)
            member = (1, fetched.cell, 0, 5, 1, 8, 0, Operation.MEMMOVE, False)
            last = (2, waits.cell, None, 7, 0, 0, 1, Operation.NOOP, False)
            found = snapshot(device)
            held = {(taken.cell, 0), (fetched.cell, 1), (waits.cell, 2)}
            self.assertEqual(found.pop("holds"), [(cell, name) in held
                                                  for cell in range(8) for name in range(8)])
            events = [event.kind for event, _ in found.pop("history")]
            self.assertEqual(events, [
                EventKind.WRITE_QUEUE, EventKind.WRITE_QUEUE, EventKind.WRITE_GROUP,
                *[EventKind.COMMAND] * 3, EventKind.ENQCMD, EventKind.DISPATCH, EventKind.FETCH,
                EventKind.MOVDIR64B, EventKind.COMMAND])
            nothing = [None] * 9
            self.assertEqual(found, {
                "capacity": 100, "held": 3, "next_name": 3, "active": Command.DRAIN_ALL,
                "awaited": 2, "noted": None, "phase": Phase.ON, "history_length": 11,
                "history_is_full": False, "fates_length": 0, "fates": [], "fate_of": [None] * 4,
                "occupancy": [0, 1, None, None], "used": [0, None, None, None],
                "queue_phase": [Phase.ON, Phase.ON, None, None],
                "queue_config": [SHARED, OWN, None, None],
                "group_config": [GROUP, None, None, None], "in_progress": [1, None, None, None],
                "members": [1, None, None, None], "batch": [(0, 3, 1, False, False), *[None] * 3],
                "waiting_at": [*nothing, last, *nothing[1:], *nothing],
                "in_progress_at": [batch, *nothing[1:], *nothing, *nothing],
                "member_at": [member, *nothing[1:], *nothing, *nothing],
                "queue_configs": [SHARED, OWN, *[None] * 10],
                "group_configs": [None, None, GROUP, *[None] * 9],
            })

    def test_types(self) -> None:
        """Enums and truth values, where a plain number would compare equal."""
        with enabled() as device:
            device.enqcmd(0, 0, Portal.UNLIMITED, 5, dsa.descriptor(Operation.BATCH, size=2))
            device.dispatch(0)
            config, entry = device.queue_config(1), device.in_progress_at(0, 0)
            batch, event = device.batch(0), device.history_event(5)
            reason = device.queue_reason(0, 0)
            assert config and entry and batch and event and reason
            self.assertIs(config.dedicated, True)
            self.assertIs(entry.running, True)
            self.assertIs(batch.failed, False)
            self.assertIs(event.command, Command.ENABLE_WQ)
            self.assertIs(reason.kind, dsa.ReasonKind.QUEUE_EMPTY)
            self.assertIs(reason.list, dsa.ListKind.NONE)
            self.assertIs(device.phase(), Phase.ON)
            self.assertIs(device.queue_phase(0), Phase.ON)
            self.assertIs(device.dispatch(0).kind, Kind.IDLE)
            self.assertIs(device.holds(entry.cell, entry.name), True)

    def test_step(self) -> None:
        """The events of one device are the steps of another; those that write are refused."""
        with enabled() as device, enabled() as other:
            device.enqcmd(0, 0, Portal.UNLIMITED, 5, dsa.descriptor(Operation.MEMMOVE, size=8))
            finish(device, device.dispatch(0), Outcome.PAGE_FAULT)
            device.poll()
            stored = device.history()
            for event, answer in stored[other.history_length():]:
                self.assertEqual(other.step(event), answer)
            self.assertEqual(other.history(), stored)
            self.assertEqual(other.step(stored[0][0]).kind, Kind.BAD_ARGUMENT)

    def test_batch_note(self) -> None:
        """A member fails, and the fenced one after it is abandoned (c/tests/standing.c)."""
        with enabled() as device:
            device.enqcmd(0, 0, Portal.UNLIMITED, 5, dsa.descriptor(Operation.BATCH, size=3))
            taken = device.dispatch(0)
            device.fetch(0, dsa.descriptor(Operation.MEMMOVE, flags=1, size=8))
            started = device.start(0)
            self.assertEqual(device.batch(0), (taken.name, 3, 1, False, False))
            finish(device, started, Outcome.PAGE_FAULT)
            self.assertEqual(device.batch(0), (taken.name, 3, 1, True, False))
            self.assertFalse(device.holds(started.cell, started.name))
            device.fetch(0, dsa.descriptor(Operation.NOOP, flags=1))
            self.assertEqual(device.start(0).kind, Kind.ABANDONED)
            self.assertEqual(device.batch(0), (taken.name, 3, 2, True, True))
            finish(device, taken)
            self.assertIsNone(device.batch(0))

    def test_phases(self) -> None:
        """Disable WQ of queue 1, which holds an entry (c/tests/standing.c)."""
        with enabled() as device:
            device.movdir64b(0, 1, Portal.UNLIMITED, NOTHING)
            self.assertEqual(command(device, Command.DISABLE_WQ, dsa.queue_mask([1])).kind,
                             Kind.ACTIVE)
            self.assertEqual((device.queue_phase(1), device.queue_phase(0), device.awaited()),
                             (Phase.STOPPING, Phase.ON, 1))
            finish(device, device.dispatch(0))
            self.assertEqual((device.awaited(), device.poll().kind), (0, Kind.FINISHED))
            self.assertEqual(device.queue_phase(1), Phase.OFF)

    def test_history(self) -> None:
        """Events with their numbers (c/tests/events.c), and their answers."""
        none: Dict[str, Any] = dict.fromkeys(dsa.Event._fields, 0)
        none.update(portal=Portal.LIMITED, outcome=Outcome.SUCCESS, command=None)

        def event(kind: EventKind, **numbers: Any) -> dsa.Event:
            given: Dict[str, Any] = {**none, "kind": kind, **numbers}
            return dsa.Event(**given)

        with enabled() as device:
            move = dsa.descriptor(Operation.MEMMOVE, flags=1, size=8)
            device.enqcmd(9, 0, Portal.UNLIMITED, 5, dsa.descriptor(Operation.BATCH, size=2))
            taken = device.dispatch(0)
            device.fetch(0, move)
            started = device.start(0)
            finish(device, started, Outcome.PAGE_FAULT)
            device.movdir64b(8, 1, Portal.LIMITED, NOTHING)
            command(device, Command.DRAIN_PASID, 0xfffff)
            ticket = dict(cell=started.cell, name=started.name)
            self.assertEqual([it for it, _ in device.history()], [
                event(EventKind.WRITE_QUEUE), event(EventKind.WRITE_QUEUE, queue=1),
                event(EventKind.WRITE_GROUP),
                event(EventKind.COMMAND, command=Command.ENABLE_DEVICE),
                event(EventKind.COMMAND, command=Command.ENABLE_WQ),
                event(EventKind.COMMAND, command=Command.ENABLE_WQ, operand=1),
                event(EventKind.ENQCMD, client=9, portal=Portal.UNLIMITED, pasid=5, operation=1,
                      size=2),
                event(EventKind.DISPATCH), event(EventKind.FETCH, operation=3, flags=1, size=8),
                event(EventKind.START),
                event(EventKind.FINISH, outcome=Outcome.PAGE_FAULT, **ticket),
                event(EventKind.MOVDIR64B, client=8, queue=1),
                event(EventKind.COMMAND, command=Command.DRAIN_PASID, operand=0xfffff)])
            answers = [it for _, it in device.history()]
            self.assertEqual(answers[6:8], [(Kind.ACCEPTED, 0, taken.cell, 0), taken])
            self.assertEqual(answers[10], (Kind.DONE, 0, 0, 3))
            for position in (13, 14, (1 << 64) - 1):
                self.assertIsNone(device.history_event(position))
                self.assertIsNone(device.history_answer(position))
                self.assertIsNone(device.history_queue_config(position))
                self.assertIsNone(device.history_group_config(position))

    def test_fates(self) -> None:
        with enabled() as device:
            first = device.enqcmd(0, 0, Portal.LIMITED, 5, NOTHING)
            self.assertIsNone(device.fate_of(first.name))
            finish(device, device.dispatch(0))
            expected = (EndingKind.COMPLETED, 0, None, 1)
            self.assertEqual((device.fate_at(0), device.fate_of(0)), (expected, expected))
            for position in (1, (1 << 64) - 1):
                self.assertIsNone(device.fate_at(position))
            for name in (1, (1 << 32) - 1):
                self.assertIsNone(device.fate_of(name))

    def test_two_devices(self) -> None:
        """They know nothing of each other (c/tests/two_devices.c)."""
        one, other = enabled(100), enabled(200)
        for _ in range(3):
            one.enqcmd(0, 0, Portal.LIMITED, 5, NOTHING)
        self.assertEqual(one.enqcmd(0, 0, Portal.LIMITED, 5, NOTHING).kind, Kind.RETRY)
        self.assertEqual((one.held(), other.held()), (3, 0))
        self.assertEqual(other.enqcmd(0, 0, Portal.LIMITED, 5, NOTHING).name, 0)
        one.close()
        self.assertEqual((other.held(), other.capacity(), other.dispatch(0).kind),
                         (1, 200, Kind.TAKEN))
        other.close()


class Tuples(unittest.TestCase):
    """What named tuples say beside their numbers, by the comments of the header."""

    def test_answers(self) -> None:
        """Each property of each kind, of an answer with the name 0, the cell 1 and `more` 3."""
        expected: Dict[Tuple[str, Kind], Any] = {
            ("zf", Kind.ACCEPTED): False, ("zf", Kind.RETRY): True,
            ("cause", Kind.RETRY): Cause.WRONG_KIND, ("cause", Kind.DROPPED): Cause.WRONG_KIND,
            ("cause", Kind.CLEARED): Cause.WRONG_KIND, ("queue", Kind.TAKEN): 3,
            ("queue", Kind.CLEARED): 0, ("overflow", Kind.CLEARED): True,
            ("lost", Kind.ENDED): 3, ("lost", Kind.ABANDONED): 3,
            ("status", Kind.DONE): Status.PAGE_FAULT_NOBOF,
            ("fault", Kind.REFUSED): Fault.ReservedTooMany,
        }
        for name in ("zf", "cause", "queue", "overflow", "lost", "status", "fault"):
            for kind in Kind:
                with self.subTest(name, kind=kind.name):
                    found = getattr(dsa.Answer(kind, 0, 1, 3), name)
                    self.assertEqual(found, expected.get((name, kind)))
                    self.assertIs(type(found), type(expected.get((name, kind))))
        self.assertIs(dsa.Answer(Kind.CLEARED, 0, 0, 3).overflow, False)

    def test_endings(self) -> None:
        for kind, status, number in ((EndingKind.COMPLETED, Status.BATCH_FAIL, None),
                                     (EndingKind.ABORTED, None, Command.RESET_DEVICE),
                                     (EndingKind.BEHIND_FENCE, None, None)):
            ending = dsa.Ending(kind, 1, None, 5)
            self.assertEqual((ending.status, ending.command), (status, number))


class Descriptors(unittest.TestCase):
    """What needs no device."""

    @unittest.skipUnless((TOP / "crates").is_dir(), "a release has no source of the model")
    def test_names(self) -> None:
        """The names that the model's own source has for operations, flags and statuses."""
        source = TOP / "crates" / "dsa_desc" / "src"
        for kind, file, form in (
                (Operation, "opcode.rt", r"const DSA_OPCODE_(\w+): u8 = (\w+);"),
                (dsa.Flag, "flags.rt", r"const (\w+) = (0x\w+);"),
                (Status, "completion.rt", r"const DSA_COMP_(\w+): u8 = (\w+);")):
            found = re.findall(form, (source / file).read_text(encoding="utf-8"))
            self.assertEqual({name: int(number, 0) for name, number in found},
                             {name: member.value for name, member in kind.__members__.items()})

    def test_bytes(self) -> None:
        """The row of docs/SCENARIO.md, The bytes of a descriptor."""
        made = dsa.descriptor(Operation.MEMMOVE, flags=0xc, pasid=5, size=4096,
                              completion_addr=0x10000, src_addr=0x20000, dst_addr=0x30000)
        text = "050000000c00000300000100000000000000020000000000000003000000000000100000"
        self.assertEqual(made, bytes.fromhex(text).ljust(64, b"\0"))
        self.assertEqual(dsa.descriptor(Operation.NOOP), NOTHING)
        self.assertEqual(dsa.descriptor(255, flags=0xffffff, pasid=0xfffff, size=0xffffffff)[:8],
                         bytes.fromhex("ffff0f00ffffffff"))

    def test_wrong_fields(self) -> None:
        widths = dict(flags=24, pasid=20, size=32, completion_addr=64, src_addr=64, dst_addr=64)
        for field, bits in widths.items():
            for wrong, error in wrong_numbers(bits):
                with self.subTest(field, wrong=wrong), self.assertRaisesRegex(error, field):
                    dsa.descriptor(0, **{field: wrong})
        for wrong, error in wrong_numbers(8):
            with self.subTest(wrong=wrong), self.assertRaisesRegex(error, "operation"):
                dsa.descriptor(wrong)

    def test_words(self) -> None:
        """The table of docs/SCENARIO.md, Command words."""
        words = {(Command.ENABLE_DEVICE, 0): 1048576, (Command.DISABLE_DEVICE, 0): 2097152,
                 (Command.DRAIN_ALL, 0): 3145728, (Command.ABORT_ALL, 0): 4194304,
                 (Command.RESET_DEVICE, 0): 5242880, (Command.ENABLE_WQ, 0): 6291456,
                 (Command.DISABLE_WQ, 3): 7340035, (Command.DRAIN_WQ, 3): 8388611,
                 (Command.ABORT_WQ, 3): 9437187, (Command.RESET_WQ, 3): 10485763,
                 (Command.DRAIN_PASID, 5): 11534341, (Command.ABORT_PASID, 5): 12582917}
        self.assertEqual({it: dsa.command_word(*it) for it in words}, words)
        self.assertEqual(dsa.command_word(1, interrupt=True), 2148532224)
        self.assertEqual(dsa.queue_mask([0, 1]), 3)
        self.assertEqual((dsa.queue_mask([16, 18]), dsa.queue_mask([63])), (65541, 229376))
        self.assertEqual((dsa.bit_set([0, 2, 2, 63]), dsa.bit_set([])), (5 | 1 << 63, 0))
        for queues in ([0, 16], [256], [-1]):
            with self.subTest(queues), self.assertRaises(ValueError):
                dsa.queue_mask(queues)
        for number, operand in ((32, 0), (-1, 0), (1, 1 << 20), (1, -1)):
            with self.subTest(number=number, operand=operand), self.assertRaises(ValueError):
                dsa.command_word(number, operand)

    def test_checks(self) -> None:
        """The statuses and needs of c/tests/layout.c, drains.c and every_answer.c."""
        wide, flat = dsa.Limits(5, 20), dsa.Limits(3, 2)
        batch, move = dsa.descriptor(1, size=32), dsa.descriptor(3, size=8)
        drain, fenced = dsa.descriptor(2, size=4096), dsa.descriptor(2, flags=1)
        self.assertEqual((dsa.check(batch, wide), dsa.check(batch, flat)), (0, 0x14))
        self.assertEqual((dsa.check(move, wide), dsa.check(move, flat)), (0, 0x13))
        self.assertEqual((dsa.check(drain, LIMITS), dsa.check(drain, LIMITS, True)), (0, 0x10))
        self.assertEqual((dsa.check(fenced, LIMITS), dsa.need(drain, LIMITS)), (0x11, 0))
        self.assertEqual(dsa.status(drain, LIMITS, False, Outcome.PAGE_FAULT), Status.SUCCESS)
        large = dsa.descriptor(3, size=8192)
        self.assertEqual((dsa.need(large, LIMITS), dsa.need(large, LIMITS, True)), (2, 2))
        self.assertIs(dsa.status(large, LIMITS, False, Outcome.PAGE_FAULT),
                      Status.PAGE_FAULT_NOBOF)
        self.assertIs(dsa.status(large, LIMITS, True, Outcome.SUCCESS), Status.SUCCESS)
        self.assertIs(dsa.status(large, LIMITS, False, 2), Status.NONE)

    def test_image(self) -> None:
        """The image has the other PASID (c/tests/every_answer.c)."""
        move = bytearray(dsa.descriptor(Operation.MEMMOVE, size=8192, src_addr=77))
        image = dsa.image(move, 0x12345)
        self.assertEqual(image, bytes.fromhex("45230100") + move[4:])
        self.assertEqual(dsa.image(memoryview(image), 0), bytes(move))

    def test_size(self) -> None:
        """0 exactly where a device is refused (c/tests/size.c)."""
        least, most = dsa.Caps(1, 1, 1, 1, 1, 1, 1, 0), dsa.Caps(64, 8, 64, 4096, 255, 16, 10, 31)
        for caps, capacity in itertools.product((CAPS, least, most), (0, 1, 1000, 1048576)):
            self.assertGreater(dsa.size(caps, capacity), 0)
            dsa.Device(caps, capacity).close()
        for caps, capacity in ((dsa.Caps(*[0] * 8), 10), (CAPS, 1048577), (CAPS, (1 << 64) - 1)):
            self.assertEqual(dsa.size(caps, capacity), 0)

    def test_wrong_arguments(self) -> None:
        for call in (dsa.check, dsa.need):
            check_arguments(self, call, [("descriptor", NOTHING), ("limits", LIMITS),
                                         ("member", True)])
        check_arguments(self, dsa.status, [("descriptor", NOTHING), ("limits", LIMITS),
                                           ("member", False), ("outcome", 0)])
        check_arguments(self, dsa.image, [("descriptor", NOTHING), ("pasid", 0)])
        check_arguments(self, dsa.size, [("caps", CAPS), ("capacity", 10)])
        for call in (dsa.cell_count, dsa.list_count):
            check_arguments(self, call, [("caps", CAPS)])


# how many bits the header gives each parameter and each field that goes in
BITS = {
    "client": 16, "queue": 16, "portal": 32, "pasid": 32, "engine": 16, "cell": 32, "name": 32,
    "outcome": 32, "word": 32, "group": 16, "position": 64, "place": 64, "capacity": 64,
    "member": 32, "keep_fates": 32,
}
FIELDS = {
    dsa.Caps: dict(queues=16, groups=16, engines=16, total_size=16, read_buffers=16, slots=16,
                   max_batch_shift=8, max_xfer_shift=8),
    dsa.Queue: dict(size=16, threshold=16, dedicated=8, priority=8, max_batch_shift=8,
                    max_xfer_shift=8, pasid=32),
    dsa.Group: dict(queues=64, engines=64, reserved=16, allowed=16),
    dsa.Limits: dict(max_batch_shift=8, max_xfer_shift=8),
    dsa.Event: dict(kind=32, name=32, cell=32, pasid=32, flags=32, size=32, operand=32,
                    descriptor_pasid=32, client=16, queue=16, group=16, engine=16, operation=8,
                    portal=8, outcome=8),
}

# each step and each read that takes an argument, with arguments that are right
QUEUE, ENGINE, POSITION = ("queue", 0), ("engine", 0), ("position", 0)
DESCRIPTOR, PLACE = ("descriptor", NOTHING), ("place", 0)
Arguments = List[Tuple[str, Any]]
STEPS: Dict[str, Arguments] = {
    "enqcmd": [("client", 0), QUEUE, ("portal", 0), ("pasid", 5), DESCRIPTOR],
    "movdir64b": [("client", 0), QUEUE, ("portal", 0), DESCRIPTOR],
    "dispatch": [ENGINE], "dispatch_from": [ENGINE, QUEUE], "fetch": [ENGINE, DESCRIPTOR],
    "start": [ENGINE],
    "finish": [ENGINE, ("cell", 0), ("name", 0), ("outcome", 0)], "command": [("word", 0)],
    "poll": [], "write_queue": [QUEUE, ("config", SHARED)],
    "write_group": [("group", 0), ("config", GROUP)], "clear_error": [],
    "step": [("event", POLL)], "begin_anew": [("keep_fates", True)],
}
READS: Dict[str, Arguments] = {
    **{name: [] for name in ("caps_of", "capacity", "held", "next_name", "active", "awaited",
                             "noted", "phase", "history_length", "history_is_full", "history",
                              "fates_length", "fates", "awaited_names", "saved_size", "save", "room",
                              "is_anew")},
    "why": [("event", POLL)], "reason_of": [("event", POLL)], "queue_reason": [ENGINE, QUEUE],
    "occupancy": [QUEUE], "used": [("group", 0)], "queue_phase": [QUEUE], "queue_config": [QUEUE],
    "group_config": [("group", 0)], "in_progress": [ENGINE], "members": [ENGINE],
    "batch": [ENGINE], "waiting_at": [QUEUE, PLACE], "in_progress_at": [ENGINE, PLACE],
    "member_at": [ENGINE, PLACE], "history_answer": [POSITION], "history_event": [POSITION],
    "history_queue_config": [POSITION], "history_group_config": [POSITION],
    "fate_at": [POSITION], "fate_of": [("name", 0)], "holds": [("cell", 0), ("name", 0)],
    "entry_in": [("cell", 0)],
}


def wrong_numbers(bits: int, truth: bool = False) -> Iterator[Tuple[Any, type]]:
    """Values that are no number of so many bits, each with its error."""
    others: List[Any] = [None, "0", b"\0", 0.0, 1.5, [0], {}, ctypes.c_uint16(0), 1j]
    for other in others if truth else [*others, True, False]:
        yield other, TypeError
    for number in (-1, 1 << bits, (1 << bits) + 1, -(1 << bits), 1 << 64, 1 << 200):
        yield number, ValueError


def wrong_values(name: str, right: Any) -> Iterator[Tuple[Any, type, str]]:
    """Values that the argument may not have, each with its error and what the error names."""
    others: List[Any] = [None, "0" * 64, 64, [0] * 64, {}]
    if isinstance(right, bytes):
        for other in others:
            yield other, TypeError, name
        for length in (0, 1, 63, 65, 128):
            yield bytes(length), ValueError, name
            yield bytearray(length), ValueError, name
    elif isinstance(right, tuple):
        for other in [*others, NOTHING, tuple(right), list(right)]:
            yield other, TypeError, name
        for other in {CAPS, SHARED, GROUP, LIMITS} - {right}:
            yield other, TypeError, name
        for field, bits in FIELDS[type(right)].items():
            for value, error in wrong_numbers(bits, field == "dedicated"):
                yield changed(right, field, value), error, field
    else:
        for value, error in wrong_numbers(BITS[name], name in ("member", "keep_fates")):
            yield value, error, name


def check_arguments(test: unittest.TestCase, call: Callable[..., Any], right: Arguments) -> None:
    """Each wrong value in each place raises its error, which names the argument or the field."""
    for place, (name, value) in enumerate(right):
        for wrong, error, named in wrong_values(name, value):
            arguments = [it for _, it in right]
            arguments[place] = wrong
            with test.subTest(call=getattr(call, "__name__"), wrong=f"{name}: {wrong!r}"):
                with test.assertRaisesRegex(error, rf"^{named} (is|has) "):
                    call(*arguments)


class WrongArguments(unittest.TestCase):
    """What C would cut short raises an error, and nothing changes; wrong numbers are answered."""

    def test_each_call(self) -> None:
        with enabled() as device:
            device.enqcmd(0, 0, Portal.LIMITED, 5, NOTHING)
            before = snapshot(device)
            for name, right in {**STEPS, **READS}.items():
                check_arguments(self, getattr(device, name), right)
                with self.assertRaises(TypeError):
                    getattr(device, name)(*[it for _, it in right], 0)
                if right:
                    with self.assertRaises(TypeError):
                        getattr(device, name)()
            self.assertEqual(snapshot(device), before)

    def test_every_call_is_tried(self) -> None:
        public = {name for name in dir(dsa.Device) if not name.startswith("_")}
        self.assertEqual(public, {*STEPS, *READS, "close", "closed", "load"})

    def test_opening(self) -> None:
        check_arguments(self, dsa.Device, [("caps", CAPS), ("capacity", 10)])

    def test_greatest_numbers(self) -> None:
        """The greatest number of each field comes to the device, which answers it."""
        word, half = (1 << 32) - 1, (1 << 16) - 1
        odd = b"\xff" * 64
        with enabled() as device:
            length = device.history_length()
            self.assertEqual(device.dispatch(half).kind, Kind.IDLE)
            self.assertEqual(device.fetch(half, odd).kind, Kind.NO_BATCH)
            self.assertEqual(device.start(half).kind, Kind.NOTHING)
            self.assertEqual(device.finish(half, word, word, 1).kind, Kind.GONE)
            self.assertEqual(device.finish(half, word, word, word).kind, Kind.BAD_ARGUMENT)
            self.assertEqual(device.command(word).fault, Fault.BadCommand)
            self.assertEqual(device.enqcmd(half, half, word, word, odd).kind, Kind.BAD_ARGUMENT)
            self.assertEqual(device.movdir64b(half, half, 2, odd).kind, Kind.BAD_ARGUMENT)
            most = dsa.Queue(half, half, True, 255, 255, 255, word)
            self.assertEqual(device.write_queue(half, most).fault, Fault.BadIndex)
            self.assertEqual(device.write_queue(0, changed(most, "dedicated", 2)).kind,
                             Kind.BAD_ARGUMENT)
            whole = dsa.Group((1 << 64) - 1, (1 << 64) - 1, half, half)
            self.assertEqual(device.write_group(half, whole).fault, Fault.BadIndex)
            self.assertEqual((device.occupancy(half), device.used(half)), (None, None))
            self.assertIsNone(device.waiting_at(half, (1 << 64) - 1))
            self.assertFalse(device.holds(word, word))
            self.assertEqual(device.history_length(), length)
            self.assertEqual(device.enqcmd(half, half, 0, word, odd).cause, Cause.NOT_ENABLED)
            self.assertEqual(device.enqcmd(half, 0, 1, word, odd).kind, Kind.ACCEPTED)
            self.assertEqual(finish(device, device.dispatch(0)).status, Status.BAD_OPCODE)
        with dsa.Device(CAPS, 10) as device:
            self.assertEqual(device.write_queue(0, most).kind, Kind.WRITTEN)
            self.assertEqual(device.write_group(0, whole).kind, Kind.WRITTEN)
            self.assertEqual((device.queue_config(0), device.group_config(0)), (most, whole))


class Lives(unittest.TestCase):
    """Opening, closing, and what is not done to a device."""

    def test_open_errors(self) -> None:
        """The bounds of docs/MODEL.md, as c/tests/layout.c has them."""
        bounds = dict(queues=65, groups=9, engines=65, total_size=4097, read_buffers=256, slots=17,
                      max_batch_shift=11, max_xfer_shift=32)
        for field, above in bounds.items():
            with self.subTest(field), self.assertRaises(dsa.OpenError) as caught:
                dsa.Device(CAPS._replace(**{field: above}), 10)
            wrong = list(bounds).index(field) + 6, "BAD_" + field.upper()
            self.assertEqual((caught.exception.result, caught.exception.result.name), wrong)
            self.assertIn("%d %s" % wrong, str(caught.exception))
        with self.assertRaises(dsa.OpenError) as caught:
            dsa.Device(CAPS, 1048577)
        self.assertIs(caught.exception.result, dsa.OpenResult.BAD_CAPACITY)
        self.assertIsInstance(caught.exception, dsa.DsaError)

    def test_loaded(self) -> None:
        """A device that is loaded is the one that was saved, and goes on as it does."""
        with enabled() as device:
            for _ in range(3):
                device.enqcmd(0, 0, Portal.LIMITED, 5, NOTHING)
            taken = device.dispatch(0)
            saved = device.save()
            self.assertEqual((len(saved), saved[:8]), (84 + 44 * 10, b"DSASAVED"))
            self.assertEqual((device.saved_size(), saved[-32:]),
                             (len(saved), hashlib.sha256(saved[:-32]).digest()))
            with dsa.Device.load(saved) as other, dsa.Device.load(memoryview(saved)) as third:
                for it in (device, other, third):
                    self.assertEqual(snapshot(it), snapshot(device))
                self.assertEqual(finish(other, taken), finish(device, taken))
                self.assertEqual(snapshot(other), snapshot(device))
                self.assertEqual((other.save(), third.save()), (device.save(), saved))
            self.assertTrue(other.closed)

    def test_load_errors(self) -> None:
        with enabled() as device:
            saved = device.save()
        for wrong, result in ((b"", "TRUNCATED"), (saved[:83], "TRUNCATED"),
                              (saved[:-1], "BAD_LENGTH"), (saved + b"0", "BAD_LENGTH"),
                              (b"X" + saved[1:], "BAD_MAGIC"), (bytes(len(saved)), "BAD_MAGIC"),
                              (saved[:8] + b"\2" + saved[9:], "BAD_VERSION"),
                              (saved[:-1] + bytes([saved[-1] ^ 1]), "BAD_CHECKSUM")):
            with self.subTest(result), self.assertRaises(dsa.LoadError) as caught:
                dsa.Device.load(wrong)
            self.assertEqual(caught.exception.result.name, result)
            self.assertIn(result, str(caught.exception))
        self.assertIsInstance(caught.exception, dsa.DsaError)
        for other in (None, "saved", 84, [0] * 84):
            with self.subTest(other), self.assertRaisesRegex(TypeError, "^saved is "):
                dsa.Device.load(other)  # type: ignore[arg-type]

    def test_closed(self) -> None:
        with enabled() as device:
            self.assertFalse(device.closed)
        self.assertTrue(device.closed)
        device.close()
        device.close()
        for name, arguments in {**STEPS, **READS}.items():
            with self.subTest(name), self.assertRaises(dsa.ClosedDevice):
                getattr(device, name)(*[value for _, value in arguments])
        with self.assertRaises(dsa.ClosedDevice), device:
            self.fail("the body of a closed device runs")

    def test_error_in_the_body_closes(self) -> None:
        with self.assertRaises(KeyError), enabled() as device:
            raise KeyError
        self.assertTrue(device.closed)

    def test_closed_when_nobody_holds_it(self) -> None:
        device: Optional[dsa.Device] = enabled()
        assert device is not None
        handle = device._handle
        self.assertTrue(handle.holds)
        device = None
        gc.collect()
        self.assertEqual((handle.holds, handle.at), (False, None))

    def test_open_at_exit(self) -> None:
        """A program may end with a device open, and so may a forked child."""
        program = ("import os, sys; sys.path.insert(0, sys.argv[1]); import dsa_model as d\n"
                   "device = d.Device(d.Caps(1, 1, 1, 4, 4, 1, 1, 20), 10)\n"
                   "child = os.fork()\n"
                   "if child: print(os.waitpid(child, 0)[1])\n"
                   "print(device.poll().kind.name, flush=True)\n")
        ran = subprocess.run([sys.executable, "-W", "error", "-B", "-c", program, str(FOLDER)],
                             check=False, stdout=subprocess.PIPE, stderr=subprocess.STDOUT)
        self.assertEqual((ran.stdout, ran.returncode), (b"NOTHING\n0\nNOTHING\n", 0))

    def test_never_copied(self) -> None:
        with enabled() as device:
            copies: List[Callable[[Any], Any]] = [copy.copy, copy.deepcopy, pickle.dumps]
            for copying in copies:
                with self.assertRaisesRegex(TypeError, "never copied"):
                    copying(device)
            with self.assertRaises(AttributeError):
                device.other = 1  # type: ignore[attr-defined]
            self.assertEqual(device.held(), 0)


class Threads(unittest.TestCase):
    """Python threads on one device (c/tests/one_lock.c)."""

    def setUp(self) -> None:
        self.addCleanup(sys.setswitchinterval, sys.getswitchinterval())
        sys.setswitchinterval(1e-6)

    def run_threads(self, works: List[Callable[[], int]]) -> List[int]:
        """Runs each in a thread of its own; what they counted."""
        counts = [-1] * len(works)

        def run(place: int) -> None:
            counts[place] = works[place]()

        threads = [threading.Thread(target=run, args=(place,)) for place in range(len(works))]
        for thread in threads:
            thread.start()
        for thread in threads:
            thread.join()
        self.assertNotIn(-1, counts)
        return counts

    def test_with_a_lock(self) -> None:
        lock, device = threading.Lock(), enabled(100_000)

        def submit() -> int:
            accepted = 0
            for _ in range(3000):
                with lock:
                    answer = device.enqcmd(0, 0, Portal.LIMITED, 5, NOTHING)
                accepted += answer.kind == Kind.ACCEPTED
            return accepted

        def work() -> int:
            done = 0
            for _ in range(3000):
                with lock:
                    taken = device.dispatch(0)
                    if taken.kind == Kind.TAKEN:
                        done += finish(device, taken).kind == Kind.DONE
            return done

        with device:
            one, other, third, fourth = self.run_threads([submit, submit, work, work])
            self.assertEqual(device.next_name(), one + other)
            self.assertEqual(device.fates_length(), third + fourth)
            self.assertEqual(one + other, third + fourth + device.held())
            self.assertEqual(third + fourth + work(), one + other)
            self.assertGreaterEqual(one + other, SHARED.threshold)

    @unittest.skipUnless(getattr(sys, "_is_gil_enabled", lambda: True)(), "no interpreter lock")
    def test_calls_come_one_at_a_time(self) -> None:
        """Without a lock of their own, since each call keeps the interpreter's."""
        for name, call in dsa._calls().items():
            self.assertTrue(call._flags_ & _ctypes.FUNCFLAG_PYTHONAPI, name)
        device = enabled(100_000)

        def submit() -> int:
            return sum(device.enqcmd(0, 0, Portal.UNLIMITED, 5, NOTHING).kind == Kind.ACCEPTED
                       for _ in range(3000))

        def work() -> int:
            taken = (device.dispatch(0) for _ in range(3000))
            return sum(finish(device, it).kind == Kind.DONE for it in taken
                       if it.kind == Kind.TAKEN)

        with device:
            *accepted, one, other = self.run_threads([submit, submit, submit, work, work])
            self.assertEqual(device.next_name(), sum(accepted))
            self.assertEqual(device.fates_length(), one + other)
            self.assertEqual(sum(accepted), one + other + device.held())
            self.assertEqual(one + other + work(), sum(accepted))
            self.assertEqual(sorted(ending.name for ending in device.fates()),
                             list(range(sum(accepted))))

    def test_closing_beside_calls(self) -> None:
        """A call beside a close is made whole or raises ClosedDevice."""
        for _ in range(50):
            device = enabled()

            def work() -> int:
                calls = 0
                try:
                    while True:
                        self.assertIn(device.held(), range(9))
                        calls += 1
                except dsa.ClosedDevice:
                    return calls

            def close() -> int:
                device.close()
                return 0

            self.run_threads([work, close, work, close])
            self.assertTrue(device.closed)


class Library(unittest.TestCase):
    """Where the library is looked for, and which is refused."""

    PRINT = "import dsa_model; print(dsa_model._find()); dsa_model.version()"

    def setUp(self) -> None:
        room = tempfile.TemporaryDirectory()
        self.addCleanup(room.cleanup)
        self.room = pathlib.Path(room.name).resolve()
        self.library = dsa._find()

    def find(self, module: str, **environment: str) -> "subprocess.CompletedProcess[str]":
        """Which file the module finds from that folder of the room, by a Python of its own."""
        folder = self.room / module
        folder.mkdir(parents=True, exist_ok=True)
        shutil.copy(FOLDER / "dsa_model.py", folder)
        kept = {name: value for name, value in os.environ.items()
                if name not in ("DSA_MODEL_LIBRARY", "LD_LIBRARY_PATH")}
        return subprocess.run([sys.executable, "-W", "error", "-B", "-c", self.PRINT],
                              cwd=str(folder), env={**kept, **environment}, check=False,
                              stdout=subprocess.PIPE, stderr=subprocess.PIPE,
                              universal_newlines=True)

    def put(self, folder: str) -> str:
        """A copy of the library in that folder of the room."""
        if not os.path.isfile(self.library):
            self.skipTest("the library was found by the loader, its file is not known")
        (self.room / folder).mkdir(parents=True, exist_ok=True)
        return str(shutil.copy(self.library, str(self.room / folder / dsa.LIBRARY)))

    def test_places_in_order(self) -> None:
        """The later a place comes in the order, the earlier it is put here."""
        module = "prefix/share/dsa_model/python"
        for folder in ("prefix/share/dsa_model/out", "prefix/share/dsa_model/lib", "prefix/lib",
                       module):
            expected = self.put(folder)
            with self.subTest(folder):
                ran = self.find(module)
                self.assertEqual((ran.stdout, ran.stderr), (f"{expected}\n", ""))
        named = self.put("named")
        self.assertEqual(self.find(module, DSA_MODEL_LIBRARY=named).stdout, f"{named}\n")

    def test_loader_searches(self) -> None:
        ran = self.find("alone/python", LD_LIBRARY_PATH=os.path.dirname(self.put("searched")))
        self.assertEqual((ran.stdout, ran.stderr), (f"{dsa.LIBRARY}\n", ""))

    def test_not_found(self) -> None:
        """The error lists each place."""
        ran = self.find("a/b/c/python")
        if ran.returncode == 0:
            self.assertEqual(ran.stdout, f"{dsa.LIBRARY}\n")
            self.skipTest("the loader finds a library here")
        for text in ("LibraryNotFound: ", "DSA_MODEL_LIBRARY, which is not set", "./lib",
                     *(f"  {self.room / place}/{dsa.LIBRARY}\n"
                       for place in ("a/b/c/python", "a/lib", "a/b/c/lib", "a/b/c/out"))):
            self.assertIn(text, ran.stderr)

    def test_cannot_be_loaded(self) -> None:
        (self.room / "text").write_text("no library")
        for name in ("text", "nothing"):
            ran = self.find("python", DSA_MODEL_LIBRARY=str(self.room / name))
            self.assertIn(f"LibraryNotFound: {self.room / name} cannot be loaded", ran.stderr)

    def test_named_without_a_folder(self) -> None:
        """The file is that in the working directory, and not what the loader finds so named."""
        expected = self.put("python")
        os.rename(expected, str(self.room / "python" / "mine.so"))
        ran = self.find("python", DSA_MODEL_LIBRARY="mine.so")
        self.assertEqual((ran.stdout, ran.stderr), (f"{self.room / 'python' / 'mine.so'}\n", ""))

    def test_open_without_a_library(self) -> None:
        """One error, and none more from the device that was not opened."""
        self.PRINT = "import dsa_model as d; d.Device(d.Caps(1, 1, 1, 4, 4, 1, 1, 20), 10)"
        ran = self.find("python", DSA_MODEL_LIBRARY=str(self.room / "none"))
        self.assertEqual(ran.stderr.count("Traceback"), 1, ran.stderr)

    def test_versions(self) -> None:
        """Another third number is taken, another first or second is refused."""
        for differs, taken in ((1, True), (999 - dsa.VERSION % 1000, True), (1000, False),
                               (-1000, False), (1_000_000, False)):
            with self.subTest(differs), mock.patch.object(dsa, "VERSION", dsa.VERSION + differs):
                if taken:
                    self.assertIn("dsa_open", dsa._load(self.library))
                else:
                    with self.assertRaisesRegex(dsa.WrongLibrary, "version"):
                        dsa._load(self.library)

    def test_another_library(self) -> None:
        """One without these calls: that of ctypes itself."""
        with self.assertRaisesRegex(dsa.WrongLibrary, "no version"):
            dsa._load(_ctypes.__file__)

    def test_missing_call(self) -> None:
        with mock.patch.dict(dsa._CALLS, {"dsa_no_such_call": ("I", [])}):
            with self.assertRaisesRegex(dsa.WrongLibrary, "no call dsa_no_such_call"):
                dsa._load(self.library)


def event_of(run: Any, step: Dict[str, Any]) -> Optional[dsa.Event]:
    """The event of a step of a document; None: it writes a configuration, or its word is none."""
    event, kind = POLL, step["do"]
    if kind in ("queue", "group"):
        return None
    if "desc" in step:
        found = bytes.fromhex(step["desc"]).ljust(64, b"\0")
        event = event._replace(flags=int.from_bytes(found[4:7], "little"), operation=found[7],
                               size=int.from_bytes(found[32:36], "little"))
    if kind in ("enqcmd", "movdir"):
        portal = Portal.LIMITED if step["limited"] else Portal.UNLIMITED
        event = event._replace(client=step["client"], queue=step["queue"], portal=portal)
    if kind == "command":
        number, operand = step["word"] >> 20 & 31, step["word"] & 0xfffff
        is_one = number in list(Command) and step["word"] >> 25 & 63 == 0
        return event._replace(kind=EventKind.COMMAND, command=Command(number),
                              operand=operand) if is_one else None
    if kind == "finish":
        outcome = Outcome.PAGE_FAULT if step["fault"] else Outcome.SUCCESS
        event = event._replace(name=step["name"], cell=run.cells.get(step["name"], 0),
                               outcome=outcome)
    kinds = {"movdir": EventKind.MOVDIR64B, "clear": EventKind.CLEAR_ERROR}
    return event._replace(kind=kinds.get(kind) or EventKind[kind.upper()],
                          engine=step.get("engine", 0), pasid=step.get("pasid", 0))


class Examples(unittest.TestCase):
    """The programs of python/examples."""

    def run_example(self, *words: str) -> "subprocess.CompletedProcess[bytes]":
        return subprocess.run([sys.executable, "-W", "error", "-B", *words], check=False,
                              stdout=subprocess.PIPE, stderr=subprocess.PIPE)

    def test_back_off(self) -> None:
        """Its lines are those of c/examples/back_off.c."""
        ran = self.run_example(str(FOLDER / "examples" / "back_off.py"))
        self.assertEqual((ran.returncode, ran.stderr), (0, b""))
        expected = (FOLDER / "examples" / "back_off.out").read_bytes()
        self.assertEqual(ran.stdout, expected)
        of_c = TOP / "c" / "examples" / "back_off.out"
        if of_c.exists():
            self.assertEqual(of_c.read_bytes(), expected)

    def test_run_document(self) -> None:
        program = str(FOLDER / "examples" / "run_document.py")
        for name in ("one-move", "no-steps"):
            ran = self.run_example(program, str(TOP / "examples" / f"{name}.json"))
            expected = (TOP / "examples" / f"{name}.out").read_bytes()
            self.assertEqual((ran.returncode, ran.stdout, ran.stderr), (0, expected, b""))
        for words, status in (((), 2), (("a", "b"), 2), (("/no/such/file",), 1)):
            ran = self.run_example(program, *words)
            self.assertEqual((ran.returncode, ran.stdout), (status, b""))
            self.assertEqual(ran.stderr.count(b"\n"), 1)

    def test_page(self) -> None:
        """The example of docs/PYTHON.md prints what the page says."""
        page = (TOP / "docs" / "PYTHON.md").read_text(encoding="utf-8")
        program, printed = re.findall(r"```(?:python)?\n(.*?)```", page, re.DOTALL)
        ran = self.run_example("-c", f"import sys; sys.path.insert(0, {str(FOLDER)!r})\n{program}")
        self.assertEqual((ran.stdout.decode(), ran.stderr), (printed, b""))
        public = [name for name in [*vars(dsa), *vars(dsa.Device)] if name[0].islower()]
        functions = [name for name in public if callable(getattr(dsa.Device, name, None))
                     or getattr(getattr(dsa, name, None), "__module__", "") == dsa.__name__]
        self.assertGreater(len(functions), 50)
        for name in functions:
            self.assertRegex(page, rf"`{name}[`(]")

    def test_first_lines(self) -> None:
        """The example in the module's docstring runs."""
        lines = str(dsa.__doc__).splitlines()
        first = lines.index("    import dsa_model as dsa")
        program = [line[4:] for line in lines[first:] if line.startswith("    ") or not line]
        ran = self.run_example("-c", "\n".join(
            [f"import sys; sys.path.insert(0, {str(FOLDER)!r})", *program]))
        self.assertEqual((ran.returncode, ran.stdout, ran.stderr), (0, b"", b""))
        self.assertIn("assert", "".join(program))

    def test_all_documents(self) -> None:
        """The lines of each document among the examples that the program runs."""
        sys.path.insert(0, str(FOLDER / "examples"))
        self.addCleanup(sys.path.remove, str(FOLDER / "examples"))
        run_document = importlib.import_module("run_document")
        paths = [path for path in sorted((TOP / "examples").glob("*.json"))
                 if path.with_suffix(".out").exists()]
        self.assertGreater(len(paths), 40)
        for path in paths:
            with self.subTest(path.name):
                lines = run_document.lines_of(json.loads(path.read_text(encoding="utf-8")))
                expected = path.with_suffix(".out").read_text(encoding="utf-8")
                self.assertEqual("".join(f"{line}\n" for line in lines), expected)

    def test_reasons(self) -> None:
        """What `why` says before each step of an example is what `./run explain` has behind it."""
        sys.path.insert(0, str(FOLDER / "examples"))
        self.addCleanup(sys.path.remove, str(FOLDER / "examples"))
        run_document = importlib.import_module("run_document")
        paths = sorted((TOP / "examples").glob("*.explain"))
        self.assertGreater(len(paths), 30)
        told = 0
        for path in paths:
            document = json.loads(path.with_suffix(".json").read_text(encoding="utf-8"))
            lines = path.read_text(encoding="utf-8").splitlines()
            self.assertEqual(len(lines), len(document["steps"]))
            caps = dsa.Caps(**{key: document["caps"][key] for key in dsa.Caps._fields})
            with dsa.Device(caps, document["capacity"]) as device:
                run = run_document.Run(device)
                for named, step in zip(lines, document["steps"]):
                    line = re.sub(r" \[\d+ is .*\]$", "", named)  # without own names
                    event = event_of(run, step)
                    reason = device.why(event) if event else None
                    numbers = device.reason_of(event) if event else None
                    self.assertEqual(None if reason is None else reason != "",
                                     numbers and numbers.kind != dsa.ReasonKind.NONE)
                    answer = run.answer(step)
                    if reason is not None:
                        told += reason != ""
                        wanted = f" -> {run_document.line_of(answer)}" + (reason and f": {reason}")
                        with self.subTest(path.name, line=line):
                            self.assertTrue(line.endswith(wanted), wanted)
        self.assertGreater(told, 150)


if __name__ == "__main__":
    unittest.main()
