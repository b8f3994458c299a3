#!/usr/bin/env python3
"""A client submits through the limited portal of a shared queue and backs off.

At the threshold ENQCMD asks for a retry. The client then lets the engine work a while, twice as
long each time. It prints the lines of back_off.out.
"""

from __future__ import annotations

import os
import sys

sys.path.insert(0, os.path.join(os.path.dirname(os.path.abspath(__file__)), ".."))
import dsa_model as dsa  # noqa: E402

CAPS = dsa.Caps(queues=1, groups=1, engines=1, total_size=8, read_buffers=16, slots=2,
                max_batch_shift=3, max_xfer_shift=20)
QUEUE = dsa.Queue(size=8, threshold=3, dedicated=False, priority=1, max_batch_shift=3,
                  max_xfer_shift=20)
GROUP = dsa.Group(queues=dsa.bit_set([0]), engines=dsa.bit_set([0]), reserved=4, allowed=16)
MOVE = dsa.descriptor(dsa.Operation.MEMMOVE, size=4096)


def set_up(device: dsa.Device) -> None:
    for answer in (device.write_queue(0, QUEUE), device.write_group(0, GROUP),
                   device.command(dsa.command_word(dsa.Command.ENABLE_DEVICE)),
                   device.command(dsa.command_word(dsa.Command.ENABLE_WQ, 0))):
        if answer.fault is not None:
            sys.exit(f"refused: {answer.fault.name}")


def engine_works(device: dsa.Device, rounds: int) -> None:
    for _ in range(rounds):
        taken = device.dispatch(0)
        if taken.kind != dsa.Kind.TAKEN:
            return
        done = device.finish(0, taken.cell, taken.name, dsa.Outcome.SUCCESS)
        print(f"  entry {taken.name}: DSA_COMP_{dsa.Status(done.more).name}")


def submit(device: dsa.Device, number: int) -> None:
    wait = 1
    while True:
        answer = device.enqcmd(0, 0, dsa.Portal.LIMITED, 5, MOVE)
        waiting = device.occupancy(0)
        print(f"submission {number}: {answer.kind.name.lower()}, {waiting} waiting")
        if answer.zf is not True:
            return
        engine_works(device, wait)
        wait *= 2


def main() -> None:
    with dsa.Device(CAPS, capacity=1000) as device:
        set_up(device)
        for number in range(8):
            submit(device, number)
        engine_works(device, 8)
        print(f"{device.fates_length()} ended, {device.held()} held")


if __name__ == "__main__":
    main()
