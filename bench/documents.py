#!/usr/bin/env python3
"""Writes scenario documents for measuring speed, each filled with one kind of steps.

usage: bench/documents.py KIND BYTES            one document, to standard output
       bench/documents.py --all FOLDER [BYTES]...
                                                every kind of each size, as FOLDER/KIND-BYTES.json;
                                                without BYTES of 262144, 524288 and 1048576
       bench/documents.py --list                the kinds, each with what its documents do

A document is a set-up and then rounds of steps, until the next round would go past BYTES. It is one
line without spaces, and valid: docs/SCENARIO.md describes the format. Names are counted here as the
device gives them, so each finish meets its entry."""
import json
import pathlib
import sys

SIZES = 262144, 524288, 1048576


def text_of(value):
    return json.dumps(value, separators=(",", ":"))


def descriptor(operation, size):
    """The text of a descriptor whose other bytes are zero."""
    return bytes([0] * 7 + [operation] + [0] * 24).hex() + size.to_bytes(4, "little").hex()


NO_OP = ""


def batch(count):
    return descriptor(1, count)


def move(size=4096):
    return descriptor(3, size)


def caps(queues=1, groups=1, engines=1, read_buffers=255):
    return {
        "queues": queues, "groups": groups, "engines": engines, "total_size": 128,
        "read_buffers": read_buffers, "slots": 16, "max_batch_shift": 6, "max_xfer_shift": 31,
    }


def queue(number, size, dedicated=False, priority=1, pasid=0):
    return {
        "do": "queue", "queue": number, "size": size, "threshold": size, "dedicated": dedicated,
        "priority": priority, "pasid": pasid, "batch": 6, "xfer": 31,
    }


def group(number, queues, engines, reserved=0, allowed=255):
    return {
        "do": "group", "group": number, "queues": queues, "engines": engines,
        "reserved": reserved, "allowed": allowed,
    }


def enqcmd(queue, desc, limited=False, pasid=5):
    return {
        "do": "enqcmd", "client": 0, "queue": queue, "limited": limited, "pasid": pasid,
        "desc": desc,
    }


def movdir(queue, desc):
    return {"do": "movdir", "client": 0, "queue": queue, "limited": False, "desc": desc}


def dispatch(engine=0):
    return {"do": "dispatch", "engine": engine}


def fetch(desc):
    return {"do": "fetch", "engine": 0, "desc": desc}


def finish(name, engine=0):
    return {"do": "finish", "engine": engine, "name": name, "fault": False}


def command(number, operand=0):
    return {"do": "command", "word": number << 20 | operand}


START = {"do": "start", "engine": 0}
POLL = {"do": "poll"}
CLEAR = {"do": "clear"}


def enable(queues):
    return [command(1)] + [command(6, queue) for queue in range(queues)]


class Names:
    """The names that the device gives, in turn."""

    def __init__(self):
        self.given = 0

    def give(self, count):
        first, self.given = self.given, self.given + count
        return list(range(first, self.given))


# The set-ups: the capabilities and the first steps.


def one_queue(size=128, engines=1):
    first = [queue(0, size), group(0, 1, (1 << engines) - 1)]
    return caps(engines=engines), first + enable(1)


def small_queue():
    return one_queue(4)


def eight_engines():
    return one_queue(128, 8)


def two_queues():
    return caps(queues=2), [queue(0, 127), queue(1, 1), group(0, 3, 1)] + enable(2)


def two_dedicated_queues():
    queues = [queue(number, 2, dedicated=True, pasid=7 + number) for number in range(2)]
    return caps(queues=2), queues + [group(0, 3, 1)] + enable(2)


def sixteen_queues(read_buffers=255):
    queues = [queue(number, 8, priority=number % 15 + 1) for number in range(16)]
    first = queues + [group(0, 65535, 1, allowed=read_buffers)]
    return caps(queues=16, read_buffers=read_buffers), first + enable(16)


def four_read_buffers():
    return sixteen_queues(4)


def eight_groups():
    queues = [queue(number, 8, priority=min(number + 1, 15)) for number in range(16)]
    groups = [group(number, 3 << 2 * number, 1 << number, 4, 32) for number in range(8)]
    return caps(queues=16, groups=8, engines=8), queues + groups + enable(16)


def nothing_written():
    return caps(queues=16, groups=8, engines=8), []


# The kinds: each gives rounds of steps without end. Its first words go into --list.


def rounds(names):
    """submit, dispatch and finish of one Memory Move"""
    while True:
        (name,) = names.give(1)
        yield [enqcmd(0, move(), limited=True), dispatch(), finish(name)]


def retries(names):
    """ENQCMD to a full queue"""
    while True:
        yield [enqcmd(0, move(), limited=True)]


def dropped(names):
    """MOVDIR64B to full queues; every eighth step clears the noted error"""
    yield [movdir(number // 2, move()) for number in range(4)]
    while True:
        yield [movdir(number % 2, move()) for number in range(7)] + [CLEAR]


def polls_idle(names):
    """polls without an active command"""
    while True:
        yield [POLL]


def polls_walk(names):
    """polls of a Drain PASID that waits for one entry, while 127 of another PASID are held"""
    yield [enqcmd(0, NO_OP, pasid=6)] * 127
    yield [enqcmd(1, NO_OP, pasid=7), command(11, 7)]
    while True:
        yield [POLL]


def batches(names):
    """a batch of 64 members: all fetched, then all started, then all ended, then the batch"""
    while True:
        (whole,), members = names.give(1), names.give(64)
        yield (
            [enqcmd(0, batch(64)), dispatch()] + [fetch(NO_OP)] * 64 + [START] * 64
            + [finish(name) for name in members] + [finish(whole)]
        )


def batches_in_turn(names):
    """a batch of 64 members, each fetched, started and ended before the next"""
    while True:
        (whole,), members = names.give(1), names.give(64)
        steps = [enqcmd(0, batch(64)), dispatch()]
        for name in members:
            steps += [fetch(move()), START, finish(name)]
        yield steps + [finish(whole)]


def aborts(names):
    """128 entries, and then Abort All"""
    while True:
        names.give(128)
        yield [enqcmd(0, NO_OP)] * 128 + [command(4)]


def drains(names):
    """eight entries, a drain of their queue, and polls before and after the end of each"""
    while True:
        steps = [enqcmd(0, NO_OP)] * 8 + [command(8, 1)]
        for name in names.give(8):
            steps += [POLL, dispatch(), finish(name), POLL]
        yield steps


def sixteen_groups(names):
    """rounds over 16 queues in 8 groups of two, each group with an engine"""
    while True:
        given = names.give(16)
        steps = [enqcmd(number, move(), pasid=number) for number in range(16)]
        for number in range(8):
            low, high = given[2 * number : 2 * number + 2]
            steps += [dispatch(number), dispatch(number)]
            steps += [finish(high, number), finish(low, number)]
        yield steps


def sixteen_one_group(names):
    """rounds over 16 queues in one group with one engine"""
    while True:
        steps = [enqcmd(number, move(), pasid=number) for number in range(16)]
        yield steps + [dispatch()] * 16 + [finish(name) for name in names.give(16)]


def dispatch_no_slot(names):
    """dispatches on an engine without a free slot, with 16 queues that each hold an entry"""
    entries = [enqcmd(number, NO_OP) for number in range(16)]
    yield entries + [dispatch()] * 16 + entries
    while True:
        yield [dispatch()]


def dispatch_no_buffers(names):
    """dispatches with 16 fronts, none of which has its read buffers"""
    yield [enqcmd(0, move(16384)), dispatch()]
    yield [enqcmd(number, move(16384)) for number in range(16)]
    while True:
        yield [dispatch()]


def writes(names):
    """writes of configurations while the device is Off"""
    number = 0
    while True:
        place, one = number % 8, number % 16
        yield [
            queue(one, 1 + place, priority=1 + number % 15, pasid=number),
            group(place, 3 << 2 * place, 1 << place, 2, 30),
        ]
        number += 1


def forged(names):
    """finishes of names that have ended, or were not given"""
    yield [enqcmd(0, NO_OP), dispatch(), finish(0), enqcmd(0, NO_OP), dispatch()]
    name = 1000000
    while True:
        yield [finish(0), finish(name)]
        name += 1


def bad_words(names):
    """command words that are no command, or are refused"""
    while True:
        yield [command(0), command(13), command(1), command(6, 99)]


def deep_slots(names):
    """16 entries in progress on each of 8 engines"""
    while True:
        given = names.give(128)
        yield (
            [enqcmd(0, move())] * 128 + [dispatch(number % 8) for number in range(128)]
            + [finish(name, number % 8) for number, name in enumerate(given)]
        )


KINDS = {
    "rounds": (rounds, small_queue),
    "retries": (retries, small_queue),
    "dropped": (dropped, two_dedicated_queues),
    "polls-idle": (polls_idle, one_queue),
    "polls-walk": (polls_walk, two_queues),
    "batches": (batches, one_queue),
    "batches-in-turn": (batches_in_turn, one_queue),
    "aborts": (aborts, one_queue),
    "drains": (drains, one_queue),
    "sixteen-groups": (sixteen_groups, eight_groups),
    "sixteen-one-group": (sixteen_one_group, sixteen_queues),
    "dispatch-no-slot": (dispatch_no_slot, sixteen_queues),
    "dispatch-no-buffers": (dispatch_no_buffers, four_read_buffers),
    "writes": (writes, nothing_written),
    "forged": (forged, one_queue),
    "bad-words": (bad_words, one_queue),
    "deep-slots": (deep_slots, eight_engines),
}


def document(kind, most, capacity=1048576):
    """The document of this kind that has at most so many bytes, or its set-up alone."""
    rounds_of, set_up = KINDS[kind]
    device, first = set_up()
    head = text_of({"caps": device, "capacity": capacity, "steps": []})[:-2]
    parts = [text_of(step) for step in first]
    size = len(head) + 1 + sum(len(part) + 1 for part in parts)
    for steps in rounds_of(Names()):
        more = [text_of(step) for step in steps]
        size += sum(len(part) + 1 for part in more)
        if size > most:
            break
        parts += more
    return head + ",".join(parts) + "]}"


def main():
    words = sys.argv[1:]
    try:
        if words == ["--list"]:
            for kind, (rounds_of, _) in KINDS.items():
                print(f"{kind:20} {rounds_of.__doc__}")
        elif words in (["-h"], ["--help"]):
            print(__doc__)
        elif words[0] == "--all":
            folder = pathlib.Path(words[1])
            for size in [int(word) for word in words[2:]] or SIZES:
                for kind in KINDS:
                    (folder / f"{kind}-{size}.json").write_text(document(kind, size))
        else:
            kind, size = words
            sys.stdout.write(document(kind, int(size)))
    except (IndexError, KeyError, ValueError):
        print(__doc__.split("\n\n")[1], file=sys.stderr)
        return 2
    return 0


if __name__ == "__main__":
    sys.exit(main())
