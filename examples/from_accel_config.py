"""Writes the document of a device that `accel-config save-config` has saved.

    python3 examples/from_accel_config.py FILE >device.json
    ./run explain device.json

FILE may also have what `accel-config list` prints. The steps of the document configure the device,
and enable it and its queues. docs/LINUX.md says which setting is which key. Left out are queues and
engines in no group, and a group that has neither and reserves no read buffers.
"""

import argparse
import json
import re
import sys

from write_document import Document

# Linux' defaults of a queue, in descriptors and in bytes.
BATCH_SIZE, TRANSFER_SIZE = 32, 1 << 21

# Keys of a device that `accel-config list` prints, and further options: which key of the document
# each gives, and its default, as in real-device.json.
KEYS = {"max_work_queues": ("queues", 8), "max_groups": ("groups", 4),
        "max_engines": ("engines", 4), "work_queue_size": ("total_size", 128),
        "max_read_buffers": ("read_buffers", 96), "max_batch_size": ("max_batch_shift", 1024),
        "max_transfer_size": ("max_xfer_shift", 1 << 31), "slots": ("slots", 16),
        "capacity": ("capacity", 1000), "pasid": ("pasid", 7)}

# A text, or a comma after a last item. accel-config takes such commas, and JSON has none.
TEXT_OR_COMMA = re.compile(r'("(?:[^"\\]|\\.)*")|,(?=\s*[]}])')

WANTED = {int: "a whole number without a sign", str: "a text", list: "a list"}


class Refused(Exception):
    """What is wrong with a configuration, in one line."""


def wrong(item, key, wanted):
    name, found = json.dumps(item.get("dev")), json.dumps(item[key])
    return Refused(f'"{key}" of {name} is {found}, {wanted} is wanted')


def value(item, key, kind, default=None):
    """The value of a key. Without a default the key has to be there."""
    if key not in item and default is None:
        raise Refused(f'"{key}" of {json.dumps(item.get("dev"))} is missing')
    found = item.get(key, default)
    if type(found) is not kind or (kind is int and found < 0):
        raise wrong(item, key, WANTED[kind])
    return found


def shift(item, key, default):
    """The logarithm to base 2 of a size."""
    size = value(item, key, int, default)
    if bin(size).count("1") != 1:
        raise wrong(item, key, "a power of two")
    return size.bit_length() - 1


def numbered(items, word):
    """The items with their numbers: that of wq0.3 is 3."""
    for item in items:
        name = item.get("dev") if isinstance(item, dict) else None
        found = re.fullmatch(rf"{word}[0-9]+\.([0-9]{{1,2}})", str(name))
        if not found:
            raise Refused(f'"dev" of an item is {json.dumps(name)}, one like "{word}0.0" is wanted')
        yield int(found[1]), item


def number(item, key, default):
    """A number of which older kernels count tokens, where newer ones count read buffers."""
    return value(item, key, int, value(item, key.replace("read_buffers", "tokens"), int, default))


def write_queue(document, place, queue, group, pasid):
    mode = value(queue, "mode", str)
    if mode not in ("shared", "dedicated"):
        raise wrong(queue, "mode", '"shared" or "dedicated"')
    if value(queue, "group_id", int, group) != group:
        raise wrong(queue, "group_id", group)
    dedicated = mode == "dedicated"
    document.queue(
        place, size=value(queue, "size", int), dedicated=dedicated,
        threshold=value(queue, "threshold", int, 0 if dedicated else None),
        priority=value(queue, "priority", int), pasid=pasid if dedicated else 0,
        batch=shift(queue, "max_batch_size", BATCH_SIZE),
        xfer=shift(queue, "max_transfer_size", TRANSFER_SIZE))


def document_of(device):
    """The document of a device, which may also have the keys of the options."""
    given = {name: (shift if name.endswith("_shift") else number)(device, key, default)
             for key, (name, default) in KEYS.items()}
    pasid, groups, enabled = given.pop("pasid"), [], set()
    document = Document(**given)
    for place, group in numbered(value(device, "groups", list), "group"):
        queues = list(numbered(value(group, "grouped_workqueues", list, []), "wq"))
        engines = list(numbered(value(group, "grouped_engines", list, []), "engine"))
        reserved = number(group, "read_buffers_reserved", 0)
        allowed = number(group, "read_buffers_allowed", given["read_buffers"])
        for queue, settings in queues:
            write_queue(document, queue, settings, place, pasid)
            enabled.add(queue)
        if queues or engines or reserved:
            members = [queue for queue, _ in queues], [engine for engine, _ in engines]
            groups.append((place, *members, reserved, allowed))
    for group in groups:
        document.group(*group)
    document.command("Enable Device", interrupt=True)
    for queue in sorted(enabled):
        document.command("Enable WQ", queue, interrupt=True)
    return document


def read(file):
    try:
        with open(0 if file == "-" else file, encoding="utf-8") as stream:
            return json.loads(TEXT_OR_COMMA.sub(lambda it: it[1] or " ", stream.read()))
    except OSError as error:
        raise Refused(f"{file}: {error.strerror}")
    except json.JSONDecodeError as error:
        raise Refused(f"line {error.lineno}, column {error.colno}: not JSON")
    except (ValueError, RecursionError):
        raise Refused("not JSON")


def device_in(devices, name):
    """The DSA device of this name, or the first one."""
    if not isinstance(devices, list):
        raise Refused("the configuration is no list of devices")
    names = [it.get("dev") if isinstance(it, dict) else None for it in devices]
    for device, found in zip(devices, names):
        if re.fullmatch("dsa[0-9]+", str(found)) and name in (None, found):
            return device
    raise Refused(f"there is no device {json.dumps(name or 'dsaN')} in {json.dumps(names)}")


def options_of(words):
    parser = argparse.ArgumentParser(
        description=__doc__.split("\n")[0],
        epilog="Without an option the number is that of FILE, or else the one in parentheses.")
    parser.add_argument("file", nargs="?", default="-", metavar="FILE",
                        help="what was saved (standard input)")
    parser.add_argument("--device", metavar="NAME", help="which device, as dsa1 (the first)")
    parser.add_argument("--line", action="store_true", help="write one line, as serve reads it")
    for key, (name, default) in KEYS.items():
        parser.add_argument(f"--{key}".replace("_", "-"), type=int, metavar="N",
                            default=argparse.SUPPRESS, help=f"for the key {name} ({default})")
    return vars(parser.parse_args(words))


def main():
    options = options_of(sys.argv[1:])
    file, name, line = (options.pop(it) for it in ("file", "device", "line"))
    try:
        document = document_of({**device_in(read(file), name), **options})
    except Refused as refused:
        sys.exit(f"from_accel_config: {refused}")
    print(document.line() if line else document)


if __name__ == "__main__":
    main()
