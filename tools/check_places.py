"""Where a line of a check points to, by a scanner of its own: the line and the column of a key or a value in a document."""
import json
import re

BLANKS = " \t\n\r"
MOST_PLACED = 16

PART = re.compile(r"(?P<mark>warning: )?(?:line \d+, )?(?P<part>step (?P<step>\d+)(?: \(\w+\))?|document|caps|capacity): (?P<reason>.*)", re.DOTALL)
KEY = re.compile(r'"(?P<key>[^"]*)"(?P<caps> of "caps")? (?:is missing, and "(?P<found>[^"]*)" is no key here|(?P<rest>.*))', re.DOTALL)


class Node:
    """A value in a text: where it begins and ends, and its members, each with its key and where that begins, or its items."""

    def __init__(self, begin):
        self.begin, self.end, self.members, self.items = begin, begin, None, None

    def last(self, key):
        return next((member for member in reversed(self.members or []) if member[0] == key), None)


def past_blanks(text, at):
    while text[at : at + 1] and text[at] in BLANKS:
        at += 1
    return at


def end_of_text(text, at):
    at += 1
    while text[at] != '"':
        at += 2 if text[at] == "\\" else 1
    return at + 1


def scan_items(text, node):
    """The items of an array, or the members of an object."""
    is_array, at = text[node.begin] == "[", past_blanks(text, node.begin + 1)
    found = []
    while text[at] not in "]}":
        key_at = at
        if not is_array:
            key_end = end_of_text(text, at)
            at = past_blanks(text, past_blanks(text, key_end) + 1)
        value = scan(text, at)
        found.append(value if is_array else (json.loads(text[key_at:key_end], strict=False), key_at, value))
        at = past_blanks(text, value.end)
        if text[at] == ",":
            at = past_blanks(text, at + 1)
    node.end = at + 1
    if is_array:
        node.items = found
    else:
        node.members = found


def scan(text, at):
    """The value that begins here, after blanks. Each byte of the text is one character."""
    node = Node(past_blanks(text, at))
    first = text[node.begin]
    if first in "[{":
        scan_items(text, node)
    elif first == '"':
        node.end = end_of_text(text, node.begin)
    else:
        node.end = node.begin
        while node.end < len(text) and text[node.end] not in BLANKS + ",]}":
            node.end += 1
    return node


def spelled_out(text, begin):
    """Whether the key `steps` is written as it is."""
    return text[begin:].startswith('"steps"')


def part_of(text, document, line):
    """The value that is told of, and what of it."""
    reason = KEY.match(line["reason"])
    part = line["part"].split(" ")[0]
    if reason and reason["caps"] or part == "caps":
        member = document.last("caps")
    elif part == "step":
        member = document.last("steps")
        if not spelled_out(text, member[1]):
            return None, reason
        return member[2].items[int(line["step"])], reason
    else:
        return document, reason
    return member[2] if member else None, reason


def offset_of(node, reason):
    """Where that is which a reason points to."""
    if reason is None or (reason["rest"] or "").startswith("is missing"):
        return node.begin
    if reason["found"] is not None:
        return node.last(reason["found"])[1]
    if reason["rest"].startswith(("is no key here", "comes twice")):
        return node.last(reason["key"])[1]
    if reason["rest"] == "names no kind of step":
        return node.last("do")[2].begin
    return node.last(reason["key"])[2].begin


def placed(document, lines):
    """These lines, each with the line and the column to which it points in the document."""
    text = document.decode("latin-1") if isinstance(document, bytes) else document.encode().decode("latin-1")
    whole, counts, told = scan(text, 0), {}, []
    for line in lines:
        match = PART.fullmatch(line)
        about = (match["mark"], match["part"].split(" (")[0])
        counts[about] = counts.get(about, 0) + 1
        node, reason = part_of(text, whole, match)
        mark, rest = match["mark"] or "", f"{match['part']}: {match['reason']}"
        if node is None:
            told.append(f"{mark}{rest}")
        elif counts[about] > MOST_PLACED:
            number = text.count("\n", 0, node.begin) + 1
            told.append(f"{mark}line {number}, {rest}" if match["step"] else f"{mark}{rest}")
        else:
            offset = offset_of(node, reason)
            number, column = text.count("\n", 0, offset) + 1, offset - text.rfind("\n", 0, offset)
            told.append(f"{mark}line {number}, column {column}, {rest}")
    return told
