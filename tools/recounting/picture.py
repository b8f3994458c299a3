"""The facts that are read from a drawing, compared with those of drawing.py."""
from __future__ import annotations

import json
import re
from typing import List, Sequence, Tuple
from xml.etree import ElementTree

from .drawing import Facts, Span, expected
from .program import Comparer
from .run import Run

FIRST, WIDTH = 112, 14
ROWS = {104: "clients", 120: "administrator", 168: "fates"}
SPACE = "{http://www.w3.org/2000/svg}"


class Picture:
    """The facts that are read from a drawing."""

    def __init__(self, text: str, span: Span) -> None:
        self.span, self.count = span, span.last - span.first + 1
        root = ElementTree.fromstring(text)
        items = list(root)
        self.title = root.findtext(f"{SPACE}title") or ""
        # the legend comes last
        self.items = items[:-1]
        self.rows: List[Tuple[int, str]] = []
        names: List[str] = []
        for item in self.items:
            if tag(item) == "text" and item.get("x") == "4":
                label = item.text or ""
                names.append(label)
                if label.startswith("engine"):
                    self.rows.append((int(item.get("y")) - 3, label))
        self.labels = [name for name in names if not re.match(r"0 to|peak", name)]
        self.notes = [name for name in names if re.match(r"0 to|peak", name)]

    def facts(self) -> Facts:
        found: Facts = {
            "title": [self.title],
            "columns": [],
            "rows": self.labels,
            "commands": [],
            "marks": [],
            "fates": [],
            "active": [],
            "phases": [],
            "levels": self.levels(),
            "bars": [],
        }
        for item in self.items:
            key, fact = self.fact_of(item)
            if key:
                found[key].append(fact)
            if key == "fates":
                found["marks"] += [fact for key, fact in map(self.fact_of, item) if key == "marks"]
        for key in "marks", "phases", "bars":
            found[key].sort()
        return found

    def fact_of(self, item: ElementTree.Element) -> Tuple[str, str]:
        """The fact of an item with the key of its list, or two empty texts."""
        kind, style = tag(item), item.get("class")
        title = item.findtext(f"{SPACE}title")
        if kind == "g" and title is not None:
            return self.group_fact(item, title)
        if kind == "rect" and style == "column" and title is not None:
            return "columns", title
        if kind == "rect" and style == "batch":
            return "bars", f"{title}; {self.columns(item)}"
        if kind == "text" and "rotate" in item.get("transform", ""):
            left = int(re.findall(r"\d+", item.get("transform"))[0]) - 10
            return "commands", f"{self.step_at(left)}: {item.text}"
        if kind == "circle" or kind == "path" and style == "failed":
            return "marks", self.mark(item)
        if kind == "path" and style in ("on", "stopping") and title is not None:
            left, _, width = map(int, re.findall(r"\d+", item.get("d")))
            begin = (left - FIRST) // WIDTH
            return "phases", f"{title}; {(begin, begin + width // WIDTH)}"
        return "", ""

    def faults_of_lanes(self) -> List[str]:
        """Bars that share a column of their lane."""
        found, ends = [], {}
        bars = [part for item in self.items if tag(item) == "g" for part in item if is_bar(part)]
        for bar in sorted(bars, key=lambda bar: int(bar.get("x"))):
            begin, end = self.columns(bar)
            lane = bar.get("y")
            if begin < ends.get(lane, 0):
                found.append(f"two bars in column {begin} at {lane}")
            ends[lane] = end
        return found

    def group_fact(self, item: ElementTree.Element, title: str) -> Tuple[str, str]:
        """The fact of a group with a title: fates, a command that was active, or a bar."""
        bars = list(filter(is_bar, item))
        if title.startswith("step "):
            counts = [part.text for part in item if tag(part) == "text"]
            return "fates", "; ".join([*title.strip().split("\n"), *counts])
        if bars and bars[0].get("class") == "active":
            return "active", f"{title}; {self.columns(bars[0])}"
        parts = [f"{part.get('class')} {self.columns(part)}" for part in bars]
        return "bars", "; ".join([title, *parts])

    def step_at(self, left: int) -> int:
        return self.span.first + (left - FIRST) // WIDTH

    def columns(self, item: ElementTree.Element) -> Tuple[int, int]:
        left, width = int(item.get("x")), int(item.get("width"))
        begin = (left - FIRST) // WIDTH
        return begin, begin + width // WIDTH

    def mark(self, item: ElementTree.Element) -> str:
        """A mark with the row and the step that its place means."""
        if tag(item) == "circle":
            across, down = int(item.get("cx")), int(item.get("cy"))
        else:
            left, top = map(int, re.findall(r"\d+", item.get("d"))[:2])
            across, down = left + 3, top + 3
        row = ROWS.get(down) or dict(self.rows).get(down, f"at {down}")
        return f"{row}, step {self.step_at(across - WIDTH // 2)}: {item.get('class')}"

    def levels(self) -> List[str]:
        """The range and the peak of each row of levels, and what its three paths show."""
        names = [label for label in self.labels if label.startswith(("queue", "buffers"))]
        paths = [
            item
            for item in self.items
            if tag(item) == "path" and item.get("class") in ("filled", "mark", "limit")
        ]
        found = []
        for index, name in enumerate(names):
            said = ", ".join(self.notes[2 * index : 2 * index + 2])
            three = paths[3 * index : 3 * index + 3]
            found.append(f"{name}: {said}; {'; '.join(map(self.heights, three))}")
        return found

    def heights(self, path: ElementTree.Element) -> str:
        """How high a path is above its first point, in each column."""
        found, across, down, base = [0] * self.count, FIRST, 0, None
        for letter, one, other in re.findall(r"([MVHZ])(\d*) ?(\d*)", path.get("d")):
            if letter == "M":
                across, down = int(one), int(other)
                base = down if base is None else base
            if letter == "V":
                down = int(one)
            if letter == "H":
                first, last = ((x - FIRST) // WIDTH for x in (across, int(one)))
                found[first:last] = [base - down] * (last - first)
                across = int(one)
        return str(found)


def is_bar(item: ElementTree.Element) -> bool:
    return tag(item) == "rect" and item.get("rx") is not None


def tag(item: ElementTree.Element) -> str:
    return item.tag.replace(SPACE, "")


def compare_drawing(comparer: Comparer, run: Run, words: Sequence[str], span: Span) -> None:
    what = " ".join(["draw", *words])
    output = comparer.output(["draw", *words], json.dumps(run.document))
    try:
        picture = Picture(output, span)
        facts = picture.facts()
    except (ElementTree.ParseError, ValueError, TypeError) as fault:
        comparer.holds(what, False, f"no drawing: {fault!r}")
        return
    comparer.same(f"{what}, lanes", [], picture.faults_of_lanes())
    features = comparer.program.features
    told = expected(run, span, features.explains_in_titles, features.draws_own_names)
    for key, wanted in told.items():
        comparer.same(f"{what}, {key}", wanted, facts[key])
