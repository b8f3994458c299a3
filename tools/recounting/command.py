"""The command line of tools/recount."""
from __future__ import annotations

import argparse
import json
import random
import sys
import textwrap
from typing import Iterator, Optional, Sequence, Tuple

from . import chrome, conforming, counts, drawing, texts
from .checking import compare_checks
from .dialogue import compare_begun, compare_serve
from .documents import decorated, document_of
from .formless import compare_formless, compare_long
from .friendly import compare_expand
from .picture import compare_drawing
from .program import Comparer, Program
from .run import Document, Run, run_of

ABOUT = """
Compares a built dsa_run with an independent model of the device on random documents.

The model in tools/recounting is written from docs/MODEL.md, docs/SCENARIO.md, docs/EXPLAIN.md,
docs/COMMANDS.md and docs/EXPAND.md alone, but for the cells of entries, which are as
docs/DECISIONS.md has them. For each document it makes the text of each command, and compares it
with what the program writes. Dialogues are strict or friendly, and in some the history begins anew.
Where a page leaves something open, each choice of the program is accepted: which run --seen shows,
which of several devices a reason of 'conform' is of, and which lane a bar has. Left out are
'threads', colors, and the legend and the labels of drawings.
"""
MORE = """
With FILE the documents are those of the files, for which 'check' has no warning. Otherwise they are
random, and those of a seed are always the same.

Each difference has a line, with the seed and its document; --first NUMBER --count 1 compares that
document again, and --show prints it. The last line is 'N documents, M texts compared,
K differences'. A line before it names what the program does not have, by the names of
tools/recounting/features.py: it is not compared. The exit status is 0 if nothing differs.
"""
WORDS = [
    *("accepted", "retry", "dropped", "taken", "idle", "fetched", "no-batch", "all-fetched"),
    *("started", "fence-wait", "no-buffers", "abandoned", "done", "not-ready", "gone", "ended"),
    *("active", "refused", "finished", "nothing", "written", "cleared", "full"),
]


def compare_explain(comparer: Comparer, source: random.Random, run: Run) -> None:
    text = json.dumps(run.document)
    comparer.ran(["explain"], text, texts.explained(run))
    name, client = source.randint(0, run.device.next_name + 1), source.randint(0, 2)
    only = source.sample(WORDS, source.randint(1, 4))
    options = {
        "name": (["--name", str(name)], {"name": name}),
        "client": (["--client", str(client)], {"client": client}),
        "only": (["--only", ",".join(only)], {"only": only}),
    }
    for chosen in ["name"], ["client"], ["only"], source.sample(list(options), 2):
        words, values = ["explain"], {}
        for option in chosen:
            words += options[option][0]
            values.update(options[option][1])
        comparer.ran(words, text, texts.explained(run, **values))


def compare_trace(comparer: Comparer, run: Run) -> None:
    text = json.dumps(run.document)
    comparer.ran(["trace"], text, texts.traced(run))
    comparer.ran(["trace", "--wide"], text, texts.traced(run, True))
    comparer.ran(["trace", "--json"], text, texts.traced_json(run))
    comparer.ran(["trace", "--wide", "--json"], text, texts.traced_json(run))
    if comparer.program.features.shows_changes:
        comparer.ran(["trace", "--changes"], text, texts.traced_changes(run))
    output = comparer.output(["trace", "--chrome"], text)
    try:
        found, faults = chrome.found(output), chrome.faults_of_lanes(output, run)
    except (ValueError, KeyError) as fault:
        comparer.holds("trace --chrome", False, f"no trace events: {fault!r}")
        return
    comparer.same("trace --chrome", chrome.expected(run), found)
    comparer.same("trace --chrome, lanes", [], faults)


def compare_drawings(comparer: Comparer, source: random.Random, run: Run) -> None:
    compare_drawing(comparer, run, [], drawing.whole(run))
    first = source.randint(0, len(run.steps) + 1)
    last = source.randint(first, len(run.steps) + 3)
    every = len(run.steps)
    named, begin, end = source.choice(
        [
            (f"{first}..{last}", first, last),
            (f"{first}..", first, every),
            (f"..{last}", 0, last),
        ]
    )
    compare_drawing(comparer, run, ["--steps", named], drawing.part(run, begin, end))


def compare_seen(comparer: Comparer, source: random.Random, document: Document) -> None:
    """Compares what is said of a recording, and of changed ones."""
    recording = conforming.recording_of(source, document)
    changed = [conforming.changed(source, recording, count) for count in (1, 4)]
    for seen in [recording, *changed]:
        verdict = conforming.compare_conform(comparer, seen)
        run = conforming.seen_run(comparer, seen, verdict) if verdict else None
        if run:
            text = json.dumps(seen)
            comparer.ran(["trace", "--seen"], text, texts.traced(run))
            compare_drawing(comparer, run, ["--seen"], drawing.whole(run))
    compare_serve(comparer, source, source.choice(changed))


def compare_document(comparer: Comparer, source: random.Random, document: Document) -> None:
    """Compares all texts of a document."""
    run = run_of(document)
    text = json.dumps(document)
    comparer.ran([], text, texts.plain(run))
    other = decorated(source, document)
    comparer.ran([], other, texts.plain(run), name="run in another layout")
    compare_explain(comparer, source, run)
    compare_trace(comparer, run)
    comparer.ran(["count"], text, counts.counted_lines(run))
    compare_drawings(comparer, source, run)
    compare_seen(comparer, source, document)
    compare_checks(comparer, source, document)
    compare_expand(comparer, source, document)
    compare_formless(comparer, source, document)
    if source.random() < 0.02:
        compare_long(comparer, source, document)
    compare_begun(comparer, source, document)
    for _ in range(2):
        compare_serve(comparer, source, document)


def words_of_command(arguments: Optional[Sequence[str]]) -> argparse.Namespace:
    parser = argparse.ArgumentParser(
        prog="tools/recount",
        formatter_class=argparse.RawDescriptionHelpFormatter,
        description=textwrap.dedent(ABOUT),
        epilog=textwrap.dedent(MORE),
    )
    parser.add_argument("program", metavar="PROGRAM", help="the built dsa_run")
    parser.add_argument("files", metavar="FILE", nargs="*", help="a document without warnings")
    parser.add_argument("--seed", default="1", help="chooses the documents (default: 1)")
    parser.add_argument("--first", type=int, default=0, help="the number of the first document")
    parser.add_argument("--count", type=int, default=200, help="how many documents (default: 200)")
    parser.add_argument("--show", action="store_true", help="print the documents, and run nothing")
    return parser.parse_args(arguments)


def documents(words: argparse.Namespace) -> Iterator[Tuple[str, random.Random, Document]]:
    """Each document with its name, and with what makes further choices for it."""
    for path in words.files:
        with open(path, encoding="utf-8") as file:
            yield path, random.Random(words.seed), json.load(file)
    if not words.files:
        for number in range(words.first, words.first + words.count):
            source = random.Random(f"{words.seed} {number}")
            yield f"document {number}", source, document_of(source)


def main(arguments: Optional[Sequence[str]] = None) -> int:
    words = words_of_command(arguments)
    if words.show:
        for _, _, document in documents(words):
            print(json.dumps(document))
        return 0
    try:
        program = Program(words.program)
    except OSError as fault:
        print(f"recount: {fault}", file=sys.stderr)
        return 2
    comparer, count = Comparer(program, words.seed), 0
    for name, source, document in documents(words):
        comparer.name, count = name, count + 1
        compare_document(comparer, source, document)
    if program.features.missing:
        print(f"not compared: {', '.join(program.features.missing)}")
    texts_compared = f"{comparer.texts} texts compared"
    print(f"{count} documents, {texts_compared}, {comparer.differences} differences")
    return 1 if comparer.differences else 0
