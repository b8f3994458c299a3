"""Dialogues with 'serve', as docs/COMMANDS.md has them: lines, and their answers."""
from __future__ import annotations

import json
import random
from typing import Any, List, Tuple

from .answers import Event, allowed, answer
from .cells import Cells
from .checking import KINDS, Broken, NoJson
from .conforming import is_seen, shows
from .device import ON
from .features import Features
from .formless import formless
from .friendly import Friendly, OwnNames
from .program import Comparer
from .run import Document, Run
from .texts import compact, shown

# values that are no step in any form, each with what is said of it
FAULTS: List[Tuple[str, str]] = [
    ("[]", "an array stands here, an object is wanted"),
    ('{"do": "fly"}', f'"do" is "fly", none of {KINDS}'),
    ('{"do": "explain", "step": {"do": "show"}}', f'"do" is "show", none of {KINDS}'),
    ('{"do": "explain"}', '"step" is missing'),
    ('{"do": "explain", "step": 7}', "7 stands here, an object is wanted"),
    ('{"do": "poll", "answer": 7}', '"answer" is 7, a text is wanted'),
    (
        '{"do": "start", "engine": 70000, "zf": 1}',
        '"engine" is 70000, at most 65535 is wanted; "zf" is 1, true or false is wanted',
    ),
]
# others that are no step where no friendly form is read
OF_STRICT: List[Tuple[str, str]] = [
    ('{"do": "dispatch"}', '"engine" is missing'),
    ('{"do": "dispatch", "engin": 0}', '"engine" is missing, and "engin" is no key here'),
]
# friendly steps, with what is said of them where no friendly form is read
FRIENDLY: List[Tuple[str, str]] = [
    ('{"do": "command", "command": "drain-all"}', '"word" is missing'),
    (
        '{"do": "finish", "engine": 0, "name": "x1", "fault": false}',
        '"name" is a text, a whole number from 0 to 4294967295 is wanted',
    ),
    (
        '{"do": "fetch", "engine": 0, "desc": {"op": "move", "size": 64}}',
        '"desc" is an object, a text of hexadecimal digits is wanted',
    ),
]
# keys that a line ignores that is no step
IGNORED: List[Event] = [{}, {}, {"answer": 7}, {"step": [], "note": "a remark"}]

# lines that are not JSON, each with the column and the reason that some versions say
NOT_JSON: List[Tuple[str, str]] = [
    ("fly", "column 1: fly stands here, true, false, null or a text in double quotes is wanted"),
    ("", "column 1: the end is here, an object is wanted"),
    ('{"do": "poll"', "column 14: the end is here, a } for the { of line 1, column 1 is wanted"),
    ('{"do" 7}', "column 7: 7 stands here, a colon is wanted"),
]
MOST_ROUNDS = 60


def finish(engine: int, name: int) -> Event:
    return {"do": "finish", "engine": engine, "name": name, "fault": False}


class Dialogue:
    """The lines of a dialogue and their answers. Some are friendly, and in some the history begins
    anew, mostly one that is soon full."""

    def __init__(self, source: random.Random, document: Document, features: Features) -> None:
        self.source, self.features = source, features
        self.is_friendly = features.serves_friendly and source.random() < 0.5
        self.begins_anew = features.begins_anew and source.random() < 0.6
        self.names = OwnNames(source)
        self.lines: List[str] = []
        self.answers: List[str] = []
        self.reported = 0
        self.events = steps = document["steps"]
        first = source.randint(0, len(steps))
        capacity = document["capacity"]
        if self.begins_anew and source.random() < 0.7:
            capacity = min(capacity, source.choice([first] * 7 + [0]) + source.randint(0, 12))
        self.begin({**document, "capacity": capacity, "steps": steps[:first]})
        for event in steps[first:]:
            if source.random() < 0.3:
                self.look()
            if self.begins_anew:
                self.change_history()
            self.ask(event)
        if self.begins_anew and source.random() < 0.2:
            self.work()
        self.look()
        self.answers += [fate.line for fate in self.run.device.fates]

    @property
    def words(self) -> List[str]:
        return ["serve", "--friendly"] if self.is_friendly else ["serve"]

    def chance(self, percent: float) -> bool:
        return self.source.random() * 100 < percent

    def begin(self, document: Document) -> None:
        """Writes the document, and answers its steps."""
        self.run = Run({**document, "steps": []}, keeps_states=False)
        self.run.device.cells = self.cells = Cells(document["caps"])
        written = document
        if self.is_friendly:
            friendly = Friendly(self.source, document)
            document = friendly.strict
            written = friendly.document if self.features.begins_friendly else document
        text = json.dumps(written, indent=self.source.choice([None, 1]))
        self.lines += text.split("\n")
        for event in document["steps"]:
            self.answers.append(self.step(event)[1])
        self.answers.append(f"ready {len(document['steps'])}")

    def step(self, event: Event) -> Tuple[str, str]:
        """Makes a step: its line of 'explain' and its answer, with 'differs' where it differs."""
        device = self.run.device
        fitting = [given for given in allowed(device, event) if shows(event, given)]
        is_followed = is_seen(event) and fitting
        given = fitting[0] if is_followed else answer(device, event)
        differs = "differs " if is_seen(event) and not fitting else ""
        step = self.run.make(event, given)
        self.names.note(event, given)
        self.cells.follow(step)
        return differs + step.explained, differs + step.answer.text

    def say(self, line: Any, *answers: str) -> None:
        self.lines.append(line if isinstance(line, str) else json.dumps(line))
        self.answers += answers

    def request(self, do: str, *answers: str) -> None:
        """Writes a line that is no step, with keys that it ignores."""
        self.say({"do": do, **self.source.choice(IGNORED)}, *answers)

    def ask(self, event: Event) -> None:
        """Asks for a step, or for its line of 'explain', and again if it found a full history."""
        line = event
        if self.is_friendly:
            pair = self.names.pair(event)
            line, event = pair.friendly, pair.strict
        is_full = self.ask_once(line, event)
        if is_full and self.begins_anew and self.chance(90):
            self.begin_anew()
            self.ask_once(line, event)

    def ask_once(self, line: Event, event: Event) -> bool:
        """The same. Says whether the history was full."""
        is_explained = self.chance(60 if self.begins_anew else 40)
        explained, said = self.step(event)
        if is_explained:
            self.say({"do": "explain", "step": line}, explained)
        else:
            self.say(line, said)
        return said.endswith("full")

    def begin_anew(self) -> None:
        """Begins the history anew, and forgets the fates or keeps them."""
        keeps_fates = self.chance(40)
        self.run.device.begin_anew(keeps_fates)
        self.reported = self.reported if keeps_fates else 0
        self.request("begin-anew" if keeps_fates else "begin-anew-without-fates", "begun anew")

    def change_history(self) -> None:
        """Begins the history anew now and then, more often where a reason depends on the fates."""
        engines = self.run.device.engines
        has_failed = any(engine.note and engine.note.failed for engine in engines)
        if self.chance(40 if has_failed else 3):
            self.begin_anew()
        if self.chance(10):
            self.end_again()

    def end_again(self) -> None:
        """Asks for the end of an entry that has ended, now and then of one whose cell is in use."""
        device, cells = self.run.device, self.cells
        ended = [name for name in cells.given if device.place(name) is None]
        followed = [name for name in ended if cells.given[name] in cells.held]
        if followed and self.chance(70):
            ended = followed
        if ended:
            engine = self.source.randrange(len(device.engines))
            self.ask(finish(engine, self.source.choice(ended)))

    def work(self) -> None:
        """Rounds of a submission, a dispatch and a finish, until most cells are used again."""
        device, source = self.run.device, self.source
        on = [number for number, queue in enumerate(device.queues) if queue.phase == ON]
        for _ in range(min(len(self.cells.free) + 4, MOST_ROUNDS) if on else 0):
            count = len(device.engines)
            engines = source.sample(range(count), min(count, 4))
            able = [engine for engine in engines if device.chosen(engine) is not None]
            queue, engine = source.choice(on), source.choice(able or engines)
            kind = "movdir" if device.queues[queue].dedicated else "enqcmd"
            keys = {"client": 0, "queue": queue, "limited": False, "pasid": 5, "desc": ""}
            self.change_history()
            self.ask({"do": kind, **keys})
            self.ask({"do": "dispatch", "engine": engine})
            if self.chance(20):
                self.end_again()
            for entry in device.engines[engine].progress[:1]:
                self.ask(finish(engine, entry.name))

    def look(self) -> None:
        """Looks at the device, or writes a line with a fault."""
        choice = self.source.random()
        if choice < 0.4:
            self.request("show", compact(shown(self.run.device)))
        elif choice < 0.7:
            fates = self.run.device.fates[self.reported :]
            self.reported += len(fates)
            self.request("fates", f"fates {len(fates)}", *(fate.line for fate in fates))
        elif choice < 0.85:
            self.write_no_step()
        else:
            line, reason = self.source.choice(NOT_JSON)
            where = f": {reason}" if self.features.locates_no_json else ""
            self.say(line, f"fault not JSON{where}")

    def write_no_step(self) -> None:
        """Writes a line that is JSON and no step, or one with a step inside that is none."""
        found = None
        if self.is_friendly and self.events and self.chance(70):
            event = self.source.choice(self.events)
            found = formless(self.source, self.names.pair(event).friendly)
        if found:
            line, why = json.dumps(found.step), f'"{found.key}" has no strict form'
        else:
            line, why = self.source.choice(self.faults())
        if self.chance(30) and "explain" not in line:
            line = f'{{"do": "explain", "step": {line}}}'
        self.say(line, f"fault no step: {why}")

    def faults(self) -> List[Tuple[str, str]]:
        """Lines with their faults, of which some are none where friendly steps are read."""
        if self.is_friendly:
            return FAULTS
        hint = " (dsa_run expand writes it)" if self.features.names_expand else ""
        return [*FAULTS, *OF_STRICT, *((line, f"{why}{hint}") for line, why in FRIENDLY)]


def compare_serve(comparer: Comparer, source: random.Random, document: Document) -> None:
    """Compares the answers of 'serve' to a dialogue."""
    dialogue = Dialogue(source, document, comparer.program.features)
    end = source.choice(["\n", ""]) if dialogue.lines[-1] else "\n"
    comparer.ran(dialogue.words, "\n".join(dialogue.lines) + end, dialogue.answers)


def compare_begun(comparer: Comparer, source: random.Random, document: Document) -> None:
    """Compares the fault of a document at the beginning of a dialogue."""
    if not document["steps"]:
        return
    features = comparer.program.features
    broken = Broken(source, document, features)
    fault, behind = serve_fault(broken), source.choice(["", '{"do": "poll"}', "fly\n"])
    if fault:
        comparer.ran(["serve"], broken.text + behind, [], 1, fault)
    friendly = Friendly(source, document)
    numbers = [number for number, pair in enumerate(friendly.pairs) if pair.is_friendly]
    if numbers:
        comparer.ran(["serve"], friendly.text, [], 1, f"dsa_run: bad step {numbers[0]}")
    text = NoJson(source, document, features).text + behind
    for words in [["serve"], ["serve", "--friendly"]][: 1 + features.serves_friendly]:
        comparer.ran(words, text, [], 1, "dsa_run: not JSON")


def serve_fault(broken: Broken) -> str:
    """The fault of a broken document: an 'answer' or a 'zf' of another type is one, too."""
    numbers = [
        number
        for number, change in broken.changes.items()
        if not change.is_warning or change.key in ("answer", "zf")
    ]
    return f"dsa_run: bad step {min(numbers)}" if numbers else broken.fault
