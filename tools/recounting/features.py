"""What a program has, and another version may not have: found by what it prints."""
from __future__ import annotations

import json
from typing import TYPE_CHECKING, List

if TYPE_CHECKING:
    from .program import Program

SIZES = {"total_size": 1, "read_buffers": 4, "slots": 1, "max_batch_shift": 1, "max_xfer_shift": 1}
QUEUE = {"size": 1, "threshold": 1, "dedicated": False, "priority": 1, "pasid": 0}
SUBMISSION = {"client": 0, "queue": 0, "limited": True, "pasid": 5, "desc": ""}
# a submission with an own name, a dispatch that has a reason, and a drain that waits
TRIED = {
    "caps": {"queues": 1, "groups": 1, "engines": 1, **SIZES},
    "capacity": 9,
    "steps": [
        {"do": "queue", "queue": 0, **QUEUE, "batch": 1, "xfer": 1},
        {"do": "group", "group": 0, "queues": 1, "engines": 1, "reserved": 0, "allowed": 4},
        {"do": "command", "word": 1 << 20},
        {"do": "command", "word": 6 << 20},
        {"do": "enqcmd", **SUBMISSION, "as": "x"},
        {"do": "dispatch", "engine": 9},
        {"do": "command", "word": 3 << 20},
    ],
}


class Features:
    """What a program has: reasons and own names in the titles of drawings, own names in reasons and
    in traces, '--changes', '--friendly', facts against what was seen, friendly keys that a check
    knows, its warnings of own names; of dialogues the places of what is not JSON in a line,
    histories that begin anew, '--friendly', and friendly documents."""

    def __init__(self, program: Program) -> None:
        tried = json.dumps(TRIED)
        seen = {**TRIED, "steps": [*TRIED["steps"][:5], {"do": "poll", "answer": "?"}]}
        friendly = {"do": "group", "group": 0, "queues": [0]}
        wrong = json.dumps({**TRIED, "steps": [friendly]})
        drawn = unescaped(program, "draw", tried)
        self.explains_in_titles = "-> idle: the device" in drawn
        self.draws_own_names = "-> accepted 0 [0 is x]" in drawn
        explained = program.run(["explain"], tried).output
        self.shows_own_names = "accepted 0 [0 is x]" in explained
        self.shows_awaited_names = "q0: 0 [0 is x]" in explained
        self.traces_own_names = "[0 is x]" in program.run(["trace"], tried).output
        self.shows_changes = "--changes" in program.run(["trace", "--help"], "").output
        self.reads_friendly = "--friendly" in program.run(["conform", "--help"], "").output
        self.says_against = "against: " in program.run(["conform"], json.dumps(seen)).output
        self.names_expand = "expand writes it" in program.run(["check"], wrong).output
        named = json.dumps({**TRIED, "steps": [{**TRIED["steps"][4], "as": 5}]})
        self.warns_of_names = '"as" is 5' in program.run(["check"], named).output
        said = program.run(["serve"], f'{tried}\nfly\n{{"do": "begin-anew"}}\n').output
        self.locates_no_json, self.begins_anew = "column 1" in said, "begun anew" in said
        self.serves_friendly = "--friendly" in program.run(["serve", "--help"], "").output
        named = json.dumps({**TRIED, "steps": [{"do": "command", "command": "drain-all"}]})
        self.begins_friendly = "ready 1" in program.run(["serve", "--friendly"], named).output
        self.end = "the end" if "the end is here" in program.run(["check"], "[").output else None

    @property
    def missing(self) -> List[str]:
        """The names of what the program does not have."""
        return [name for name, has in vars(self).items() if not has]


def unescaped(program: Program, word: str, text: str) -> str:
    """What a command writes, with each '>' as it is."""
    return program.run([word], text).output.replace("&gt;", ">")
