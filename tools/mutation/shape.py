"""What a change does to the words of the code, whatever it means."""
from __future__ import annotations

import enum
import re
from typing import List, Sequence

from .edit import Change

TOKEN = re.compile(
    r"""
    (?P<nothing> \s+ | //[^\n]* | /\*.*?\*/ )
    | b?"(?:\\.|[^"\\])*" | b?'(?:\\.[^']*|[^'\\])'
    | \w+ | && | \|\| | << | >> | -> | => | :: | \.\.=? | [-<>=!+*/%^&|]= | .
    """,
    re.X | re.S,
)
# What names a fact that a proof can cite, or makes a branch: what is bound, called or built.
FACT = re.compile(
    r"""
    \b(?:let|for)\s+(?:mut\s+)?\w+ | \w+!?\s*\( | [A-Z][a-z]\w*\s*\{ | [{}?|] | =>
    | \b(?:return|break|continue|if|else|match|while|loop)\b
    """,
    re.X,
)


class Moves(enum.Enum):
    """Which facts a change moves, of those that a proof can cite."""

    NONE = "no facts: it changes a value"
    ADDS = "it only adds some"
    TAKES = "it takes some away, or has them in another order"


def tokens_of(text: str) -> List[str]:
    return [it[0] for it in TOKEN.finditer(text) if not it["nothing"]]


def is_same_code(one: str, other: str) -> bool:
    """Whether two texts differ only in spaces and comments."""
    return tokens_of(one) == tokens_of(other)


def facts_of(text: str) -> List[str]:
    return ["".join(it[0].split()) for it in FACT.finditer(text)]


def moves_of(changes: Sequence[Change]) -> Moves:
    found = {moves_from(facts_of(it.old), facts_of(it.new)) for it in changes}
    for moves in (Moves.TAKES, Moves.ADDS):
        if moves in found:
            return moves
    return Moves.NONE


def moves_from(old: Sequence[str], new: Sequence[str]) -> Moves:
    if old == new:
        return Moves.NONE
    left = iter(new)
    return Moves.ADDS if all(it in left for it in old) else Moves.TAKES
