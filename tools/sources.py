"""Checks of code and definitions: how wide their lines are, and which names are defined twice.

Each check is over a folder with crates, and gives a line for each fault."""
import pathlib
import re

MOST_CODE, MOST_DEFINITION = 100, 120
# How lines begin that may be wider: what a file uses and, in code, attributes.
FREE_CODE = ("use ", "pub use ", "ghost use ", "#![", "#[")
FREE_DEFINITION = ("use ", "import ", "open ")
# Comments that are a column or two too wide, until their crate changes for another reason: all crates
# above it are proved again then.
STILL_WIDE = (
    "crates/dsa_engines/src/engines.rt:22",
    "crates/dsa_engines/src/starting.rt:42",
    "crates/dsa_engines/src/starting.rt:375",
    "crates/dsa_engines/src/starting.rt:376",
)
# A comment, a character or a text, whichever begins first.
CODE_PARTS = re.compile(
    r"""//[^\n]*|b?'(?:\\.|[^\\'\n])'|(?P<text>r#".*?"#|"(?:\\.|[^"\\])*")""", re.S
)
DEFINITION_PARTS = re.compile(r"""(?<!\S)--[^\n]*|(?P<text>"(?:\\.|[^"\\\n])*")""")
# Names that several definitions may have, each with the reason, as that the specification has it.
ALLOWED = {
    "cleared": "a step in the worked rows of two crates",
    "no_caps": "the caps of no shared device; in dsa_scenario's worked rows those without a queue",
    "polled": "a step in dsa_worked's rows; in dsa_scenario's worked rows a list of records",
    "poll_text": "the text of a poll's answer; in dsa_scenario's worked rows a document that polls",
    "put_all": "members put over others; in dsa_scenario those of a text, one after the other",
}
# The line that gives a name its type. Words as 'pub' may come before it, and arguments before ':'.
SIGNATURE = re.compile(
    r"(?:abbrev |unfoldable |pub )*(?P<kind>)(?:(?:record|data) (?P<type>\S+)"
    r"|(?!--)(?P<name>[^\s(){}]+)(?: \{[^}]*\}| \([^)]*\))* :(?: |$))"
)
# A line that begins something else: a comment, what is used, or the next name.
BEGIN = re.compile(rf"--|use |{SIGNATURE.pattern}")


def is_unbreakable(line, begin, most, texts):
    """Whether a line ends with a text literal that would not fit on a line of its own, with the
    brackets after it. The line begins at this place of the file, and the texts are at places of the
    file."""
    indent = len(line) - len(line.lstrip())
    for end in begin + len(line), begin + len(line.rstrip(" )]},;?")):
        for first, last in texts:
            if first < end <= last:
                return indent + begin + len(line) - max(first, begin) > most
    return False


def wide_lines(files, most, free, parts):
    for path, name in files:
        text = path.read_text(encoding="utf-8")
        texts = [it.span("text") for it in parts.finditer(text) if it["text"]]
        begin = 0
        for number, line in enumerate(text.split("\n"), 1):
            is_over = len(line) > most and not line.lstrip().startswith(free)
            place = f"{name}:{number}"
            is_free = place in STILL_WIDE or is_unbreakable(line, begin, most, texts)
            if is_over and not is_free:
                yield f"{place}: {len(line)} columns, at most {most} are wanted"
            begin += len(line) + 1


def files_of(top, pattern):
    paths = sorted(pathlib.Path(top).glob(pattern))
    return [(path, str(path.relative_to(top))) for path in paths]


def wide_code(top):
    return wide_lines(files_of(top, "crates/*/src/**/*.rt"), MOST_CODE, FREE_CODE, CODE_PARTS)


def wide_definitions(top):
    files = files_of(top, "crates/*/specs/**/*.antt")
    return wide_lines(files, MOST_DEFINITION, FREE_DEFINITION, DEFINITION_PARTS)


def definitions(text):
    """The names that a file defines, each with its line and the text of its definition. Those in a
    module without a name are names of the file."""
    lines, is_inside = [], False
    for line in text.split("\n"):
        is_inside = line.startswith("module _ ") or is_inside and line[:2] in ("", "  ")
        lines.append(line[2:] if is_inside and line.startswith("  ") else line)
    for number, line in enumerate(lines, 1):
        found = SIGNATURE.match(line)
        if not found:
            continue
        last = number
        while last < len(lines) and lines[last].strip() and not BEGIN.match(lines[last]):
            last += 1
        own = " ".join([line[found.start("kind") :], *lines[number:last]])
        yield found["name"] or found["type"], number, " ".join(own.split())


def names_defined_twice(top):
    places = {}
    for path, file in files_of(top, "crates/*/specs/**/*.antt"):
        for name, number, text in definitions(path.read_text(encoding="utf-8")):
            places.setdefault(name, []).append((f"{file}:{number}", text))
    apart, alike = [], []
    for name, found in sorted(places.items()):
        if len(found) == 1 or name in ALLOWED:
            continue
        (first, text), *others = found
        is_same = all(it == text for _, it in others)
        also = ", ".join(place for place, _ in others)
        said = f"defined {len(found)} times{', the same' if is_same else ''}, once is wanted"
        (alike if is_same else apart).append(f"{first}: {name} is {said}: also {also}")
    return [*apart, *alike]
