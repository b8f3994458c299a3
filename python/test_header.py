#!/usr/bin/env python3
"""Compares the tables of dsa_model.py with dsa_model.h by the machine's C compiler.

It needs no library. The header is that of this repository, or the file in DSA_MODEL_HEADER, and the
compiler is `cc`, or that in CC. Where there is no compiler the tests are skipped.
"""

from __future__ import annotations

import ctypes
import enum
import os
import re
import shlex
import shutil
import subprocess
import tempfile
import unittest
from typing import Any, Dict, List, Set, Tuple

import dsa_model as dsa

FOLDER = os.path.dirname(os.path.abspath(__file__))
HEADER = os.environ.get("DSA_MODEL_HEADER",
                        os.path.join(FOLDER, "..", "crates", "dsa_c", "dsa_model.h"))
CC = shlex.split(os.environ.get("CC", "cc"))

# the enums of the header, each with the prefix of its names there
ENUMS: Dict[str, Tuple[Any, str]] = {
    "dsa_portal": (dsa.Portal, "DSA_"), "dsa_outcome": (dsa.Outcome, "DSA_"),
    "dsa_command_number": (dsa.Command, "DSA_"), "dsa_kind": (dsa.Kind, "DSA_"),
    "dsa_cause": (dsa.Cause, "DSA_"), "dsa_ending_kind": (dsa.EndingKind, "DSA_"),
    "dsa_phase_number": (dsa.Phase, "DSA_"), "dsa_event_kind": (dsa.EventKind, "DSA_EVENT_"),
    "dsa_open_result": (dsa.OpenResult, "DSA_"), "dsa_fault": (dsa.Fault, "DSA_FAULT_"),
    "dsa_load_result": (dsa.LoadResult, "DSA_LOAD_"),
    "dsa_status": (dsa.Status, "DSA_STATUS_"), "dsa_operation": (dsa.Operation, "DSA_OP_"),
    "dsa_anew_result": (dsa.AnewResult, "DSA_ANEW_"), "dsa_list": (dsa.ListKind, "DSA_LIST_"),
    "dsa_reason_kind": (dsa.ReasonKind, "DSA_REASON_"),
}


def constant(prefix: str, member: enum.IntEnum) -> str:
    """What the header calls a member: SizesTooLarge as SIZES_TOO_LARGE, with the prefix."""
    if member is dsa.LoadResult.LOADED:
        return "DSA_LOADED"
    return prefix + re.sub(r"(?<=[a-z])(?=[A-Z])", "_", member.name).upper()


def header_text() -> str:
    """The header without its comments."""
    with open(HEADER, encoding="utf-8") as file:
        return re.sub(r"/\*.*?\*/", "", file.read(), flags=re.DOTALL)


def compile_c(text: str, folder: str, *flags: str) -> str:
    """Compiles the text with the header before it; the program's path."""
    source, program = os.path.join(folder, "compared.c"), os.path.join(folder, "compared")
    with open(source, "w", encoding="utf-8") as file:
        file.write('#include <stdio.h>\n#include "dsa_model.h"\n' + text)
    include = "-I" + os.path.dirname(os.path.abspath(HEADER))
    ran = subprocess.run([*CC, "-std=c11", "-Wall", "-Werror", include, *flags, "-o", program,
                          source], stdout=subprocess.PIPE, stderr=subprocess.STDOUT, check=False)
    if ran.returncode != 0:
        raise AssertionError(f"the C compiler says:\n{ran.stdout.decode(errors='replace')}")
    return program


def printed(statements: List[str]) -> Dict[str, str]:
    """What a C program of these statements prints: lines of a name, a tab and a text."""
    body = "\n\t".join(statements)
    with tempfile.TemporaryDirectory() as folder:
        program = compile_c(f"int main(void)\n{{\n\t{body}\n\treturn 0;\n}}\n", folder)
        output = subprocess.run([program], stdout=subprocess.PIPE, check=True).stdout.decode()
    return dict((line.split("\t")[0], line.split("\t")[1]) for line in output.splitlines())


def number(name: str, expression: str) -> str:
    return f'printf("%s\\t%llu\\n", "{name}", (unsigned long long)({expression}));'


@unittest.skipUnless(shutil.which(CC[0]), f"there is no C compiler {CC[0]}")
class Header(unittest.TestCase):
    """The module's tables are the header's."""

    def test_structs(self) -> None:
        statements, expected = [], {}
        for name, struct in dsa._STRUCTS.items():
            statements.append(number(name, f"sizeof(struct {name})"))
            expected[name] = str(ctypes.sizeof(struct))
            for field, _ in struct._fields_:
                at, of = f"{name}.{field}", f"((struct {name} *)0)->{field}"
                statements.append(number(at, f"offsetof(struct {name}, {field})"))
                statements.append(number(f"{at} size", f"sizeof({of})"))
                expected[at] = str(getattr(struct, field).offset)
                expected[f"{at} size"] = str(getattr(struct, field).size)
        self.assertEqual(printed(statements), expected)
        self.assertEqual(len(expected), 12 + 2 * sum(len(it._fields_)
                                                     for it in dsa._STRUCTS.values()))

    def test_types_of_fields(self) -> None:
        for name, (kind, types) in dsa._LAYOUTS.items():
            asserts = []
            for field, letter in zip(kind._fields, types):
                c_type = "uint8_t *" if letter == "D" else dsa._TYPES[letter][2]
                of = f"((struct {name} *)0)->{field}"
                asserts.append(f'_Static_assert(_Generic({of}, {c_type}: 1, default: 0), "{of}");')
            with self.subTest(name), tempfile.TemporaryDirectory() as folder:
                compile_c("\n".join(asserts), folder, "-fsyntax-only")

    def test_no_struct_has_another_field(self) -> None:
        found: Dict[str, List[str]] = {}
        for name, body in re.findall(r"^struct (\w+) \{\n(.*?)^\};", header_text(),
                                     re.DOTALL | re.MULTILINE):
            found[name] = re.findall(r"(\w+)(?:\[\d+\])?;", body)
        self.assertEqual(found, {name: list(kind._fields)
                                 for name, (kind, _) in dsa._LAYOUTS.items()})

    def test_enums(self) -> None:
        statements, expected = [], {}
        for kind, prefix in ENUMS.values():
            for member in kind:
                name = constant(prefix, member)
                statements.append(number(name, name))
                expected[name] = str(member.value)
        self.assertEqual(printed(statements), expected)
        self.assertEqual(len(expected), sum(len(kind) for kind, _ in ENUMS.values()))

    def test_no_enum_has_another_constant(self) -> None:
        found: Dict[str, Set[str]] = {}
        for name, body in re.findall(r"^enum (\w+) \{(.*?)\};", header_text(),
                                     re.DOTALL | re.MULTILINE):
            found[name] = set(re.findall(r"\bDSA_\w+", body))
        self.assertEqual(found, {name: {constant(prefix, member) for member in kind}
                                 for name, (kind, prefix) in ENUMS.items()})

    def test_calls(self) -> None:
        asserts = []
        for name, (result, parameters) in dsa._CALLS.items():
            given = f"struct {result}" if result in dsa._STRUCTS else dsa._TYPES[result][2]
            taken = ", ".join(self.c_parameter(kind) for _, kind in parameters) or "void"
            asserts.append(f"_Static_assert(_Generic(&{name}, {given} (*)({taken}): 1, default: 0),"
                           f' "{name}");')
        with tempfile.TemporaryDirectory() as folder:
            compile_c("\n".join(asserts), folder, "-fsyntax-only")
        declared = re.findall(r"^(?:\w+ )+(dsa_\w+)\([^()]*\);", header_text(), re.MULTILINE)
        self.assertEqual(sorted(declared), sorted(dsa._CALLS))

    @staticmethod
    def c_parameter(kind: str) -> str:
        if kind.startswith(">"):
            return f"struct {kind[1:]} *"
        return f"const struct {kind} *" if kind in dsa._STRUCTS else str(dsa._TYPES[kind][2])

    def test_names_of_parameters(self) -> None:
        found = {}
        for name, parameters in re.findall(r"(dsa_\w+)\(([^()]*)\);", header_text()):
            found[name] = [re.findall(r"\w+", it)[-1] for it in parameters.split(",")
                           if it.strip() != "void"]
        self.assertEqual(found, {name: [it for it, _ in parameters]
                                 for name, (_, parameters) in dsa._CALLS.items()})

    def test_names_as_text(self) -> None:
        statements = [f'printf("%s %u\\t%s\\n", "{of}", {n}u, dsa_{of}_name({n}u));'
                      for of in ("kind", "fault", "command", "status", "operation", "load",
                                 "reason")
                      for n in range(80)]
        found = printed(statements)
        for of, kind in (("kind", dsa.Kind), ("fault", dsa.Fault), ("command", dsa.Command),
                         ("status", dsa.Status), ("operation", dsa.Operation),
                         ("load", dsa.LoadResult), ("reason", dsa.ReasonKind)):
            for n in range(80):
                with self.subTest(of, number=n):
                    self.assertEqual(found[f"{of} {n}"], self.text_of(of, kind, n))

    @staticmethod
    def text_of(of: str, kind: Any, n: int) -> str:
        """The name that the header has for a number of this kind."""
        members: Dict[int, enum.IntEnum] = {member.value: member for member in kind}
        if n not in members:
            return "?"
        name = members[n].name
        if of == "command":
            return name.replace("_", " ").title().replace("Wq", "WQ").replace("Pasid", "PASID")
        if of in ("status", "operation"):
            return {"status": "DSA_COMP_", "operation": "DSA_OPCODE_"}[of] + name
        return name if of == "fault" else name.lower().replace("_", " ")

    def test_macros(self) -> None:
        words = {f"word {command.value} {operand}": (command, operand)
                 for command in dsa.Command for operand in (0, 5, 0xfffff)}
        statements = [number(name, f"DSA_COMMAND({command.value}, {operand}u)")
                      for name, (command, operand) in words.items()]
        found = printed([*statements, number("none", "DSA_NONE"), number("version", "DSA_VERSION"),
                         number("no number", "DSA_NO_NUMBER"),
                         number("no memory", "DSA_NO_MEMORY"), number("not saved", "DSA_NOT_SAVED")])
        self.assertEqual(found.pop("none"), str(dsa._NONE))
        self.assertEqual(found.pop("no number"), str(dsa._NO_NUMBER))
        self.assertEqual(found.pop("no memory"), str(dsa._NO_MEMORY))
        self.assertEqual(found.pop("not saved"), str(dsa._NOT_SAVED))
        self.assertEqual(int(found.pop("version")) // 1000, dsa.VERSION // 1000)
        self.assertEqual(found, {name: str(dsa.command_word(*it)) for name, it in words.items()})


if __name__ == "__main__":
    unittest.main()
