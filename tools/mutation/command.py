"""The command line of tools/mutants."""
from __future__ import annotations

import argparse
import pathlib
import sys
from typing import List, Optional

from .checker import Checker
from .mutant import Options
from .refusals import Refusals, sum_of_program
from .schedule import Lanes, Libraries
from .toolchain import Toolchain, Unusable, build
from .trial import Trial, say

TOP = pathlib.Path(__file__).resolve().parent.parent.parent

USAGE = """usage: tools/mutants [--anew] [--whole] [--baseline] [--sample SEED]
                     [--libraries FOLDER [--while LOG]] [CRATE]...
"""

HELP = (
    USAGE
    + """
Tries mutants: functions with a wrong body, which the prover has to refuse. If it proves one, a
contract says too little. A mutant is a file crates/CRATE/must-fail/NAME.edit, which says what to
change in the code. Without CRATE, the mutants of all crates are tried.

The last line is 'N passed, M failed'. The exit status is 0 where all mutants were refused, 1 where
one was not or could not be tried, and 2 where the arguments are not understood.

options:
  --anew              also try mutants that were refused before on this machine
  --whole             ask for all goals of a function, not only for the goal that a mutant names
  --baseline          change nothing, and show that the functions and goals that the mutants name
                      are proved then, so that a refusal comes from the change. For 'new goal' all
                      goals are asked for
  --sample SEED       of a tenth of the mutants ask for all goals, and show that their functions are
                      proved unchanged, as --whole and --baseline do. A refusal by an answer by hand
                      is tried again without that answer. SEED is a whole number. Ten in a row
                      choose each mutant once
  --libraries FOLDER  use the libraries that 'rt ci' has built in FOLDER, a copy of the repository.
                      By default they are built here, where they have changed
  --while LOG         'rt ci' is still at work in FOLDER and writes to LOG: try a crate's mutants
                      once all libraries below it are proved, and use half of the processors until
                      'rt ci' has ended
  -h, --help          print this text

The lines of a mutant's file:
  file: PATH          the file that the next lines change, below the crate's src
  old: TEXT           a text that occurs once in that file
  new: TEXT           what replaces it. More lines 'old:' and 'new:' may follow, each for the text
                      as the lines before have left it
  goal: NAME          the goal of the function's proof that fails. 'rt check' names it once the
                      file has the new text. The other goals are not asked for, which saves time
  new goal: NAME      the same, for a goal that is there only with the new text, or that the
                      checker's first search does not prove with the old one
  steps: NUMBER       how far the checker may search for a proof of the goal, 1,000,000 by default
  clause: NAME        the clause of the contract that is broken. The other clauses say nothing then.
                      It needs a function that can be copied (see below)
  refuses: FUNCTION   the function that has to be refused, if it is not the one with the new text:
                      its name, with as much before it as makes it clear (Device::submit)

How to write one:
  Change code that runs, and name the file after what is wrong then. The new text has to compile.
  Change a value and keep the names: a proof by hand that names what is gone is refused for that
  alone, which says nothing of the contract and does not count.

  Name the goal. If several goals fail, take the one that the change breaks: another may fail only
  because its answer names what is gone. Then run 'tools/mutants --baseline CRATE'. If it does not
  prove the goal, write 'new goal:', or allow more steps in a line 'steps:'.

  A change in no function, as of a constant, is tried on the whole crate, which takes long. Change
  the function that reads the constant, or name it in a line 'refuses:'.

  After an old text has changed, 'rt check' in the crate's folder names the mutants that no longer
  apply.

How mutants are tried:
  A proof depends on the contracts of the functions that it calls, and never on their bodies. So a
  mutant is a changed copy of its function, which nothing calls, with a copy of the proof, and one
  run of the checker tries up to 80 of them. All other functions, which the gate has proved, get an
  empty body and an open proof in that run.

  A function that cannot be copied, as a method of a trait, is changed in place: one mutant of each
  in a run. If only a function that it calls is refused, its mutant is tried again without those.

  A goal is proved by its answer in the function's proof, or else by the search that the checker
  tries first ('new goal': the first two). If it is proved, the mutant is tried again with all
  goals. What is changed in place is then tried on the whole crate.

  Three refusals do not count as they are, since what changes nothing could meet them too:
    - A search ended at its number of steps. Then the unchanged function has to be proved in as
      many. If it is not, all goals are asked for.
    - A proof by hand names what is gone, or the change takes away or moves what a proof can name,
      as a 'let' or a call. Then the mutant is tried again without that answer. If a name was gone,
      the unchanged function has to be proved without the answer too.
    - The checker has no rule for the changed text, as the borrow checker for some loans, or asks
      for a measure of a new loop. Such a mutant is bad.

What is reported of a mutant:
  refused             as it must be
  NOT REFUSED         its function or the whole crate is proved with it
  BAD MUTANT          its lines are not understood, do not apply or change nothing, the new text
                      does not compile, or its refusal says nothing. The rest of the line says which
  NOT TRIED           a library below its crate is not proved
  proved, NOT PROVED  with --baseline or --sample: whether its function is proved unchanged

  A refusal is kept in the user's cache. The mutant is not tried again until one of these changes:
  the sources of its crate or of a crate below it, its file, this program or the toolchain.
"""
)


class Parser(argparse.ArgumentParser):
    def format_help(self) -> str:
        return HELP

    def format_usage(self) -> str:
        return USAGE


def parser() -> Parser:
    found = Parser(prog="mutants", allow_abbrev=False)
    for option in ("--anew", "--whole", "--baseline"):
        found.add_argument(option, action="store_true")
    found.add_argument("--sample", type=int)
    found.add_argument("--libraries", type=pathlib.Path)
    found.add_argument("--while", type=pathlib.Path, dest="log")
    found.add_argument("crates", nargs="*")
    return found


def trials_of(given: argparse.Namespace, toolchain: Toolchain) -> Optional[List[Trial]]:
    """The trials of the crates that have mutants, lowest first. None where a library below one is
    not built."""
    options = Options(given.baseline, given.whole, given.anew, given.sample)
    own = {it.name: it for it in toolchain.crates(TOP)}
    program, trials = sum_of_program(), []
    for crate in toolchain.crates(given.libraries or TOP):
        folder = TOP / "crates" / crate.name
        is_wanted = crate.name in given.crates or not given.crates
        if crate.name not in own or not is_wanted or not any(folder.glob("must-fail/*.edit")):
            continue
        if not given.libraries and not all(build(it) for it in crate.below()):
            return None
        stamps = (crate.stamp(), own[crate.name].stamp())
        trials.append(Trial(crate, folder, Refusals(crate.name, stamps, program), options))
    return trials


def stop_on_wrong_paths(parser: Parser, given: argparse.Namespace) -> None:
    if given.log and not given.libraries:
        parser.error("--while needs --libraries")
    if given.libraries and not (given.libraries / "crates.txt").is_file():
        parser.error(f"{given.libraries} is no copy of the repository: it has no crates.txt")
    if given.log and not given.log.is_file():
        parser.error(f"there is no log {given.log}")


def stop_on_unknown_crates(parser: Parser, given: argparse.Namespace, toolchain: Toolchain) -> None:
    folder = given.libraries or TOP
    known = {it.name for it in toolchain.crates(folder)}
    for name in given.crates:
        if name not in known:
            parser.error(f"there is no crate {name} in {folder / 'crates.txt'}")


def main(words: List[str]) -> int:
    words_parser = parser()
    given = words_parser.parse_intermixed_args(words)
    stop_on_wrong_paths(words_parser, given)
    try:
        toolchain = Toolchain()
    except Unusable as fault:
        print(f"mutants: {fault}", file=sys.stderr)
        return 1
    stop_on_unknown_crates(words_parser, given, toolchain)
    toolchain.guard()
    trials = trials_of(given, toolchain)
    if trials is None:
        return 1
    checker = Checker(toolchain)
    if given.sample is not None:
        sampled = sum(it.number_sampled() for it in trials)
        say(f"sample {given.sample}: all goals of {sampled} mutants, and their functions unchanged")
    results = Lanes(trials, Libraries(given.log), checker).run()
    for name, seconds in checker.seconds.items():
        say(f"{name}: {len(seconds)} runs of the checker, {sum(seconds):.0f} processor seconds")
    if not results:
        print("mutants: there are no mutants", file=sys.stderr)
    passed = sum(results)
    print(f"{passed} passed, {len(results) - passed} failed")
    return 0 if results and all(results) else 1
