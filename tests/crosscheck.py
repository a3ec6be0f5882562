#!/usr/bin/env python3
"""Compares the three programs with the reference on many generated inputs.

    python3 tests/crosscheck.py [--seed N] [--times N] [--jobs N] [--only PROGRAM] [--echotaps PATH] [--replay PATH] [--codes PATH]

docs/testing.md tells what is compared and what the counts mean.
"""

import argparse
import itertools
import os
import pathlib
import sys
import time

sys.dont_write_bytecode = True
sys.path.insert(0, str(pathlib.Path(__file__).resolve().parent.parent / "reference"))

from cases.faults import fixed_faults  # noqa: E402
from cases.files import fixed_files  # noqa: E402
from cases.keys import random_sheets, sheet_failures, small_sheets  # noqa: E402
from cases.scripts import random_scripts, script_failures  # noqa: E402
from cases.soundings import random_soundings  # noqa: E402
from running import TOP, Answer, run_all  # noqa: E402

PROGRAMS = ("echotaps", "replay", "codes")
DEFAULT_SEED = 1951
DEFAULT_JOBS = 2

# The refusals that each program can give, and no others.
NUMBERS = {"echotaps": {1, 2, 3, 4, 5, 8, 12, 13, 14},
           "replay": set(range(1, 12)),
           "codes": {1, 2, 3, 4}}


def refused(call, *numbers):
    """A call that is refused with each of these numbers."""
    return {Answer(call, number, None) for number in numbers}


def out_of_place(call, *phases):
    """A call that is refused with 6 in each of these phases."""
    return {Answer(call, 6, phase) for phase in phases}


# All that the calls of a script can be answered: accepted, and refused with each number that docs/sounder.md gives.
ANSWERS_TO_CALLS = {
    *(Answer(call, None, None) for call in ("open", "sample", "turn", "close", "abandon", "code", "sum", "tap")),
    *refused("key", 1, 2, 3, 4),
    *refused("open", 5), *out_of_place("open", 1, 2),
    *refused("sample", 7, 8, 9), *out_of_place("sample", 0, 3),
    *refused("turn", 10), *out_of_place("turn", 0, 2, 3),
    *refused("close", 10), *out_of_place("close", 0, 1, 3),
    *refused("code", 11),
    *refused("sum", 11), *out_of_place("sum", 0, 1, 2),
    *refused("tap", 11), *out_of_place("tap", 0, 1, 2),
}


def all_cases(seed, times):
    """The fixed cases, and the random ones of as many seeds as asked."""
    yield from fixed_files()
    yield from fixed_faults()
    yield from small_sheets()
    yield from sheet_failures()
    yield from script_failures()
    for turn in range(times):
        name = f"{seed} {turn}"
        yield from itertools.chain(random_soundings(name), random_scripts(name), random_sheets(name))


def tell_counts(program, seen):
    """The line of a program."""
    refusals = " ".join(f"{number} x{seen.numbers[number]}" for number in sorted(seen.numbers))
    print(f"{program}: {seen.cases} cases, {seen.different} different; refusals: {refusals}")


def unseen(seen):
    """What can be seen of the programs and was not, and the other way round."""
    for program in seen:
        for number in sorted(NUMBERS[program] ^ set(seen[program].numbers)):
            yield f"{program}: refusal {number} was seen {seen[program].numbers[number]} times"
    for answer in sorted(ANSWERS_TO_CALLS ^ set(seen["replay"].answers), key=str) if "replay" in seen else ():
        yield f"replay: {answer} was seen {seen['replay'].answers[answer]} times"


def parsed_arguments():
    parser = argparse.ArgumentParser(description="Compares the three programs with the reference.")
    parser.add_argument("--seed", type=int, default=DEFAULT_SEED, help="of the random cases")
    parser.add_argument("--times", type=int, default=1, help="how many times as many random cases")
    parser.add_argument("--jobs", type=int, default=DEFAULT_JOBS, help="how many cases at the same time")
    parser.add_argument("--only", choices=PROGRAMS, help="the program that is compared; all three if not given")
    for program in PROGRAMS:
        built = TOP / "crates" / program / "out" / program
        parser.add_argument(f"--{program}", default=built, help=f"the program, {built.relative_to(TOP)} if not given")
    return parser.parse_args()


def main():
    arguments = parsed_arguments()
    programs = PROGRAMS if arguments.only is None else (arguments.only,)
    paths = {program: os.path.abspath(getattr(arguments, program)) for program in programs}
    cases = (case for case in all_cases(arguments.seed, arguments.times) if case.program in paths)
    begin = time.monotonic()
    seen = run_all(paths, cases, arguments.jobs)
    for program in programs:
        tell_counts(program, seen[program])
    calls = sum(seen["replay"].answers.values()) if "replay" in seen else 0
    print(f"seed {arguments.seed}, times {arguments.times}: {calls} calls in the scripts, "
          f"{time.monotonic() - begin:.0f} seconds")
    missing = list(unseen(seen))
    for line in missing:
        print(line)
    return 1 if missing or any(program.different for program in seen.values()) else 0


if __name__ == "__main__":
    sys.exit(main())
