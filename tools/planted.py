#!/usr/bin/env python3
"""Tries planted bugs: python3 tools/planted.py [--scratch FOLDER] [--seconds N] [--only WORD] [--markdown FILE] [--reports FOLDER] [CRATE]...

Each file tools/planted/CRATE/NAME.edit is one wrong edit of the crate, in the form of the must-fail edits, with a line
'what: TEXT' more. Each is tried alone in a copy of the tree outside the repository: `rt check` of the crate either
refuses it, or lets it through. What is let through in a program, or in `programs`, is built and given to the tests of
the program. At the end comes a table.
"""

import argparse
import collections
import os
import pathlib
import re
import shutil
import signal
import subprocess
import sys
import tempfile
import time

TOP = pathlib.Path(__file__).resolve().parent.parent

# Refused because a fact fails; only because a proof names what the edit took away; let through; not read; not known.
REFUSED, NAMES_GONE, PASSED, UNREAD, UNKNOWN = "refused", "names gone", "passed", "unread", "unknown"

# The programs, the words and the input of the run that builds each, and its tests.
PROGRAMS = {
    "codes": (["--", "hall", "1"], None, ["sh", "tests/codes-cli.sh"]),
    "replay": ([], "crates/replay/stdin", ["sh", "tests/replay-cli.sh"]),
    "echotaps": ([], "crates/echotaps/stdin", ["python3", "tests/crosscheck.py", "--only", "echotaps", "--echotaps"]),
}

Bug = collections.namedtuple("Bug", "crate name what file pairs")
Outcome = collections.namedtuple("Outcome", "kind told seen seconds")


def read_bug(path):
    """The bug of a file, whose lines are 'what:', 'file:' and pairs of 'old:' and 'new:'."""
    fields, pairs = {}, []
    for line in path.read_text(encoding="utf-8").split("\n"):
        word, _, text = line.partition(": ")
        word = word.rstrip(":")
        if word in ("what", "file"):
            fields[word] = text
        elif word == "old":
            pairs.append([text, None])
        elif word == "new":
            pairs[-1][1] = text
    if set(fields) != {"what", "file"} or not pairs or any(new is None for _, new in pairs):
        raise SystemExit(f"{path}: not one what:, one file: and pairs of old: and new:")
    return Bug(path.parent.name, path.stem, fields["what"], fields["file"], pairs)


def edited(bug, text):
    """The text with the bug; each old text must stand in it exactly once."""
    for old, new in bug.pairs:
        if text.count(old) != 1:
            raise SystemExit(f"{bug.crate}/{bug.name}: stands {text.count(old)} times in {bug.file}: {old}")
        text = text.replace(old, new)
    return text


def run(words, folder, seconds, given=None):
    """The status and the output of a command, None as the status where it took too long."""
    source = open(given, "rb") if given else subprocess.DEVNULL
    begun = subprocess.Popen(
        words, cwd=folder, stdin=source, stdout=subprocess.PIPE, stderr=subprocess.STDOUT, text=True,
        errors="replace", start_new_session=True)
    try:
        output, _ = begun.communicate(timeout=seconds)
        return begun.returncode, output
    except subprocess.TimeoutExpired:
        os.killpg(begun.pid, signal.SIGKILL)  # the process group of this command alone
        output, _ = begun.communicate()
        return None, output
    finally:
        if given:
            source.close()


def first_fact(output):
    """The first function whose own proof fails, and the first line of the report that names a place, one of src/ if there is one."""
    own = re.findall(r"^fn (\S+): (?:no proof: expected answers|not proved$)", output, re.M)
    functions = own or re.findall(r"^fn (\S+): no proof", output, re.M)
    places = [line for line in output.split("\n") if re.match(r"(note: )?(\./)?(src|proofs|specs)/\S+:\d+:\d+: ", line)]
    named = [line for line in places if line.startswith("note: ") or ": error" in line] or places
    in_source = [line for line in named if re.match(r"(note: )?(\./)?src/", line)]
    first = (in_source or named or [""])[0]
    return ": ".join([*functions[:1], first.removeprefix("note: ")])


def names_are_gone(output):
    """Whether no goal is open, and all that fails is a proof that names a field that is gone."""
    errors = re.findall(r"^(?:\./)?(?:src|proofs|specs)/\S+: error: (?!\d+ declarations? that depend)(.*)$", output, re.M)
    open_goal = re.search(r"^fn \S+: no proof: expected answers", output, re.M)
    return bool(errors) and not open_goal and all("has no field" in error for error in errors)


def judged(status, output):
    """Whether a check refused the crate, and the first fact that it names."""
    last = output.rstrip("\n").split("\n")[-1]
    if status == 0:
        return PASSED, ""
    if status == 1 and "logic=not-proved" in output:
        return NAMES_GONE if names_are_gone(output) else REFUSED, first_fact(output)
    if status == 1 and re.search(r"\berror\[[\w-]+\]", output):
        return UNREAD, re.search(r".*\berror\[[\w-]+\].*", output).group(0)
    return UNKNOWN, f"status {status}: {last}"


def tests_of(crate):
    """The programs whose tests may see a bug of this crate. How programs end is seen by replay's, which read standard error."""
    return ["replay"] if crate == "programs" else [crate] if crate in PROGRAMS else []


def seen_by(tree, crate, seconds):
    """What the tests of the programs say of a bug that the check let through."""
    said = []
    for program in tests_of(crate):
        words, given, tests = PROGRAMS[program]
        status, output = run(["rt", "run", *words], tree / "crates" / program, seconds, given and tree / given)
        built = tree / "crates" / program / "out" / program
        if "logic=proved" not in output:
            said.append(f"{program} not built (status {status})")
            continue
        status, output = run([*tests, str(built)], tree, seconds)
        last = output.strip().split("\n")[0] if output.strip() else ""
        said.append(f"seen by {tests[1]}: {last[:160]}" if status else f"not seen by {tests[1]}")
    return "; ".join(said)


def tried(tree, bug, seconds, reports=None):
    """Applies a bug, checks its crate, and takes the bug back."""
    place = tree / "crates" / bug.crate / bug.file
    before = place.read_text(encoding="utf-8")
    begun = time.monotonic()
    place.write_text(edited(bug, before), encoding="utf-8")
    try:
        status, report = run(["rt", "check"], tree / "crates" / bug.crate, seconds)
        if reports:
            pathlib.Path(reports, f"{bug.crate}-{bug.name}").write_text(report, encoding="utf-8")
        kind, told = judged(status, report)
        seen = seen_by(tree, bug.crate, seconds) if kind == PASSED else ""
    finally:
        place.write_text(before, encoding="utf-8")
    return Outcome(kind, told, seen, time.monotonic() - begun)


def copied(scratch):
    """A copy of the tree with what its checks kept, in a new folder outside the repository."""
    tree = pathlib.Path(tempfile.mkdtemp(prefix="planted-", dir=scratch)) / "tree"
    shutil.copytree(TOP, tree, symlinks=True, ignore=shutil.ignore_patterns(".git", "target"))
    return tree


def base_is_proved(tree, crate, seconds):
    """Whether the crate as it stands is proved; that also builds what stands below it."""
    status, output = run(["rt", "check"], tree / "crates" / crate, seconds)
    if status != 0:
        print(output, file=sys.stderr)
    return status == 0


def cell(text):
    return text.replace("|", "\\|").replace("\n", " ")


def row(bug, outcome):
    return f"| {bug.crate} | {bug.name} | {cell(bug.what)} | {outcome.kind} | {cell(outcome.told or outcome.seen)} |"


def counts(outcomes):
    kinds = collections.Counter(outcome.kind for _, outcome in outcomes)
    return f"{len(outcomes)} planted: " + ", ".join(f"{kinds[kind]} {kind}" for kind in (REFUSED, NAMES_GONE, PASSED, UNREAD, UNKNOWN))


def table(outcomes):
    head = ["| crate | name | what was planted | outcome | first fact, or who saw it |", "|---|---|---|---|---|"]
    return "\n".join([*head, *(row(*one) for one in outcomes), "", counts(outcomes)])


def chosen(words):
    """The bugs of the crates that are asked for, in the order of crates.txt."""
    listed = [line.split()[0].rstrip(":") for line in (TOP / "crates.txt").read_text().split("\n") if ":" in line and line[0] != "#"]
    crates = words.crates or listed
    bugs = [read_bug(path) for crate in crates for path in sorted((TOP / "tools" / "planted" / crate).glob("*.edit"))]
    return [bug for bug in bugs if words.only in bug.name]


def arguments():
    parser = argparse.ArgumentParser(description="Tries planted bugs, one at a time.")
    parser.add_argument("--scratch", help="the folder in which the copy of the tree is made")
    parser.add_argument("--seconds", type=int, default=300, help="how long one command may take")
    parser.add_argument("--only", default="", help="only bugs whose names hold this text")
    parser.add_argument("--markdown", help="a file that gets the table too")
    parser.add_argument("--reports", help="a folder that gets the whole report of each check")
    parser.add_argument("crates", nargs="*", help="names of crates; none: all")
    return parser.parse_args()


def tries(tree, bugs, words):
    """The bugs with their outcomes, one after another."""
    crates = list(dict.fromkeys(bug.crate for bug in bugs))
    for crate in crates:
        if not base_is_proved(tree, crate, 4 * words.seconds):
            raise SystemExit(f"{crate} is not proved as it stands")
        for bug in bugs:
            if bug.crate == crate:
                yield bug, tried(tree, bug, words.seconds, words.reports)


def main():
    words = arguments()
    bugs = chosen(words)
    for bug in bugs:
        edited(bug, (TOP / "crates" / bug.crate / bug.file).read_text(encoding="utf-8"))
    tree = copied(words.scratch)
    outcomes = []
    try:
        for bug, outcome in tries(tree, bugs, words):
            outcomes.append((bug, outcome))
            print(f"{bug.crate}/{bug.name}: {outcome.kind} ({outcome.seconds:.0f} s) {outcome.told or outcome.seen}", flush=True)
    finally:
        shutil.rmtree(tree.parent)
    print(table(outcomes))
    if words.markdown:
        pathlib.Path(words.markdown).write_text(table(outcomes) + "\n", encoding="utf-8")
    return 0 if all(outcome.kind in (REFUSED, NAMES_GONE, PASSED) for _, outcome in outcomes) else 1


if __name__ == "__main__":
    sys.exit(main())
