"""Running the programs: a case, what the reference says of it, and what was seen of each program."""

import collections
import concurrent.futures
import contextlib
import dataclasses
import functools
import itertools
import os
import pathlib
import re
import subprocess
import tempfile
import time

from calls import replay
from code_sheet import code_sheet
from definitions import Result
from sounding import report

TOP = pathlib.Path(__file__).resolve().parent.parent
SECONDS_PER_RUN = 60
CASES_AT_ONCE = 512
DIFFERENCES_SHOWN = 10
BYTES_SHOWN = 240


@dataclasses.dataclass(frozen=True)
class Case:
    """One run of a program.

    The input comes through a pipe, at once or in pieces of a size, or from the file at `source`. The output goes
    to a pipe or to `sink`. `expected` is an output that was found in another way than by the reference. A case
    that `fails` can't be read or written: one line on standard error says so, and no more is known of it.
    """

    program: str
    name: str
    input: bytes = b""
    words: tuple = ()
    pieces: int | None = None
    source: pathlib.Path | str | None = None
    sink: str | None = None
    expected: bytes | None = None
    fails: bool = False


@dataclasses.dataclass
class Seen:
    """What was seen of a program. A refusal is counted by its number and by the call that it answers."""

    cases: int = 0
    different: int = 0
    numbers: collections.Counter = dataclasses.field(default_factory=collections.Counter)
    answers: collections.Counter = dataclasses.field(default_factory=collections.Counter)

    def add(self, differences, answers):
        self.cases += 1
        self.different += bool(differences)
        self.answers.update(answers)
        for answer, times in answers.items():
            if answer.number is not None:
                self.numbers[answer.number] += times


# An answer: the word of the call ("" where the program has no calls), the number of the refusal or None, and the
# phase in which a call was refused with 6.
Answer = collections.namedtuple("Answer", "call number phase")
ANSWER_LINE = re.compile(rb"^(?:(\w+).* = )?(?:refused (\d+) layer \d+ place (\d+)|ok$|-?\d+ -?\d+$)", re.MULTILINE)


def answer_of(match):
    """The answer that a line of output tells."""
    call, number, place = match.groups(default=b"")
    number = int(number) if number else None
    return Answer(call.decode(), number, int(place) if number == 6 else None)


def answers_of(output):
    """The answers to calls and the refusals that an output tells, counted. A report has none of them."""
    is_report = output.startswith(b"\x01")
    return collections.Counter(answer_of(match) for match in ANSWER_LINE.finditer(b"" if is_report else output))


def reference_result(case):
    """What the reference says of a case."""
    if case.fails:
        return Result(1, b"", f"{case.program}: ")
    if case.program == "codes":
        return code_sheet(case.words)
    return {"echotaps": report, "replay": replay}[case.program](case.input)


# Running one case

def write_in_pieces(stream, data, size):
    """Writes the data in pieces, with a pause after each, as long as somebody reads it."""
    with contextlib.suppress(BrokenPipeError):
        for start in range(0, len(data), size):
            stream.write(data[start:start + size])
            stream.flush()
            time.sleep(0.01)


@contextlib.contextmanager
def opened(path, flags):
    """The file at a path, or a pipe where there is none."""
    if path is None:
        yield subprocess.PIPE
        return
    file = os.open(path, flags)
    try:
        yield file
    finally:
        os.close(file)


def run(path, case):
    """Runs a program at a path. One that does not end is ended, which its status tells."""
    with opened(case.source, os.O_RDONLY) as source, opened(case.sink, os.O_WRONLY) as sink:
        process = subprocess.Popen([path, *case.words], stdin=source, stdout=sink, stderr=subprocess.PIPE)
        at_once = case.input if case.source is None else None
        if case.pieces is not None:
            write_in_pieces(process.stdin, case.input, case.pieces)
            at_once = None
        try:
            output, errors = process.communicate(at_once, timeout=SECONDS_PER_RUN)
        except subprocess.TimeoutExpired:
            process.kill()
            output, errors = process.communicate()
    return Result(process.returncode, output or b"", errors.decode(errors="replace"))


def shown(data):
    """Some bytes for a reader: text as text, others in hexadecimal."""
    is_text = re.fullmatch(rb"[\x20-\x7e\n]+", data)
    return repr(data[:BYTES_SHOWN].decode()) if is_text else data[:BYTES_SHOWN].hex(" ") or "nothing"


def apart(output, expected):
    """What two outputs say from shortly before the first byte in which they differ."""
    same = os.path.commonprefix([output, expected])
    start = max(0, len(same) - BYTES_SHOWN // 4)
    return f"from byte {start} on {shown(output[start:])} and not {shown(expected[start:])}"


def errors_fit(errors, line):
    """Whether standard error is empty, or the one line that begins as it should."""
    if not line:
        return not errors
    return errors.startswith(line) and errors.endswith("\n") and errors.count("\n") == 1


def differences_of(case, reference, result):
    """In what the result of a program, or the reference, is not what it should be."""
    found = []
    if case.expected not in (None, reference.output):
        found.append(f"the reference says {apart(reference.output, case.expected)}")
    if result.output != reference.output:
        found.append(f"standard output is {apart(result.output, reference.output)}")
    if result.status != reference.status:
        found.append(f"the status is {result.status} and not {reference.status}")
    if not errors_fit(result.error, reference.error):
        found.append(f"standard error is {result.error[:400]!r} and not {reference.error!r}")
    return found


def examine(paths, case):
    """Runs one case: in what it differs, and the answers that were seen."""
    result = run(paths[case.program], case)
    return differences_of(case, reference_result(case), result), answers_of(result.output)


# Running many cases

def tell(case, differences):
    """Says of a case in what it differs, and keeps its input in a file so that it can be run again."""
    with tempfile.NamedTemporaryFile(prefix=f"{case.program}-", suffix=".input", delete=False) as kept:
        kept.write(case.input)
    print(f"{case.program}: case '{case.name}' differs: {'; '.join(differences)}")
    print(f"    words {case.words!r}, input in {kept.name}: {shown(case.input)}", flush=True)


def batches(cases, size):
    """The cases in lists of this size, so that not all of them are there at the same time."""
    cases = iter(cases)
    while batch := list(itertools.islice(cases, size)):
        yield batch


def run_all(paths, cases, jobs):
    """Runs all cases, several at a time, and gives what was seen of each program.

    Each job is a process: the reference takes as long as the programs, and threads of one Python take turns.
    """
    seen = {program: Seen() for program in paths}
    with concurrent.futures.ProcessPoolExecutor(jobs) as pool:
        for batch in batches(cases, CASES_AT_ONCE):
            examined = pool.map(functools.partial(examine, paths), batch, chunksize=8)
            for case, (differences, answers) in zip(batch, examined):
                program = seen[case.program]
                program.add(differences, answers)
                if differences and program.different <= DIFFERENCES_SHOWN:
                    tell(case, differences)
    return seen
