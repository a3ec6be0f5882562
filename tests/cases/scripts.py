"""Random scripts: whole soundings with calls out of place, calls in no order, refused keys, lines of no call."""

import random

from cases.keys import all_sizes, faulty_key_words, key_words, random_key, words_of_no_key, words_with_zeros
from definitions import HALL, LARGEST_WORD, LONGEST_ROOM
from running import Case

LARGE_INDICES = (1000, 2 ** 31, 2 ** 32, 2 ** 63, 2 ** 64 - 1, 2 ** 64, 10 ** 30)
LARGE_WORDS = (32768, -32768, 65536, -2 ** 31, 2 ** 32, 2 ** 63 - 1, -2 ** 63)
LINES_OF_NO_CALL = (
    "", "  ", "hum", "key hall 1", "Open 1", "OPEN 1", "open", "open 1 2", "open -1", "open +1", "open 1x", "open 1.0",
    "open \u0661", "open\u00a01", "open\x0b1", "sample", "sample 1", "sample 1 2 3", "sample 1 +2", "sample 1 -",
    "sample --1 0", "sample 0x1 0", "sample 1e3 0", "sample 9223372036854775808 0", "sample 0 -9223372036854775809",
    "sample 0 100000000000000000000000000000", "turn 1", "close 0", "abandon it", "code 0", "code A 0", "code 0 0 0",
    "code -0 0", "sum", "sum 0 0", "sum x", "tap -1", "tap 0 0", "tap", "# a comment", "turn;", "turn = ok")
BLANKS = (" ", "  ", "\t", " \t ", "\f", "\r ")


class Source:
    """What a script is drawn from: random numbers, and the key whose sounder is called."""

    def __init__(self, source, key):
        self.random = source
        self.key = key
        self.span = key[1] << len(key[2])

    def word(self):
        """A word of a sample: small, of any size that is allowed, at the end, or too large."""
        draw = self.random.random()
        if draw < 0.4:
            return self.random.randint(-9, 9)
        if draw < 0.7:
            return self.random.randint(-LARGEST_WORD, LARGEST_WORD)
        if draw < 0.97:
            return self.random.choice((-LARGEST_WORD, LARGEST_WORD, 0))
        return self.random.choice(LARGE_WORDS)

    def sample(self):
        """A sample, most of them one of the kind."""
        rarely = self.random.random() < 0.03
        y = 0 if self.key[0] == HALL and not rarely else self.word()
        return f"sample {self.word()} {y}"

    def index(self, size):
        """An index, most of them below a size, some at its end or far above."""
        draw = self.random.random()
        if draw < 0.7:
            return self.random.randrange(size)
        return size + self.random.choice((-1, 0, 1)) if draw < 0.93 else self.random.choice(LARGE_INDICES)

    def room_length(self):
        """A room length, some of them none."""
        draw = self.random.random()
        if draw < 0.8:
            return self.random.randint(1, 4)
        return self.random.choice((0, 0, 255, LONGEST_ROOM, LONGEST_ROOM + 1, *LARGE_INDICES))

    def code(self):
        return f"code {self.random.choice((0, 1, 0, 1, 0, 1, 2, 255, 256, 10 ** 20))} {self.index(self.span)}"

    def any_call(self, length):
        """Any call; one that abandons a sounding or ends a phase is rare enough for soundings to go on."""
        name = self.random.choice(("open", "sample", "sample", "turn", "close", "code", "sum", "tap"))
        if self.random.random() < 0.02:
            return "abandon"
        if name == "sample":
            return self.sample()
        if name == "code":
            return self.code()
        return {"open": f"open {self.room_length()}", "sum": f"sum {self.index(length)}",
                "tap": f"tap {self.index(length)}"}.get(name, name)


# Soundings

def reads(source, length):
    """All sums and taps, and at two more places."""
    for place in (*range(length), length, source.index(length)):
        yield f"sum {place}"
        yield f"tap {place}"


def entries(source):
    """All entries of both codes, and one more."""
    for side in (0, 1):
        for index in range(source.span + 1):
            yield f"code {side} {index}"


def whole_sounding(source, length):
    """The calls of one sounding in their order, with a few samples more than a record has in some records."""
    size = source.span + length - 1
    yield f"open {length}"
    for ending in ("turn", "close"):
        for _ in range(size + source.random.choice((0, 0, 0, 1, 2))):
            yield source.sample()
        yield ending
    yield from reads(source, length)


def abandoned(source, calls):
    """The first calls of a sounding, and its end."""
    calls = list(calls)
    return [*calls[:source.random.randrange(len(calls))], "abandon"]


def disturbed(source, calls, length, rate):
    """The calls with others between them, at this rate."""
    for call in calls:
        while source.random.random() < rate:
            yield source.any_call(length)
        yield call


def missing_samples(source, calls, rate):
    """The calls without some of their samples, so that a record is not full at its end."""
    return [call for call in calls if not call.startswith("sample") or source.random.random() >= rate]


def several_soundings(source, lengths):
    """Soundings one after the other, some of them abandoned, some with records that are not full."""
    for length in lengths:
        calls = whole_sounding(source, length)
        if source.random.random() < 0.15:
            calls = abandoned(source, calls)
        elif source.random.random() < 0.15:
            calls = missing_samples(source, calls, 0.1)
        yield from disturbed(source, calls, length, source.random.choice((0, 0.02, 0.1, 0.3)))


def calls_in_no_order(source, count):
    """Calls that know of no order, over a short pair and a short room, so that soundings come to their end."""
    length = source.random.randint(1, 2)
    for _ in range(count):
        draw = source.random.random()
        if draw < 0.12:
            yield f"open {length}"
        elif draw < 0.3:
            yield source.random.choice(("turn", "close"))
        else:
            yield source.any_call(length)


# Scripts

def script_of(key, calls):
    """A script, written as it is printed again."""
    return "".join(f"{line}\n" for line in (" ".join(("key", *key_words(*key))), *calls))


def script_case(name, script):
    return Case("replay", name, script.encode())


def random_source(source, longest_span):
    """A source over a random key whose span is not above a limit."""
    sizes = [size for size in all_sizes() if size[1] << size[2] <= longest_span]
    return Source(source, random_key(source, *source.choice(sizes)))


def soundings(random_numbers):
    """Scripts of one sounding or several, over keys of all sizes, with short rooms and long ones."""
    for size in all_sizes():
        for length in (1, random_numbers.randint(2, 10), random_numbers.randint(1, LONGEST_ROOM), LONGEST_ROOM):
            source = Source(random_numbers, random_key(random_numbers, *size))
            calls = [*several_soundings(source, [length]), *entries(source)]
            yield script_case("a sounding", script_of(source.key, calls))
    for _ in range(500):
        source = random_source(random_numbers, 20)
        lengths = [random_numbers.randint(1, 8) for _ in range(random_numbers.randint(1, 5))]
        yield script_case("soundings", script_of(source.key, several_soundings(source, lengths)))


def lists_in_no_order(random_numbers):
    """Scripts of calls in no order."""
    for _ in range(500):
        source = random_source(random_numbers, 4)
        calls = calls_in_no_order(source, random_numbers.randint(1, 150))
        yield script_case("calls in no order", script_of(source.key, calls))


def short_script(random_numbers):
    """The lines of a script with a few calls."""
    source = random_source(random_numbers, 20)
    calls = [source.any_call(2) for _ in range(random_numbers.randint(0, 12))]
    return script_of(source.key, calls).splitlines()


def refused_keys(random_numbers):
    """Keys that are refused or not, and behind them lines that may be no calls."""
    for _ in range(300):
        words = faulty_key_words(random_numbers)
        lines = [" ".join(("key", *words)), *short_script(random_numbers)[1:]]
        if random_numbers.random() < 0.3:
            lines.append(random_numbers.choice(LINES_OF_NO_CALL))
        yield script_case("a faulty key", "\n".join(lines))


def lines_of_no_key(random_numbers):
    """Scripts whose first line is no key line."""
    for _ in range(150):
        first = random_numbers.choice((
            " ".join(("key", *words_of_no_key(random_numbers))), " ".join(words_of_no_key(random_numbers)),
            "", "key", "Key hall 1", "key: hall 1", "keyhall 1", "open 1"))
        yield script_case("no key", "\n".join([first, *short_script(random_numbers)[1:]]))
    yield script_case("an empty script", "")
    yield script_case("a line feed", "\n")
    yield script_case("a key behind an empty line", "\nkey hall 1\n")


def lines_of_no_call(random_numbers):
    """Each line that is no call, in the midst of others; sometimes two of them."""
    for line in LINES_OF_NO_CALL * 3:
        lines = short_script(random_numbers)
        lines.insert(random_numbers.randint(1, len(lines)), line)
        if random_numbers.random() < 0.3:
            lines.insert(random_numbers.randint(1, len(lines)), random_numbers.choice(LINES_OF_NO_CALL))
        yield script_case("a line of no call", "\n".join(lines) + "\n")


def number_otherwise(random_numbers, word):
    """A number with zeros in front, or a zero with a sign where a sign may stand."""
    digits = word.lstrip("-")
    return word[:len(word) - len(digits)] + "0" * random_numbers.randint(0, 30) + digits


def line_otherwise(random_numbers, line):
    """The same words with other blanks between them, and their numbers written otherwise."""
    words = line.split()
    if words[0] == "key":
        words[1:] = words_with_zeros(random_numbers, words[1:])
    else:
        words[1:] = [number_otherwise(random_numbers, word) for word in words[1:]]
        words = ["-0" if words[0] == "sample" and word.strip("0") == "" else word for word in words]
    blanks = [random_numbers.choice(BLANKS) for _ in words[1:]]
    ends = [random_numbers.choice(("", *BLANKS)) for _ in range(2)]
    return ends[0] + words[0] + "".join(map("".join, zip(blanks, words[1:]))) + ends[1]


def scripts_written_otherwise(random_numbers):
    """Other blanks, other ends of lines, zeros in front; half of them without the end of the last line."""
    for _ in range(200):
        end = random_numbers.choice(("\n", "\r\n"))
        lines = [line_otherwise(random_numbers, line) for line in short_script(random_numbers)]
        yield script_case("written otherwise", end.join(lines) + random_numbers.choice(("", end)))


def script_failures():
    """Scripts that are no UTF-8 text, a folder in place of a script, and an output that can't be written."""
    for script in (b"\xff", b"key hall 1\nopen \xff\n", b"key hall 2\n\xc3(\n", b"key hall\xed\xa0\x80 1\n"):
        yield Case("replay", "no text", script, fails=True)
    yield Case("replay", "a folder as input", source="/", fails=True)
    for script in (b"key hall 1\n", b"key hall 2\n"):
        yield Case("replay", "a full device as output", script, sink="/dev/full", fails=True)


def random_scripts(seed):
    """All random scripts of a seed."""
    random_numbers = random.Random(f"{seed} scripts")
    yield from soundings(random_numbers)
    yield from lists_in_no_order(random_numbers)
    yield from refused_keys(random_numbers)
    yield from lines_of_no_key(random_numbers)
    yield from lines_of_no_call(random_numbers)
    yield from scripts_written_otherwise(random_numbers)
