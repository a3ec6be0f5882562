"""Keys, their words, and runs of the program codes."""

import itertools
import random

from definitions import KIND_NAMES, MOST_STAGES, ROOTS
from running import Case

NUMBERS_OF_NO_KEY = (0, 2, 3, 5, 9, 11, 100, 160, 254, 255, 256, 257, 300, 65537, 2 ** 64, 10 ** 30)
WORDS_OF_NO_NUMBER = ("", "x", "-1", "+1", "1.0", "0x1", "1e0", " 1", "1_0", "\u0661", "\u00b2", "A")
WORDS_OF_NO_STAGE = ("1", "1:", ":0", ":", "1:0:0", "1::0", "1;0", "1 :0", "a:0", "1:b", "-1:0", "1:-0", "1:\u0661")
WORDS_OF_NO_KIND = ("", "organ", "Hall", "RADIO", "hal", "hall1", "1", "2", "radio ", "h\u00e4ll")


def all_sizes():
    """Kind, kernel and number of stages of all keys."""
    for kind in ROOTS:
        for kernel, most in MOST_STAGES.items():
            for count in range(most + 1):
                yield kind, kernel, count


def all_keys(kind, kernel, count):
    """Every key of a size: each order of the delays with each choice of weight codes."""
    for delays in itertools.permutations(kernel << i for i in range(count)):
        for codes in itertools.product(range(len(ROOTS[kind])), repeat=count):
            yield kind, kernel, list(zip(delays, codes))


def random_key(source, kind, kernel, count):
    """A key of a size, its delays in a random order and with random weight codes."""
    delays = [kernel << i for i in range(count)]
    source.shuffle(delays)
    return kind, kernel, [(delay, source.randrange(len(ROOTS[kind]))) for delay in delays]


def kind_word(kind):
    return next(word for word, named in KIND_NAMES.items() if named == kind)


def key_words(kind, kernel, stages):
    """The words of a key."""
    return (kind_word(kind), str(kernel), *(f"{delay}:{code}" for delay, code in stages))


# Keys that are refused, and words that are no key

def with_kernel(source, key):
    return key[0], source.choice(NUMBERS_OF_NO_KEY), key[2]


def with_more_stages(source, key):
    kind, kernel, stages = key
    kernel = kernel if kernel in MOST_STAGES else 1
    count = MOST_STAGES[kernel] + source.randint(1, 4)
    return kind, kernel, stages + [(kernel << i, 0) for i in range(len(stages), count)]


def with_stage(stage_of):
    """A fault of one stage; a key without stages gets one."""
    def apply(source, key):
        kind, kernel, stages = key
        stages = list(stages) or [(kernel, 0)]
        place = source.randrange(len(stages))
        stages[place] = stage_of(source, stages, place)
        return kind, kernel, stages
    return apply


def delay_of_none(source, stages, place):
    return source.choice(NUMBERS_OF_NO_KEY), stages[place][1]


def delay_of_another(source, stages, place):
    return source.choice(stages)[0], stages[place][1]


def weight_code_of_none(source, stages, place):
    return stages[place][0], source.choice((2, 3, 4, *NUMBERS_OF_NO_KEY))


KEY_FAULTS = [with_kernel, with_more_stages, with_stage(delay_of_none), with_stage(delay_of_another),
              with_stage(weight_code_of_none), with_stage(weight_code_of_none)]


def faulty_key_words(source):
    """The words of a key with one fault, or with two at once."""
    key = random_key(source, *source.choice(list(all_sizes())))
    for fault in source.sample(KEY_FAULTS, source.randint(1, 2)):
        key = fault(source, key)
    return key_words(*key)


def words_of_no_key(source):
    """The words of a key of which one is missing or is none."""
    words = list(key_words(*random_key(source, *source.choice(list(all_sizes())))))
    place = source.randrange(len(words) + 1)
    if place < 2 and source.random() < 0.3:
        return tuple(words[:place])
    wrong = (WORDS_OF_NO_KIND, WORDS_OF_NO_NUMBER, WORDS_OF_NO_STAGE)[min(place, 2)]
    words[place:place + 1] = [source.choice(wrong)]
    return tuple(words)


def words_with_zeros(source, words):
    """The words of a key, its numbers with zeros in front."""
    kind, *numbers = words
    return (kind, *(":".join("0" * source.randint(0, 4) + part for part in word.split(":")) for word in numbers))


# Runs of codes

def sheet_case(name, words):
    return Case("codes", name, words=words)


def sheet_failures():
    """Words that are no text, and an output that can't be written."""
    yield Case("codes", "words of no text", words=("hall", b"1\xff"), fails=True)
    for words in (("hall", "1"), ("hall", "2")):
        yield Case("codes", "a full device as output", words=words, sink="/dev/full", fails=True)


def small_sheets():
    """Every key of up to three stages."""
    for kind, kernel, count in all_sizes():
        if count <= 3:
            for key in all_keys(kind, kernel, count):
                yield sheet_case("a small key", key_words(*key))


def random_sheets(seed):
    """Keys of more stages, keys that are refused, and words that are no key."""
    source = random.Random(f"{seed} sheets")
    for size in all_sizes():
        if size[2] > 3:
            for _ in range(20):
                yield sheet_case("a large key", key_words(*random_key(source, *size)))
    for _ in range(60):
        words = key_words(*random_key(source, *source.choice(list(all_sizes()))))
        yield sheet_case("zeros in front", words_with_zeros(source, words))
    for _ in range(400):
        yield sheet_case("a faulty key", faulty_key_words(source))
    for _ in range(200):
        yield sheet_case("no key", words_of_no_key(source))
