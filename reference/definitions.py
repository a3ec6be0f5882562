"""The definitions that the references share: samples, keys, codes, rooms, sums and taps.

A sample is a pair of whole numbers (x, y) for x + iy; a hall sample has y = 0.
A stage is a pair (delay, weight code). A room is a list of taps, and a code, a
record and a room are lists of samples.
"""

import re
import sys
from typing import NamedTuple

HALL, RADIO = 1, 2
KIND_NAMES = {"hall": HALL, "radio": RADIO}
ROOTS = {HALL: [(1, 0), (-1, 0)],
         RADIO: [(1, 0), (0, 1), (-1, 0), (0, -1)]}
KERNELS = {1: ("+", "+"),
           10: ("++-+-+--++", "++-+++++--")}
MOST_STAGES = {1: 7, 10: 4}
LAYERS = {1: 2, 2: 2, 3: 2, 4: 2, 5: 3, 6: 3, 7: 3, 8: 3, 9: 3, 10: 3, 11: 3, 12: 1, 13: 1, 14: 1, 16: 1}
LONGEST_ROOM = 256
LARGEST_WORD = 32767


class Refusal(Exception):
    """A refusal: its number, its layer and the place in it, and the byte where it is one of a file."""

    def __init__(self, number, place=0, byte=None):
        super().__init__(number)
        self.number, self.layer, self.place, self.byte = number, LAYERS[number], place, byte

    def __str__(self):
        text = f"refused {self.number} layer {self.layer} place {self.place}"
        return text if self.byte is None else f"{text} byte {self.byte}"


class Result(NamedTuple):
    """How a program ends: its status, its output, and the line on standard error if there is one."""

    status: int
    output: bytes
    error: str = ""


def end(result):
    """Writes what a result says, and gives its status back."""
    sys.stdout.buffer.write(result.output)
    sys.stdout.buffer.flush()
    if result.error:
        print(result.error, file=sys.stderr)
    return result.status


# Samples

def plus(a, b):
    return (a[0] + b[0], a[1] + b[1])


def minus(a, b):
    return (a[0] - b[0], a[1] - b[1])


def times(a, b):
    return (a[0] * b[0] - a[1] * b[1], a[0] * b[1] + a[1] * b[0])


def conjugate(a):
    return (a[0], -a[1])


def magnitude(a):
    return max(abs(a[0]), abs(a[1]))


def total(samples):
    """The sum of any number of samples."""
    answer = (0, 0)
    for sample in samples:
        answer = plus(answer, sample)
    return answer


def at(samples, place):
    """The sample at a place, and zero outside the list."""
    return samples[place] if 0 <= place < len(samples) else (0, 0)


# Keys

def check_kernel(kernel):
    if kernel not in KERNELS:
        raise Refusal(1)


def check_stage_count(kernel, count):
    if count > MOST_STAGES[kernel]:
        raise Refusal(2)


def check_stages(kind, kernel, stages):
    """The delays first, and then the weight codes."""
    if sorted(delay for delay, _ in stages) != [kernel * 2 ** i for i in range(len(stages))]:
        raise Refusal(3)
    for stage, (_, code) in enumerate(stages):
        if code >= len(ROOTS[kind]):
            raise Refusal(4, stage)


def check_key(kind, kernel, stages):
    """All tests of a key in their order."""
    check_kernel(kernel)
    check_stage_count(kernel, len(stages))
    check_stages(kind, kernel, stages)


# The words of a key

def number_up_to(most, word):
    """The number of a word of decimal digits, where a number above the most counts as the most; None for others."""
    if not re.fullmatch("[0-9]+", word):
        return None
    digits = word.lstrip("0") or "0"
    return most if len(digits) > len(str(most)) else min(int(digits), most)


def key_number(word):
    """A kernel, a delay, a weight code or a side: above 255 all of them are refused alike."""
    return number_up_to(255, word)


def stage_of_word(word):
    """The stage of a word DELAY:CODE, or None."""
    numbers = [key_number(part) for part in word.split(":")]
    return tuple(numbers) if len(numbers) == 2 and None not in numbers else None


def key_of_words(words):
    """Kind, kernel and stages of the words KIND KERNEL [DELAY:CODE]..., or None."""
    if len(words) < 2:
        return None
    kind, kernel = KIND_NAMES.get(words[0]), key_number(words[1])
    stages = [stage_of_word(word) for word in words[2:]]
    return None if None in (kind, kernel, *stages) else (kind, kernel, stages)


# Codes, rooms, sums and taps

def codes(kind, kernel, stages):
    """The two codes A and B of a key, the lowest stage first."""
    a, b = ([(1, 0) if sign == "+" else (-1, 0) for sign in signs]
            for signs in KERNELS[kernel])
    for delay, code in stages:
        weight = ROOTS[kind][code]
        span = len(a) + delay
        turned = [times(weight, at(a, k)) for k in range(span)]
        delayed = [at(b, k - delay) for k in range(span)]
        a = [plus(turned[k], delayed[k]) for k in range(span)]
        b = [minus(turned[k], delayed[k]) for k in range(span)]
    return a, b


def energy_of(pair):
    """The energy of two codes: how many entries both have."""
    return sum(len(code) for code in pair)


def room_answer(code, room, time):
    """What a room gives back at a time while a code is played into it."""
    return total(times(entry, at(room, time - j)) for j, entry in enumerate(code))


def room_record(code, room, room_length):
    """The record of a room without noise."""
    return [room_answer(code, room, time) for time in range(len(code) + room_length - 1)]


def sum_at(pair, records, k):
    """Sum k of two records: both codes correlated with their records."""
    return total(times(conjugate(entry), record[k + j])
                 for code, record in zip(pair, records) for j, entry in enumerate(code))


def rounded(word, energy):
    """word / energy to the nearest whole number, halves away from zero."""
    nearest = (2 * abs(word) + energy) // (2 * energy)
    return nearest if word >= 0 else -nearest


def tap_at(pair, records, k):
    """Tap k: each word of sum k divided by the energy and rounded."""
    x, y = sum_at(pair, records, k)
    energy = energy_of(pair)
    return (rounded(x, energy), rounded(y, energy))
