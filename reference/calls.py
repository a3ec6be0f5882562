#!/usr/bin/env python3
"""A reference for lists of calls: records kept as lists, sums by the definition.

As a program it answers a script of calls:

    python3 reference/calls.py < SCRIPT

It writes what `replay` writes, and ends with its status.
"""

import re
import sys

from definitions import (HALL, LARGEST_WORD, LONGEST_ROOM, Refusal, Result, check_key, codes, end,
                         key_number, key_of_words, magnitude, number_up_to, sum_at, tap_at)

IDLE, FIRST_RECORD, SECOND_RECORD, COMPLETE = range(4)
EXPECTED_KEY = "key KIND KERNEL [DELAY:CODE]... with KIND hall or radio, the rest decimal numbers"
EXPECTED_CALL = ("open N, sample X Y, turn, close, abandon, code SIDE INDEX, sum INDEX or tap INDEX, "
                 "all decimal numbers")


class Sounder:
    """A sounder over two codes: its phase, its room length and the two records as they came."""

    def __init__(self, kind, pair):
        self.kind, self.pair = kind, pair
        self.span = len(pair[0])
        self.phase = IDLE
        self.room_length = 0
        self.records = ([], [])

    def allow(self, *phases):
        if self.phase not in phases:
            raise Refusal(6, self.phase)

    def record(self):
        """The record that is being taken."""
        return self.records[self.phase - FIRST_RECORD]

    def is_full(self):
        return len(self.record()) == self.span + self.room_length - 1

    def open(self, room_length):
        self.allow(IDLE, COMPLETE)
        if not 1 <= room_length <= LONGEST_ROOM:
            raise Refusal(5)
        self.phase, self.room_length, self.records = FIRST_RECORD, room_length, ([], [])

    def sample(self, x, y):
        self.allow(FIRST_RECORD, SECOND_RECORD)
        place = len(self.record())
        if self.is_full():
            raise Refusal(9, place)
        if self.kind == HALL and y != 0:
            raise Refusal(7, place)
        if magnitude((x, y)) > LARGEST_WORD:
            raise Refusal(8, place)
        self.record().append((x, y))

    def leave(self, phase, next_phase):
        """From a phase with a full record to the next one."""
        self.allow(phase)
        if not self.is_full():
            raise Refusal(10, len(self.record()))
        self.phase = next_phase

    def turn(self):
        self.leave(FIRST_RECORD, SECOND_RECORD)

    def close(self):
        self.leave(SECOND_RECORD, COMPLETE)

    def abandon(self):
        self.phase = IDLE

    def code(self, side, index):
        if side > 1 or index >= self.span:
            raise Refusal(11, index)
        return self.pair[side][index]

    def read(self, reading, index):
        """What a reading of both records gives at an index."""
        self.allow(COMPLETE)
        if index >= self.room_length:
            raise Refusal(11, index)
        return reading(self.pair, self.records, index)

    def sum(self, index):
        return self.read(sum_at, index)

    def tap(self, index):
        return self.read(tap_at, index)

    def answer(self, name, numbers):
        """The text of the answer to a call."""
        try:
            words = getattr(self, name)(*numbers)
        except Refusal as refusal:
            return str(refusal)
        return "ok" if words is None else f"{words[0]} {words[1]}"


# Scripts

def index_number(word):
    return number_up_to(2 ** 64 - 1, word)


def signed_number(word):
    """The number of a word of a sample, or None where no signed 64-bit word holds it."""
    digits = word.removeprefix("-")
    number = number_up_to(2 ** 64 - 1, digits)
    if number is None:
        return None
    number = number if digits == word else -number
    return number if -2 ** 63 <= number < 2 ** 63 else None


NUMBERS = {"open": (index_number,), "sample": (signed_number, signed_number),
           "turn": (), "close": (), "abandon": (),
           "code": (key_number, index_number), "sum": (index_number,), "tap": (index_number,)}


def words_of(line):
    """The words of a line, which ASCII blanks separate."""
    return re.findall("[^ \t\n\f\r]+", line)


def lines_of(script):
    """The lines of a script; the last one may lack its end."""
    lines = script.split("\n")
    return lines if lines[-1] else lines[:-1]


def call_of_words(words):
    """The name and the numbers of a call, or None."""
    if not words or words[0] not in NUMBERS:
        return None
    readers = NUMBERS[words[0]]
    if len(words) - 1 != len(readers):
        return None
    numbers = [read(word) for read, word in zip(readers, words[1:])]
    return None if None in numbers else (words[0], numbers)


def failed(why):
    """Why there is no output."""
    return Result(1, b"", f"replay: {why}")


def run(sounder, lines):
    """The key line again, and every call with its answer; or which line is no call."""
    output = [" ".join(lines[0])]
    calls = [call_of_words(words) for words in lines[1:]]
    if None in calls:
        return failed(f"line {calls.index(None) + 2}: expected {EXPECTED_CALL}")
    for words, call in zip(lines[1:], calls):
        output.append(f"{' '.join(words)} = {sounder.answer(*call)}")
    return Result(0, "".join(f"{line}\n" for line in output).encode())


def replay(script):
    """What replay answers to the bytes of a script."""
    try:
        lines = [words_of(line) for line in lines_of(script.decode())]
    except UnicodeDecodeError:
        return failed("the script is no UTF-8 text")
    key = key_of_words(lines[0][1:]) if lines and lines[0][:1] == ["key"] else None
    if key is None:
        return failed(f"line 1: expected {EXPECTED_KEY}")
    try:
        check_key(*key)
    except Refusal as refusal:
        return Result(1, f"{' '.join(lines[0])} = {refusal}\n".encode())
    return run(Sounder(key[0], codes(*key)), lines)


if __name__ == "__main__":
    sys.exit(end(replay(sys.stdin.buffer.read())))
