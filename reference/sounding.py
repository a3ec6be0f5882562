#!/usr/bin/env python3
"""A reference for sounding files: codes by the recursion, sums by the definition.

As a program it answers one sounding file:

    python3 reference/sounding.py < FILE

It writes the report, or the refusal line, to standard output; the status is 0
after a report and 1 after a refusal.
"""

import contextlib
import sys

from definitions import (HALL, LARGEST_WORD, LONGEST_ROOM, RADIO, Refusal, Result, check_kernel,
                         check_stage_count, check_stages, codes, end, magnitude, room_record, tap_at)

WORDS = {HALL: 1, RADIO: 2}
LARGEST_INPUT = 8192


def number_bytes(number):
    return number.to_bytes(2, "big")


def sample_bytes(kind, samples):
    """Samples as they stand in a file."""
    return b"".join(word.to_bytes(2, "big", signed=True)
                    for sample in samples for word in sample[:WORDS[kind]])


def framed(fields):
    """The version byte and the length in front of all other fields."""
    return b"\x01" + number_bytes(len(fields)) + fields


def make_file(kind, kernel, stages, room_length, room=None, records=None):
    """The sounding file of two records, or of a room without noise."""
    if records is None:
        records = [room_record(code, room, room_length) for code in codes(kind, kernel, stages)]
    key = bytes([kernel, len(stages)]) + bytes(number for stage in stages for number in stage)
    return framed(bytes([kind]) + key + number_bytes(room_length)
                  + sample_bytes(kind, records[0]) + sample_bytes(kind, records[1]))


def make_report(kind, room):
    """The report of the taps of a room."""
    return framed(bytes([kind]) + number_bytes(len(room)) + sample_bytes(kind, room))


def file_refusal(number, byte):
    """A refusal of the file itself, whose place is its byte."""
    return Refusal(number, place=byte, byte=byte)


@contextlib.contextmanager
def key_bytes():
    """Tells the refusals of the key with their bytes in the file."""
    try:
        yield
    except Refusal as refusal:
        refusal.byte = {1: 4, 2: 5, 3: 6, 4: 7 + 2 * refusal.place}[refusal.number]
        raise


def check_frame(file):
    """The version and the length."""
    if len(file) < 1:
        raise file_refusal(12, 0)
    if file[0] != 1:
        raise file_refusal(13, 0)
    if len(file) < 3 or int.from_bytes(file[1:3], "big") != len(file) - 3:
        raise file_refusal(12, 1)


def read_start(file):
    """The kind, the kernel and the number of stages."""
    if len(file) < 4:
        raise file_refusal(12, 3)
    kind = file[3]
    if kind not in WORDS:
        raise file_refusal(14, 3)
    for byte in (4, 5):
        if len(file) <= byte:
            raise file_refusal(12, byte)
    with key_bytes():
        check_kernel(file[4])
        check_stage_count(file[4], file[5])
    return kind, file[4], file[5]


def read_key(file):
    """Kind, kernel and stages, and the room length behind them."""
    kind, kernel, count = read_start(file)
    room_start = 6 + 2 * count
    for byte in range(6, room_start):
        if len(file) <= byte:
            raise file_refusal(12, byte)
    if len(file) < room_start + 2:
        raise file_refusal(12, room_start)
    stages = list(zip(file[6:room_start:2], file[7:room_start:2]))
    with key_bytes():
        check_stages(kind, kernel, stages)
    room_length = int.from_bytes(file[room_start:room_start + 2], "big")
    if not 1 <= room_length <= LONGEST_ROOM:
        raise Refusal(5, byte=room_start)
    return kind, kernel, stages, room_length


def read_sample(file, kind, byte, place):
    """The sample that begins at a byte, at its place in a record."""
    words = [int.from_bytes(file[w:w + 2], "big", signed=True)
             for w in range(byte, byte + 2 * WORDS[kind], 2)]
    sample = (words[0], words[1] if kind == RADIO else 0)
    if magnitude(sample) > LARGEST_WORD:
        raise Refusal(8, place, byte)
    return sample


def read_file(file):
    """Kind, kernel, stages, room length and the two records of a sounding file, or its first Refusal."""
    check_frame(file)
    kind, kernel, stages, room_length = read_key(file)
    start = 8 + 2 * len(stages)
    sample_size = 2 * WORDS[kind]
    samples = kernel * 2 ** len(stages) + room_length - 1
    if len(file) - start != 2 * samples * sample_size:
        raise file_refusal(12, start)
    records = [[read_sample(file, kind, start + (samples * record + place) * sample_size, place)
                for place in range(samples)] for record in (0, 1)]
    return kind, kernel, stages, room_length, records


def taps_of(file):
    """The kind of a file and the taps of its records."""
    kind, kernel, stages, room_length, records = read_file(file)
    pair = codes(kind, kernel, stages)
    taps = [tap_at(pair, records, k) for k in range(room_length)]
    for k, tap in enumerate(taps):
        if magnitude(tap) > LARGEST_WORD:
            raise Refusal(16, k, len(file))
    return kind, taps


def report(file):
    """What echotaps answers to a file: its report, or the line of its refusal."""
    try:
        if len(file) > LARGEST_INPUT:
            raise file_refusal(12, LARGEST_INPUT)
        return Result(0, make_report(*taps_of(file)))
    except Refusal as refusal:
        return Result(1, f"{refusal}\n".encode())


if __name__ == "__main__":
    sys.exit(end(report(sys.stdin.buffer.read())))
