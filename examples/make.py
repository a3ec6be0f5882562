#!/usr/bin/env python3
"""Makes the soundings of this folder and their reports: python3 examples/make.py"""

import pathlib
import sys

sys.dont_write_bytecode = True
here = pathlib.Path(__file__).resolve().parent
sys.path.insert(0, str(here.parent / "reference"))

from definitions import HALL, RADIO, codes, plus, room_record  # noqa: E402
from sounding import make_file, report  # noqa: E402


def spread(seed):
    """Whole numbers from 0 to 999 in no order, the same in every run."""
    while True:
        seed = (seed * 1103515245 + 12345) % 2 ** 31
        yield seed // 65536 % 1000


def decaying(seed, length, arrivals, tail):
    """A room: arrivals (tap: sample), and from the first of them on a tail that dies away."""
    numbers = spread(seed)
    room = []
    for k in range(length):
        level = tail * 9 ** k // 10 ** k if k > min(arrivals) else 0
        diffuse = tuple(level * (next(numbers) - 500) // 500 for _ in range(2))
        room.append(plus(diffuse, arrivals.get(k, (0, 0))))
    return room


def noisy(record, numbers, most):
    """The record with up to `most` more or less in the first word of each sample."""
    return [plus(sample, (next(numbers) % (2 * most + 1) - most, 0)) for sample in record]


def write(name, file):
    (here / f"{name}.sounding").write_bytes(file)
    result = report(file)
    if result.status == 0:
        (here / f"{name}.report").write_bytes(result.output)
    else:
        print(f"{name}: {result.output.decode()}", end="")


# The smallest one: one stage, the room 3, -1.
small = make_file(HALL, 1, [(1, 0)], 2, room=[(3, 0), (-1, 0)])
write("hall-kernel-1", small)

# The same with the weight code 2, which no hall stage has.
write("refused", small[:7] + b"\x02" + small[8:])

# A hall: direct sound, two walls, the balcony, a tail, and noise of up to 3 in each sample.
stages = [(80, 1), (10, 0), (40, 1), (20, 1)]
arrivals = {3: (9000, 0), 11: (-3100, 0), 19: (2200, 0), 34: (-1450, 0)}
room = [(x, 0) for x, _ in decaying(7, 40, arrivals, 500)]
numbers = spread(11)
records = [noisy(room_record(code, room, 40), numbers, 3) for code in codes(HALL, 10, stages)]
write("hall-kernel-10", make_file(HALL, 10, stages, 40, records=records))

# A radio link with four paths; the room is longer than what is asked of it.
stages = [(16, 3), (1, 0), (64, 2), (4, 1), (32, 3), (2, 2), (8, 1)]
arrivals = {5: (7000, -4200), 9: (-2600, 1900), 26: (800, 1500), 58: (-700, -350)}
write("radio-kernel-1", make_file(RADIO, 1, stages, 64, room=decaying(23, 70, arrivals, 300)))

# A radio link along one row.
stages = [(20, 2), (80, 1), (10, 3), (40, 0)]
arrivals = {0: (12000, 5000), 2: (-4000, 2500), 17: (900, -1300)}
write("radio-kernel-10", make_file(RADIO, 10, stages, 30, room=decaying(41, 30, arrivals, 400)))
