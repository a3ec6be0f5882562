"""Sounding files with one fault, and with each two faults at once that can meet."""

import collections
import copy
import itertools

from cases.files import file_case, refused
from definitions import HALL, MOST_STAGES, RADIO, ROOTS
from sounding import WORDS


class Description:
    """A sounding file by its fields."""

    def __init__(self, kind, kernel, stages, room_length):
        self.version = 1
        self.length = lambda right: right
        self.kind = kind
        self.kernel = kernel
        self.count = len(stages)
        self.delays = [delay for delay, _ in stages]
        self.codes = [code for _, code in stages]
        self.room_length = room_length
        self.words = WORDS[kind]
        self.records = [[], []]
        self.fit_records()
        self.cut = None
        self.tail = b""

    def fit_records(self):
        """Gives each record as many samples as the key and the room length ask."""
        size = max(0, self.kernel * 2 ** len(self.delays) + self.room_length - 1)
        for record in self.records:
            del record[size:]
            record.extend([100 + len(record), -7][:self.words] for _ in range(size - len(record)))

    def sample_size(self):
        return 2 * self.words

    def room_start(self):
        """The byte where the room length begins."""
        return 6 + 2 * self.count

    def record_start(self, record):
        """The byte where a record begins; record 2 would begin where the file ends."""
        return self.room_start() + 2 + record * len(self.records[0]) * self.sample_size()

    def file(self):
        """The bytes of the file."""
        stages = bytes(itertools.chain.from_iterable(zip(self.delays, self.codes)))
        samples = b"".join(word.to_bytes(2, "big", signed=True)
                           for record in self.records for sample in record for word in sample)
        fields = (bytes([self.kind, self.kernel, self.count]) + stages
                  + self.room_length.to_bytes(2, "big") + samples + self.tail)
        if self.cut is not None:
            fields = fields[:max(0, self.cut - 3)]
        length = self.length(len(fields)) % 65536
        return (bytes([self.version]) + length.to_bytes(2, "big") + fields)[:self.cut]


# A fault of a file: its name, the field it is in, the refusal that tells it, and what makes it.
Fault = collections.namedtuple("Fault", "name field expected apply")


# What makes a fault

def setting(name, value):
    return lambda file: setattr(file, name, value)


def setting_at(name, place, value):
    return lambda file: getattr(file, name).__setitem__(place, value)


def setting_room_length(value):
    def apply(file):
        file.room_length = value
        file.fit_records()
    return apply


def too_many_stages(kernel):
    """One stage more than the kernel allows, with all that belongs to it."""
    count = MOST_STAGES[kernel] + 1

    def apply(file):
        file.delays += [kernel << i for i in range(len(file.delays), count)]
        file.codes += [0] * (count - len(file.codes))
        file.count = count
        file.fit_records()
    return apply


# The faults of a file, by what they are in, each list in the order in which they are told

def cut(name, size, byte):
    """The end of the file after `size` bytes, told at the byte where the missing field begins."""
    return Fault(f"{name} (cut to {size})", "end", refused(12, 1, byte, byte), setting("cut", size))


def frame_faults():
    """Faults of what is read or said of the whole file: too long, the version, the length."""
    version, length = refused(13, 1, 0, 0), refused(12, 1, 1, 1)
    return [
        Fault("above 8192 bytes", "end", refused(12, 1, 8192, 8192), setting("tail", bytes(8192))),
        cut("version missing", 0, 0),
        Fault("version 0", "version", version, setting("version", 0)),
        Fault("version 2", "version", version, setting("version", 2)),
        cut("length missing", 1, 1),
        cut("half a length", 2, 1),
        Fault("length above", "length", length, setting("length", lambda right: right + 1)),
        Fault("length below", "length", length, setting("length", lambda right: right - 1)),
    ]


def start_faults(base):
    """Faults of the kind, the kernel and the number of stages."""
    kind, kernel, count = refused(14, 1, 3, 3), refused(1, 2, 0, 4), refused(2, 2, 0, 5)
    return [
        cut("kind missing", 3, 3),
        Fault("kind 0", "kind", kind, setting("kind", 0)),
        Fault("kind 3", "kind", kind, setting("kind", 3)),
        cut("kernel missing", 4, 4),
        cut("count missing", 5, 5),
        Fault("kernel 0", "kernel", kernel, setting("kernel", 0)),
        Fault("kernel 2", "kernel", kernel, setting("kernel", 2)),
        Fault("one stage too many", "count", count, too_many_stages(base.kernel)),
        Fault("255 stages told", "count", count, setting("count", 255)),
    ]


def missing_stages(base):
    """Ends of the file in the stages and in the room length."""
    for stage in range(base.count):
        yield cut(f"delay {stage} missing", 6 + 2 * stage, 6 + 2 * stage)
        yield cut(f"code {stage} missing", 7 + 2 * stage, 7 + 2 * stage)
    yield cut("room length missing", base.room_start(), base.room_start())
    yield cut("half a room length", base.room_start() + 1, base.room_start())


def stage_faults(base):
    """Faults of the stages and of the room length. The file has two stages or more."""
    delays, room_length = refused(3, 2, 0, 6), refused(5, 3, 0, base.room_start())
    return [
        Fault("a delay twice", "delay 1", delays, setting_at("delays", 1, base.delays[0])),
        Fault("a delay of none", "delay 0", delays, setting_at("delays", 0, 3 * base.kernel)),
        Fault("code 0 too large", "code 0", refused(4, 2, 0, 7), setting_at("codes", 0, len(ROOTS[base.kind]))),
        Fault("code 1 too large", "code 1", refused(4, 2, 1, 9), setting_at("codes", 1, 255)),
        Fault("room length 0", "room length", room_length, setting_room_length(0)),
        Fault("room length 257", "room length", room_length, setting_room_length(257)),
    ]


def size_faults(base):
    """Records that are too short or too long."""
    start = base.room_start() + 2
    yield cut("no record", start, start)
    yield cut("one record", base.record_start(1), start)
    yield cut("a record short by a byte", base.record_start(2) - 1, start)
    for name, extra in (("a byte", 1), ("a sample", base.sample_size()), ("two samples", 2 * base.sample_size())):
        yield Fault(f"{name} too many", "end", refused(12, 1, start, start), setting("tail", bytes(extra)))


def sample_faults(base):
    """Words that are too large, in each record, at its begin and further on."""
    for record, place, word in itertools.product((0, 1), (0, 2), range(base.words)):
        byte = base.record_start(record) + place * base.sample_size()
        yield Fault(f"word {word} of sample {place} of record {record}", f"word {record} {place} {word}",
                    refused(8, 3, place, byte),
                    lambda file, r=record, p=place, w=word: file.records[r][p].__setitem__(w, -32768))


def faults_of(base):
    """The single faults of a base file, in the order in which they are told."""
    return [*frame_faults(), *start_faults(base), *missing_stages(base), *stage_faults(base),
            *size_faults(base), *sample_faults(base)]


def damaged(base, *faults):
    """The bytes of the base file with some faults."""
    file = copy.deepcopy(base)
    for fault in faults:
        fault.apply(file)
    return file.file()


def faulty_files(name, base):
    """Each fault alone, and each two of them where neither hides the other: the first in the table is told."""
    table = faults_of(base)
    yield file_case(f"{name}, no fault", base.file())
    for fault in table:
        yield file_case(f"{name}, {fault.name}", damaged(base, fault), fault.expected)
    for first, second in itertools.combinations(table, 2):
        if first.field == second.field:
            continue
        both = damaged(base, first, second)
        if both not in (damaged(base, first), damaged(base, second)):
            yield file_case(f"{name}, {first.name} and {second.name}", both, first.expected)


def fixed_faults():
    """The faults of two files that are the same in every run."""
    yield from faulty_files("hall", Description(HALL, 1, [(2, 1), (1, 0)], 3))
    yield from faulty_files("radio", Description(RADIO, 10, [(20, 3), (10, 2)], 3))
