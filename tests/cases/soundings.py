"""Random sounding files: all keys and room lengths, rooms and records of many forms, and damaged files."""

import itertools
import random

from cases.faults import Description, faulty_files
from cases.files import file_case, truncations
from cases.keys import all_sizes, random_key
from definitions import HALL, LARGEST_WORD, LONGEST_ROOM, RADIO, at, codes, magnitude, plus, room_record
from sounding import make_file, make_report, number_bytes

LARGEST_NOISE = 50


def sample_of(source, kind, word):
    """A sample whose words are drawn by `word`."""
    return (word(source), word(source) if kind == RADIO else 0)


def random_room(source, kind, length, most):
    """A room whose magnitudes add up to `most` at the most, so that its records are within it too."""
    room = []
    for _ in range(length):
        limit = source.randint(0, most)
        tap = sample_of(source, kind, lambda s: s.randint(-limit, limit))
        most -= magnitude(tap)
        room.append(tap)
    source.shuffle(room)
    return room


# Records of any samples

WORDS_OF_RECORDS = {
    "any samples": lambda source: source.randint(-LARGEST_WORD, LARGEST_WORD),
    "extreme samples": lambda source: source.choice((-32767, 32767, -32767, 32767, 32766, 0, 1, -1)),
    "the ends and zero": lambda source: source.choice((-32767, 0, 32767)),
    "small samples": lambda source: source.randint(-3, 3),
}


def samples_file(source, key, length, form):
    """Two records of samples that no room gave back."""
    size = len(codes(*key)[0]) + length - 1
    records = [[sample_of(source, key[0], WORDS_OF_RECORDS[form]) for _ in range(size)] for _ in range(2)]
    return make_file(*key, length, records=records), None


# Records of rooms

def room_file(source, key, length, longest):
    """A room without noise: its first taps come back, and zeros behind them if it is shorter than asked."""
    room = random_room(source, key[0], source.randint(1, longest), LARGEST_WORD)
    taps = [at(room, k) for k in range(length)]
    return make_file(*key, length, room=room), make_report(key[0], taps)


def noisy_file(source, key, length):
    """A room of about the length that is asked, with noise in each sample."""
    kind = key[0]
    most = source.randint(1, LARGEST_NOISE)
    room = random_room(source, kind, source.randint(1, length + 5), LARGEST_WORD - most)
    records = [[plus(sample, sample_of(source, kind, lambda s: s.randint(-most, most)))
                for sample in room_record(code, room, length)] for code in codes(*key)]
    return make_file(*key, length, records=records), None


def file_of_form(source, key, length, form):
    """A sounding file of a form, and its report where it is known."""
    if form == "a room":
        return room_file(source, key, length, length)
    if form == "a longer room":
        return room_file(source, key, length, length + 40)
    if form == "a room with noise":
        return noisy_file(source, key, length)
    return samples_file(source, key, length, form)


FORMS = [*WORDS_OF_RECORDS, "a room", "a longer room", "a room with noise"]


def sounding(source, size, length, form):
    """A sounding of a form, over a random key of a size."""
    key = random_key(source, *size)
    file, expected = file_of_form(source, key, length, form)
    return file_case(f"{form}, key {key}, room length {length}", file, expected)


def sized_soundings(source):
    """Every size of a key with every form, once with a short room length and once with any."""
    for size, form in itertools.product(all_sizes(), FORMS):
        yield sounding(source, size, source.randint(1, 12), form)
        yield sounding(source, size, source.randint(1, LONGEST_ROOM), form)


def long_soundings(source):
    """Every room length, over a key of any size and with any form; the longest with every size."""
    sizes = list(all_sizes())
    for length in range(1, LONGEST_ROOM + 1):
        yield sounding(source, source.choice(sizes), length, source.choice(FORMS))
    for size in sizes:
        yield sounding(source, size, LONGEST_ROOM, source.choice(FORMS))


# Damaged files

def small_file(source):
    """A sounding file of up to some 200 bytes."""
    size = source.choice([size for size in all_sizes() if size[1] << size[2] <= 20])
    return sounding(source, size, source.randint(1, 6), source.choice(FORMS)).input


def with_byte(source, file):
    place = source.randrange(len(file))
    return file[:place] + bytes([source.randrange(256)]) + file[place + 1:]


def with_early_byte(source, file):
    place = source.randrange(min(len(file), 16))
    return file[:place] + bytes([source.choice((0, 1, 2, 3, 4, 10, 20, 255))]) + file[place + 1:]


def without_byte(source, file):
    place = source.randrange(len(file))
    return file[:place] + file[place + 1:]


def with_byte_more(source, file):
    place = source.randint(0, len(file))
    return file[:place] + bytes([source.randrange(256)]) + file[place:]


def cut_short(source, file):
    return file[:source.randint(1, len(file))]


def with_large_word(source, file):
    """The word -32768 somewhere, often where a word of a sample begins."""
    place = source.randrange(len(file))
    return file[:place] + b"\x80\x00" + file[place + 2:]


DAMAGES = [with_byte, with_early_byte, without_byte, with_byte_more, cut_short, with_large_word, with_large_word]


def corrected(file):
    """The file with the length that it has."""
    return file[:1] + number_bytes(len(file) - 3) + file[3:] if len(file) >= 3 else file


def damaged_files(source):
    """Small files with one to three damages, most of them with a corrected length."""
    for _ in range(1200):
        damages = source.choices(DAMAGES, k=source.randint(1, 3))
        file = small_file(source)
        for damage in damages:
            file = damage(source, file) if file else file
        if source.random() < 0.8:
            file = corrected(file)
        yield file_case(f"damaged by {', '.join(damage.__name__ for damage in damages)}", file)


def likely_file(source):
    """A file of random fields, each of which is mostly one that is allowed."""
    def likely(right, wrong=range(256)):
        return source.choice(right if source.random() < 0.85 else wrong)

    fields = bytes([likely((HALL, RADIO)), likely((1, 10)), likely((0, 1, 1, 2))])
    return corrected(bytes([likely((1,)), 0, 0]) + fields + source.randbytes(source.randint(0, 40)))


def bytes_of_no_file(source):
    """Bytes that nobody wrote as a file: few and many."""
    for _ in range(200):
        yield file_case("likely fields", likely_file(source))
    for _ in range(50):
        yield file_case("random bytes", source.randbytes(source.randint(0, 20)))
    for _ in range(20):
        yield file_case("overlong random bytes", b"\x01" + source.randbytes(source.randint(8192, 20000)))


def random_bases(source):
    """The description of a small file with two stages or three, for each kind and kernel."""
    for kind, kernel in itertools.product((HALL, RADIO), (1, 10)):
        key = random_key(source, kind, kernel, source.randint(2, 3 if kernel == 1 else 2))
        yield Description(*key, source.randint(3, 6))


def random_soundings(seed):
    """All random sounding files of a seed."""
    source = random.Random(f"{seed} soundings")
    yield from sized_soundings(source)
    yield from long_soundings(source)
    yield from damaged_files(source)
    yield from bytes_of_no_file(source)
    for base in random_bases(source):
        name = f"a random file of kind {base.kind} and kernel {base.kernel}"
        yield from faulty_files(name, base)
        yield from truncations(name, base.file())
