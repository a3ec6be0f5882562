"""Fixed sounding files: the examples, single files with what is expected of each, edges of sizes, truncations."""

from definitions import HALL, RADIO, ROOTS
from running import TOP, Case
from sounding import make_file, make_report


def file_case(name, file, expected=None, **how):
    return Case("echotaps", name, file, expected=expected, **how)


def refused(number, layer, place, byte):
    return f"refused {number} layer {layer} place {place} byte {byte}\n".encode()


# The examples and single files

WORKED = bytes.fromhex("01 0013 01 01 01 01 00 0002 0003 0002 FFFF 0003 FFFC 0001")
WORKED_REPORT = bytes.fromhex("01 0007 01 0002 0003 FFFF")


def examples():
    """The examples, each read from its file. There are at least five, and the worked file is one of them."""
    paths = sorted((TOP / "examples").glob("*.sounding"))
    if len(paths) < 5 or WORKED not in (path.read_bytes() for path in paths):
        raise ValueError("the examples are not those that are expected")
    for path in paths:
        told = refused(4, 2, 0, 7) if path.stem == "refused" else path.with_suffix(".report").read_bytes()
        yield file_case(path.name, path.read_bytes(), told, source=path)


SINGLE_FILES = [
    ("the worked file", "01 0013 01 01 01 01 00 0002 0003 0002 FFFF 0003 FFFC 0001", "01 0007 01 0002 0003 FFFF"),
    ("the byte 02", "02", (13, 1, 0, 0)),
    ("the byte 01", "01", (12, 1, 1, 1)),
    ("empty", "", (12, 1, 0, 0)),
    ("a line feed after the file", WORKED.hex() + "0A", (12, 1, 1, 1)),
    ("two files", WORKED.hex() * 2, (12, 1, 1, 1)),
    ("a report as a sounding", WORKED_REPORT.hex(), (1, 2, 0, 4)),

    # No stage: the energy is 2, and halves go away from zero.
    ("hall, no stage", "01 0009 01 01 00 0001 0005 0005", "01 0005 01 0001 0005"),
    ("half up", "01 0009 01 01 00 0001 0003 0002", "01 0005 01 0001 0003"),
    ("half down", "01 0009 01 01 00 0001 FFFD FFFE", "01 0005 01 0001 FFFD"),
    ("half one", "01 0009 01 01 00 0001 0001 0000", "01 0005 01 0001 0001"),
    ("minus half one", "01 0009 01 01 00 0001 0000 FFFF", "01 0005 01 0001 FFFF"),
    ("radio, halves of both signs", "01 000D 02 01 00 0001 0003 FFFE 0002 FFFD", "01 0007 02 0001 0003 FFFD"),
    ("the largest and the smallest word", "01 000D 01 01 00 0002 7FFF 8001 7FFF 8001", "01 0007 01 0002 7FFF 8001"),
    # One stage: the energy is 4. The sums are 1 and -1, 2 and -2, 3 and -3.
    ("quarters", "01 0013 01 01 01 01 00 0002 0001 0000 FFFF 0000 0000 0000", "01 0007 01 0002 0000 0000"),
    ("two quarters", "01 0013 01 01 01 01 00 0002 0002 0000 FFFE 0000 0000 0000", "01 0007 01 0002 0001 FFFF"),
    ("three quarters", "01 0013 01 01 01 01 00 0002 0003 0000 FFFD 0000 0000 0000", "01 0007 01 0002 0001 FFFF"),
    ("radio, code 1",
     "01 0017 02 01 01 01 01 0001 0000 0003 0003 0000 0000 0003 FFFD 0000", "01 0007 02 0001 0003 0000"),
    ("radio, code 3",
     "01 0017 02 01 01 01 03 0001 0000 FFFD 0003 0000 0000 FFFD FFFD 0000", "01 0007 02 0001 0003 0000"),

    ("8 in the first record", "01 0013 01 01 01 01 00 0002 0003 8000 FFFF 0003 FFFC 0001", (8, 3, 1, 12)),
    ("8 in the second record", "01 0013 01 01 01 01 00 0002 0003 0002 FFFF 0003 FFFC 8000", (8, 3, 2, 20)),
    ("8 at the first sample of the second record",
     "01 0013 01 01 01 01 00 0002 0003 0002 FFFF 8000 FFFC 0001", (8, 3, 0, 16)),
    ("8 in the second word of radio", "01 000D 02 01 00 0001 0003 8000 0002 FFFD", (8, 3, 0, 8)),
    ("8 in the second word of radio, second record", "01 000D 02 01 00 0001 0003 0000 0002 8000", (8, 3, 0, 12)),
    ("8 in both words of radio", "01 000D 02 01 00 0001 8000 8000 0002 0000", (8, 3, 0, 8)),

    ("room length 0", "01 0005 01 01 00 0000", (5, 3, 0, 6)),
    ("room length 0, a sample in each record", "01 0009 01 01 00 0000 0001 0001", (5, 3, 0, 6)),
    ("room length 65535, no record", "01 0005 01 01 00 FFFF", (5, 3, 0, 6)),
    ("room length 256, no record", "01 0005 01 01 00 0100", (12, 1, 8, 8)),
    ("a room length of one byte", "01 0004 01 01 00 01", (12, 1, 6, 6)),

    ("kernel 10, 5 stages", "01 000F 01 0A 05 0A00 1400 2800 5000 A000 0001", (2, 2, 0, 5)),
    ("kernel 10, 4 stages, no record", "01 000D 01 0A 04 0A00 1400 2800 5000 0001", (12, 1, 16, 16)),
    ("kernel 1, 8 stages", "01 0015 01 01 08 0100 0200 0400 0800 1000 2000 4000 8000 0001", (2, 2, 0, 5)),
    ("kernel 1, 7 stages, no record", "01 0013 01 01 07 0100 0200 0400 0800 1000 2000 4000 0001", (12, 1, 22, 22)),
    ("kernel 1, 255 stages and no more", "01 0003 01 01 FF", (2, 2, 0, 5)),
    ("kernel 10, delays of kernel 1", "01 0009 01 0A 02 0100 0200 0001", (3, 2, 0, 6)),
    ("kernel 1, delays of kernel 10", "01 0009 01 01 02 0A00 1400 0001", (3, 2, 0, 6)),
    ("a delay of 0", "01 0007 01 01 01 0000 0001", (3, 2, 0, 6)),
    ("delays 2 and 2", "01 0009 01 01 02 0200 0200 0001", (3, 2, 0, 6)),
    ("delays 1 and 1", "01 0009 01 01 02 0100 0100 0001", (3, 2, 0, 6)),
    ("delays 1, 2 and 3", "01 000B 01 01 03 0100 0200 0300 0001", (3, 2, 0, 6)),
    ("one delay that is the second", "01 0007 01 01 01 0200 0001", (3, 2, 0, 6)),
    ("hall, code 2", "01 0009 01 01 02 0100 0202 0001", (4, 2, 1, 9)),
    ("radio, code 2", "01 0009 02 01 02 0100 0202 0001", (12, 1, 12, 12)),
    ("radio, code 4", "01 0009 02 01 02 0104 0204 0001", (4, 2, 0, 7)),
    ("more stages told than there are", "01 0005 01 01 03 0100", (12, 1, 8, 8)),
    ("more stages told, half of one there", "01 0006 01 01 03 0100 02", (12, 1, 9, 9)),
    ("stages that reach into the records", "01 0013 01 01 07 01 00 0002 0003 0002 FFFF 0003 FFFC 0001", (3, 2, 0, 6)),
    ("a hall file told to be radio", "01 0013 02 01 01 01 00 0002 0003 0002 FFFF 0003 FFFC 0001", (12, 1, 10, 10)),
    ("a length in the other byte order", "01 1300 01 01 01 01 00 0002 0003 0002 FFFF 0003 FFFC 0001", (12, 1, 1, 1)),
    ("the length of the whole file", "01 0016 01 01 01 01 00 0002 0003 0002 FFFF 0003 FFFC 0001", (12, 1, 1, 1)),
]


def single_files():
    """Files written byte by byte, with what is expected of each."""
    for name, text, expected in SINGLE_FILES:
        told = bytes.fromhex(expected) if isinstance(expected, str) else refused(*expected)
        yield file_case(name, bytes.fromhex(text), told)



# Sizes

def edge_keys():
    """Kind, kernel and stages of the shortest and the longest codes, the highest delay first."""
    for kind in (HALL, RADIO):
        for kernel, count in ((1, 0), (1, 7), (10, 0), (10, 4)):
            yield kind, kernel, [(kernel << i, (i + kind) % len(ROOTS[kind])) for i in reversed(range(count))]


def edge_room_lengths(kind, kernel, stages):
    """The room length 256, and those on both sides of what is allowed."""
    case = f"kind {kind}, kernel {kernel}, {len(stages)} stages"
    span = kernel << len(stages)
    limit = refused(5, 3, 0, 6 + 2 * len(stages))
    records = [[(k % 251 - 125, (k % 7) * (kind - 1)) for k in range(start, start + span + 255)] for start in (0, 3)]
    longer = [record + [(0, 0)] for record in records]
    shorter = [record[:span - 1] for record in records]
    yield file_case(f"{case}, room length 256", make_file(kind, kernel, stages, 256, records=records))
    yield file_case(f"{case}, room length 257", make_file(kind, kernel, stages, 257, records=longer), limit)
    yield file_case(f"{case}, room length 0", make_file(kind, kernel, stages, 0, records=shorter), limit)


def edge_taps(kind, kernel, stages):
    """The largest taps and the largest samples."""
    case = f"kind {kind}, kernel {kernel}, {len(stages)} stages"
    span = kernel << len(stages)
    for x in (32767, -32767):
        tap = (x, -x * (kind - 1))
        yield file_case(f"{case}, the tap {tap}", make_file(kind, kernel, stages, 1, room=[tap]),
                        make_report(kind, [tap]))
        records = [[tap] * (span + 2)] * 2
        yield file_case(f"{case}, all samples {tap}", make_file(kind, kernel, stages, 3, records=records))


def long_files():
    """Input at the limit and above it."""
    def filled(size, start):
        return start + bytes(size - len(start))

    header = bytes.fromhex("01 01 00 0100")
    right = b"\x01" + (8189).to_bytes(2, "big") + header
    over = b"\x01" + (8190).to_bytes(2, "big") + header
    limit = refused(12, 1, 8192, 8192)
    yield file_case("8192 bytes", filled(8192, right), refused(12, 1, 8, 8))
    yield file_case("8192 bytes, a wrong version", filled(8192, b"\x02"), refused(13, 1, 0, 0))
    yield file_case("8192 bytes, a wrong length", filled(8192, over), refused(12, 1, 1, 1))
    yield file_case("8192 bytes in pieces", filled(8192, right), refused(12, 1, 8, 8), pieces=4096)
    yield file_case("8193 bytes", filled(8193, over), limit)
    yield file_case("8193 bytes, a wrong version", filled(8193, b"\x02"), limit)
    yield file_case("8193 bytes, a wrong length", filled(8193, right), limit)
    yield file_case("8193 bytes in pieces", filled(8193, over), limit, pieces=8192)
    yield file_case("8193 bytes, the worked file in front", filled(8193, WORKED), limit)
    yield file_case("8194 bytes", filled(8194, over), limit)
    yield file_case("65538 bytes, the largest length", b"\x01\xff\xff" + header + bytes(65530), limit)
    yield file_case("a million bytes", filled(1000000, over), limit)


def files_in_pieces():
    """Files that come through a pipe a few bytes at a time."""
    yield file_case("the worked file in pieces of 1", WORKED, WORKED_REPORT, pieces=1)
    yield file_case("the worked file in pieces of 5", WORKED, WORKED_REPORT, pieces=5)
    radio = (TOP / "examples/radio-kernel-1.sounding").read_bytes()
    yield file_case("a radio example in pieces", radio, pieces=333)


# Input that can't be read, output that can't be written

def failures():
    """Status 1, and one line on standard error that names the program."""
    yield file_case("a folder as input", b"", source="/", fails=True)
    for name in ("hall-kernel-1", "refused"):
        file = (TOP / f"examples/{name}.sounding").read_bytes()
        yield file_case(f"{name}, a full device as output", file, sink="/dev/full", fails=True)


# Truncations

def truncated_refusal(file, size, corrected):
    """What a sounding file is refused with when only `size` bytes of it are left.

    The fields begin at 0 version, 1 length, 3 kind, 4 kernel, 5 count of stages, 6 the stages with two bytes each,
    then the room length and the records. The field that is cut or gone is told, unless the length, left as it was,
    tells it first.
    """
    if size == 0:
        return refused(12, 1, 0, 0)
    if size < 3 or not corrected:
        return refused(12, 1, 1, 1)
    room_start = 6 + 2 * file[5]
    byte = max(start for start in (*range(3, room_start + 1), room_start + 2) if start <= size)
    return refused(12, 1, byte, byte)


def truncations(name, file):
    """The first bytes of a good file, as many as there can be, with its length and with that of what is left."""
    for size in range(len(file)):
        yield file_case(f"{size} bytes of {name}", file[:size], truncated_refusal(file, size, False))
        if size >= 3:
            cut = b"\x01" + (size - 3).to_bytes(2, "big") + file[3:size]
            yield file_case(f"{size} bytes of {name}, length corrected", cut, truncated_refusal(file, size, True))


def fixed_files():
    """All sounding files that are the same in every run."""
    yield from examples()
    yield from single_files()
    for key in edge_keys():
        yield from edge_room_lengths(*key)
        yield from edge_taps(*key)
    yield from long_files()
    yield from files_in_pieces()
    yield from failures()
    yield from truncations("the worked file", WORKED)
