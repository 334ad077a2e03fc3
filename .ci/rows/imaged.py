"""Disks without a format as files of ImageDisk: each row's file and report are those of the plain reading of the definition (bench/modules/plain_imd.py)."""
import random

from case_imd import file_of
from plain import numbered
from plain_dumps import Dumps, Shelf
from plain_imd import DELETED, imd
from plain_recordings import crc
from shared import SHORT, Row, track_file

GOOD = 0xFB
MFM, HIGH, FM, EIGHT_INCH = (numbered(f"{rate}-1x1x1x128") for rate in ("mfm-dd", "mfm-hd", "fm-sd", "fm-sd8"))


def sectors(cylinder, head, numbers, code=0, mark=GOOD):
    """Sectors of a track, each of bytes of its own."""
    return [((cylinder, head, number, code), bytes((cylinder + number + at) % 251 for at in range(128 << code)), mark) for number in numbers]


def alike(cylinder, head, number, byte):
    return [((cylinder, head, number, 0), bytes([byte]) * 128, GOOD)]


def bare(cylinder, head, number):
    return [((cylinder, head, number, 0), b"", GOOD)]


def in_cells(content):
    """The bytes of double density whose bits are the cells of bytes of single density."""
    return b"".join(int("".join(f"1{bit}" for bit in f"{byte:08b}"), 2).to_bytes(2, "big") for byte in content)


def hiding(numbers):
    """512 bytes of double density in which sectors of single density stand, of 128 bytes each: a header and a mark of data take 16 bytes, and
    their data have a part in common."""
    made = bytearray(b"\xff" * 32 + in_cells(bytes(240)))
    begins = [32 + 16 * at for at in range(len(numbers))]
    for begin, number in zip(begins, numbers):
        name = bytes([0, 0, number, 0])
        made[begin:begin + 16] = b"\xf5\x7e" + in_cells(name + crc(b"\xfe" + name).to_bytes(2, "big")) + b"\xf5\x6f"
    for begin in begins:
        bits = "".join(f"{byte:08b}" for byte in made[begin + 16:begin + 272])[1::2]
        content = int(bits, 2).to_bytes(128, "big")
        made[begin + 272:begin + 276] = in_cells(crc(bytes([GOOD]) + content).to_bytes(2, "big"))
    return bytes(made)


def half(cylinder):
    """A track of a disk of 40 cylinders in a drive of 80."""
    return [(MFM, sectors(cylinder // 2, 0, [1, 2]))]


# The pieces of each track, a density with its sectors; whether two steps are asked for; and the exit code
DISKS = {
    "all densities": ({(0, 0): [(MFM, sectors(0, 0, [3, 1]))], (0, 1): [(FM, sectors(0, 1, [1]))], (1, 0): [(HIGH, sectors(1, 0, [1, 2], 1))],
                       (1, 1): [(EIGHT_INCH, sectors(1, 1, [7]))]}, False, 0),
    "two densities on a track": ({(0, 0): [(MFM, sectors(0, 0, [1, 2])), (FM, sectors(0, 0, [1]))]}, False, 1),
    "two sizes on a track": ({(0, 0): [(MFM, sectors(0, 0, [1, 2]) + sectors(0, 0, [3], 2))]}, False, 1),
    "bytes that are sectors of another density": ({(0, 0): [(MFM, [((0, 0, 1, 2), hiding(range(1, 14)), GOOD)])]}, False, 1),
    "sectors above 1024 bytes": ({(0, 0): [(MFM, sectors(0, 0, [1]) + [((0, 0, 2, 4), b"", GOOD)])]}, False, 1),
    "deleted data and equal bytes": ({(0, 0): [(MFM, sectors(0, 0, [1], mark=DELETED) + alike(0, 0, 2, 0xE5))]}, False, 0),
    "contradictory data": ({(0, 0): [(MFM, alike(0, 0, 1, 1) + alike(0, 0, 1, 2) + sectors(0, 0, [2]))]}, False, 1),
    "a sector and a bare header": ({(0, 0): [(MFM, sectors(0, 0, [1]) + bare(0, 0, 66))]}, False, 1),
    "headers alone": ({(0, 0): [(MFM, bare(0, 0, 1))]}, False, 1),
    "names of other tracks": ({(0, 0): [(MFM, sectors(5, 0, [1]) + sectors(0, 1, [2]))], (0, 1): [(FM, sectors(0, 0, [1]))]}, False, 0),
    "40 cylinders in a drive of 80": ({(cylinder, 0): half(cylinder) for cylinder in range(4)}, False, 1),
    "the same by two steps": ({(cylinder, 0): half(cylinder) for cylinder in range(4)}, True, 0),
}


def wanted(files, names, steps):
    """The outcome by the plain reading."""
    return imd(Dumps(Shelf({path.encode(): content for path, content in files.items()}), [name.encode() for name in names], steps))


def row(name, files, names, double, code):
    words = ["imd"] + ["--double-step"] * double + names
    said, image, notes = wanted(files, names, 1 + double)
    wrong = None if said == code else (lambda output, errors: f"the plain reading ends with {said}")
    return Row(name, words, b"", code, image, notes, wrong, files=files)


def rows():
    made = {}
    for name, (tracks, double, code) in DISKS.items():
        made[name] = {track_file("a", *track): file_of(random.Random(name), set(), pieces, True) for track, pieces in tracks.items()}
        yield row(name, made[name], ["a"], double, code)
    gaps = {path: content for path, content in made["all densities"].items() if path != track_file("a", 0, 1)} | {track_file("a", 1, 1): SHORT[:40]}
    yield row("files missing and refused", gaps, ["a"], False, 1)
    yield row("two dumps of one disk", gaps | {path.replace("a/", "b/"): content for path, content in made["all densities"].items()}, ["a", "b"], False, 1)
    yield row("a folder in the place of a file", made["all densities"] | {track_file("a", 1, 0): None}, ["a"], False, 8)
    for words in ([], [""], ["--double-step"], ["a"] * 9):
        yield Row(f"imd {words}", ["imd", *words], b"", 3, b"", b"usage: flux imd [--double-step] DUMP...\n", files={"a/track00.0.raw": SHORT})
    yield Row("no files", ["imd", "a"], b"", 2, b"", b"refused dump 0 a is not there\n")
    yield Row("none of an even cylinder", ["imd", "--double-step", "a"], b"", 2, b"", b"refused dump 0 a has files of other tracks alone\n",
              files={"a/track01.0.raw": SHORT})
