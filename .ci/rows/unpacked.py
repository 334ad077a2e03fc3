"""SCP files that are unpacked into files of a folder."""
import functools
import struct
import sys
from pathlib import Path

from plain_scp import File
from plain_streams import Stream
from shared import Row, counted, in_streams, track_file, written

sys.path.insert(0, str(Path(__file__).resolve().parents[2] / "samples"))
import scp                                                # noqa: E402

WORDS = ["unpack", "disk.scp", "made"]
# A disk of few tracks
DISK, SIZE = "mfm-dd-2x2x16x256", 16384
TABLE = 16 + 4 * 168


def scp_file(tracks, revolutions=1, flags=1, width=0, resolution=0, wanted=0):
    """A file of these tracks, by their numbers, which names this sum, if it is not 0."""
    offsets, body = [0] * 168, b""
    for number, data in tracks.items():
        offsets[number] = TABLE + len(body)
        body += data
    return b"SCP" + bytes([0, 0, revolutions, 0, 167, flags, width, 0, resolution]) + struct.pack("<I168I", wanted, *offsets) + body


def track(number, *revolutions, signature=b"TRK"):
    """A track of revolutions, each of a duration in units and of entries."""
    heads, data = b"", b""
    for duration, values in revolutions:
        heads += struct.pack("<III", duration, len(values), 4 + 12 * len(revolutions) + len(data))
        data += struct.pack(f">{len(values)}H", *values)
    return signature + bytes([number]) + heads + data


# Two transitions in one revolution, and in two
ONE = (8000000, [4000, 6000])
TWO = (ONE, (8000000, [4000, 6000]))

# Files of which nothing is made
NO_FILES = [
    ("no byte", b"", "ShortHeader 0"),
    ("15 bytes", b"SCP" + bytes(12), "ShortHeader 15"),
    ("another signature", b"SCQ" + bytes(13), "BadSignature"),
    ("a hard disk", scp_file({}, flags=0x41), "NotFloppy"),
    ("entries of 8 bits", scp_file({}, width=8), "BadWidth 8"),
]

# Tracks, what is told of them, and how many files there are
TRACKS = [
    ("no track", {}, b"", 0, 0),
    ("a track", {3: track(3, *TWO)}, b"", 1, 0),
    ("all tracks", {number: track(number, *TWO) for number in range(168)}, b"", 168, 0),
    ("a header that ends early", {5: track(5, *TWO)[:27]}, b"02.1 refused scp ShortTrack\n", 0, 1),
    ("another signature", {5: track(5, *TWO, signature=b"TRX")}, b"02.1 refused scp BadSignature\n", 0, 1),
    ("the number of another track", {4: track(4, *TWO), 5: track(4, *TWO)}, b"02.1 refused scp BadNumber 4\n", 1, 1),
    ("a first revolution that ends early", {166: track(166, *TWO)[:-5]}, b"83.0 refused scp ShortData 0\n", 0, 1),
    # What is left has one turn.
    ("a second one that ends early", {167: track(167, *TWO)[:-1]}, b"83.1 refused scp ShortData 1\n", 1, 1),
    ("no revolution with entries", {0: track(0, (8000000, []), ONE)}, b"00.0 refused block 2 NoTurn\n", 0, 1),
    ("a revolution that takes no time", {0: track(0, (0, [4000]), ONE)}, b"00.0 refused block 1 IndexOrder\n", 0, 1),
    ("a revolution of 107 seconds", {0: track(0, ONE, (4294967295, [4000])), 2: track(2, *TWO)}, b"", 2, 0),
    ("more entries than a stream may have", {1: track(1, ONE, ONE)[:20] + struct.pack("<I", 4194303) + track(1, ONE, ONE)[24:]},
     b"00.1 refused scp TooLong\n", 0, 1),
]


@functools.lru_cache
def disk_of(program, turns, resolution=0, table=168, footer=False, writable=False):
    """The file of a disk that the program writes."""
    streams = in_streams(written(program, DISK, counted(SIZE)))
    return scp.scp({number: Stream(stream, 0) for number, stream in enumerate(streams)}, turns, resolution, table, footer, writable)


@functools.lru_cache
def files_of(data):
    """The streams that its tracks stand for, as files."""
    found = File(data)
    return {"made": None} | {track_file("made", number // 2, number % 2): found.track(number).bytes for number in found.offsets}


def unpacked(name, given):
    """The file of a disk becomes files of the streams of its tracks, which read as the disk."""
    yield Row(f"unpack of {name}", WORDS, b"", 0, b"", b"total files 4 refused 0\n", files=lambda program: {"disk.scp": given(program)},
              left=lambda program: {"disk.scp": given(program)} | files_of(given(program)))
    yield Row(f"what was unpacked of {name}", ["read", DISK, "made"], b"", 0, counted(SIZE), None, files=lambda program: files_of(given(program)))


def sums():
    """A sum that is another than the file's is told first, whatever comes of its tracks. Of track 3 alone it is 56A (see packed.py)."""
    alone, other = {3: track(3, *TWO)}, b"scp sum 0000056A wanted 9ABCDEF0\n"
    for name, wanted, flags, told in (("its sum", 0x56A, 1, b""), ("another sum", 0x9ABCDEF0, 1, other), ("another sum that may be written to", 0x9ABCDEF0, 0x11, b"")):
        files = {"disk.scp": scp_file(alone, 2, flags, wanted=wanted)}
        yield Row(f"unpack of a file of {name}", WORDS, b"", 0, b"", told + b"total files 1 refused 0\n", files=files, left=files | files_of(files["disk.scp"]))
    files = {"disk.scp": scp_file(alone, 2, wanted=0x9ABCDEF0), "made": None, "made/track83.1.raw": b""}
    yield Row("unpack of a file of another sum where a track is there", WORDS, b"", 8, b"", other + b"refused track 167 exists track83.1.raw\n", files=files, left=files)
    files = {"disk.scp": scp_file(alone, 2, wanted=0x9ABCDEF0)[:-1]}
    sums = b"scp sum 000004FA wanted 9ABCDEF0\n"
    yield Row("unpack of a file of another sum that ends early", WORDS, b"", 1, b"", sums + b"01.1 refused scp ShortData 1\ntotal files 1 refused 1\n", files=files)
    files = {"disk.scp": scp_file(alone, 2, 0x41, wanted=0x9ABCDEF0)}
    yield Row("unpack of a hard disk of another sum", WORDS, b"", 2, b"", b"refused scp NotFloppy\n", files=files, left=files)
    files = {"disk.scp": None}
    yield Row("unpack of a folder in the file's place", WORDS, b"", 8, b"", b"failed scp\n", files=files, left=files)


def rows():
    for turns in range(1, 6):
        yield from unpacked(f"{turns} revolutions", lambda program, turns=turns: disk_of(program, turns))
    for resolution in range(1, 4):
        yield from unpacked(f"resolution {resolution}", lambda program, resolution=resolution: disk_of(program, 2, resolution))
    yield from unpacked("a footer", lambda program: disk_of(program, 2, footer=True))
    yield from unpacked("a short table", lambda program: disk_of(program, 2, table=4))
    yield from unpacked("a file that may be written to", lambda program: disk_of(program, 2, writable=True))
    for name, given, fault in NO_FILES:
        there = {"disk.scp": given}
        yield Row(f"unpack of {name}", WORDS, b"", 2, b"", f"refused scp {fault}\n".encode(), files=there, left=there)
    yield Row("unpack of no file", WORDS, b"", 2, b"", b"refused scp missing\n", left={})
    for name, tracks, told, files, refused in TRACKS:
        given = scp_file(tracks, revolutions=2)
        left = {"disk.scp": given, "made": None}
        kept = [number for number in tracks if b"%02d.%d refused " % divmod(number, 2) not in told or told.endswith(b"ShortData 1\n")]
        left |= {track_file("made", number // 2, number % 2): File(given).track(number).bytes for number in kept}
        yield Row(f"unpack of {name}", WORDS, b"", 0 if files and not refused else 1, b"", told + b"total files %d refused %d\n" % (files, refused),
                  files={"disk.scp": given}, left=left)
    given = {"disk.scp": scp_file({0: track(0, ONE, (4294967295, [4000]))}, revolutions=2, resolution=1)}
    yield Row("unpack of a revolution behind the last tick", WORDS, b"", 1, b"", b"00.0 refused scp TooLong\ntotal files 0 refused 1\n", files=given,
              left=given | {"made": None})
    yield from sums()
    given = {"disk.scp": scp_file({0: track(0, ONE), 9: track(9, ONE)})}
    for number in (0, 8, 167):
        files = given | {"made": None, track_file("made", number // 2, number % 2): b""}
        said = b"refused track %d exists track%02d.%d.raw\n" % (number, *divmod(number, 2))
        yield Row(f"unpack where track {number} is there", WORDS, b"", 8, b"", said, files=files, left=files)
    stream = File(given["disk.scp"]).track(0).bytes
    yield Row("unpack without room", WORDS, b"", 8, b"", b"failed track 0 track00.0.raw\n", files=given,
              left=given | {"made": None, "made/track00.0.raw": stream[:20]}, most=20)
    for name, there in (("a file", b"a file"), ("a link that leads nowhere", Path("nowhere"))):
        files = given | {"made": there}
        yield Row(f"unpack with {name} in the folder's place", WORDS, b"", 8, b"", b"failed folder\n", files=files, left=files)
    for words in ([], ["disk.scp"], ["disk.scp", ""], ["", "made"], ["disk.scp", "made", "made"], ["disk.scp", "side 00.0.raw"]):
        yield Row(f"unpack {words}", ["unpack", *words], b"", 3, b"", b"usage: flux unpack DISK.scp FOLDER\n", files=given, left=given)
