"""What the files of a dump tell without any format: how many bytes, transitions and turns each has, and how fast it turned."""
import itertools

from plain_streams import stream_of_times
from shared import SHORT, Row, track_file


def turning(*turns):
    """A file of these turns, with a transition before and one behind them."""
    indexes = [*itertools.accumulate(turns, initial=700)]
    return stream_of_times([350, indexes[-1] + 7], indexes)


# A drive of 300 turns a minute: a tick is 7/168192000 of a second
EVEN = turning(4805485, 4805486, 4805485)
EVEN_SAYS = f"bytes {len(EVEN)} transitions 2 turns 3 ticks 4805485 4805485 4805486 rpm 300.00"
SHORT_SAYS = "bytes 50 transitions 2 turns 1 ticks 197 197 197 rpm 7317998.55"
# and one of 360
FAST = turning(4004571, 4004571)
FAST_SAYS = f"bytes {len(FAST)} transitions 2 turns 2 ticks 4004571 4004571 4004571 rpm 360.00"
MEDIAN = "turn least 4805485 median 4805485 greatest 4805485 rpm 300.00"

# The files by their tracks, the exit code, and the lines
DUMPS = {
    "one file": ({(0, 0): EVEN}, 0, [f"00.0 {EVEN_SAYS}", MEDIAN, "total files 1 refused 0 missing 0 uneven 0"]),
    "the shortest stream": ({(0, 0): SHORT}, 0, [f"00.0 {SHORT_SAYS}", "turn least 197 median 197 greatest 197 rpm 7317998.55",
                                                 "total files 1 refused 0 missing 0 uneven 0"]),
    # All bytes are counted, those behind the stream too.
    "bytes behind a stream": ({(0, 0): SHORT + b"x" * 950}, 0, ["00.0 " + SHORT_SAYS.replace("bytes 50", "bytes 1000"),
                                                              "turn least 197 median 197 greatest 197 rpm 7317998.55",
                                                              "total files 1 refused 0 missing 0 uneven 0"]),
    "files missing": ({(0, 0): EVEN, (2, 1): EVEN}, 1, [f"00.0 {EVEN_SAYS}", "00.1 missing", "01.0 missing", "01.1 missing", "02.0 missing", f"02.1 {EVEN_SAYS}",
                                                      MEDIAN, "total files 2 refused 0 missing 4 uneven 0"]),
    "a refused file": ({(0, 0): EVEN, (1, 0): SHORT[:40]}, 1, [f"00.0 {EVEN_SAYS}", "01.0 refused block 4 Truncated", MEDIAN,
                                                              "total files 2 refused 1 missing 0 uneven 0"]),
    "refused files alone": ({(0, 0): b"", (1, 0): b"\r\5\0\0"}, 1, ["00.0 refused block 0 Truncated", "01.0 refused block 0 UnknownType 5",
                                                                   "total files 2 refused 2 missing 0 uneven 0"]),
    "a file of another drive": ({(0, 0): EVEN, (0, 1): FAST, (1, 0): EVEN, (1, 1): EVEN}, 1, [
        f"00.0 {EVEN_SAYS}", f"00.1 {FAST_SAYS}", f"01.0 {EVEN_SAYS}", f"01.1 {EVEN_SAYS}", "uneven 00.1 4004571",
        "turn least 4004571 median 4805485 greatest 4805485 rpm 300.00", "total files 4 refused 0 missing 0 uneven 1"]),
    # Of two the later one in order is the median.
    "two drives": ({(0, 0): EVEN, (1, 0): FAST}, 1, [
        f"00.0 {EVEN_SAYS}", f"01.0 {FAST_SAYS}", "uneven 01.0 4004571", "turn least 4004571 median 4805485 greatest 4805485 rpm 300.00",
        "total files 2 refused 0 missing 0 uneven 1"]),
    "the last track of all": ({(98, 1): EVEN}, 1, [*(f"{cylinder:02}.{head} missing" for cylinder in range(99) for head in (0, 1))][:-1]
                              + [f"98.1 {EVEN_SAYS}", MEDIAN, "total files 1 refused 0 missing 197 uneven 0"]),
    "a folder in the place of a file": ({(0, 0): EVEN, (1, 0): None}, 8, [f"00.0 {EVEN_SAYS}", "01.0 failed", MEDIAN,
                                                                         "total files 2 refused 0 missing 0 uneven 0 failed 1"]),
}

# Turns beside one of 1000 ticks, whose speed is left out, and whether they are uneven: by more than five
BESIDE = [(995, False), (994, True), (1005, False), (1006, True)]


def bounds():
    for ticks, is_uneven in BESIDE:
        files = {track_file("a", cylinder, 0): turning(length) for cylinder, length in enumerate((1000, ticks, 1000))}
        wrong = lambda output, errors, said=b"\nuneven 01.0 %d\n" % ticks, wanted=is_uneven: None if (said in output) == wanted else f"{output!r}"
        yield Row(f"{ticks} beside 1000", ["info", "a"], b"", int(is_uneven), None, b"", wrong, files=files)


# A dump's word, its files, and what is said of it
NONE = [
    ("nowhere", {}, "nowhere is not there"), ("a", {"a": b"a file"}, "a is a file"), ("a", {"a/notes": b""}, "a has no files trackCC.H.raw"),
    ("a", {"a/track99.0.raw": SHORT}, "a has files of other tracks alone"), ("a", {"a/side 00.0.raw": SHORT}, "a has files side CC.H.raw: name one of them"),
]


def rows():
    for name, (tracks, code, lines) in DUMPS.items():
        files = {track_file("a", *track): content for track, content in tracks.items()}
        yield Row(name, ["info", "a"], b"", code, "".join(f"{line}\n" for line in lines).encode(), files=files, left={"a": None} | files)
    beside = {"side 00.0.raw": SHORT, "side 01.0.raw": SHORT, "other 02.0.raw": SHORT}
    said = f"00.0 {SHORT_SAYS}\n01.0 {SHORT_SAYS}\nturn least 197 median 197 greatest 197 rpm 7317998.55\ntotal files 2 refused 0 missing 0 uneven 0\n"
    yield Row("a dump by one of its files", ["info", "side 01.0.raw"], b"", 0, said.encode(), files=beside)
    for word, files, told in NONE:
        yield Row(told, ["info", word], b"", 2, b"", f"refused dump 0 {told}\n".encode(), files=files)
    for words in ([], [""], ["a", "a"]):
        yield Row(f"info {words}", ["info", *words], b"", 3, b"", b"usage: flux info DUMP\n", files={"a/track00.0.raw": SHORT})
    yield from bounds()
