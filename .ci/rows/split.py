"""Joined streams that are cut apart into files of a folder."""
from pathlib import Path

from plain_streams import index_block
from shared import END, SHORT, Row, counted, in_streams, track_file, written

# The shortest stream behind a text
LONG = b"\r\4\7\0" + b"a text\0" + SHORT

# Joined streams that are cut apart: how many heads, what is given, what is said, and the streams that are files
SPLIT = [
    ("one stream", 1, SHORT, b"", [SHORT]),
    ("three streams of one head", 1, SHORT * 3, b"", [SHORT] * 3),
    ("three streams of two heads", 2, SHORT * 3, b"", [SHORT] * 3),
    ("padding", 2, b"".join([SHORT, b"\r" * 16, LONG, b"\r", SHORT, b"\r" * 2]), b"", [SHORT, LONG, SHORT]),
    ("all names of one head", 1, SHORT * 100, b"", [SHORT] * 100),
    ("all names of two heads", 2, SHORT * 200, b"", [SHORT] * 200),
]

# Those that are refused at last
CUT = [
    ("nothing", 1, b"", b"refused track 0 block 0 Truncated\n", None),
    ("a stream that is no stream", 1, b"\r\5\0\0", b"refused track 0 block 0 UnknownType 5\n", None),
    ("a stream without a turn", 2, SHORT * 2 + index_block(0, 0, 0) + END + SHORT, b"refused track 2 block 1 NoTurn\n", [SHORT] * 2),
    # The last byte of padding is taken for the begin of an End block, whose size is that of the Index block behind it.
    ("padding of 17 bytes", 1, SHORT + b"\r" * 17 + SHORT, b"refused track 1 block 0 BadSize 3074\n", [SHORT]),
    ("a cut stream", 2, SHORT * 4 + SHORT[:-1], b"refused track 4 block 5 Truncated\n", [SHORT] * 4),
    ("a stream more than there are names of one head", 1, SHORT * 101, b"refused track 100 beyond track99.0.raw\n", [SHORT] * 100),
    ("a stream more than there are names of two heads", 2, SHORT * 200 + b"x", b"refused track 200 beyond track99.1.raw\n", [SHORT] * 200),
]


def split_files(heads, streams):
    return {"made": None} | {track_file("made", *divmod(k, heads)): stream for k, stream in enumerate(streams)}


def rows():
    for name, heads, given, said, streams in SPLIT + CUT:
        left = {} if streams is None else split_files(heads, streams)
        yield Row(f"split of {name}", ["split", "made", str(heads)], given, 2 if said else 0, b"", said, left=left)
    # What `write` gives comes back, in the order of the names.
    streams = lambda program: in_streams(written(program, "ibm-360", counted(368640)))
    yield Row("split of what is written", ["split", "made", "2"], lambda program: b"".join(streams(program)), 0,
              left=lambda program: split_files(2, streams(program)))
    yield Row("what was cut apart", ["read", "ibm-360", "made"], b"", 0, counted(368640), None, files=lambda program: split_files(2, streams(program)))
    for track in (0, 7, 199):
        files = {"made": None, track_file("made", *divmod(track, 2)): b""}
        said = b"refused track %d exists track%02d.%d.raw\n" % (track, *divmod(track, 2))
        yield Row(f"split where track {track} is there", ["split", "made", "2"], SHORT, 2, b"", said, files=files, left=files)
    # A file of the other head is none of those that are made.
    beside = {"made/track00.1.raw": b""}
    yield Row("split beside the other head", ["split", "made", "1"], SHORT, 0, files=beside, left={"made": None, "made/track00.0.raw": SHORT} | beside)
    yield Row("split without room", ["split", "made", "1"], SHORT * 2 + LONG, 8, b"", b"failed track 2 track02.0.raw\n",
              left=split_files(1, [SHORT, SHORT, LONG[: len(SHORT)]]), most=len(SHORT))
    for name, there in (("a file", b"a file"), ("a link that leads nowhere", Path("nowhere"))):
        yield Row(f"split with {name} in the folder's place", ["split", "made", "1"], SHORT, 8, b"", b"failed folder\n", files={"made": there}, left={"made": there})
    for words in ([], ["made"], ["made", "0"], ["made", "3"], ["made", "01"], ["", "1"], ["made", "1", "1"], ["side 00.0.raw", "1"]):
        yield Row(f"split {words}", ["split", *words], SHORT, 3, b"", b"usage: flux split FOLDER HEADS\n", left={})
