#!/usr/bin/env python3
"""Makes two dumps of a PC disk, each a folder of streams with one file a track, as an archive might have them.

demo.py PROGRAM FOLDER writes FOLDER/disk.img, an image that is made up, and FOLDER/first and FOLDER/second, dumps of what PROGRAM writes of
it. On the disk itself a stretch of track 30.1 is worn, and sector 4 of track 21.0 was written again by another drive, a little late. The
first dump lacks the file of track 33.0, and in one of its revolutions a stretch of track 12.0 was not read.
"""
import pathlib
import re
import subprocess
import sys

FORMAT = "ibm-360"
SIZE = 368640

# In-stream blocks: of one byte, of two, and of three.
IN_STREAM = re.compile(rb"(?:[\x08\x0b\x0e-\xff]|[\x00-\x07\x09].|[\x0a\x0c]..)*", re.S)

# A transition 4 microseconds after the one before: cells that say nothing. A block that says nothing at all.
NOISE, NOP = 0x60, 0x08

# A cell in ticks, the cells of a revolution, and those of a stream before its first whole revolution.
CELL, TURN, BEFORE = 49208 / 1024, 100000, 25000

# Where sector 4's data begin in a revolution, how many cells they have, and how many cells late they were written again.
DATA, DATA_CELLS, LATE = 2528 + 3 * 10464 + 704, 8288, 20


def image():
    """A text that tells each sector from all others."""
    lines = (f"sector {number:4} " * 43 for number in range(SIZE // 512))
    return b"".join(line.encode()[:511] + b"\n" for line in lines)


def stream_end(streams, at):
    """The place behind the End block of the stream that begins at a place."""
    while True:
        at = IN_STREAM.match(streams, at).end()
        kind, size = streams[at + 1], int.from_bytes(streams[at + 2 : at + 4], "little")
        at += 4 if kind == 0x0D else 4 + size
        if kind == 0x0D:
            return at


def worn(stream, turns):
    """Puts noise into a sixth of these turns; a stream holds a quarter of a turn, three turns, and a quarter."""
    out = bytearray(stream)
    for turn in turns:
        begin = int(len(stream) * (turn + 0.75) / 3.5)
        for at in range(begin, begin + len(stream) // 21):
            if out[at] >= 0x0E:
                out[at] = NOISE
    return bytes(out)


def place_of_cell(stream, cell):
    """The place of the block that ends with the first transition at a cell or after it. All transitions are of one byte."""
    at, ticks = 0, 0
    while ticks < cell * CELL:
        if stream[at] == 0x0D:
            at += 4 + int.from_bytes(stream[at + 2 : at + 4], "little")
            continue
        ticks += stream[at]
        at += 1
    return at - 1


def written_again(stream):
    """The data of the sector stand late in each turn: behind a seam without transitions, and before one that is as much shorter. The
    number of bytes stays, since Index blocks tell places by it."""
    out = bytearray(stream)
    for turn in range(3):
        begin = BEFORE + TURN * turn + DATA
        seam, end = place_of_cell(stream, begin - 60), place_of_cell(stream, begin + DATA_CELLS + 160)
        late = int(LATE * CELL)
        out[seam : seam + 2] = (out[seam] + out[seam + 1] + late).to_bytes(2, "big")
        while late >= out[end]:
            late -= out[end]
            out[end] = NOP
            end += 1
        out[end] -= late
    return bytes(out)


def dumps(number, stream):
    """The stream of a track as it stands in the first dump, if it does, and in the second."""
    if number == "30.1":
        stream = worn(stream, range(3))
    if number == "21.0":
        stream = written_again(stream)
    first = None if number == "33.0" else worn(stream, [1]) if number == "12.0" else stream
    return first, stream


def main(program, folder):
    for name in ("first", "second"):
        (folder / name).mkdir(parents=True, exist_ok=True)
    streams = subprocess.run([program, "write", FORMAT], input=image(), stdout=subprocess.PIPE, check=True).stdout
    at = 0
    for number in range(80):
        end = stream_end(streams, at)
        track = f"{number // 2:02}.{number % 2}"
        for name, stream in zip(("first", "second"), dumps(track, streams[at:end])):
            if stream is not None:
                (folder / name / f"track{track}.raw").write_bytes(stream)
        at = end
    (folder / "disk.img").write_bytes(image())


if __name__ == "__main__":
    main(sys.argv[1], pathlib.Path(sys.argv[2]))
