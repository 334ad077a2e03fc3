#!/usr/bin/env python3
"""Makes an SCP file (SuperCard Pro image file format) of the streams of a folder, as a KryoFlux writes them.

scp.py FOLDER FILE [--turns N] [--resolution R] [--entries N] [--footer] [--writable] writes FILE of FOLDER/trackCC.H.raw. A track gets the
first N whole revolutions of its stream, or as many as that has; a unit is R + 1 times 25 ns. The table has 168 entries, or as many as is
said. A footer stands behind all tracks, as some programs write it. A file that may be written to tells no sum of its bytes.
"""
import argparse
import pathlib
import re
import struct
import sys

sys.path.insert(0, str(pathlib.Path(__file__).resolve().parents[1] / "bench" / "modules"))
from plain_streams import Refused, Stream

FILE = re.compile(r"track(\d\d)\.([01])\.raw")

# 25 ns are 2628/4375 of a tick.
TICKS, UNITS = 2628, 4375


def units(ticks, resolution):
    """Ticks in units, to the nearest whole one."""
    return (2 * ticks * UNITS + TICKS * (resolution + 1)) // (2 * TICKS * (resolution + 1))


def entries(begin, times, resolution):
    """The entries of these times, of which the first interval begins at a time that is told in units, and where the last one ends."""
    out, at = [], begin
    for time in times:
        end = max(units(time, resolution), at + 1)
        while end - at > 65535:
            out.append(0)
            at += 65536
        if end == at:          # An interval of whole overflows: the last of its entries is told one unit short.
            end += 1
        out.append(end - at)
        at = end
    return out, at


def track(number, stream, turns, resolution):
    """The bytes of a track. Entries run on over the revolutions; each takes those that end before its index. One that the stream has not is without any."""
    marks = stream.indexes[: turns + 1]
    durations = [units(b - marks[0], resolution) - units(a - marks[0], resolution) for a, b in zip(marks, marks[1:])]
    heads, data, at = b"", b"", 0
    place = 4 + 12 * turns
    for begin, end, duration in zip(marks, marks[1:], durations):
        times = [time - marks[0] for time in stream.times if begin < time <= end]
        values, at = entries(at, times, resolution)
        heads += struct.pack("<III", duration, len(values), place + len(data))
        data += struct.pack(f">{len(values)}H", *values)
    return b"TRK" + bytes([number]) + heads.ljust(12 * turns, b"\0") + data


def scp(tracks, turns, resolution, table, footer, writable):
    """A file of these streams, by the numbers of their tracks: 2 C + H for cylinder C and head H."""
    begin = 16 + 4 * table
    offsets, body = [0] * table, b""
    for number, stream in sorted(tracks.items()):
        if number < table:
            offsets[number] = begin + len(body)
            body += track(number, stream, turns, resolution)
    rest = struct.pack(f"<{table}I", *offsets) + body + (b"flux samples\0FPCS" if footer else b"")
    flags = 0x01 | (0x10 if writable else 0)
    used = [number for number in tracks if number < table] or [0]
    head = b"SCP" + bytes([0x24, 0x80, turns, min(used), max(used), flags, 0, 0, resolution])
    total = 0 if writable else sum(rest) & 0xFFFFFFFF
    return head + struct.pack("<I", total) + rest


def main():
    parser = argparse.ArgumentParser(description=__doc__.splitlines()[0])
    parser.add_argument("folder", type=pathlib.Path)
    parser.add_argument("file", type=pathlib.Path)
    parser.add_argument("--turns", type=int, default=2)
    parser.add_argument("--resolution", type=int, default=0)
    parser.add_argument("--entries", type=int, default=168)
    parser.add_argument("--footer", action="store_true")
    parser.add_argument("--writable", action="store_true")
    words = parser.parse_args()
    tracks = {}
    for path in sorted(words.folder.iterdir()):
        name = FILE.fullmatch(path.name)
        if name:
            try:
                tracks[2 * int(name[1]) + int(name[2])] = Stream(path.read_bytes(), 0)
            except Refused as refused:
                print(f"{path.name} is left out: {refused.text()}", file=sys.stderr)
    words.file.write_bytes(scp(tracks, words.turns, words.resolution, words.entries, words.footer, words.writable))


if __name__ == "__main__":
    main()
