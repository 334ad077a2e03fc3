#!/usr/bin/env python3
"""Makes three-turns.raw: a short capture in the form that a KryoFlux writes, with three turns.

Each turn has 400 cells of about 96 ticks, of which some hold a transition; a long gap shows an overflow.
"""
import struct
import sys

TURNS, CELLS, CELL = 3, 400, 96


def flux(ticks):
    """The in-stream blocks of one interval between transitions."""
    blocks = b"\x0b" * (ticks // 65536)
    rest = ticks % 65536
    if 0x0E <= rest <= 0xFF:
        return blocks + bytes([rest])
    if rest < 0x800:
        return blocks + struct.pack(">H", rest)
    return blocks + b"\x0c" + struct.pack(">H", rest)


def out_of_band(kind, content):
    return struct.pack("<BBH", 0x0D, kind, len(content)) + content


def stream():
    out, position, since = b"", 0, 0
    for turn in range(TURNS + 1):
        out += out_of_band(2, struct.pack("<III", position, since, turn * 4096))
        if turn == TURNS:
            break
        since = 0
        for cell in range(CELLS):
            since += 70000 if cell == 200 else CELL + (cell * 7 + turn) % 5 - 2
            if cell % 4 in (0, 2, 3):
                block = flux(since)
                out, position, since = out + block, position + len(block), 0
    out += out_of_band(3, struct.pack("<II", position, 0))
    return out + b"\x0d" * 4


if __name__ == "__main__":
    sys.stdout.buffer.write(stream())
