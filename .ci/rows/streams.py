"""Single streams through `turns`: what is refused, with its block, and where Index blocks may stand."""
import struct

from plain_streams import index_block
from shared import END, SHORT, Row

INFO = b"\r\x04\xff\xff" + b" " * 65535


def index(position, sample):
    return index_block(position, sample, 0)


def stream_end(position, error=0):
    return b"\r\x03\x08\0" + struct.pack("<II", position, error)


# A name, a stream, and the block and the fault of its refusal
REFUSED = [
    ("no block", b"", "block 0 Truncated"),
    ("a cut block of flux", b"\x0c\x01", "block 0 Truncated"),
    ("a cut head of a block", b"\r\x05\0", "block 0 Truncated"),
    ("a text that is not there", b"\r\x04\xff\xff", "block 0 Truncated"),
    ("an unknown type", b"\r\x05\0\0", "block 0 UnknownType 5"),
    ("an Index block of eleven bytes", b"\r\x02\x0b\0", "block 0 BadSize 11"),
    ("a wrong End", b"\r\r\r\x0c", "block 0 BadSize 3085"),
    ("another position in a StreamInfo block", b"\x60\x60\r\x01\x08\0\x01\0\0\0\0\0\0\0" + END, "block 2 WrongPosition 1 2"),
    ("the device failed", b"\x60\x60" + stream_end(2, 2) + END, "block 2 DeviceFault 2"),
    ("flux after a StreamEnd block", b"\x60\x60" + stream_end(2) + b"\x60" + END, "block 3 DataAfterEnd"),
    ("no Index block", END, "block 0 NoTurn"),
    ("one Index block", index(0, 0) + END, "block 1 NoTurn"),
    ("an Index block's position behind all bytes", index(0, 0) + b"\x0b\x0b\x0b\x0e" + index(2, 100) + index(5, 0) + END, "block 6 IndexPosition"),
    ("an index time that is not after the one before", index(0, 7) + b"\x60" + index(0, 7) + END, "block 2 IndexOrder"),
    ("overflows without end", b"\x0b" * 4194304, "block 4194304 TooLong"),
    ("an overflow more than the longest stream", index(0, 0) + b"\x0b" * 4194268 + b"\x0e" + index(4194269, 0) + END, "block 4194271 TooLong"),
    ("texts without end", INFO * 64, "block 63 TooLong"),
]

# A name, a stream, and its transitions and turns
GOOD = [
    ("Index blocks inside a run of overflows, at a block's begin, and at the end of all in-stream bytes",
     index(0, 0) + b"\x0b\x0b\x0b\x0e" + index(2, 100) + index(4, 0) + END, [1, 131172, 65450]),
    # Byte 1 lies inside the first block of two bytes, which begins at time 0; byte 2 begins the next block.
    ("an Index block inside a block", b"\x01\0\x02\0" + index(1, 3) + index(2, 0) + index(4, 0) + END, [2, 253, 512]),
    ("the longest stream", index(0, 0) + b"\x0b" * 4194267 + b"\x0e" + index(4194268, 0) + END, [1, 274875482126]),
    ("a text of the longest size", INFO + SHORT, [2, 197]),
]

# The blocks of the shortest stream: the numbers of their first bytes, and of those behind them
BLOCKS = [(0, 16), (16, 17), (17, 18), (18, 34), (34, 46), (46, 50)]


def rows():
    for name, stream, fault in REFUSED:
        yield Row(name, ["turns"], stream, 2, b"", f"refused track 0 {fault}\n".encode())
    for name, stream, (transitions, *turns) in GOOD:
        lines = [f"transitions {transitions}\n", *(f"turn {number} {ticks}\n" for number, ticks in enumerate(turns, 1))]
        yield Row(name, ["turns"], stream, 0, "".join(lines).encode())
    for block, (first, behind) in enumerate(BLOCKS):
        for length in range(first, behind):
            yield Row(f"the first {length} bytes", ["turns"], SHORT[:length], 2, b"", f"refused track 0 block {block} Truncated\n".encode())
