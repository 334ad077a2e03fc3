"""How fast `flux turns` reads, and in how much memory: bytes a second and peak resident memory on large streams.

usage: bench/run turns [PROGRAM]     (PROGRAM: crates/flux/out/flux)

Each stream is piped in, as a user would do it; beside it stands `wc -c` of the same bytes.
"""
import os
import random
import resource
import struct
import subprocess
import sys
import tempfile
import time
from pathlib import Path

TOP = Path(__file__).resolve().parent.parent
LIMIT = 4194304
END = b"\x0d" * 4


def index(position, sample=0, counter=0):
    return b"\x0d\x02\x0c\x00" + struct.pack("<III", position, sample, counter)


def usual():
    """Five revolutions of a double-density track: some 50000 transitions each, of 4, 6 and 8 microseconds."""
    chance = random.Random(1)
    out, position = bytearray(), 0
    for turn in range(6):
        out += index(position, 5, turn)
        if turn == 5:
            break
        for _ in range(48000):
            value = int(chance.choice((96, 144, 192)) + chance.gauss(0, 3))
            out.append(max(14, min(255, value)))
            position += 1
            if position % 8192 == 0:
                out += b"\x0d\x01\x08\x00" + struct.pack("<II", position, 0)
    out += b"\x0d\x03\x08\x00" + struct.pack("<II", position, 0)
    return bytes(out + END)


def full(unit):
    """A stream of the greatest length: two Index blocks at its begin and end, and the same in-stream blocks again and again."""
    count = (LIMIT - 2 * 16 - 4) // len(unit) * len(unit)
    return index(0) + unit * (count // len(unit)) + index(count) + END


def jumping():
    """As many Index blocks as fit, whose positions jump back and forth, so that the time falls at the second."""
    count = (LIMIT - 4) // 17 - 1
    flux = b"\x60" * count
    marks = b"".join(index(k // 2 if k % 2 else count - k // 2) for k in range(count))
    return flux + marks + END


def rising():
    """As many Index blocks as fit, all of which name places far ahead, in rising order."""
    count = (LIMIT - 4) // 17 - 1
    return b"".join(index(k) for k in range(count)) + b"\x60" * count + END


STREAMS = [
    ("usual, 5 revolutions", usual),
    ("one-byte transitions", lambda: full(b"\x60")),
    ("two-byte transitions", lambda: full(b"\x01\x20")),
    ("three-byte transitions", lambda: full(b"\x0c\x08\x10")),
    ("overflows", lambda: full(b"\x0b")),
    ("overflows, transitions", lambda: full(b"\x0b\x60")),
    ("indexes far ahead", rising),
    ("indexes that jump", jumping),
]


def measure(command, path):
    """The best of five runs: seconds, and peak resident memory in MiB."""
    best, peak = 1e9, 0
    for _ in range(5):
        with open(path, "rb") as stream:
            start = time.perf_counter()
            child = subprocess.Popen(command, stdin=stream, stdout=subprocess.DEVNULL, stderr=subprocess.DEVNULL)
            _, _, usage = os.wait4(child.pid, 0)
            best = min(best, time.perf_counter() - start)
            peak = max(peak, usage.ru_maxrss)
    return best, peak / 1024


def main():
    program = sys.argv[1] if len(sys.argv) > 1 else str(TOP / "crates/flux/out/flux")
    print(f"{'stream':24} {'bytes':>9} {'seconds':>9} {'MB/s':>7} {'MiB':>6} {'wc MB/s':>9}")
    for name, make in STREAMS:
        with tempfile.NamedTemporaryFile(suffix=".raw") as file:
            stream = make()
            file.write(stream)
            file.flush()
            seconds, peak = measure([program, "turns"], file.name)
            plain, _ = measure(["wc", "-c"], file.name)
            rate = len(stream) / 1e6
            print(f"{name:24} {len(stream):9} {seconds:9.4f} {rate / seconds:7.1f} {peak:6.1f} {rate / plain:9.1f}")


if __name__ == "__main__":
    main()
