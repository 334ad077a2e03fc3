"""What tracks cost that are not as they were written: five revolutions with noise of each recording, and tracks without a format.

usage: bench/run noisy [PROGRAM]     (PROGRAM: crates/flux/out/flux)

A row has the stream's bytes, and millions of instructions and instructions a byte by valgrind(1), which are the same each time. Each
stream is one track, the first of its disk; the disk's other tracks are not there, so that `decode` ends with a fault after it.
"""
import random
import re
import struct
import subprocess
import sys
import tempfile
from pathlib import Path

from disks import END, FORMATS, TICKS_A_MICROSECOND, spelled

TOP = Path(__file__).resolve().parent.parent
TURNS = 5
REVOLUTION = 0.2e6 * TICKS_A_MICROSECOND

# of a cell: how far a transition lies from its place, as the deviation of a normal distribution
NOISE = 0.06


def revolutions(turns):
    """The stream of revolutions, each given by its in-stream bytes, with an Index before each and after the last."""
    out, position = b"", 0
    for number, turn in enumerate(turns):
        out += b"\x0d\x02\x0c\x00" + struct.pack("<III", position, 0, number) + turn
        position += len(turn)
    out += b"\x0d\x02\x0c\x00" + struct.pack("<III", position, 0, len(turns))
    return out + b"\x0d\x03\x08\x00" + struct.pack("<II", position, 0) + END


def noisy(word, chance):
    """The first track of a disk of random bytes: each revolution has other noise."""
    form = FORMATS[word]
    sectors = [chance.randbytes(form.size) for _ in range(form.sectors(0))]
    ticks = form.microseconds(0) * TICKS_A_MICROSECOND
    places = [match.end() * ticks for match in re.finditer("1", form.ring(0, 0, sectors))]

    def turn():
        times = sorted(max(0, round(place + chance.gauss(0, NOISE * ticks))) for place in places)
        return spelled([time - before for before, time in zip([0] + times, times)])
    return revolutions([turn() for _ in range(TURNS)])


def without_format(chance):
    """Transitions at distances by chance, of 2 to 17 microseconds."""
    values = []
    while sum(values) < REVOLUTION:
        values += [chance.randrange(48, 408) for _ in range(1000)]
    return revolutions([spelled(values)] * TURNS)


def silence(chance):
    """An overflow, a hundred times between two transitions."""
    return revolutions([(b"\x0b" * 100 + b"\x60") * 1000] * TURNS)


ROWS = [(f"{word}, noise", word, lambda chance, word=word: noisy(word, chance))
        for word in ("c1541", "apple-do", "apple-dos33", "amiga", "ibm-360", "ibm-1440", "ibm-3740", "acorn-dfs-40")]
ROWS += [(f"{name}, {word}", word, make) for word in ("ibm-360", "apple-do")
         for name, make in (("no format", without_format), ("silence", silence))]


def main():
    program = sys.argv[1] if len(sys.argv) > 1 else str(TOP / "crates/flux/out/flux")
    print(f"{'track':22} {'bytes':>9} {'million':>9} {'a byte':>7}")
    for name, word, make in ROWS:
        track = make(random.Random(1))
        with tempfile.TemporaryFile() as file:
            file.write(track)
            file.seek(0)
            command = ["valgrind", "--tool=callgrind", "--callgrind-out-file=/dev/null", program, "decode", word]
            said = subprocess.run(command, stdin=file, stdout=subprocess.DEVNULL, stderr=subprocess.PIPE, text=True).stderr
        count = int(re.search(r"Collected : (\d+)", said)[1])
        print(f"{name:22} {len(track):9} {count / 1e6:9.2f} {count / len(track):7.1f}", flush=True)


if __name__ == "__main__":
    main()
