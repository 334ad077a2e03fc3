"""The worst inputs for time and memory, at 1 MiB and at 4 MiB, for each command that the program has. Needs time(1).

usage: bench/run hostile [--count] [--work FOLDER] [PROGRAM [COMMAND..]]     (PROGRAM: crates/flux/out/flux; COMMAND: every one)

A row has the processor time at both sizes, the least of nine runs, their ratio, and the peak of resident memory. It fails where 4 MiB
take more than 4.4 times what 1 MiB takes, or where the peak is not below 128 MiB. What `write` and `trial` do has one size for each
format; there a disk of 80 cylinders is compared with one of 40, and may take 2.2 times as long. Times mean little on a machine that
does other work. With --count a row has millions of instructions in place of milliseconds, by valgrind(1), which are the same each time.

The inputs lie in a folder of the run's own, below --work or where temporary files are: those of a row until it is measured.
"""
import argparse
import os
import random
import re
import shutil
import signal
import struct
import subprocess
import sys
import tempfile
from pathlib import Path

import plain_recordings as recordings
from measure import peak_of
from plain import FORMATS
from plain_recordings import MfmList, fm, gcr, places_of, raw, word
from plain_streams import index_block, places_of_ones, spelled_between
from programs import commands_of

TOP = Path(__file__).resolve().parent.parent
SIZES = (1 << 20, 1 << 22)
RUNS = 9
PEAK = 128
END = b"\r" * 4
FOLDER = "FOLDER"
USED = ("ibm-3740", "ibm-1440", "amiga", "c1541", "apple-do")


# Streams of so many bytes, whose first revolution has the format's length

def around(form, size, unit, indexes=b""):
    """A stream of so many bytes at most, in which a unit of in-stream bytes is repeated after the Index blocks."""
    head = index_block(0, 0, 0) + index_block(0, form.ring_cells(0) * form.nominal(0) // 1024, 0) + indexes
    return head + unit * ((size - len(head) - 4) // len(unit)) + END


def cells_as_flux(form, cells):
    """The flux blocks of cells that are repeated: each ends at a one, and the first interval begins at the last one before."""
    turned = cells[cells.rindex("1") + 1 :] + cells[: cells.rindex("1") + 1]
    times = [(place + 1) * form.nominal(0) // 1024 for place in places_of_ones(turned)]
    return spelled_between(times, 0, len(times))


def repeated(cells):
    return lambda form, size: around(form, size, cells_as_flux(form, cells(form)))


def has_codes(form):
    """Whether headers say how many bytes their data have."""
    return form.word.startswith("ibm")


def header_of(form, other=None, code=3):
    """The cells of the header of a sector of track 0, or of one that is none of the track's sectors, by its number, of which there are 39936, and
    more where a name has a head; an IBM one tells data of 1024 bytes, or of as many as another code says."""
    first = form.recording.first
    high, low = (other or 0) // 256 % 156, (other or 0) % 256
    if has_codes(form):
        names = bytes([0, 0, first, form.recording.code] if other is None else [100 + high, other // 39936, low, code])
        if form.word == "ibm-3740":
            return word(0xF57E) + fm(recordings.checked(b"\xfe", names))
        return MfmList().mark(0x4489, 3).bytes(recordings.checked(b"\xa1" * 3, b"\xfe" + names)).cells()
    if form.word == "amiga":
        out = MfmList()
        form.recording.frame(out, bytes([0xFF, 0, 0, 11] if other is None else [0xFF, 100 + high, low, 11]), bytes(16), bytes(512), 0, 4)
        return out.cells()[32:512]
    if form.word.startswith("c1541"):
        names = bytes([first, 1, 0xA3, 0xA2] if other is None else [low, 100 + high, 0xA3, 0xA2])
        return "1" * 10 + gcr(bytes([8, recordings.xor_of(names)]) + names)
    names = bytes([254, 0, first] if other is None else [254, 100 + high, low])
    return raw(b"\xd5\xaa\x96" + recordings.four_and_four(names + bytes([recordings.xor_of(names)])))


QUIET = {"ibm-3740": "11", "ibm-1440": "10", "amiga": "10", "c1541": "01", "apple-do": "1111111100"}


def between(form, cells):
    return (QUIET[form.word] * cells)[:cells]


def headers(form):
    """Headers one after another, each as near to the next as can be."""
    return header_of(form) + between(form, 16)


def headers_without_data(form):
    """Headers so far from one another that each search for data goes over all of its 1024 cells."""
    return header_of(form) + between(form, 1030)


def headers_of_many_names(form):
    """Headers of 128 names that are none of the track's, of which 64 are told."""
    return "".join(header_of(form, number) + between(form, 16) for number in range(128))


SYNCS_WITH_MARKS = {
    "ibm-3740": word(0xF56F),
    "ibm-1440": MfmList().mark(0x4489, 3).bytes(b"\xfb").cells(),
    "amiga": word(0x4489) * 2,
    "c1541": "1" * 10 + gcr(b"\x07"),
    "apple-do": raw(b"\xd5\xaa\xad"),
}


def data_syncs_after_headers(form, code=3):
    """Headers of others, each with data syncs in all of the 1024 cells behind it: at each of these data are tried, up to the last byte."""
    unit = SYNCS_WITH_MARKS[form.word]
    return header_of(form, 1, code) + unit * (1024 // len(unit)) + between(form, 16)


def longest_data_after_headers(form):
    """The same, with as many bytes as a header can ask for, 8192."""
    return data_syncs_after_headers(form, 6)


def headers_of_names(form, size):
    """As many names that are none of the track's as there is room for, each once where there are so many; at 4 MiB some tens of thousands."""
    parts, room = [], size - 100
    while True:
        numbers = range(500 * len(parts), 500 * len(parts) + 500)
        part = cells_as_flux(form, "".join(header_of(form, number) + between(form, 16) for number in numbers))
        if len(part) > room:
            return around(form, size, b"".join(parts))
        parts.append(part)
        room -= len(part)


def sector_of(form, byte):
    """The cells of the first sector that passes, from its header to the next one's, with this byte all over."""
    cells = form.recording.ring(0, 0, [bytes([byte]) * form.recording.size] * form.recording.sectors(0), (0, 0))
    places = list(places_of(cells, form.recording.sync))
    assert form.recording.header(cells, places[0], 0, 0)[0] == form.recording.first
    return cells[places[0] : next(place for place in places[1:] if form.recording.header(cells, place, 0, 0))]


def sectors_of_another_check(form):
    """A whole sector whose data have another check value."""
    cells = sector_of(form, 0)
    turned = len(cells) // 2 + (len(cells) // 2 + 1) % 2
    return cells[:turned] + "10"[int(cells[turned])] + cells[turned + 1 :]


def sectors_of_many_contents(form):
    """A sector again and again, with twenty contents in turn, of which 16 are told."""
    return "".join(sector_of(form, byte) for byte in range(20))


def syncs(form):
    """The recording's sync word again and again, which is no header's begin."""
    return word(0x4489) if "4489" in f"{int(form.recording.sync, 2):x}" else form.recording.sync


def indexes_that_jump(form, size):
    """Half of the bytes are Index blocks: their positions jump back and forth, and their sample counters make the times rise."""
    count = (size - 40) // 17
    blocks = b"".join(index_block(k // 2 if k % 2 else count - k // 2, (k // 2 if k % 2 == 0 else count - k // 2) * 96 + k + 1, 0)
                      for k in range(count))
    return blocks + b"\x60" * count + END


def indexes_alone(form, size):
    return b"".join(index_block(0, k, 0) for k in range((size - 4) // 16)) + END


def headers_and_indexes(form, size):
    """Half of the bytes are headers, half are Index blocks in many revolutions."""
    count = size // 32
    last = form.ring_cells(0) * form.nominal(0) // 1024
    indexes = b"".join(index_block(0, last + k + 1, 0) for k in range(count))
    return around(form, size, cells_as_flux(form, headers(form)), indexes)


def noise(form, size):
    return around(form, size, random.Random(1).randbytes(size).translate(None, bytes(range(14)))[: size - 40])


def noise_of_cells(form):
    """Distances of 1 to 4 cells by chance."""
    chance = random.Random(2)
    return "".join(chance.choice(("1", "01", "001", "0001")) for _ in range(20000))


def cut_in_its_end(form, size):
    return around(form, size + 1, b"\x60")[:-1]


def of_bytes(unit):
    return lambda form, size: around(form, size, unit)


STREAMS = [
    ("one-byte transitions, 14 ticks", of_bytes(b"\x0e")),
    ("one-byte transitions, 96 ticks", of_bytes(b"\x60")),
    ("transitions at one time", of_bytes(b"\0\0")),
    ("overflows", of_bytes(b"\x0b")),
    ("indexes that jump", indexes_that_jump),
    ("indexes alone", indexes_alone),
    ("texts", lambda form, size: index_block(0, 0, 0) + index_block(0, 1, 0)
     + (b"\r\x04\xfc\xff" + b" " * 65532) * ((size - 36) // 65536) + END),
    ("noise", noise),
    ("silence", of_bytes(b"\x07\xff")),
    ("cut in its End", cut_in_its_end),
]
TRACKS = [
    ("headers everywhere", repeated(headers)),
    ("headers without data", repeated(headers_without_data)),
    ("headers in many revolutions", headers_and_indexes),
    ("sectors of another check value", repeated(sectors_of_another_check)),
    ("syncs one after another", repeated(syncs)),
    ("ones alone", repeated(lambda form: "1")),
    ("noise of cells", repeated(noise_of_cells)),
]


# What is hard for reading as controllers read.
RETRIED = [
    ("data syncs after headers", repeated(data_syncs_after_headers)),
    ("headers of many names", repeated(headers_of_many_names)),
]
# The same where headers say how many bytes their data have, and names of which few are told.
LONGEST = ("8192 bytes after headers", repeated(longest_data_after_headers))
NAMES = ("headers of names that are not told", headers_of_names)
# What is hard where the contents of a sector are told apart.
CONTENTS = ("sectors of many contents", repeated(sectors_of_many_contents))


def g64_of(size, cells):
    """A G64 file of so many bytes in which all tracks have these cells as often as they fit, in at most 65535 bytes."""
    length = min(size // 36, 65535)
    bits = (cells * (8 * length // len(cells) + 1))[: 8 * length]
    content = struct.pack("<H", length) + int(bits, 2).to_bytes(length, "big")
    offsets = [684 + len(content) * (k // 2) if k % 2 == 0 and k < 70 else 0 for k in range(84)]
    return b"GCR-1541\0" + bytes([84]) + struct.pack("<H84I", 7928, *offsets) + bytes(336) + (content * 35).ljust(size - 684, b"\0")


# SCP files of so many bytes

def scp_of(size, count, revolutions):
    """An SCP file with the tracks of all numbers below a count, one behind another or, where it is one, at one place: each has the heads of its
    revolutions (duration, count of entries, offset) and bytes, by its number and how many bytes it may have. Its sum is another than it says."""
    room = (size - 16 - 4 * 168) // count
    tracks = []
    for number in range(count):
        heads, data = revolutions(room - 4 - 12 * 255)
        begin = 4 + 12 * 255
        told = b"".join(struct.pack("<III", duration, entries, begin + at) for duration, entries, at in heads)
        tracks.append((b"TRK" + bytes([number]) + told).ljust(begin, b"\0") + data)
    places = [16 + 4 * 168 + sum(map(len, tracks[:number])) for number in range(count)]
    table = struct.pack("<168I", *(places + [0] * 168)[:168])
    return b"SCP" + bytes([0x24, 0x80, 255, 0, count - 1, 1, 0, 0, 0]) + struct.pack("<I", 1) + table + b"".join(tracks)


def one_revolution(entry):
    """Entries of one revolution after another, as long as these say."""
    def revolutions(room):
        count = room // 8
        return [(count * 0x100, count, 2 * count * turn) for turn in range(4)], entry * (4 * count)
    return revolutions


def overlapping(room):
    """Revolutions that all name the same entries: as many of a track's bytes as in the other size."""
    count = (room + 4 + 12 * 255) // 16
    return [(count * 0x100, count, 0)] * 255, b"\1\0" * count


def beyond(room):
    """A revolution of more entries than any track has, which lie behind 4 GiB."""
    return [(1, 0xFFFFFFFF, 0xFFFFF000)], b"\1\0" * (room // 2)


SCP_FILES = [
    ("one track of 256 units", 1, one_revolution(b"\1\0")),
    ("one track of 1 unit", 1, one_revolution(b"\0\1")),
    ("one track of overflows", 1, one_revolution(b"\0\0")),
    ("168 tracks of 256 units", 168, one_revolution(b"\1\0")),
    ("168 tracks of revolutions that overlap", 168, overlapping),
    ("168 tracks that lie behind 4 GiB", 168, beyond),
]


# Measuring

def folder_of(path):
    """Where the files of an input's tracks are made, anew in each run."""
    folder = f"{path}-tracks"
    shutil.rmtree(folder, ignore_errors=True)
    return folder


def once(command, path):
    """The processor time of a run in seconds."""
    folder_of(path)
    with open(path, "rb") as given:
        child = subprocess.Popen(command, stdin=given, stdout=subprocess.DEVNULL, stderr=subprocess.DEVNULL)
        _, _, usage = os.wait4(child.pid, 0)
    return usage.ru_utime + usage.ru_stime


def instructions(command, path):
    """The instructions of a run, in thousands of millions."""
    folder_of(path)
    counting = ["valgrind", "--tool=cachegrind", "--cache-sim=no", "--cachegrind-out-file=/dev/null", *command]
    with open(path, "rb") as given:
        done = subprocess.run(counting, stdin=given, stdout=subprocess.DEVNULL, stderr=subprocess.PIPE, text=True)
    return int(re.search(r"I +refs: +([0-9,]+)", done.stderr).group(1).replace(",", "")) / 1e9


def compared(small, large, count):
    """The least processor times of two runs, each a command and its input's file, or their instructions. Each is timed so often whatever comes
    out, in turn, since other work on the machine weighs on both; a row is not measured again because it is over its bound."""
    if count:
        return instructions(*small), instructions(*large)
    pairs = [(once(*small), once(*large)) for _ in range(RUNS)]
    return min(first for first, _ in pairs), min(second for _, second in pairs)


class Table:
    def __init__(self, program, work, count):
        self.program, self.work, self.count = program, work, count
        self.rows, self.wrong, self.worst, self.peak = 0, 0, 0, 0
        print(f"{'command':32} {'input':38} {'small':>9} {'large':>9} {'ratio':>6} {'MiB':>6}")

    def row(self, words, name, small, large, most=4.4, other=None, dumps=0, beside=(), made=False, ending="00.0.raw"):
        """A row: the command over the small input and over the large one, or another command over the large one. The input is the file of
        the first track in so many dumps, and those of further tracks beside it, or an SCP file, by the ending of its name; or what is read where there are none. It may be made files of,
        in a folder that the words name before the dumps as FOLDER, or that is the last word."""
        with tempfile.TemporaryDirectory(dir=self.work) as folder:
            inputs = Path(folder, f"small{ending}"), Path(folder, f"large{ending}")
            runs = [[self.program, *(f"{path}-tracks" if word == FOLDER else word for word in wanted), *dumps * [str(path)], *made * [f"{path}-tracks"]]
                    for wanted, path in zip((words, other or words), inputs)]
            for path, data in zip(inputs, (small, large)):
                for track in ("00.0", *beside):
                    Path(folder, path.name.replace("00.0", track)).write_bytes(data)
            seconds, more = compared(*zip(runs, inputs), self.count)
            for path in inputs:
                folder_of(path)
            peak = max(peak_of(command, path, folder) for command, path in zip(runs, inputs))
        ratio = more / max(seconds, 1e-6)
        wrong = ratio > most or not peak < PEAK
        self.rows += 1
        self.wrong += wrong
        self.worst, self.peak = max(self.worst, ratio / most), max(self.peak, peak)
        print(f"{' '.join(words):32} {name:38} {seconds * 1e3:9.1f} {more * 1e3:9.1f} {ratio:6.2f} {peak:6.1f}{'  NOT' * wrong}", flush=True)


def options():
    parser = argparse.ArgumentParser(prog="bench/run hostile")
    parser.add_argument("--count", action="store_true", help="instructions in place of times")
    parser.add_argument("--work", help="the folder below which temporary files lie")
    parser.add_argument("program", nargs="?", default=TOP / "crates/flux/out/flux")
    parser.add_argument("command", nargs="*")
    return parser.parse_args()


def main():
    args = options()
    signal.signal(signal.SIGTERM, lambda *_: sys.exit(143))
    program = os.path.abspath(args.program)
    _, built = commands_of(program)
    wanted = args.command or ["turns"] + [word.decode() for word in built]
    with tempfile.TemporaryDirectory(prefix="hostile-", dir=args.work) as work:
        return measured(Table(program, work, args.count), wanted)


def measured(table, wanted):
    """The rows of the wanted commands; the answer is whether one is over a bound."""
    if "turns" in wanted:
        for name, make in STREAMS:
            table.row(["turns"], name, *(make(FORMATS["ibm-720"], size) for size in SIZES))
    for command in ("decode", "report", "rescue", "map"):
        for form in (FORMATS[name] for name in USED if command in wanted):
            for name, make in TRACKS + STREAMS:
                if command == "decode" or name in ("headers everywhere", "headers in many revolutions", "silence") or (
                        command == "rescue" and name in ("ones alone", "noise")):
                    table.row([command, form.word], name, *(make(form, size) for size in SIZES))
    if "read" in wanted:
        for form in (FORMATS[name] for name in USED):
            for name, make in [LONGEST] * has_codes(form) + [NAMES] + RETRIED + TRACKS + STREAMS:
                table.row(["read", form.word], name, *(make(form, size) for size in SIZES), dumps=1)
            table.row(["read", form.word], "8 dumps of " + RETRIED[0][0], *(RETRIED[0][1](form, size) for size in SIZES), dumps=8)
            # (No disk has the track beside: its file is looked at for the names in it.)
            for name, make in [NAMES] + RETRIED + TRACKS[:1]:
                table.row(["read", form.word], f"{name}, in two files", *(make(form, size) for size in SIZES), dumps=1, beside=("95.0",))
    if "identify" in wanted:
        for form in (FORMATS[name] for name in USED):
            for name, make in [LONGEST] * has_codes(form) + [NAMES] + RETRIED + [TRACKS[0], TRACKS[3], TRACKS[6]]:
                table.row(["identify"], f"{name}, {form.word}", *(make(form, size) for size in SIZES), dumps=1)
    if "archive" in wanted:
        for form in (FORMATS[name] for name in USED):
            for name, make in [LONGEST] * has_codes(form) + [NAMES] + RETRIED + TRACKS:
                table.row(["archive", "--format", form.word, FOLDER], name, *(make(form, size) for size in SIZES), dumps=1)
    if "imd" in wanted:
        for form in (FORMATS[name] for name in USED[:2]):
            for name, make in [LONGEST, NAMES] + RETRIED + TRACKS:
                table.row(["imd"], f"{name}, {form.word}", *(make(form, size) for size in SIZES), dumps=1)
    if "unpack" in wanted:
        for name, count, revolutions in SCP_FILES:
            table.row(["unpack"], name, *(scp_of(size, count, revolutions) for size in SIZES), dumps=1, made=True)
    # (Of many tracks the heads are half of the small file, and entries alone take time in `imd`, `identify` and `archive`.)
    for words, files in ((["read", "ibm-720"], SCP_FILES), (["info"], SCP_FILES), (["show", "ibm-720", "0.0", "1"], SCP_FILES),
                         (["imd"], SCP_FILES[:3]), (["identify"], SCP_FILES[:3]), (["archive", "--format", "ibm-720", FOLDER], SCP_FILES[:3])):
        for name, count, revolutions in files if words[0] in wanted else []:
            table.row(words, f"SCP, {name}", *(scp_of(size, count, revolutions) for size in SIZES), dumps=1, ending=".scp")
    if "show" in wanted:
        for form in (FORMATS[name] for name in USED):
            for name, make in [LONGEST] * has_codes(form) + [CONTENTS, NAMES] + RETRIED + TRACKS:
                table.row(["show", form.word, "0.0", str(form.recording.first)], name, *(make(form, size) for size in SIZES), dumps=1)
    for words in ["identify"], ["imd"], ["info"], ["archive", "--format", "ibm-720", FOLDER], ["show", "ibm-720", "0.0", "1"]:
        for name, make in STREAMS if words[0] in wanted else []:
            table.row(words, name, *(make(FORMATS["ibm-720"], size) for size in SIZES), dumps=1)
    if "split" in wanted:
        for name, make in STREAMS:
            table.row(["split", FOLDER, "2"], name, *(make(FORMATS["ibm-720"], size) for size in SIZES))
    if "decode-set" in wanted:
        for form in (FORMATS[name] for name in USED):
            for name, make in TRACKS[:3]:
                table.row(["decode-set", form.word, "16"], name, *(16 * make(form, size // 16) for size in SIZES))
    for command in ("write", "to-g64"):
        if command in wanted:
            table.row([command, "c1541"], "zeros, no image's size", *(bytes(size) for size in SIZES))
    if "write" in wanted:
        table.row(["write", "ibm-360"], "images of 40 and 80 cylinders", bytes(368640), bytes(737280), 2.2, ["write", "ibm-720"])
    if "to-g64" in wanted:
        table.row(["to-g64", "c1541"], "images of 35 and 40 tracks", bytes(174848), bytes(196608), 2.2, ["to-g64", "c1541-40"])
    if "trial" in wanted:
        table.row(["trial", "ibm-360", "1"], "disks of 40 and 80 cylinders", b"", b"", 2.2, ["trial", "ibm-720", "1"])
    if "from-g64" in wanted:
        form = FORMATS["c1541"]
        for name, cells in (("headers everywhere", headers(form)), ("headers without data", headers_without_data(form)), ("ones alone", "1"),
                            ("syncs one after another", "1" * 10 + "0"), ("sectors of another check value", sectors_of_another_check(form))):
            table.row(["from-g64", "c1541"], name, *(g64_of(size, cells) for size in SIZES))
    print(f"\n{table.rows} rows, {table.wrong} over a bound; the worst ratio is {table.worst:.0%} of its bound, "
          f"the highest peak {table.peak:.1f} MiB")
    return 1 if table.wrong else 0


if __name__ == "__main__":
    sys.exit(main())
