"""Holds disks against MAME's floptool (Debian's mame-tools), sector by sector. It is no part of the gate.

usage: bench/run floptool [PROGRAM [FORMAT..]]     (PROGRAM: crates/flux/out/flux; FORMAT: each that stands below)
       bench/run floptool --identify [PROGRAM [NAME..]]     (NAME: floptool's words, each that stands below)

There: floptool makes the disk of an image, PROGRAM decodes it, and every sector has to be good and the image the same. Back: PROGRAM
writes the streams of an image, floptool reads the disk of their second revolutions, and the image has to be the same. floptool
does not write back some disks: those of Atari that have fewer than 11 sectors a track (it takes one more than there are), and files of the CPC.
With --identify floptool makes disks of machines that mostly have no named format, and PROGRAM has to say which disk each is, by its numbers.
"""
import random
import struct
import subprocess
import sys
import tempfile
import zlib
from pathlib import Path

import disks
import plain
from plain_dumps import path_of
from plain_streams import Stream, padding_at
from programs import put

TOP = Path(__file__).resolve().parent.parent
TURN, TIME = 200_000_000, 0x0FFFFFFF
# a format, floptool's word, how its file is named, its disk's form and size, and whether it writes the disk back
KNOWN = [
    ("ibm-160", "pc", "img", b"525 SSDD", True), ("ibm-180", "pc", "img", b"525 SSDD", True), ("ibm-320", "pc", "img", b"525 DSDD", True),
    ("ibm-360", "pc", "img", b"525 DSDD", True), ("ibm-720", "pc", "img", b"525 DSQD", True), ("ibm-1200", "pc", "img", b"525 DSHD", True),
    ("ibm-1440", "pc", "img", b"35  DSHD", True), ("ibm-720", "msx", "dsk", b"35  DSDD", True), ("ibm-720", "ql", "dsk", b"35  DSDD", True),
    ("atari-st-800", "st", "st", b"35  DSDD", False), ("acorn-dfs-40", "ssd", "ssd", b"525 SSQD", True), ("acorn-dfs-80", "ssd", "ssd", b"525 DSQD", True),
    ("cpc-data", "dsk", "dsk", b"", False), ("cpc-system", "dsk", "dsk", b"", False), ("amiga-hd", "adf", "adf", b"35  DSHD", True),
    ("c1571", "d71", "d71", b"525 DSSD", True), ("c8050", "d80", "d80", b"525 SSQD", True), ("c8250", "d82", "d82", b"525 DSQD", True),
    ("c1581", "d81", "d81", b"35  DSDD", True),
    ("mac-400", "apple_gcr", "dsk", b"35  SSDD", True), ("mac-800", "apple_gcr", "dsk", b"35  DSDD", True),
    # by their numbers: the PC-98, FM Towns and X68000; the Atari ST; Acorn's ADFS; Sam Coupe, TR-DOS, Opus, CoCo, Acorn's Atom, DEC's Rainbow
    ("mfm-hd360-77x2x8x1024", "pc98", "hdm", b"525 DSHD", True), ("mfm-hd360-77x2x8x1024", "fmtowns", "bin", b"35  DSHD", True),
    ("mfm-hd360-77x2x8x1024", "xdf", "xdf", b"525 DSHD", True), ("mfm-hd360-80x2x15x512", "pc98", "img", b"525 DSHD", True),
    ("mfm-dd-82x2x10x512", "st", "st", b"35  DSDD", False), ("mfm-dd-80x2x11x512", "st", "st", b"35  DSDD", True),
    ("mfm-dd-80x1x9x512", "st", "st", b"35  SSDD", False), ("mfm-dd-80x2x11x512", "msa", "msa", b"35  DSDD", True),
    ("mfm-dd-80x2x16x256@0", "adfs_o", "adf", b"35  DSDD", True), ("mfm-dd-80x1x16x256@0", "adfs_o", "adf", b"35  SSDD", True),
    ("mfm-dd-80x2x5x1024@0", "adfs_n", "adf", b"35  DSDD", True), ("mfm-dd-80x2x10x512", "mgt", "mgt", b"35  DSDD", True),
    ("mfm-dd-80x2x16x256", "trd", "trd", b"525 DSQD", True), ("mfm-dd-40x1x18x256@0", "opd", "opd", b"35  SSDD", True),
    ("mfm-dd-35x1x18x256", "jvc", "dsk", b"525 SSDD", True), ("fm-sd-40x1x10x256@0", "atom", "40t", b"525 SSSD", True),
    ("mfm-dd-80x1x10x512", "rx50", "img", b"525 SSQD", True),
]


# how many places of MAME's own file a cylinder takes, where that is not one: the 1571's head moves by halves of one
STEPS = {"c1571": 2}

# whose files floptool writes well, but gives each sector of a track the bytes of one when it reads them
WRITTEN_ALONE = {"msa"}

# floptool's word for a disk, how its file is named and its bytes, the drive's turns a minute and its steps, and what `identify` has to name
NAMED = [
    ("pc98", "hdm", 1261568, 360, 1, "mfm-hd360-77x2x8x1024"), ("st", "st", 923648, 300, 1, "mfm-dd-82x2x11x512"),
    ("trd", "trd", 655360, 300, 1, "mfm-dd-80x2x16x256"), ("mgt", "mgt", 819200, 300, 1, "atari-st-800"),
    ("adfs_n", "adf", 819200, 300, 1, "mfm-dd-80x2x5x1024@0"), ("jvc", "dsk", 161280, 300, 1, "mfm-dd-35x1x18x256"),
    ("rx50", "img", 409600, 300, 1, "mfm-dd-80x1x10x512"), ("kaypro2", "kay", 204800, 300, 1, "mfm-dd-40x1x10x512@0"),
    ("ti99", "dsk", 92160, 300, 1, "--double-step fm-sd-40x1x9x256@0"), ("thomson_525", "fd", 81920, 300, 1, "fm-sd-40x1x16x128"),
    ("oric_jasmin", "dsk", 178432, 300, 1, "mfm-dd-41x1x17x256"), ("opd", "opd", 184320, 300, 1, "mfm-dd-40x1x18x256@0"),
    ("kc85", "img", 819200, 300, 1, "mfm-dd-80x2x5x1024"), ("abc800", "dsk", 163840, 300, 1, "mfm-dd-40x1x16x256"),
    ("esq8", "img", 450560, 300, 1, "mfm-dd-80x1x5x1024@0"), ("esq16", "img", 819200, 300, 1, "mfm-dd-80x2x10x512@0"),
]


def cpc_file(image, first):
    """A disk of the CPC as a file of its emulators, which names each sector."""
    out = b"MV - CPCEMU Disk-File\r\nDisk-Info\r\n".ljust(0x30, b"\0") + bytes([40, 1]) + struct.pack("<H", 0x1300)
    out = out.ljust(0x100, b"\0")
    for cylinder in range(40):
        track = b"Track-Info\r\n".ljust(16, b"\0") + bytes([cylinder, 0, 0, 0, 2, 9, 0x4E, 0xE5])
        track += b"".join(bytes([cylinder, 0, first + index, 2, 0, 0]) + struct.pack("<H", 512) for index in range(9))
        out += track.ljust(0x100, b"\0") + image[4608 * cylinder : 4608 * (cylinder + 1)]
    return out


def msa_file(form, image):
    """A disk of the Atari ST as a file of its archiver, with no track packed."""
    size = form.image_bytes // len(form.tracks)
    out = struct.pack(">5H", 0x0E0F, size // 512, 1, 0, len(form.tracks) // 2 - 1)
    return out + b"".join(struct.pack(">H", size) + image[place : place + size] for place in range(0, len(image), size))


def tracks_of(data):
    """The intervals of each track of a file of MAME's own, by cylinder and head."""
    cylinders, heads = struct.unpack_from("<2I", data, 16)
    tracks = {}
    for number in range((cylinders & 0x3FFFFFFF) * heads):
        place, packed, size, _ = struct.unpack_from("<4I", data, 32 + 16 * number)
        values = struct.unpack(f"<{size // 4}I", zlib.decompress(data[place : place + packed])) if size else ()
        tracks[divmod(number, heads)] = [value & TIME for value in values]
    return tracks


def packed_in_file(packed, kind, step):
    """A file of MAME's own with these tracks, each as its intervals packed and their size."""
    cylinders, heads = (max(places) + 1 for places in zip(*packed))
    out, contents = b"MAMEFLOPPYIMAGE\0" + struct.pack("<2I", step * (cylinders - 1) + 1, heads) + kind, b""
    behind = len(out) + 16 * (step * (cylinders - 1) + 1) * heads
    for number in range((step * (cylinders - 1) + 1) * heads):
        place, head = divmod(number, heads)
        content, size = packed[place // step, head] if place % step == 0 else (b"", 0)
        out += struct.pack("<4I", behind + len(contents) if size else 0, len(content), size, 0)
        contents += content
    return out + contents


def mame_file(form, name, kind, streams):
    """A file of MAME's own with the second revolution of each stream."""
    packed, place = {}, 0
    for cylinder, head in form.tracks:
        place += padding_at(streams, place)
        stream = Stream(streams, place)
        place += stream.length
        begin, end = stream.indexes[1:3]
        times = [min(TURN - 1, (time - begin) * TURN // (end - begin)) for time in stream.times if begin < time <= end]
        values = [time - before for before, time in zip([0] + times, times)]
        content = struct.pack(f"<{len(values)}I", *values)
        packed[cylinder, head] = (zlib.compress(content), len(content))
    return packed_in_file(packed, kind, STEPS.get(form.word, 1))


def convert(given, wanted, source, target):
    subprocess.run(["floptool", "flopconvert", given, wanted, source, target], check=True, capture_output=True)


def as_file(form, name, image):
    """The image as floptool's files have it."""
    if name == "dsk":
        return cpc_file(image, form.recording.first)
    if name == "msa":
        return msa_file(form, image)
    return image


def made_by_floptool(name, ending, content, folder):
    """The intervals of each track of the disk that floptool makes of a file."""
    source = folder / f"disk.{ending}"
    source.write_bytes(content)
    convert(name, "mfi", source, folder / "disk.mfi")
    return tracks_of((folder / "disk.mfi").read_bytes())


def stream_of(intervals, ticks):
    """Two revolutions of a track as a stream, of which each of MAME's units has so many ticks."""
    times, time = [], 0
    for value in intervals * 2:
        time += value
        times.append(round(time * ticks))
    values = [time - before for before, time in zip([0] + times, times)]
    turn = disks.spelled(values[: len(values) // 2])
    parts = b"".join(struct.pack("<HHIII", 0x020D, 12, number * len(turn), 0, number) + turn * (number < 2) for number in range(3))
    return parts + b"\x0d\x03\x08\x00" + struct.pack("<II", 2 * len(turn), 0) + disks.END


def dump_of(case, folder):
    """The dump of a disk that floptool makes, as files by their paths."""
    name, ending, size, turns, steps, _ = case
    tracks = made_by_floptool(name, ending, filled(bytearray(random.Random(name).randbytes(size)), name), folder)
    ticks = disks.TICKS_A_MICROSECOND * 60_000_000 / turns / TURN
    return {path_of(b"dump", steps * cylinder, head): stream_of(values, ticks) for (cylinder, head), values in tracks.items() if values}


def named(program, case):
    """Whether `identify` says which disk it is, and the last line that it says."""
    with tempfile.TemporaryDirectory() as folder:
        for path, content in dump_of(case, Path(folder)).items():
            put(Path(folder, path.decode()), content)
        done = subprocess.run([program, "identify", "dump"], cwd=folder, capture_output=True)
    last = done.stdout.decode().splitlines()[-1:] or [done.stderr.decode()]
    return last == [f"best {case[-1]}"], last[0]


def there(program, case, folder, image):
    word, name, ending, _, _ = case
    if name in WRITTEN_ALONE:
        return None, "-"
    form = plain.FORMATS.get(word)
    tracks = made_by_floptool(name, ending, as_file(form, name, image), folder)
    ticks = disks.TICKS_A_MICROSECOND * form.nominal(0) / 24604 * form.ring_cells(0) / TURN
    streams = b"".join(stream_of(tracks[STEPS.get(word, 1) * cylinder, head], ticks) for cylinder, head in form.tracks)
    done = subprocess.run([program, "decode", word], input=streams, capture_output=True)
    total = done.stderr.decode().splitlines()[-1]
    return done.stdout == image, total


def back(program, case, folder, image):
    word, name, ending, kind, writes = case
    if not writes:
        return None
    form = plain.FORMATS.get(word)
    streams = subprocess.run([program, "write", word], input=image, capture_output=True, check=True).stdout
    (folder / "own.mfi").write_bytes(mame_file(form, name, kind, streams))
    convert("mfi", name, folder / "own.mfi", folder / f"own.{ending}")
    return (folder / f"own.{ending}").read_bytes() == as_file(form, name, image)


def image_of(word, name):
    """Random bytes. By Acorn's catalogue, or the map of ADFS, floptool tells what disk it is, so there these are right."""
    return filled(bytearray(random.Random(word).randbytes(plain.FORMATS.get(word).image_bytes)), name)


def filled(image, name):
    """The bytes with those that floptool looks at."""
    sectors = len(image) // 256
    if name == "ssd":
        image[:512] = bytes(262) + struct.pack(">H", sectors) + bytes(248)
    if name in ("adfs_o", "adfs_n"):
        image[0xFC:0xFF] = sectors.to_bytes(3, "little")
        at = 0x201 if name == "adfs_o" else 0x401
        image[at : at + 4] = b"Hugo"
    return bytes(image)


def main():
    words = [word for word in sys.argv[1:] if word != "--identify"]
    program = str(Path(words[0]).resolve()) if words else str(TOP / "crates/flux/out/flux")
    if "--identify" in sys.argv[1:]:
        for case in NAMED:
            if case[0] in words[1:] or not words[1:]:
                same, last = named(program, case)
                print(f"{case[0]:12} {'same' if same else 'OTHER'} ({last})", flush=True)
        return
    for case in KNOWN:
        word, name = case[:2]
        if words[1:] and word not in words[1:]:
            continue
        image = image_of(word, name)
        with tempfile.TemporaryDirectory() as folder:
            same, total = there(program, case, Path(folder), image)
            returned = back(program, case, Path(folder), image)
        told = {None: "-", True: "same", False: "OTHER"}
        print(f"{word:22} {name:9} there {told[same]} ({total}) back {told[returned]}", flush=True)


if __name__ == "__main__":
    main()
