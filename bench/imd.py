"""Has the files that `imd` makes of foreign disks read by libdsk (Debian's libdsk-utils) and MAME's floptool (mame-tools), and compares their
sectors with the truth. It is no part of the gate.

usage: bench/run imd [PROGRAM [NAME..]]     (NAME: floptool's words for disks, each that stands below)
       bench/run imd --plain [NAME..]       (the plain reading makes the files, of each disk's first cylinders)

floptool makes a disk of random bytes, which is captured in a drive of 300 or 360 turns a minute. Told are the exit code and the last line that
`imd` says; whether the sectors are the truth's, taken from the file as they stand (`own`), by floptool from the file (`mame`), and by dsktrans
(`libdsk`); whether dskid reads the file; and whether all bytes behind the first line are those that libdsk itself writes of the truth (`bytes`).
A `-` stands where the tools have no such conversion.
"""
import dataclasses
import random
import subprocess
import sys
import tempfile
from pathlib import Path

import disks
import floptool
import plain_imd
from plain_dumps import Dumps, Shelf, path_of
from programs import run


@dataclasses.dataclass
class Disk:
    """floptool's word for it, how its file is named and its bytes, the drive's turns a minute, and whether it makes two steps for one; how many
    cylinders the plain reading reads; whether the image has sectors by cylinder, head and number, and whether floptool writes it back; libdsk's word
    for it, if it has one, and whether the sectors of a track lie in the order in which libdsk writes them."""
    name: str
    ending: str
    size: int
    turns: int = 300
    double: bool = False
    cylinders: int = 2
    in_order: bool = True
    back: bool = True
    libdsk: str = ""
    alike: bool = False


KNOWN = [
    Disk("pc98", "hdm", 1261568, 360), Disk("st", "st", 923648, back=False), Disk("adfs_n", "adf", 819200, libdsk="acorn800", alike=True),
    Disk("trd", "trd", 655360, libdsk="trdos640"), Disk("mgt", "mgt", 819200, libdsk="mgt800", alike=True), Disk("kaypro2", "kay", 204800),
    Disk("jvc", "dsk", 161280), Disk("rx50", "img", 409600), Disk("msx", "dsk", 368640, libdsk="ibm360"), Disk("pc", "img", 1720320),
    Disk("esq8", "img", 450560, back=False), Disk("esq16", "img", 819200, back=False), Disk("m20", "img", 286720, back=False),
    Disk("ti99", "dsk", 92160, double=True, cylinders=4), Disk("jv1", "dsk", 102400, cylinders=18), Disk("thomson_525", "fd", 81920),
    Disk("d81", "d81", 819200), Disk("oric_jasmin", "dsk", 178432), Disk("opd", "opd", 184320), Disk("2d", "2d", 327680),
    Disk("nascom", "dsk", 327680), Disk("mm1", "dsk", 655360), Disk("kc85", "img", 819200), Disk("abc800", "dsk", 163840, in_order=False),
    Disk("apollo", "afd", 1261568),
]


def records_of(file):
    """The records of a file of ImageDisk: of each its mode, cylinder, head and size, and its sectors by their names, each with its byte and
    its data."""
    place = file.index(b"\x1a") + 1
    while place < len(file):
        mode, cylinder, flags, count, code = file[place : place + 5]
        place += 5
        rows = []
        for wanted, usual in ((0, 0), (0x80, cylinder), (0x40, flags & 0x3F)):
            there = wanted == 0 or flags & wanted
            rows.append(file[place : place + count] if there else bytes([usual]) * count)
            place += count if there else 0
        sectors = {}
        for number, own_cylinder, head in zip(*rows):
            kind = file[place]
            content = file[place + 1 : place + 1 + ((128 << code) if kind % 2 else min(kind, 1))]
            place += 1 + len(content)
            sectors[own_cylinder, head, number] = kind, content if kind % 2 else content * (128 << code)
        yield mode, cylinder, flags & 0x3F, code, sectors


def made(disk, image, cylinders, folder):
    """The dump of the disk that floptool makes, as files by their paths."""
    tracks = floptool.made_by_floptool(disk.name, disk.ending, image, folder)
    ticks = disks.TICKS_A_MICROSECOND * 60_000_000 / disk.turns / floptool.TURN
    return {path_of(b"dump", cylinder, head): floptool.stream_of(values, ticks)
            for (cylinder, head), values in tracks.items() if values and cylinder < cylinders}


def answer(program, disk, files):
    words = [b"imd"] + [b"--double-step"] * disk.double + [b"dump"]
    if program:
        return run(program, words, files)
    return plain_imd.imd(Dumps(Shelf(files), [b"dump"], 1 + disk.double))


def are_the_truth(disk, sectors, image):
    """Whether these are the image's first sectors: each stands at a place of its own, which rise where it has them in order."""
    places = [image.find(content) for content in sectors]
    return places[:1] == [0] and -1 not in places and places == (sorted(set(places)) if disk.in_order else list(dict.fromkeys(places)))


def converted(command, target):
    """What a tool writes, or nothing where it fails."""
    done = subprocess.run(command, capture_output=True)
    return target.read_bytes() if done.returncode == 0 and target.exists() else b""


def by_libdsk(disk, folder, file, image):
    """Whether dsktrans reads the truth from the file, whether dskid reads it, and whether libdsk writes the same bytes of the truth."""
    told = subprocess.run(["dskid", folder / "own.imd"], capture_output=True).returncode == 0
    if not disk.libdsk:
        return None, told, None
    last = max(cylinder for _, cylinder, *_ in records_of(file))
    words = ["dsktrans", "-format", disk.libdsk, "-last", str(last)]
    raw = converted([*words, "-itype", "imd", "-otype", "raw", folder / "own.imd", folder / "raw.img"], folder / "raw.img")
    (folder / "truth.img").write_bytes(image)
    theirs = converted([*words, "-itype", "raw", "-otype", "imd", folder / "truth.img", folder / "theirs.imd"], folder / "theirs.imd")
    behind = lambda content: content.partition(b"\x1a")[2]
    return begins(raw, image), told, behind(theirs) == behind(file) if disk.alike else None


def begins(data, image):
    """Whether data are there, and the image begins with them."""
    return bool(data) and image.startswith(data)


def compared(program, disk):
    image = floptool.filled(bytearray(random.Random(disk.name).randbytes(disk.size)), disk.name)
    with tempfile.TemporaryDirectory() as name:
        folder = Path(name)
        code, file, notes = answer(program, disk, made(disk, image, 100 if program else disk.cylinders, folder))
        (folder / "own.imd").write_bytes(file)
        sectors = [content for *_, found in records_of(file) for _, (_, content) in sorted(found.items())]
        own, size = are_the_truth(disk, sectors, image), sum(map(len, sectors))
        back = folder / f"back.{disk.ending}"
        mame = converted(["floptool", "flopconvert", "imd", disk.name, folder / "own.imd", back], back)[:size] == image[:size] if disk.back else None
        libdsk, told, same = by_libdsk(disk, folder, file, image)
    words = {None: "-", True: "same", False: "OTHER"}
    checks = f"own {words[own]} mame {words[mame]} libdsk {words[libdsk]} dskid {'reads' if told else 'FAILS'} bytes {words[same]}"
    return f"{disk.name:12} {checks} code {code} ({notes.decode().splitlines()[-1]})"


def main():
    words = [word for word in sys.argv[1:] if word != "--plain"]
    program = None
    if "--plain" not in sys.argv[1:]:
        program = str(Path(words.pop(0)).resolve()) if words else str(floptool.TOP / "crates/flux/out/flux")
    for disk in KNOWN:
        if not words or disk.name in words:
            print(compared(program, disk), flush=True)


if __name__ == "__main__":
    main()
