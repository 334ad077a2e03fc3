"""Cases for compare.py of SCP files: of some tracks, whole or with faults, in a few of all forms; and dumps of files that are one in their place."""
import pathlib
import re
import struct
import sys

from case_files import folder_name, most_bytes, what_lies
from case_streams import one_in
from plain_files import Outside
from plain_streams import Refused, file_stream

sys.path.insert(0, str(pathlib.Path(__file__).resolve().parents[2] / "samples"))
import scp                                                # noqa: E402

TRACKS = [divmod(number, 2) for number in range(168)]


def summed(chance, kinds, file):
    """The file with the sum of its bytes, with another or with none, in some of which it may be written to."""
    total = sum(file[16:]) & 0xFFFFFFFF
    wanted = chance.choice([0, total, total, total ^ 1 << chance.randrange(32), chance.randrange(1 << 32)])
    kinds.add("an SCP file of no sum" if wanted == 0 else "an SCP file of its sum" if wanted == total else "an SCP file of another sum")
    return file[:8] + bytes([file[8] ^ 0x10 * one_in(chance, 4)]) + file[9:12] + struct.pack("<I", wanted) + file[16:]


def few_values(chance, kinds):
    """The entries of a revolution."""
    count = chance.choice([0, 1, 2, 3, 40, chance.randrange(2000)])
    return [chance.choice([0, 1, 65535, chance.randrange(65536), chance.randrange(100, 400)]) if one_in(chance, 9) else chance.randrange(60, 400)
            for _ in range(count)]


def few_revolution(chance, kinds):
    """How long it is, and its entries."""
    values = few_values(chance, kinds)
    whole = sum(value or 65536 for value in values)
    return chance.choice([0, 1, 0xFFFFFFFF, chance.randrange(1 << 32), max(0, whole - 50)] if one_in(chance, 6) else [whole, whole + 3]), values


def few_track(chance, kinds, number, turns):
    """The bytes of a track, a few of which are wrong."""
    heads, data = b"", b""
    for duration, values in (few_revolution(chance, kinds) for _ in range(turns)):
        count, offset = len(values), 4 + 12 * turns + len(data)
        if one_in(chance, 40):
            kinds.add("a revolution of other numbers")
            count, offset = chance.choice([(0, offset), (count + 1, offset), (4194304, offset), (4194305, offset), (count, chance.randrange(1 << 32))])
        heads += struct.pack("<III", duration, count, offset)
        data += struct.pack(f">{len(values)}H", *values)
    if one_in(chance, 20):
        kinds.add("a track of another number or signature")
        return chance.choice([b"TRK" + bytes([(number + 1) % 256]), b"TRX" + bytes([number])]) + heads + data
    return b"TRK" + bytes([number]) + heads + data


def scp_file(chance, kinds):
    """A file, a few of which are cut or have other bytes in their header."""
    turns = chance.choice([0, 1, 2, 3, 5])
    numbers = sorted(chance.sample(range(168), chance.choice([0, 1, 2, 5])))
    table = 168 if not one_in(chance, 4) else numbers[-1] + 1 if numbers else 0
    offsets, body = [0] * table, b""
    for number in numbers:
        offsets[number] = 16 + 4 * table + len(body)
        body += few_track(chance, kinds, number, turns)
    head = bytearray(b"SCP" + bytes([0x24, 0x80, turns, 0, 167, 1, 0, 0, chance.choice([0, 0, 1, 3, 255])]))
    if one_in(chance, 12):
        kinds.add("another header")
        head[chance.choice([0, 1, 2, 5, 8, 9, 9])] = chance.choice([0, 8, 16, 0x40, 0x41, chance.randrange(256)])
    file = summed(chance, kinds, bytes(head) + bytes(4) + struct.pack(f"<{table}I", *offsets) + body)
    kinds |= {f"{turns} revolutions", f"{len(numbers)} tracks", "a short table" if table < 168 else "a whole table"}
    if one_in(chance, 5):
        kinds.add("a file that ends early")
        return file[: chance.choice([chance.randrange(16), chance.randrange(len(file) + 1), max(0, len(file) - chance.randrange(1, 30))])]
    return file + (b"a footerFPCS" if one_in(chance, 5) else b"")


def case_unpack(chance, kinds, built):
    """A file that is unpacked, or none."""
    folder = folder_name(chance, kinds)
    files = what_lies(chance, kinds, folder, TRACKS) | {b"disk.scp": scp_file(chance, kinds)}
    words = [b"unpack", b"disk.scp", folder]
    if one_in(chance, 15):
        kinds.add("words that unpack nothing")
        words = chance.choice([words[:2], [*words, b"made"], [b"unpack", b"", folder], [b"unpack", b"disk.scp", b""],
                               [b"unpack", b"disk.scp", b"side 00.0.raw"], [b"unpack", b"other.scp", folder]])
    return words, Outside(b"", files, most_bytes(chance, kinds))


TRACK_FILE = re.compile(rb"(.+?)/*/track(\d\d)\.([01])\.raw", re.DOTALL)


def track_of(chance, kinds, number, content, turns, resolution):
    """The bytes of a track that has the times of a file's stream, where it has one."""
    try:
        return scp.track(number, file_stream(content), turns, resolution)
    except (Refused, struct.error):      # no stream, or revolutions that are too long for the file
        return few_track(chance, kinds, number, turns)


def packed(chance, kinds, files):
    """An SCP file of the files of a dump's tracks, by their numbers."""
    turns, resolution = chance.choice([1, 2, 2, 3]), chance.choice([0, 0, 0, 1])
    offsets, body = [0] * 168, b""
    for number, content in sorted(files.items()):
        if number < 168 and content is not None:
            offsets[number] = 688 + len(body)
            body += track_of(chance, kinds, number, content, turns, resolution)
    head = bytearray(b"SCP" + bytes([0x24, 0x80, turns, 0, 167, 1, 0, 0, resolution]))
    if one_in(chance, 12):
        kinds.add("an SCP file that is refused")
        head[chance.choice([0, 8, 9])] = 0x40
    file = summed(chance, kinds, bytes(head) + bytes(4) + struct.pack("<168I", *offsets) + body)
    if one_in(chance, 10):
        kinds.add("an SCP file that ends early")
        return file[: chance.choice([chance.randrange(16), chance.randrange(len(file))])]
    return file


def in_scp_files(case):
    """The same case, in some of which a dump that is a folder is an SCP file."""
    def made(chance, kinds, built):
        words, files = case(chance, kinds, built)
        for word in sorted(set(words)) if one_in(chance, 3) else []:
            names = {path: TRACK_FILE.fullmatch(path) for path in files}
            own = {path: name for path, name in names.items() if name and name[1] == word.rstrip(b"/")}
            if own:
                kinds.add("a dump that is an SCP file")
                name = word.rstrip(b"/") + chance.choice([b".scp", b".scp", b".SCP", b".sCp"])
                content = packed(chance, kinds, {2 * int(at[2]) + int(at[3]): files[path] for path, at in own.items()})
                files = {path: bytes for path, bytes in files.items() if path not in own} | ({name: content} if not one_in(chance, 20) else {})
                words = [name if other == word else other for other in words]
        return words, files
    return made
