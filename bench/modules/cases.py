"""Generated cases for compare.py: words and an input, with the names of the kinds of damage that it has."""
import struct

import plain
import plain_commands
from case_archive import case_archive
from case_dumps import case_folder, case_identify, case_info, case_numbers, case_others, case_read, case_show, few
from case_files import case_split, case_write_files
from case_imd import case_imd
from case_scp import case_unpack, in_scp_files
from case_streams import FILLER, SHORTEST, faulty, few_blocks, one_in, spell, too_long
from case_tracks import noisy_track, random_data, track_stream, whole_track
from plain import FORMATS
from plain_streams import LIMIT

def padding(chance, kinds):
    count = chance.choice([0, 0, 0, 1, 2, 15, 16, 17, chance.randrange(18)])
    if count:
        kinds.add(f"padding of {count} bytes")
    return b"\r" * count


def any_bytes(chance, kinds):
    if one_in(chance, 2):
        return b""
    kinds.add("bytes after the last stream")
    return chance.choice([b"\r" * chance.randrange(40), chance.randbytes(chance.randrange(6000))])


def case_turns(chance, kinds, built):
    blocks = few_blocks(chance, kinds)
    if one_in(chance, 4):
        data = b"".join(spell(blocks))
        kinds.add("a whole stream")
    else:
        data = faulty(chance, blocks, kinds)
        if one_in(chance, 5) and data:
            place = chance.randrange(len(data))
            kinds.add("a byte changed")
            data = data[:place] + bytes([chance.randrange(256)]) + data[place + 1 :]
    return [b"turns"], data + any_bytes(chance, kinds)


def reader(chance, kinds, built):
    """Words that read the streams of a disk, the format, and the captures of a track."""
    form = plain.any_format(chance)
    more = [word for word in (b"decode-set", b"rescue", b"map") if word in built]
    command = chance.choice([b"decode", b"decode", b"report"] + 2 * more)
    kinds.add(f"format {form.word}")
    words, captures = [command, form.word.encode()], 1
    if command == b"decode-set":
        captures = chance.choice([1, 2, 2, 3, 16])
        words.append(b"%d" % captures if one_in(chance, 2) else b"%02d" % captures)
    return words, form, captures


def case_small_disk(chance, kinds, built):
    words, form, captures = reader(chance, kinds, built)
    whole = one_in(chance, 4)
    count = len(form.tracks) * captures if whole else chance.randrange(1, 7)
    if count > 700:
        count = 20
    wrong = None if one_in(chance, 3) else chance.choice([0, count // 2, count - 1])
    parts = []
    for number in range(count):
        if number:
            parts.append(padding(chance, kinds) if one_in(chance, 3) else b"")
        if number == wrong:
            parts.append(few(chance, kinds))
        elif number < 5:
            parts.append(b"".join(spell(few_blocks(chance, kinds))))
        else:
            parts.append(chance.choice([FILLER, SHORTEST]))
    return words, b"".join(parts) + any_bytes(chance, kinds)


def case_tracks(chance, kinds, built):
    """Sectors on one or two tracks, the first ones or any, with fillers for the tracks before and sometimes after."""
    words, form, captures = reader(chance, kinds, built)
    captures = min(captures, 3)
    if len(words) == 3:
        words[2] = b"%d" % captures
    last = len(form.tracks) - 1
    at = chance.choice([0, 0, 0, 1, last, chance.randrange(last + 1)])
    parts = [FILLER] * (at * captures)
    for q in range(captures if at + 1 > last else chance.randrange(1, captures + 1)):
        parts += [padding(chance, kinds) if one_in(chance, 4) else b"", track_stream(chance, kinds, form, at)]
    if one_in(chance, 2):
        kinds.add("all tracks")
        parts += [FILLER] * ((last - at) * captures)
    return words, b"".join(parts) + any_bytes(chance, kinds)


def case_whole_track(chance, kinds, built):
    words, form, captures = reader(chance, kinds, built)
    at = chance.choice([0, len(form.tracks) - 1, chance.randrange(len(form.tracks))])
    data = [FILLER] * (at * captures) + [whole_track(chance, kinds, form, at) for _ in range(captures if captures < 3 else 1)]
    return words, b"".join(data)


def case_noisy_track(chance, kinds, built):
    """A whole track with bursts of noise, or one whose speed drifts far, mostly by both clocks."""
    words, form, captures = reader(chance, kinds, built)
    if b"rescue" in built and not one_in(chance, 4):
        words, captures = [b"rescue", form.word.encode()], 1
    at = chance.choice([0, len(form.tracks) - 1, chance.randrange(len(form.tracks))])
    data = [FILLER] * (at * captures) + [noisy_track(chance, kinds, form, at) for _ in range(captures if captures < 3 else 1)]
    return words, b"".join(data)


def case_too_long(chance, kinds, built):
    if one_in(chance, 2):
        return [b"turns"], too_long(chance, kinds)
    words, form, captures = reader(chance, kinds, built)
    return words, FILLER * chance.randrange(3) + padding(chance, kinds) + too_long(chance, kinds)


def case_noise(chance, kinds, built):
    kinds.add("noise")
    words = [b"turns"] if one_in(chance, 2) else reader(chance, kinds, built)[0]
    size = chance.choice([0, 1, 2, 3, 10, 100, 5000])
    data = chance.choice([chance.randbytes(size), bytes(chance.choice([13, 2, 3, 1, 4, 12, 8, 0, 96]) for _ in range(size))])
    return words, FILLER * chance.randrange(3) + data


def case_wrong_size(chance, kinds, built):
    form = plain.any_format(chance)
    commands = [b"write"] + [b"to-g64"] * (b"to-g64" in built and plain_commands.commodore(form))
    right, another = form.image_bytes, plain.any_format(chance).image_bytes
    size = chance.choice([0, 1, right - 1, right + 1, right + 2, right + 100000, right // 2, another])
    if size == right > 200000:
        size -= 1
    kinds |= {f"format {form.word}", "image of no bytes" if size == 0 else "image of the size" if size == right else "image of another size"}
    return [chance.choice(commands), form.word.encode()], bytes(size)


def case_write(chance, kinds, built):
    small = ["c1541", "c1541-40", "apple-do", "apple-po"]
    form = FORMATS[chance.choice(small)] if one_in(chance, 2) else plain.any_format(chance)
    commands = [b"write"] + [b"to-g64"] * (b"to-g64" in built and plain_commands.commodore(form))
    kinds |= {f"format {form.word}", "image of the size"}
    return [chance.choice(commands), form.word.encode()], random_data(chance, form.image_bytes)


def numbers_of_no_disk(chance):
    """Numbers of a disk, of which some do not fit."""
    pick = lambda least, most: chance.choice([least, most, chance.randrange(least, most + 1), 0, most + 1, 9999])
    word = f"{chance.choice(list(plain.RATES))}-{pick(1, 99)}x{pick(1, 2)}x{pick(1, 32)}x{chance.choice([128, 512, 512, 1024, 1024, 0, 500, 2048])}"
    return (word + chance.choice(["", "", "@0", "@1", "@255", "@250", "@9999"])).encode()


def case_words(chance, kinds, built):
    """Words that are no command, or almost none."""
    kinds.add("words")
    form = plain.any_format(chance).word.encode()
    command = chance.choice([b"turns", b"decode", b"report", b"write", b"trial", b"to-g64", b"from-g64", b"decode-set", b"rescue",
                             b"map", b"read", b"identify", b"info", b"imd", b"TURNS", b"", b"-x"])
    number = chance.choice([b"1", b"", b"4294967296", b"99999999999", b"00000000001", b"+1", b"-1", b" 1", b"1 ", b"0x1", b"1.0", "\u0661".encode(),
                            b"17", b"0", b"00", b"016", b"1a"])
    words = chance.choice([
        [], [command], [command, form], [command, form, number], [command, form, b"16", b"1"], [b"turns", form], [b"turns", b""],
        [command, form.upper()], [command, form + b" "], [command, form[:-1]], [command, form + b"0"], [command, b"ibm-" + form], [form],
        [command, b""], [form, command], [command + b" " + form], [command + b"s", form], [command[:-1], form], [command, b"amiga\n"],
        [command, chance.choice(list(plain_commands.MEANINGS))], [command, chance.choice(list(plain_commands.MEANINGS)).upper(), b"dump"],
        [command, numbers_of_no_disk(chance)], [command, numbers_of_no_disk(chance), b"dump"],
        [command, "amig\u00e4".encode()], [command, b"\xff"], [b"\x80turns"], [command, form, b"\xc3"]])
    if not all(map(plain_commands.is_text, words)):
        kinds.add("words that are no text")
    data = FILLER * chance.randrange(3)
    if len(words) == 3 and words[0] == b"trial" and plain_commands.is_number(words[2], 10, 0, 2**32 - 1):
        words = words[:2]          # a right trial is a case of its own
    return words, data


def case_trial(chance, kinds, built):
    form = FORMATS[chance.choice(["c1541", "c1541-40", "apple-do", "apple-po"] * 4 + list(FORMATS))]
    hole = chance.choice([0, 0, chance.randrange(1000), chance.randrange(50)])
    seed = chance.choice([chance.randrange(1000), chance.randrange(4294) * 1000000 + hole * 1000 + chance.randrange(1000), 2**32 - 1])
    kinds |= {f"format {form.word}", "a trial with a hole" if seed // 1000 % 1000 else "a trial without a hole"}
    return [b"trial", form.word.encode(), chance.choice([b"%d", b"%010d"]) % seed], chance.choice([b"", FILLER])


def case_g64(chance, kinds, built):
    """Files of G64: as written, with tracks damaged, or with a fault."""
    form = FORMATS[chance.choice(["c1541", "c1541-40"])]
    image = random_data(chance, form.image_bytes)
    data = bytearray(plain.g64_file(form, image))
    kinds |= {f"format {form.word}", "a G64 file"}
    for _ in range(chance.choice([0, 1, 3])):
        k = chance.randrange(len(form.tracks))
        start = 684 + 7930 * k
        roll = chance.randrange(8)
        kinds.add(("a cell turned", "eight zeros in a row", "a shorter track", "no track", "another offset", "another length", "cells turned round",
                   "another speed")[roll])
        if roll == 0:
            data[start + 2 + chance.randrange(6000)] ^= 1 << chance.randrange(8)
        elif roll == 1:
            data[start + 2 + chance.randrange(6000)] = 0
        elif roll == 2:
            data[start : start + 2] = struct.pack("<H", chance.choice([0, 1, 2, 9, 100, chance.randrange(7000)]))
        elif roll == 3:
            data[12 + 8 * k : 16 + 8 * k] = bytes(4)
        elif roll == 4:
            offset = chance.choice([len(data), len(data) - 2, len(data) - 1, 2**32 - 1, 1, chance.randrange(len(data))])
            data[12 + 8 * k : 16 + 8 * k] = struct.pack("<I", offset)
        elif roll == 5:
            data[start : start + 2] = struct.pack("<H", chance.choice([65535, 7928, 7690, 30000]))
        elif roll == 6:
            length, turn = int.from_bytes(data[start : start + 2], "little"), chance.randrange(6000)
            part = data[start + 2 : start + 2 + length]
            data[start + 2 : start + 2 + length] = part[turn:] + part[:turn]
        else:
            data[348 + 8 * k] ^= 3
    if one_in(chance, 3):
        data = g64_with_fault(chance, kinds, data)
    return [b"from-g64", form.word.encode()], bytes(data)


def g64_with_fault(chance, kinds, data):
    roll = chance.randrange(7)
    names = "a short header", "another signature", "another version", "another number of tracks", "a short table", "cut", "too large"
    kinds.add(f"G64: {names[roll]}")
    if roll == 0:
        return data[: chance.randrange(12)]
    if roll == 1:
        data[chance.randrange(8)] ^= 32
    elif roll == 2:
        data[8] = chance.choice([1, 255])
    elif roll == 3:
        data[9] = chance.choice([0, 85, 255, 1, 2, 42, 70])
    elif roll == 4:
        return data[: chance.choice([12, 347, 348, 683, 684])]
    elif roll == 5:
        return data[: chance.randrange(684, len(data))]
    else:
        return data + bytes(LIMIT + chance.choice([-1, 0, 1, 5]) - len(data))
    return data


# The kinds of cases: name, how many in ten thousand, how one is made, the command that it needs.
TABLE = [
    ("words", 700, case_words, None),
    ("one stream", 3500, case_turns, None),
    ("few blocks for a disk", 2000, case_small_disk, None),
    ("sectors on tracks", 2900, case_tracks, None),
    ("whole tracks", 150, case_whole_track, None),
    ("whole tracks with noise or drift", 150, case_noisy_track, None),
    ("noise", 300, case_noise, None),
    ("streams at the limit", 60, case_too_long, None),
    ("images of any size", 360, case_wrong_size, None),
    ("images that are written", 30, case_write, None),
    ("G64 files", 150, case_g64, b"from-g64"),
    ("folders", 200, case_folder, b"decode-folder"),
    ("dumps", 300, in_scp_files(case_read), b"read"),
    ("dumps with headers of others", 60, in_scp_files(case_others), b"read"),
    ("sectors of dumps", 100, in_scp_files(case_show), b"show"),
    ("dumps to be named", 30, in_scp_files(case_identify), b"identify"),
    ("dumps to be numbered", 20, case_numbers, plain_commands.BY_NUMBERS),
    ("turns of dumps", 100, in_scp_files(case_info), b"info"),
    ("disks without a format", 60, in_scp_files(case_imd), b"imd"),
    ("images as files", 60, case_write_files, plain_commands.WRITE_FOLDER),
    ("streams to be cut apart", 150, case_split, b"split"),
    ("SCP files", 100, case_unpack, b"unpack"),
    ("dumps of which all is kept", 60, case_archive, b"archive"),
    ("trials", 8, case_trial, b"trial"),
]


def make(chance, built, wanted=None):
    """A case, of a wanted kind or of any: its kind's name, its words, its input and the names of what was done to it."""
    table = [row for row in TABLE if (row[3] is None or row[3] in built) and wanted in (None, row[0])]
    name, _, case, _ = chance.choices(table, [row[1] for row in table])[0]
    kinds = set()
    words, data = case(chance, kinds, built)
    return name, words, data, kinds
