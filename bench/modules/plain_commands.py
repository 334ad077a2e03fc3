"""What the words of a command come to: the exit code, and the bytes for standard output and for standard error.

`outcome(words, data, ..)` is that of any words, over an input's bytes, over the files of a folder by their paths, or over both, where files are made.
"""
import re
from collections import Counter

import plain_archive
import plain_dumps
import plain_identity
import plain_imd
import plain_info
from plain import FORMATS, decoded, from_g64, g64_file, stream_of, trial_line, unfit, wrong_size
from plain_dumps import Dumps, Shelf
from plain_files import Outside, split, unpack, write_files
from plain_map import picture
from plain_streams import Refused, Stream

USAGES = ["usage: flux turns | decode FORMAT | report FORMAT | write FORMAT | trial FORMAT SEED"]
for more in (" | to-g64 FORMAT | from-g64 FORMAT", " | decode-set FORMAT COUNT", " | decode-folder FORMAT FOLDER"):
    USAGES.append(USAGES[-1] + more)


def is_number(text, digits, least, most):
    return 1 <= len(text) <= digits and all(48 <= byte <= 57 for byte in text) and least <= int(text) <= most


def decode(form, data, captures=None, both_clocks=False):
    answer, refused = decoded(form, data, captures, both_clocks)
    code = 2 if refused else answer.end()
    return code, b"".join(answer.image), ("".join(answer.lines) + (refused or "")).encode()


def report(form, data):
    answer, refused = decoded(form, data)
    code = 2 if refused else answer.end()
    return code, "".join(answer.lines).encode(), (refused or "").encode()


def drawn(form, data):
    """The picture of the lines of all tracks before the first that is refused; it says why in the place of the total line."""
    answer, refused = decoded(form, data)
    lines = list(answer.lines)
    code = 2 if refused else answer.end()
    return code, picture(form, lines, refused or answer.lines[-1]).encode(), (refused or "").encode()


def write(form, data):
    if len(data) != form.image_bytes:
        return wrong_size(form, data)
    rings = (form.ring_of(data, k) for k in range(len(form.tracks)))
    return 0, b"".join(stream_of(ring, form.nominal(c)) for ring, (c, _) in zip(rings, form.tracks)), b""


def to_g64(form, data):
    return (0, g64_file(form, data), b"") if len(data) == form.image_bytes else wrong_size(form, data)


def decode_folder(form, folder, files):
    """The files of a dump are joined; each of them has to be there."""
    names = [f"track{cylinder:02}.{head}.raw" for cylinder, head in form.tracks]
    shelf = Shelf(files)
    contents = [shelf.read(folder + b"/" + name.encode()) for name in names]
    if None in contents:
        k = contents.index(None)
        return 2, b"", f"refused track {k} missing {names[k]}\n".encode()
    return decode(form, b"".join(contents))


def turns(data):
    try:
        stream = Stream(data, 0)
    except Refused as stop:
        return 2, b"", f"refused track 0 {stop.text()}\n".encode()
    lines = [f"transitions {len(stream.times)}\n"]
    lines += [f"turn {n} {b - a}\n" for n, (a, b) in enumerate(zip(stream.indexes, stream.indexes[1:]), 1)]
    return 0, "".join(lines).encode(), b""


def any_format(form):
    return True


def commodore(form):
    """Whether the disk has a G64 file: the 1541's of 35 and of 40 tracks."""
    return form.word in ("c1541", "c1541-40")


# What each word of a command wants after it, and what it gives: the formats that it takes, whether a last word is right, the answer.
COMMANDS = {
    b"decode": (any_format, None, lambda form, last, data: decode(form, data)),
    b"report": (any_format, None, lambda form, last, data: report(form, data)),
    b"rescue": (any_format, None, lambda form, last, data: decode(form, data, both_clocks=True)),
    b"map": (any_format, None, lambda form, last, data: drawn(form, data)),
    b"write": (any_format, None, lambda form, last, data: write(form, data)),
    b"trial": (any_format, lambda last: is_number(last, 10, 0, 2**32 - 1),
               lambda form, last, data: (0, trial_line(form, int(last)).encode(), b"")),
    b"to-g64": (commodore, None, lambda form, last, data: to_g64(form, data)),
    b"from-g64": (commodore, None, lambda form, last, data: from_g64(form, data)),
    b"decode-set": (any_format, lambda last: is_number(last, 2, 1, 16), lambda form, last, data: decode(form, data, int(last))),
    b"decode-folder": (any_format, lambda last: last != b"", lambda form, last, data: decode_folder(form, last, data)),
}


# What a program has whose `identify` tells disks by their numbers, too; and those whose headers name other heads than the drive's.
BY_NUMBERS = b"identify-numbers"
OF_HEADS = b"identify-heads"


def is_text(data):
    try:
        data.decode()
        return True
    except UnicodeDecodeError:
        return False


def dumps_asked(words):
    """What words ask of dumps, if they ask for it: whether they are drawn, how many steps the drive made for one, the format, and the dumps'
    names."""
    if words[:1] != [b"read"]:
        return None
    options, rest = [], words[1:]
    while rest and rest[0] in (b"--picture", b"--double-step") and rest[0] not in options:
        options.append(rest[0])
        rest = rest[1:]
    steps = 2 if b"--double-step" in options else 1
    form = FORMATS.get(rest[0].decode()) if rest else None
    names = rest[1:]
    if not form or not 1 <= len(names) <= plain_dumps.MOST_DUMPS or b"" in names or steps == 2 and not plain_dumps.reaches_all(form):
        return None
    return b"--picture" in options, steps, form, names


def disk_asked(words):
    """What words ask of any disk as it is found, if they ask for it: the steps that the drive made for one, and the dumps' names."""
    if words[:1] != [b"imd"]:
        return None
    steps = 2 if words[1:2] == [b"--double-step"] else 1
    names = words[steps:]
    return (steps, names) if 1 <= len(names) <= plain_dumps.MOST_DUMPS and b"" not in names else None


def sector_asked(words):
    """What words ask of a sector of dumps, if they ask for it: the steps that the drive made for one, the content that is asked for alone, the
    format, the number of the track, the sector and the dumps' names."""
    if words[:1] != [b"show"]:
        return None
    rest, steps, alone = words[1:], 1, None
    # The options may stand in either order, each once.
    while rest and (rest[0] == b"--double-step" and steps == 1 or rest[0] == b"--copy" and alone is None):
        if rest[0] == b"--double-step":
            rest, steps = rest[1:], 2
        elif len(rest) < 2 or rest[1] not in [b"%d" % number for number in range(plain_dumps.MOST_COPIES)]:
            return None
        else:
            rest, alone = rest[2:], int(rest[1])
    form = FORMATS.get(rest[0].decode()) if rest else None
    if not form or len(rest) < 3:
        return None
    names, k = rest[3:], track_named(form, rest[1])
    if k is None or not re.fullmatch(rb"[0-9]{1,3}", rest[2]) or int(rest[2]) not in form.sector_numbers(k):
        return None
    if not 1 <= len(names) <= plain_dumps.MOST_DUMPS or b"" in names or steps == 2 and not plain_dumps.reaches_all(form):
        return None
    return steps, alone, form, k, int(rest[2]), names


def track_named(form, word):
    """The number of the track that a word of a report names, or one without zeros in front."""
    matched = re.fullmatch(rb"([0-9]{1,2})\.([01])", word)
    track = matched and tuple(map(int, matched.groups()))
    return form.tracks.index(track) if track in form.tracks else None


# What is told of words that are none, by their first one; of any other it is the usage line. Where a format's word has to follow at once, another
# word in its place is told by itself.
OWN_USAGES = {
    b"read": b"usage: flux read [--picture] [--double-step] FORMAT DUMP...", b"identify": b"usage: flux identify DUMP",
    b"archive": b"usage: flux archive [--format FORMAT [--double-step]] FOLDER DUMP...", b"info": b"usage: flux info DUMP", b"imd": b"usage: flux imd [--double-step] DUMP...",
    b"show": b"usage: flux show [--double-step] [--copy N] FORMAT TRACK SECTOR DUMP...",
    b"rescue": b"usage: flux rescue FORMAT", b"map": b"usage: flux map FORMAT", b"split": b"usage: flux split FOLDER HEADS", b"unpack": b"usage: flux unpack DISK.scp FOLDER",
}
WRITE_FOLDER = b"write --folder"
FOLDER_USAGE = b"usage: flux write [--folder FOLDER] FORMAT"
ASK_FORMATS = b"read", b"rescue", b"map"

# What people call a disk or the file of its image, in letters of any case.
MEANINGS = {
    b"adf": b"try: amiga", b"st": b"try: ibm-720", b"d64": b"try: c1541", b"d71": b"try: c1571", b"d80": b"try: c8050", b"d81": b"try: c1581",
    b"d82": b"try: c8250", b"do": b"try: apple-dos33",
    b"dsk": b"try: apple-dos33", b"po": b"try: apple-prodos", b"ssd": b"try: acorn-dfs-80", b"pc98": b"try: mfm-hd360-77x2x8x1024",
    b"720k": b"try: ibm-720", b"1.44": b"try: ibm-1440", b"360k": b"try: ibm-360", b"mac": b"try: mac-800",
}


def names_format(name):
    """A format has this name, or it begins as words do that write a disk's numbers."""
    return name in FORMATS or name.startswith(("fm-", "mfm-"))


def differing(name, word):
    """How many letters only one of the two has; those of the word count twice."""
    both = sum((Counter(name) & Counter(word)).values())
    return 2 * (len(word) - both) + len(name) - both


def wrong_words(words, built, usage):
    first = words[0] if words else b""
    if words[:2] == WRITE_FOLDER.split() and WRITE_FOLDER in built:
        return FOLDER_USAGE
    if first not in OWN_USAGES or first not in built:
        return usage
    word = next((word for word in words[1:] if not word.startswith(b"-")), None)
    if first not in ASK_FORMATS or word is None or FORMATS.get(word.decode()):
        return OWN_USAGES[first]
    why = MEANINGS.get(word.lower()) or unfit(word.decode()).encode()
    if not why and not names_format(word.decode()):
        why = b"nearest: " + min(FORMATS, key=lambda name: differing(name.encode(), word)).encode()
    return b"no format " + word + b"; " + why if why else OWN_USAGES[first]


def files_asked(words, built):
    """What words ask for that make files, if they do, of what lies outside. A folder whose name is that of a track's file would be read as one."""
    if words[:1] == [b"unpack"] and b"unpack" in built and len(words) == 3 and all(words) and not plain_dumps.is_of_a_dump(words[2]):
        return lambda outside: unpack(words[1], words[2], outside)
    if b"archive" in built and (kept := plain_archive.asked(words)):
        return lambda outside: plain_archive.archive(kept, outside, BY_NUMBERS in built, OF_HEADS in built)
    if len(words) < 3 or not words[-2] or plain_dumps.is_of_a_dump(words[-2]):
        return None
    form = FORMATS.get(words[-1].decode())
    if words[:-2] == WRITE_FOLDER.split() and WRITE_FOLDER in built and form:
        return lambda outside: write_files(form, words[-2], outside)
    if words[:-2] == [b"split"] and b"split" in built and words[-1] in (b"1", b"2"):
        return lambda outside: split(words[-2], int(words[-1]), outside)
    return None


def outcome(words, data, built, usage):
    """The code and the bytes of standard output and standard error, of a program that has these commands and this usage line. Words that
    name files have the files by their paths in place of the input; those that make files have both, and what lies there at the end."""
    if not all(map(is_text, words)):
        return 9, b"", b""
    if words == [b"turns"]:
        return turns(data)
    if isinstance(data, Outside):
        makes = files_asked(words, built)
        return makes(data) if makes else (3, b"", wrong_words(words, built, usage) + b"\n", data.left())
    files = data if isinstance(data, dict) else {}
    if words[:1] == [b"read"] and b"read" in built and (asked := dumps_asked(words)):
        drawn, steps, form, names = asked
        return (plain_dumps.draw if drawn else plain_dumps.read)(Dumps(Shelf(files), names, steps), form)
    if words[:1] == [b"show"] and b"show" in built and (asked := sector_asked(words)):
        steps, alone, form, k, sector, names = asked
        return plain_dumps.show(Dumps(Shelf(files), names, steps), form, k, sector, alone)
    if words[:1] == [b"identify"] and b"identify" in built and len(words) == 2 and words[1]:
        return plain_identity.identify(Shelf(files), words[1], BY_NUMBERS in built, OF_HEADS in built)
    if words[:1] == [b"imd"] and b"imd" in built and (asked := disk_asked(words)):
        steps, names = asked
        return plain_imd.imd(Dumps(Shelf(files), names, steps))
    if words[:1] == [b"info"] and b"info" in built and len(words) == 2 and words[1]:
        return plain_info.info(Shelf(files), words[1])
    if words and words[0] in COMMANDS and words[0] in built:
        takes, last, answer = COMMANDS[words[0]]
        form = FORMATS.get(words[1].decode()) if len(words) > 1 else None
        if form and takes(form) and len(words) == (3 if last else 2) and (not last or last(words[2])):
            return answer(form, words[2] if last else None, data)
    return 3, b"", wrong_words(words, built, usage) + b"\n"
