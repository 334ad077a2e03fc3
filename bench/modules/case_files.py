"""Cases for compare.py of files that are made: folders that are there, or not, or in part; and streams that are cut apart."""
from case_dumps import few
from case_streams import FILLER, SHORTEST, few_blocks, one_in, spell
from case_tracks import random_data
from plain import FORMATS, any_format, numbered
from plain_commands import WRITE_FOLDER
from plain_files import Outside, file_name

# disks of few tracks, so that one is written soon
SMALL = "mfm-dd-1x1x9x512", "mfm-dd-3x1x5x1024@0", "mfm-dd-2x2x16x256", "mfm-hd-1x2x18x512", "fm-sd-2x1x10x256@0", "fm-sd8-1x2x26x128"


def folder_name(chance, kinds):
    """A folder's name, perhaps with a slash behind it or folders before it."""
    roll = chance.randrange(8)
    if roll > 3:
        return b"made"
    kinds.add(("a slash behind a folder's name", "a folder in a folder", "a folder with a long name", "the folder itself")[roll])
    return (b"made/", b"./shelf/made", b"m\xc3\xbcde " * 25, b".")[roll]


def what_lies(chance, kinds, folder, tracks):
    """What is there before: nothing, or something of what a folder may have, or something else in its place."""
    roll = chance.randrange(14)
    if roll < 6:
        return {} if folder != b"./shelf/made" or one_in(chance, 3) else {b"shelf": None}
    if roll == 6 and folder != b".":
        kinds.add("a file in the place of a folder")
        return {folder.rstrip(b"/"): FILLER}
    if roll == 7 and folder == b"./shelf/made":
        kinds.add("a file in the place of the folder of a folder")
        return {b"shelf": b""}
    files = {folder: None} if folder != b"." else {}
    if roll in (8, 9):
        kinds.add("an empty folder")
        return files
    if roll == 10:
        kinds.add("files of other names")
        names = b"track00.2.raw", b"track0.0.raw", b"TRACK00.0.RAW", b"notes", b"side 00.0.raw", b"track00.0.raw~"
        return files | {folder + b"/" + name: SHORTEST for name in names}
    kinds.add("files that are there")
    there = chance.sample(tracks, min(len(tracks), chance.choice([1, 1, 2])))
    return files | {folder + b"/" + file_name(track): chance.choice([FILLER, b"", None]) for track in there}


def most_bytes(chance, kinds):
    """A bound of a file's bytes, in some."""
    if not one_in(chance, 4):
        return None
    kinds.add("files of bounded size")
    return chance.choice([0, 1, 4, 84, 85, 86, chance.randrange(120), chance.randrange(200000)])


def asked(chance, kinds, words, tracks):
    """The words with the folder before the last one, a few of which are wrong, and what lies there."""
    folder = folder_name(chance, kinds)
    files = what_lies(chance, kinds, folder, tracks)
    if one_in(chance, 12):
        kinds.add("words that make no files")
        wrong = [words[:-1], [*words[:-1], b"", words[-1]], [*words[:-1], b"made/side 00.0.raw", words[-1]], [*words, folder], [*words[:-1], folder],
                 [*words[:-1], folder, words[-1], b""], [*words[:-1], folder, words[-1] + b"0"], [*words[:-1], folder, b""]]
        return chance.choice(wrong), files
    return [*words[:-1], folder, words[-1]], files


def case_write_files(chance, kinds, built):
    """An image, of the right size or another one, as files."""
    form = numbered(chance.choice(SMALL)) if not one_in(chance, 20) else any_format(chance) if one_in(chance, 2) else FORMATS["c1541"]
    words, files = asked(chance, kinds, [*WRITE_FOLDER.split(), form.word.encode()], form.tracks)
    size = form.image_bytes
    if one_in(chance, 5):
        size = chance.choice([0, 1, size - 1, size + 1, size + 2, size // 2])
    kinds |= {f"format {form.word}", "image of the size" if size == form.image_bytes else "image of another size"}
    return words, Outside(random_data(chance, size), files, most_bytes(chance, kinds))


def case_split(chance, kinds, built):
    """Streams to be cut apart, with what may stand between them and behind them."""
    heads = chance.choice([1, 2])
    count = chance.choice([0, 1, 2, 3, 5, 20, 100 * heads - 1, 100 * heads, 100 * heads + 1])
    tracks = [(k // heads, k % heads) for k in range(min(count, 100 * heads))]
    words, files = asked(chance, kinds, [b"split", b"%d" % heads], tracks or [(99, 0)])
    wrong = chance.randrange(count) if count and one_in(chance, 3) else None
    parts = []
    for number in range(count):
        parts.append(few(chance, kinds) if number == wrong else chance.choice([FILLER, SHORTEST]) if count > 20
                     else b"".join(spell(few_blocks(chance, kinds))))
        parts.append(b"\r" * chance.choice([0, 0, 0, 0, 1, 2, 15, 16, 17]) if one_in(chance, 8) else b"")
    kinds |= {f"{count} streams", f"{heads} heads"}
    if one_in(chance, 6):
        kinds.add("bytes after the last stream")
        parts.append(chance.choice([b"\r" * chance.randrange(40), chance.randbytes(chance.randrange(600))]))
    return words, Outside(b"".join(parts), files, most_bytes(chance, kinds))
