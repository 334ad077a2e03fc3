"""Disks that are read of the files of several dumps, their pictures, single sectors of them, and which disk a dump is of."""
from shared import SHORT, Disk, Row, counted, in_streams, revolutions, ring_of, track_file, written


def says(begin, inside, end, of_output=False):
    """Whether what comes on standard error, or on standard output, begins so, has this in it, and ends so."""
    def wrong(output, errors):
        text = (output if of_output else errors).decode()
        if not text.startswith(begin) or inside not in text or not text.endswith(end):
            return f"{text[:200]!r} .. {text[-200:]!r}"
    return wrong


def split_disk(word, size, folders, step):
    """The files of a disk that is written: those of the even cylinders in the first of two folders, and of the odd ones in the second."""
    def files(program):
        tracks = Disk(word).form.tracks
        streams = in_streams(written(program, word, counted(size)))
        return {track_file(folders[cylinder % 2], step * cylinder, head): stream for (cylinder, head), stream in zip(tracks, streams, strict=True)}
    return files


def without_last_sectors(image):
    """The image of a disk of nine sectors a track, without the ninth of each."""
    return b"".join(image[at : at + 8 * 512] for at in range(0, len(image), 9 * 512))


def whole_disks():
    yield Row("two dumps that each lack every second track", ["read", "ibm-3740", "a", "b"], b"", 0, counted(256256), None,
              says("00.0 dump 1 missing\n00.0 01 good ", "\n01.0 dump 0 missing\n01.0 01 good ",
                   "\nunread 77 other 0 whole 0\ntotal 2002 good 2002 bad 0 missing 0 contradictory 0\n"), split_disk("ibm-3740", 256256, "ab", 1))
    yield Row("a disk of 40 cylinders from a drive of 80", ["read", "--double-step", "ibm-360", "a"], b"", 0, counted(368640), None,
              says("00.0 01 good ", "\n39.1 09 good ", "\nunread 0 other 0 whole 0\ntotal 720 good 720 bad 0 missing 0 contradictory 0\n"),
              split_disk("ibm-360", 368640, "aa", 2))
    # What a word that is too small for the disk leaves out is told.
    yield Row("a word that is too small", ["read", "ibm-320", "a"], b"", 1, without_last_sectors(counted(368640)), None,
              says("00.0 01 good ", "\n00.1 other 0 1 9 2 ", "\nunread 0 other 80 whole 80\ntotal 640 good 640 bad 0 missing 0 contradictory 0\n"),
              split_disk("ibm-360", 368640, "aa", 1))


# Dumps of shortest streams, in which no sector stands: the first has that of cylinder 0, the second one of cylinder 1, which is cut in its fifth block.
SHORT_FILES = {"a/track00.0.raw": SHORT, "b/track01.0.raw": SHORT[:40]}

# What is said of the first two tracks
NONE_READ = says("00.0 dump 1 missing\n00.0 01 missing 0 0\n", "\n01.0 dump 0 missing\n01.0 dump 1 refused block 4 Truncated\n01.0 01 missing 0 0\n",
                 "unread 153 other 0 whole 0\ntotal 2002 good 0 bad 0 missing 2002 contradictory 0\n")


def lacking_dumps():
    for first in ("a", "a/track00.0.raw"):
        yield Row(f"dumps that lack streams, by {first}", ["read", "ibm-3740", first, "b"], b"", 1, bytes(256256), None, NONE_READ, SHORT_FILES)
    # A dump that has none of the files, and one that has none of those that are wanted
    for words, said in ((["ibm-3740", "a", "c", "b"], "1 c is not there"), (["--double-step", "ibm-360", "b"], "0 b has files of other tracks alone"),
                        (["--picture", "ibm-3740", "a", "c"], "1 c is not there")):
        yield Row(" ".join(words), ["read", *words], b"", 2, b"", f"refused dump {said}\n".encode(), files=SHORT_FILES)
    # The two options in either order
    for words, total in (("--picture ibm-3740 a b", 2002), ("--picture --double-step ibm-360 a", 720), ("--double-step --picture ibm-360 a", 720)):
        end = f">total {total} good 0 bad 0 missing {total} contradictory 0\n</text>\n</svg>\n"
        yield Row(words, ["read", *words.split()], b"", 1, None, b"", says("<svg ", "", end, of_output=True), SHORT_FILES)


def first_tracks(dumps):
    """Dumps of the first track of ibm-3740: their folders, and the byte of all its sectors in each of three revolutions."""
    rings = {byte: ring_of("ibm-3740", 0, 0, bytes([byte]) * 3328) for byte in {*b"".join(map(bytes, dumps.values()))}}
    return {f"{folder}/track00.0.raw": revolutions(48, *(rings[byte] for byte in turns)) for folder, turns in dumps.items()}


TWO = {"a": [0xE5] * 3, "b": [0x5E] * 3}
SIX = {"a": [0, 1, 2], "b": [3, 4, 5], "c": [6, 7, 8], "d": [9, 10, 11], "e": [12, 13, 14], "f": [15, 16, 0]}


def contrary_dumps():
    files = first_tracks(TWO)
    yield Row("two dumps that differ", ["read", "ibm-3740", "a", "b"], b"", 1, bytes(256256), None,
              says("00.0 01 contradictory 12 0 0 0 ", "", "\nunread 152 other 0 whole 0\ntotal 2002 good 0 bad 0 missing 1976 contradictory 26\n"), files)
    # A field is a violet hourglass where two dumps differ, and its title is the line of the report, with the dump and the clock before the revolution.
    yield Row("a picture of two dumps that differ", ["read", "--picture", "ibm-3740", "a", "b"], b"", 1, None, b"",
              says("<svg ", 'd="M40 56l10 0l-10 10h10z"><title>00.0 01 contradictory 12 0 0 0 ', "</svg>\n", of_output=True), files)
    yield Row("the counts of a picture", ["read", "--picture", "ibm-3740", "a", "b"], b"", 1, None, b"",
              says("<svg ", ">unread 152 other 0 whole 0\n</text>\n", "</svg>\n", of_output=True), files)


# Words over the two dumps, the exit code, and how standard output begins, what else stands there, and how it ends
SHOWN = [
    # Two contents: the rows of the second one differ from those of the first.
    ("00.0 02 a b", 1, "image offset 128 bytes 128\ncopy 0 readings 6 0 0 1 ",
     "\n> 0070  5e 5e 5e 5e 5e 5e 5e 5e 5e 5e 5e 5e 5e 5e 5e 5e  ^^^^^^^^^^^^^^^^\n00.0 02 contradictory 12 0 0 0 1 ", "\n"),
    ("00.0 02 a b", 1, "image offset 128 bytes 128\n",
     "\n  0070  e5 e5 e5 e5 e5 e5 e5 e5 e5 e5 e5 e5 e5 e5 e5 e5  ................\ncopy 1 readings 6 1 0 1 ", "\n"),
    # One content
    ("00.0 26 b", 0, "image offset 3200 bytes 128\ncopy 0 readings 6 0 0 1 ", "\n00.0 26 good 6 0 0 0 1 ", "\n"),
]

# Words that ask for no sector of the disk
WRONG = ["--double-step --copy 0 --double-step ibm-360 00.0 01 a", "ibm-3740 77.0 01 a", "ibm-3740 000.0 01 a", "ibm-3740 00.0 27 a",
         "ibm-3740 00.0 0001 a", "ibm-3740 00.0 01", "--copy 16 ibm-3740 00.0 01 a"]
USAGE = b"usage: flux show [--double-step] [--copy N] FORMAT TRACK SECTOR DUMP...\n"


def sectors():
    files = first_tracks(TWO)
    for words, code, *texts in SHOWN:
        yield Row(f"show {words}", ["show", "ibm-3740", *words.split()], b"", code, None, b"", says(*texts, of_output=True), files)
    # One of the contents alone: its bytes, and the line on standard error
    for copy, content in (("1", b"\x5e" * 128), ("2", b"")):
        yield Row(f"show --copy {copy}", ["show", "--copy", copy, "ibm-3740", "00.0", "02", "a", "b"], b"", 1, content, None,
                  says("00.0 02 contradictory 12 0 0 0 1 ", "", "\n"), files)
    # No content, where no dump has the track
    yield Row("show a track that no dump has", ["show", "ibm-3740", "01.0", "01", "a", "b"], b"", 1,
              b"image offset 3328 bytes 128\n01.0 01 missing 0 0\n", b"01.0 dump 0 missing\n01.0 dump 1 missing\n", files=files)
    yield Row("show without a dump", ["show", "ibm-3740", "00.0", "02", "a", "c"], b"", 2, b"", b"refused dump 1 c is not there\n", files=files)
    # Seventeen contents: the last one is left out, and the first one, which comes again, has all its readings.
    six = first_tracks(SIX)
    for text in ("\ncopy 0 readings 4 0 0 1 1264\n", "\ncopy 15 readings 2 5 0 1 1264\n"):
        wrong = says("image offset 0 bytes 128\n", text, "\n", of_output=True)
        yield Row("show seventeen contents", ["show", "ibm-3740", "00.0", "01", *SIX], b"", 1, None, None,
                  lambda output, errors, wrong=wrong: "copy 16" if b"\ncopy 16 " in output else wrong(output, errors), six)
    for words in WRONG:
        yield Row(f"show {words}", ["show", *words.split()], b"", 3, b"", USAGE, files=files)


def named_disks():
    # A folder in the place of a file of each dump, of a track that all disks have and of one that none has
    for track in ("01.0", "99.1"):
        files = {"a/track00.0.raw": SHORT, f"a/track{track}.raw": None}
        yield Row(f"which disk a dump is of whose file {track} fails", ["identify", "a"], b"", 8, b"best none\n", b"", files=files)
    # The last cylinder whose own name a disk may have, and the one behind it
    yield Row("which disk cylinder 98 is of", ["identify", "a"], b"", 1, b"best none\n", b"", files={"a/track98.1.raw": SHORT})
    yield Row("which disk cylinder 99 is of", ["identify", "a"], b"", 2, b"", b"refused dump 0 a has files of other tracks alone\n",
              files={"a/track99.0.raw": SHORT})


def rows():
    for part in (whole_disks, lacking_dumps, contrary_dumps, sectors, named_disks):
        yield from part()
