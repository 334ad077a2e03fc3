"""Images that are written as files of a folder and read back as a dump, and what stands in the way of a file."""
from pathlib import Path

import plain
from plain_files import VERSION, info_block
from shared import SHORT, Row, counted, files_of, in_streams, track_file, written

BLOCK = info_block(f"name=flux, version={VERSION}, sck=24027428.5714285, ick=3003428.5714285\0".encode())
FORMATS = [*plain.FORMATS, "mfm-dd-82x2x10x512", "mfm-hd360-77x2x8x1024", "fm-sd-40x1x10x256@0"]
# A disk of four tracks and its image: only one of its sectors has data with many transitions, in the third track.
DISK, TRACKS = "fm-sd-2x2x10x256@0", [(0, 0), (0, 1), (1, 0), (1, 1)]
IMAGE = bytes(2 * 2560) + b"\xff" * 256 + bytes(2 * 2560 - 256)
WRITE = ["write", "--folder", "made", DISK]


def lies(files, folder="made"):
    """Those files, and their folder."""
    return {folder: None} | files


def files_in(folder, word, image):
    """The files of an image: behind a block that says what wrote it, each stream as `write` gives it."""
    return lambda program: lies(files_of(folder, word, [BLOCK + stream for stream in in_streams(written(program, word, image))]), folder)


def all_good(output, errors):
    return None if errors.endswith(b" bad 0 missing 0 contradictory 0\n") else f"{errors[-80:]!r}"


def each_format():
    for word in FORMATS:
        image = counted(plain.FORMATS.get(word).image_bytes)
        yield Row(f"{word} as files", ["write", "--folder", "made", word], image, 0, left=files_in("made", word, image))
        yield Row(f"{word} of its files", ["read", word, "made"], b"", 0, image, None, all_good, files=files_in("made", word, image))


def ways_of_naming():
    for folder in ("made/", "./made", "."):
        yield Row(f"files in {folder}", ["write", "--folder", folder, DISK], IMAGE, 0, left=lambda program, folder=folder: {
            path.removeprefix("made/" if folder == "." else ""): content for path, content in files_in("made", DISK, IMAGE)(program).items()
            if folder != "." or content is not None})
    others = {"made/notes": b"of the disk", "made/track02.0.raw": SHORT, "made/TRACK00.0.RAW": b""}
    yield Row("beside other files", WRITE, IMAGE, 0, files=others, left=lambda program: others | files_in("made", DISK, IMAGE)(program))
    for words in (["--folder", DISK], ["--folder", "made"], ["--folder", "", DISK], ["--folder", "made", DISK, "more"], ["--folder", "made", "fm-sd"],
                  ["--folder", "side 00.0.raw", DISK]):
        yield Row(f"write {words}", ["write", *words], IMAGE, 3, b"", b"usage: flux write [--folder FOLDER] FORMAT\n", left={})


def files_that_are_there():
    whole = files_in("made", DISK, IMAGE)
    yield Row("a second time", WRITE, bytes(10240), 2, b"", b"refused track 0 exists track00.0.raw\n", files=whole, left=whole)
    for track, there in enumerate((SHORT, b"", None, Path("nowhere"))):
        files = lies({track_file("made", *TRACKS[track]): there})
        yield Row(f"track {track} is there", WRITE, IMAGE, 2, b"", b"refused track %d exists track%02d.%d.raw\n" % (track, *TRACKS[track]), files=files, left=files)
    for size in (0, 10239, 10241):
        yield Row(f"an image of {size} bytes", WRITE, bytes(size), 2, b"", b"refused image %d wanted 10240\n" % size, left={})
    # The size is told first, whatever is there.
    yield Row("an image of no bytes a second time", WRITE, b"", 2, b"", b"refused image 0 wanted 10240\n", files=whole, left=whole)


def folders_that_are_not_made():
    for name, there in (("a file", b"a file"), ("a link that leads nowhere", Path("nowhere"))):
        yield Row(f"{name} in the folder's place", WRITE, IMAGE, 8, b"", b"failed folder\n", files={"made": there}, left={"made": there})
    for folder in ("nowhere/made", "long" * 64, "many/" * 900):
        yield Row(f"a folder {folder[:12]}", ["write", "--folder", folder, DISK], IMAGE, 8, b"", b"failed folder\n", left={})
    yield Row("no permission to make a folder", ["write", "--folder", "there/made", DISK], IMAGE, 8, b"", b"failed folder\n", files={"there": None},
              left={"there": None}, locked="there")
    yield Row("no permission to make a file", WRITE, IMAGE, 8, b"", b"failed track 0 track00.0.raw\n", files={"made": None}, left={"made": None}, locked="made")


def full_devices():
    """A write beyond a bound fails, as on a full disk."""
    whole = files_in("made", DISK, IMAGE)

    def cut(count, most):
        """The first files, and of the last one of them the first bytes."""
        return lambda program: {path: content and content[:most] for path, content in [*whole(program).items()][: count + 1]}

    for most in (0, 1, len(BLOCK) - 1, len(BLOCK), len(BLOCK) + 1, 4096, 10000):
        yield Row(f"no room behind {most} bytes", WRITE, IMAGE, 8, b"", b"failed track 0 track00.0.raw\n", left=cut(1, most), most=most)
    # The third file alone is larger than the first two.
    sizes = [len(BLOCK) + len(stream) for stream in steady_streams()]
    most = max(sizes[:2])
    yield Row("room for two files", WRITE, IMAGE, 8, b"", b"failed track 2 track01.0.raw\n", left=cut(3, most), most=most)


def steady_streams():
    """The streams of the image, by the plain reading."""
    form = plain.FORMATS.get(DISK)
    return [plain.stream_of(form.ring_of(IMAGE, k), form.nominal(cylinder)) for k, (cylinder, _) in enumerate(form.tracks)]


def rows():
    for part in (each_format, ways_of_naming, files_that_are_there, folders_that_are_not_made, full_devices):
        yield from part()
