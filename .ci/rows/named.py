"""Disks without a name that dumps tell by the numbers in their headers."""
import plain
from dumps import says
from shared import Row, counted, in_streams, track_file, written


def disk(word, step=1):
    """The files of a disk that is written, whose cylinders lie so many steps apart."""
    def files(program):
        form = plain.numbered(word)
        streams = in_streams(written(program, word, counted(form.image_bytes)))
        return {track_file("a", step * cylinder, head): stream for (cylinder, head), stream in zip(form.tracks, streams, strict=True)}
    return files


def over(lower, upper, *without):
    """The files of a disk that was written over another one, but for some tracks."""
    def files(program):
        taken = {track_file("a", *track) for track in without}
        return lower(program) | {path: stream for path, stream in upper(program).items() if path not in taken}
    return files


def with_heads(files, first, second):
    """The files of a disk whose two heads were captured as these ones."""
    def moved(program):
        lower, upper = ({path[:-6]: stream for path, stream in files(program).items() if path.endswith(f".{head}.raw")} for head in (first, second))
        return {f"{path}.0.raw": stream for path, stream in lower.items()} | {f"{path}.1.raw": stream for path, stream in upper.items()}
    return moved


def alone(files, *track):
    """The file of one track."""
    path = track_file("a", *track)
    return lambda program: {path: files(program)[path]}


def named(name, files, code, *lines):
    """What is said of a dump: these lines, behind what named formats read of it."""
    end = "".join(line + "\n" for line in lines)
    return Row(f"{name}, named", ["identify", "a"], b"", code, None, b"", says("", "", end, of_output=True), files)


def rows():
    for word, sectors in (("mfm-dd-4x2x5x1024@0", 40), ("mfm-hd360-3x2x8x1024", 48), ("fm-sd8-3x1x8x512", 24)):
        said = f"{word} good {sectors} of {sectors} other 0\nbest {word}\n".encode()
        yield Row(f"{word}, named", ["identify", "a"], b"", 0, said, files=disk(word))
    # What has the cell of two rates is told by the turn; formats that have a name read some of it.
    yield named("21 sectors", disk("mfm-hd-3x2x21x512"), 0, "ibm-1440 good 108 of 2880 other 18", "ibm-1200 good 90 of 2400 other 36",
                "mfm-hd-3x2x21x512 good 126 of 126 other 0", "best mfm-hd-3x2x21x512")
    yield named("two steps", disk("mfm-dd-4x1x10x512@0", 2), 0, "atari-st-800 good 9 of 1600 other 31",
                "--double-step mfm-dd-4x1x10x512@0 good 40 of 40 other 0", "best --double-step mfm-dd-4x1x10x512@0")
    # A disk that has a name, and more cylinders, covers the numbers.
    yield named("numbers of a named disk", disk("mfm-dd-4x2x9x512"), 1, "atari-st-800 good 72 of 1600 other 0", "best ibm-360")
    yield named("numbers of a disk of one head", disk("fm-sd-4x1x10x256@0"), 1, "acorn-dfs-80 good 40 of 800 other 0", "best acorn-dfs-40")
    yield named("a number on a quarter of the tracks", over(disk("mfm-dd-4x1x17x256"), disk("mfm-dd-4x1x16x256"), (3, 0)), 1,
                "mfm-dd-4x1x17x256 good 65 of 68 other 0", "best mfm-dd-4x1x17x256")
    yield named("a number on less than a quarter of the tracks", over(disk("mfm-dd-5x1x17x256"), disk("mfm-dd-5x1x16x256"), (4, 0)), 1,
                "mfm-dd-5x1x16x256 good 80 of 80 other 1", "best mfm-dd-5x1x16x256")
    yield named("two sizes", over(disk("mfm-dd-4x1x5x1024"), disk("mfm-dd-4x1x9x512@0"), (2, 0), (3, 0)), 1,
                "mfm-dd-2x1x9x512@0 good 18 of 18 other 10", "mfm-dd-4x1x5x1024 good 10 of 20 other 18", "best mfm-dd-4x1x5x1024")
    yield named("cylinder 90 alone", alone(disk("mfm-dd-91x1x5x1024@0"), 90, 0), 1, "mfm-dd-91x1x5x1024@0 good 5 of 455 other 0", "best mfm-dd-91x1x5x1024@0")
    # Headers name other heads: a disk that one-sided drives wrote on both sides, and one whose heads were exchanged. No disk of these is read.
    yield named("both heads named 0", with_heads(disk("mfm-dd-4x1x5x1024@0"), 0, 0), 1, "mfm-dd-4x1x5x1024@0 good 20 of 20 other 20",
                "mfm-dd-4x2x5x1024@0 names head 0", "best mfm-dd-4x1x5x1024@0")
    yield named("heads exchanged", with_heads(disk("fm-sd-4x2x10x256@0"), 1, 0), 1, "fm-sd-4x2x10x256@0 names head 1 0", "best none")
    yield named("both heads named 0, two steps", with_heads(disk("mfm-hd-3x1x11x1024", 2), 0, 0), 1, "--double-step mfm-hd-3x1x11x1024 good 33 of 33 other 33",
                "--double-step mfm-hd-3x2x11x1024 names head 0", "best --double-step mfm-hd-3x1x11x1024")
    # The 1581's headers name the other head on each: it has a name.
    yield named("heads of the 1581", with_heads(disk("mfm-dd-4x2x10x512"), 1, 0), 1, "c1581 good 80 of 1600 other 0", "best c1581")
