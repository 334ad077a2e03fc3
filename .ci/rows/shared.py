"""What the rows of whole runs are made of: streams, and what disks of them come to, put together line by line from the formats' numbers."""
import collections
import dataclasses
import functools
import re
import subprocess

import plain
from disks import FORMATS
from plain_streams import index_block, spelled

END = b"\r" * 4
# The shortest good stream: two transitions, with an Index block before and after them. No sector is in it.
SHORT = index_block(0, 0, 0) + b"\x60\x60" + index_block(2, 5, 24) + b"\r\x03\x08\0\x02\0\0\0\0\0\0\0" + END


@dataclasses.dataclass
class Row:
    """A run of the program: its words, what it reads on standard input, its exit code, the bytes that standard output and standard error have to have, and
    the files of the folder in which it runs, by their paths, and all that lies there at the end: None for folders, paths for links.

    What it reads, the files and the bound may be functions of the program. Where bytes are None, `also` alone looks at them: it says of both what is wrong, or nothing.
    No file may get more than so many bytes, and in a locked folder nobody may make anything."""
    name: str
    words: list
    given: object
    code: int
    output: object = b""
    errors: object = b""
    also: object = None
    files: object = ()
    left: object = None
    most: object = None
    locked: object = None

    def of(self, program):
        """The row with what is a function of the program."""
        made = {name: getattr(self, name) for name in ("given", "files", "left", "most")}
        return dataclasses.replace(self, **{name: part(program) for name, part in made.items() if callable(part)})


# Rings and streams

def counted(count):
    """Bytes of which each sector differs from the next one and from the same one of the next track."""
    return bytes(number % 251 for number in range(count))


def ring_of(word, cylinder, head, content):
    """The cells of a format's track whose sectors have these bytes in the order of their numbers."""
    form = FORMATS[word]
    return form.ring(cylinder, head, [content[at : at + form.size] for at in range(0, len(content), form.size)])


def with_cells(ring, place, before, cells):
    """The ring with other cells at a place, where these ones stand before."""
    before, cells = f"{before:016b}", f"{cells:016b}"
    if ring[place : place + 16] != before:
        raise ValueError(f"other cells at {place}")
    return ring[:place] + cells + ring[place + 16 :]


@functools.lru_cache(8)
def spelled_ring(ticks, ring):
    """The cells to the first one, the blocks of the others, and the cells behind the last."""
    first, *between, last = map(len, ring.split("1"))
    blocks = {count: spelled(ticks * (count + 1)) for count in {*between}}
    return first + 1, b"".join(map(blocks.__getitem__, between)), last


def revolutions(ticks, *rings):
    """A stream of one revolution over each of these rings, whose cells have so many ticks, with an Index block before each, and no StreamEnd."""
    out, position, distance = [], 0, 0
    for ring in rings:
        first, others, last = spelled_ring(ticks, ring)
        turn = spelled(ticks * (distance + first)) + others
        out += [index_block(position, 0, 0), turn]
        position, distance = position + len(turn), last
    return b"".join(out) + END


@functools.lru_cache(8)
def written(program, word, image):
    """The streams that the program writes of an image."""
    done = subprocess.run([program, "write", word], input=image, capture_output=True, check=True)
    if done.stderr:
        raise ValueError(f"write {word}: {done.stderr!r}")
    return done.stdout


def in_streams(data):
    """The streams that were written, each to the end of its End block."""
    return [part + END for part in data.split(END)[:-1]]


# What streams come to

class Disk:
    """The streams of a disk, track by track, and what `decode` is to give for them."""

    def __init__(self, word):
        self.form, self.streams, self.parts, self.lines, self.verdicts = plain.FORMATS[word], [], [], [], []

    def track(self, stream, verdicts, content=b""):
        """The next track has this stream, and its sectors these verdicts (see `verdicts_of`). Those that are good have their bytes of the content."""
        form, k = self.form, len(self.parts)
        cylinder, head = form.tracks[k]
        size, part = form.recording.size, bytearray(form.track_bytes(k))
        for number, (sector, verdict) in enumerate(zip(form.sector_numbers(k), verdicts_of(verdicts), strict=True)):
            self.lines.append(f"{cylinder:02}.{head} {sector:02} {verdict}\n")
            self.verdicts.append(verdict.split()[0])
            if verdict.startswith("good "):
                at = size * form.slot(sector)
                part[at : at + size] = content[size * number : size * number + size]
        self.streams.append(stream)
        self.parts.append(bytes(part))
        return self

    def without(self, count=None):
        """The next tracks, so many or all that are left, have no sector."""
        for k in range(len(self.parts), len(self.form.tracks) if count is None else len(self.parts) + count):
            self.track(SHORT, f"{len(self.form.sector_numbers(k))} x missing 0 0")
        return self

    def input(self):
        return b"".join(self.streams)

    def image(self):
        return b"".join(self.parts)

    def report(self):
        """All lines."""
        counts = collections.Counter(self.verdicts)
        totals = " ".join(f"{verdict} {counts[verdict]}" for verdict in ("good", "bad", "missing", "contradictory"))
        return "".join([*self.lines, f"total {len(self.verdicts)} {totals}\n"]).encode()

    def rows(self, name, code, given=None):
        """What `decode` and `report` give for the disk, or for other streams that come to the same."""
        given = self.input() if given is None else given
        yield Row(f"{name}, decode", ["decode", self.form.word], given, code, self.image(), self.report())
        yield Row(f"{name}, report", ["report", self.form.word], given, code, self.report())

    def refused(self, name, line, given, words=None):
        """`decode`, or the command of these words, gives what the tracks so far come to, and then this line."""
        return Row(name, words or ["decode", self.form.word], given, 2, self.image(), "".join([*self.lines, line]).encode())


def verdicts_of(text):
    """The verdicts that a text spells: `3 x good 3 0 1 160 +5988` are three, each of whose last numbers is by so many greater than the one before."""
    for part in text.split("; "):
        count, verdict, step = re.fullmatch(r"(?:(\d+) x )?(.*?)(?: \+(\d+))?", part).groups(default="1")
        head, _, place = verdict.rpartition(" ")
        for number in range(int(count)):
            yield f"{head} {int(place) + number * int(step)}" if "+" in part else verdict


def track_file(folder, cylinder, head):
    """The path of a track's file in the folder of a dump."""
    return f"{folder}/track{cylinder:02}.{head}.raw"


def files_of(folder, word, streams):
    """A file for each track of a disk."""
    return {track_file(folder, *track): stream for track, stream in zip(plain.FORMATS.get(word).tracks, streams, strict=True)}


def pc_verdicts():
    """The verdicts of each track of what is written of a good image of ibm-720.

    A stream has the ring's last quarter, three turns and the first quarter. The first transition lies one cell after its begin, so that a sector stands one cell
    before its place in what is written. Sector 3's last header stands whole in the closing quarter and its data do not."""
    return "2 x good 4 0 1 27527 +10464; good 3 1 1 48455; 4 x good 3 0 1 58919 +10464; 2 x good 4 0 0 775 +10464"
