"""Disks read of their dumps, off the definitions: one verdict over the files of several dumps, and what they have of one sector.

Dumps lie on a shelf, which is a folder's files by their paths. A dump is a folder, one of its files, or an SCP file. A file that is not found,
or that fails, is passed over.
"""
import functools
import re

import plain_scp
from plain import Answer, as_controllers_read, controller_readings, turn_of, verdict_of
from plain_map import Picture
from plain_streams import Refused, file_stream, recovered

MOST_DUMPS = 8
MOST_TOLD = 64
MOST_COPIES = 16
MOST_DOUBLE_CYLINDERS = 42
MOST_CYLINDERS = 100
MOST_PATH_TOLD = 100
LONGEST_PATH = 4095
FILE_ENDING = len("00.0.raw")


class Failed(Exception):
    """The system answers with a fault as a file is opened or read."""


class Shelf:
    """Files by their paths, None in the place of a file for a folder that has nothing, or for one that may not be opened."""

    def __init__(self, files):
        self.files = {parts_of(path): content for path, content in files.items()}
        self.folders = {path[:count] for path in self.files for count in range(1, len(path))}

    def has(self, path):
        """Whether something is there, were it only a fault; not where a file stands in the place of a folder."""
        if len(path) > LONGEST_PATH:
            return True
        parts = parts_of(path)
        return not (path.endswith(b"/") and self.files.get(parts) is not None) and (parts in self.files or parts in self.folders)

    def read(self, path):
        """The bytes of a file; None where it is not found."""
        if not self.has(path):
            return None
        content = self.files.get(parts_of(path))
        if content is None or len(path) > LONGEST_PATH:
            raise Failed          # it is a folder, or the path is too long
        return content

    def has_track(self, dump, cylinder, head):
        """Whether a dump has a track: its file, or in an SCP file its entry. In one that can't be read each is there."""
        if not names_scp(dump):
            return self.has(path_of(dump, cylinder, head))
        try:
            content = self.read(dump)
            return content is not None and 2 * cylinder + head in plain_scp.tracks_in(content)
        except Failed:
            return True

    def track(self, dump, cylinder, head):
        """The bytes of a track, which begin with its stream; None where it is not there."""
        content = self.read(path_of(dump, cylinder, head))
        if content is None or not names_scp(dump):
            return content
        stream = plain_scp.track_stream(content, 2 * cylinder + head)
        if isinstance(stream, Refused):
            raise stream
        return stream

    def kind(self, dump):
        """What is there in the place of a dump that has none of the tracks that were looked for."""
        if not self.has(dump):
            return "is not there"
        if names_scp(dump):
            return "has files of other tracks alone"
        if names_file(dump):
            return "has files of other tracks alone"
        parts = parts_of(dump)
        if self.files.get(parts) is not None:
            return "is a file"
        names = [path[len(parts)] for path in self.files if path[: len(parts)] == parts != path]
        prefixes = [name[:-FILE_ENDING].decode() for name in names if names_file(name)]
        if "track" in prefixes:
            return "has files of other tracks alone"
        return f"has files {prefixes[0]}CC.H.raw: name one of them" if prefixes else "has no files trackCC.H.raw"


def parts_of(path):
    """The names in a path, of which those that name nothing are left out."""
    path = path if isinstance(path, bytes) else path.encode()
    return tuple(part for part in path.split(b"/") if part not in (b"", b"."))


def names_file(path):
    """It ends as the name of a track's file does, with something before."""
    return re.fullmatch(rb".+[0-9]{2}\.[01]\.raw", path, re.DOTALL) is not None


def names_scp(path):
    """It ends with `.scp`, in letters of any case, with something before."""
    return re.fullmatch(rb".+\.scp", path, re.DOTALL | re.IGNORECASE) is not None


def is_of_a_dump(path):
    """It ends as a dump's file does, so that no folder to make has this name."""
    return names_file(path) or names_scp(path)


def path_of(dump, cylinder, head):
    """The file of a track: in a folder, beside the file by which the dump is named, or an SCP file of all tracks."""
    if names_scp(dump):
        return dump
    ending = b"%02d.%d.raw" % (cylinder, head)
    return dump[:-FILE_ENDING] + ending if names_file(dump) else dump + b"/track" + ending


def all_tracks(there):
    """All tracks to the greatest cylinder and the greatest head of those that are there."""
    cylinders, heads = (1 + max(numbers) for numbers in zip(*there)) if there else (0, 0)
    return [(cylinder, head) for cylinder in range(cylinders) for head in range(heads)]


def no_files_line(dumps, number):
    """What is told of a dump that has none of the tracks: why an SCP file is refused; of a path of more than 100 bytes the last ones."""
    path = dumps.names[number]
    try:
        if names_scp(path) and dumps.shelf.has(path):
            plain_scp.File(dumps.shelf.read(path))
    except plain_scp.Refused as stop:
        return b"refused dump %d %s\n" % (number, stop.text().encode())
    told = path if len(path) <= MOST_PATH_TOLD else b".." + path[-MOST_PATH_TOLD:]
    return b"refused dump %d %s %s\n" % (number, told, dumps.shelf.kind(path).encode())


def reaches_all(form):
    """A drive that makes two steps for one reaches all tracks of the format."""
    return all(cylinder < MOST_DOUBLE_CYLINDERS for cylinder, _ in form.tracks)


def read_by_controllers(form, track, stream, clock, prefix, wanted=True):
    """The readings of a stream for a track by the second rule and one of the clocks, and all headers that name none of its sectors; or all
    headers, where none of its sectors is wanted."""
    cylinder, head = track
    cells = recovered(stream, form.nominal(cylinder), form.ring_cells(cylinder), clock)
    found, others = controller_readings(as_controllers_read(form).recording, cells, cylinder, head, wanted)
    place_text = lambda place: f"{prefix}{turn_of(stream, cells, place)} {place}"
    return ([(place_text(place), sector, content) for place, sector, content in found],
            [(place_text(place), name, whole) for place, name, whole in others])


def tracks_beside(form, steps):
    """The tracks of which there may be files beside those of the format's tracks, each with the track of nearest number, as which it is read."""
    cylinders, heads = (1 + max(numbers) for numbers in zip(*form.tracks))
    reached = [(cylinder, head) for cylinder in range(MOST_CYLINDERS // steps) for head in (0, 1)]
    return [(track, (min(track[0], cylinders - 1), min(track[1], heads - 1))) for track in reached if track not in form.tracks]


def others_told(others):
    """Of each of the first names, in the order in which they are met: how many headers have it, how many of these have data, and the
    first one's place; and whether data stand after a header that has none of these names."""
    first = list(dict.fromkeys(name for _, name, _ in others))[:MOST_TOLD]
    told = []
    for name in first:
        places, wholes = zip(*((place, whole) for place, other, whole in others if other == name))
        told.append((name, len(places), sum(wholes), places[0]))
    return told, any(whole for _, name, whole in others if name not in first)


class Dumps:
    """Dumps of a disk: their names, the steps that the drive made for one of the disk's, the clocks by which they are read."""

    def __init__(self, shelf, names, steps=1, clocks=(0, 1)):
        self.shelf, self.names, self.steps, self.clocks = shelf, names, steps, clocks

    def has(self, number, track):
        return self.shelf.has_track(self.names[number], self.steps * track[0], track[1])

    def first_empty(self, form):
        """The number of the first dump that has none of the format's tracks, or None."""
        return self.first_without(form.tracks)

    def first_without(self, tracks):
        """The number of the first dump that has none of the tracks, or None."""
        for number in range(len(self.names)):
            if not any(self.has(number, track) for track in tracks):
                return number
        return None

    def streams(self, track):
        """Of a track, what is said of each stream that is passed over, and all others, each with its dump's number."""
        passed, streams = [], []
        for number in range(len(self.names)):
            try:
                content = self.shelf.track(self.names[number], self.steps * track[0], track[1])
                if content is None:
                    passed.append(f"dump {number} missing")
                else:
                    streams.append((number, file_stream(content)))
            except Failed:
                passed.append(f"dump {number} failed")
            except Refused as stop:
                passed.append(f"dump {number} refused {stop.text()}")
        return passed, streams

    def gathered(self, form, track, near, wanted=True):
        """Of a track, as another is read: what is said of each stream that is passed over, all readings, and all others."""
        entries, others = [], []
        passed, streams = self.streams(track)
        for number, stream in streams:
            for clock in self.clocks:
                found, more = read_by_controllers(form, near, stream, clock, f"{number} {clock} ", wanted)
                entries += found
                others += more
        return passed, entries, others


def notes_of(dumps):
    """What is noted of dumps that are SCP files, and whether one failed as it was looked at."""
    lines, failed = [], False
    for number, name in enumerate(dumps.names):
        try:
            content = dumps.shelf.read(name) if names_scp(name) else None
            lines += plain_scp.notes_of(content, number) if content is not None else []
        except Failed:
            failed = True
            lines.append(f"dump {number} scp failed\n")
    return "".join(lines).encode(), failed


def noted(outcome):
    """The outcome of a command over dumps behind what is noted of them; where one failed as it was looked at, code 8."""
    @functools.wraps(outcome)
    def answer(dumps, *rest):
        lines, failed = notes_of(dumps)
        code, out, notes = outcome(dumps, *rest)
        return 8 if failed else code, out, lines + notes
    return answer


def failed_in(passed):
    """How many of the streams that are passed over failed."""
    return sum(why.endswith(" failed") for why in passed)


class DumpAnswer(Answer):
    """What dumps come to, track by track."""

    def __init__(self, form):
        super().__init__(form)
        self.sectors = []          # the sectors' lines alone
        self.unread = self.others = self.whole = self.failed = 0

    def dump_track(self, k, passed, entries, others):
        cylinder, head = self.form.tracks[k]
        self.lines += [f"{cylinder:02}.{head} {why}\n" for why in passed]
        before = len(self.lines)
        self.track(k, entries)
        self.sectors += self.lines[before:]
        self.count(f"{cylinder:02}.{head}", passed, others)

    def track_beside(self, track, passed, others):
        """A track of which no sector is wanted: a file that is missing is no line."""
        text, passed = "%02d.%d" % track, [why for why in passed if not why.endswith(" missing")]
        self.lines += [f"{text} {why}\n" for why in passed]
        self.count(text, passed, others)

    def count(self, track, passed, others):
        told, untold = others_told(others)
        # a name has a line where data stand after one of its headers; those without are counted
        with_data = [other for other in told if other[2] > 0]
        self.lines += [f"{track} other {' '.join(map(str, name))} {headers} {wholes} {first}\n" for name, headers, wholes, first in with_data]
        self.lines += [f"{track} others not told\n"] * untold
        traces = len(told) - len(with_data)
        self.lines += [f"{track} traces {traces}\n"] * (traces > 0)
        self.unread += len(passed)
        self.failed += failed_in(passed)
        self.others += len(told) + untold
        self.whole += len(with_data) + untold

    def end(self):
        self.lines.append(f"unread {self.unread} other {self.others} whole {self.whole}\n")
        code = super().end()
        return 8 if self.failed else 1 if self.whole else code

    def said(self):
        return b"".join(self.image), "".join(self.lines).encode()


def read_tracks(dumps, form, answer, always=True):
    """Reads all tracks of the format, and then those beside them: always, or where a sector is good."""
    for k, track in enumerate(form.tracks):
        answer.dump_track(k, *dumps.gathered(form, track, track))
    for track, near in tracks_beside(form, dumps.steps) if always or answer.number["good"] else []:
        passed, _, others = dumps.gathered(form, track, near, wanted=False)
        answer.track_beside(track, passed, others)


@noted
def read(dumps, form):
    """The outcome of `read`."""
    answer = DumpAnswer(form)
    empty = dumps.first_empty(form)
    if empty is not None:
        return 2, b"", no_files_line(dumps, empty)
    read_tracks(dumps, form, answer)
    code = answer.end()
    return code, *answer.said()


@noted
def draw(dumps, form):
    """The outcome of `read --picture`: the picture of the same verdicts, and no report."""
    answer, picture = DumpAnswer(form), Picture(form, "read")
    empty = dumps.first_empty(form)
    if empty is not None:
        return 2, b"", no_files_line(dumps, empty)
    read_tracks(dumps, form, answer)
    code = answer.end()
    counts, totals = answer.lines[-2:]
    fields = "".join(map(picture.field, answer.sectors))
    return code, (picture.top() + fields + picture.counts(counts) + picture.foot(answer.sectors, totals)).encode(), b""


# One sector

def copies_of(entries, sector):
    """The distinct contents of a sector's good readings, in the order in which they are first met: each with how many hold it and the first
    one's place."""
    copies = {}
    for place, named, content in entries:
        if named == sector and content is not None:
            readings, first = copies.get(content, (0, place))
            copies[content] = readings + 1, first
    return [(content, *told) for content, told in copies.items()][:MOST_COPIES]


def row_text(first, content, at):
    here = content[at : at + 16]
    mark = "  " if here == first[at : at + 16] else "> "
    return f"{mark}{at:04x} " + "".join(f" {byte:02x}" for byte in here) + "  " + "".join(chr(byte) if 32 <= byte < 127 else "." for byte in here) + "\n"


def show(dumps, form, k, sector, alone=None):
    """The outcome of `show` for a sector of track number k; with a number that content alone."""
    cylinder, head = form.tracks[k]
    empty = dumps.first_empty(form)
    if empty is not None:
        return 2, b"", no_files_line(dumps, empty)
    passed, entries, _ = dumps.gathered(form, form.tracks[k], form.tracks[k])
    copies, size = copies_of(entries, sector), form.recording.size
    verdict, _ = verdict_of([(place, content) for place, named, content in entries if named == sector])
    line = f"{cylinder:02}.{head} {sector:02} {verdict}\n"
    notes = "".join(f"{cylinder:02}.{head} {why}\n" for why in passed)
    code = 8 if failed_in(passed) else 0 if len(copies) == 1 else 1
    if alone is not None:
        return code, bytes(copies[alone][0]) if alone < len(copies) else b"", (notes + line).encode()
    offset = sum(map(form.track_bytes, range(k))) + size * form.slot(sector)
    out = f"image offset {offset} bytes {size}\n"
    for number, (content, readings, first) in enumerate(copies):
        out += f"copy {number} readings {readings} {first}\n" + "".join(row_text(copies[0][0], content, at) for at in range(0, size, 16))
    return code, (out + line).encode(), notes.encode()
