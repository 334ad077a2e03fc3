"""Any IBM disk as it is found, off the definitions: of each track what most of its bytes are, as a file of ImageDisk has it, and all that this
leaves out.

The file's form is that of ImageDisk 1.18. Headers are read by the rates of all IBM disks, by both clocks, and their data as controllers read.
"""
import bisect
import dataclasses

from plain import RATES
from plain_dumps import MOST_DOUBLE_CYLINDERS, all_tracks, failed_in, no_files_line, noted
from plain_identity import RECORDINGS
from plain_recordings import places_of
from plain_streams import recovered

# the rates of each of the file's modes, in the order in which they are tried
MODES = {5: ["mfm-dd"], 3: ["mfm-hd", "mfm-hd360"], 2: ["fm-sd"], 0: ["fm-sd8"]}
MOST_CYLINDERS = 99
MOST_NAMES = 255
# the size codes of sectors that a record may have
CODES = range(4)
DELETED = 0xF8
OTHER_CYLINDERS, OTHER_HEADS = 0x80, 0x40
BEGIN = b"IMD 1.18: 01/01/1980 00:00:00\r\nflux\r\n\x1a"


# What stands on a track

@dataclasses.dataclass
class Header:
    """A whole header: its dump, its name, its time, the last index moment at or before it, whether a data sync stands between it and the
    next one, and its whole data, each with whether its mark is that of deleted ones."""
    dump: int
    name: tuple
    time: int
    index: "int | None"
    opens: bool
    data: list


def headers_of(recording, cells, stream, dump):
    for place in places_of(cells, recording.sync):
        name, end = recording.name(cells, place) or (None, None)
        if name is None:
            continue
        time = stream.times[cells.count("1", 0, place + 1) - 1]
        turn = bisect.bisect_right(stream.indexes, time)
        behind = recording.next_header(cells, end)
        data = recording.placed_data(cells, place, end, 128 << name[3]) if name[3] in CODES else []
        yield Header(dump, name, time, stream.indexes[turn - 1] if turn else None, any(q < behind for q in recording.data_places(cells, end)),
                     [(recording.mark(cells, q) == DELETED, content) for q, content in data])


class Found:
    """What the readings of a mode find: the names in the order in which they are met, each with its headers."""

    def __init__(self, mode, streams):
        self.mode, self.headers = mode, {}
        for dump, stream in streams:
            for rate in MODES[mode]:
                for clock in (0, 1):
                    for header in headers_of(RECORDINGS[rate.split("-")[0]], recovered(stream, *RATES[rate], clock), stream, dump):
                        self.headers.setdefault(header.name, []).append(header)
        self.names, self.more = list(self.headers)[:MOST_NAMES], len(self.headers) > MOST_NAMES

    def kind(self, name):
        headers = self.headers[name]
        return "whole" if any(header.data for header in headers) else "bad" if any(header.opens for header in headers) else "bare"

    def contents(self, name):
        """The distinct contents of a name, each with whether it is deleted."""
        return set(content for header in self.headers[name] for content in header.data)

    def weight(self, kind, code):
        """The bytes in the sectors of a size whose names are of a kind, in units of 128."""
        return sum(name[3] == code and self.kind(name) == kind for name in self.names) << code

    def place(self, name):
        """Where a sector of the name lies on the track, as the first dump that has it tells: behind the index, or else before the first one."""
        dump = self.headers[name][0].dump
        headers = [header for header in self.headers[name] if header.dump == dump]
        after = [header for header in headers if header.index is not None]
        return (0, after[0].time - after[0].index) if after else (1, headers[0].time)


# The record of a track

class Record:
    """A record of the file: the names of one mode and size, in the order of the track."""

    def __init__(self, found, code, cylinder, head):
        self.found, self.code, self.cylinder, self.head = found, code, cylinder, head
        self.names = sorted((name for name in found.names if name[3] == code and found.kind(name) != "bare"), key=found.place)
        self.maps = any(name[0] != cylinder for name in self.names)

    def sector(self, name):
        """A byte that says what is known of a sector, and its data; those of one byte alone are that byte."""
        contents = self.found.contents(name)
        if len(contents) != 1:
            return b"\0"
        (deleted, content), = contents
        alike = content == content[:1] * len(content)
        return bytes([1 + alike + 2 * deleted]) + (content[:1] if alike else content)

    def bytes(self):
        cylinders, heads, numbers, _ = map(bytes, zip(*self.names))
        heads_differ = any(head != self.head for head in heads)
        flags = OTHER_CYLINDERS * self.maps | OTHER_HEADS * heads_differ
        return (bytes([self.found.mode, self.cylinder, self.head | flags, len(numbers), self.code]) + numbers + cylinders * self.maps
                + heads * heads_differ + b"".join(map(self.sector, self.names)))


def record_of(finds, cylinder, head):
    """The record of a track: of the mode and the size that have most bytes in whole sectors, or, where none is whole, in bad ones."""
    kind = "whole" if any(found.kind(name) == "whole" for found in finds for name in found.names) else "bad"
    found, code = max(((found, code) for found in finds for code in CODES), key=lambda pair: pair[0].weight(kind, pair[1]))
    record = Record(found, code, cylinder, head)
    return record if record.names else None


# The file and the report

class Answer:
    """What dumps come to, track by track."""

    def __init__(self):
        self.file, self.lines, self.said = [BEGIN], [], []
        self.tracks = self.maps = 0
        self.number = dict.fromkeys(("sectors", "good", "bad", "contradictory", "deleted", "left", "refused", "missing", "failed"), 0)

    def passed(self, track, why):
        self.lines.append(f"{track} {why}\n")
        self.number[next(word for word in why.split() if word in self.number)] += 1

    def record(self, track, record):
        self.file.append(record.bytes())
        self.tracks += 1
        self.maps += record.maps
        contents = [record.found.contents(name) for name in record.names]
        good = [next(iter(found)) for found in contents if len(found) == 1]
        self.lines.append(f"{track} mode {record.found.mode} size {128 << record.code} sectors {len(contents)} good {len(good)}\n")
        for name, found in zip(record.names, contents):
            if len(found) != 1:
                why = "contradictory" if found else "bad"
                self.lines.append(f"{track} {why} {text_of(name)}\n")
                self.number[why] += 1
        self.number["sectors"] += len(contents)
        self.number["good"] += len(good)
        self.number["deleted"] += sum(deleted for deleted, _ in good)

    def left(self, track, found, names):
        self.lines += [f"{track} left {found.mode} {text_of(name)} {found.kind(name)}\n" for name in names]
        self.lines += [f"{track} left {found.mode} more\n"] * found.more
        self.number["left"] += len(names) + found.more

    def track(self, cylinder, head, streams):
        track = f"{cylinder:02}.{head}"
        finds = [Found(mode, streams) for mode in MODES]
        record = record_of(finds, cylinder, head)
        if record:
            self.record(track, record)
        for found in finds:
            self.left(track, found, [name for name in found.names if not (record and record.found is found and name in record.names)])
            self.said += [(cylinder, name[0]) for name in found.names]

    def half(self):
        """The headers of cylinders 2 C and 2 C + 1 say C, and some say so behind cylinder 0: the drive makes two steps for one."""
        return any(cylinder > 0 for cylinder, _ in self.said) and all(name == cylinder // 2 for cylinder, name in self.said)

    def end(self, asks):
        failed = self.number["failed"]
        numbers = [f"{word} {number}" for word, number in self.number.items() if word != "failed"]
        self.lines.append(f"total tracks {self.tracks} {' '.join(numbers)} maps {self.maps}" + f" failed {failed}" * (failed > 0) + "\n")
        self.lines += ["ask with --double-step\n"] * asks
        told = [self.number[word] for word in ("bad", "contradictory", "left", "refused", "missing")]
        code = 8 if failed else 1 if asks or self.tracks == 0 or any(told) else 0
        return code, b"".join(self.file), "".join(self.lines).encode()


def text_of(name):
    return " ".join(map(str, name))


@noted
def imd(dumps):
    """The outcome of `imd`, over all readings of the dumps."""
    reached = [(cylinder, head) for cylinder in range(MOST_CYLINDERS if dumps.steps == 1 else MOST_DOUBLE_CYLINDERS) for head in (0, 1)]
    empty = dumps.first_without(reached)
    if empty is not None:
        return 2, b"", no_files_line(dumps, empty)
    answer = Answer()
    there = [track for track in reached if any(dumps.has(number, track) for number in range(len(dumps.names)))]
    for cylinder, head in all_tracks(there):
        passed, streams = dumps.streams((cylinder, head))
        for why in passed:
            # one dump is not told by its number
            answer.passed(f"{cylinder:02}.{head}", why if len(dumps.names) > 1 else why.removeprefix("dump 0 "))
        answer.track(cylinder, head, streams)
    return answer.end(dumps.steps == 1 and answer.half())
