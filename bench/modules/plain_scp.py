"""SCP files (SuperCard Pro image file format), off the definitions: the tracks of a file, and the stream that each stands for.

All is read of the file's bytes at once. `Refused` is a fault of a file or of a track.
"""
import functools
import struct

import plain_streams
from plain_streams import LIMIT

MOST_ENTRIES = 4194304
TABLE = 168


class Refused(plain_streams.Refused):
    """Why a file has no tracks, or why a track is not read."""

    def __init__(self, *words):
        Exception.__init__(self, *words)

    def text(self):
        return " ".join(map(str, ("scp", *self.args)))


def rounded(units, resolution):
    """Units in ticks of 2628/4375 for 25 ns, to the nearest whole one."""
    whole, part = divmod(units * (resolution + 1) * 2628, 4375)
    return whole + (2 * part >= 4375)


class File:
    def __init__(self, data):
        if len(data) < 16:
            raise Refused("ShortHeader", len(data))
        if not data.startswith(b"SCP"):
            raise Refused("BadSignature")
        if data[8] & 0x40:
            raise Refused("NotFloppy")
        if data[9] not in (0, 16):
            raise Refused("BadWidth", data[9])
        self.data, self.turns, self.resolution = data, data[5], data[11]
        self.offsets = dict(self.table())

    def table(self):
        """The numbers and places of tracks, up to the first place that the table itself would reach."""
        end = len(self.data)
        for number in range(TABLE):
            at = 16 + 4 * number
            if at + 4 > end:
                return
            (offset,) = struct.unpack_from("<I", self.data, at)
            if offset:
                end = min(end, offset)
                yield number, offset

    def sums(self):
        """What is told of the sum of the bytes behind the header, where it is not the one that is wanted."""
        (wanted,) = struct.unpack_from("<I", self.data, 12)
        found = sum(self.data[16:]) & 0xFFFFFFFF
        return [] if self.data[8] & 0x10 or wanted in (0, found) else [f"scp sum {found:08X} wanted {wanted:08X}\n"]

    def track(self, number):
        """A track that has a place."""
        return Track(self.data[self.offsets[number] :], number, self.turns, self.resolution)

    def ends(self):
        """The tracks inside which the file ends behind whole revolutions, with how many these are."""
        for number, offset in self.offsets.items():
            try:
                _, short = revolutions(self.data[offset:], number, self.turns)
            except Refused:
                continue
            if short:
                yield number, short


def revolutions(data, number, turns):
    """The durations and entries of a track's revolutions, and the first that the file has not whole, if one was read before it."""
    if len(data) < 4 + 12 * turns:
        raise Refused("ShortTrack")
    if data[:3] != b"TRK":
        raise Refused("BadSignature")
    if data[3] != number:
        raise Refused("BadNumber", data[3])
    whole, read = [], 0
    for turn, (length, count, offset) in enumerate(struct.iter_unpack("<III", data[4 : 4 + 12 * turns])):
        if count == 0:
            break
        read += count
        if read > MOST_ENTRIES:
            raise Refused("TooLong")
        if len(data) < offset + 2 * count:
            if turn == 0:
                raise Refused("ShortData", turn)
            return whole, turn
        whole.append((length, data[offset : offset + 2 * count]))
    return whole, None


class Track:
    """The times and index times of a track, and the first revolution that the file has not whole, if one was read before it."""

    def __init__(self, data, number, turns, resolution):
        whole, self.short = revolutions(data, number, turns)
        self.times, self.indexes = [], [0]
        past = duration = 0
        for length, entries in whole:
            for (value,) in struct.iter_unpack(">H", entries):
                past += value or 65536
                if value:
                    self.times.append(rounded(past, resolution))
            duration += length
            self.indexes.append(rounded(duration, resolution))
        last = self.times[-1] if self.times else 0
        if max(last, self.indexes[-1]) >= 1 << 32:
            raise Refused("TooLong")
        self.bytes = self.stream()
        if len(self.bytes) > LIMIT:
            raise Refused("TooLong")

    def stream(self):
        """The stream that the track stands for."""
        out, position, before, left = bytearray(), 0, 0, list(self.indexes)
        for time in self.times:
            while left and left[0] < time:
                overflows, sample = divmod(left[0] - before, 65536)
                out += struct.pack("<BBHIII", 13, 2, 12, position + overflows, sample, left.pop(0) // 8)
            blocks = plain_streams.spelled(time - before)
            out += blocks
            position, before = position + len(blocks), time
        for moment in left:
            out += struct.pack("<BBHIII", 13, 2, 12, position, moment - before, moment // 8)
        return bytes(out + struct.pack("<BBHII", 13, 3, 8, position, 0) + b"\r" * 4)


def notes_of(data, dump):
    """What is noted of the file of a dump, by its number: nothing where it is refused."""
    try:
        file = File(data)
    except Refused:
        return []
    return [f"dump {dump} {told}" for told in file.sums()] + [f"{number // 2:02}.{number % 2} dump {dump} scp ShortData {turns}\n" for number, turns in file.ends()]


@functools.lru_cache(maxsize=None)
def tracks_in(data):
    """The numbers of the tracks that a file has: none where it is refused."""
    try:
        return frozenset(File(data).offsets)
    except Refused:
        return frozenset()


@functools.lru_cache(maxsize=None)
def track_stream(data, number):
    """The stream that a track stands for, or why it is refused; None where the file has not the track."""
    try:
        return File(data).track(number).bytes if number in tracks_in(data) else None
    except Refused as stop:
        return stop
