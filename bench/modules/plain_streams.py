"""Streams and the loop, read off the definitions: a stream's first fault, its times, the cells of times, and what is written of times.

A stream's blocks are one list, and cells are a text of 0 and 1.
"""
import bisect
import functools
import itertools
import operator
import struct

LIMIT = 4194304


# Streams

class Refused(Exception):
    """A stream's first fault: its block, from 0, its name and its numbers."""

    def __init__(self, block, name, *numbers):
        self.block, self.name, self.numbers = block, name, numbers

    def text(self):
        return " ".join(map(str, (f"block {self.block} {self.name}", *self.numbers)))


SIZES = {1: 8, 2: 12, 3: 8, 4: None, 13: 0x0D0D}
IN_STREAM = [2] * 8 + [1, 2, 3, 1, 3, None] + [1] * 242


def number_at(data, place):
    return int.from_bytes(data[place : place + 4], "little")


class Stream:
    """The stream that the input begins with at a place: `length` bytes, its times and its index times."""

    def __init__(self, data, start):
        self.times = []
        self.begins, self.before = [], []      # of each in-stream block, its position and the time at which it begins
        self.ticks = self.position = 0
        named = []                             # of each Index, its block, position and sample counter
        end = self.blocks(data, start, named)
        self.indexes = []
        for block, position, sample in named:
            if position > self.position:
                raise Refused(block, "IndexPosition")
            time = self.begin_of(position) + sample
            if self.indexes and time <= self.indexes[-1]:
                raise Refused(block, "IndexOrder")
            self.indexes.append(time)
        if len(named) < 2:
            raise Refused(end, "NoTurn")

    def begin_of(self, position):
        """The time at which the block begins that holds this byte of the in-stream bytes, or that of their end."""
        if position == self.position:
            return self.ticks
        return self.before[bisect.bisect_right(self.begins, position) - 1]

    def blocks(self, data, start, named):
        """Reads blocks up to the End, whose number is the answer."""
        place, left, ended = 0, len(data) - start, False

        def needs(count):
            if place + count > LIMIT:
                raise Refused(block, "TooLong")
            if left < place + count:
                raise Refused(block, "Truncated")

        for block in itertools.count():
            needs(1)
            first = data[start + place]
            if first != 0x0D:
                if ended:
                    raise Refused(block, "DataAfterEnd")
                length = IN_STREAM[first]
                if length > 1:
                    needs(length)
                self.in_stream(data, start + place, first, length)
                place += length
                continue
            needs(4)
            kind, size = data[start + place + 1], int.from_bytes(data[start + place + 2 : start + place + 4], "little")
            if kind not in SIZES:
                raise Refused(block, "UnknownType", kind)
            if SIZES[kind] not in (None, size):
                raise Refused(block, "BadSize", size)
            if kind == 13:
                self.length = place + 4
                return block
            needs(4 + size)
            said = number_at(data, start + place + 4)
            second = number_at(data, start + place + 8)
            if kind in (1, 3) and said != self.position:
                raise Refused(block, "WrongPosition", said, self.position)
            if kind == 3 and second != 0:
                raise Refused(block, "DeviceFault", second)
            if kind == 2:
                named.append((block, said, second))
            ended = ended or kind == 3
            place += 4 + size

    def in_stream(self, data, place, first, length):
        self.begins.append(self.position)
        self.before.append(self.ticks)
        self.position += length
        if first <= 7:
            self.ticks += first * 256 + data[place + 1]
        elif first == 12:
            self.ticks += data[place + 1] * 256 + data[place + 2]
        elif first >= 14:
            self.ticks += first
        elif first == 11:
            self.ticks += 65536
            return
        else:
            return
        self.times.append(self.ticks)


def padding_at(data, place):
    """The bytes between two streams that are passed over."""
    count = 0
    while count < 16 and data[place + count : place + count + 1] == b"\r" and data[place + count + 1 : place + count + 2] in (b"\r", b""):
        count += 1
    return count


# The loop

def band(value, ends):
    return min(max(value, ends[0]), ends[1])


def counts(times, ends, first):
    """The counts of the intervals. `total` is that of all counts up to each transition, `ends` are those of the period's band."""
    tau = [1024 * time for time in times]
    out, total, period, place, restart = [], [0], first, tau[0] if tau else 0, 0
    for i in range(1, len(tau)):
        n = max(1, (2 * (tau[i] - place) + period) // (2 * period))
        if n > 32:
            n, place, restart = 32, tau[i], i
        else:
            place = (place + n * period + tau[i]) // 2
        out.append(n)
        total.append(total[-1] + n)
        period = first if i - restart < 64 else band((tau[i] - tau[i - 64]) // (total[i] - total[i - 64]), ends)
    return out


RUNS = ["0" * (n - 1) + "1" for n in range(33)]


@functools.lru_cache(400)
def recovered(stream, nominal, ring_cells, clock=0):
    """The cells by clock 0, or by clock 1, whose band has the first period as both its ends."""
    ends = 3 * nominal // 4, 5 * nominal // 4
    first = band(1024 * (stream.indexes[1] - stream.indexes[0]) // ring_cells, ends)
    if not stream.times:
        return ""
    return "1" + "".join([RUNS[n] for n in counts(stream.times, (ends, (first, first))[clock], first)])


@functools.lru_cache(200)
def file_stream(content):
    """The stream at the begin of a file, which is read once, however often it is asked for."""
    return Stream(content, 0)


# Written streams

def spelled(value):
    over, rest = divmod(value, 65536)
    front = b"\x0b" * over
    if 0x0E <= rest <= 0xFF:
        return front + bytes([rest])
    return front + (struct.pack(">H", rest) if rest < 0x0800 else b"\x0c" + struct.pack(">H", rest))


SPELLED = [spelled(value) for value in range(4096)]


def index_block(position, sample, counter):
    return b"\r\x02\x0c\0" + struct.pack("<III", position, sample, counter)


def stream_of_times(times, indexes):
    out, length, done = [], 0, 0
    for index in indexes:
        number = bisect.bisect_right(times, index)          # the first transition whose time is above the index's
        part = spelled_between(times, done, number)
        length, done = length + len(part), number
        before = times[number - 1] if number else 0
        over, sample = divmod(index - before, 65536)
        out += [part, index_block(length + over, sample, index // 8 % 2**32)]
    part = spelled_between(times, done, len(times))
    length += len(part)
    return b"".join(out + [part]) + b"\r\x03\x08\0" + struct.pack("<II", length, 0) + b"\r" * 4


def spelled_between(times, start, end):
    """The intervals that end with the transitions of these numbers."""
    before = times[start - 1 : end - 1] if start else [0] + times[: max(end - 1, 0)]
    return b"".join([SPELLED[d] if d < 4096 else spelled(d) for d in map(operator.sub, times[start:end], before)])


def places_of_ones(cells):
    return [place for place, cell in enumerate(cells) if cell == "1"]
