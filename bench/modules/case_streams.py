"""Streams for compare.py, made of blocks and damaged.

Streams are lists of blocks that are spelled at the end, so that positions are right where no damage makes them wrong. Each function
adds the names of the damage that it does to `kinds`.
"""
import bisect
import struct

from plain_streams import LIMIT, SIZES, index_block

END = b"\r" * 4
FILLER = (index_block(0, 0, 0) + b"\x60\x60" + index_block(2, 5, 24) + b"\r\x03\x08\0" + struct.pack("<II", 2, 0) + END)
SHORTEST = index_block(0, 0, 0) + index_block(0, 1, 0) + END


def one_in(chance, number):
    return chance.randrange(number) == 0


# Blocks: (kind, ..), spelled by `spell`

def out_of_band(kind, content):
    return bytes([13, kind]) + struct.pack("<H", len(content)) + content


def content_of(block, position):
    """The bytes of a block, with so many in-stream bytes before it."""
    kind, *rest = block
    if kind in ("flux", "raw"):
        return rest[0]
    if kind == "info":
        return out_of_band(4, rest[0])
    if kind in ("StreamInfo", "StreamEnd"):
        off, number = rest
        return out_of_band(1 if kind == "StreamInfo" else 3, struct.pack("<II", (position + off) % 2**32, number))
    if kind == "index":
        return out_of_band(2, struct.pack("<III", *rest))
    return END


def spell(blocks):
    """The blocks' bytes, each by itself."""
    out, position = [], 0
    for block in blocks:
        out.append(content_of(block, position))
        position += len(out[-1]) if block[0] == "flux" else 0
    return out


def flux(chance, value):
    """A flux value, spelled in one of its ways."""
    over, rest = divmod(value, 65536)
    two = struct.pack(">H", rest)
    ways = [b"\x0c" + two] + [two] * (rest < 2048) + [two[1:]] * (14 <= rest < 256)
    return [("flux", b"\x0b")] * over + [("flux", ways[-1] if chance.random() < 0.8 else chance.choice(ways))]


def nop(chance):
    count = chance.randrange(3)
    return "flux", bytes([8 + count]) + chance.randbytes(count)


def info(chance):
    text = b"name=KryoFlux DiskSystem, sck=24027428.5714285, ick=3003428.5714285625"
    content = chance.choice([b"", text, chance.randbytes(chance.choice([1, 2, 3, 4, 7, 8, 9, 11, 12, 13, 40, 300])), b"\r" * chance.randrange(20)])
    return "info", content


def value_of(chance):
    return chance.choice([chance.randrange(256), chance.randrange(14), chance.randrange(65536), 0, 13, 14, 255, 256, 2047, 2048, 65535,
                          65536, chance.randrange(200000)])


def layout(blocks):
    """The positions and times at which the in-stream blocks begin, and those of their end."""
    begins, before, position, ticks = [], [], 0, 0
    for block in blocks:
        if block[0] == "flux":
            data = block[1]
            begins.append(position)
            before.append(ticks)
            position += len(data)
            first = data[0]
            ticks += 65536 if first == 11 else first if first > 13 else data[1] << 8 | data[2] if first == 12 else (
                first << 8 | data[1] if first < 8 else 0)
    return begins, before, position, ticks


def begin_of(shape, position):
    begins, before, total, ticks = shape
    return ticks if position == total else before[bisect.bisect_right(begins, position) - 1]


def few_blocks(chance, kinds):
    """A well-formed stream of few blocks."""
    blocks = []
    for _ in range(chance.choice([0, 1, 2, 3, 5, 8, 13, 30])):
        roll = chance.random()
        if roll < 0.6:
            blocks += flux(chance, value_of(chance))
        elif roll < 0.75:
            blocks.append(nop(chance))
            kinds.add("nop")
        elif roll < 0.85:
            blocks.append(info(chance))
            kinds.add("info")
        elif roll < 0.95:
            blocks.append(("StreamInfo", 0, chance.randrange(2**32)))
            kinds.add("stream info")
        else:
            blocks += [("flux", b"\x0b")] * chance.choice([1, 2, 7])
            kinds.add("overflows")
    if chance.random() < 0.8:
        blocks.append(("StreamEnd", 0, 0))
        if chance.random() < 0.1:
            blocks.append(chance.choice([("StreamEnd", 0, 0), ("StreamInfo", 0, 1), info(chance)]))
            kinds.add("blocks after a StreamEnd")
    return with_indexes(chance, blocks, kinds, chance.choice([2, 2, 2, 3, 4, 6])) + [("end",)]


def with_indexes(chance, blocks, kinds, count):
    """The blocks with so many Index blocks in rising order of their times, at places of their own; fewer where times fall together."""
    shape = layout(blocks)
    begins, _, total, _ = shape
    named = {}
    for number in range(count):
        position = chance.choice([0, total, chance.randrange(total + 1), chance.choice(begins) if begins else 0])
        sample = chance.choice([0, 0, 1, 5, chance.randrange(300), chance.randrange(100000), chance.randrange(2**32)])
        if number == count - 1 and len(named) < 2:
            sample += 1 + number
        named[begin_of(shape, position) + sample] = (position, sample)
    for position, sample in named.values():
        kinds.add("index at the end of all bytes" if position == total else "index at a block's begin" if position in begins
                  else "index inside a block")
        kinds.add("sample counter of zero" if sample == 0 else "sample counter")
    for place, time in zip(sorted((chance.randrange(len(blocks) + 1) for _ in named), reverse=True), sorted(named, reverse=True)):
        blocks = blocks[:place] + [("index", *named[time], chance.randrange(2**32))] + blocks[place:]
    return blocks


# Faults of streams

def place_in(chance, blocks):
    """The first place, the last one before the End, or one between."""
    which = chance.choice(["first", "middle", "last"])
    last = max(len(blocks) - 1, 0)
    return which, {"first": 0, "middle": chance.randrange(last + 1), "last": last}[which]


def faulty(chance, blocks, kinds, name=None):
    """The stream's bytes with a fault of this name, or of any, put into it."""
    name = name or chance.choice(FAULTS)
    which, place = place_in(chance, blocks)
    kinds.add(f"{name}, {which}")
    total = layout(blocks)[2]
    if name == "Truncated":
        pieces = spell(blocks)
        piece = pieces[place] if pieces else b""
        return b"".join(pieces[:place]) + piece[: chance.randrange(max(len(piece), 1))]
    extra = []
    if name == "UnknownType":
        kind = chance.choice([0, 5, 6, 7, 8, 12, 14, 15, 0x60, 255, chance.randrange(14, 256)])
        extra = [("raw", out_of_band(kind, chance.randbytes(chance.choice([0, 0, 8, 12]))))]
    if name == "BadSize":
        kind = chance.choice([1, 2, 3, 13])
        right = SIZES[kind]
        size = chance.choice([right - 1, right + 1, 0, 65535, right ^ 256, right * 256 % 65536 if kind != 13 else 13])
        extra = [("raw", bytes([13, kind]) + struct.pack("<H", size) + chance.randbytes(chance.choice([0, 8, 12])))]
    if name == "WrongPosition":
        wrong = chance.choice([1, -1, 65536, 2**31, chance.randrange(1, 2**32)])
        extra = [(chance.choice(["StreamInfo", "StreamEnd"]), wrong, chance.choice([0, 0, 1]))]
    if name == "DeviceFault":
        extra = [("StreamEnd", 0, chance.choice([1, 2, 3, 256, 65536, 2**32 - 1]))]
    if name == "DataAfterEnd":
        extra = [("StreamEnd", 0, 0)]
        if chance.random() < 0.8:
            blocks = blocks[:place] + [nop(chance) if chance.random() < 0.3 else flux(chance, value_of(chance))[0]] + blocks[place:]
    if name == "IndexPosition":
        extra = [("index", chance.choice([total + 1, total + 2, 2**32 - 1, total + 2**16]), 0, 0)]
    if name == "IndexOrder":
        return index_order(chance, blocks, place)
    if name == "NoTurn":
        kept = chance.choice([0, 0, 1])
        indexes = [number for number, block in enumerate(blocks) if block[0] == "index"]
        keep = set(chance.sample(indexes, min(kept, len(indexes))))
        blocks = [block for number, block in enumerate(blocks) if block[0] != "index" or number in keep]
        place = min(place, len(blocks))
    return b"".join(spell(blocks[:place] + extra + blocks[place:]))


def index_order(chance, blocks, place):
    """An Index like one that is there, or with a time just below or above it."""
    indexes = [block for block in blocks if block[0] == "index"] or [("index", 0, 0, 0)]
    _, position, sample, _ = chance.choice(indexes)
    sample = max(sample + chance.choice([0, 0, -1, 1]), 0) % 2**32
    return b"".join(spell(blocks[:place] + [("index", position, sample, 0)] + blocks[place:]))


FAULTS = ["Truncated", "UnknownType", "BadSize", "WrongPosition", "DeviceFault", "DataAfterEnd", "IndexPosition", "IndexOrder", "NoTurn"]


def too_long(chance, kinds):
    """A stream of about the limit's length, whose last blocks end at it or just beyond."""
    kinds.add("TooLong")
    if chance.random() < 0.15:
        kinds.add("TooLong by overflows")
        count = LIMIT - 37 + chance.randrange(-2, 3)
        return (index_block(0, 0, 0) + b"\x0b" * count + b"\x0e" + index_block(count + 1, 0, 0) + END) + chance.randbytes(3)
    start = index_block(0, 0, 0) + b"\x60\x60" + index_block(2, 5, 24)
    last = chance.choice([b"\x60", b"\x01\x02", b"\x0c\1\2", b"\x0b", b"\x08", b"\x09\0", b"\x0a\0\0", index_block(2, 9, 0),
                          out_of_band(4, b"abc"), out_of_band(1, struct.pack("<II", 2, 7)), out_of_band(5, b""), out_of_band(2, b"x" * 11)])
    wanted = LIMIT - len(start) - len(last) - 4 + chance.randrange(-4, 8) + chance.choice([0, 0, 4])
    body = out_of_band(4, b" " * 65535) * (wanted // 65539)
    rest = wanted - len(body)
    body += out_of_band(4, b" " * (rest - 4)) if rest >= 4 else b"\x08" * rest
    return start + body + last + END + chance.randbytes(chance.choice([0, 1, 20]))
