"""The recordings, read off the definitions: where a header and a sector stand in a list of cells, a text of 0 and 1, and their rings."""
import functools
import itertools
import operator
import struct


def xor_of(numbers):
    return functools.reduce(operator.xor, numbers, 0)


# Cells and check values

def word(value, count=16):
    return f"{value:0{count}b}"


def places_of(cells, sync):
    """All places at which a word stands."""
    place = cells.find(sync)
    while place >= 0:
        yield place
        place = cells.find(sync, place + 1)


def unbroken(cells, start, end):
    return "0" * 8 not in cells[start:end]


def started_anew(cells, start, end):
    """The zeros that the clock leaves where it starts anew stand there."""
    return "0" * 31 in cells[start:end]


def data_bytes(cells, place, count):
    """The data cells of coded bytes; None where they do not lie in the list."""
    if len(cells) < place + 16 * count:
        return None
    bits = cells[place + 1 : place + 16 * count : 2]
    return int(bits, 2).to_bytes(count, "big") if count else b""


def crc_by_bits(start, data):
    """Polynomial 1021, high bit first."""
    value = start
    for byte in data:
        value ^= byte << 8
        for _ in range(8):
            value = (value << 1 ^ 0x1021 if value & 0x8000 else value << 1) & 0xFFFF
    return value


CRC_OF_HIGH = [crc_by_bits(high << 8, b"\0") for high in range(256)]


def crc(data, start=0xFFFF):
    value = start
    for byte in data:
        value = (value << 8 & 0xFFFF) ^ CRC_OF_HIGH[value >> 8 ^ byte]
    return value


def checked(before, content):
    return content + struct.pack(">H", crc(before + content))


REACH = 1024


def in_reach(cells, end, words):
    """The places less than 1024 cells after a header's end at which one of the words stands, in their order."""
    places = {cell for sync in words for cell in places_of(cells[end : end + REACH - 1 + len(sync)], sync)}
    return [end + cell for cell in sorted(places)]


class Recording:
    """What all recordings have in common. Of each is said: `name(cells, place)`, the name of the header that stands at a place and its
    end; `own(name, cylinder, head)`, the sector of a track that has the name; `data_syncs`, the words with which data may begin;
    `content(cells, place, q, size)`, the data that begin at q and have so many bytes, of the header at the place, and their end. Each
    gives None where there is nothing.
    """

    def header(self, cells, place, cylinder, head):
        """The sector whose header stands at the place, and the header's end."""
        named = self.name(cells, place)
        sector = None if named is None else self.own(named[0], cylinder, head)
        return None if sector is None else (sector, named[1])

    def data_places(self, cells, end):
        return in_reach(cells, end, self.data_syncs)

    def sector(self, cells, place, end):
        """The data of the header at the place: those at the first sync, where all is unbroken."""
        q = next(iter(self.data_places(cells, end)), None)
        held = None if q is None else self.content(cells, place, q, self.size)
        return held[0] if held and unbroken(cells, place, held[1]) else None

    def size_of(self, name):
        """How many bytes the data of a header with this name have."""
        return self.size

    def next_header(self, cells, end):
        """The place of the first header within reach, or the end of the cells."""
        return next((other for other in in_reach(cells, end, [self.sync]) if self.name(cells, other)), len(cells))

    def placed_data(self, cells, place, end, size):
        """All data of the header at the place by the second rule, as controllers read: at each sync up to the next header, with its place."""
        nearest = self.next_header(cells, end)
        for q in self.data_places(cells, end):
            held = self.content(cells, place, q, size) if q <= nearest else None
            if held and unbroken(cells, q, held[1]) and not started_anew(cells, place, held[1]):
                yield q, held[0]

    def data(self, cells, place, end, size):
        return (content for _, content in self.placed_data(cells, place, end, size))


def ibm_size(name):
    """128 to 8192 bytes. After a header of a greater code no data are looked for."""
    return 128 << name[3] if name[3] < 7 else None


class IbmFm(Recording):
    sync = word(0xF57E)
    MARKS = {word(0xF57E): 0xFE, word(0xF56F): 0xFB, word(0xF56A): 0xF8, word(0xF77A): 0xFC}
    data_syncs = list(MARKS)

    def __init__(self, first, count, size, code, gap, end_gap, index_mark):
        self.first, self.count, self.size, self.code = first, count, size, code
        self.gap, self.end_gap, self.index_mark = gap, end_gap, index_mark

    def sectors(self, cylinder):
        return self.count

    def name(self, cells, place):
        field = data_bytes(cells, place + 16, 6)
        if field is None or not unbroken(cells, place, place + 112) or field != checked(b"\xfe", field[:4]):
            return None
        return tuple(field[:4]), place + 112

    def own(self, name, cylinder, head):
        return name[2] if name[2] in range(self.first, self.first + self.count) and name == (cylinder, head, name[2], self.code) else None

    def size_of(self, name):
        return ibm_size(name)

    def mark(self, cells, q):
        """The mark of the data that begin at a place."""
        return self.MARKS[cells[q : q + 16]]

    def content(self, cells, place, q, size):
        mark, field = self.mark(cells, q), data_bytes(cells, q + 16, size + 2)
        if mark not in (0xFB, 0xF8) or field is None or field != checked(bytes([mark]), field[:size]):
            return None
        return field[:size], q + 16 * (size + 3)

    def ring(self, cylinder, head, sectors, ids=None):
        out = fm(b"\xff" * 40 + bytes(6)) + word(0xF77A) + fm(b"\xff" * 26) if self.index_mark else fm(b"\xff" * 16)
        for number, data in enumerate(sectors, self.first):
            header = checked(b"\xfe", bytes([cylinder, head, number, self.code]))
            out += fm(bytes(6)) + word(0xF57E) + fm(header) + fm(b"\xff" * 11 + bytes(6))
            out += word(0xF56F) + fm(checked(b"\xfb", data)) + fm(b"\xff" * self.gap)
        return out + fm(b"\xff" * self.end_gap)


def fm(data):
    return "".join("1" + bit for byte in data for bit in word(byte, 8))


MFM_PAIRS = {("0", "0"): "10", ("0", "1"): "01", ("1", "0"): "00", ("1", "1"): "01"}


@functools.cache
def mfm_byte(before, byte):
    bits = before + word(byte, 8)
    return "".join(MFM_PAIRS[pair] for pair in zip(bits, bits[1:]))


class MfmList:
    """Cells that grow by MFM bytes and by marks. The bit before the first is 0."""

    def __init__(self):
        self.parts, self.before = [], "0"

    def bytes(self, data):
        for byte in data:
            self.parts.append(mfm_byte(self.before, byte))
            self.before = "01"[byte & 1]
        return self

    def mark(self, value, count):
        self.parts += [word(value)] * count
        self.before = "01"[value & 1]
        return self

    def cells(self):
        return "".join(self.parts)


class IbmMfm(Recording):
    sync, data_syncs = word(0x4489) * 3, [word(0x4489) * 3]

    def __init__(self, count, gap, end_gap, first=1, size=512, code=2, tight=False, exchanged=False):
        self.count, self.gap, self.end_gap, self.first = count, gap, end_gap, first
        self.size, self.code, self.tight, self.exchanged = size, code, tight, exchanged

    def sectors(self, cylinder):
        return self.count

    def name(self, cells, place):
        field = data_bytes(cells, place + 48, 7)
        if field is None or not unbroken(cells, place, place + 160) or field[0] != 0xFE or field != checked(b"\xa1" * 3, field[:5]):
            return None
        return tuple(field[1:5]), place + 160

    def own(self, name, cylinder, head):
        return name[2] if name[2] in range(self.first, self.first + self.count) and name == (cylinder, head ^ self.exchanged, name[2], self.code) else None

    def size_of(self, name):
        return ibm_size(name)

    def mark(self, cells, q):
        """The mark of the data that begin at a place."""
        return data_bytes(cells, q + 48, 1)[0]

    def content(self, cells, place, q, size):
        field = data_bytes(cells, q + 48, size + 3)
        if field is None or field[0] not in (0xFB, 0xF8) or field != checked(b"\xa1" * 3, field[: size + 1]):
            return None
        return field[1 : size + 1], q + 48 + 16 * (size + 3)

    def ring(self, cylinder, head, sectors, ids=None):
        out = MfmList()
        if self.tight:
            out.bytes(b"\x4e" * 10)
        else:
            out.bytes(b"\x4e" * 80 + bytes(12)).mark(0x5224, 3).bytes(b"\xfc" + b"\x4e" * 50)
        for number, data in enumerate(sectors, self.first):
            header = checked(b"\xa1" * 3, bytes([0xFE, cylinder, head ^ self.exchanged, number, self.code]))
            out.bytes(bytes(3 if self.tight else 12)).mark(0x4489, 3).bytes(header + b"\x4e" * 22)
            out.bytes(bytes(12)).mark(0x4489, 3).bytes(checked(b"\xa1" * 3, b"\xfb" + data) + b"\x4e" * self.gap)
        return out.bytes(b"\x4e" * self.end_gap).cells()


MASK = 0x55555555


def longs(cells, place, count):
    return [int(cells[p : p + 32], 2) for p in range(place, place + 32 * count, 32)]


def long_of(odd, even):
    return (odd & MASK) << 1 | even & MASK


def halves(values):
    return [x >> 1 & MASK for x in values] + [x & MASK for x in values]


class AmigaMfm(Recording):
    first, size, sync = 0, 512, word(0x4489) * 2

    def __init__(self, count, gap):
        self.count, self.gap = count, gap

    def sectors(self, cylinder):
        return self.count

    def name(self, cells, place):
        if len(cells) < place + 480 or not unbroken(cells, place, place + 480):
            return None
        raw = longs(cells, place + 32, 12)
        kind, track, sector, _ = long_of(*raw[:2]).to_bytes(4, "big")
        return ((track, sector), place + 480) if kind == 0xFF and long_of(*raw[10:]) == xor_of(raw[:10]) & MASK else None

    def own(self, name, cylinder, head):
        return name[1] if name[0] == 2 * cylinder + head and name[1] < self.count else None

    def data_places(self, cells, end):
        return [end]

    def content(self, cells, place, q, size):
        if len(cells) < q + 8192:
            return None
        raw = longs(cells, q, 256)
        if long_of(*longs(cells, place + 416, 2)) != xor_of(raw) & MASK:
            return None
        return struct.pack(">128I", *map(long_of, raw[:128], raw[128:])), q + 8192

    def ring(self, cylinder, head, sectors, ids=None):
        out = MfmList()
        for number, data in enumerate(sectors):
            self.frame(out, bytes([0xFF, 2 * cylinder + head, number, self.count - number]), bytes(16), data)
        return out.bytes(bytes(self.gap)).cells()

    def frame(self, out, info, label, data, header_check=0, data_check=0):
        """Appends a sector; the checks are off by what is given."""
        header = halves(struct.unpack(">I", info)) + halves(struct.unpack(">4I", label))
        content = halves(struct.unpack(">128I", data))
        out.bytes(bytes(2)).mark(0x4489, 2)
        for half in header + halves([xor_of(header) ^ header_check]) + halves([xor_of(content) ^ data_check]) + content:
            out.bytes(int(word(half, 32)[1::2], 2).to_bytes(2, "big"))


GCR_CODES = "01010 01011 10010 10011 01110 01111 10110 10111 01001 11001 11010 11011 01101 11101 11110 10101".split()
GCR_NIBBLES = {code: nibble for nibble, code in enumerate(GCR_CODES)}


def gcr(data):
    return "".join(GCR_CODES[byte >> 4] + GCR_CODES[byte & 15] for byte in data)


def ungcr(cells, place, count):
    """The bytes of codes; None where a code is none, or they do not lie in the list."""
    if len(cells) < place + 10 * count:
        return None
    nibbles = [GCR_NIBBLES.get(cells[p : p + 5]) for p in range(place, place + 10 * count, 5)]
    if None in nibbles:
        return None
    return bytes(high << 4 | low for high, low in zip(nibbles[::2], nibbles[1::2]))


def raw(data):
    return "".join(word(byte, 8) for byte in data)


class CommodoreDrive:
    """The cylinders at which zones end, the sectors and the gaps of each, the tracks of a side, and where the id stands."""

    def __init__(self, ends, counts, gaps, side, id_track, id_byte):
        self.ends, self.counts, self.gaps, self.side, self.id_track, self.id_byte = ends, counts, gaps, side, id_track, id_byte

    def zone(self, cylinder):
        return sum(cylinder >= end for end in self.ends)


DRIVE_1541 = CommodoreDrive((17, 24, 30), (21, 19, 18, 17), (12, 21, 16, 13), 35, 18, 0xA2)
DRIVE_8050 = CommodoreDrive((39, 53, 64), (29, 27, 25, 23), (43, 42, 46, 53), 77, 39, 0x18)


class CommodoreGcr(Recording):
    first, size, sync, data_syncs = 0, 256, "1" * 10 + "0", ["1" * 10 + "0"]

    def __init__(self, drive=DRIVE_1541):
        self.drive = drive

    def sectors(self, cylinder):
        return self.drive.counts[self.drive.zone(cylinder)]

    def number(self, cylinder, head):
        return cylinder + 1 + self.drive.side * head

    def name(self, cells, place):
        field = ungcr(cells, place + 10, 6)
        if field is None or field[0] != 8 or field[1] != xor_of(field[2:]) or not unbroken(cells, place, place + 70):
            return None
        return (field[3], field[2]), place + 70

    def own(self, name, cylinder, head):
        return name[1] if name[0] == self.number(cylinder, head) and name[1] < self.sectors(cylinder) else None

    def content(self, cells, place, q, size):
        field = ungcr(cells, q + 10, 258)
        if field is None or field[0] != 7 or xor_of(field[1:257]) != field[257]:
            return None
        return field[1:257], q + 2590

    def ring(self, cylinder, head, sectors, ids=(0, 0)):
        out = ""
        for number, data in enumerate(sectors):
            names = bytes([number, self.number(cylinder, head), ids[1], ids[0]])
            out += "1" * 40 + gcr(bytes([8, xor_of(names)]) + names + b"\x0f\x0f") + raw(b"\x55" * 9)
            out += "1" * 40 + gcr(b"\x07" + data + bytes([xor_of(data), 0, 0])) + raw(b"\x55" * self.drive.gaps[self.drive.zone(cylinder)])
        return out


NIBBLES = bytes.fromhex("""
    96 97 9A 9B 9D 9E 9F A6 A7 AB AC AD AE AF B2 B3 B4 B5 B6 B7 B9 BA BB BC BD BE BF CB CD CE CF D3
    D6 D7 D9 DA DB DC DD DE DF E5 E6 E7 E9 EA EB EC ED EE EF F2 F3 F4 F5 F6 F7 F9 FA FB FC FD FE FF""")
NIBBLE_VALUES = {nibble: value for value, nibble in enumerate(NIBBLES)}
SWAPPED = [0, 2, 1, 3]


def raw_bytes(cells, place, count):
    if len(cells) < place + 8 * count:
        return None
    return int(cells[place : place + 8 * count], 2).to_bytes(count, "big")


def four_and_four(data):
    return b"".join(bytes([byte >> 1 | 0xAA, byte | 0xAA]) for byte in data)


def six_and_two(data, unused=(0, 0)):
    """The 343 nibbles; `unused` are the two pairs of bits without a byte."""
    wide = data + bytes(2)
    values = [SWAPPED[wide[k] & 3] | SWAPPED[wide[k + 86] & 3] << 2 | SWAPPED[wide[k + 172] & 3] << 4 for k in range(86)]
    values[84] |= unused[0] << 4
    values[85] |= unused[1] << 4
    values += [byte >> 2 for byte in data]
    return bytes(NIBBLES[value ^ before] for value, before in zip(values + [0], [0] + values))


class AppleGcr(Recording):
    first, size, sync, data_syncs = 0, 256, word(0xD5AA96, 24), [word(0xD5AA)]

    def __init__(self, waits=False):
        # as the controller reads, which waits for the one with which a byte begins
        self.waits = waits

    def bytes_from(self, cells, place, count):
        """So many bytes that are read from a place on, and the place after them; None where they do not lie in the list."""
        field = bytearray()
        for _ in range(count):
            if self.waits:
                place = cells.find("1", place)
            byte = None if place < 0 else raw_bytes(cells, place, 1)
            if byte is None:
                return None, None
            field += byte
            place += 8
        return bytes(field), place

    def sectors(self, cylinder):
        return 16

    def name(self, cells, place):
        field, end = self.bytes_from(cells, place + 24, 8)
        if field is None or not unbroken(cells, place, end) or any(byte & 0xAA != 0xAA for byte in field):
            return None
        volume, track, sector, check = ((m << 1 | 1) & n & 0xFF for m, n in zip(field[::2], field[1::2]))
        return ((track, sector), end) if check == volume ^ track ^ sector else None

    def own(self, name, cylinder, head):
        return name[1] if name[0] == cylinder and name[1] < 16 else None

    def content(self, cells, place, q, size):
        field, end = self.bytes_from(cells, q + 16, 344)
        if field is None or field[0] != 0xAD:
            return None
        coded = [NIBBLE_VALUES.get(byte) for byte in field[1:]]
        if None in coded:
            return None
        values = list(itertools.accumulate(coded, operator.xor))
        if values[342] != 0:
            return None
        return bytes(values[86 + j] << 2 | SWAPPED[values[j % 86] >> 2 * (j // 86) & 3] for j in range(256)), end

    def ring(self, cylinder, head, sectors, ids=None):
        sync = "1111111100"
        out = sync * 33
        for number, data in enumerate(sectors):
            names = bytes([254, cylinder, number])
            out += raw(b"\xd5\xaa\x96" + four_and_four(names + bytes([xor_of(names)])) + b"\xde\xaa\xeb") + sync * 6
            out += raw(b"\xd5\xaa\xad" + six_and_two(data) + b"\xde\xaa\xeb") + sync * 14
        return out


def turned(byte):
    return (byte << 1 | byte >> 7) & 0xFF


def macintosh_values(plain, spare=0):
    """The 699 values of 524 bytes, and their four check values; `spare` are the two bits without a byte."""
    a = b = c = 0
    out = []
    for place in range(0, len(plain), 3):
        carry, a, stored = a >> 7, turned(a), []
        group = plain[place : place + 3]
        for number, byte in enumerate(group):
            if number == 0:
                stored.append(byte ^ a)
                carry, c = divmod(c + byte + carry, 256)
            elif number == 1:
                stored.append(byte ^ c)
                carry, b = divmod(b + byte + carry, 256)
            else:
                stored.append(byte ^ b)
                carry, a = divmod(a + byte + carry, 256)
        tops = sum(byte >> 6 << shift for byte, shift in zip(stored, (4, 2, 0)))
        out += [tops if len(group) == 3 else tops | spare] + [byte & 0x3F for byte in stored]
    return out + [(a & 0xC0) >> 6 | (b & 0xC0) >> 4 | (c & 0xC0) >> 2, c & 0x3F, b & 0x3F, a & 0x3F]


def macintosh_plain(values):
    """The 524 bytes of 699 values."""
    a = b = c = 0
    out = []
    for place in range(0, len(values), 4):
        tops, *lows = values[place : place + 4]
        stored = [(tops >> shift & 3) << 6 | low for low, shift in zip(lows, (4, 2, 0))]
        carry, a = a >> 7, turned(a)
        out.append(stored[0] ^ a)
        carry, c = divmod(c + out[-1] + carry, 256)
        out.append(stored[1] ^ c)
        carry, b = divmod(b + out[-1] + carry, 256)
        if len(stored) == 3:
            out.append(stored[2] ^ b)
            carry, a = divmod(a + out[-1] + carry, 256)
    return bytes(out)


class MacintoshGcr(Recording):
    first, size, sync, data_syncs = 0, 512, word(0xD5AA96, 24), [word(0xD5AA)]
    RINGS = (76946, 70688, 64230, 57742, 51384)

    def __init__(self, heads):
        self.heads = heads

    def sectors(self, cylinder):
        return 12 - cylinder // 16

    def name(self, cells, place):
        field = raw_bytes(cells, place + 24, 5)
        values = None if field is None else [NIBBLE_VALUES.get(byte) for byte in field]
        if values is None or None in values or not unbroken(cells, place, place + 64):
            return None
        return (tuple(values[:4]), place + 64) if values[4] == xor_of(values[:4]) else None

    def own(self, name, cylinder, head):
        low, sector, side, _ = name
        named = low == cylinder & 0x3F and side == head * 32 + cylinder // 64 and sector < self.sectors(cylinder)
        return sector if named else None

    def content(self, cells, place, q, size):
        field = raw_bytes(cells, q + 16, 705)
        if field is None or field[0] != 0xAD or field[1:2] != raw_bytes(cells, place + 32, 1):
            return None
        values = [NIBBLE_VALUES.get(byte) for byte in field[2:]]
        if None in values:
            return None
        plain = macintosh_plain(values[:699])
        return (plain[12:], q + 5656) if macintosh_values(plain)[699:] == values[699:] else None

    def ring(self, cylinder, head, sectors, ids=None):
        sync, form = "1111111100", 0x22 if self.heads == 2 else 0x02
        out = ""
        for number, data in enumerate(sectors):
            name = [cylinder & 0x3F, number, head * 32 + cylinder // 64, form]
            header = bytes(NIBBLES[value] for value in name + [xor_of(name)])
            out += sync * 16 + raw(b"\xd5\xaa\x96" + header + b"\xde\xaa\xff") + sync * 6
            content = bytes(NIBBLES[value] for value in [number] + macintosh_values(bytes(12) + data))
            out += raw(b"\xd5\xaa\xad" + content + b"\xde\xaa\xff")
        return out + sync * ((self.RINGS[cylinder // 16] - len(out)) // 10)
