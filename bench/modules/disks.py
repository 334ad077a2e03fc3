"""Whole disks as KryoFlux streams, for the benchmarks: an encoder of its own for each recording.

It shares nothing with the program but docs/FORMATS.md, so that a disk that decodes to its image is more than a time.
`dump(word, image, turns, chance)` gives a disk's streams, one track after another.
"""
import binascii
import functools
import itertools
import operator
import re
import struct

TICKS_A_MICROSECOND = 168192000 / 7e6
END = b"\x0d" * 4


def bits(data):
    """The bits of bytes, high bit first, as a text of 0 and 1."""
    return "".join(f"{byte:08b}" for byte in data)


# FM and MFM

def fm(data):
    return "".join("1" + bit for bit in bits(data))


@functools.cache
def mfm_byte(before, byte):
    """The cells of a byte behind a data bit: a clock cell is 1 only between two zeros."""
    out = ""
    for bit in f"{byte:08b}":
        out += ("1" if before == "0" and bit == "0" else "0") + bit
        before = bit
    return out


class Mfm:
    """A list of MFM cells that grows; the data bit before the first is 0."""

    def __init__(self):
        self.parts, self.before = [], "0"

    def bytes(self, data):
        for byte in data:
            self.parts.append(mfm_byte(self.before, byte))
            self.before = "01"[byte & 1]

    def mark(self, cells, count):
        self.parts.append(f"{cells:016b}" * count)
        self.before = self.parts[-1][-1]

    def cells(self):
        return "".join(self.parts)


def checked(mark, content):
    """The content of an IBM field with its check value; the mark's bytes are in the check."""
    return content + struct.pack(">H", binascii.crc_hqx(mark + content, 0xFFFF))


def fm_sectors(cylinder, head, sectors, first, code, gap):
    out = ""
    for number, data in enumerate(sectors, first):
        address = checked(b"\xfe", bytes([cylinder, head, number, code]))
        out += fm(bytes(6)) + f"{0xF57E:016b}" + fm(address + b"\xff" * 11 + bytes(6))
        out += f"{0xF56F:016b}" + fm(checked(b"\xfb", data) + b"\xff" * gap)
    return out


def ibm_fm(cylinder, head, sectors):
    lead_in = fm(b"\xff" * 40 + bytes(6)) + f"{0xF77A:016b}" + fm(b"\xff" * 26)
    return lead_in + fm_sectors(cylinder, head, sectors, 1, 0, 27) + fm(b"\xff" * 247)


def acorn_fm(cylinder, head, sectors):
    return fm(b"\xff" * 16) + fm_sectors(cylinder, head, sectors, 0, 1, 21) + fm(b"\xff" * 9)


def ibm_mfm(gap, end, first=1):
    """The rings of a disk with these gaps after a sector and after the last one, and with sectors from this number on."""
    def ring(cylinder, head, sectors):
        out = Mfm()
        out.bytes(b"\x4e" * 80 + bytes(12))
        out.mark(0x5224, 3)
        out.bytes(b"\xfc" + b"\x4e" * 50)
        for number, data in enumerate(sectors, first):
            for mark, content, behind in ((b"\xfe", bytes([cylinder, head, number, 2]), 22), (b"\xfb", data, gap)):
                out.bytes(bytes(12))
                out.mark(0x4489, 3)
                out.bytes(mark + checked(b"\xa1\xa1\xa1" + mark, content) + b"\x4e" * behind)
        out.bytes(b"\x4e" * end)
        return out.cells()
    return ring


# IBM's recordings by numbers

BY_NUMBERS = re.compile(r"(mfm|fm)-(dd|hd|hd360|sd|sd8)-(\d+)x(\d+)x(\d+)x(\d+)(?:@(\d+))?")
TRACK_BYTES = {"dd": 6250, "hd": 12500, "hd360": 10416, "sd": 3125, "sd8": 5208}
MICROSECONDS = {"dd": 2, "hd": 1, "hd360": 1, "sd": 4, "sd8": 2}


def sized_fm(total, count, size, first):
    def ring(cylinder, head, sectors):
        rest = total - 73 - count * (33 + size)
        gap = min(80, 7 * rest // (8 * count))
        lead_in = fm(b"\xff" * 40 + bytes(6)) + f"{0xF77A:016b}" + fm(b"\xff" * 26)
        out = lead_in + fm_sectors(cylinder, head, sectors, first, size.bit_length() - 8, gap)
        return out + fm(b"\xff") * (total - len(out) // 16)
    return ring


def sized_mfm(total, count, size, first):
    rest = total - 146 - count * (62 + size)
    gap, zeros = min(80, 7 * rest // (8 * count)), 12
    if gap < 10:
        gap, zeros = (total - 10 - count * (53 + size)) // (count + 1), 3

    def ring(cylinder, head, sectors):
        out = Mfm()
        if zeros == 12:
            out.bytes(b"\x4e" * 80 + bytes(12))
            out.mark(0x5224, 3)
            out.bytes(b"\xfc" + b"\x4e" * 50)
        else:
            out.bytes(b"\x4e" * 10)
        for number, data in enumerate(sectors, first):
            header = bytes([cylinder, head, number, size.bit_length() - 8])
            for mark, content, before, behind in ((b"\xfe", header, zeros, 22), (b"\xfb", data, 12, gap)):
                out.bytes(bytes(before))
                out.mark(0x4489, 3)
                out.bytes(mark + checked(b"\xa1\xa1\xa1" + mark, content) + b"\x4e" * behind)
        out.bytes(b"\x4e" * (total - len(out.cells()) // 16))
        return out.cells()
    return ring


def numbered(word):
    """A disk by its numbers, as a word writes them."""
    kind, rate, cylinders, heads, count, size, first = BY_NUMBERS.fullmatch(word).groups(default="1")
    ring = (sized_mfm if kind == "mfm" else sized_fm)(TRACK_BYTES[rate], int(count), int(size), int(first))
    return Format(ring, int(cylinders), int(heads), int(size), lambda _: int(count), lambda _: MICROSECONDS[rate])


# Amiga

def halves(longs):
    """All odd halves of longs, and then all even ones, each in the data cells of 32 cells."""
    return [(x >> 1) & 0x55555555 for x in longs] + [x & 0x55555555 for x in longs]


@functools.cache
def squeezed(half):
    """The two bytes in the data cells of a half."""
    return int(f"{half:032b}"[1::2], 2).to_bytes(2, "big")


def amiga_mfm(cylinder, head, sectors):
    out = Mfm()
    for number, data in enumerate(sectors):
        info = 0xFF000000 | (2 * cylinder + head) << 16 | number << 8 | (len(sectors) - number)
        header = halves([info]) + halves([0] * 4)
        content = halves(struct.unpack(">128I", data))
        sums = [functools.reduce(operator.xor, part) for part in (header, content)]
        out.bytes(bytes(2))
        out.mark(0x4489, 2)
        every = header + halves(sums[:1]) + halves(sums[1:]) + content
        out.bytes(b"".join(squeezed(half) for half in every))
    out.bytes(bytes(266 * len(sectors) // 11))
    return out.cells()


# Commodore 1541

CODES = "01010 01011 10010 10011 01110 01111 10110 10111 01001 11001 11010 11011 01101 11101 11110 10101".split()
GAPS = {21: 12, 19: 21, 18: 16, 17: 13, 29: 43, 27: 42, 25: 46, 23: 53}


def xor_of(data):
    return functools.reduce(operator.xor, data)


def gcr(data):
    return "".join(CODES[byte >> 4] + CODES[byte & 15] for byte in data)


def commodore_gcr(side):
    """The rings of a disk of which a side has so many tracks."""
    def ring(cylinder, head, sectors):
        id1, id2 = 0x41, 0x42
        out = ""
        for number, data in enumerate(sectors):
            names = bytes([number, cylinder + 1 + side * head, id2, id1])
            out += "1" * 40 + gcr(bytes([8, xor_of(names)]) + names + b"\x0f\x0f") + bits(b"\x55" * 9)
            out += "1" * 40 + gcr(b"\x07" + data + bytes([xor_of(data), 0, 0])) + bits(b"\x55" * GAPS[len(sectors)])
        return out
    return ring


# Apple

NIBBLES = bytes(byte for byte in range(0x96, 0x100)
           if "11" in f"{byte:08b}"[1:] and len(re.findall("(?=00)", f"{byte:08b}")) <= 1 and byte not in (0xAA, 0xD5))
SELF_SYNC = "1111111100"


def swapped(byte):
    return (byte & 1) << 1 | byte >> 1 & 1


def six_and_two(data):
    wide = data + bytes(2)
    low = [swapped(wide[k]) | swapped(wide[k + 86]) << 2 | swapped(wide[k + 172]) << 4 for k in range(86)]
    values = [0] + low + [byte >> 2 for byte in data] + [0]
    return bytes(NIBBLES[a ^ b] for a, b in zip(values, values[1:]))


def four_and_four(data):
    return b"".join(bytes([byte >> 1 | 0xAA, byte | 0xAA]) for byte in data)


def apple_gcr(cylinder, head, sectors, late=""):
    """`late` are the zero cells between the mark of a data field and its first nibble."""
    out = SELF_SYNC * 33
    for number, data in enumerate(sectors):
        names = bytes([254, cylinder, number])
        out += bits(b"\xd5\xaa\x96" + four_and_four(names + bytes([xor_of(names)])) + b"\xde\xaa\xeb") + SELF_SYNC * 6
        out += bits(b"\xd5\xaa\xad") + late + bits(six_and_two(data) + b"\xde\xaa\xeb") + SELF_SYNC * 14
    return out


# as DOS 3.3 and ProDOS write it themselves
apple_gcr_late = functools.partial(apple_gcr, late="0")


# Macintosh

def rolled(byte):
    return byte << 1 & 0xFF | byte >> 7


def summed(data):
    """The nibbles of 524 bytes with three running sums, and those of the check values."""
    a = b = c = 0
    values = []
    for x, y, z in itertools.zip_longest(data[::3], data[1::3], data[2::3]):
        c += a >> 7
        a = rolled(a)
        first, c = x ^ a, c + x
        b, c = b + y + (c >> 8), c & 0xFF
        second, third = y ^ c, 0
        if z is not None:
            third = z ^ b & 0xFF
            a = a + z + (b >> 8) & 0xFF
        b &= 0xFF
        values += [first >> 6 << 4 | second >> 6 << 2 | third >> 6, first & 63, second & 63, third & 63]
    values = values[:-1] + [a >> 6 | b >> 6 << 2 | c >> 6 << 4, c & 63, b & 63, a & 63]
    return bytes(NIBBLES[value] for value in values)


def macintosh_gcr(heads):
    """The rings of a disk with so many heads."""
    def ring(cylinder, head, sectors):
        out = ""
        for number, data in enumerate(sectors):
            names = [cylinder & 63, number, head << 5 | cylinder >> 6, 0x22 if heads == 2 else 0x02]
            out += SELF_SYNC * 16 + bits(b"\xd5\xaa\x96" + bytes(NIBBLES[v] for v in names + [xor_of(names)]) + b"\xde\xaa\xff")
            out += SELF_SYNC * 6 + bits(b"\xd5\xaa\xad" + NIBBLES[number : number + 1] + summed(bytes(12) + data) + b"\xde\xaa\xff")
        return out + SELF_SYNC * ((MAC_CELLS[cylinder // 16] - len(out)) // 10)
    return ring


# Formats

class Format:
    def __init__(self, ring, cylinders, heads, size, sectors, microseconds, order=None, by_head=False):
        self.ring, self.cylinders, self.heads, self.size = ring, cylinders, heads, size
        self.sectors, self.microseconds, self.order, self.by_head = sectors, microseconds, order, by_head

    def tracks(self):
        tracks = itertools.product(range(self.cylinders), range(self.heads))
        return sorted(tracks, key=lambda track: track[::-1] if self.by_head else track)

    def image_bytes(self):
        return sum(self.sectors(cylinder) * self.size for cylinder, _ in self.tracks())


def by_zone(values):
    return lambda cylinder: values[(cylinder >= 17) + (cylinder >= 24) + (cylinder >= 30)]


def by_zone_of_8050(values):
    return lambda cylinder: values[(cylinder >= 39) + (cylinder >= 53) + (cylinder >= 64)]


ZONE_SECTORS, ZONE_CELLS = by_zone((21, 19, 18, 17)), by_zone((3.25, 3.5, 3.75, 4))
SECTORS_8050, CELLS_8050 = by_zone_of_8050((29, 27, 25, 23)), by_zone_of_8050((26 / 12, 28 / 12, 30 / 12, 32 / 12))
MAC_CELLS = (76946, 70688, 64230, 57742, 51384)
DOS = (0, 7, 14, 6, 13, 5, 12, 4, 11, 3, 10, 2, 9, 1, 8, 15)
PRODOS = (0, 8, 1, 9, 2, 10, 3, 11, 4, 12, 5, 13, 6, 14, 7, 15)



def mac_sectors(cylinder):
    return 12 - cylinder // 16


def mac_microseconds(cylinder):
    """Of a drive that makes 300 turns a minute for all cylinders."""
    return 200_000 / MAC_CELLS[cylinder // 16]


class Formats(dict):
    """Those that have names; any other word has to write numbers."""

    def __missing__(self, word):
        return numbered(word)


FORMATS = Formats({
    "ibm-3740": Format(ibm_fm, 77, 1, 128, lambda _: 26, lambda _: 2),
    "ibm-360": Format(ibm_mfm(80, 218), 40, 2, 512, lambda _: 9, lambda _: 2),
    "ibm-720": Format(ibm_mfm(80, 218), 80, 2, 512, lambda _: 9, lambda _: 2),
    "ibm-1440": Format(ibm_mfm(108, 78), 80, 2, 512, lambda _: 18, lambda _: 1),
    "amiga": Format(amiga_mfm, 80, 2, 512, lambda _: 11, lambda _: 2),
    "amiga-hd": Format(amiga_mfm, 80, 2, 512, lambda _: 22, lambda _: 1),
    "c1541": Format(commodore_gcr(35), 35, 1, 256, ZONE_SECTORS, ZONE_CELLS),
    "c1541-40": Format(commodore_gcr(35), 40, 1, 256, ZONE_SECTORS, ZONE_CELLS),
    "c1571": Format(commodore_gcr(35), 35, 2, 256, ZONE_SECTORS, ZONE_CELLS, by_head=True),
    "c1581": Format(lambda cylinder, head, sectors: ibm_mfm(30, 64)(cylinder, 1 - head, sectors), 80, 2, 512, lambda _: 10, lambda _: 2),
    "c8050": Format(commodore_gcr(77), 77, 1, 256, SECTORS_8050, CELLS_8050),
    "c8250": Format(commodore_gcr(77), 77, 2, 256, SECTORS_8050, CELLS_8050, by_head=True),
    "apple-do": Format(apple_gcr, 35, 1, 256, lambda _: 16, lambda _: 4, DOS),
    "apple-po": Format(apple_gcr, 35, 1, 256, lambda _: 16, lambda _: 4, PRODOS),
    "ibm-160": Format(ibm_mfm(80, 872), 40, 1, 512, lambda _: 8, lambda _: 2),
    "ibm-180": Format(ibm_mfm(80, 218), 40, 1, 512, lambda _: 9, lambda _: 2),
    "ibm-320": Format(ibm_mfm(80, 872), 40, 2, 512, lambda _: 8, lambda _: 2),
    "ibm-1200": Format(ibm_mfm(84, 400), 80, 2, 512, lambda _: 15, lambda _: 1),
    "atari-st-800": Format(ibm_mfm(30, 64), 80, 2, 512, lambda _: 10, lambda _: 2),
    "cpc-data": Format(ibm_mfm(82, 200, 0xC1), 40, 1, 512, lambda _: 9, lambda _: 2),
    "cpc-system": Format(ibm_mfm(82, 200, 0x41), 40, 1, 512, lambda _: 9, lambda _: 2),
    "acorn-dfs-40": Format(acorn_fm, 40, 1, 256, lambda _: 10, lambda _: 4),
    "acorn-dfs-80": Format(acorn_fm, 80, 1, 256, lambda _: 10, lambda _: 4),
    "apple-dos33": Format(apple_gcr_late, 35, 1, 256, lambda _: 16, lambda _: 4, DOS),
    "apple-prodos": Format(apple_gcr_late, 35, 1, 256, lambda _: 16, lambda _: 4, PRODOS),
    "mac-400": Format(macintosh_gcr(1), 80, 1, 512, mac_sectors, mac_microseconds),
    "mac-800": Format(macintosh_gcr(2), 80, 2, 512, mac_sectors, mac_microseconds),
})


def transitions(cells, ticks, chance):
    """One revolution of a ring as flux values, 0.3 % fast, with some jitter. Its sum is that of the places in ticks."""
    places = [match.end() for match in re.finditer("1", cells)]
    times = [round(place * ticks * 0.997 + chance.uniform(-2, 2)) for place in places]
    return [time - before for before, time in zip([0] + times, times)]


def spelled(values):
    """Flux values below 2048 as blocks."""
    return b"".join(bytes([value]) if 14 <= value < 256 else struct.pack(">H", value) for value in values)


def stream(cells, ticks, turns, chance):
    """So many equal revolutions of a ring, with an Index at the begin of each and behind the last."""
    turn = spelled(transitions(cells, ticks, chance))
    parts = []
    for number in range(turns + 1):
        parts.append(b"\x0d\x02\x0c\x00" + struct.pack("<III", number * len(turn), 0, number))
        if number < turns:
            parts.append(turn)
    return b"".join(parts) + b"\x0d\x03\x08\x00" + struct.pack("<II", turns * len(turn), 0) + END


def dump(word, image, turns, chance):
    """The streams of a disk with this image, one track after another."""
    form = FORMATS[word]
    place = 0
    for cylinder, head in form.tracks():
        count = form.sectors(cylinder)
        order = form.order or range(count)
        sectors = [image[place + form.size * slot : place + form.size * (slot + 1)] for slot in order]
        place += count * form.size
        ticks = form.microseconds(cylinder) * TICKS_A_MICROSECOND
        yield stream(form.ring(cylinder, head, sectors), ticks, turns, chance)
