"""What flux is to answer, read off the definitions as plainly as they stand: slow, of whole lists, one sentence a line.

It shares nothing with the program. Streams are read in plain_streams.py, sectors in plain_recordings.py, files of dumps in plain_dumps.py,
pictures are drawn in plain_map.py, and plain_commands.py has what words come to; here are formats, verdicts, lines, trials and G64 files.
"""
import bisect
import itertools
import re
import struct

from plain_recordings import DRIVE_8050, AmigaMfm, AppleGcr, CommodoreGcr, IbmFm, IbmMfm, MacintoshGcr, places_of, word
from plain_streams import LIMIT, Refused, Stream, number_at, padding_at, places_of_ones, recovered, stream_of_times

# Formats

class Format:
    def __init__(self, word, recording, cylinders, heads, nominal, ring_cells, order=None, by_head=False):
        self.word, self.recording, self.nominal, self.ring_cells, self.order = word, recording, nominal, ring_cells, order
        self.tracks = sorted(itertools.product(range(cylinders), range(heads)), key=lambda track: track[::-1] if by_head else track)
        self.places = list(itertools.accumulate((self.track_bytes(k) for k in range(len(self.tracks))), initial=0))
        self.image_bytes = self.places[-1]

    def track_bytes(self, k):
        return self.recording.size * self.recording.sectors(self.tracks[k][0])

    def sector_numbers(self, k):
        return range(self.recording.first, self.recording.first + self.recording.sectors(self.tracks[k][0]))

    def slot(self, sector):
        """The place of a sector in its track's part, in sectors."""
        return self.order[sector] if self.order else sector - self.recording.first

    def ring_of(self, image, k):
        size, start = self.recording.size, self.places[k]
        sectors = [image[start + size * self.slot(s) : start + size * self.slot(s) + size] for s in self.sector_numbers(k)]
        ids = None
        if isinstance(self.recording, CommodoreGcr):
            directory = self.places[self.recording.drive.id_track - 1] + self.recording.drive.id_byte
            ids = (image[directory], image[directory + 1])
        return self.recording.ring(*self.tracks[k], sectors, ids)


def zone(values):
    return lambda cylinder: values[0 if cylinder < 17 else 1 if cylinder < 24 else 2 if cylinder < 30 else 3]


def always(value):
    return lambda cylinder: value


ZONE_CELLS, ZONE_RINGS = zone((79963, 86114, 92265, 98416)), zone((61488, 57000, 53280, 49912))
CELLS_8050 = lambda cylinder: (53308, 57409, 61510, 65610)[DRIVE_8050.zone(cylinder)]
RINGS_8050 = lambda cylinder: (92104, 85536, 80000, 74888)[DRIVE_8050.zone(cylinder)]
DOS = [0x0, 0x7, 0xE, 0x6, 0xD, 0x5, 0xC, 0x4, 0xB, 0x3, 0xA, 0x2, 0x9, 0x1, 0x8, 0xF]
PRODOS = [0x0, 0x8, 0x1, 0x9, 0x2, 0xA, 0x3, 0xB, 0x4, 0xC, 0x5, 0xD, 0x6, 0xE, 0x7, 0xF]

MAC_CELLS = lambda cylinder: (63951, 69613, 76612, 85220, 95765)[cylinder // 16]
MAC_RINGS = lambda cylinder: MacintoshGcr.RINGS[cylinder // 16]

IBM_3740 = IbmFm(first=1, count=26, size=128, code=0, gap=27, end_gap=247, index_mark=True)
ACORN = IbmFm(first=0, count=10, size=256, code=1, gap=21, end_gap=9, index_mark=False)

# by numbers: the nominal cell and the cells of a ring
RATES = {
    "mfm-dd": (49208, 100000), "mfm-hd": (24604, 200000), "mfm-hd360": (24604, 166656), "fm-sd": (98416, 50000), "fm-sd8": (49208, 83328),
}
NUMBER = "(0|[1-9][0-9]{0,3})"
NUMBERED = re.compile(f"({'|'.join(RATES)})-{NUMBER}x{NUMBER}x{NUMBER}x{NUMBER}(?:@{NUMBER})?")
# those that are a disk's with a name, which is printed
NAMED = {"mfm-dd-40x1x8x512": "ibm-160", "mfm-dd-40x1x9x512": "ibm-180", "mfm-dd-40x2x8x512": "ibm-320"}


def numbered(name):
    """The disk whose numbers a word writes, or None."""
    matched = NUMBERED.fullmatch(name)
    if not matched:
        return None
    rate, *numbers = matched.groups()
    cylinders, heads, count, size, first = (1 if number is None else int(number) for number in numbers)
    if not (1 <= cylinders <= 99 and 1 <= heads <= 2 and 1 <= count <= 32 and size in (128, 256, 512, 1024) and first + count <= 256):
        return None
    printed = name.removesuffix("@1")
    if printed in NAMED:
        return FORMATS[NAMED[printed]]
    nominal, cells = RATES[rate]
    recording = made_track(rate.startswith("mfm"), cells // 16, count, first, size)
    return recording and Format(printed, recording, cylinders, heads, always(nominal), always(cells))


def unfit(name):
    """Of a word that writes numbers which are no disk's, the first number that does not fit; an empty text of any other word."""
    matched = NUMBERED.fullmatch(name)
    if not matched or numbered(name):
        return ""
    rate, *numbers = matched.groups()
    cylinders, heads, count, size, first = (1 if number is None else int(number) for number in numbers)
    if not 1 <= cylinders <= 99:
        return f"cylinders are 1 to 99, not {cylinders}"
    if not 1 <= heads <= 2:
        return f"heads are 1 or 2, not {heads}"
    if not 1 <= count <= 32:
        return f"sectors are 1 to 32, not {count}"
    if size not in (128, 256, 512, 1024):
        return f"bytes of a sector are 128, 256, 512 or 1024, not {size}"
    if first + count > 256:
        return f"the last sector is 255 at most, not {first + count - 1}"
    return f"{count} sectors of {size} bytes do not fit on a track of {RATES[rate][1] // 16}"


def made_track(double, total, count, first, size):
    """The recording of so many sectors in so many bytes; None where they do not fit."""
    code = size.bit_length() - 8
    before, around, least = (146, 62, 10) if double else (73, 33, 4)
    rest = total - before - count * (around + size)
    gap = min(80, 7 * rest // (8 * count))
    if gap >= least:
        end = rest - count * gap
        return IbmMfm(count, gap, end, first, size, code) if double else IbmFm(first, count, size, code, gap, end, True)
    rest = total - 10 - count * (53 + size)
    gap = min(80, rest // (count + 1))
    return IbmMfm(count, gap, rest - count * gap, first, size, code, tight=True) if double and gap >= 1 else None


class Formats(dict):
    """Those that have names, by their names; any other word may write the numbers of a disk."""

    def get(self, name, default=None):
        return self[name] if name in self else numbered(name) or default


# in the order of the program's table
FORMATS = Formats((form.word, form) for form in (
    Format("ibm-3740", IBM_3740, 77, 1, always(49208), always(83328)),
    Format("ibm-360", IbmMfm(9, 80, 218), 40, 2, always(49208), always(100000)),
    Format("ibm-720", IbmMfm(9, 80, 218), 80, 2, always(49208), always(100000)),
    Format("ibm-1440", IbmMfm(18, 108, 78), 80, 2, always(24604), always(200000)),
    Format("amiga", AmigaMfm(11, 266), 80, 2, always(49208), always(100000)),
    Format("c1541", CommodoreGcr(), 35, 1, ZONE_CELLS, ZONE_RINGS),
    Format("c1541-40", CommodoreGcr(), 40, 1, ZONE_CELLS, ZONE_RINGS),
    Format("apple-do", AppleGcr(), 35, 1, always(98416), always(49994), DOS),
    Format("apple-po", AppleGcr(), 35, 1, always(98416), always(49994), PRODOS),
    Format("ibm-160", IbmMfm(8, 80, 872), 40, 1, always(49208), always(100000)),
    Format("ibm-180", IbmMfm(9, 80, 218), 40, 1, always(49208), always(100000)),
    Format("ibm-320", IbmMfm(8, 80, 872), 40, 2, always(49208), always(100000)),
    Format("ibm-1200", IbmMfm(15, 84, 400), 80, 2, always(24604), always(166656)),
    Format("atari-st-800", IbmMfm(10, 30, 64), 80, 2, always(49208), always(100000)),
    Format("cpc-data", IbmMfm(9, 82, 200, 0xC1), 40, 1, always(49208), always(100000)),
    Format("cpc-system", IbmMfm(9, 82, 200, 0x41), 40, 1, always(49208), always(100000)),
    Format("acorn-dfs-40", ACORN, 40, 1, always(98416), always(50000)),
    Format("acorn-dfs-80", ACORN, 80, 1, always(98416), always(50000)),
    Format("apple-dos33", AppleGcr(waits=True), 35, 1, always(98416), always(49994), DOS),
    Format("apple-prodos", AppleGcr(waits=True), 35, 1, always(98416), always(49994), PRODOS),
    Format("mac-400", MacintoshGcr(1), 80, 1, MAC_CELLS, MAC_RINGS),
    Format("mac-800", MacintoshGcr(2), 80, 2, MAC_CELLS, MAC_RINGS),
    Format("c1571", CommodoreGcr(), 35, 2, ZONE_CELLS, ZONE_RINGS, by_head=True),
    Format("amiga-hd", AmigaMfm(22, 532), 80, 2, always(24604), always(200000)),
    Format("c8050", CommodoreGcr(DRIVE_8050), 77, 1, CELLS_8050, RINGS_8050),
    Format("c8250", CommodoreGcr(DRIVE_8050), 77, 2, CELLS_8050, RINGS_8050, by_head=True),
    Format("c1581", IbmMfm(10, 30, 64, exchanged=True), 80, 2, always(49208), always(100000)),
))


# some disks by their numbers
BY_NUMBERS = (
    "mfm-dd-82x2x10x512", "mfm-dd-80x2x11x512", "mfm-hd-80x2x21x512", "mfm-hd360-77x2x8x1024", "mfm-dd-80x2x16x256@0", "mfm-dd-80x1x9x512",
    "mfm-hd360-77x2x26x256", "fm-sd-40x1x10x256@0", "fm-sd8-77x1x26x128", "mfm-dd-40x2x5x1024@0", "mfm-dd-99x1x1x128@255", "mfm-hd-3x2x32x128",
)


def any_format(chance):
    """One of those that have names, or else a disk by its numbers."""
    return numbered(chance.choice(BY_NUMBERS)) if chance.randrange(4) == 0 else chance.choice(list(FORMATS.values()))


def wrong_size(form, data):
    """The outcome where the bytes are not an image's in number."""
    return 2, b"", f"refused image {min(len(data), form.image_bytes + 1)} wanted {form.image_bytes}\n".encode()


# Readings, verdicts and lines

def readings(recording, cells, cylinder, head):
    """(place, sector, data) of each place at which a header stands; the data are None where the sector does not."""
    for place in places_of(cells, recording.sync):
        header = recording.header(cells, place, cylinder, head)
        if header:
            yield place, header[0], recording.sector(cells, place, header[1])


AS_CONTROLLERS_READ = {"apple-do": "apple-dos33", "apple-po": "apple-prodos"}


def as_controllers_read(form):
    """The format as which a controller reads the format's disks."""
    other = AS_CONTROLLERS_READ.get(form.word)
    return FORMATS[other] if other else form


def controller_readings(recording, cells, cylinder, head, wanted=True):
    """By the second rule: the readings, one for each of the data of each header, or a bad one; and of each header that names none of the
    track's sectors its place, its name, and whether data of the size that its name tells stand after it. Where no sector is wanted, that is
    each header."""
    found, others = [], []
    for place in places_of(cells, recording.sync):
        name, end = recording.name(cells, place) or (None, None)
        if name is None:
            continue
        sector = recording.own(name, cylinder, head) if wanted else None
        size = recording.size_of(name) if sector is None else recording.size
        data = list(recording.data(cells, place, end, size)) if size else []
        if sector is None:
            others.append((place, name, bool(data)))
        else:
            found += [(place, sector, content) for content in data or [None]]
    return found, others


def verdict_of(entries):
    """The verdict over a sector's readings in their order, each a pair of its place's text and its data, and the good data."""
    good = [entry for entry in entries if entry[1] is not None]
    bad = len(entries) - len(good)
    if not entries:
        return "missing 0 0", None
    if not good:
        return f"bad 0 {bad} {entries[0][0]}", None
    other = [entry for entry in good if entry[1] != good[0][1]]
    if other:
        return f"contradictory {len(good)} {bad} {good[0][0]} {other[0][0]}", None
    return f"good {len(good)} {bad} {good[0][0]}", good[0][1]


VERDICTS = ("good", "bad", "missing", "contradictory")


class Answer:
    """What decoding comes to, track by track."""

    def __init__(self, form):
        self.form, self.image, self.lines, self.number = form, [], [], dict.fromkeys(VERDICTS, 0)

    def track(self, k, entries):
        """Appends a track with its readings, (the place's text, sector, data)."""
        form = self.form
        cylinder, head = form.tracks[k]
        part = bytearray(form.track_bytes(k))
        size = form.recording.size
        for sector in form.sector_numbers(k):
            verdict, data = verdict_of([(place, data) for place, named, data in entries if named == sector])
            self.number[verdict.split()[0]] += 1
            self.lines.append(f"{cylinder:02}.{head} {sector:02} {verdict}\n")
            if data is not None:
                part[size * form.slot(sector) : size * form.slot(sector) + size] = data
        self.image.append(bytes(part))

    def totals(self):
        return " ".join(f"{verdict} {self.number[verdict]}" for verdict in VERDICTS)

    def end(self):
        self.lines.append(f"total {sum(self.number.values())} {self.totals()}\n")
        return 0 if self.number["good"] == sum(self.number.values()) else 1


def turn_of(stream, cells, place):
    time = stream.times[cells.count("1", 0, place + 1) - 1]
    return bisect.bisect_right(stream.indexes, time)


def read_by(form, k, stream, clock=0, prefix=""):
    """The readings of a stream for a track, by one of the two clocks."""
    cylinder, head = form.tracks[k]
    cells = recovered(stream, form.nominal(cylinder), form.ring_cells(cylinder), clock)
    found = readings(form.recording, cells, cylinder, head)
    return [(f"{prefix}{turn_of(stream, cells, p)} {p}", sector, content) for p, sector, content in found]


def capture(form, k, data, place, prefix=""):
    """The stream at a place, and its readings for a track."""
    stream = Stream(data, place)
    return stream, read_by(form, k, stream, 0, prefix)


def rescued(form, k, data, place):
    """The stream at a place, and its readings for a track by clock 0 and then by clock 1."""
    stream = Stream(data, place)
    return stream, read_by(form, k, stream, 0, "0 ") + read_by(form, k, stream, 1, "1 ")


def decoded(form, data, captures=None, both_clocks=False):
    """The answer and the refused line's text, or None where nothing is refused."""
    answer, place = Answer(form), 0
    for k in range(len(form.tracks)):
        joined = []
        for q in range(captures or 1):
            if (k, q) != (0, 0):
                place += padding_at(data, place)
            try:
                if both_clocks:
                    stream, entries = rescued(form, k, data, place)
                else:
                    stream, entries = capture(form, k, data, place, f"{q} " if captures else "")
            except Refused as stop:
                which = f"track {k} capture {q}" if captures else f"track {k}"
                return answer, f"refused {which} {stop.text()}\n"
            place += stream.length
            joined += entries
        answer.track(k, joined)
    return answer, None


def written_cells(ring):
    quarter = len(ring) // 4
    return ring[len(ring) - quarter :] + 3 * ring + ring[:quarter], [quarter + i * len(ring) for i in range(4)]


def stream_of(ring, nominal):
    cells, turns = written_cells(ring)
    times = [(place + 1) * nominal // 1024 for place in places_of_ones(cells)]
    return stream_of_times(times, [(turn + 1) * nominal // 1024 for turn in turns])


# The trial

def trial_image(form, seed):
    return bytes((seed + 167 * i + 13 * (i // 256)) % 256 for i in range(form.image_bytes))


def trial_times(ring, nominal, seed, k):
    """The times and the index times."""
    hole, hole_at = seed // 1000 % 1000, 16 * (seed // 1000000)
    reach, drift = nominal // 8 - 1024, nominal // 256
    state = (seed + 7919 * k) % 2**31
    base = nominal + ((seed + k) % 17 - 8) * (nominal // 128)
    cells, turns = written_cells(ring)
    places = places_of_ones(cells)
    quarter = len(ring) // 4
    times, ideal, periods = [], [(places[0] + 1) * base], [base]
    for j, place in enumerate(places):
        state = (1103515245 * state + 12345) % 2**31
        times.append((ideal[j] + state // 16 % (2 * reach + 1) - reach) // 1024)
        if j + 1 < len(places):
            ideal.append(ideal[j] + (places[j + 1] - place) * periods[j])
            period = periods[j] + state // 2**20 % 3 - 1
            periods.append(period if abs(period - base) <= drift else periods[j])
    last = [bisect.bisect_right(places, turn) - 1 for turn in turns]
    indexes = [(ideal[j] + (turn - places[j]) * periods[j]) // 1024 for j, turn in zip(last, turns)]
    kept = [time for time, place in zip(times, places) if ((place - quarter) % len(ring) - hole_at) % len(ring) >= hole]
    return kept, indexes


def trial_line(form, seed):
    image = trial_image(form, seed)
    answer = Answer(form)
    for k, (cylinder, _) in enumerate(form.tracks):
        stream = stream_of_times(*trial_times(form.ring_of(image, k), form.nominal(cylinder), seed, k))
        answer.track(k, capture(form, k, stream, 0)[1])
    total = sum(map(sum, answer.image))
    return f"trial {form.word} {seed} tracks {len(form.tracks)} sectors {sum(answer.number.values())} {answer.totals()} sum {total}\n"


# G64 files

def g64_file(form, image):
    count = len(form.tracks)
    offsets, speeds, parts = [0] * 84, [0] * 84, []
    for k in range(count):
        offsets[2 * k] = 684 + 7930 * k
        speeds[2 * k] = zone((3, 2, 1, 0))(k)
        ring = form.ring_of(image, k)
        content = int(ring, 2).to_bytes(len(ring) // 8, "big")
        parts.append(struct.pack("<H", len(content)) + content.ljust(7928, b"\xff"))
    head = b"GCR-1541\0" + bytes([84]) + struct.pack("<H", 7928)
    return head + struct.pack("<84I", *offsets) + struct.pack("<84I", *speeds) + b"".join(parts)


def g64_fault(form, data):
    """The first fault's name and numbers, or None."""
    if len(data) > LIMIT:
        return "TooLarge"
    if len(data) < 12:
        return f"ShortHeader {len(data)}"
    if data[:8] != b"GCR-1541":
        return "BadSignature"
    if data[8] != 0:
        return f"BadVersion {data[8]}"
    if not 1 <= data[9] <= 84:
        return f"BadTracks {data[9]}"
    if len(data) < 12 + 8 * data[9]:
        return f"ShortTable {len(data)}"
    for k in range(len(form.tracks)):
        offset = g64_offset(data, k)
        if offset != 0 and offset + 2 > len(data):
            return f"BadOffset {k + 1} {offset}"
        length = int.from_bytes(data[offset : offset + 2], "little")
        if offset != 0 and offset + 2 + length > len(data):
            return f"ShortTrack {k + 1} {length}"
    return None


def g64_offset(data, k):
    """The offset of a wanted track; 0 where its entry is after the table."""
    return number_at(data, 12 + 4 * (2 * k)) if 2 * k < data[9] else 0


def from_g64(form, data):
    fault = g64_fault(form, data)
    if fault:
        return 2, b"", f"refused g64 {fault}\n".encode()
    answer = Answer(form)
    for k, (cylinder, head) in enumerate(form.tracks):
        offset = g64_offset(data, k)
        length = int.from_bytes(data[offset : offset + 2], "little") if offset else 0
        cells = "".join(word(byte, 8) for byte in data[offset + 2 : offset + 2 + length])
        found = [entry for entry in readings(form.recording, cells + cells, cylinder, head) if entry[0] < len(cells)]
        answer.track(k, [(f"0 {place}", sector, content) for place, sector, content in found])
    code = answer.end()
    return code, b"".join(answer.image), "".join(answer.lines).encode()
