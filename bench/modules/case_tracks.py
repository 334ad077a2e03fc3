"""Tracks for compare.py: sectors of a recording, damaged or not, whose ones get times, disturbed within the bounds, at them or beyond.

Each function adds the names of the damage that it does to `kinds`.
"""
import bisect

import plain_recordings as recordings
from case_streams import faulty, flux, info, layout, nop, one_in, spell
from plain import written_cells
from plain_recordings import MfmList, fm, gcr, raw, word
from plain_streams import places_of_ones, stream_of_times

# Sectors of the recordings: the cells, the data, the names of their damage

def zeros_at(cells, place, count):
    return cells[:place] + "0" * count + cells[place + count :]


def random_data(chance, size):
    roll = chance.random()
    if roll < 0.4:
        return chance.randbytes(size)
    if roll < 0.7:
        return bytes([chance.choice([0, 0xFF, 0x5E, 0xE5, 0xF6, 0xA1, chance.randrange(256)])]) * size
    return b"".join(bytes([chance.randrange(256)]) * chance.randrange(1, 40) for _ in range(size))[:size]


def gap_of(chance, kinds, cells, unit):
    """The cells between a header's end and its data sync, as they are written or so many that the sync lies at the search's end."""
    if chance.random() < 0.8:
        return cells
    distance = chance.choice([1022, 1023, 1024, 1025, 1040, chance.randrange(1100)])
    kinds.add(f"data sync {distance} cells after the header" if 1022 <= distance <= 1025 else "another gap before the data")
    return (unit * (distance // len(unit) + 1))[:distance]


def ibm_names(chance, kinds, cylinder, head, number, data, most):
    """C, H, R and N of a sector with these data, sometimes of no sector of the track."""
    names = [cylinder, head, number, len(data).bit_length() - 8]
    if one_in(chance, 8):
        field = chance.randrange(4)
        names[field] = chance.choice([names[field] ^ 1, 0, most + 1, 255])
        kinds.add("header of " + ("another cylinder", "another head", "no sector", "another size")[field])
    return bytes(names)


def off(chance, kinds, name, content):
    """A field with its check value, sometimes with a bit of it turned."""
    if not one_in(chance, 8):
        return content
    kinds.add(f"wrong check of the {name}")
    place = len(content) - 1 - chance.randrange(2)
    return content[:place] + bytes([content[place] ^ 1 << chance.randrange(8)]) + content[place + 1 :]


def ibm_fm_sector(chance, kinds, cylinder, head, number, data):
    names = ibm_names(chance, kinds, cylinder, head, number, data, 26)
    out = fm(bytes(6)) + word(0xF57E) + fm(off(chance, kinds, "header", recordings.checked(b"\xfe", names)))
    out += gap_of(chance, kinds, fm(b"\xff" * 11 + bytes(6)), "11")
    byte, mark = data_mark(chance, kinds, [(0xFB, 0xF56F), (0xF8, 0xF56A)], [(0xFE, 0xF57E), (0xFC, 0xF77A)])
    if one_in(chance, 20):
        kinds.add("a wrong mark before a right one")
        out += word(chance.choice([0xF57E, 0xF77A])) + fm(b"\xff" * 3)
    return out + word(mark) + fm(off(chance, kinds, "data", recordings.checked(bytes([byte]), data)) + b"\xff" * 27)


def data_mark(chance, kinds, right, wrong):
    roll = chance.random()
    if roll < 0.75:
        return right[0]
    kinds.add("deleted data mark" if roll < 0.87 else "wrong data mark")
    return right[1] if roll < 0.87 else chance.choice(wrong)


def ibm_mfm_sector(chance, kinds, cylinder, head, number, data):
    names = ibm_names(chance, kinds, cylinder, head, number, data, 18)
    out = MfmList().bytes(bytes(12)).mark(0x4489, 3)
    mark = b"\xfe" if not one_in(chance, 20) else bytes([chance.choice([0xFF, 0xFC, 0xFB])])
    if mark != b"\xfe":
        kinds.add("wrong header mark")
    out.bytes(off(chance, kinds, "header", recordings.checked(b"\xa1" * 3, mark + names)))
    cells = out.cells() + gap_of(chance, kinds, MfmList().bytes(b"\x4e" * 22 + bytes(12)).cells(), "10")
    out = MfmList()
    if one_in(chance, 20):
        kinds.add("a wrong mark before a right one")
        out.mark(0x4489, 3).bytes(b"\xfe" + bytes(12))
    byte, _ = data_mark(chance, kinds, [(0xFB, 0), (0xF8, 0)], [(0xFE, 0), (0xFA, 0), (0xF9, 0), (0x7B, 0)])
    marks = 3
    if one_in(chance, 20):
        marks = chance.choice([1, 2, 4])
        kinds.add("another number of marks")
    return cells + out.mark(0x4489, marks).bytes(
        off(chance, kinds, "data", recordings.checked(b"\xa1" * 3, bytes([byte]) + data)) + b"\x4e" * chance.choice([80, 108])).cells()


def amiga_sector(chance, kinds, cylinder, head, number, data):
    info, label, checks = [0xFF, 2 * cylinder + head, number, (11 - number) % 256], bytes(16), [0, 0]
    if one_in(chance, 6):
        field = chance.randrange(4)
        info[field] = chance.choice([info[field] ^ 1, 11, 0, 255])
        kinds.add(("another first byte", "another track", "no sector", "other sectors to the gap")[field])
    if one_in(chance, 6):
        label = chance.randbytes(16)
        kinds.add("a label")
    for which, name in enumerate(("header", "data")):
        if one_in(chance, 8):
            checks[which] = chance.choice([1 << 2 * chance.randrange(16), 1 << 2 * chance.randrange(16) + 1])
            kinds.add(f"wrong check of the {name}")
    out = MfmList()
    recordings.AmigaMfm(11, 266).frame(out, bytes(info), label, data, *checks)
    return out.cells()


def commodore_sector(chance, kinds, cylinder, head, number, data):
    names = [number, cylinder + 1, chance.randrange(256), chance.randrange(256)]
    if one_in(chance, 8):
        field = chance.randrange(2)
        names[field] = chance.choice([names[field] ^ 1, 17, 18, 19, 21, 0, 255])
        kinds.add(("no sector", "another track")[field])
    first, second = 8, 7
    if one_in(chance, 12):
        first = chance.choice([7, 9, 0, 0x18])
        kinds.add("wrong header mark")
    if one_in(chance, 12):
        second = chance.choice([8, 6, 0xF, 0x17])
        kinds.add("wrong data mark")
    header = bytes([first, recordings.xor_of(names) ^ (one_in(chance, 12) << chance.randrange(8))]) + bytes(names)
    if header[1] != recordings.xor_of(names):
        kinds.add("wrong check of the header")
    written = gcr(b"\x0f\x0f") + raw(b"\x55" * 9)
    gap = gap_of(chance, kinds, written, "01")
    out = "1" * chance.choice([40, 10, 11]) + gcr(header) + gap
    check = recordings.xor_of(data) ^ (one_in(chance, 12) << chance.randrange(8))
    if check != recordings.xor_of(data):
        kinds.add("wrong check of the data")
    if one_in(chance, 20):
        kinds.add("a wrong mark before a right one")
        out += "1" * 40 + gcr(b"\x08") + raw(b"\x55" * 3)
    block = gcr(bytes([second]) + data + bytes([check, 0, 0]))
    if one_in(chance, 8):
        place = 5 * chance.randrange(len(block) // 5)
        block = block[:place] + chance.choice(["00000", "00100", "01000", "11100", "11111", "00111"]) + block[place + 5 :]
        kinds.add("no code")
    return out + "1" * (40 if gap == written else 10) + block + raw(b"\x55" * 12)


def apple_sector(chance, kinds, cylinder, head, number, data):
    names = [chance.choice([254, 1, chance.randrange(256)]), cylinder, number]
    if one_in(chance, 8):
        field = chance.choice([1, 2])
        names[field] = chance.choice([names[field] ^ 1, 16, 35, 255])
        kinds.add(("", "another track", "no sector")[field])
    check = recordings.xor_of(names) ^ (one_in(chance, 10) << chance.randrange(8))
    if check != recordings.xor_of(names):
        kinds.add("wrong check of the header")
    field = bytearray(recordings.four_and_four(bytes(names + [check])))
    if one_in(chance, 6):
        field[chance.randrange(8)] &= 0xFF ^ chance.choice([0x80, 0x20, 0x08, 0x02])
        kinds.add("4-and-4 byte that lacks a bit of AA")
    unused = (0, 0)
    if one_in(chance, 4):
        unused = chance.randrange(4), chance.randrange(4)
        kinds.add("unused pairs of bits")
    nibbles = bytearray(recordings.six_and_two(data, unused))
    if one_in(chance, 6):
        nibbles[chance.randrange(343)] = chance.choice([0xAA, 0xD5, 0x95, 0xC0, chance.choice(recordings.NIBBLES), chance.randrange(128, 256)])
        kinds.add("another nibble")
    mark, between = 0xAD, ""
    if one_in(chance, 12):
        mark = chance.choice([0x96, 0xAA, 0xB5, 0xFF])
        kinds.add("wrong data mark")
    if one_in(chance, 12):
        between = "0" * chance.choice([1, 1, 2, 7, 8])
        kinds.add("zero cells after the data mark")
    out = raw(b"\xd5\xaa\x96" + bytes(field) + chance.choice([b"\xde\xaa\xeb", chance.randbytes(3)]))
    out += gap_of(chance, kinds, "1111111100" * 6, "1111111100")
    if one_in(chance, 20):
        kinds.add("a wrong mark before a right one")
        out += raw(b"\xd5\xaa\xb5\xff\xff")
    return out + raw(b"\xd5\xaa" + bytes([mark])) + between + raw(bytes(nibbles) + b"\xde\xaa\xeb") + "1111111100" * 14


def macintosh_sector(chance, kinds, cylinder, head, number, data):
    name = [cylinder & 0x3F, number, head * 32 + cylinder // 64, chance.choice([0x22, 0x02, chance.randrange(64)])]
    if one_in(chance, 8):
        field = chance.choice([0, 1, 2])
        name[field] ^= chance.choice([1, 0x20])
        kinds.add(("another track", "no sector", "another head")[field])
    check = recordings.xor_of(name) ^ (one_in(chance, 10) << chance.randrange(6))
    if check != recordings.xor_of(name):
        kinds.add("wrong check of the header")
    header = bytes(recordings.NIBBLES[value] for value in name + [check])
    tags, spare, own = bytes(12), 0, name[1]
    if one_in(chance, 3):
        tags, spare = chance.randbytes(12), chance.randrange(4)
        kinds.add("tags and spare bits")
    if one_in(chance, 12):
        own ^= 1
        kinds.add("data of another sector")
    values = recordings.macintosh_values(tags + data, spare)
    if one_in(chance, 10):
        values[699 + chance.randrange(4)] ^= 1 << chance.randrange(6)
        kinds.add("wrong check of the data")
    nibbles = bytearray(recordings.NIBBLES[value] for value in [own] + values)
    if one_in(chance, 6):
        nibbles[chance.randrange(704)] = chance.choice([0xAA, 0xD5, 0x95, 0xC0, chance.choice(recordings.NIBBLES), chance.randrange(128, 256)])
        kinds.add("another nibble")
    mark = 0xAD
    if one_in(chance, 12):
        mark = chance.choice([0x96, 0xAA, 0xB5, 0xFF])
        kinds.add("wrong data mark")
    out = raw(b"\xd5\xaa\x96" + header + chance.choice([b"\xde\xaa\xff", chance.randbytes(3)]))
    out += gap_of(chance, kinds, "1111111100" * 6, "1111111100")
    return out + raw(b"\xd5\xaa" + bytes([mark]) + bytes(nibbles) + b"\xde\xaa\xff") + "1111111100" * 16


SECTORS = {recordings.IbmFm: ibm_fm_sector, recordings.IbmMfm: ibm_mfm_sector, recordings.AmigaMfm: amiga_sector,
           recordings.CommodoreGcr: commodore_sector, recordings.AppleGcr: apple_sector,
           recordings.MacintoshGcr: macintosh_sector}


def damaged_cells(chance, kinds, cells):
    """A sector's cells, sometimes with cells turned, taken out or put in, or zeros in a row."""
    if not one_in(chance, 3):
        return cells
    place = chance.choice([chance.randrange(len(cells)), chance.randrange(min(1200, len(cells)))])
    roll = chance.random()
    if roll < 0.3:
        kinds.add("a cell turned")
        return cells[:place] + "10"[int(cells[place])] + cells[place + 1 :]
    if roll < 0.4:
        kinds.add("a cell taken out")
        return cells[:place] + cells[place + 1 :]
    if roll < 0.5:
        kinds.add("a cell put in")
        return cells[:place] + chance.choice("01") + cells[place:]
    # Zeros only where they stand beside zeros or take a few ones away, so that data zeros stay what they are.
    count = chance.choice([5, 6, 7, 8, 9, 20])
    kinds.add("eight zeros in a row" if count >= 8 else "up to seven zeros more")
    quiet = cells.find("1010101010", place)
    return zeros_at(cells, quiet if quiet >= 0 else place, count)


def sector(chance, kinds, form, k, number, data, calm):
    """A sector's cells, without any damage where it is to be calm."""
    while True:
        own = set()
        cells = SECTORS[type(form.recording)](chance, own, *form.tracks[k], number, data)
        cells = damaged_cells(chance, own, cells)
        if not (calm and own):
            kinds |= own
            return cells


def track_cells(chance, kinds, form, k, count):
    """Some sectors of a track, one after another, cut at both ends."""
    numbers, size = list(form.sector_numbers(k)), form.recording.size
    calm = one_in(chance, 3)
    out = []
    for _ in range(count):
        number = chance.choice(numbers[:3] if one_in(chance, 2) else numbers)
        data = random_data(chance, size)
        out.append(sector(chance, kinds, form, k, number, data, calm or one_in(chance, 2)))
        if one_in(chance, 5):
            kinds.add("a sector twice")
            if one_in(chance, 2):
                place = chance.randrange(size)
                data = data[:place] + bytes([data[place] ^ 1 << chance.randrange(8)]) + data[place + 1 :]
                kinds.add("a sector twice, with other data")
            out.append(sector(chance, kinds, form, k, number, data, calm or one_in(chance, 2)))
    cells = "".join(out)
    if one_in(chance, 5):
        kinds.add("cut at the front")
        cells = cells[chance.randrange(len(cells) // 3) :]
    if one_in(chance, 4):
        kinds.add("cut at the end")
        cells = cells[: len(cells) - chance.choice([chance.randrange(len(cells) // 3), chance.randrange(2000)])]
    return cells


# Times

def times_of(chance, kinds, cells, nominal):
    """Times for the ones of cells, the period at the first and the fine unit behind the last."""
    places = places_of_ones(cells)
    period, step, jitter = nominal, lambda: 0, lambda number: 0
    roll = chance.random()
    if roll < 0.3:
        kinds.add("undisturbed")
    elif roll < 0.65:
        kinds.add("disturbed within the bounds")
        period += chance.randrange(-nominal // 9, nominal // 9)
        step = lambda: chance.randrange(-nominal // 16384, nominal // 16384 + 1)
        jitter = lambda number: chance.randrange(-nominal // 8 + 1024, nominal // 8 - 1024)
    elif roll < 0.8:
        kinds.add("disturbed at the bounds")
        period = chance.choice([7 * nominal // 8 + 1, 9 * nominal // 8, nominal])
        jitter = lambda number: (-1) ** number * (nominal // 8)
    else:
        kinds.add("disturbed beyond the bounds")
        period = int(nominal * chance.uniform(0.6, 1.5))
        drift = chance.choice([0, 0, nominal // 2000, -nominal // 2000])
        step = lambda: drift
        reach = chance.choice([0.2, 0.3, 0.5, 1.0])
        jitter = lambda number: int(nominal * chance.uniform(-reach, reach))
    first, ideal, at, times, latest = period, 0, -1, [], 0
    for number, place in enumerate(places):
        ideal += (place - at) * period
        at = place
        latest = max(latest, (ideal + jitter(number)) // 1024)
        times.append(latest)
        period = min(max(period + step(), nominal // 2), 2 * nominal)
    return times, first


def holed(chance, kinds, times, nominal):
    """Times without those of a stretch, or with others put in."""
    if not times or not one_in(chance, 3):
        return times
    cell = nominal / 1024
    start = times[chance.randrange(len(times))]
    roll = chance.random()
    if roll < 0.5:
        cells = chance.choice([6, 12, 30, 32, 33, 40, 47, 48, 49, 60, 100, 1000])
        kinds.add("erased for less than 48 cells" if cells < 48 else "erased")
        return [time for time in times if not start < time < start + cells * cell]
    if roll < 0.7:
        kinds.add("silence put in")
        silence = int(chance.choice([31, 32, 33, 50, 3000, 200000]) * cell)
        return [time + silence * (time >= start) for time in times]
    kinds.add("transitions put in")
    count = chance.choice([1, 2, 70, 500])
    end = start + int(count * cell * chance.choice([0.3, 0.5, 1, 2]))
    return sorted(times + [chance.randrange(start, end + 1) for _ in range(count)])


def captured(chance, kinds, form, k, times, period):
    """Blocks of a stream with these times; its first revolution is of about the right length."""
    blocks, before = [], 0
    dense = one_in(chance, 10)
    for time in times:
        blocks += flux(chance, time - before)
        before = time
        if dense and one_in(chance, 50):
            blocks.append(chance.choice([nop(chance), ("StreamInfo", 0, 7), info(chance)]))
    ring = form.ring_cells(form.tracks[k][0])
    nominal = form.nominal(form.tracks[k][0])
    bend = chance.choice([0] * 10 + [nominal // 64, -nominal // 64, nominal // 64 + 2, nominal // 8, nominal, -nominal // 2])
    kinds.add("first revolution as the period" if bend == 0 else "first revolution off")
    turn = max(ring * (period + bend) // 1024, 1)
    start = chance.randrange(turn)
    indexes = [start + number * turn for number in range(chance.choice([2, 2, 3, 5]))]
    if times and one_in(chance, 3):
        kinds.add("index at a transition's time")
        indexes = sorted({*indexes[:1], indexes[0] + turn, chance.choice([time for time in times if time > indexes[0] + turn] or [indexes[-1] + 1])})
    return placed(chance, blocks + [("StreamEnd", 0, 0)] * (not one_in(chance, 5)), indexes) + [("end",)]


def placed(chance, blocks, indexes):
    """The blocks with an Index block for each of these times, at the block in which it lies or at an earlier one."""
    begins, before, total, ticks = layout(blocks)
    flux_numbers = [number for number, block in enumerate(blocks) if block[0] == "flux"]
    last = len(begins)
    for time in reversed(indexes):
        number = bisect.bisect_right(before, time) - 1
        if one_in(chance, 4):
            number -= chance.randrange(min(number + 1, 300)) if number >= 0 else 0
        if ticks <= time and one_in(chance, 2):
            position, sample = total, time - ticks
        elif number >= 0:
            position, sample = begins[number], time - before[number]
        else:
            position, sample = total, max(time - ticks, 0)
        last = min(last, max(number, 0))
        at = flux_numbers[last] if last < len(flux_numbers) else len([b for b in blocks if b[0] == "flux"])
        blocks = blocks[:at] + [("index", position, sample % 2**32, time // 8 % 2**32)] + blocks[at:]
    return blocks


def track_stream(chance, kinds, form, k, count=None):
    cylinder = form.tracks[k][0]
    count = count or chance.choice([1, 1, 2, 2, 3] if form.recording.size < 512 else [1, 1, 1, 2])
    cells = track_cells(chance, kinds, form, k, count)
    times, period = times_of(chance, kinds, cells, form.nominal(cylinder))
    times = holed(chance, kinds, times, form.nominal(cylinder))
    blocks = captured(chance, kinds, form, k, times, period)
    if one_in(chance, 12):
        return faulty(chance, blocks, kinds)
    return b"".join(spell(blocks))


# The pulses of a burst of noise, and the ticks of a microsecond

BURST, MICROSECOND = 64, 24


def with_burst(chance, kinds, times, start):
    """Times with pulses put in a microsecond apart, as at a splice, dirt or a scratch."""
    kinds.add("a burst of noise")
    first = start + chance.randrange(MICROSECOND)
    return sorted({*times, *range(first, first + BURST * MICROSECOND, MICROSECOND)})


def drifting(places, turn, nominal, reach):
    """Times of ones whose cell grows from the nominal one less `reach` of it to as much more, within a turn, and shrinks in the next."""
    ideal, at, times = 0, -1, []
    for place in places:
        along = abs(place / turn % 2 - 1)
        ideal += (place - at) * int(nominal * (1 - reach + 2 * reach * along))
        at = place
        times.append(ideal // 1024)
    return times


def noisy_track(chance, kinds, form, k):
    """A track as it is written, with a burst early in each revolution, one in the middle, or drift by a tenth or two over a turn."""
    cylinder = form.tracks[k][0]
    nominal = form.nominal(cylinder)
    ring, cells, turns = written_track(chance, form, k)
    places = places_of_ones(cells)
    reach = chance.choice([0.05, 0.1]) if one_in(chance, 3) else 0
    times = drifting(places, len(ring), nominal, reach)
    if reach:
        kinds.add("drift by a tenth" if reach < 0.1 else "drift by a fifth")
    indexes = [(turn + 1) * nominal // 1024 for turn in turns]
    if not reach or one_in(chance, 3):
        early = chance.randrange(2000)
        for start in chance.choice([indexes[:1], indexes, [index + len(ring) * nominal // 2048 for index in indexes]]):
            times = with_burst(chance, kinds, times, start + early)
    return stream_of_times(times, sorted({min(index, times[-1] - 1) for index in indexes}))


def written_track(chance, form, k):
    """The ring of a track with any data, the cells that are written of it, and the places of its indexes."""
    image = bytearray(form.image_bytes)
    image[form.places[k] : form.places[k + 1]] = random_data(chance, form.track_bytes(k))
    ring = form.ring_of(bytes(image), k)
    return ring, *written_cells(ring)


def whole_track(chance, kinds, form, k):
    """A track as it is written, three revolutions and a half, disturbed."""
    kinds.add("a whole track of three revolutions and a half")
    cylinder = form.tracks[k][0]
    _, cells, turns = written_track(chance, form, k)
    times, period = times_of(chance, kinds, cells, form.nominal(cylinder))
    times = holed(chance, kinds, times, form.nominal(cylinder))
    indexes = [min((turn + 1) * period // 1024, times[-1] - 1) for turn in turns]
    return stream_of_times(times, sorted(set(indexes)))
