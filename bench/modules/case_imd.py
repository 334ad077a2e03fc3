"""Dumps for compare.py of disks that have no format: tracks of any density, with sectors of any size and name, that say more than one thing.

Each function adds the names of what it makes to `kinds`.
"""
from case_dumps import dump_name, few, lacking
from case_others import around_a_header, lone_header, with_damaged_data, with_data
from case_streams import FILLER, flux, one_in, spell
from case_tracks import holed, placed, random_data, times_of
from plain import RATES, numbered
from plain_dumps import path_of
from plain_imd import DELETED, MOST_NAMES

# a disk of each rate
FORMS = [numbered(f"{rate}-1x1x1x128") for rate in RATES]


# What a track has: pieces of a rate, each with its sectors, (name, content, mark)

def names_on(chance, kinds, cylinder, head, count):
    """So many names: mostly of one size, and of the cylinder and the head."""
    code = chance.choice([0, 0, 0, 1, 1, 2, 3])
    if one_in(chance, 6):
        kinds.add("names of other cylinders")
        cylinder = chance.choice([cylinder // 2, cylinder + 1, 255])
    if one_in(chance, 6):
        kinds.add("names of other heads")
        head = chance.choice([0, 1, 255])
    names = [[cylinder, head, number, code] for number in chance.sample(range(chance.choice([8, 26, 256])), count)]
    if one_in(chance, 3):
        field = chance.choice([0, 1, 3, 3])
        kinds.add(("another cylinder", "another head", "", "sectors of several sizes")[field] + " on a track")
        chance.choice(names)[field] = chance.choice([0, 1, 2, 3, 4, 7] if field == 3 else [0, 1, 40, 200])
    return list(dict.fromkeys(map(tuple, names)))


def described(chance, kinds, cylinder, head, calm):
    """A track, whose headers mostly name this cylinder and head; always, in one density and size, where it is to be calm."""
    if calm:
        code, numbers = chance.choice([0, 1, 2]), chance.sample(range(30), chance.choice([1, 2, 3]))
        return [(chance.choice(FORMS), [((cylinder, head, number, code), random_data(chance, 128 << code), 0xFB) for number in numbers])]
    pieces = []
    for form in chance.sample(FORMS, chance.choice([1, 1, 1, 2, 3])):
        sectors = []
        for name in names_on(chance, kinds, cylinder, head, chance.choice([1, 1, 2, 3, 5])):
            mark = DELETED if one_in(chance, 5) else 0xFB
            sectors.append((name, random_data(chance, min(128 << name[3], 1024)), mark))
        pieces.append((form, sectors))
    if len(pieces) > 1:
        kinds.add("several densities on a track")
    if one_in(chance, 60):
        kinds.add(f"about {MOST_NAMES} names on a track")
        form = pieces[-1][0]
        count = MOST_NAMES + chance.choice([-1, 0, 1, 1, 9])
        pieces[-1] = form, [((number // 256, head, number % 256, 0), b"\xe5" * 128 if one_in(chance, 40) else b"", 0xFB) for number in range(count)]
    return pieces


# What a dump has of it

def sector_cells(chance, kinds, form, name, content, mark, calm):
    """A sector's cells: mostly whole."""
    roll = 15 if calm else chance.randrange(16)
    if roll == 0 or not content:
        kinds.add("a header without data")
        return lone_header(form, name)
    if roll == 1:
        return with_damaged_data(chance, kinds, form, name)
    if roll == 2:
        return around_a_header(chance, kinds, form, 0, name)
    if roll == 3:
        kinds.add("a sector of two contents")
        return with_data(form, name, content, mark=mark) + with_data(form, name, random_data(chance, len(content)), mark=mark)
    if roll == 4:
        kinds.add("a sector of two marks")
        return with_data(form, name, content, mark=mark) + with_data(form, name, content, mark=0xFB ^ DELETED ^ mark)
    if mark == DELETED:
        kinds.add("deleted data")
    return with_data(form, name, content, mark=mark)


def turn_of_pieces(chance, kinds, pieces, calm):
    """The times of a turn of a track, and the period of its first cells."""
    times, periods = [], []
    for form, sectors in pieces:
        cells = "".join(sector_cells(chance, kinds, form, *sector, calm) for sector in chance.sample(sectors, len(sectors)))
        own, period = times_of(chance, kinds, cells, form.nominal(0))
        own = own if calm else holed(chance, kinds, own, form.nominal(0))
        begin = times[-1] + chance.choice([50, 200, 3000]) if times else 0
        times += [begin + time for time in own]
        periods.append(period)
    return times, periods[0]


def file_of(chance, kinds, pieces, calm):
    """A file of one or two turns of a track, or one that is refused."""
    if not calm and one_in(chance, 20):
        return few(chance, kinds)
    times, period = turn_of_pieces(chance, kinds, pieces, calm)
    form = pieces[0][0]
    turn = form.ring_cells(0) * period // 1024
    if one_in(chance, 3):
        kinds.add("two turns of a track")
        begin = max(turn, times[-1] + 1)
        times = times + [begin + time for time in turn_of_pieces(chance, kinds, pieces, calm)[0]]
    first = chance.choice([0, times[len(times) // 3], chance.choice(times), chance.randrange(times[-1] + 1), turn])
    indexes = [first + number * turn for number in range(chance.choice([2, 2, 3]))]
    blocks = [block for before, time in zip([0] + times, times) for block in flux(chance, time - before)]
    return b"".join(spell(placed(chance, blocks + [("StreamEnd", 0, 0)], indexes) + [("end",)]))


def dump_of(chance, kinds, name, tracks, calm):
    """The files of a dump by their paths."""
    files = {path_of(name, *track): file_of(chance, kinds, pieces, calm) if pieces else FILLER for track, pieces in tracks.items()}
    if calm:
        return files
    if one_in(chance, 12):
        cylinder = chance.choice([82, 83, 97, 98, 99])
        kinds.add(f"a file of cylinder {cylinder}")
        files[path_of(name, cylinder, chance.randrange(2))] = FILLER
    return lacking(chance, kinds, name, files)


def case_imd(chance, kinds, built):
    """One or more dumps of a disk without a format; in some the drive made two steps for one of the disk's, whether it is asked for or not."""
    kinds.add("any disk as it is found")
    half, asks, calm = one_in(chance, 4), one_in(chance, 8), one_in(chance, 3)
    if half:
        kinds.add("two steps for one")
        asks = one_in(chance, 2)
    tracks = {}
    for cylinder in range(chance.choice([1, 2, 3, 4])):
        for head in range(chance.choice([1, 1, 2])):
            own = cylinder // 2 if half else cylinder
            tracks[cylinder, head] = None if one_in(chance, 5) else described(chance, kinds, own, head, calm)
    count = chance.choice([1, 1, 1, 2, 3])
    kinds |= {f"{count} dumps"} | ({"asked with two steps"} if asks else set()) | ({"whole sectors alone"} if calm else set())
    names, files = [], {}
    for number in range(count):
        names.append(dump_name(chance, kinds, number))
        files |= dump_of(chance, kinds, names[-1], tracks, calm)
    return [b"imd"] + [b"--double-step"] * asks + names, files
