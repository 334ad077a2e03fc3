"""Tracks for compare.py with headers that name none of a track's sectors: of more names than are told, and with data of any size, whole or not.

Each function adds the names of what it makes to `kinds`.
"""
import plain_recordings as recordings
from case_streams import one_in, spell
from case_tracks import captured, holed, random_data, sector, times_of
from plain_dumps import MOST_TOLD
from plain_recordings import MfmList, fm, gcr, raw, word

# FM's data marks
MARKS = {0xFB: 0xF56F, 0xF8: 0xF56A}
# The size code behind which no data are looked for, and how many bytes are written there all the same
NO_SIZE, BYTES_OF_NO_SIZE = 7, 1000


# Headers and data of any name: of each recording the cells of a header, those between it and the data, and those of the data

def mfm(fill):
    """The cells of a list that is filled after a gap's zeros."""
    out = MfmList().bytes(bytes(12)).mark(0x4489, 3)
    fill(out)
    return out.cells()


def ibm_mfm(name, data, inside, mark=0xFB):
    header = mfm(lambda out: out.bytes(recordings.checked(b"\xa1" * 3, bytes([0xFE, *name]))))
    content = recordings.checked(b"\xa1" * 3, bytes([mark]) + data)

    def with_marks(out):
        # where a header stands inside the data, its first bytes A1 are marks
        if inside is None:
            out.bytes(content)
        else:
            out.bytes(content[: inside + 1]).mark(0x4489, 3).bytes(content[inside + 4 :])
        out.bytes(b"\x4e" * 24)

    return header, MfmList().bytes(b"\x4e" * 22).cells(), mfm(with_marks)


def ibm_fm(name, data, inside, mark=0xFB):
    header = fm(bytes(6)) + word(0xF57E) + fm(recordings.checked(b"\xfe", bytes(name)))
    content = fm(recordings.checked(bytes([mark]), data))
    if inside is not None:
        content = content[: 16 * inside] + word(0xF57E) + content[16 * inside + 16 :]
    return header, fm(b"\xff" * 11 + bytes(6)), word(MARKS[mark]) + content + fm(b"\xff" * 20)


def amiga(name, data, inside):
    out = MfmList()
    recordings.AmigaMfm(11, 266).frame(out, bytes([0xFF, *name, 11]), bytes(16), data)
    cells = out.cells()
    return cells[:512], "", cells[512:] + "10" * 32


def commodore(name, data, inside):
    names = bytes([name[1], name[0], 0xA3, 0xA2])
    header = "1" * 40 + gcr(bytes([8, recordings.xor_of(names)]) + names + b"\x0f\x0f")
    return header, raw(b"\x55" * 9), "1" * 40 + gcr(b"\x07" + data + bytes([recordings.xor_of(data), 0, 0])) + raw(b"\x55" * 12)


def apple(name, data, inside):
    names = bytes([254, *name])
    header = raw(b"\xd5\xaa\x96" + recordings.four_and_four(names + bytes([recordings.xor_of(names)])) + b"\xde\xaa\xeb")
    return header, "1111111100" * 6, raw(b"\xd5\xaa\xad" + recordings.six_and_two(data) + b"\xde\xaa\xeb") + "1111111100" * 14


def macintosh(name, data, inside):
    header = raw(b"\xd5\xaa\x96" + bytes(recordings.NIBBLES[value] for value in [*name, recordings.xor_of(name)]) + b"\xde\xaa\xff")
    content = bytes(recordings.NIBBLES[value] for value in [name[1]] + recordings.macintosh_values(bytes(12) + data))
    return header, "1111111100" * 6, raw(b"\xd5\xaa\xad" + content + b"\xde\xaa\xff") + "1111111100" * 16


PIECES = {recordings.IbmMfm: ibm_mfm, recordings.IbmFm: ibm_fm, recordings.AmigaMfm: amiga, recordings.CommodoreGcr: commodore,
          recordings.AppleGcr: apple, recordings.MacintoshGcr: macintosh}
IBM = recordings.IbmMfm, recordings.IbmFm


def some_name(chance, form, k, code):
    """A name of a header, near to those of the track's sectors or any."""
    cylinder, head = form.tracks[k]
    near = chance.choice([cylinder, cylinder, chance.randrange(256)])
    if isinstance(form.recording, IBM):
        return near, chance.choice([head, head, chance.randrange(256)]), chance.randrange(256), code
    if isinstance(form.recording, recordings.MacintoshGcr):
        return tuple(chance.randrange(64) for _ in range(4))
    return chance.choice([near, 2 * near % 256, near + 1 & 0xFF]), chance.randrange(256)


def names_of_others(chance, form, k, codes):
    """A name for each of these size codes, of which none is another or that of a sector of the track."""
    names = []
    for code in codes:
        while True:
            name = some_name(chance, form, k, code)
            if name not in names and form.recording.own(name, *form.tracks[k]) is None:
                names.append(name)
                break
    return names


def bytes_of(form, name):
    return form.recording.size_of(name) or BYTES_OF_NO_SIZE


def lone_header(form, name):
    """A header without data, and cells up to the next one."""
    header, between, _ = PIECES[type(form.recording)](name, bytes(form.recording.size), None)
    return header + (between or "10" * 32)


def with_data(form, name, content, inside=None, **more):
    """A header and these data; inside them a header's first byte may stand at a place. Of IBM's recordings the data's mark may be told."""
    return "".join(PIECES[type(form.recording)](name, content, inside, **more))


def with_whole_data(chance, form, name, size=None):
    return with_data(form, name, random_data(chance, size or bytes_of(form, name)))


def with_damaged_data(chance, kinds, form, name):
    """A header whose data are cut, have a cell turned, a byte more or less than the name says, or a frame that is broken."""
    size, roll = bytes_of(form, name), chance.randrange(5)
    if roll == 0 and isinstance(form.recording, IBM):
        kinds.add("data of another size behind a header of others")
        return with_whole_data(chance, form, name, chance.choice([size - 1, size + 1, size // 2, 2 * size]))
    header, between, data = PIECES[type(form.recording)](name, random_data(chance, size), None)
    place = chance.randrange(len(data) // 8, len(data) - len(data) // 8)
    if roll == 1:
        kinds.add("cut data behind a header of others")
        return header + between + data[:place]
    if roll == 2:
        kinds.add("eight zeros or more in data behind a header of others")
        zeros = chance.choice([8, 9, 31, 40])
        return header + between + data[:place] + "0" * zeros + data[place + zeros :]
    kinds.add("a cell turned in data behind a header of others")
    return header + between + data[:place] + "10"[int(data[place])] + data[place + 1 :]


def around_a_header(chance, kinds, form, k, name):
    """Whole data in which a whole header of a sector of the track stands, or of another name, with its marks."""
    size, recording = bytes_of(form, name), form.recording
    inner = (*form.tracks[k], recording.first, recording.code) if one_in(chance, 2) else names_of_others(chance, form, k, [0])[0]
    before = b"\xa1" * 3 if isinstance(recording, recordings.IbmMfm) else b""
    address = before + recordings.checked(before, bytes([0xFE, *inner]))
    content = bytearray(random_data(chance, size))
    at = chance.randrange(20, size - 20)
    content[at : at + len(address)] = address
    kinds.add("a header inside data of others")
    return with_data(form, name, bytes(content), at)


# Tracks

def many_names(chance, kinds, form, k):
    """As many names as are told, some less or more, of which a few have data, before and behind the last one that is told."""
    count = MOST_TOLD + chance.choice([-1, 0, 1, 1, 2, 6, 60])
    kinds.add(f"{'more than' if count > MOST_TOLD else 'up to'} {MOST_TOLD} names of others")
    names = names_of_others(chance, form, k, [chance.choice([0, 0, 0, 2, NO_SIZE]) for _ in range(count)])
    edges = [0, MOST_TOLD - 1, MOST_TOLD, count - 1]
    chosen = {at for at in chance.sample(edges, chance.choice([0, 1, 1, 2])) if at < count}
    if one_in(chance, 4):
        chosen.add(chance.randrange(count))
    if any(at >= MOST_TOLD for at in chosen):
        kinds.add(f"data behind the {MOST_TOLD}th name of others")
    out = []
    for at, name in enumerate(names):
        out.append(with_whole_data(chance, form, name) if at in chosen else lone_header(form, name))
    for at in chance.choice([[], [], [0], [count - 1], [0, MOST_TOLD - 2]]):
        kinds.add("a name of others again, at the end")
        out.append(with_whole_data(chance, form, names[at]) if one_in(chance, 2) else lone_header(form, names[at]))
    return out


def any_sizes(chance, kinds, form, k):
    """A few names with data of any size, whole or not, or without."""
    codes = [chance.choice([0, 1, 2, 3, 4, 4, 5, 5, 6, NO_SIZE]) for _ in range(chance.choice([1, 1, 2, 3]))]
    out = []
    for name in names_of_others(chance, form, k, codes):
        if isinstance(form.recording, IBM):
            kinds.add(f"a header of others of size code {name[3]}")
        roll = chance.randrange(8)
        if roll == 0:
            out.append(lone_header(form, name))
        elif roll < 3:
            out.append(with_damaged_data(chance, kinds, form, name))
        elif roll == 3 and isinstance(form.recording, IBM):
            out.append(around_a_header(chance, kinds, form, k, name))
        else:
            out.append(with_whole_data(chance, form, name))
    return out


def traces(chance, kinds, form, k):
    """The header 66 that a copying program of the Atari leaves, or another, without data, once or more often."""
    kinds.add("headers of others without data")
    name = names_of_others(chance, form, k, [2])[0]
    if isinstance(form.recording, IBM):
        name = (*form.tracks[k], 66, 2)
    return [lone_header(form, name)] * chance.choice([1, 1, 2, 5])


def others_track(chance, kinds, form, k):
    """The stream of a track with headers of others, before, between and behind sectors of its own."""
    made = chance.choice([many_names, any_sizes, any_sizes, traces])
    parts = made(chance, kinds, form, k)
    numbers = list(form.sector_numbers(k))
    for number in chance.sample(numbers, min(len(numbers), chance.choice([0, 1, 1, 2]))):
        own = sector(chance, kinds, form, k, number, random_data(chance, form.recording.size), not one_in(chance, 4))
        parts.insert(chance.randrange(len(parts) + 1), own)
    times, period = times_of(chance, kinds, "".join(parts), form.nominal(form.tracks[k][0]))
    if one_in(chance, 4):
        times = holed(chance, kinds, times, form.nominal(form.tracks[k][0]))
    return b"".join(spell(captured(chance, kinds, form, k, times, period)))
