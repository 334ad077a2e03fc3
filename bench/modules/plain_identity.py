"""Which disk a dump is of, off the definitions: each format that has a name, and the disks by numbers that the dump's own headers tell."""
from plain import FORMATS, RATES, numbered
from plain_dumps import MOST_CYLINDERS, MOST_DOUBLE_CYLINDERS, DumpAnswer, Dumps, Failed, no_files_line, reaches_all, read_tracks
from plain_recordings import IbmFm, IbmMfm, places_of
from plain_streams import Refused, file_stream, recovered

# files whose cylinder and head a disk by numbers may have
MOST_OWN_CYLINDERS = 99
# the middle of the cells of a turn of mfm-hd and of mfm-hd360, which have the same cell
MIDDLE_TURN = (200000 + 166656) // 2
# the head that headers name, of each of the drive's heads: its own; always the first; the other one
OWN, FIRST, CHANGED = (0, 1), (0, 0), (1, 0)
RECORDINGS = {"mfm": IbmMfm(1, 0, 0), "fm": IbmFm(1, 1, 128, 0, 0, 0, True)}


def found(form, steps, answer):
    """The line of a disk of which a sector is good, and how it is ranked: by most bytes in good sectors, then by fewest others that have data,
    then by the smallest disk."""
    good, total = answer.number["good"], sum(answer.number.values())
    words = "--double-step " * (steps - 1) + form.word
    line = f"{words} good {good} of {total} other {answer.whole}" + f" failed {answer.failed}" * (answer.failed > 0) + "\n"
    return line, (good * form.recording.size, -answer.whole, -total), words, good == total and answer.whole == 0


# The disks by numbers

def file_streams(shelf, dump):
    """The streams of a dump's files by cylinder and head, of those that came and are no refused ones."""
    streams = {}
    for cylinder in range(MOST_OWN_CYLINDERS):
        for head in (0, 1):
            try:
                content = shelf.track(dump, cylinder, head)
                if content is not None:
                    streams[cylinder, head] = file_stream(content)
            except (Failed, Refused):
                pass
    return streams


def is_of_rate(rate, stream, cells, place, data_place):
    """The turn says of which of the two rates of a cell whole data are."""
    if rate not in ("mfm-hd", "mfm-hd360"):
        return True
    time_at = lambda cell: stream.times[cells.count("1", 0, cell + 1) - 1]
    turn = stream.indexes[1] - stream.indexes[0]
    is_hd = (data_place - place) * turn >= MIDDLE_TURN * (time_at(data_place) - time_at(place))
    return is_hd == (rate == "mfm-hd")


def names_with_data(rate, stream):
    """The names of the headers of a stream, read by a rate, that have whole data of 128 to 1024 bytes."""
    recording, names = RECORDINGS[rate.split("-")[0]], set()
    cells = recovered(stream, *RATES[rate])
    for place in places_of(cells, recording.sync):
        name, end = recording.name(cells, place) or (None, None)
        if name is None or name[3] > 3:
            continue
        if any(is_of_rate(rate, stream, cells, place, q) for q, _ in recording.placed_data(cells, place, end, 128 << name[3])):
            names.add(name)
    return names


def numbers_of(names, code, steps, heads):
    """The sector numbers of each track (cylinder, head) that has some, of a drive that makes so many steps for a cylinder: those of the
    names that tell the track. A head that is not the drive's own tells it where all names of the file and the cylinder agree on it."""
    tracks = {}
    for (cylinder, head), stands in names.items():
        if cylinder % steps or steps == 2 and cylinder // 2 >= MOST_DOUBLE_CYLINDERS:
            continue
        mine = {name for name in stands if name[0] == cylinder // steps and name[3] == code}
        told = {name[2] for name in mine if name[1] == heads[head]}
        if told and (heads[head] == head or len({name[1] for name in mine}) == 1):
            tracks[cylinder // steps, head] = told
    return tracks


def is_looked_at(names, code, steps, heads):
    """Two steps where a track behind cylinder 0 has names so; one where one has them so, or none has by two steps."""
    reaches = lambda by: any(cylinder > 0 for cylinder, _ in numbers_of(names, code, by, heads))
    return reaches(steps) or steps == 1 and not reaches(2)


def word_of(rate, tracks, code):
    """The word of the numbers that tracks tell: a sector number counts that a quarter of the tracks have that the commonest one has."""
    count = {s: sum(s in numbers for numbers in tracks.values()) for numbers in tracks.values() for s in numbers}
    counts = [s for s in count if 4 * count[s] >= max(count.values())]
    first, sectors = min(counts), max(counts) - min(counts) + 1
    with_some = [track for track, numbers in tracks.items() if numbers.intersection(counts)]
    cylinders, heads = (1 + max(numbers) for numbers in zip(*with_some))
    return f"{rate}-{cylinders}x{heads}x{sectors}x{128 << code}@{first}", with_some


def heads_of(form):
    """The head that the format's headers name, of each of the drive's."""
    return CHANGED if getattr(form.recording, "exchanged", False) else OWN


def covers(named, form, steps, heads):
    """A format that has a name is a disk by numbers, or one of more cylinders."""
    same = lambda disk: (type(disk.recording), disk.nominal(0), disk.ring_cells(0), max(head for _, head in disk.tracks),
                         disk.recording.count, disk.recording.first, disk.recording.size)
    return (isinstance(named.recording, (IbmFm, IbmMfm)) and same(named) == same(form) and heads_of(named) == heads
            and len(named.tracks) >= len(form.tracks) and (steps == 1 or reaches_all(named)))


def by_numbers(rate, names, code, steps, heads):
    """The disk that the files' names tell of a rate, a size, so many steps and such heads, if they tell one that is not known by name."""
    tracks = numbers_of(names, code, steps, heads)
    if not tracks or not is_looked_at(names, code, steps, heads):
        return None
    word, with_some = word_of(rate, tracks, code)
    form = numbered(word)
    foreign = any(heads[head] != head for _, head in with_some)
    if form is None or foreign != (heads != OWN) or any(covers(named, form, steps, heads) for named in FORMATS.values()):
        return None
    return form


def foreign_heads(names, code, steps):
    """How the heads that names tell stand to the drive's, where they are not its own: changed where a file of the first head names the
    second, else always the first."""
    tracks = numbers_of(names, code, steps, CHANGED)
    return CHANGED if any(head == 0 for _, head in tracks) else FIRST


def disks_by_numbers(shelf, dump):
    """The candidates in order, each a format, its steps, and the heads that its headers name."""
    streams = file_streams(shelf, dump)
    disks = []
    for rate in RATES:
        names = {track: names_with_data(rate, stream) for track, stream in streams.items()}
        for code in range(4):
            for steps in (1, 2):
                for heads in (OWN, foreign_heads(names, code, steps)):
                    form = by_numbers(rate, names, code, steps, heads)
                    disks += [(form, steps, heads)] * (form is not None)
    return disks


# The best of all

def candidates():
    """The disks with names that a dump may be of: each format, with the steps that the drive made for one of its cylinders."""
    return [(form, steps, OWN) for form in FORMATS.values() for steps in ((1, 2) if reaches_all(form) else (1,))]


def has_failed(shelf, dump):
    """Whether one of all files that the dump may have fails, be it a track of a disk or not."""
    for cylinder in range(MOST_CYLINDERS):
        for head in (0, 1):
            try:
                shelf.track(dump, cylinder, head)
            except Failed:
                return True
            except Refused:
                pass
    return False


def foreign_line(form, steps, heads):
    """A disk whose headers name heads that are not the drive's is told, and not read."""
    told = "0" if heads == FIRST else "1 0"
    return "--double-step " * (steps - 1) + f"{form.word} names head {told}\n"


def identify(shelf, name, numbers=True, others=True):
    """The outcome of `identify`: a line for each disk of which a sector is good, then one for each whose headers name other heads, and the
    best of those that were read. Disks by numbers, and those of other heads, are among them where they are asked for."""
    lines, foreign, any_file, best = [], [], False, None
    disks = candidates()
    if numbers:
        any_file = any(shelf.has_track(name, cylinder, head) for cylinder in range(MOST_OWN_CYLINDERS) for head in (0, 1))
        disks += disks_by_numbers(shelf, name)
    for form, steps, heads in disks:
        dumps, answer = Dumps(shelf, [name], steps, clocks=(0,)), DumpAnswer(form)
        if heads != OWN and not others:
            continue
        if heads != OWN:
            foreign.append(foreign_line(form, steps, heads))
        elif dumps.first_empty(form) is None:
            any_file = True
            read_tracks(dumps, form, answer, always=False)
            if answer.number["good"]:
                line, rank, words, complete = found(form, steps, answer)
                lines.append(line)
                if best is None or rank > best[0]:
                    best = rank, words, complete
    if not any_file:
        return 2, b"", no_files_line(Dumps(shelf, [name]), 0)
    lines += [*foreign, f"best {best[1] if best else 'none'}\n"]
    return 8 if has_failed(shelf, name) else 0 if best and best[2] and not foreign else 1, "".join(lines).encode(), b""
