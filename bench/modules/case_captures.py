"""Tracks as a drive captures them, with noise, drift and lost transitions: those of which .ci/rows/rescued.py says what they come to."""
import itertools

import plain
from plain_recordings import AmigaMfm, IbmMfm
from plain_streams import places_of_ones, stream_of_times

WORDS = "ibm-3740", "ibm-720", "amiga", "c1541", "apple-do"

# The pulses of a burst, and the ticks of a microsecond.
PULSES, MICROSECOND = 64, 24


def content_of(form):
    """The bytes of the first track's sectors: 0 to 250 again and again."""
    return bytes(number % 251 for number in range(form.track_bytes(0)))


def ring_of(form):
    """The ring of the first track with that content."""
    size, content = form.recording.size, content_of(form)
    return form.recording.ring(0, 0, [content[at : at + size] for at in range(0, len(content), size)], (65, 66))


def captured(ring, nominal, drift=0, bursts=(), lost=()):
    """The stream of the ring's last quarter, of three turns and of its first quarter.

    Places are those of the repeated ring. A cell is shorter than the nominal one by so many hundredths in the middle of a turn and longer by
    as many at its begin and end; at each place of `bursts` pulses begin, and those of `lost` have no transition."""
    size, most = len(ring), nominal * drift // 100
    lengths = [nominal - most + 2 * most * abs(2 * cell - size) // size for cell in range(size)]
    ends = [0, *itertools.accumulate(lengths)]
    first, last = size - size // 4, 4 * size + size // 4
    fine_ends = [(place, ends[place + 1] - ends[first]) for place in places_of_ones(ring)]

    def begin_of(place):
        """When the cell at a place begins, in ticks."""
        return (place // size * ends[size] + ends[place % size] - ends[first]) // 1024

    times = set()
    for turn in range(5):
        before, base = turn * size, turn * ends[size]
        times.update([(base + end) // 1024 for place, end in fine_ends if first <= before + place < last])
    times.difference_update([begin_of(place + 1) for place in lost])
    for place in bursts:
        if first <= place < last:
            times.update(range(begin_of(place), begin_of(place) + PULSES * MICROSECOND, MICROSECOND))
    return stream_of_times(sorted(times), [begin_of(turn * size + 1) for turn in range(1, 5)])


def each_turn(ring, *places):
    """These places of each turn."""
    return [turn * len(ring) + place for turn in range(1, 5) for place in places]


# Where a burst begins that ends before the first sector's header, 60 cells before it.
BEFORE = {"ibm-3740": 1204, "ibm-720": 2468, "amiga": -28, "c1541": -30, "apple-do": 270}

# The lowest bits of the longs 0 and 1 of an Amiga's sector 0, which the bytes 3 and 7 have, stand at the ends of their even halves: the
# frame begins at cell 32, its data 480 cells on with 128 odd halves of 32 cells, and then the even ones.
LOWEST_BITS = [32 + 480 + 32 * (128 + long) + 31 for long in (0, 1)]


def captures():
    """Each capture: its name, its format, and its stream."""
    for word in WORDS:
        form = plain.FORMATS[word]
        ring = ring_of(form)
        for name, manner in manners(form, ring):
            yield name, form, captured(ring, form.nominal(0), **manner)


def manners(form, ring):
    """How the track is captured."""
    before = BEFORE[form.word]
    yield "bursts before the first sector", {"bursts": each_turn(ring, before)}
    yield "bursts in the middle", {"bursts": each_turn(ring, len(ring) // 2)}
    yield "drift by a tenth", {"drift": 10}
    if isinstance(form.recording, (IbmMfm, AmigaMfm)):
        yield "drift and bursts", {"drift": 12, "bursts": each_turn(ring, *(len(ring) * k // 8 for k in range(8)))}
    if form.word == "amiga":
        lost = [2 * len(ring) + bit for bit in LOWEST_BITS]
        yield "a damaged sector with a matching check value", {"lost": lost}
        yield "a damaged sector that one clock reads", {"lost": lost, "bursts": [2 * len(ring) + before]}
