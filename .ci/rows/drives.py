"""A drive that turns over a track, what it captures, and whether that keeps within the bounds of disturbance: the premise of what is promised of captures."""
from typing import NamedTuple

from plain_streams import places_of_ones

FINE_PER_TICK = 1024
# How many nominal cells lie at least between two pieces
GAP = 48


class Transition(NamedTuple):
    """Its time in ticks, the place of its one in the repeated ring, the length of a cell there in fine units, and whether the one before is erased."""
    time: int
    place: int
    period: int
    after_erased: bool


class Capture(NamedTuple):
    transitions: list
    indexes: list

    def times(self):
        return [it.time for it in self.transitions]


def longest(nominal):
    return 9 * nominal // 8


def shortest(nominal):
    return (7 * nominal + 7) // 8


def captured(ring, nominal, period=None, drift=0, displacement=0, erased=()):
    """The capture of the ring's last quarter, of three turns, and of its first quarter. Lengths are in fine units.

    A cell is so long up to the second turn. Then its length changes by the drift from one transition to the next, shorter at first, and at each end of its range
    the drive turns to the other direction. Each transition is displaced from its place, by turns early and late; those of the erased stretches of the ring,
    each from the first cell to before the second, are not seen."""
    size, period = len(ring), period or nominal
    begin, end = size - size // 4, 4 * size + size // 4
    passed, ideal, longer, late, after = begin, 0, False, True, False
    capture = Capture([], [])
    ones = places_of_ones(ring)
    for place in [turn * size + cell for turn in range(5) for cell in ones if begin <= turn * size + cell < end]:
        if (len(capture.indexes) + 1) * size < place:
            # The index is seen at the end of the turn's first cell.
            cells = (len(capture.indexes) + 1) * size + 1 - passed
            capture.indexes.append((ideal + cells * period) // FINE_PER_TICK)
        ideal += (place + 1 - passed) * period
        passed, late = place + 1, not late
        if drift and place > 2 * size:
            period = min(period + drift, longest(nominal)) if longer else max(period - drift, shortest(nominal))
            longer = period < longest(nominal) if longer else period == shortest(nominal)
        gone = bool(erased) and any(first <= place % size < behind for first, behind in erased)
        if not gone:
            # The last tick that is late enough, or the first that is early enough
            moved = ideal + displacement if late or not displacement else ideal - displacement + FINE_PER_TICK - 1
            capture.transitions.append(Transition(moved // FINE_PER_TICK, place, period, after))
        after = gone
    return capture


def at_each_bound(ring, nominal):
    """As slow as may be, with as much drift as may be between the slowest and the fastest, and with each transition as far from its place as may be."""
    return captured(ring, nominal, longest(nominal), nominal // 16384, nominal // 8)


def is_capture(ring, nominal, capture):
    """Whether the transitions carry the ring in one piece over two turns or more."""
    transitions = capture.transitions
    return (transitions[0].place + 2 * len(ring) <= transitions[-1].place and not any(it.after_erased for it in transitions)
            and is_erased_capture(ring, nominal, capture))


def is_erased_capture(ring, nominal, capture):
    """Whether the transitions carry the ring in pieces, one or more, which lie so far apart, and each of which begins about as fast as the first turn tells."""
    first, second = capture.indexes[:2]
    mean = (second - first) * FINE_PER_TICK // len(ring)
    last = passed = least = most = None
    twice = 2 * ring
    for it in capture.transitions:
        if last is None or it.after_erased:
            if last and FINE_PER_TICK * (it.time - last.time) < GAP * nominal:
                return False
            if ring[it.place % len(ring)] != "1" or 64 * abs(mean - it.period) > nominal:
                return False
            passed, least, most = 0, 0, it.time * FINE_PER_TICK + nominal + nominal
        else:
            # No one stands between two ones.
            cells, behind = it.place - last.place, last.place % len(ring) + 1
            if twice[behind : behind + cells] != "0" * (cells - 1) + "1" or 16384 * abs(last.period - it.period) > nominal:
                return False
            passed += cells * last.period
        # The piece's first place, later by a nominal cell than it is, is one from which all others are near enough to their transitions.
        wanted = it.time * FINE_PER_TICK + nominal - passed
        least, most = max(least, wanted - nominal // 8), min(most, wanted + nominal // 8)
        if least > most or 8 * abs(it.period - nominal) > nominal:
            return False
        last = it
    return last is not None
