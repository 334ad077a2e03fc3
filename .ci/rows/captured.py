"""Tracks as a drive captures them at each bound of disturbance and beyond one, and with erased stretches."""
import drives
from plain_streams import stream_of_times
from shared import Disk, Row, counted, in_streams, pc_verdicts, ring_of, written

# The nominal cell of the disks whose first tracks are captured
NOMINAL = {"ibm-3740": 49208, "ibm-360": 49208, "c1541": 79963}


class Track:
    """The first track of a disk, with bytes that differ from sector to sector."""

    def __init__(self, word):
        self.word, self.nominal = word, NOMINAL[word]
        self.content = counted(len(Disk(word).without(1).image()))
        self.ring = ring_of(word, 0, 0, self.content)

    def captured(self, **manner):
        return drives.captured(self.ring, self.nominal, **manner)

    def row(self, name, capture, lost=(), said=()):
        """`decode` of a disk that begins with it: each sector is good and has its bytes, or is one of those that may be lost and has zeros.

        `said` has sectors, from 0, and how their verdicts begin."""
        stream = stream_of_times(capture.times(), capture.indexes)

        def wrong(output, errors):
            sectors = len(Disk(self.word).without(1).lines)
            verdicts = [line[8:] for line in errors.decode().split("\n")[:sectors]]
            for number, verdict in enumerate(verdicts):
                kinds = ("good ", "bad ", "missing ") if number in lost else ("good ",)
                if not verdict.startswith(kinds) or not verdict.startswith(dict(said).get(number, "")):
                    return f"sector {number} is {verdict}"
            disk = Disk(self.word).track(stream, "; ".join(verdicts), self.content).without()
            return None if (output, errors) == (disk.image(), disk.report()) else f"other bytes than those of {verdicts}"

        given = Disk(self.word).track(stream, f"{len(Disk(self.word).without(1).lines)} x missing 0 0").without().input()
        return Row(f"{self.word}, {name}", ["decode", self.word], given, 1, None, None, wrong)


# The length of a cell, its drift and the displacement where a cell has 49208 fine units: the bounds are 55359, 3 and 6151, and each row goes
# beyond one of them, by a fine unit or by a tick.
BEYOND = [(55359, 4, 6151), (55359, 3, 6151 + 1024), (55360, 0, 6151)]


def bounds(track):
    """What the bounds are is looked at: one more than each allows is seen."""
    within = drives.at_each_bound(track.ring, track.nominal)
    assert drives.is_capture(track.ring, track.nominal, within)
    for period, drift, displacement in BEYOND:
        beyond = track.captured(period=period, drift=drift, displacement=displacement)
        assert not drives.is_erased_capture(track.ring, track.nominal, beyond), (period, drift, displacement)
    steady = track.captured()
    assert drives.is_capture(track.ring, track.nominal, steady)
    # Transitions of less than two turns may be a piece of the ring, and are no capture of it all.
    piece = drives.Capture(steady.transitions[:1000], steady.indexes)
    assert not drives.is_capture(track.ring, track.nominal, piece) and drives.is_erased_capture(track.ring, track.nominal, piece)
    # The first turn has 70,000 ticks more, which is 860 fine units a cell.
    steady.indexes[1] += 70000
    assert not drives.is_erased_capture(track.ring, track.nominal, steady)


def at_each_bound(track):
    capture = drives.at_each_bound(track.ring, track.nominal)
    assert drives.is_capture(track.ring, track.nominal, capture), track.word
    yield track.row("at each bound", capture)


def transition_beyond():
    """In the data of sector 1, in one turn and then in the other ones too, a transition comes a whole cell late."""
    track = Track("ibm-360")
    capture = track.captured()
    assert drives.is_capture(track.ring, track.nominal, capture)
    for place in (105000, 205000, 305000, 405000):
        number = next(number for number, it in enumerate(capture.transitions) if it.place >= place)
        late = capture.transitions[number]
        capture.transitions[number] = late._replace(time=late.time + 48)
        assert not drives.is_erased_capture(track.ring, track.nominal, capture), place
        yield track.row(f"a transition beyond the bound at {place}", capture, lost=[0])


# Erased stretches in the data block of a 1541's sector 0, which has the cells 232 to 2831: how many cells they have, whether that is within the bounds, how the line
# of sector 0 begins, and the sectors that may be lost. The drive is slower by 22 fine units a cell, so that 48 of its cells last 48 nominal cells also in whole
# ticks, and 47 do not.
STRETCHES = [(48, True, "bad 0 4 1 ", [0]), (47, False, "", range(21))]


def stretches(track):
    for cells, is_within, said, lost in STRETCHES:
        place = next(place for place in range(1000, 2000) if track.ring[place] == track.ring[place + cells] == "1")
        capture = track.captured(period=track.nominal + 22, erased=[(place + 1, place + cells)])
        assert drives.is_erased_capture(track.ring, track.nominal, capture) is is_within, cells
        yield track.row(f"a stretch of {cells} cells", capture, lost, [(0, said)])


def cut_sectors(track):
    """The data of the sectors 1 and 26 begin at the cells 1264 + 400 and 76464 + 400."""
    capture = track.captured(erased=[(2000, 2100), (78000, 78300)])
    assert drives.is_erased_capture(track.ring, track.nominal, capture)
    yield track.row("the first and the last sector cut", capture, [0, 25], [(0, "bad 0 4 "), (25, "bad 0 4 ")])


def erased_disk():
    """The streams of a 720 KB image of bytes F6 as the program writes them, in which the transitions of the cells 4000 to 4099 of the first track are erased.

    They lie in the data of sector 1, and are passed four times. The distance over them is 104 cells and counts 32, so that later places are 72 lower."""
    image = b"\xf6" * 737280
    ring = ring_of("ibm-720", 0, 0, image[:4608])
    steady, erased = (drives.captured(ring, 49208, erased=stretch) for stretch in ([], [(4000, 4100)]))
    assert drives.is_capture(ring, 49208, steady) and drives.is_erased_capture(ring, 49208, erased)
    assert erased.indexes == steady.indexes
    disk = Disk("ibm-720").track(b"", "bad 0 4 1 27527; good 4 0 1 37919; good 3 1 1 48383; 4 x good 3 0 1 58847 +10464; 2 x good 4 0 0 775 +10464", image)
    while len(disk.parts) < 160:
        disk.track(b"", pc_verdicts(), image)

    def given(program):
        first, *others = in_streams(written(program, "ibm-720", image))
        # Without that the first stream is the one that the program writes.
        if first != stream_of_times(steady.times(), steady.indexes):
            return b""
        return b"".join([stream_of_times(erased.times(), erased.indexes), *others])

    yield Row("a disk with an erased stretch", ["decode", "ibm-720"], given, 1, disk.image(), disk.report())


def rows():
    single_density, group_code = Track("ibm-3740"), Track("c1541")
    bounds(single_density)
    for part in (at_each_bound(group_code), at_each_bound(single_density), transition_beyond(), stretches(group_code), cut_sectors(single_density), erased_disk()):
        yield from part
