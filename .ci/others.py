"""Dumps of small disks, all sectors good, with headers that name none of their sectors, by the coder of the plain reading in bench/modules.

usage: others.py FOLDER     (makes in it the folders that `check_others` of .ci/program reads)
"""
import sys
from pathlib import Path

sys.dont_write_bytecode = True
sys.path.insert(0, str(Path(__file__).resolve().parent.parent / "bench/modules"))

from case_others import lone_header, with_data          # noqa: E402
from plain import FORMATS                               # noqa: E402
from plain_dumps import path_of                         # noqa: E402
from plain_streams import places_of_ones, stream_of_times  # noqa: E402

# The first track of the PC's disk of 720 KB, its first four, and a disk of as many tracks with one small sector on each, whose cells are these first ones
TRACK, SIDES, DISK = FORMATS.get("mfm-dd-1x1x9x512"), FORMATS.get("mfm-dd-2x2x9x512"), FORMATS.get("mfm-dd-80x2x1x128")
CELLS = {TRACK: 100000, SIDES: 100000, DISK: 6000}


def stream(form, k, others):
    """One turn of a track whose sectors have zeros, and behind it headers of others and a short gap."""
    ring, nominal = form.ring_of(bytes(form.image_bytes), k), form.nominal(form.tracks[k][0])
    cells = ring[: CELLS[form]].ljust(len(ring), "0") + "".join(others) + "10" * 32
    times = [(place + 1) * nominal // 1024 for place in places_of_ones(cells)]
    return stream_of_times(times, [nominal // 1024, (len(ring) + 1) * nominal // 1024])


def put(folder, form, others):
    """The files of a dump: of each track what stands behind it."""
    folder.mkdir()
    for k, track in enumerate(form.tracks):
        Path(path_of(str(folder).encode(), *track).decode()).write_bytes(stream(form, k, others(k)))


def main(folder):
    of_track = lambda sector, code: (0, 0, sector, code)
    empty = [lone_header(TRACK, of_track(sector, 2)) for sector in range(100, 170)]
    put(folder / "many", TRACK, lambda k: empty + [with_data(TRACK, of_track(170, 2), bytes(512))])
    put(folder / "empty", TRACK, lambda k: empty)
    for code in (4, 6, 7):
        size = 128 << code
        put(folder / f"code{code}", TRACK, lambda k: [with_data(TRACK, of_track(66, code), bytes(range(256)) * (size // 256))])
    put(folder / "wrong", TRACK, lambda k: [with_data(TRACK, of_track(66, 4), bytes(2047))])
    put(folder / "sides", SIDES, lambda k: [])
    put(folder / "copied", DISK, lambda k: [lone_header(DISK, (*DISK.tracks[k], 66, 2))] * (k > 0))


main(Path(sys.argv[1]))
