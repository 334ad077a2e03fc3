"""Tracks that one clock reads and the other does not, decoded by `rescue`: what each clock reads, and what both come to.

Of each recording a stream with a burst of noise (64 pulses, a microsecond apart) before the first sector of each revolution and one in the
middle of each; a track whose speed drifts by a tenth to both sides within each revolution, which clock 0 alone reads; one with such drift and bursts,
which neither reads whole; and an Amiga track whose second revolution has two data bits turned, so that a damaged sector has a matching check
value. Where a program is given, its answers have to be those of the plain reading, to the byte. It says what it found, and ends
with 1 where that is not so.

usage: bench/run rescue [PROGRAM]
"""
import os
import random
import subprocess
import sys

import plain
import plain_commands
from case_streams import FILLER
from case_tracks import drifting, with_burst, written_track
from plain_streams import Stream, places_of_ones, stream_of_times

WORDS = "ibm-3740", "ibm-720", "amiga", "c1541", "apple-do"
failed = []


def stream_with(form, cells, ring, turns, reach, starts):
    """The stream of a track's cells, with drift and with bursts at these parts of a revolution."""
    nominal = form.nominal(0)
    indexes = [(turn + 1) * nominal // 1024 for turn in turns]
    times = drifting(places_of_ones(cells), len(ring), nominal, reach)
    for index in indexes[:-1]:
        for part in starts:
            times = with_burst(random.Random(1), set(), times, index + int(part * len(ring) * nominal / 1024))
    return stream_of_times(times, indexes)


def good_by(form, stream, clocks):
    """The verdicts over the readings of some clocks on the first track."""
    answer = plain.Answer(form)
    answer.track(0, [entry for clock in clocks for entry in plain.read_by(form, 0, Stream(stream, 0), clock, f"{clock} ")])
    return answer.number


def show(program, name, form, stream, holds):
    """Prints what the clocks read, compares the program's answer, and looks whether what is said of the case holds."""
    first, second, both = (good_by(form, stream, clocks) for clocks in ([0], [1], [0, 1]))
    said = holds(first, second, both)
    same = True
    if program:
        data = stream + FILLER * (len(form.tracks) - 1)
        done = subprocess.run([os.path.abspath(program), "rescue", form.word], input=data, capture_output=True)
        same = (done.returncode, done.stdout, done.stderr) == plain_commands.decode(form, data, both_clocks=True)
    if not (said and same):
        failed.append(name)
    total = sum(both.values())
    print(f"{form.word:9} {name:28} good by clock 0: {first['good']:2}, by clock 1: {second['good']:2}, by both: {both['good']:2} of {total}"
          + ", contradictory: 1" * both["contradictory"] + (", as the program" if program and same else "") + ("" if said and same else "  WRONG"))


def amiga_with_turned_bits(form, ring):
    """The cells of a written Amiga track, of which the second revolution has two data bits of one column turned in its first sector."""
    cells, turns = plain.written_cells(ring)
    # the first sector's marks are the ring's cells from 32 on, and its data come 480 cells after them
    data = turns[1] + 32 + 480
    for column in range(1, 32, 2):
        ones = [place for place in range(data + column, data + 256 * 32, 32) if cells[place] == "1"]
        if len(ones) > 1:
            return "".join("0" if place in ones[:2] else cell for place, cell in enumerate(cells)), turns
    raise SystemExit("no two bits of a column to turn")


def main():
    program = sys.argv[1] if len(sys.argv) > 1 else None
    for word in WORDS:
        form = plain.FORMATS[word]
        ring, cells, turns = written_track(random.Random(5), form, 0)
        kept = lambda first, second, both: both["good"] >= first["good"] and both["contradictory"] == 0
        more = lambda first, second, both: both["good"] == sum(both.values()) > first["good"]
        mfm = word in ("ibm-720", "amiga")
        show(program, "bursts before the first", form, stream_with(form, cells, ring, turns, 0, [0.002]), more if mfm else kept)
        show(program, "bursts in the middle", form, stream_with(form, cells, ring, turns, 0, [0.5]), kept)
        show(program, "drift by a tenth", form, stream_with(form, cells, ring, turns, 0.1, []),
             lambda first, second, both: first["good"] == both["good"] == sum(both.values()))
        show(program, "drift and bursts", form, stream_with(form, cells, ring, turns, 0.12, [0.002, 0.3, 0.6, 0.9]), kept)
    form = plain.FORMATS["amiga"]
    ring, _, _ = written_track(random.Random(5), form, 0)
    cells, turns = amiga_with_turned_bits(form, ring)
    show(program, "two bits turned", form, stream_with(form, cells, ring, turns, 0, []), lambda first, second, both: both["contradictory"] == 1)
    print(f"{len(failed)} cases are not as they should be" if failed else "all cases are as they should be")
    return 1 if failed else 0


if __name__ == "__main__":
    sys.exit(main())
