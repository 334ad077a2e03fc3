"""What .ci/rows/rescued.py wants: the lines of the same streams, modules/case_captures.py, by the plain reading of modules/plain.py.

Each capture has two tables, of `decode` and of `rescue`, a row for lines that follow one another: how many, their text with the first one's place, and how
far the next is after it. Where a program is given, its answers have to be those of the plain reading, to the byte.

usage: bench/run rescued [PROGRAM]
"""
import os
import subprocess
import sys

import plain
import plain_commands
from case_captures import captures
from case_streams import FILLER
from plain_streams import Stream


def rows(lines):
    """Lines in rows, of those that follow one another with places that rise alike."""
    found = []
    for line in lines:
        text = line.split(maxsplit=2)[2]
        head, _, place = text.rpartition(" ")
        step = int(place) - found[-1][3] if found and found[-1][1] == head else None
        if step is not None and (found[-1][4] in (None, step) or head == "missing 0"):
            found[-1] = (found[-1][0] + 1, head, found[-1][2], int(place), step)
        else:
            found.append((1, head, int(place), int(place), None))
    return [(count, head, first, step or 0) for count, head, first, _, step in found]


def table(form, stream, clocks, title):
    answer = plain.Answer(form)
    names = [f"{clock} " if len(clocks) > 1 else "" for clock in clocks]
    answer.track(0, [entry for clock, name in zip(clocks, names) for entry in plain.read_by(form, 0, Stream(stream, 0), clock, name)])
    print(f"  {title}: {answer.totals()}")
    for count, head, first, step in rows(answer.lines):
        print("    " + f"{count} x " * (count > 1) + f"{head} {first}" + f" +{step}" * (step > 0))


def same(program, form, stream):
    data = stream + FILLER * (len(form.tracks) - 1)
    for command, both in (("decode", False), ("rescue", True)):
        done = subprocess.run([os.path.abspath(program), command, form.word], input=data, capture_output=True)
        if (done.returncode, done.stdout, done.stderr) != plain_commands.decode(form, data, both_clocks=both):
            return False
    return True


def main():
    program = sys.argv[1] if len(sys.argv) > 1 else None
    wrong = 0
    for name, form, stream in captures():
        print(f"{form.word}, {name}")
        table(form, stream, [0], "decode")
        table(form, stream, [0, 1], "rescue")
        if program and not same(program, form, stream):
            wrong += 1
            print("  WRONG: the program answers otherwise", flush=True)
    return 1 if wrong else 0


if __name__ == "__main__":
    sys.exit(main())
