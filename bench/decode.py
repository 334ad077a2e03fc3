"""How fast `flux decode`, `report`, `read` and `identify` go through whole disks: seconds, MB a second, peak resident memory.

usage: bench/run decode [PROGRAM [FORMAT..]]     (PROGRAM: crates/flux/out/flux; FORMAT: every one)

It makes a dump of each format, five revolutions a track, of an image of random bytes, and checks that the image comes
back with every sector good. The largest dump has some 60 MB and takes half a minute to make. `decode` and `report` get it joined, `read`
and `identify` as a folder; the last column has how many times the seconds of `decode` each takes. What the program lacks is left out.
"""
import os
import random
import sys
import tempfile
from pathlib import Path

from disks import FORMATS, dump
from measure import measure
from programs import commands_of

TOP = Path(__file__).resolve().parent.parent
TURNS = 5


class Dump:
    """A dump in a folder, and its streams joined in a file beside it."""

    def __init__(self, place, word, image, chance):
        self.joined, self.folder, self.nothing = place / "joined", place / "dump", place / "nothing"
        self.folder.mkdir()
        self.nothing.write_bytes(b"")
        tracks = FORMATS[word].tracks()
        with open(self.joined, "wb") as joined:
            for (cylinder, head), stream in zip(tracks, dump(word, image, TURNS, chance)):
                joined.write(stream)
                (self.folder / f"track{cylinder:02}.{head}.raw").write_bytes(stream)
        self.size = os.path.getsize(self.joined) / 1e6


def is_right(verb, word, written, image):
    """Whether this is what the command writes of a dump with the image."""
    form = FORMATS[word]
    sectors = sum(form.sectors(cylinder) for cylinder, _ in form.tracks())
    if verb == "report":
        return written.endswith(f"total {sectors} good {sectors} bad 0 missing 0 contradictory 0\n".encode())
    return f"{word} good {sectors} of {sectors} other 0\n".encode() in written if verb == "identify" else written == image


def rows(program, word, built, chance):
    """The rows of a format."""
    image = chance.randbytes(FORMATS[word].image_bytes())
    with tempfile.TemporaryDirectory() as place:
        given, out = Dump(Path(place), word, image, chance), Path(place, "out")
        commands = {"decode": [word], "report": [word], "read": [word, str(given.folder)], "identify": [str(given.folder)]}
        first = None
        for verb, more in commands.items():
            if verb.encode() not in built:
                continue
            seconds, peak, code = measure([program, verb, *more], given.joined if verb in ("decode", "report") else given.nothing, out)
            first = first or seconds
            print(f"{word:12} {verb:8} {given.size:7.1f} {seconds:9.4f} {given.size / seconds:7.1f} {peak:6.1f} {seconds / first:6.2f}", flush=True)
            if code != 0 or not is_right(verb, word, out.read_bytes(), image):
                sys.exit(f"{verb} {word}: exit code {code}, and not what was written")


def main():
    program = sys.argv[1] if len(sys.argv) > 1 else str(TOP / "crates/flux/out/flux")
    _, built = commands_of(program)
    chance = random.Random(1)
    print(f"{'format':12} {'command':8} {'MB':>7} {'seconds':>9} {'MB/s':>7} {'MiB':>6} {'times':>6}")
    for word in sys.argv[2:] or FORMATS:
        rows(program, word, built, chance)


if __name__ == "__main__":
    main()
