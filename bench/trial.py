"""How fast `flux trial` makes and decodes the disk of a number: seconds, peak resident memory.

usage: bench/run trial [PROGRAM [FORMAT..]]     (PROGRAM: crates/flux/out/flux; FORMAT: every one)

It checks that every sector is good, and that the sum is that of the image.
"""
import sys
import tempfile
from pathlib import Path

from disks import FORMATS
from measure import measure

TOP = Path(__file__).resolve().parent.parent
SEED = 1


def main():
    program = sys.argv[1] if len(sys.argv) > 1 else str(TOP / "crates/flux/out/flux")
    print(f"{'format':12} {'seconds':>9} {'MiB':>6}")
    for word in sys.argv[2:] or FORMATS:
        form = FORMATS[word]
        sectors = sum(form.sectors(cylinder) for cylinder, _ in form.tracks())
        total = sum((SEED + 167 * i + 13 * (i // 256)) % 256 for i in range(form.image_bytes()))
        wanted = f"trial {word} {SEED} tracks {len(list(form.tracks()))} sectors {sectors} good {sectors} bad 0 missing 0 contradictory 0 sum {total}\n"
        with tempfile.NamedTemporaryFile() as out:
            seconds, peak, code = measure([program, "trial", word, str(SEED)], "/dev/null", out.name)
            print(f"{word:12} {seconds:9.4f} {peak:6.1f}", flush=True)
            if code != 0 or Path(out.name).read_text() != wanted:
                sys.exit(f"{word}: exit code {code}, not the line that is wanted")


if __name__ == "__main__":
    main()
