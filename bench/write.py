"""How fast `flux write` makes streams of images, and `flux decode` reads them back: seconds, MB a second of streams,
peak resident memory.

usage: bench/run write [PROGRAM [FORMAT..]]     (PROGRAM: crates/flux/out/flux; FORMAT: every one)

It writes an image of random bytes of each format, and checks that what was written is read as the same image.
"""
import filecmp
import os
import random
import sys
import tempfile
from pathlib import Path

from disks import FORMATS
from measure import measure

TOP = Path(__file__).resolve().parent.parent


def main():
    program = sys.argv[1] if len(sys.argv) > 1 else str(TOP / "crates/flux/out/flux")
    chance = random.Random(1)
    print(f"{'format':12} {'command':8} {'MB':>7} {'seconds':>9} {'MB/s':>7} {'MiB':>6}")
    with tempfile.TemporaryDirectory() as folder:
        image, streams, again = (os.path.join(folder, name) for name in ("image", "streams", "again"))
        for word in sys.argv[2:] or FORMATS:
            with open(image, "wb") as file:
                file.write(chance.randbytes(FORMATS[word].image_bytes()))
            for verb, source, target in (("write", image, streams), ("decode", streams, again)):
                seconds, peak, code = measure([program, verb, word], source, target)
                size = os.path.getsize(streams) / 1e6
                print(f"{word:12} {verb:8} {size:7.1f} {seconds:9.4f} {size / seconds:7.1f} {peak:6.1f}", flush=True)
                if code != 0:
                    sys.exit(f"{verb} {word}: exit code {code}")
            if not filecmp.cmp(image, again, shallow=False):
                sys.exit(f"{word}: not the image that was written")


if __name__ == "__main__":
    main()
