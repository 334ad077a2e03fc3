"""Disks of which several streams capture each track: of the Acorn, 40 tracks of ten sectors of 256 bytes; and of what is written of a 720 KB image."""
from shared import SHORT, Disk, Row, counted, in_streams, revolutions, ring_of, with_cells, written

# The bytes of a track's part of the image
PART = 2560

# Where sectors 0 and 3 stand in a ring: sector 0 at cell 352, and each next one 4960 cells on
PLACES = {0: 352, 3: 15232}

# The verdicts of a track of which the first stream lacks sector 0 and the second sector 3. Each has three turns.
PAIR = "good 3 0 1 1 352; 2 x good 6 0 0 1 5312 +4960; good 3 0 0 1 15232; 6 x good 6 0 0 1 20192 +4960"


def lacking(cylinder, content, sector):
    """A stream in which a sector's header has no mark: FE stands there as among data, with the cells FFFE in the place of F57E."""
    ring = with_cells(ring_of("acorn-dfs-40", cylinder, 0, content), PLACES[sector], 0xF57E, 0xFFFE)
    return revolutions(96, ring, ring, ring)


def acorn():
    content = counted(PART)
    first, second = (lacking(0, content, sector) for sector in (0, 3))
    # Alone each lacks a sector. The next stream, which is that of track 1, is not there.
    for stream, verdicts in ((first, "missing 0 0; 9 x good 3 0 1 5312 +4960"),
                             (second, "3 x good 3 0 1 352 +4960; missing 0 0; 6 x good 3 0 1 20192 +4960")):
        yield Disk("acorn-dfs-40").track(stream, verdicts, content).refused(f"one stream, {verdicts}", "refused track 1 block 0 Truncated\n", stream)
    image, disk = counted(40 * PART), Disk("acorn-dfs-40")
    for cylinder in range(40):
        part = image[PART * cylinder : PART * cylinder + PART]
        disk.track(lacking(cylinder, part, 0) + lacking(cylinder, part, 3), PAIR, part)
    assert disk.report().endswith(b"\ntotal 400 good 400 bad 0 missing 0 contradictory 0\n")
    yield Row("what one stream lacks the other has", ["decode-set", "acorn-dfs-40", "2"], disk.input(), 0, disk.image(), disk.report())
    # Two shortest streams of each of the tracks 1 to 19 and one of track 20, with the most padding between them; then one that is refused in a block of
    # the type 00 behind an Index block and a transition, and more.
    given = first + second + (b"\r" * 16).join([SHORT] * 39) + b"\r" * 16 + SHORT[:16] + b"\x60\r\0\0\0" + SHORT * 39
    disk = Disk("acorn-dfs-40").track(b"", PAIR, content).without(19)
    yield disk.refused("the second stream of a track", "refused track 20 capture 1 block 2 UnknownType 0\n", given, ["decode-set", "acorn-dfs-40", "2"])
    # Fifteen shortest streams of track 0, and one that lacks sector 0. The last stream of track 1 is not there.
    disk = Disk("acorn-dfs-40").track(b"", "missing 0 0; 9 x good 3 0 15 1 5312 +4960", content)
    yield disk.refused("sixteen streams", "refused track 1 capture 15 block 0 Truncated\n", SHORT * 15 + first + SHORT * 15, ["decode-set", "acorn-dfs-40", "16"])


# How many streams of a track a word says
COUNTS = [("1", 1), ("01", 1), ("9", 9), ("09", 9), ("10", 10), ("16", 16)]


def counts():
    """So many streams of each of 40 tracks are asked for, and no more."""
    for word, count in COUNTS:
        words, disk = ["decode-set", "acorn-dfs-40", word], Disk("acorn-dfs-40").without()
        yield Row(f"{word} streams of each track", words, SHORT * (40 * count), 1, disk.image(), disk.report())
        line = f"refused track 39 capture {count - 1} block 0 Truncated\n"
        yield Disk("acorn-dfs-40").without(39).refused(f"{word} streams of each track but one", line, SHORT * (40 * count - 1), words)


# The verdicts of each track where both streams are alike: those of one stream with all numbers of readings doubled, and with the capture, which is the first one,
# before turn and place
ALIKE = "good 8 0 0 1 27527"
BEHIND = "good 8 0 0 1 37991; good 6 2 0 1 48455; 4 x good 6 0 0 1 58919 +10464; 2 x good 8 0 0 0 775 +10464"

# Two captures of an image of bytes F6: the byte that the second one has in the first sector, the set's exit code, and the verdict of that sector
PAIRS = [(0xF6, 0, ALIKE), (0xE5, 1, "contradictory 8 0 0 1 27527 1 1 27527")]


def pairs():
    image = b"\xf6" * 737280
    for byte, code, verdict in PAIRS:
        disk = Disk("ibm-720")
        for first in (verdict, *[ALIKE] * 159):
            disk.track(b"", f"{first}; {BEHIND}", image)

        def given(program, byte=byte):
            both = (in_streams(written(program, "ibm-720", part)) for part in (image, bytes([byte]) * 512 + image[512:]))
            return b"".join(first + second for first, second in zip(*both))
        yield Row(f"two captures, the second with {byte:02X}", ["decode-set", "ibm-720", "2"], given, code, disk.image(), disk.report())


def rows():
    for part in (acorn, counts, pairs):
        yield from part()
