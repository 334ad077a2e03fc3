"""Whole disks of the formats, of which some tracks are good; sectors that are not; and what stands between streams."""
from shared import SHORT, Disk, Row, counted, revolutions, ring_of, with_cells

# Where a format's first sector stands in a ring and how far the next is after it, in cells, and the ticks of a cell in the streams that are made: of its zones, where it has some.
TRACKS = {
    "ibm-3740": (1264, 3008, 48),
    "ibm-320": (2528, 10464, 48),
    "ibm-360": (2528, 10464, 48),
    "ibm-720": (2528, 10464, 48),
    "ibm-1200": (2528, 10528, 24),
    "ibm-1440": (2528, 10912, 24),
    "atari-st-800": (2528, 9664, 48),
    "c1581": (2528, 9664, 48),
    "amiga": (32, 8704, 48),
    "amiga-hd": (32, 8704, 24),
    "apple-do": (330, 3104, 96),
    "apple-po": (330, 3104, 96),
    # One zero cell more stands in each sector.
    "apple-dos33": (330, 3105, 96),
    "apple-prodos": (330, 3105, 96),
}
COMMODORE = {21: (30, 2928, 78), 19: (30, 3000, 84), 18: (30, 2960, 90), 17: (30, 2936, 96),
             29: (30, 3176, 52), 27: (30, 3168, 56), 25: (30, 3200, 60), 23: (30, 3256, 64)}
MACINTOSH = {12: (160, 5988, 62), 11: (160, 5988, 68), 10: (160, 5988, 75), 9: (160, 5988, 83), 8: (160, 5988, 94)}

# Disks: the format; the tracks, in turn how many have no sector and the cylinder and head of a good one; how many bytes the image has; and some lines with their numbers from 0
DISKS = [
    ("ibm-3740", [77], 256256, {0: "00.0 01 missing 0 0", 1: "00.0 02 missing 0 0", 2001: "76.0 26 missing 0 0",
                                2002: "total 2002 good 0 bad 0 missing 2002 contradictory 0"}),
    ("ibm-3740", ["00.0", 76], 256256, {0: "00.0 01 good 3 0 1 1264", 1: "00.0 02 good 3 0 1 4272", 25: "00.0 26 good 3 0 1 76464",
                                        2002: "total 2002 good 26 bad 0 missing 1976 contradictory 0"}),
    ("ibm-360", [80], 368640, {0: "00.0 01 missing 0 0", 1: "00.0 02 missing 0 0", 719: "39.1 09 missing 0 0",
                               720: "total 720 good 0 bad 0 missing 720 contradictory 0"}),
    ("ibm-320", ["00.0", "00.1", 78], 327680, {15: "00.1 08 good 3 0 1 75776"}),
    ("ibm-360", ["00.0", "00.1", 78], 368640, {17: "00.1 09 good 3 0 1 86240"}),
    ("ibm-720", ["00.0", "00.1", 158], 737280, {17: "00.1 09 good 3 0 1 86240"}),
    ("ibm-1200", ["00.0", "00.1", 158], 1228800, {29: "00.1 15 good 3 0 1 149920"}),
    ("ibm-1440", ["00.0", "00.1", 158], 1474560, {35: "00.1 18 good 3 0 1 188032"}),
    ("atari-st-800", ["00.0", "00.1", 158], 819200, {19: "00.1 10 good 3 0 1 89504"}),
    # Headers under head 0 say 1.
    ("c1581", ["00.0", "00.1", 158], 819200, {0: "00.0 01 good 3 0 1 2528", 19: "00.1 10 good 3 0 1 89504"}),
    ("amiga", ["00.0", 158, "79.1"], 901120, {0: "00.0 00 good 3 0 1 32", 10: "00.0 10 good 3 0 1 87072",
                                              1760: "total 1760 good 22 bad 0 missing 1738 contradictory 0"}),
    ("amiga-hd", ["00.0", 158, "79.1"], 1802240, {21: "00.0 21 good 3 0 1 182816", 3519: "79.1 21 good 3 0 1 182816",
                                                  3520: "total 3520 good 44 bad 0 missing 3476 contradictory 0"}),
    # The first track of each zone
    ("c1541", ["00.0", 16, "17.0", 6, "24.0", 5, "30.0", 4], 174848, {0: "00.0 00 good 3 0 1 30", 614: "30.0 16 good 3 0 1 47006",
                                                                      683: "total 683 good 75 bad 0 missing 608 contradictory 0"}),
    # The last track, with its last sector in the image's last 256 bytes
    ("c1541-40", [39, "39.0"], 196608, {768: "total 768 good 17 bad 0 missing 751 contradictory 0"}),
    # The second side follows the first, with its own tracks' numbers.
    ("c1571", [34, "34.0", "00.1", 34], 349696, {666: "34.0 00 good 3 0 1 30", 683: "00.1 00 good 3 0 1 30",
                                                 1366: "total 1366 good 38 bad 0 missing 1328 contradictory 0"}),
    # The first track of each zone, and of the second side the last track
    ("c8050", ["00.0", 38, "39.0", 13, "53.0", 10, "64.0", 12], 533248, {0: "00.0 00 good 3 0 1 30", 28: "00.0 28 good 3 0 1 88958", 2082: "76.0 22 missing 0 0",
                                                                         2083: "total 2083 good 104 bad 0 missing 1979 contradictory 0"}),
    ("c8250", [76, "76.0", "00.1", 75, "76.1"], 1066496, {2060: "76.0 00 good 3 0 1 30", 2083: "00.1 00 good 3 0 1 30", 4165: "76.1 22 good 3 0 1 71662",
                                                          4166: "total 4166 good 75 bad 0 missing 4091 contradictory 0"}),
    ("apple-do", ["00.0", 33, "34.0"], 143360, {0: "00.0 00 good 3 0 1 330", 15: "00.0 15 good 3 0 1 46890",
                                                560: "total 560 good 32 bad 0 missing 528 contradictory 0"}),
    ("apple-po", ["00.0", 33, "34.0"], 143360, {0: "00.0 00 good 3 0 1 330", 15: "00.0 15 good 3 0 1 46890",
                                                560: "total 560 good 32 bad 0 missing 528 contradictory 0"}),
    ("apple-dos33", ["00.0", 33, "34.0"], 143360, {0: "00.0 00 good 3 0 1 330", 15: "00.0 15 good 3 0 1 46905",
                                                   560: "total 560 good 32 bad 0 missing 528 contradictory 0"}),
    ("apple-prodos", ["00.0", 33, "34.0"], 143360, {0: "00.0 00 good 3 0 1 330", 15: "00.0 15 good 3 0 1 46905",
                                                    560: "total 560 good 32 bad 0 missing 528 contradictory 0"}),
    # The first track of each zone
    ("mac-400", ["00.0", 15, "16.0", 15, "32.0", 15, "48.0", 15, "64.0", 15], 409600,
     {0: "00.0 00 good 3 0 1 160", 203: "17.0 00 missing 0 0", 800: "total 800 good 50 bad 0 missing 750 contradictory 0"}),
    # The last track, of the second head
    ("mac-800", [159, "79.1"], 819200, {1599: "79.1 07 good 3 0 1 42076", 1600: "total 1600 good 8 bad 0 missing 1592 contradictory 0"}),
]


def numbers_of(word, sectors):
    """The numbers of a track with so many sectors."""
    zones = COMMODORE if word.startswith(("c15", "c8")) else MACINTOSH if word.startswith("mac-") else {}
    return zones.get(sectors) or TRACKS[word]


def good_track(disk, content):
    """The next track is captured in three turns of its ring."""
    form, k = disk.form, len(disk.parts)
    sectors = len(form.sector_numbers(k))
    first, step, ticks = numbers_of(form.word, sectors)
    ring = ring_of(form.word, *form.tracks[k], content)
    disk.track(revolutions(ticks, ring, ring, ring), f"{sectors} x good 3 0 1 {first} +{step}", content)


def disks():
    for word, tracks, size, lines in DISKS:
        disk, name = Disk(word), f"{word} with {tracks}"
        for track in tracks:
            if isinstance(track, int):
                disk.without(track)
                continue
            k = len(disk.parts)
            cylinder, head = disk.form.tracks[k]
            assert track == f"{cylinder:02}.{head}", name
            content = counted(disk.form.track_bytes(k))
            # The other head has the bytes in reverse.
            good_track(disk, content[::-1] if head else content)
        report = disk.report().decode().splitlines()
        assert len(disk.image()) == size and len(disk.parts) == len(disk.form.tracks), name
        assert all(report[number] == line for number, line in lines.items()), name
        yield from disk.rows(name, 1)


def good_disk():
    """The 77 tracks of 26 sectors of 128 bytes of the IBM 3740 diskette."""
    disk, content = Disk("ibm-3740"), counted(256256)
    for at in range(0, len(content), 3328):
        good_track(disk, content[at : at + 3328])
    assert disk.report().endswith(b"76.0 26 good 3 0 1 76464\ntotal 2002 good 2002 bad 0 missing 0 contradictory 0\n")
    yield from disk.rows("a good disk", 0)


# In which turns one byte of sector 7 differs from the others', and the sector's verdict. It stands at cell 1264 + 6 * 3008 = 19312 of each ring, and a ring has 83328 cells.
READINGS = [
    ((0, 1, 0), "contradictory 3 0 1 19312 2 102640"),
    ((1, 0, 0), "contradictory 3 0 1 19312 2 102640"),
    ((0, 0, 1), "contradictory 3 0 1 19312 3 185968"),
]


def readings_that_differ():
    content = counted(3328)
    rings = [ring_of("ibm-3740", 0, 0, content), ring_of("ibm-3740", 0, 0, content[:800] + b"\xff" + content[801:])]
    for turns, verdict in READINGS:
        stream = revolutions(48, *(rings[turn] for turn in turns))
        disk = Disk("ibm-3740").track(stream, f"6 x good 3 0 1 1264 +3008; {verdict}; 19 x good 3 0 1 22320 +3008", content)
        yield from disk.without().rows(f"another byte in the turns {turns}", 1)


def wrong_mark():
    """The mark of sector 1's data stands 752 cells after its header's place 2528: after the header, a gap of 22 + 12 bytes and three marks.

    After the last bit of A1, which is a one, FB has the cells 5545 and FE the cells 5554. The header is not paired with the data of sector 2."""
    content = b"\xf6" * 4608
    ring = with_cells(ring_of("ibm-360", 0, 0, content), 3280, 0x5545, 0x5554)
    disk = Disk("ibm-360").track(revolutions(48, ring, ring, ring), "bad 0 3 1 2528; 8 x good 3 0 1 12992 +10464", content)
    yield from disk.without().rows("a wrong data mark", 1)


def padding():
    yield Row("a stream has its turn", ["turns"], SHORT, 0, b"transitions 2\nturn 1 197\n")
    disk = Disk("ibm-3740").without()
    streams = disk.streams
    # What follows the last track is not looked at, be it a stream or none.
    yield from disk.rows("streams follow", 1, SHORT * 84)
    yield from disk.rows("no stream follows", 1, SHORT * 77 + b"\x60\x0d\xff\xff")
    for count in (1, 15, 16):
        yield from disk.rows(f"{count} bytes of padding", 1, (b"\r" * count).join(streams))
    # The byte that is one too many is the first of a block 0D 0D 02 0C, which is an End of size 0C02. In front of the first stream there is no padding.
    yield Disk("ibm-3740").without(1).refused("17 bytes of padding", "refused track 1 block 0 BadSize 3074\n", (b"\r" * 17).join(streams))
    yield Disk("ibm-3740").refused("a byte of padding in front", "refused track 0 block 0 BadSize 3074\n", b"\r" + SHORT)


def rows():
    for part in (disks, good_disk, readings_that_differ, wrong_mark, padding):
        yield from part()
