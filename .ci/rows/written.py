"""Images that are written as streams and read back, as standard input or as files of a folder; and tracks that are written with a cell or a byte changed."""
from plain import written_cells
from plain_streams import places_of_ones, stream_of_times
from shared import SHORT, Disk, Row, files_of, in_streams, pc_verdicts, revolutions, ring_of, track_file, with_cells, written

# A 720 KB image of bytes F6, and what each command gives for its streams
IMAGE = b"\xf6" * 737280


def pc_disk(tracks=160):
    """What the first tracks of the image come to."""
    disk = Disk("ibm-720")
    for _ in range(tracks):
        disk.track(b"", pc_verdicts(), IMAGE)
    return disk


def stream_of(ring, nominal, *turns):
    """The stream that is written of a ring, with other rings in the place of its three turns."""
    cells, indexes = written_cells(ring)
    if turns:
        quarter = len(ring) // 4
        cells = cells[:quarter] + "".join(turns) + cells[-quarter:]
    return stream_of_times([(place + 1) * nominal // 1024 for place in places_of_ones(cells)], [(place + 1) * nominal // 1024 for place in indexes])


def image_that_comes_back():
    disk = pc_disk()
    streams = lambda program: written(program, "ibm-720", IMAGE)
    first = stream_of(ring_of("ibm-720", 0, 0, IMAGE[:4608]), 49208)
    yield Row("write", ["write", "ibm-720"], IMAGE, 0, None, b"",
              lambda output, _: None if output.startswith(first) and len(in_streams(output)) == 160 else "another first stream, or not 160")
    yield Row("the first stream's turns", ["turns"], lambda program: in_streams(streams(program))[0], 0,
              b"transitions 132933\nturn 1 4805468\nturn 2 4805469\nturn 3 4805469\n")
    yield Row("decode", ["decode", "ibm-720"], streams, 0, disk.image(), disk.report())
    yield Row("decode, and four cylinders more", ["decode", "ibm-720"], lambda program: streams(program) + SHORT * 8, 0, disk.image(), disk.report())
    yield Row("decode-folder", ["decode-folder", "ibm-720", "dump"], b"", 0, disk.image(), disk.report(),
              files=lambda program: files_of("dump", "ibm-720", in_streams(streams(program))))
    # The second stream is refused: an in-stream block, and then a block of the type 00.
    yield pc_disk(1).refused("refused", "refused track 1 block 1 UnknownType 0\n", lambda program: in_streams(streams(program))[0] + b"\x60\r\0\0\0")


# An image of another size than its format's: of so many zeros, and the line that refuses it. What a 1541 disk of forty tracks has is read to the first byte
# that is too many.
OTHER_SIZES = [("amiga", 0, 0, 901120), ("amiga", 901119, 901119, 901120), ("amiga", 901121, 901121, 901120), ("c1541", 196608, 174849, 174848)]


def images_of_another_size():
    for word, size, said, wanted in OTHER_SIZES:
        yield Row(f"{size} bytes of {word}", ["write", word], bytes(size), 2, b"", f"refused image {said} wanted {wanted}\n".encode())


# The first, the third and the last file of ibm-720, and what is said where it is missing
MISSING = [(0, "0 missing track00.0.raw"), (2, "2 missing track01.0.raw"), (159, "159 missing track79.1.raw")]


def folders():
    for number, said in MISSING:
        files = files_of("dump", "ibm-720", [SHORT] * 160)
        del files[[*files][number]]
        yield Row(f"without file {number}", ["decode-folder", "ibm-720", "dump"], b"", 2, b"", f"refused track {said}\n".encode(), files=files)
    # The first and the last track are good, with other bytes. Files of tracks that the disk has not, and of folders with longer and shorter names, are no streams.
    disk, rings = Disk("ibm-3740"), []
    for cylinder, content in ((0, b"\xe5" * 3328), (76, b"\x5e" * 3328)):
        disk.without(cylinder - len(disk.parts))
        ring = ring_of("ibm-3740", cylinder, 0, content)
        disk.track(revolutions(48, ring, ring, ring), "26 x good 3 0 1 1264 +3008", content)
    files = files_of("dump", "ibm-3740", disk.streams)
    for other in (track_file("dump", 0, 1), track_file("dump", 77, 0), track_file("dumps", 0, 0), track_file("dum", 1, 0)):
        files[other] = b"\r\x05\0\0"
    yield Row("other files", ["decode-folder", "ibm-3740", "dump"], b"", 1, disk.image(), disk.report(), files=files)


def changed_tracks():
    """First tracks, the others of whose disks have no sector."""
    content = IMAGE[:4608]
    pc = ring_of("ibm-720", 0, 0, content)
    # Sector 1 has other bytes in the second turn.
    other = ring_of("ibm-720", 0, 0, b"\xe5" * 512 + content[512:])
    stream = stream_of(pc, 49208, pc, other, pc)
    behind = "good 4 0 1 37991; good 3 1 1 48455; 4 x good 3 0 1 58919 +10464; 2 x good 4 0 0 775 +10464"
    yield "contradictory", Disk("ibm-720").track(stream, f"contradictory 4 0 1 27527 2 127527; {behind}", content)
    # The mark of its data is FE in the place of FB: its header is not paired with the data of sector 2.
    stream = stream_of(with_cells(pc, 3280, 0x5545, 0x5554), 49208)
    yield "a wrong mark", Disk("ibm-720").track(stream, f"bad 0 4 1 27527; {behind}", content)
    # In the first turn a data cell of the first byte E5 of sector 1 is inverted: its cells FEBB are BEBB.
    content = b"\xe5" * 3328
    ring = ring_of("ibm-3740", 0, 0, content)
    stream = stream_of(ring, 49208, with_cells(ring, 1664, 0xFEBB, 0xBEBB), ring, ring)
    yield "a wrong cell", Disk("ibm-3740").track(
        stream, "good 3 1 2 105424; 5 x good 4 0 1 25104 +3008; good 3 1 1 40144; 14 x good 3 0 1 43152 +3008; 5 x good 4 0 0 1936 +3008", content)
    # The two pairs of bits that stand for no byte are set in the values 84 and 85 of sector 0: then the nibbles 84 and 86 are those of 30, which is ED, in the
    # place of 96. The first nibble stands at cell 330 + 112 + 60 + 24 = 526.
    ring = ring_of("apple-do", 0, 0, bytes(4096))
    for place in (1198, 1214):
        ring = with_cells(ring, place, 0x9696, 0xED96)
    yield "unused bits", Disk("apple-do").track(
        stream_of(ring, 98416), "3 x good 4 0 1 12826 +3104; good 3 1 1 22138; 8 x good 3 0 1 25242 +3104; 4 x good 4 0 0 80 +3104", bytes(4096))


def rows():
    for part in (image_that_comes_back, images_of_another_size, folders):
        yield from part()
    for name, disk in changed_tracks():
        yield from disk.without().rows(name, 1)
