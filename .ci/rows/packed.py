"""Dumps that are SCP files: they read as the streams that their tracks stand for, and what is said of those that are damaged."""
import struct

import plain_dumps
import plain_imd
import plain_info
from plain import FORMATS
from plain_dumps import Dumps, Shelf
from shared import SHORT, Row, counted, track_file
from unpacked import DISK, NO_FILES, ONE, SIZE, TRACKS, TWO, disk_of, files_of, scp_file, track

import scp
from plain_streams import Stream
from shared import in_streams, written

WHOLE = "total 64 good 64 bad 0 missing 0 contradictory 0\n"
# The commands that read dumps, with the words before theirs
COMMANDS = [["read", DISK], ["read", "--picture", DISK], ["show", DISK, "0.0", "1"], ["identify"], ["info"], ["imd"]]


def ends(*lines):
    """Whether standard error ends with these lines."""
    wanted = "".join(lines).encode()
    return lambda output, errors: None if errors.endswith(wanted) else f"{errors[-200:]!r}"


def begins(lines):
    """Whether standard error begins with these lines, behind which none is like them."""
    def wrong(output, errors):
        rest = errors.removeprefix(lines)
        if len(rest) != len(errors) - len(lines) or b" scp sum " in rest or b" scp ShortData " in rest.replace(b" refused scp ", b""):
            return f"{errors[:200]!r}"
    return wrong


def some_tracks(program, numbers):
    """An SCP file of some tracks of the disk, and the files of all others in a folder."""
    streams = dict(enumerate(in_streams(written(program, DISK, counted(SIZE)))))
    others = {track_file("b", *divmod(number, 2)): stream for number, stream in streams.items() if number not in numbers}
    return {"a.scp": scp.scp({number: Stream(streams[number], 0) for number in numbers}, 2, 0, 168, False, False)} | others


def whole_disks():
    for turns in (1, 2, 5):
        yield Row(f"read of {turns} revolutions", ["read", DISK, "disk.scp"], b"", 0, counted(SIZE), None, ends("unread 0 other 0 whole 0\n", WHOLE),
                  files=lambda program, turns=turns: {"disk.scp": disk_of(program, turns)})
    yield Row("read of a name in great letters", ["read", DISK, "a/DISK.ScP"], b"", 0, counted(SIZE), None, ends(WHOLE),
              files=lambda program: {"a/DISK.ScP": disk_of(program, 2)})
    yield Row("read of a folder that is named as an SCP file", ["read", DISK, "made.scp/"], b"", 0, counted(SIZE), None, ends(WHOLE),
              files=lambda program: {path.replace("made", "made.scp"): data for path, data in files_of(disk_of(program, 2)).items()})
    for words in (["a.scp", "b"], ["b", "a.scp"]):
        yield Row(f"read of {words}, each of which lacks tracks", ["read", DISK, *words], b"", 0, counted(SIZE), None,
                  ends("unread 4 other 0 whole 0\n", WHOLE), files=lambda program: some_tracks(program, (0, 3)))
    yield Row("two steps for one", ["read", "--double-step", DISK, "a.scp"], b"", 0, counted(SIZE), None, ends("unread 0 other 0 whole 0\n", WHOLE),
              files=lambda program: {"a.scp": scp.scp({number + number // 2 * 2: Stream(stream, 0) for number, stream in
                                                       enumerate(in_streams(written(program, DISK, counted(SIZE))))}, 2, 0, 168, False, False)})


def refused_files():
    for name, given, fault in NO_FILES:
        for words in COMMANDS:
            yield Row(f"{' '.join(words)} of {name}", [*words, "disk.scp"], b"", 2, b"", f"refused dump 0 scp {fault}\n".encode(), files={"disk.scp": given})
        yield Row(f"read of {name} behind a folder", ["read", DISK, "a", "disk.scp"], b"", 2, b"", f"refused dump 1 scp {fault}\n".encode(),
                  files={"disk.scp": given, track_file("a", 0, 0): SHORT})
    for words in COMMANDS:
        yield Row(f"{' '.join(words)} of no file", [*words, "disk.scp"], b"", 2, b"", b"refused dump 0 disk.scp is not there\n")
    given = {"disk.scp": scp_file({166: track(166, ONE)})}
    yield Row("read of other tracks", ["read", DISK, "disk.scp"], b"", 1, None, None, ends("total 64 good 0 bad 0 missing 64 contradictory 0\n"),
              files={"disk.scp": scp_file({2: track(2, ONE), 166: track(166, ONE)})})
    yield Row("read of no track of the disk", ["read", DISK, "disk.scp"], b"", 2, b"", b"refused dump 0 disk.scp has files of other tracks alone\n", files=given)
    yield Row("read of a folder in the file's place", ["read", DISK, "disk.scp"], b"", 8, bytes(SIZE), None, ends("total 64 good 0 bad 0 missing 64 contradictory 0\n"),
              files={track_file("disk.scp", 0, 0): SHORT})


def damaged_tracks():
    """What is told of each track, as of the files of the streams for which they stand."""
    for name, tracks, told, _, _ in TRACKS:
        given = scp_file(tracks, revolutions=2)
        shelf = Shelf({"disk.scp": given})
        yield Row(f"info of {name}", ["info", "disk.scp"], b"", *plain_info.info(shelf, b"disk.scp"), files={"disk.scp": given})
        yield Row(f"imd of {name}", ["imd", "disk.scp"], b"", *plain_imd.imd(Dumps(shelf, [b"disk.scp"])), files={"disk.scp": given})
        if told and b"ShortData 1" not in told and tracks:
            line = told.replace(b" refused", b" dump 0 refused", 1).decode()
            yield Row(f"read of {name}", ["read", "mfm-dd-84x2x1x128", "disk.scp"], b"", 1, None, None,
                      lambda output, errors, line=line: None if line.encode() in errors else f"{line!r} is not told", files={"disk.scp": given})
    given = scp_file({number: track(number, *TWO) for number in range(168)}, revolutions=2)
    yield Row("info of all tracks", ["info", "disk.scp"], b"", *plain_info.info(Shelf({"disk.scp": given}), b"disk.scp"), files={"disk.scp": given})
    yield Row("info of the files of all tracks", ["info", "made"], b"", *plain_info.info(Shelf({"disk.scp": given}), b"disk.scp"), files=files_of(given))


# A file's one track. The sum of its bytes, with those of its offset, is 56A: B0 2; 54 52 4B 3; 12 7A 2 1C, 12 7A 2 20; twice F A0 17 70.
ALONE, SUM, OTHER = {3: track(3, *TWO)}, 0x56A, 0x9ABCDEF0
SUMMED = b"scp sum 0000056A wanted 9ABCDEF0\n"
# The commands that tell what is noted, and those that do not
TELL = [["read", "mfm-dd-84x2x1x128"], ["read", "--picture", "mfm-dd-84x2x1x128"], ["imd"], ["info"]]
DO_NOT = [["show", "mfm-dd-84x2x1x128", "1.1", "1"], ["identify"]]


def outcome_of(words, names, files):
    """What a command of TELL comes to by the plain reading."""
    dumps = Dumps(Shelf(files), [name.encode() for name in names])
    if words[0] == "info":
        return plain_info.info(dumps.shelf, *dumps.names)
    if words[0] == "imd":
        return plain_imd.imd(dumps)
    return (plain_dumps.draw if "--picture" in words else plain_dumps.read)(dumps, FORMATS.get(words[-1]))


def noted(name, given, lines, commands=TELL):
    """These lines stand at the head of what is told of a file, and all else is as the plain reading has it."""
    files = {"disk.scp": given}
    for words in commands:
        yield Row(f"{' '.join(words)} of {name}", [*words, "disk.scp"], b"", *outcome_of(words, ["disk.scp"], files), begins(lines), files=files)


def summed_files():
    yield from noted("a file of another sum", scp_file(ALONE, 2, wanted=OTHER), b"dump 0 " + SUMMED)
    # Sums are of 32 bits, of all bytes to the end, and without the header's.
    yield from noted("a sum of which one bit is another", scp_file(ALONE, 2, wanted=SUM + (1 << 31)), b"dump 0 scp sum 0000056A wanted 8000056A\n", [["info"]])
    yield from noted("a sum of more than 32 bits", scp_file(ALONE, 2, wanted=OTHER) + b"\xff" * 16843009, b"dump 0 scp sum 00000569 wanted 9ABCDEF0\n", [["info"]])
    yield from noted("a file of its sum", scp_file(ALONE, 2, wanted=SUM), b"")
    yield from noted("a file of another sum that may be written to", scp_file(ALONE, 2, flags=0x11, wanted=OTHER), b"")
    yield from noted("a hard disk of another sum", scp_file(ALONE, 2, flags=0x41, wanted=OTHER), b"")
    yield from noted("no track and another sum", scp_file({}, wanted=OTHER), b"dump 0 scp sum 00000000 wanted 9ABCDEF0\n")


def ending(number, whole):
    """A track of three revolutions, inside one of which the file ends."""
    data = bytearray(track(number, ONE, ONE, ONE))
    struct.pack_into("<I", data, 8 + 12 * whole, 100000)
    return bytes(data)


def early_ends():
    tracks = {number: ending(number, whole) for number, whole in ((0, 0), (4, 1), (5, 2), (166, 1))} | {6: track(6, ONE, ONE, ONE)}
    lines = b"02.0 dump 0 scp ShortData 1\n02.1 dump 0 scp ShortData 2\n83.0 dump 0 scp ShortData 1\n"
    yield from noted("tracks that end early", scp_file(tracks, 3), lines)
    # B0 2; 54 52 4B 4; 12 7A 2 28, 12 7A A0 86 1 2C, 12 7A 2 30; three times F A0 17 70
    yield from noted("a track that ends early, of another sum", scp_file({4: ending(4, 1)}, 3, wanted=OTHER),
                     b"dump 0 scp sum 0000089C wanted 9ABCDEF0\n02.0 dump 0 scp ShortData 1\n")
    # What is left of this track is no stream.
    no_turn = bytearray(ending(5, 1))
    struct.pack_into("<I", no_turn, 4, 0)
    yield from noted("a track that ends early and has no turn", scp_file({5: bytes(no_turn)}, 3), b"02.1 dump 0 scp ShortData 1\n")


def several_dumps():
    files = {"a.scp": scp_file(ALONE, 2, wanted=OTHER), "b.scp": scp_file({4: ending(4, 2)}, 3, wanted=1), track_file("c", 1, 1): SHORT}
    first, second = SUMMED, b"scp sum %08X wanted 00000001\n" % sum(files["b.scp"][16:])
    for names, lines in ((["a.scp", "c", "b.scp"], b"dump 0 " + first + b"dump 2 " + second + b"02.0 dump 2 scp ShortData 2\n"),
                         (["c", "b.scp", "a.scp"], b"dump 1 " + second + b"02.0 dump 1 scp ShortData 2\ndump 2 " + first)):
        for words in TELL[:3]:
            yield Row(f"{' '.join(words)} of {names}", [*words, *names], b"", *outcome_of(words, names, files), begins(lines), files=files)
    # A file that fails as it is looked at makes the exit code 8, were it that another dump is not there.
    fails = {track_file("disk.scp", 0, 0): SHORT}
    for words in TELL:
        yield Row(f"{' '.join(words)} of a folder in the file's place", [*words, "disk.scp"], b"", *outcome_of(words, ["disk.scp"], fails),
                  begins(b"dump 0 scp failed\n"), files=fails)
    yield Row("read of what fails and what is not there", ["read", DISK, "disk.scp", "b"], b"", 8, b"", b"dump 0 scp failed\nrefused dump 1 b is not there\n", files=fails)


def commands_that_do_not_look():
    given = {"disk.scp": scp_file(ALONE | {4: ending(4, 1)}, 2, wanted=OTHER)}
    for words in DO_NOT:
        yield Row(f"{' '.join(words)} of a file of another sum", [*words, "disk.scp"], b"", 1, None, None, begins(b""), files=given)


def rows():
    yield from whole_disks()
    yield from refused_files()
    yield from damaged_tracks()
    yield from summed_files()
    yield from early_ends()
    yield from several_dumps()
    yield from commands_that_do_not_look()
