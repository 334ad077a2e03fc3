"""Disks of dumps of which all is kept: each row's files are those of the plain reading of the definitions (bench/modules/plain_archive.py), whose
image, report and picture are those that it has for `read`."""
import dataclasses
import json
import random
import sys
from pathlib import Path

import plain_archive
from case_others import others_track
from plain import FORMATS, stream_of
from plain_files import VERSION, Outside
from plain_streams import Stream
from shared import SHORT, Row, counted, track_file

sys.path.insert(0, str(Path(__file__).resolve().parents[2] / "samples"))
import scp                                                # noqa: E402

USAGE = b"usage: flux archive [--format FORMAT [--double-step]] FOLDER DUMP...\n"
# Disks of few tracks
DISK, FORM = "mfm-dd-2x2x16x256", FORMATS.get("mfm-dd-2x2x16x256")
NAMED = ["--format", DISK]
NUMBERS = '"sectors":{"all":64,"good":%d,"bad":0,"missing":%d,"contradictory":0}'


def disk(folder, step=1):
    """The files of a disk of bytes that all differ."""
    image = counted(FORM.image_bytes)
    return {track_file(folder, step * cylinder, head): stream_of(FORM.ring_of(image, k), FORM.nominal(cylinder))
            for k, (cylinder, head) in enumerate(FORM.tracks)}


def slower(folder, *numbers):
    """The files of tracks of such numbers, of a drive that turns by one in a hundred slower."""
    ring = lambda k: FORM.ring_of(counted(FORM.image_bytes), k)
    return {track_file(folder, *FORM.tracks[k]): stream_of(ring(k), 101 * FORM.nominal(FORM.tracks[k][0]) // 100) for k in numbers}


def without(files, *tracks):
    """The same without the files of these tracks."""
    return {path: content for path, content in files.items() if path not in [track_file(path.split("/")[0], *track) for track in tracks]}


def in_scp_file(files):
    """The same disk, of the folder `a`, as an SCP file."""
    streams = {2 * cylinder + head: Stream(files[track_file("a", cylinder, head)], 0) for cylinder, head in FORM.tracks}
    return scp.scp(streams, 2, 0, 168, False, False)


def row(name, words, files, code, said=None, most=None, report=b""):
    """A row whose bytes and files are those of the plain reading; it has to say this, where something is given, and its report begins so."""
    asked = plain_archive.asked([b"archive", *map(str.encode, words)])
    outside = Outside(b"", {path.encode(): content for path, content in files.items()}, most)
    ends, output, errors, left = plain_archive.archive(asked, outside, True, True)

    def wrong(came, notes):
        if ends != code or said is not None and said.encode() not in output + errors:
            return f"the plain reading ends with {ends}: {output + errors!r}"
        if code < 2 and "notes" not in json.loads(output):
            return "no summary"
        if not left.get(asked[1] + b"/report.txt", b"").startswith(report):
            return "no such report"
    return Row(name, ["archive", *words], b"", code, output, errors, wrong, files=files, left={path.decode(): content for path, content in left.items()}, most=most)


def rows():
    whole = disk("a")
    line = f'{{"version":"{VERSION}","format":"{DISK}","steps":"single","dumps":1,{NUMBERS % (64, 0)},"unread":0,"failed":0,"others":0,"whole":0,"notes":[],"status":0}}\n'
    named = row("all of a disk that is named", [*NAMED, "kept", "a"], whole, 0, line)
    yield named
    yield dataclasses.replace(named, name="all of a disk that is found", words=["archive", "kept", "a"])
    yield row("all of one by two steps", [*NAMED, "--double-step", "kept/", "a/track00.0.raw"], disk("a", 2), 0, '"steps":"double"')
    # What a word that is too small for the disk leaves out
    small = ["--format", "mfm-dd-2x2x15x256", "kept", "a"]
    yield row("all of a smaller disk", small, whole, 1, '{"cylinder":1,"head":1,"name":[1,1,16,1],"headers":8,"whole":8}')
    lacking = without(whole, (0, 1)) | {track_file("a", 1, 0): whole[track_file("a", 1, 0)][:20000]}
    yield row("all of a dump that lacks files", [*NAMED, "kept", "a"], lacking, 1, '"unread":"refused","block":')
    yield row("all of two dumps", [*NAMED, "kept", "a", "b"], lacking | disk("b"), 0, '"dumps":2,' + NUMBERS % (64, 0))
    yield row("all of a dump with a folder in the place of a file", [*NAMED, "kept", "a"], whole | {track_file("a", 1, 1): None}, 8,
              '"failed":1,"others":0,"whole":0,"notes":[{"cylinder":1,"head":1,"dump":0,"unread":"failed"},')
    chance = random.Random("kept")
    others = {track_file("a", *track): others_track(chance, set(), FORM, k) for k, track in enumerate(FORM.tracks)}
    yield row("all of a dump with headers of others", [*NAMED, "kept", "a"], others, 1, '"verdict":"missing"')
    slow = whole | slower("a", 3)
    yield row("all of a dump with a file of a slower drive", [*NAMED, "kept", "a"], slow, 0, '"notes":[{"cylinder":1,"head":1,"dump":0,"uneven":')
    # Each dump has a median of its own: the first track of the second one turned faster than its others.
    both = slow | disk("b") | slower("b", 1, 2, 3) | {track_file("b", 98, 0): None}
    yield row("all of two dumps with such files", [*NAMED, "kept", "a", "b"], both, 8, '"notes":[{"cylinder":98,"head":0,"dump":1,"unread":"failed"},'
              '{"cylinder":1,"head":1,"dump":0,"uneven":4853515},{"cylinder":0,"head":0,"dump":1,"uneven":4805468}],"status":8')
    packed = in_scp_file(whole)
    yield row("all of an SCP file", ["archive.d/kept", "archive.d/disk.scp"], {"archive.d/disk.scp": packed}, 0, NUMBERS % (64, 0))
    summed = packed[:12] + (sum(packed[16:]) + 1).to_bytes(4, "little") + packed[16:]
    files = disk("b") | {"disk.scp": summed}
    yield row("all of two dumps, one an SCP file with another sum", [*NAMED, "kept", "b", "disk.scp"], files, 0, '"dumps":2,', report=b"dump 1 scp sum ")
    damaged = packed.replace(b"TRK\x03", b"TRX\x03", 1)
    yield row("all of an SCP file with a damaged track", [*NAMED, "kept", "disk.SCP"], {"disk.SCP": damaged}, 1,
              '"notes":[{"cylinder":1,"head":1,"dump":0,"unread":"refused scp","fault":"BadSignature"},')
    yield row("all of an SCP file and a folder", ["kept", "disk.scp", "a"], whole | {"disk.scp": damaged}, 0, '"dumps":2,' + NUMBERS % (64, 0))
    yield row("all of what is no SCP file", ["kept", "disk.scp"], {"disk.scp": packed[:9]}, 2, "refused dump 0 scp ")
    yield row("all in a folder that is there", [*NAMED, "kept", "a"], whole | {"kept": None}, 8, "refused folder exists\n")
    yield row("all in a folder of none", [*NAMED, "none/kept", "a"], whole, 8, "failed folder\n")
    yield row("all of a dump without a disk", ["kept", "a"], {"a/track00.0.raw": SHORT}, 2, "refused no format\n")
    none = {track_file("none", 0, 0): SHORT}
    for names in (["none", "a"], ["a", "none"]):
        found = row(f"all of {' and '.join(names)}, of which one has a disk", [*NAMED, "kept", *names], none | whole, 0, '"dumps":2,' + NUMBERS % (64, 0))
        yield dataclasses.replace(found, words=["archive", "kept", *names])
    yield row("all of two dumps without a disk", ["kept", "none", "none/track00.0.raw"], none, 2, "refused no format\n")
    yield row("all of a dump without a disk and of none", ["kept", "none", "b", "a"], none | whole, 2, "refused dump 1 b is not there\n")
    yield row("all of no dump", [*NAMED, "kept", "a", "b"], whole, 2, "refused dump 1 b is not there\n")
    for most, told in ((100, "report"), (8000, "image")):
        yield row(f"all without room for the {told}", [*NAMED, "kept", "a"], whole, 8, f"failed {told}\n", most)
    yield row("all without room for the picture", ["--format", "mfm-dd-1x1x1x128", "kept", "a"], {"a/track00.0.raw": SHORT}, 8, "failed picture\n", 1000)
    for words in ([], ["kept"], ["kept", ""], ["", "a"], ["kept", *9 * ["a"]], ["--format", "kept", "a"], ["side 00.0.raw", "a"], ["disk.scp", "a"],
                  ["--format", "ibm-720", "--double-step", "kept", "a"]):
        yield Row(f"archive {words}", ["archive", *words], b"", 3, b"", USAGE, files=whole, left=whole | {"a": None})
