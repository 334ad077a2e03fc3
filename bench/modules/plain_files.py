"""Files that are made, off the definitions: those of an image, one for each track, those into which joined streams are cut, and those of an SCP file.

A file is made only where nothing lies, so what was there stays.
"""
import dataclasses
import pathlib
import re
import struct

import plain_scp
from plain import stream_of, wrong_size
from plain_dumps import MOST_CYLINDERS, parts_of
from plain_streams import Refused, Stream, padding_at

CHANGES = pathlib.Path(__file__).resolve().parents[2] / "CHANGELOG.md"
VERSION = re.search(r"^## ([0-9.]+)", CHANGES.read_text(encoding="utf-8"), re.MULTILINE)[1]


@dataclasses.dataclass
class Outside:
    """What a run finds that makes files: standard input, files by their paths, None for a folder, and how many bytes a file may get, if not any."""
    given: bytes
    files: dict
    most: object = None

    def left(self):
        """All that lies there where nothing is made."""
        return Tree(self).paths()


class Tree:
    """Files by the names in their paths, None for a folder."""

    def __init__(self, outside):
        self.most = outside.most
        self.lies = {(): None}
        for path, content in outside.files.items():
            parts = parts_of(path)
            self.lies |= {parts[:count]: None for count in range(len(parts))} | {parts: content}

    def is_folder(self, parts):
        return parts in self.lies and self.lies[parts] is None

    def has(self, path):
        return parts_of(path) in self.lies

    def make_folder(self, path):
        """Whether it is there now. Those in which it is to lie are not made."""
        parts = parts_of(path)
        if parts not in self.lies and self.is_folder(parts[:-1]):
            self.lies[parts] = None
        return self.is_folder(parts)

    def make_file(self, path, content):
        """Whether all of it was written, or else what a file may get."""
        self.lies[parts_of(path)] = content[: self.most]
        return self.most is None or len(content) <= self.most

    def paths(self):
        return {b"/".join(parts): content for parts, content in self.lies.items() if parts}


def info_block(text):
    """The block that says what wrote a stream."""
    return b"\r\x04" + struct.pack("<H", len(text)) + text


def file_name(track):
    return b"track%02d.%d.raw" % track


def first_there(tree, folder, tracks):
    """The line on the first of the tracks whose file is there, or None."""
    for k, track in enumerate(tracks):
        if tree.has(folder + b"/" + file_name(track)):
            return b"refused track %d exists %s\n" % (k, file_name(track))
    return None


def streams_in(data):
    """The bytes of each of the joined streams, or at last the refusal of one. There is one at least."""
    place = 0
    while place == 0 or place < len(data):
        try:
            length = Stream(data, place).length
        except Refused as stop:
            yield stop
            return
        yield data[place : place + length]
        place += length + padding_at(data, place + length)


def made(tree, folder, tracks, streams):
    """Makes the files one by one, before the first one the folder: the exit code and the line on what is refused or fails."""
    for k, stream in enumerate(streams):
        if k == len(tracks):
            return 2, b"refused track %d beyond %s\n" % (k, file_name(tracks[-1]))
        if isinstance(stream, Refused):
            return 2, f"refused track {k} {stream.text()}\n".encode()
        if k == 0 and not tree.make_folder(folder):
            return 8, b"failed folder\n"
        if not tree.make_file(folder + b"/" + file_name(tracks[k]), stream):
            return 8, b"failed track %d %s\n" % (k, file_name(tracks[k]))
    return 0, b""


def answer(outside, folder, tracks, streams):
    """The outcome, with all that lies there then: nothing is made where the file of one of the tracks is there."""
    tree = Tree(outside)
    there = first_there(tree, folder, tracks)
    code, notes = (2, there) if there else made(tree, folder, tracks, streams)
    return code, b"", notes, tree.paths()


def write_files(form, folder, outside):
    """An image as a file for each track: its stream behind a block that says what wrote it."""
    image = outside.given
    if len(image) != form.image_bytes:
        return *wrong_size(form, image), outside.left()
    block = info_block(f"name=flux, version={VERSION}, sck=24027428.5714285, ick=3003428.5714285\0".encode())
    streams = (block + stream_of(form.ring_of(image, k), form.nominal(cylinder)) for k, (cylinder, _) in enumerate(form.tracks))
    return answer(outside, folder, form.tracks, streams)


def split(folder, heads, outside):
    """Joined streams as a file each, in the order of the tracks of a disk that has so many heads, without what stands between them."""
    tracks = [(cylinder, head) for cylinder in range(MOST_CYLINDERS) for head in range(heads)]
    return answer(outside, folder, tracks, streams_in(outside.given))


def track_told(track):
    """The file of a track of an SCP file, if one is made, and why not, or what it lacks, if anything."""
    try:
        Stream(track.bytes, 0)
    except Refused as stop:
        return None, stop.text()
    return track.bytes, f"scp ShortData {track.short}" if track.short else None


def unpack(path, folder, outside):
    """The tracks of an SCP file as files of the streams that they stand for. A sum that is another is told first; what is told of tracks stands before
    how many files there are."""
    tree, made, refused = Tree(outside), 0, 0
    given = tree.lies.get(parts_of(path))
    if given is None:
        return 2, b"", b"refused scp missing\n", tree.paths()
    try:
        file = plain_scp.File(given)
    except plain_scp.Refused as stop:
        return 2, b"", f"refused {stop.text()}\n".encode(), tree.paths()
    notes = "".join(file.sums()).encode()
    there = first_there(tree, folder, [divmod(number, 2) for number in range(plain_scp.TABLE)])
    if there or not tree.make_folder(folder):
        return 8, b"", notes + (there or b"failed folder\n"), tree.paths()
    for number in file.offsets:
        name = file_name(divmod(number, 2))
        try:
            stream, told = track_told(file.track(number))
        except plain_scp.Refused as stop:
            stream, told = None, stop.text()
        if stream is not None and not tree.make_file(folder + b"/" + name, stream):
            return 8, b"", notes + b"failed track %d %s\n" % (number, name), tree.paths()
        made += stream is not None
        if told:
            refused += 1
            notes += f"{number // 2:02}.{number % 2} refused {told}\n".encode()
    return int(not made or refused > 0), b"", notes + b"total files %d refused %d\n" % (made, refused), tree.paths()
