"""All that is kept of a disk of its dumps, off the definitions: its image, its report, its picture and its summary, as files of a new folder.

A summary is made of the lines of the report: it is one line of JSON with the numbers, and a note of each file that was passed over, of each
sector that is not good and of each name of other headers that has data; behind these stands one of each file that turned otherwise than the others.
"""
import json
import re

import plain_dumps
import plain_identity
import plain_info
from plain import FORMATS
from plain_dumps import Dumps, Shelf, no_files_line, parts_of
from plain_files import VERSION, Tree

# What emulators and other programs call an image; any other is an `img`.
ENDINGS = {
    "amiga": "adf", "amiga-hd": "adf", "c1541": "d64", "c1541-40": "d64", "c1571": "d71", "c1581": "d81", "c8050": "d80", "c8250": "d82",
    "apple-do": "do", "apple-dos33": "do", "apple-po": "po", "apple-prodos": "po", "mac-400": "dsk", "mac-800": "dsk",
    "atari-st-800": "st", "acorn-dfs-40": "ssd", "acorn-dfs-80": "ssd",
}
VERDICTS = "good", "bad", "missing", "contradictory"


def asked(words):
    """What words ask to be kept, if they do: the disk with its steps, if it is named, the folder, and the dumps' names."""
    if words[:1] != [b"archive"]:
        return None
    rest, disk = words[1:], None
    if rest[:1] == [b"--format"] and len(rest) > 1:
        steps = 2 if rest[2:3] == [b"--double-step"] else 1
        form = FORMATS.get(rest[1].decode())
        if not form or steps == 2 and not plain_dumps.reaches_all(form):
            return None
        disk, rest = (form, steps), rest[1 + steps :]
    if len(rest) < 2 or not rest[0] or plain_dumps.is_of_a_dump(rest[0]):
        return None
    names = rest[1:]
    return (disk, rest[0], names) if len(names) <= plain_dumps.MOST_DUMPS and b"" not in names else None


def note_of(line):
    """What a line of a report becomes in the summary, or None."""
    track, *rest = line.split()
    if not re.fullmatch(r"[0-9]{2}\.[01]", track):
        return None
    note = dict(zip(("cylinder", "head"), map(int, track.split("."))))
    if rest[0] == "dump":
        note |= {"dump": int(rest[1]), "unread": rest[2]}
        if rest[2:4] == ["refused", "scp"]:
            return note | {"unread": "refused scp", "fault": " ".join(rest[4:])}
        return note | ({"block": int(rest[4]), "fault": " ".join(rest[5:])} if rest[2] == "refused" else {})
    if rest[0] == "other":
        # behind the numbers of the name: how many headers, how many of them with data, and the first one's place, which is four numbers
        *name, headers, whole = map(int, rest[1:-4])
        return note | {"name": name, "headers": headers, "whole": whole}
    if rest[0] == "others":
        return note | {"untold": True}
    return None if rest[0] == "traces" or rest[1] == "good" else note | {"sector": int(rest[0]), "verdict": rest[1]}


def turn_notes(shelf, names):
    """The notes of files of dumps that turned otherwise than the others, as `info` tells them, and whether a file failed."""
    dumps = [plain_info.measured(shelf, name) for name in names]
    notes = [{"cylinder": cylinder, "head": head, "dump": dump, "uneven": mean}
             for dump, files in enumerate(dumps) for (cylinder, head), mean in plain_info.uneven_of(files)]
    return notes, any(told == "failed" for files in dumps for _, told, _ in files)


def summary(form, steps, count, answer, turned, code):
    """The line of a summary."""
    numbers = answer.number
    value = {
        "version": VERSION, "format": form.word, "steps": ("single", "double")[steps - 1], "dumps": count,
        "sectors": {"all": sum(numbers[verdict] for verdict in VERDICTS)} | {verdict: numbers[verdict] for verdict in VERDICTS},
        "unread": answer.unread, "failed": answer.failed, "others": answer.others, "whole": answer.whole,
        "notes": [note for note in map(note_of, answer.lines) if note] + turned, "status": code,
    }
    return (json.dumps(value, separators=(",", ":")) + "\n").encode()


def best_of(dumps, numbers, heads):
    """The best of the first dump that has one, its steps, and whether a file failed in those that were asked; or in their place the line that
    tells why there is none."""
    failed = False
    for number, name in enumerate(dumps.names):
        code, out, _ = plain_identity.identify(dumps.shelf, name, numbers, heads)
        if code == 2:
            return no_files_line(dumps, number)
        failed |= code == 8
        words = out.decode().splitlines()[-1].split()[1:]
        if words != ["none"]:
            return FORMATS.get(words[-1]), len(words), failed
    return b"refused no format\n"


def archive(asked, outside, numbers, heads):
    """The outcome of `archive`, with all that lies there then."""
    disk, folder, names = asked
    tree, shelf = Tree(outside), Shelf(outside.files)
    # a file is not there by a name with a slash behind it
    if tree.is_folder(parts_of(folder)) or tree.has(folder) and not folder.endswith(b"/"):
        return 8, b"", b"refused folder exists\n", tree.paths()
    best = (*disk, False) if disk else best_of(Dumps(shelf, names), numbers, heads)
    if isinstance(best, bytes):
        return 2, b"", best, tree.paths()
    form, steps, failed = best
    dumps = Dumps(shelf, names, steps)
    empty = dumps.first_empty(form)
    if empty is not None:
        return 2, b"", no_files_line(dumps, empty), tree.paths()
    answer = plain_dumps.DumpAnswer(form)
    plain_dumps.read_tracks(dumps, form, answer)
    noted, unnoted = plain_dumps.notes_of(dumps)
    turned, failed_turning = turn_notes(shelf, names)
    code = max(8 if failed or unnoted or failed_turning else 0, answer.end())
    image, report = answer.said()
    line = summary(form, steps, len(names), answer, turned, code)
    files = [("report", b"report.txt", noted + report), ("image", f"disk.{ENDINGS.get(form.word, 'img')}".encode(), image),
             ("picture", b"disk.svg", plain_dumps.draw(dumps, form)[1]), ("summary", b"summary.json", line)]
    if not tree.make_folder(folder):
        return 8, b"", b"failed folder\n", tree.paths()
    for told, name, content in files:
        if not tree.make_file(folder + b"/" + name, content):
            return 8, b"", f"failed {told}\n".encode(), tree.paths()
    return code, line, b"", tree.paths()
