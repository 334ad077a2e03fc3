"""Has `flux archive` keep generated dumps, by the script of docs/USING.md, and compares all that it kept with what the dumps were made of.

usage: bench/run archive PROGRAM [COUNT]     (COUNT: 200 dumps)

PROGRAM writes disks of random bytes, of twenty formats in turn, as dumps. Of each second one a track is then damaged, in one of the ways below, and
some are SCP files. Compared with the truth: the table that the script prints, the lines of standard output, each image, and each summary's notes; with
`read` and `read --picture` of the same dump, to the byte: image, report, picture and exit code; with `info`: the files that turned unlike the others. At
the end stands the processor time of all, against that of `identify` and `read`. Four run at once.
"""
import dataclasses
import json
import os
import random
import re
import subprocess
import sys
import tempfile
from concurrent.futures import ThreadPoolExecutor
from pathlib import Path

import plain
from plain_streams import Stream

TOP = Path(__file__).resolve().parent.parent
sys.path.insert(0, str(TOP / "samples"))
import scp                                                # noqa: E402

WORDS = ["ibm-360", "c1541", "amiga", "mac-400", "atari-st-800", "apple-do", "ibm-160", "c1571", "acorn-dfs-40", "cpc-data", "ibm-720", "c1541-40",
         "ibm-3740", "c1581", "ibm-180", "mac-800", "cpc-system", "ibm-320", "mfm-dd-80x2x5x1024@0", "c8050"]
AT_ONCE = 4
# Cells of a sector's data that a worn disk lacks
WORN = 24


@dataclasses.dataclass
class Dump:
    """A dump's name, its format, what was done to it, the image that can be read of it, and the notes of its summary."""
    name: str
    form: object
    damage: str
    left: bytes
    notes: list

    def sectors(self):
        """How many there are, and how many of each verdict."""
        every = sum(len(self.form.sector_numbers(k)) for k in range(len(self.form.tracks)))
        lost = {verdict: sum(note.get("verdict") == verdict for note in self.notes) for verdict in ("bad", "missing")}
        return {"all": every, "good": every - sum(lost.values()), **lost, "contradictory": 0}

    def status(self):
        return 0 if self.damage == "whole" else 1

    def said(self):
        return f"{self.name} {self.form.word} {self.damage}"


# Ways of damage: each changes a dump's folder, and gives the sectors of a track that are lost, and the notes.

def track_of(form, k):
    cylinder, head = form.tracks[k]
    return {"cylinder": cylinder, "head": head}


def all_missing(form, k):
    return [track_of(form, k) | {"sector": sector, "verdict": "missing"} for sector in form.sector_numbers(k)]


def file_of(folder, form, k):
    return folder / "track{:02}.{}.raw".format(*form.tracks[k])


def missing(chance, folder, form, k, image):
    file_of(folder, form, k).unlink()
    return list(form.sector_numbers(k)), [track_of(form, k) | {"dump": 0, "unread": "missing"}, *all_missing(form, k)]


def cut(chance, folder, form, k, image):
    """The file ends inside a block that tells a place, behind a third of its bytes."""
    path = file_of(folder, form, k)
    stream = path.read_bytes()
    path.write_bytes(stream[: stream.index(b"\r\x02\x0c\0", len(stream) // 3) + 6])
    return list(form.sector_numbers(k)), [track_of(form, k) | {"dump": 0, "unread": "refused", "fault": "Truncated"}, *all_missing(form, k)]


def worn(chance, folder, form, k, image):
    """Of a sector's data some cells lack, in each revolution: where the ring of another content differs from this one's, in the middle."""
    sector = chance.choice(list(form.sector_numbers(k)))
    at, size = form.places[k] + form.recording.size * form.slot(sector), form.recording.size
    ring, other = form.ring_of(image, k), form.ring_of(image[:at] + bytes(0xFF ^ it for it in image[at : at + size]) + image[at + size :], k)
    places = [place for place, cells in enumerate(zip(ring, other)) if cells[0] != cells[1]]
    middle = places[len(places) // 2]
    file_of(folder, form, k).write_bytes(plain.stream_of(ring[:middle] + WORN * "0" + ring[middle + WORN :], form.nominal(form.tracks[k][0])))
    return [sector], [track_of(form, k) | {"sector": sector, "verdict": "bad"}]


def noise(chance, folder, form, k, image):
    """Transitions without a header, of a drive that turns two in a hundred slower, which the last note tells."""
    cells = "".join(chance.choice(("1000", "10", "100")) for _ in range(form.ring_cells(form.tracks[k][0]) // 3))
    file_of(folder, form, k).write_bytes(plain.stream_of(cells, 102 * form.nominal(form.tracks[k][0]) // 100))
    return list(form.sector_numbers(k)), [*all_missing(form, k), track_of(form, k) | {"dump": 0}]


def beside(chance, folder, form, k, image):
    """Behind the last cylinder stands the first track again, whose headers name none of a sector there."""
    cylinder = 1 + max(form.tracks)[0]
    (folder / f"track{cylinder:02}.0.raw").write_bytes(file_of(folder, form, 0).read_bytes())
    return [], [{"cylinder": cylinder, "head": 0}] * len(form.sector_numbers(0))


DAMAGES = [missing, cut, worn, noise, beside]


def in_scp_file(folder):
    """Puts an SCP file of two revolutions in the folder's place."""
    tracks = {}
    for path in folder.iterdir():
        cylinder, head = re.fullmatch(r"track(\d\d)\.(\d)\.raw", path.name).groups()
        tracks[2 * int(cylinder) + int(head)] = Stream(path.read_bytes(), 0)
        path.unlink()
    folder.rmdir()
    folder.with_suffix(".scp").write_bytes(scp.scp(tracks, 2, 0, 168, False, False))


def made(task):
    """Makes a dump in a folder."""
    program, dumps, number = task
    chance = random.Random(f"kept {number}")
    form = plain.FORMATS.get(WORDS[number % len(WORDS)])
    image, name = chance.randbytes(form.image_bytes), f"disk {number}"
    folder = dumps / name
    subprocess.run([program, "write", "--folder", folder, form.word], input=image, check=True)
    lost, notes, damage = [], [], None
    k = chance.randrange(len(form.tracks))
    if number // len(WORDS) % 2 != number % 2:
        damage = DAMAGES[number // 2 % len(DAMAGES)]
        lost, notes = damage(chance, folder, form, k, image)
    left = bytearray(image)
    for sector in lost:
        at = form.places[k] + form.recording.size * form.slot(sector)
        left[at : at + form.recording.size] = bytes(form.recording.size)
    if number % 7 == 1 and damage is not cut and len(form.tracks) <= 40:
        in_scp_file(folder)
        name += ".scp"
    return Dump(name, form, damage.__name__ if damage else "whole", bytes(left), notes)


# What is compared

def differences(dump, line, code, kept):
    """How a summary, an image and an exit code differ from the truth."""
    notes = line["notes"]
    others = len(dump.notes) if dump.damage == "beside" else 0
    for what, got, right in (("format", line["format"], dump.form.word), ("sectors", line["sectors"], dump.sectors()), ("status", line["status"], dump.status()),
                             ("others", (line["others"], line["whole"]), (others, others)), ("exit code", code, line["status"]), ("image", kept, dump.left),
                             ("unread", line["unread"], sum("unread" in note for note in dump.notes)), ("failed", line["failed"], 0),
                             ("notes", len(notes), len(dump.notes))):
        if got != right:
            yield f"{dump.said()}: {what} {got!r:.80} and not {right!r:.80}"
    for got, right in zip(notes, dump.notes):
        if not got.items() >= right.items():
            yield f"{dump.said()}: note {got} and not {right}"


def compared(task):
    """What differs of what was kept of a dump from the truth, and from what `read` gives."""
    program, work, dump, line = task
    kept, path = work / "KEPT" / f"{dump.name}.kept", work / "DUMPS" / dump.name
    images = [it for it in kept.glob("disk.*") if it.suffix != ".svg"]
    if line is None or len(images) != 1 or (kept / "summary.json").read_text() != line:
        return [f"{dump.said()}: no image, or no line"]
    run = lambda *words: subprocess.run([program, *words], stdin=subprocess.DEVNULL, capture_output=True)
    best = run("identify", path).stdout.decode().splitlines()[-1]
    read = run("read", dump.form.word, path)
    picture = run("read", "--picture", dump.form.word, path).stdout
    pairs = [("image", images[0], read.stdout), ("report", kept / "report.txt", read.stderr), ("picture", kept / "disk.svg", picture)]
    wrong = [f"{dump.name}: {what} is not that of read" for what, file, wanted in pairs if file.read_bytes() != wanted]
    turned = [it for it in run("info", path).stdout.decode().splitlines() if it.startswith("uneven ")]
    if turned != ["uneven {cylinder:02}.{head} {uneven}".format(**note) for note in json.loads(line)["notes"] if "uneven" in note]:
        wrong.append(f"{dump.name}: the notes of files that turned otherwise are not those of info")
    if best != f"best {dump.form.word}":
        wrong.append(f"{dump.name}: {best} and not {dump.form.word}")
    return wrong + list(differences(dump, json.loads(line), read.returncode, images[0].read_bytes()))


def script():
    """The script of docs/USING.md."""
    text = (TOP / "docs/USING.md").read_text(encoding="utf-8")
    return re.search(r"(?:^    .*\n)*^    .*xargs.*\n(?:^    .*\n)*", text, re.M)[0]


def spent(call):
    """What a call gives, and the seconds of processors that all programs took under it."""
    before = os.times()
    given = call()
    after = os.times()
    return given, sum(after[2:4]) - sum(before[2:4])


def in_turn(call, tasks):
    with ThreadPoolExecutor(AT_ONCE) as pool:
        return list(pool.map(call, tasks))


def kept_lines(program, work, dumps):
    """Runs the script: the lines of standard output by their dumps, what is wrong with the table, and the seconds."""
    environment = os.environ | {"PATH": f"{Path(program).parent}:{os.environ['PATH']}"}
    table, seconds = spent(lambda: subprocess.run(["bash", "-c", script()], cwd=work, env=environment, stdout=subprocess.PIPE, check=False).stdout.decode())
    lines = {dump.name: (work / "KEPT" / f"{dump.name}.kept/summary.json").read_text() for dump in dumps}
    rows = [f"KEPT/{dump.name}.kept/summary.json\t{dump.form.word}\t{{good}}\t{{all}}\t{dump.status()}".format(**dump.sectors()) for dump in dumps]
    wrong = sorted(set(table.splitlines()) ^ set(rows))
    if sorted((work / "KEPT/all.jsonl").read_text().splitlines(True)) != sorted(lines.values()) or (work / "KEPT/errors.txt").read_text():
        wrong.append("standard output has other lines than the summaries, or standard error has some")
    return lines, wrong, seconds


def main():
    program, count = str(Path(sys.argv[1]).resolve()), int(sys.argv[2]) if len(sys.argv) > 2 else 200
    with tempfile.TemporaryDirectory() as name:
        work = Path(name)
        (work / "DUMPS").mkdir()
        (work / "flux").symlink_to(program)
        dumps = in_turn(made, [(program, work / "DUMPS", number) for number in range(count)])
        lines, wrong, seconds = kept_lines(str(work / "flux"), work, dumps)
        wrong += sum(in_turn(compared, [(program, work, dump, lines[dump.name]) for dump in dumps]), [])
        quiet = lambda words: subprocess.run([program, *words], stdin=subprocess.DEVNULL, stdout=subprocess.DEVNULL, stderr=subprocess.DEVNULL)
        asked = [words for dump in dumps for path in [work / "DUMPS" / dump.name] for words in (["identify", path], ["read", dump.form.word, path])]
        _, both = spent(lambda: in_turn(quiet, asked))
    damages = {it: sum(dump.damage == it for dump in dumps) for it in sorted({dump.damage for dump in dumps})}
    print("\n".join(wrong), end="\n" if wrong else "")
    print(f"{count} dumps of {len({dump.form.word for dump in dumps})} formats, {damages}, {sum(dump.name.endswith('.scp') for dump in dumps)} SCP files: {len(wrong)} differences")
    print(f"archive {seconds:.1f} s of processors, identify and read {both:.1f} s: {seconds / both:.3f}")
    return 1 if wrong else 0


if __name__ == "__main__":
    sys.exit(main())
