"""Copies of a part of the repository, over which `rt ci` runs: the crates that some crates stand on, with the wrong bodies that are wanted."""
import shutil
from pathlib import Path

TOP = Path(__file__).resolve().parent.parent


def rows():
    """What crates.txt says of each crate, lowest first: its name, and the names of those that it stands on."""
    lines = (TOP / "crates.txt").read_text(encoding="utf-8").splitlines()
    found = [line.partition("#")[0].partition(":") for line in lines]
    return {name.strip(): below.split() for name, colon, below in found if colon}


def with_those_below(names):
    """These crates and those of the repository that they stand on, lowest first."""
    uses = rows()
    found, ahead = set(), [*names]
    while ahead:
        crate = ahead.pop()
        if crate in uses and crate not in found:
            found.add(crate)
            ahead += uses[crate]
    return [it for it in uses if it in found]


def copied(room, names, edits=None):
    """Copies what `rt ci` reads of these crates, without their wrong bodies; and for each crate that `edits` names, the folder of those that are tried."""
    uses = rows()
    (room / "crates.txt").write_text("".join(f"{it}: {' '.join(uses[it])}\n" for it in names), encoding="utf-8")
    shutil.copy(TOP / "HANDLES", room / "HANDLES")
    for crate in names:
        shutil.copytree(TOP / "crates" / crate, room / "crates" / crate, ignore=shutil.ignore_patterns("out", "must-fail", "wrong"))
        if edits and crate in edits:
            shutil.copytree(TOP / "crates" / crate / edits[crate], room / "crates" / crate / "must-fail")
