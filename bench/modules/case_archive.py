"""Cases for compare.py of dumps of which all is kept: disks that are named, or found, and folders that are there, or not."""
from case_dumps import dump_name, dumps_of, named_tracks
from case_files import folder_name, most_bytes, what_lies
from case_others import others_track
from case_streams import one_in
from plain import FORMATS, any_format
from plain_dumps import parts_of, reaches_all
from plain_files import Outside


def wrong_words(chance, words):
    """Words of `archive` of which one is wrong."""
    return chance.choice([words[:-1] if len(words) == 3 else words[:1], [*words, b""], words + 9 * [b"dump0"], [words[0], b"--double-step", *words[1:]],
                          [words[0], b"--format", b"amig\xc3\xa4", *words[1:]], [words[0], b"--format", *words[1:]], [*words[:1], b"", *words[2:]],
                          [*words[:1], chance.choice([b"side 00.0.raw", b"made.sCP"]), *words[2:]]])


def case_archive(chance, kinds, built):
    """One to three dumps of a disk, and what lies there before."""
    named = not one_in(chance, 4)
    form = any_format(chance) if named else FORMATS[chance.choice(list(FORMATS))]
    steps = 2 if reaches_all(form) and one_in(chance, 3) else 1
    count = chance.choice([1, 1, 2, 3] if named else [1, 1, 2])
    kinds |= {f"format {form.word}", f"{count} dumps of which all is kept", "a disk that is named" if named else "a disk that is found"}
    if named:
        names, files = dumps_of(chance, kinds, form, steps, count, *[others_track] * one_in(chance, 2))
    else:
        names, files = [dump_name(chance, kinds, number) for number in range(count)], {}
        for name in names:
            # the last one has sectors, one before it none
            files |= named_tracks(chance, kinds, form, name, steps, 2 if name == names[-1] else 0)
    folder = folder_name(chance, kinds)
    words = [b"archive", *([b"--format", form.word.encode(), *[b"--double-step"] * (steps - 1)] if named else []), folder, *names]
    if one_in(chance, 20):
        kinds.add("words of archive that are wrong")
        words = wrong_words(chance, words)
    # What stands in the folder's place may not stand in a dump's.
    lies = what_lies(chance, kinds, folder, form.tracks[:1])
    taken = {parts_of(path)[:count] for path in files for count in range(1, 9)}
    return words, Outside(b"", files | {path: content for path, content in lies.items() if parts_of(path) not in taken}, most_bytes(chance, kinds))
