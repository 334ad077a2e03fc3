"""Cases for compare.py of files: folders of track files, and one or more dumps of a disk with files that are missing, refused or of another
disk. An input is the files by their paths, None for a folder in the place of a file."""
from case_others import others_track
from case_streams import FILLER, SHORTEST, few_blocks, faulty, one_in, spell
from case_tracks import noisy_track, track_stream, whole_track
from plain import BY_NUMBERS, FORMATS, any_format, numbered
from plain_dumps import names_file, path_of, reaches_all, tracks_beside
from plain_recordings import IbmFm, IbmMfm
from plain_streams import stream_of_times

IBM_FORMATS = [form for form in FORMATS.values() if isinstance(form.recording, (IbmFm, IbmMfm))]


def few(chance, kinds):
    blocks = few_blocks(chance, kinds)
    if one_in(chance, 3):
        return b"".join(spell(blocks))
    return faulty(chance, blocks, kinds)


def case_folder(chance, kinds, built):
    """The files of a dump, by their names: a track or a few with sectors, sometimes one that is refused, missing or joined of two."""
    form = any_format(chance)
    kinds |= {f"format {form.word}", "a folder"}
    names = [f"dump/track{cylinder:02}.{head}.raw" for cylinder, head in form.tracks]
    files = dict.fromkeys(names, FILLER)
    at = chance.randrange(len(names))
    files[names[at]] = track_stream(chance, kinds, form, at) if one_in(chance, 2) else few(chance, kinds)
    if one_in(chance, 3):
        kinds.add("files missing")
        for name in chance.sample(names, chance.choice([1, 2, len(names)])):
            del files[name]
    if one_in(chance, 3):
        kinds.add("files of other names")
        for name in ("track00.2.raw", "track99.0.raw", "track0.0.raw", "TRACK00.0.RAW", "notes"):
            files[f"dump/{name}"] = few(chance, kinds)
    return [b"decode-folder", form.word.encode(), b"dump"], files


def dump_name(chance, kinds, number):
    """A dump's name: a folder, perhaps with a slash or a folder before it, or one of its files."""
    folder = b"dump%d" % number
    roll = chance.randrange(6)
    if roll > 2:
        return folder
    kinds.add(("a dump by a file's name", "a slash behind a dump's name", "a dump in a folder")[roll])
    if roll == 0:
        return folder + chance.choice([b"-", b"/", b"/side "]) + chance.choice([b"00.0.raw", b"39.1.raw", b"83.0.raw"])
    return (folder + b"/", b"./shelf/" + folder)[roll - 1]


def one_file(chance, kinds, form, at):
    """A file of a track: mostly of its own, with sectors, else of another track's or of another format, or refused."""
    roll = chance.randrange(14)
    if roll > 11:
        return others_track(chance, kinds, form, at)
    if roll < 5:
        return track_stream(chance, kinds, form, at)
    if roll < 7:
        return whole_track(chance, kinds, form, at)
    if roll == 7:
        return noisy_track(chance, kinds, form, at)
    if roll == 8:
        kinds.add("the file of another track")
        return track_stream(chance, kinds, form, chance.randrange(len(form.tracks)))
    if roll == 9:
        alike = [other for other in FORMATS.values() if type(other.recording) is type(form.recording)]
        other = chance.choice(alike)
        kinds.add("the file of another format")
        return track_stream(chance, kinds, other, min(at, len(other.tracks) - 1), 3)
    if roll == 10:
        kinds.add("bytes after a file's stream")
        return FILLER + few(chance, kinds)
    return few(chance, kinds)


def other_than_files(chance, kinds, name):
    """What may be there in a dump's place, none of whose files are."""
    if names_file(name):
        return {}
    roll = chance.randrange(5)
    kinds.add(("nothing", "a file", "an empty folder", "files of other tracks", "files of other names")[roll] + " in the place of a dump")
    if roll == 1:
        return {name.rstrip(b"/"): FILLER}
    if roll == 2:
        return {name: None}
    if roll == 3:
        return {path_of(name, 99, 1): FILLER, name + b"/notes": b""}
    prefix = chance.choice([b"side ", b"disk1-", "dümp".encode(), b"Track", b"0"])
    return {name + b"/" + prefix + ending: FILLER for ending in (b"00.0.raw", b"07.1.raw", b"00.2.raw")} if roll else {}


def lacking(chance, kinds, name, files):
    """The same with files that are missing, and sometimes with a folder in the place of one."""
    roll = chance.randrange(12)
    if roll < 4:
        kinds.add("files missing")
        for name in chance.sample(sorted(files), min(len(files), chance.choice([1, 3, len(files) // 2]))):
            del files[name]
    elif roll == 4 and one_in(chance, 3):
        files = other_than_files(chance, kinds, name)
    elif roll == 5:
        kinds.add("a folder in the place of a file")
        files[chance.choice(sorted(files))] = None
    return files


def dump_files(chance, kinds, form, name, steps, special, made=one_file):
    """The files of a dump, of which those of some tracks are made and all others are fillers."""
    path = lambda track: path_of(name, steps * track[0], track[1])
    files = {path(track): chance.choice([FILLER, SHORTEST]) for track in form.tracks}
    for at in special:
        files[path(form.tracks[at])] = made(chance, kinds, form, at)
    for track, near in chance.sample(tracks_beside(form, steps), chance.choice([0, 0, 0, 1, 2])):
        kinds.add("a file beside those of the format's tracks")
        files[path(track)] = made(chance, kinds, form, form.tracks.index(near))
    return lacking(chance, kinds, name, files)


def dumps_of(chance, kinds, form, steps, count, made=one_file):
    """The names of so many dumps, and all their files. A name may stand twice."""
    special = chance.sample(range(len(form.tracks)), 1 if count > 3 or one_in(chance, 2) else 2)
    names, files = [], {}
    for number in range(count):
        if number and one_in(chance, 8):
            kinds.add("a dump twice")
            names.append(chance.choice(names))
            continue
        names.append(dump_name(chance, kinds, number))
        files |= dump_files(chance, kinds, form, names[-1], steps, special, made)
    return names, files


def case_read(chance, kinds, built):
    """Dumps of a disk, one to eight of them, with two steps for one in some, and a picture of some."""
    form = any_format(chance)
    steps = 2 if reaches_all(form) and one_in(chance, 3) else 1
    count = chance.choice([1, 1, 1, 2, 2, 2, 3, 8])
    kinds |= {f"format {form.word}", f"{count} dumps"} | ({"two steps for one"} if steps == 2 else set())
    names, files = dumps_of(chance, kinds, form, steps, count)
    options = [b"--double-step"] * (steps - 1)
    if one_in(chance, 4):
        kinds.add("a picture of dumps")
        options.insert(chance.randrange(len(options) + 1), b"--picture")
    words = [b"read"] + options + [form.word.encode(), *names]
    if one_in(chance, 20):
        kinds.add("words of read that are wrong")
        words = wrong_words(chance, words)
    return words, files


def case_others(chance, kinds, built):
    """One or two dumps with headers that name none of their tracks' sectors."""
    form = any_format(chance) if one_in(chance, 2) else IBM_FORMATS[chance.randrange(len(IBM_FORMATS))]
    count = chance.choice([1, 1, 1, 2])
    kinds |= {f"format {form.word}", f"{count} dumps"}
    names, files = dumps_of(chance, kinds, form, 1, count, others_track)
    return [b"read"] + [b"--picture"] * one_in(chance, 8) + [form.word.encode(), *names], files


def case_show(chance, kinds, built):
    """A sector of a disk's dumps, one to eight of them, with two steps for one in some, and one content alone in some."""
    form = any_format(chance)
    steps = 2 if reaches_all(form) and one_in(chance, 3) else 1
    count = chance.choice([1, 2, 2, 3, 8])
    kinds |= {f"format {form.word}", f"a sector of {count} dumps"} | ({"two steps for one"} if steps == 2 else set())
    names, files = dumps_of(chance, kinds, form, steps, count)
    # The track of which there is most, mostly.
    size_of = lambda at: max(len(files.get(path_of(name, steps * form.tracks[at][0], form.tracks[at][1])) or b"") for name in names)
    k = chance.randrange(len(form.tracks)) if one_in(chance, 4) else max(range(len(form.tracks)), key=size_of)
    options = [[b"--double-step"]] * (steps - 1)
    if one_in(chance, 3):
        kinds.add("one content alone")
        options += [[b"--copy", b"%d" % chance.choice([0, 0, 1, 2, 15])]]
    options = sum(chance.sample(options, len(options)), [])
    cylinder, head = form.tracks[k]
    sector = chance.choice(list(form.sector_numbers(k)))
    named = [b"%02d.%d" % (cylinder, head), b"%02d" % sector]
    if one_in(chance, 4):
        kinds.add("a track and a sector with other zeros in front")
        named = [chance.choice([b"%d.%d", b"%03d.%d"]) % (cylinder, head), chance.choice([b"%d", b"%03d", b"%04d"]) % sector]
    words = [b"show"] + options + [form.word.encode(), *named, *names]
    if one_in(chance, 20):
        kinds.add("words of show that are wrong")
        words = words[:-1] if one_in(chance, 2) else words[:1] + [word[1:] for word in words[1:]]
    return words, files


def wrong_words(chance, words):
    """Words of `read` of which one is wrong."""
    roll = chance.randrange(6)
    if roll == 0:
        return words + [b""]
    if roll == 1:
        return words + (9 - len(words) + 3) * [b"dump0"]
    if roll == 2:
        return [word for word in words if FORMATS.get(word.decode()) or word in (b"read", b"--picture", b"--double-step")]
    if roll == 3:
        return words[:1] + [b"--double-step"] + words[1:]
    if roll == 4:
        return words[:1] + [b"--double-steps"] + words[1:]
    return words[:1] + [word[:-1] if FORMATS.get(word.decode()) else word for word in words[1:]]


def named_tracks(chance, kinds, form, name, steps, count):
    """The files of a dump with sectors on so many tracks: short ones, since they are read by every format."""
    files = dump_files(chance, kinds, form, name, steps, [])
    for at in chance.sample(range(len(form.tracks)), min(count, len(form.tracks))):
        cylinder, head = form.tracks[at]
        made = track_stream(chance, kinds, form, at, chance.choice([1, 2])) if not one_in(chance, 5) else others_track(chance, kinds, form, at)
        files[path_of(name, steps * cylinder, head)] = made
    return files


def case_identify(chance, kinds, built):
    """A dump of a disk of any format that has a name."""
    form = FORMATS[chance.choice(list(FORMATS))]
    steps = 2 if reaches_all(form) and one_in(chance, 3) else 1
    kinds |= {f"format {form.word}", "a dump to be named"} | ({"two steps for one"} if steps == 2 else set())
    name = dump_name(chance, kinds, 0)
    return [b"identify", name], named_tracks(chance, kinds, form, name, steps, 2)


def case_numbers(chance, kinds, built):
    """A dump of a disk by numbers, in some with the files of its heads changed, or with those of the second head named as the first."""
    form = numbered(chance.choice(BY_NUMBERS))
    steps = 2 if reaches_all(form) and one_in(chance, 3) else 1
    kinds |= {f"format {form.word}", "a dump to be numbered"} | ({"two steps for one"} if steps == 2 else set())
    name = dump_name(chance, kinds, 0)
    files = named_tracks(chance, kinds, form, name, steps, 5)
    if one_in(chance, 3):
        kinds.add("headers that name another head")
        for cylinder in {cylinder for cylinder, _ in form.tracks}:
            first, second = (path_of(name, steps * cylinder, head) for head in (0, 1))
            if len(files.get(first) or b"") > 1000 or len(files.get(second) or b"") > 1000:
                files[first], files[second] = files.get(second) or FILLER, files.get(first) or FILLER
    return [b"identify", name], files


def turning_file(chance, kinds, ticks):
    """A file of some turns, of about so many ticks, as its index moments and a few transitions tell them."""
    lengths = [ticks + chance.choice([0, 0, 1, -1, ticks // 200, ticks // 200 + 1, chance.randrange(-ticks // 150, ticks // 150 + 1)])
               for _ in range(chance.choice([1, 1, 2, 3, 5]))]
    indexes = [chance.randrange(ticks)]
    for length in lengths:
        indexes.append(indexes[-1] + max(length, 1))
    # one transition at least stands behind the last index moment, mostly
    last = [] if one_in(chance, 20) else [indexes[-1] + chance.randrange(ticks)]
    times = sorted([chance.randrange(indexes[-1] + ticks) for _ in range(chance.choice([0, 1, 7, 200]))] + last)
    return stream_of_times(times, indexes) + chance.choice([b"", b"", b"\0", chance.randbytes(chance.choice([7, 4096, 5000]))])


def info_file(chance, kinds, ticks):
    """A file that tells its turns, or one of any other kind."""
    roll = chance.randrange(9)
    if roll == 0:
        return few(chance, kinds)
    if roll == 1:
        kinds.add("a file of another speed")
        return turning_file(chance, kinds, chance.choice([1, 7, ticks * 5 // 6, ticks + ticks // 180, ticks + ticks // 220]))
    return turning_file(chance, kinds, ticks)


def case_info(chance, kinds, built):
    """A dump of any tracks, whose files turn alike or not."""
    name, ticks = dump_name(chance, kinds, 0), chance.choice([4805486, 4004571, 200, 1000, 199999])
    cylinders, heads = chance.choice([1, 3, 3, 10, 99, 100]), chance.choice([1, 2])
    places = [path_of(name, cylinder, head) for cylinder in range(cylinders) for head in range(heads)]
    kinds.add("the turns of a dump")
    files = {path: info_file(chance, kinds, ticks) for path in places}
    return [b"info", name], lacking(chance, kinds, name, files)
