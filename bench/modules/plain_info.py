"""What the files of a dump tell without any format, off the definitions: how many bytes, transitions and turns each has, and how fast it turned."""
from plain_dumps import Dumps, Failed, all_tracks, no_files_line, noted
from plain_streams import Refused, file_stream

MOST_CYLINDERS = 99
# 168192000 sevenths of a tick are a second
SEVENTHS_A_SECOND = 168192000
# the most bytes of a file that are counted
MOST_BYTES = 8388608
# files whose turns differ from the middle one by more than so many thousandths are told
UNEVEN = 5


def speed(turns, ticks):
    """The turns a minute in hundredths, the nearest, of so many turns in so many ticks."""
    hundredths = (12000 * SEVENTHS_A_SECOND * turns + 7 * ticks) // (14 * ticks)
    return f"{hundredths // 100}.{hundredths % 100:02}"


def file_line(content, stream):
    """What is told of a file that is read."""
    first, *_, last = stream.indexes
    lengths = [b - a for a, b in zip(stream.indexes, stream.indexes[1:])]
    turns = len(lengths)
    return (f"bytes {min(len(content), MOST_BYTES)} transitions {len(stream.times)} turns {turns} ticks {min(lengths)} {(last - first) // turns} {max(lengths)}"
            f" rpm {speed(turns, last - first)}")


def mean_of(stream):
    return (stream.indexes[-1] - stream.indexes[0]) // (len(stream.indexes) - 1)


def read_file(shelf, dump, cylinder, head):
    """What is told of a file, and the mean of its turns, if it has one."""
    try:
        content = shelf.track(dump, cylinder, head)
        if content is None:
            return "missing", None
        stream = file_stream(content)
        return file_line(content, stream), mean_of(stream)
    except Failed:
        return "failed", None
    except Refused as stop:
        return f"refused {stop.text()}", None


def tracks_of(shelf, name):
    """All tracks to the greatest cylinder and the greatest head of which there is a file."""
    return all_tracks([(cylinder, head) for cylinder in range(MOST_CYLINDERS) for head in (0, 1) if shelf.has_track(name, cylinder, head)])


def measured(shelf, name):
    """The tracks of a dump, with what is told of the file of each and the mean of its turns, if it has one."""
    return [(track, *read_file(shelf, name, *track)) for track in tracks_of(shelf, name)]


def middle_of(means):
    return sorted(means)[len(means) // 2]


def uneven_of(files):
    """The tracks whose files turned otherwise than the middle one, with their means."""
    means = [(track, mean) for track, _, mean in files if mean is not None]
    middle = middle_of([mean for _, mean in means]) if means else None
    return [(track, mean) for track, mean in means if 1000 * abs(mean - middle) > UNEVEN * middle]


def turn_lines(files):
    """The files that turned otherwise than the middle one, and how long turns are."""
    means = [mean for _, _, mean in files if mean is not None]
    if not means:
        return []
    uneven = [f"uneven {cylinder:02}.{head} {mean}\n" for (cylinder, head), mean in uneven_of(files)]
    return uneven + [f"turn least {min(means)} median {middle_of(means)} greatest {max(means)} rpm {speed(1, middle_of(means))}\n"]


def info(shelf, name):
    """The outcome of `info`."""
    return turns_of(Dumps(shelf, [name]))


@noted
def turns_of(dumps):
    """The outcome of `info` of one dump."""
    shelf, (name,) = dumps.shelf, dumps.names
    files = measured(shelf, name)
    if not files:
        return 2, b"", no_files_line(dumps, 0)
    lines = [f"{cylinder:02}.{head} {told}\n" for (cylinder, head), told, _ in files]
    missing, refused, failed = map([told.split()[0] for _, told, _ in files].count, ("missing", "refused", "failed"))
    uneven = len(uneven_of(files))
    total = f"total files {len(files) - missing} refused {refused} missing {missing} uneven {uneven}" + f" failed {failed}" * (failed > 0) + "\n"
    return 8 if failed else 0 if refused == missing == uneven == 0 else 1, "".join(lines + turn_lines(files) + [total]).encode(), b""
