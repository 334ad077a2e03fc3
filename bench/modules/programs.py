"""What a program answers, and which commands it has."""
import os
import pathlib
import resource
import subprocess
import sys
import tempfile

import plain
import plain_commands
from plain_files import Outside


def run(program, words, data, work=None):
    """The program's code and bytes, over a pipe, or with a folder to work in over a file; or in a folder that has the files of a dictionary by
    their paths, None for a folder; or there over a pipe too, where it makes files, and then what lies there at the end."""
    if isinstance(data, Outside):
        with tempfile.TemporaryDirectory(dir=work) as folder:
            put_all(folder, data.files)
            return *made_by(program, words, data, folder), lying_in(folder)
    if isinstance(data, dict):
        with tempfile.TemporaryDirectory(dir=work) as folder:
            put_all(folder, data)
            return answer_of(program, words, subprocess.DEVNULL, folder)
    if work:
        with tempfile.TemporaryFile(dir=work) as source:
            source.write(data)
            source.seek(0)
            return answer_of(program, words, source)
    done = subprocess.run([os.path.abspath(program).encode(), *words], input=data, capture_output=True)
    return done.returncode, done.stdout, done.stderr


def put_all(folder, files):
    for path, content in files.items():
        put(pathlib.Path(folder, os.fsdecode(path)), content)


def put(path, content):
    """Makes a file, or a folder, or a link to a path."""
    path.parent.mkdir(parents=True, exist_ok=True)
    if isinstance(content, pathlib.Path):
        path.symlink_to(content)
    elif content is None:
        path.mkdir(exist_ok=True)
    else:
        path.write_bytes(content)


def answer_of(program, words, source, folder=None):
    done = subprocess.run([os.path.abspath(program).encode(), *words], stdin=source, cwd=folder, capture_output=True)
    return done.returncode, done.stdout, done.stderr


def made_by(program, words, outside, folder):
    """The answer over standard input, where no file gets more bytes than a bound: a write beyond it fails, as on a full disk."""
    bound = lambda: outside.most is None or resource.setrlimit(resource.RLIMIT_FSIZE, (outside.most, outside.most))
    # (The signal of such a write stays ignored, as it is here.)
    done = subprocess.run([os.path.abspath(program).encode(), *words], input=outside.given, cwd=folder, capture_output=True, preexec_fn=bound,
                          restore_signals=False)
    return done.returncode, done.stdout, done.stderr


def lying_in(folder):
    """All files below the folder by their paths, None for folders, and for links where they lead."""
    content = lambda path: path.readlink() if path.is_symlink() else None if path.is_dir() else path.read_bytes()
    return {os.fsencode(path.relative_to(folder)): content(path) for path in pathlib.Path(folder).rglob("*")}


# A right command over no input, for each word that a usage line may offer.
PROBES = {b"decode": [b"ibm-3740"], b"report": [b"ibm-3740"], b"write": [b"ibm-3740"], b"trial": [b"apple-do", b"0"],
          b"to-g64": [b"c1541"], b"from-g64": [b"c1541"], b"decode-set": [b"apple-do", b"2"],
          b"decode-folder": [b"apple-do", b"/nowhere"]}

# The same of words that the usage line does not name.
MORE_PROBES = {b"rescue": [b"apple-do"], b"map": [b"apple-do"], b"read": [b"apple-do", b"/nowhere"], b"identify": [b"/nowhere"], b"info": [b"/nowhere"],
               b"imd": [b"/nowhere"], b"archive": [b"/nowhere/kept", b"/nowhere/dump"],
               b"show": [b"apple-do", b"00.0", b"00", b"/nowhere"],
               plain_commands.WRITE_FOLDER: [b"/nowhere/dump", b"apple-do"], b"split": [b"/nowhere/dump", b"1"],
               b"unpack": [b"/nowhere/disk.scp", b"/nowhere/dump"]}


def commands_of(program):
    """The usage line, and the commands that it offers and that are built."""
    code, out, usage = run(program, [], b"")
    usage = usage.rstrip(b"\n")
    if code != 3 or out or usage.decode() not in plain_commands.USAGES:
        sys.exit(f"no usage line of flux: {usage!r}")
    offered = [word for word in PROBES if b"| " + word + b" " in usage]
    asked = {word: PROBES[word] for word in offered} | MORE_PROBES
    built = {word for word, rest in asked.items() if run(program, [*word.split(), *rest], b"")[0] != 3}
    told = {plain_commands.BY_NUMBERS: tells_numbers, plain_commands.OF_HEADS: tells_heads}
    return usage, built | {what for what, tells in told.items() if tells(program)}


def tells_numbers(program):
    """Whether `identify` tells a disk that has no name by its numbers."""
    form = plain.numbered("mfm-dd-1x1x1x128@7")
    stream = plain.stream_of(form.ring_of(bytes(128), 0), form.nominal(0))
    return b"mfm-dd-1x1x1x128@7" in run(program, [b"identify", b"dump"], {b"dump/track00.0.raw": stream})[1]


def tells_heads(program):
    """Whether it tells one whose headers name other heads than the drive's."""
    form = plain.numbered("mfm-dd-1x1x1x128@7")
    stream = plain.stream_of(form.ring_of(bytes(128), 0), form.nominal(0))
    return b" names head 0" in run(program, [b"identify", b"dump"], {b"dump/track00.1.raw": stream})[1]
