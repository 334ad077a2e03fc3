"""Runs a program over generated cases, and compares its answers with the plain reading of the definitions in modules/plain*.py.

The exit code and the bytes of standard output and standard error have to be the same. Cases are made from a seed and their number,
so that each can be made again. The smallest input that differs is kept, with both answers.

usage: bench/run compare PROGRAM [--cases N] [--seed S] [--first I] [--kind NAME] [--processes P] [--keep FOLDER]
       [--work FOLDER]

Inputs that the program reads from files lie in a folder of the run's own, below --work or where temporary files are, which goes at its end.
"""
import argparse
import collections
import multiprocessing
import os
import pathlib
import random
import re
import shutil
import signal
import sys
import tempfile
import time

import cases
import plain_commands
from plain_files import Outside
from programs import commands_of, put_all, run


def options():
    parser = argparse.ArgumentParser(prog="bench/run compare")
    parser.add_argument("program")
    parser.add_argument("--cases", type=int, default=10000)
    parser.add_argument("--seed", type=int, default=1)
    parser.add_argument("--first", type=int, default=0, help="the number of the first case")
    parser.add_argument("--kind", choices=[row[0] for row in cases.TABLE], help="cases of this kind alone")
    parser.add_argument("--processes", type=int, default=os.cpu_count())
    parser.add_argument("--keep", default="differs")
    parser.add_argument("--work", help="the folder below which temporary files lie")
    return parser.parse_args()


def one(task):
    """Runs a case: its kinds, the answer's kind, and what differs, or None."""
    program, seed, number, usage, built, work, kind = task
    chance = random.Random(f"{seed} {number}")
    name, words, data, kinds = cases.make(chance, built, kind)
    wanted = plain_commands.outcome(words, data, built, usage)
    got = run(program, words, data, work if number % 2 == 0 or isinstance(data, dict) else None)
    return number, name, kinds, answer_of(words, wanted), (words, data, wanted, got) if wanted != got else None


def answer_of(words, wanted):
    """The code, and the fault's name or the verdicts that it has."""
    code, out, notes, *_ = wanted
    last = notes.splitlines()[-1:] or [b""]
    found = [f"code {code}"]
    if code == 2:
        fault = last[0].decode().split()
        found.append("refused: " + next((part for part in fault if part[0].isupper()), fault[3] if fault[1:2] == ["track"] else "image"))
    if code == 8 and words[0] in (b"write", b"split", b"unpack"):
        found.append("failed: " + last[0].decode().split()[1])
    text = (out if words and words[0] in (b"report", b"map") else notes).decode()
    verdicts = re.findall(r"(?:^|<title>)[0-9]{2}\.[01] [0-9]{2,3} ([a-z]+) ", text, re.MULTILINE)
    others = re.findall(r"^[0-9]{2}\.[01] (other|others not told|traces|dump [0-9] [a-z]+)\b", text, re.MULTILINE)
    return found + sorted({"verdict " + verdict for verdict in verdicts} | {"line " + re.sub("[0-9]", "N", other) for other in others})


def files_of(data):
    """All that a case puts in, as files by their paths."""
    if isinstance(data, Outside):
        return data.files | {"input": data.given}
    return data if isinstance(data, dict) else {"input": data}


def keep(folder, number, words, data, wanted, got):
    folder = pathlib.Path(folder)
    folder.mkdir(parents=True, exist_ok=True)
    shutil.rmtree(folder / "files", ignore_errors=True)
    put_all(folder / "files", files_of(data))
    (folder / "words").write_text(f"case {number}: {words}\n")
    for name, (code, out, notes, *left) in (("wanted", wanted), ("got", got)):
        (folder / f"{name}.code").write_text(f"{code}\n")
        (folder / f"{name}.out").write_bytes(out)
        (folder / f"{name}.err").write_bytes(notes)
        shutil.rmtree(folder / f"{name}.files", ignore_errors=True)
        for files in left:
            put_all(folder / f"{name}.files", files)


def table(title, counter):
    print(f"\n{title}")
    for name, count in sorted(counter.items()):
        print(f"  {count:7}  {name}")


def main():
    args = options()
    signal.signal(signal.SIGTERM, lambda *_: sys.exit(143))
    with tempfile.TemporaryDirectory(prefix="compare-", dir=args.work) as work:
        return compare(args, work)


def compare(args, work):
    usage, built = commands_of(args.program)
    begin = time.time()
    names, kinds, answers, slowest = (collections.Counter() for _ in range(4))
    different = collections.Counter()
    first = None
    tasks = ((args.program, args.seed, number, usage, built, work, args.kind) for number in range(args.first, args.first + args.cases))
    with multiprocessing.Pool(args.processes) as pool:
        for number, name, done, answer, differs in pool.imap_unordered(one, tasks):
            names[name] += 1
            kinds.update(done)
            answers.update(answer)
            if differs:
                different[name] += 1
                size = sum(len(content or b"") for content in files_of(differs[1]).values())
                if first is None or size < first:
                    first = size
                    keep(args.keep, number, *differs)
                    print(f"case {number} differs, {size} bytes: kept in {args.keep}", flush=True)
    table("cases, by kind", names)
    table("ways of damage", kinds)
    table("answers that were wanted", answers)
    table("differences, by kind", different)
    print(f"\ncommands {' '.join(sorted(word.decode() for word in built))} and turns; seed {args.seed}")
    print(f"{args.cases} cases, {sum(different.values())} differences, {time.time() - begin:.0f} s")
    return 1 if different else 0


if __name__ == "__main__":
    sys.exit(main())
