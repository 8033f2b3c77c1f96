#!/usr/bin/env python3
"""Runs the cases of the tables rows/*.rows on the program, and counts.

usage: python3 rows/run.py [--only WORDS] [PROGRAM ..]

Without a PROGRAM, both builds of `asl` are run. With --only, only cases whose
name has WORDS. The last line is 'N passed, M failed'; the exit status is 0
where no case failed and one passed. rows/README.md tells how a table is written.
"""

import argparse
import os
import pathlib
import re
import resource
import shutil
import subprocess
import sys
import tempfile
import threading
import time

from made import made

ROWS = pathlib.Path(__file__).resolve().parent
TOP = ROWS.parent
BUILDS = [TOP / "crates/asl/out/asl", TOP / "crates/asl/out/asl.by-rattle"]
LINES = ["definition", "declared", "certificate"]
TEXTS = [*LINES, "input", "answers"]
ONCE = [*TEXTS, "lines", "unended", "after", "words", "stdin", "shrinks", "stdout", "memory", "seconds", "times", "status"]
MANY = ["word", "prints", "tells", "file", "folder", "link", "enters"]
COMMON = [*TEXTS, "words", "stdin"]
SECONDS = 120
# How many bytes a write of what is entered beside files has.
PIECE = 4096


class Case:
    """One case of a table: what the program is given, and what it must answer."""

    def __init__(self, name, place, given):
        self.name = name
        self.place = place
        self.given = dict(given)
        self.named = set()
        self.many = {key: [] for key in MANY}

    def put(self, key, value):
        """Takes one line of the table."""
        if key in MANY:
            self.many[key].append(value)
        elif key in ONCE and key not in self.named:
            self.named.add(key)
            self.given[key] = value
        else:
            raise ValueError(f"{self.place}: '{key}' is unknown or stands twice")

    def words(self):
        """Returns the arguments of the program."""
        return [made(word) for word in [*self.given.get("words", "").split(), *self.many["word"]]]

    def text(self):
        """Returns the bytes of standard input, where the case gives lines."""
        count = int(self.given.get("lines", len(LINES)))
        lines = [made(self.given[key]) + b"\n" for key in LINES[:count]]
        text = b"".join(lines) + made(self.given.get("after", ""))
        return text[:-1] if "unended" in self.given else text

    def entered(self):
        """Returns the bytes of standard input, where the case gives files beside it."""
        return b"\n".join(made(it) for it in self.many["enters"])

    def files(self):
        """Returns the lines of each further file, by its path."""
        files = {}
        for name, text in map(named, self.many["file"]):
            files.setdefault(name, []).append(made(text))
        return files

    def put_files(self, folder):
        """Puts each text that the case gives into the file of its name, and makes its folders and links."""
        for key in TEXTS:
            if key in self.given:
                (folder / key).write_bytes(made(self.given[key]))
        for name in self.many["folder"]:
            (folder / os.fsdecode(made(name))).mkdir(parents=True)
        for name, lines in self.files().items():
            (folder / name).parent.mkdir(parents=True, exist_ok=True)
            (folder / name).write_bytes(b"\n".join(lines))
        for name, target in map(named, self.many["link"]):
            (folder / name).symlink_to(target)

    def wanted(self):
        """Returns the wanted status and bytes of both streams; no bytes of an output that nobody can read."""
        if "status" not in self.given:
            raise ValueError(f"{self.place}: the case has no status")
        prints, tells = (b"".join(made(it) + b"\n" for it in self.many[key]) for key in ("prints", "tells"))
        return int(self.given["status"]), prints * int(self.given.get("times", 1)), tells


def named(value):
    """Returns the name with which a value begins, its parts made, and what stands behind the space that ends it."""
    name, text = re.fullmatch(r"((?:<<.*?>>|\S)+) (.*)", value).groups()
    return os.fsdecode(made(name)), text


def cases_of(table):
    """Returns the cases of a table; what stands before the first one is given to each."""
    common, cases = {}, []
    for number, line in enumerate(table.read_text(encoding="utf-8").split("\n"), start=1):
        if not line or line.startswith("#"):
            continue
        key, _, value = line.partition(" ")
        place = f"{table.name}:{number}"
        if key == "case":
            cases.append(Case(value, place, common))
        elif cases:
            cases[-1].put(key, value)
        elif key in COMMON:
            common[key] = value
        else:
            raise ValueError(f"{place}: '{key}' stands before the first case")
    return cases


def all_cases():
    """Returns the cases of all tables, whose names must differ."""
    cases = [case for table in sorted(ROWS.glob("*.rows")) for case in cases_of(table)]
    names = set()
    for case in cases:
        if case.name in names:
            raise ValueError(f"{case.place}: a second case has the name '{case.name}'")
        names.add(case.name)
        case.wanted()
    return cases


def clear(folder):
    """Leaves nothing of another case in the folder, but the program."""
    for entry in os.scandir(folder):
        if entry.is_dir(follow_symlinks=False):
            shutil.rmtree(entry)
        elif entry.name != "asl":
            os.unlink(entry)


def opened_input(case, folder):
    """Returns what stands at the program's standard input, or None for a closed one."""
    kind, _, name = case.given.get("stdin", "lines").partition(" ")
    if kind == "closed":
        case.put_files(folder)
        return None
    if kind == "folder":
        return os.open(folder, os.O_RDONLY)
    if kind == "file":
        return os.open(TOP / name, os.O_RDONLY)
    if kind == "files":
        case.put_files(folder)
        return piped(case.entered(), PIECE) if case.many["enters"] else os.open(os.devnull, os.O_RDONLY)
    if kind == "pipe":
        return piped(case.text(), int(name))
    if kind != "lines":
        raise ValueError(f"{case.place}: no standard input is called '{kind}'")
    path = folder / "stdin"
    path.write_bytes(case.text())
    return os.open(path, os.O_RDONLY)


def shrink(path, opened, kept, has_ended):
    """Cuts the file at standard input to so many bytes once the program has read more of it."""
    while os.lseek(opened, 0, os.SEEK_CUR) <= kept and not has_ended.is_set():
        time.sleep(0)
    os.truncate(path, kept)


def piped(text, step):
    """Returns the reading end of a pipe into which a thread writes the text, `step` bytes at a time."""
    reader, writer = os.pipe()

    def write():
        try:
            for begin in range(0, len(text), step):
                os.write(writer, text[begin:begin + step])
        except BrokenPipeError:
            pass  # the program has seen enough
        finally:
            os.close(writer)

    threading.Thread(target=write).start()
    return reader


def opened_output(case, folder):
    """Returns what stands at the program's standard output, or None for a closed one."""
    kind = case.given.get("stdout", "taken")
    if kind == "closed":
        return None
    if kind == "full":
        return os.open("/dev/full", os.O_WRONLY)
    if kind == "unread":
        reader, writer = os.pipe()
        os.close(reader)
        return writer
    if kind != "taken":
        raise ValueError(f"{case.place}: no standard output is called '{kind}'")
    return os.open(folder / "stdout", os.O_RDWR | os.O_CREAT | os.O_TRUNC)


def answer(case, folder):
    """Runs the case with the program that stands in the folder; returns its status and streams."""
    clear(folder)
    ends = [opened_input(case, folder), opened_output(case, folder)]
    has_ended = threading.Event()
    if "shrinks" in case.given:
        given = folder / "stdin", ends[0], int(case.given["shrinks"]), has_ended
        threading.Thread(target=shrink, args=given, name="shrink").start()

    def prepare():
        for number, end in enumerate(ends):
            if end is None:
                os.close(number)
        if "memory" in case.given:
            # (a limit on the address space would also be one on the stack, and a stack that may not grow ends the program)
            resource.setrlimit(resource.RLIMIT_DATA, (int(case.given["memory"]) << 20,) * 2)

    try:
        done = subprocess.run(
            [b"./asl", *case.words()], executable=folder / "asl", cwd=folder, env={},
            timeout=int(case.given.get("seconds", SECONDS)),
            stdin=ends[0], stdout=ends[1], stderr=subprocess.PIPE,
            preexec_fn=prepare if None in ends or "memory" in case.given else None, check=False)
    finally:
        has_ended.set()
        for thread in (it for it in threading.enumerate() if it.name == "shrink"):
            thread.join()
        for end in ends:
            if end is not None:
                os.close(end)
    is_taken = case.given.get("stdout", "taken") == "taken"
    prints = (folder / "stdout").read_bytes() if is_taken else b""
    return done.returncode, prints, done.stderr


def shown(text):
    """Returns bytes as a short text for a report."""
    return repr(text if len(text) <= 400 else text[:400] + b" ..") if isinstance(text, bytes) else str(text)


def passes(case, folder):
    """Tells whether the program answers the case as wanted, and reports where it doesn't."""
    try:
        came = answer(case, folder)
    except (OSError, subprocess.TimeoutExpired) as fault:
        print(f"FAILED {case.place} {case.name}: {fault}")
        return False
    bad = [it for it in zip(("status", "output", "error"), case.wanted(), came) if it[1] != it[2]]
    if bad:
        print(f"FAILED {case.place} {case.name}")
    for what, wanted, got in bad:
        print(f"  {what}: wanted {shown(wanted)}, got {shown(got)}")
    return not bad


def run(program, cases):
    """Runs the cases on a program under the name `asl`; returns how many passed and failed."""
    print(f"== rows on {os.path.relpath(program)}")
    if not os.path.isfile(program):
        print("FAILED: there is no such program")
        return 0, len(cases)
    with tempfile.TemporaryDirectory(prefix="asl-rows-") as name:
        folder = pathlib.Path(name)
        shutil.copy(program, folder / "asl")
        passed = sum(passes(case, folder) for case in cases)
    return passed, len(cases) - passed


def main():
    words = argparse.ArgumentParser(description="Runs the cases of rows/*.rows.")
    words.add_argument("--only", default="", help="run only the cases whose name has these words")
    words.add_argument("programs", nargs="*", type=pathlib.Path, default=BUILDS)
    given = words.parse_args()
    cases = [case for case in all_cases() if given.only in case.name]
    counts = [run(program, cases) for program in given.programs]
    passed, failed = (sum(it) for it in zip(*counts))
    print(f"{passed} passed, {failed} failed")
    return 0 if passed and not failed else 1


if __name__ == "__main__":
    sys.exit(main())
