#!/usr/bin/env python3
"""Has shells complete command lines by the scripts of `asl completions`, and counts.

usage: python3 rows/completions.py [PROGRAM ..]

Without a PROGRAM, both builds of `asl` are run. Of each program and each shell (bash, and zsh and fish where they are there):

- The shell finds no fault in the script.
- At a terminal, the shell reads the script, and then each of the lines below, in which a tab stands where something is to be
  completed. What it makes of the line it runs: in place of the program stands one there that notes its words, which are
  compared with those that are wanted.

And of each program: the script for bash offers, behind each command, the options that the command's help names, and in front
of one the commands that the program's help names; the other scripts have each of these words.

A shell that isn't there is passed over, and a line says so. The last line is 'N passed, M failed'; the exit status is 0 where
nothing failed and something passed.
"""

import os
import pathlib
import pty
import re
import select
import shutil
import subprocess
import sys
import tempfile
import time

TOP = pathlib.Path(__file__).resolve().parent.parent
BUILDS = [TOP / "crates/asl/out/asl", TOP / "crates/asl/out/asl.by-rattle"]
SECONDS = 30

# What is entered, with what it is completed to.
LINES = [
    ("asl ver\t", ["verify"]),
    ("asl exp\t", ["explain"]),
    ("asl --ver\t", ["--version"]),
    ("asl help dec\t", ["help", "declare"]),
    ("asl completions z\t", ["completions", "zsh"]),
    ("asl lint --deny\t", ["lint", "--deny-warnings"]),
    ("asl lint --format s\t", ["lint", "--format", "sarif"]),
    ("asl lint --format=g\t", ["lint", "--format=github"]),
    ("asl run --order l\t", ["run", "--order", "last"]),
    ("asl shape --o\t", ["shape", "--open"]),
    ("asl infer --num\t first", ["infer", "--numbered", "first"]),
    # Files, also behind an option and an option's equals sign.
    ("asl verify def\t decl\t", ["verify", "definition.json", "declared.json"]),
    ("asl lint definition.json --declared decl\t", ["lint", "definition.json", "--declared", "declared.json"]),
    ("asl lint definition.json --declared=decl\t", ["lint", "definition.json", "--declared=declared.json"]),
    ("asl shape two\t", ["shape", "two words.json"]),
    ("asl check folder/in\t", ["check", "folder/inner.json"]),
    # Nothing: a number, a name of a state, a word that begins as no command does.
    ("asl run --max-steps def\t", ["run", "--max-steps", "def"]),
    ("asl explain --state def\t", ["explain", "--state", "def"]),
    ("asl def\t", ["def"]),
    ("asl completions def\t", ["completions", "def"]),
]
FILES = ["definition.json", "declared.json", "two words.json", "folder/inner.json"]
# The program that the shells run in place of asl: it notes its words, a line each, and an empty line.
NOTING = '#!/bin/sh\n{ for word in "$@"; do printf "%s\\n" "$word"; done; echo; } >>"$NOTES"\n'

# Each shell: how it is started at a terminal, and how it reads the script.
SHELLS = {
    "bash": (["bash", "--noprofile", "--norc", "-i"], "bind 'set bell-style none'; source {script}"),
    "zsh": (["zsh", "-f", "-i"], "unsetopt beep; autoload -U compinit; compinit -u -D; source {script}"),
    "fish": (["fish", "--no-config", "-i"], "source {script}"),
}


class Terminal:
    """A shell at a terminal of its own."""

    def __init__(self, words, folder):
        self.notes = folder / "notes"
        self.notes.write_text("")
        given = {"PATH": f"{folder}/bin:{os.environ['PATH']}", "NOTES": str(self.notes), "HOME": str(folder), "TERM": "xterm"}
        self.process, self.ends = pty.fork()
        if self.process == 0:
            os.chdir(folder)
            os.execvpe(words[0], words, given)

    def enter(self, line):
        """Types a line."""
        os.write(self.ends, line.encode() + b"\r")

    def noted(self, count):
        """Returns the words of so many runs of the program, or of fewer where they don't come in time."""
        end = time.monotonic() + SECONDS
        while self.notes.read_text().count("\n\n") < count and time.monotonic() < end:
            self.read()
        return [run.split("\n") for run in self.notes.read_text().split("\n\n")[:count] if run]

    def read(self):
        """Takes what the shell shows, if there is something soon."""
        if select.select([self.ends], [], [], 0.02)[0]:
            try:
                os.read(self.ends, 65536)
            except OSError:
                time.sleep(0.02)  # the shell has ended

    def close(self):
        """Ends the shell."""
        os.close(self.ends)
        os.kill(self.process, 9)
        os.waitpid(self.process, 0)


def answer(program, *words):
    """What the program prints."""
    return subprocess.run([program, *words], capture_output=True, text=True, check=True, timeout=SECONDS).stdout


def told(is_right, what):
    """Whether it is right; tells what isn't."""
    if not is_right:
        print(f"FAILED {what}")
    return is_right


def completed(shell, script, folder):
    """For each line, whether the shell completes it as it is wanted."""
    words, begin = SHELLS[shell]
    terminal = Terminal(words, folder)
    try:
        terminal.enter(begin.format(script=script))
        terminal.enter("asl ready")
        if not told(terminal.noted(1) == [["ready"]], f"{shell}: it doesn't run asl"):
            return [False]
        passed = []
        for line, wanted in LINES:
            terminal.enter(line)
            got = terminal.noted(len(passed) + 2)[len(passed) + 1:]
            passed.append(told(got == [wanted], f"{shell}: {line!r} became {got}, and {wanted} is wanted"))
            if not got:
                break
        return passed
    finally:
        terminal.close()


def with_shell(shell, program):
    """Whether the shell's script is right: the script itself, and each line."""
    if not shutil.which(shell):
        print(f"{shell} isn't there: its completions are passed over")
        return []
    with tempfile.TemporaryDirectory(prefix="asl-completions-") as name:
        folder = pathlib.Path(name)
        for file in FILES:
            (folder / file).parent.mkdir(exist_ok=True)
            (folder / file).touch()
        (folder / "bin").mkdir()
        (folder / "bin/asl").write_text(NOTING)
        (folder / "bin/asl").chmod(0o755)
        script = folder / "script"
        script.write_text(answer(program, "completions", shell))
        read = subprocess.run([shell, "-n", script], capture_output=True, text=True, check=False)
        is_read = told(read.returncode == 0 and not read.stderr, f"{shell} -n: {read.stderr}")
        return [is_read, *completed(shell, script, folder)]


def offered(script, *words):
    """The words that the script for bash offers behind these, of which the last is begun."""
    call = f'source {script}; COMP_WORDS=("$@"); COMP_CWORD=$(($# - 1)); _asl; printf "%s\\n" "${{COMPREPLY[@]}}"'
    ran = subprocess.run(["bash", "-c", call, "bash", *words], capture_output=True, text=True, check=True)
    return sorted(ran.stdout.split())


def named(text, heading):
    """The first words of the entries that stand below a heading of a help."""
    part = re.search(rf"(?m)^{heading}:\n((?: .*\n)+)", text)
    return re.findall(r"(?m)^  (\w+)  ", part[1]) if part else []


def options(text):
    """The options that a help names."""
    return sorted(set(re.findall(r"(?m)^ {2,6}(-\w)\b", text) + re.findall(r"(?m)^ {2,6}(?:-\w, )?(--[\w-]+)", text)))


def with_help(program):
    """Whether the scripts have what the help has."""
    names = named(answer(program, "--help"), "Commands")
    with tempfile.TemporaryDirectory(prefix="asl-completions-") as name:
        script = pathlib.Path(name) / "script"
        script.write_text(answer(program, "completions", "bash"))
        passed = [told(offered(script, "asl", "") == sorted(names), f"bash: the commands are not {names}")]
        wanted = {name: options(answer(program, name, "--help")) for name in names if name != "help"}
        for name, words in {"": options(answer(program, "--help")), **wanted}.items():
            words_before = ["asl", name] if name else ["asl"]
            got = offered(script, *words_before, "-")
            passed.append(told(words and got == words, f"bash: behind {words_before} come {got}, and {words} are wanted"))
    for shell in ["zsh", "fish"]:
        text = answer(program, "completions", shell)
        words = [*names, *(it.lstrip("-") for its in wanted.values() for it in its)]
        lacking = [it for it in words if not re.search(rf"(?<![\w-])-{{0,2}}{it}(?![\w-])", text)]
        passed.append(told(not lacking, f"{shell}: {lacking} are lacking"))
    return passed


def main():
    passed = []
    for program in [pathlib.Path(it).absolute() for it in sys.argv[1:]] or BUILDS:
        print(f"== completions of {os.path.relpath(program)}")
        if not program.is_file():
            passed.append(told(False, "there is no such program"))
            continue
        passed += with_help(program)
        for shell in SHELLS:
            passed += with_shell(shell, program)
    print(f"{sum(passed)} passed, {len(passed) - sum(passed)} failed")
    return 0 if passed and all(passed) else 1


if __name__ == "__main__":
    sys.exit(main())
