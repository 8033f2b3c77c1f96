#!/usr/bin/env python3
"""Holds what `asl lint` tells against what `asl verify` says, its formats against each other, `asl explain` against both, and
places and pictures against the texts.

usage: python3 rows/agreement.py [--machines N] [PROGRAM ..]

Without a PROGRAM, both builds of `asl` are run. The definitions are those of the samples, of all cases that have a definition
and declared shapes (rows/*.rows), and N random machines (rows/machines.py), 2000 without --machines, the same each time; with
10000 and more the log in SARIF gets longer than is taken. All of them are told by one `asl lint` of their folder, and each is
given to `asl verify`:

- lint tells no error of a definition or its declared shapes exactly where verify prints `yes`;
- a log in SARIF has what the standard wants (tools/sarif);
- the objects in JSON have the fields that docs/REFERENCE.md names, those that it says are always there in each;
- text, JSON, SARIF and GitHub's commands tell the same diagnostics, in one order;
- the problem matcher takes each line of the text apart as the JSON has it;
- what is told stands in the state and the field that it names, and a path at a text that says it (rows/placing.py);
- of broken definitions and broken declared shapes it tells the faults that stand in them, each at its place (rows/broken.py).

Each is given to `asl graph`, without and with its declared shapes, for Mermaid and for dot: where it draws a picture, that
shows the definition's states, scopes and lines, and the states that lint tells an error of or to which no data comes
(rows/pictures.py).

Each is given to `asl explain`, too:

- its status is that of verify, but for shapes that don't settle;
- what it explains are the errors that lint tells of a definition that is read, by state, field and finding;
- where verify says yes, the input and the output that `asl explain --state` tells of the first states are those of the
  certificate that `asl infer` prints, in short notation (rows/notation.py).

The last line is 'N passed, M failed', in which N counts the definitions, four times, the broken texts and the checks of formats; the exit status
is 0 where nothing failed and something passed.
"""

import argparse
import concurrent.futures
import json
import os
import pathlib
import re
import subprocess
import sys
import tempfile

from broken import broken_texts, fault_of_broken
from machines import Maker
from made import made
from notation import noted
from pictures import drawing_of, fault_between, of_dot, of_mermaid
from placing import fault_of_place
from run import BUILDS, ROWS, TOP, cases_of

# Longer texts of cases are left out: they try limits.
MOST_BYTES = 100000
MATCHER = TOP / "tools/asl-problem-matcher.json"
REFERENCE = TOP / "docs/REFERENCE.md"
SECONDS = 300
# How many broken definitions, and declared shapes, are made.
BROKEN = 300
# How many states of a definition are looked at, in byte order of their names.
MOST_STATES = 6


def of_samples():
    """Each sample's definition and declared shapes, with its name."""
    for folder in sorted((TOP / "samples").iterdir()):
        for declared in sorted(folder.glob("*declared.json")):
            definition = declared.with_name(declared.name.replace("declared", "definition"))
            if not definition.is_file():
                definition = declared.with_name(declared.name.replace("declared", "asl"))
            yield f"sample {folder.name}", definition.read_bytes(), declared.read_bytes()


def of_cases():
    """The definition and the declared shapes of each case that has both, once."""
    told = set()
    for table in sorted(ROWS.glob("*.rows")):
        for case in cases_of(table):
            if "definition" in case.given and "declared" in case.given:
                texts = made(case.given["definition"]), made(case.given["declared"])
                if texts not in told and sum(map(len, texts)) <= MOST_BYTES:
                    told.add(texts)
                    yield f"case {case.name}", *texts


def of_machines(count):
    """So many random machines."""
    for number in range(count):
        definition, declared = Maker(number).machine()
        yield f"machine {number}", json.dumps(definition, indent=2).encode(), json.dumps(declared).encode()


class Folder:
    """A folder of definitions, each with its declared shapes beside it."""

    def __init__(self, path, count):
        self.path, self.names = path, []
        for name, definition, declared in [*of_samples(), *of_cases(), *of_machines(count)]:
            number = f"{len(self.names):05}"
            (path / f"{number}.asl.json").write_bytes(definition)
            (path / f"{number}.declared.json").write_bytes(declared)
            self.names.append(name)

    def run(self, program, *words):
        """Runs the program in the folder; returns its status and output."""
        done = subprocess.run(
            [program, *words], cwd=self.path, env={}, stdin=subprocess.DEVNULL, stdout=subprocess.PIPE,
            stderr=subprocess.PIPE, timeout=SECONDS, check=False)
        return done.returncode, done.stdout.decode(), done.stderr.decode()

    def words(self, number):
        """The files of the definition of that number."""
        return f"{number:05}.asl.json", f"{number:05}.declared.json"

    def says_yes(self, program, number):
        """Whether verify says yes to the definition of that number."""
        return self.run(program, "verify", *self.words(number)) == (0, "yes\n", "")


class Tally:
    """What was looked at, and what was found."""

    def __init__(self):
        self.passed = self.failed = 0

    def look(self, what, fault):
        """Counts a look, and tells its fault, if it has one."""
        self.passed += not fault
        self.failed += bool(fault)
        if fault:
            print(f"FAILED {what}: {fault}", flush=True)


def look_at_verdicts(program, folder, diagnostics, tally):
    """Compares the errors that lint tells of each definition with the verdict on it."""
    wrong = {it["file"].split("/")[-1].partition(".")[0] for it in diagnostics if it["severity"] == "error"}
    with concurrent.futures.ThreadPoolExecutor(len(os.sched_getaffinity(0))) as workers:
        verdicts = list(workers.map(lambda it: folder.says_yes(program, it), range(len(folder.names))))
    for number, says_yes in enumerate(verdicts):
        has_error = f"{number:05}" in wrong
        fault = f"verify says {'yes' if says_yes else 'no'}, and lint tells {'an' if has_error else 'no'} error"
        tally.look(folder.names[number], None if says_yes != has_error else fault)
    print(f"{len(verdicts)} definitions, {sum(verdicts)} of them with a yes", flush=True)


def told_of(line):
    """The state, the field and the finding that the first line of an explanation names."""
    state, end = json.JSONDecoder().raw_decode(line)
    field, finding = line[end + 1:].split(":")[0].rsplit(" ", 1)
    return state, field, finding


def fault_of_findings(explained, errors):
    """Where other findings are explained than lint tells, or None."""
    heads = {told_of(it) for it in explained.split("\n") if it.startswith('"')}
    told = {(it.get("state", ""), it.get("field", ""), it["rule"]) for it in errors}
    return None if heads == told else f"explained is {sorted(heads ^ told)[:2]} or told by lint, and not both"


def fault_of_state(program, folder, number, name, shapes):
    """Where what is explained of a state isn't what is certified of it, or None."""
    status, output, _ = folder.run(program, "explain", *folder.words(number), f"--state={name}")
    rows = {it[2:12].strip(): it[14:] for it in output.split("\n") if it.startswith("  ")}
    if status != 0 or "input" not in rows:
        return f"status {status} for the state {name!r}: {output[:200]!r}"
    for label in rows.keys() & {"input", "output"}:
        if rows[label] != noted(shapes[label]):
            return f"the {label} of {name!r} is {rows[label]}, and certified is {noted(shapes[label])}"
    return None


def fault_of_states(program, folder, number):
    """Where what is explained of the first states isn't what is certified of them, or None."""
    states = json.loads(folder.run(program, "infer", *folder.words(number))[1])["states"]
    names = [it for it in sorted(states, key=str.encode)[:MOST_STATES] if "\0" not in it]
    faults = (fault_of_state(program, folder, number, it, states[it]) for it in names)
    return next((it for it in faults if it), None)


def fault_of_explained(program, folder, number, errors):
    """Where what is explained of the definition of that number isn't what verify, lint and infer tell, or None."""
    verified, verdict, _ = folder.run(program, "verify", *folder.words(number))
    status, explained, _ = folder.run(program, "explain", *folder.words(number))
    if status != verified:
        return f"the status of explain is {status}, and that of verify {verified}"
    if verdict == "yes\n":
        return fault_of_states(program, folder, number)
    return fault_of_findings(explained, errors) if verdict.startswith("no ") else None


def look_at_explanations(program, folder, diagnostics, tally):
    """Compares what is explained of each definition with what else is told of it."""
    errors = numbered([it for it in diagnostics if it["severity"] == "error"], len(folder.names))
    with concurrent.futures.ThreadPoolExecutor(len(os.sched_getaffinity(0))) as workers:
        faults = workers.map(lambda it: fault_of_explained(program, folder, it, errors[it]), errors)
        for number, fault in enumerate(faults):
            tally.look(f"explanations of {folder.names[number]}", fault)


def numbered(diagnostics, count):
    """The diagnostics of each definition and its declared shapes, by its number."""
    each = {number: [] for number in range(count)}
    for it in diagnostics:
        each[int(it["file"].split("/")[-1].partition(".")[0])].append(it)
    return each


def look_at_places(folder, diagnostics, tally):
    """Looks whether what is told of each definition and its declared shapes stands where it should."""
    for number, told in numbered(diagnostics, len(folder.names)).items():
        placed = [it for it in told if it["rule"] != "NotJson"]
        faults = (fault_of_place((folder.path / it["file"]).read_bytes().decode(), it) for it in placed)
        tally.look(f"places in {folder.names[number]}", next((it for it in faults if it), None))


def look_at_broken(program, tally):
    """Looks whether of texts that are broken at several places all faults are told, each at its place."""
    with tempfile.TemporaryDirectory(prefix="asl-broken-") as name:
        path = pathlib.Path(name)
        texts = list(broken_texts(BROKEN))
        for file, text, _ in texts:
            (path / file).write_text(text, encoding="utf-8")
        words = [program, "lint", ".", "--format", "json"]
        ran = subprocess.run(words, cwd=path, capture_output=True, timeout=SECONDS, check=False)
    told = {file: [] for file, _, _ in texts}
    for it in json.loads(ran.stdout):
        told[it["file"].removeprefix("./")].append(it)
    for file, text, faults in texts:
        tally.look(f"faults in {file}", fault_of_broken(text, faults, told[file]))


def fault_of_picture(program, folder, number, told, *words):
    """Where the picture of a definition shows something else than the definition has, or None."""
    status, output, _ = folder.run(program, "graph", folder.words(number)[0], *words)
    if status:
        return None
    errors = [it["state"] for it in told if it["severity"] == "error" and "state" in it]
    warned = [it["state"] for it in told if it["rule"] in ("UnreachableState", "NoDataReaches")]
    known = (errors, warned) if "--declared" in words else ()
    text = (folder.path / folder.words(number)[0]).read_bytes()
    picture = of_dot(output) if "dot" in words else of_mermaid(output)
    fault = fault_between(picture, drawing_of(text, *known))
    return f"{' '.join(words)}: {fault}" if fault else None


def fault_of_pictures(program, folder, number, told):
    """The same of each picture of a definition."""
    declared = ["--declared", folder.words(number)[1]]
    ways = [[*shapes, "--format", it] for shapes in ([], declared) for it in ("mermaid", "dot")]
    faults = (fault_of_picture(program, folder, number, told, *it) for it in ways)
    return next((it for it in faults if it), None)


def look_at_pictures(program, folder, diagnostics, tally):
    """Compares the pictures of each definition with it."""
    told = numbered(diagnostics, len(folder.names))
    with concurrent.futures.ThreadPoolExecutor(len(os.sched_getaffinity(0))) as workers:
        faults = workers.map(lambda it: fault_of_pictures(program, folder, it, told[it]), told)
        for number, fault in enumerate(faults):
            tally.look(f"pictures of {folder.names[number]}", fault)


def documented_fields():
    """The fields that the reference names in its table of fields, and of each whether it is always there."""
    text = REFERENCE.read_text(encoding="utf-8")
    rows = re.findall(r"^\| `(\w+)` \| (always|where there is one) \|", text, flags=re.MULTILINE)
    return {name: when == "always" for name, when in rows}


def fault_of_fields(diagnostics):
    """Where the objects have other fields than those that are documented, or None."""
    documented = documented_fields()
    always = {it for it, is_always in documented.items() if is_always}
    for it in diagnostics:
        if not always <= set(it) <= set(documented):
            return f"the fields are {sorted(it)}, and documented are {documented}"
    unseen = set(documented) - {name for it in diagnostics for name in it}
    return f"no diagnostic has {sorted(unseen)}" if unseen else None


def told_in_sarif(log):
    """What a log tells, as file, line, column, severity and rule of each result."""
    results = json.loads(log)["runs"][0]["results"]
    places = [it["locations"][0]["physicalLocation"] for it in results]
    return [
        (place["artifactLocation"]["uri"], place["region"]["startLine"], place["region"]["startColumn"], it["level"],
         it["ruleId"])
        for it, place in zip(results, places)
    ]


def told_in_commands(lines):
    """The same of GitHub's commands, without the rule."""
    found = re.findall(r"^::(error|warning) file=([^,]*),line=(\d+),col=(\d+),title=[^:]*::", lines, flags=re.MULTILINE)
    return [(file, int(line), int(column), severity) for severity, file, line, column in found]


def told_in_text(lines):
    """The same of the lines for people, taken apart by the problem matcher."""
    [pattern] = json.loads(MATCHER.read_text())["problemMatcher"][0]["pattern"]
    found = [re.fullmatch(pattern["regexp"], it) for it in lines.splitlines()]
    names = ["file", "line", "column", "severity"]
    parts = [[it[pattern[name]] for name in names] if it else ["", "0", "0", ""] for it in found]
    return [(file, int(line), int(column), severity) for file, line, column, severity in parts]


def fault_of_told(told, wanted):
    """Where two lists of what is told differ, or None."""
    if told == wanted:
        return None
    differing = [pair for pair in zip(told, wanted) if pair[0] != pair[1]]
    return f"{len(told)} are told in place of {len(wanted)}, the first that differ are {differing[:1]}"


def look_at_formats(program, folder, diagnostics, tally):
    """Compares the formats with each other, and each with what is said of it."""
    told = [tuple(it[name] for name in ["file", "line", "column", "severity", "rule"]) for it in diagnostics]
    without_rule = [it[:-1] for it in told]
    # Paths that begin with `./` are URIs without it.
    relative = [(file.removeprefix("./"), *rest) for file, *rest in told]
    texts = {it: folder.run(program, "lint", ".", "--format", it)[1] for it in ["text", "sarif", "github"]}
    checked = subprocess.run(
        [TOP / "tools/sarif"], input=texts["sarif"], stdout=subprocess.PIPE, text=True, check=False)
    tally.look("the log in SARIF", checked.stdout[-400:] if checked.returncode else None)
    tally.look("the fields in JSON", fault_of_fields(diagnostics))
    tally.look("SARIF and JSON", fault_of_told(told_in_sarif(texts["sarif"]), relative))
    tally.look("GitHub's commands and JSON", fault_of_told(told_in_commands(texts["github"]), without_rule))
    tally.look("text and JSON", fault_of_told(told_in_text(texts["text"]), without_rule))


def look_at(program, folder, tally):
    """Runs a program on the folder."""
    print(f"== agreement on {os.path.relpath(program)}", flush=True)
    if not program.is_file():
        tally.look(os.path.relpath(program), "there is no such program")
        return
    status, output, counts = folder.run(program.resolve(), "lint", ".", "--format", "json")
    try:
        diagnostics = json.loads(output)
    except ValueError:
        tally.look("lint of all definitions", f"status {status}, {output[:200]!r}, {counts[-200:]!r}")
        return
    print(counts.strip().split("\n")[-1], flush=True)
    look_at_verdicts(program.resolve(), folder, diagnostics, tally)
    look_at_formats(program.resolve(), folder, diagnostics, tally)
    look_at_places(folder, diagnostics, tally)
    look_at_broken(program.resolve(), tally)
    look_at_pictures(program.resolve(), folder, diagnostics, tally)
    look_at_explanations(program.resolve(), folder, diagnostics, tally)


def main():
    words = argparse.ArgumentParser(description="Holds lint and explain against verify, and lint's formats against each other.")
    words.add_argument("--machines", type=int, default=2000, help="how many random machines are made")
    words.add_argument("programs", nargs="*", type=pathlib.Path, default=BUILDS)
    given = words.parse_args()
    tally = Tally()
    with tempfile.TemporaryDirectory(prefix="asl-agreement-") as name:
        folder = Folder(pathlib.Path(name), given.machines)
        for program in given.programs:
            look_at(program, folder, tally)
    print(f"{tally.passed} passed, {tally.failed} failed")
    return 0 if tally.passed and not tally.failed else 1


if __name__ == "__main__":
    sys.exit(main())
