#!/usr/bin/env python3
"""Holds what `asl test` tells of the cases of suites against what `asl run` does.

usage: python3 rows/suites.py [--machines N] [PROGRAM ..]

Without a PROGRAM, both builds of `asl` are run. The definitions are N random machines (rows/machines.py), 1000 without
--machines, the same each time. Those to which `asl verify` says yes are run on four random inputs of their declared shape, each
task giving a random value of its declared shape or failing (rows/trials.py), by `asl run`. Of each run a suite has two cases,
with the same input, and the same answers by state and attempt:

- one that expects what the run came to: its output or error, the states that it entered, what its tasks were asked with. It has
  to pass;
- one that expects something else in one of these. It has to fail.

Runs in which a task is asked at several places, as in the items of a Map, are passed over: their answers are by item.

The last line is 'N passed, M failed', in which N counts the cases; the exit status is 0 where nothing failed and something
passed.
"""

import argparse
import copy
import json
import os
import pathlib
import subprocess
import sys
import tempfile

from machines import Maker
from run import BUILDS
from trials import Ours, Values

RUNS = 4


def expectation(run):
    """What a run came to, as a case expects it."""
    expect = {"path": [it["state"] for it in run.entries if it["entry"] == "Enter"]}
    for it in run.entries:
        if it["entry"] == "Task":
            expect.setdefault("payloads", {}).setdefault(it["state"], []).append(it["payload"])
    return expect | ({"output": run.output} if run.error is None else {"error": run.error})


def otherwise(expect, values):
    """The same, with something else in place of one part."""
    other, part = copy.deepcopy(expect), values.choice(sorted(expect))
    if part == "path":
        other["path"].append(other["path"][0])
    elif part == "payloads":
        asked = next(iter(other["payloads"].values()))
        asked[-1] = [asked[-1]]
    elif part == "output":
        other["output"] = [other["output"]]
    else:
        other["error"] += "."
    return other


def is_by_attempts(run):
    """Whether each task is asked at one place."""
    places = {(it["state"], tuple(it["at"])) for it in run.entries if it["entry"] == "Task"}
    return len(places) == len({state for state, _ in places})


def answer_of(answer):
    """An answer as a suite has it."""
    return {"Return": answer["Gives"]} if "Gives" in answer else {"Throw": answer["Fails"]}


def cases_of(program, folder, declared, values):
    """The cases of a machine that is in the folder: by their names, first of each run one that passes, then one that fails."""
    cases = []
    for number in range(RUNS):
        given, answers = values.value(declared["input"]), values.answers(declared)
        run = Ours(program, folder, given, answers)
        if is_by_attempts(run):
            common = {"input": given, "answers": {name: [answer_of(it) for it in all_of] for name, all_of in answers.items()}}
            expect = expectation(run)
            cases.append({"name": f"{number} passes", "expect": expect, **common})
            cases.append({"name": f"{number} fails", "expect": otherwise(expect, values), **common})
    return cases


def told_of(program, folder, cases):
    """Which of the cases are told to pass, by name; none where the suite can't be used."""
    suite = {"definition": "definition", "declared": "declared", "cases": cases}
    (folder / "suite").write_text(json.dumps(suite))
    done = subprocess.run([program, "test", "suite", "--format", "json"], cwd=folder, stdout=subprocess.PIPE, check=False)
    if done.returncode not in (0, 1):
        return None
    return {it["name"]: it["passed"] for it in json.loads(done.stdout)["suites"][0]["cases"]}


def look_at(program, folder, number):
    """How many cases of the machine of that number are told as they have to be, and how many aren't."""
    definition, declared = Maker(number).machine()
    for name, text in (("definition", definition), ("declared", declared)):
        (folder / name).write_text(json.dumps(text))
    words = [program, "verify", "definition", "declared"]
    verified = subprocess.run(words, cwd=folder, stdout=subprocess.PIPE, stderr=subprocess.DEVNULL, check=False)
    cases = cases_of(program, folder, declared, Values(number)) if verified.stdout == b"yes\n" else []
    if not cases:
        return 0, 0
    told = told_of(program, folder, cases) or {}
    wrong = [it["name"] for it in cases if told.get(it["name"]) != it["name"].endswith("passes")]
    for name in wrong:
        print(f"FAILED machine {number}: the case {name!r} is told otherwise", flush=True)
    return len(cases) - len(wrong), len(wrong)


def main():
    words = argparse.ArgumentParser(description="Holds what asl test tells of suites against what asl run does.")
    words.add_argument("--machines", type=int, default=1000, help="how many random machines are made")
    words.add_argument("programs", nargs="*", type=pathlib.Path, default=BUILDS)
    given = words.parse_args()
    passed = failed = 0
    for program in given.programs:
        print(f"== suites on {os.path.relpath(program)}", flush=True)
        if not program.is_file():
            print(f"FAILED: there is no program {program}")
            failed += 1
            continue
        with tempfile.TemporaryDirectory(prefix="asl-suites-") as name:
            for number in range(given.machines):
                told = look_at(program.resolve(), pathlib.Path(name), number)
                passed, failed = passed + told[0], failed + told[1]
    print(f"{passed} passed, {failed} failed")
    return 0 if passed and not failed else 1


if __name__ == "__main__":
    sys.exit(main())
