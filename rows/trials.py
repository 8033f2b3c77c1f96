"""Random inputs of machines and answers of their tasks, and runs of the program on them."""

import collections
import json
import random
import subprocess

from machines import FIELDS

# How often a task is asked at most: each retrier lets it be asked once more.
ATTEMPTS = 4


class Values(random.Random):
    """Makes values of shapes."""

    def anything(self, depth=0):
        if depth > 1 or self.random() < 0.6:
            return self.choice([0, -7, 12, "", "x", "xy", True, False, None])
        if self.random() < 0.4:
            return [self.anything(depth + 1) for _ in range(self.randint(0, 2))]
        return {it: self.anything(depth + 1) for it in [*FIELDS, "z"] if self.random() < 0.5}

    def value(self, shape):
        if shape is True or "type" not in shape:
            return self.anything()
        kind = shape["type"]
        kind = self.choice(kind) if isinstance(kind, list) else kind
        if kind == "array":
            return [self.value(shape.get("items", True)) for _ in range(self.randint(0, 3))]
        if kind != "object":
            return self.choice({"integer": [0, 1, -7, 12], "string": ["", "x", "xy", "{}"], "boolean": [True, False], "null": [None]}[kind])
        made = {
            it: self.value(of) for it, of in shape["properties"].items()
            if it in shape["required"] or self.random() < 0.6
        }
        if shape.get("additionalProperties", True) and self.random() < 0.4:
            made["z"] = self.anything()
        return made

    def answers(self, declared):
        """For each task the answers of its attempts: mostly a value, else a failure."""
        return {
            name: [
                {"Gives": self.value(of["gives"])} if self.random() < 0.75
                else {"Fails": {"Error": self.choice(["E", "F"]), "Cause": "why"}}
                for _ in range(ATTEMPTS)
            ]
            for name, of in declared["tasks"].items()
        }


def told(value):
    """A value as a text, by which two are equal."""
    return json.dumps(value, sort_keys=True)


class Ours:
    """A run of the program: how it ends, and the entries of its trace. Each task is answered as the state is asked again."""

    def __init__(self, program, folder, given, answers):
        (folder / "input").write_text(json.dumps(given))
        listed = []
        while True:
            (folder / "answers").write_text(json.dumps(listed))
            words = [program, "run", *(str(folder / it) for it in ("definition", "input", "answers")), "--declared", str(folder / "declared")]
            ran = subprocess.run(words, stdout=subprocess.PIPE, stderr=subprocess.PIPE, text=True)
            self.entries = [json.loads(it) for it in ran.stdout.splitlines()]
            if ran.returncode != 4 or ran.stderr != "no answer\n":
                break
            listed.append(self.answer(answers))
        if ran.returncode not in (0, 1):
            raise RuntimeError(f"asl run: {ran.returncode} {ran.stderr}")
        self.output, self.error = (self.entries[-1].get(it) for it in ("output", "error"))

    def answer(self, answers):
        """The next answer of the task that waits: the first of the places at which one was asked, and nothing came since."""
        waiting = {}
        for it in self.entries:
            at = tuple(it["at"])
            waiting = {place: of for place, of in waiting.items() if place[: len(at)] != at}
            if it["entry"] == "Task":
                waiting[at] = it["state"]
        at, state = min(waiting.items())
        asked = sum(it["entry"] == "Task" and (tuple(it["at"]), it["state"]) == (at, state) for it in self.entries)
        return answers[state][asked - 1]

    def names(self, entry):
        return {it["state"] for it in self.entries if it["entry"] == entry}

    def visits(self):
        found = collections.Counter()
        last = {}
        for it in self.entries:
            place = tuple(it["at"]), it.get("state")
            if it["entry"] == "Enter":
                last[place] = "input", it["state"], told(it["input"])
                found[last[place]] += 1
            elif it["entry"] == "Leave":
                found["output", it["state"], told(it["output"])] += 1
            elif it["entry"] == "Retried":
                # moto enters a state once, however often it is tried
                found[last[place]] -= 1
        return +found
