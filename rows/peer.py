#!/usr/bin/env python3
"""Holds what the program says of machines against another interpreter of the States Language, that of moto.

usage: python3 rows/peer.py [--machines N] [--from N] PROGRAM

It wants Python's packages moto and jsonschema (`pip install 'moto[stepfunctions]' jsonschema`, tried with 5.2.1 and 4.26.0),
which no other part of the repository does: so the gate doesn't run it. The definitions are N random machines
(rows/machines.py), 2000 without --machines, the same each time. Those to which `asl verify` says yes are run on three random
inputs of their declared shape, each task giving a random value of its declared shape or failing, by `asl run` and by moto,
whose tasks are mocked:

- moto's run meets no error but those with which tasks and Fails fail;
- in moto each state's input and output, each task's payload and the machine's output have the shapes that `asl infer` certifies
  and that are declared, as jsonschema says it;
- both end alike, with the same output or the same error;
- the same states are entered with the same inputs, and left with the same outputs.

Where the two are known to differ nothing is asked: a run's retriers and catchers of `States.TaskFailed`, and what is behind a
failed branch of a Parallel, which gives its own error in moto and `States.BranchFailed` here; both of them docs/REFERENCE.md
tells (section 10). No time passes in either.

The last line is 'N passed, M failed', in which N counts the runs; the exit status is 0 where nothing failed and something
passed.
"""

import argparse
import collections
import json
import logging
import pathlib
import subprocess
import sys
import tempfile
import time
import types

from machines import Maker
from trials import Ours, Values, told

logging.disable(logging.CRITICAL)

import jsonpath_ng.jsonpath
import jsonschema
import moto.stepfunctions.parser.asl.component.common.error_name.custom_error_name as custom_error_name
import moto.stepfunctions.parser.asl.component.common.retry.retrier_decl as retrier_decl
from moto.stepfunctions.parser.api import StateMachineType
from moto.stepfunctions.parser.asl.component.state.wait.wait_function.wait_function import WaitFunction
from moto.stepfunctions.parser.asl.eval.evaluation_details import (
    AWSExecutionDetails, EvaluationDetails, ExecutionDetails, StateMachineDetails,
)
from moto.stepfunctions.parser.asl.eval.program_state import ProgramEnded, ProgramError
from moto.stepfunctions.parser.backend.execution_worker import SyncExecutionWorker
from moto.stepfunctions.parser.mocking.mock_config import (
    MockedResponseReturn, MockedResponseThrow, MockTestCase, StateMockedResponses,
)

PLACE = "111122223333", "us-east-1"
FUNCTION = "arn:aws:lambda:us-east-1:111122223333:function:f"
ROLE = "arn:aws:iam::111122223333:role/r"
MACHINE = "arn:aws:states:us-east-1:111122223333:stateMachine:m"
EXECUTION = "arn:aws:states:us-east-1:111122223333:execution:m:e"
RUNS = 3
# What moto tells of a branch that it stops.
STOPPED = "object has no attribute"
# The errors with which tasks and Fails fail.
OWN = {"E", "F"}


def as_quick():
    """Lets no time pass in moto, and lets errors of inner states keep the names that it gives them itself."""
    retrier_decl.time = types.SimpleNamespace(sleep=lambda seconds: None)
    WaitFunction._wait_interval = lambda self, env, wait_seconds: None
    custom_error_name.ILLEGAL_CUSTOM_ERROR_PREFIX = "\0"
    # An index names an element of a list, and no character of a text.
    find = jsonpath_ng.jsonpath.Index.find
    jsonpath_ng.jsonpath.Index.find = lambda self, datum: [] if isinstance(getattr(datum, "value", datum), str) else find(self, datum)


class Peer:
    """A run of moto: how it ends, and its history."""

    def __init__(self, definition, given, answers):
        account, region = PLACE
        mocks = [StateMockedResponses(name, name, [mocked(*it) for it in enumerate(all_of)]) for name, all_of in answers.items()]
        started = time.strftime("%Y-%m-%dT%H:%M:%S+00:00")
        worker = SyncExecutionWorker(
            EvaluationDetails(
                AWSExecutionDetails(account, region, ROLE),
                ExecutionDetails(EXECUTION, "e", ROLE, given, started),
                StateMachineDetails(MACHINE, "m", StateMachineType.STANDARD, json.dumps(definition)),
            ),
            types.SimpleNamespace(terminated=lambda: None), None, {}, MockTestCase("m", "t", mocks),
        )
        worker.start()
        state = worker.env.program_state()
        self.output = self.error = None
        if isinstance(state, ProgramEnded):
            self.output = worker.env.states.get_input()
        else:
            self.error = (isinstance(state, ProgramError) and state.error or {}).get("error")
        self.events = {it["id"]: it for it in worker.env.event_manager.get_event_history()}

    def details(self):
        """What the events tell of themselves."""
        return (
            (event, of) for event in self.events.values()
            for name, of in event.items() if name.endswith("Details") and isinstance(of, dict)
        )

    def payloads(self):
        """Each payload that a task was asked with, with the name of its state, which was entered in front of that."""
        for event, of in self.details():
            if "resource" in of and "input" in of:
                while "stateEnteredEventDetails" not in event:
                    event = self.events[event["previousEventId"]]
                yield event["stateEnteredEventDetails"]["name"], json.loads(of["input"])

    def errors(self):
        """All errors that it met, but for what befalls a branch in moto that is stopped because another has failed."""
        met = {of["error"] for _, of in self.details() if "error" in of and STOPPED not in (of.get("cause") or "")}
        return met | ({self.error} - {None})

    def visits(self):
        """How often a state is entered with an input, and left with an output."""
        found = collections.Counter()
        for _, of in self.details():
            for it in ("input", "output"):
                if "name" in of and it in of:
                    found[it, of["name"], told(json.loads(of[it]))] += 1
        return found


def mocked(number, answer):
    if "Gives" in answer:
        return MockedResponseReturn(number, number, {"StatusCode": 200, "Payload": answer["Gives"]})
    return MockedResponseThrow(number, number, answer["Fails"]["Error"], answer["Fails"]["Cause"])


def states_of(scope):
    """Each state of the machine, with its name."""
    for name, state in scope["States"].items():
        yield name, state
        for inner in [*state.get("Branches", []), *(state[it] for it in ("ItemProcessor", "Iterator") if it in state)]:
            yield from states_of(inner)


def has(value, shape):
    return jsonschema.Draft202012Validator(shape).is_valid(value)


def misfits(definition, declared, certificate, peer):
    """What moto comes to and a yes excludes: errors beside those of tasks and Fails, and data of another shape than certified.
    A state whose error is caught is left in moto with what the catcher hands on, which is no output of the state."""
    told_of = [f"meets {it}" for it in sorted(peer.errors() - OWN)]
    catching = {name for name, state in states_of(definition) if "Catch" in state}
    for what, name, value in peer.visits():
        if (what == "input" or name not in catching) and not has(json.loads(value), certificate["states"][name][what]):
            told_of.append(f"has {value} as {what} of {name}")
    if peer.error is None and not has(peer.output, certificate["output"]):
        told_of.append(f"has {told(peer.output)} as output")
    for name, payload in peer.payloads():
        if not has(payload, declared["tasks"][name].get("takes", True)):
            told_of.append(f"asks {name} with {told(payload)}")
    return [f"moto {it}" for it in told_of]


def differences(definition, ours, peer):
    """Where the two runs aren't the same."""
    failed = ours.names("BranchFailed")
    if any(name in failed and state["Type"] == "Parallel" for name, state in states_of(definition)):
        return []
    if (told(ours.output), ours.error) != (told(peer.output), peer.error):
        return [f"asl run ends with {ours.error or told(ours.output)}, moto with {peer.error or told(peer.output)}"]
    if failed:
        return []
    # what a state is left with whose error was caught, moto tells and the program doesn't
    caught = ours.names("Caught")
    mine, other = (
        {it: count for it, count in of.visits().items() if it[0] == "input" or it[1] not in caught} for of in (ours, peer)
    )
    return [
        f"{name} has {what} {value}: asl run {mine.get((what, name, value), 0)}, moto {other.get((what, name, value), 0)} times"
        for what, name, value in sorted(mine.keys() | other.keys()) if mine.get((what, name, value)) != other.get((what, name, value))
    ]


def as_moto_reads(scope):
    """The machine with resources that moto knows."""
    text = json.dumps(scope).replace('"Resource": "arn"', f'"Resource": "{FUNCTION}"')
    return json.loads(text)


def main():
    parser = argparse.ArgumentParser(usage=__doc__.split("usage: ")[1].splitlines()[0])
    parser.add_argument("--machines", type=int, default=2000)
    parser.add_argument("--from", type=int, default=0, dest="first")
    parser.add_argument("program")
    given = parser.parse_args()
    as_quick()
    passed = failed = 0
    with tempfile.TemporaryDirectory() as at:
        folder = pathlib.Path(at)
        for number in range(given.first, given.first + given.machines):
            definition, declared = Maker(number).machine()
            definition = json.loads(json.dumps(definition).replace("States.TaskFailed", "F"))
            for name, of in (("definition", definition), ("declared", declared)):
                (folder / name).write_text(json.dumps(of))
            words = [given.program, "verify", str(folder / "definition"), str(folder / "declared")]
            if subprocess.run(words, stdout=subprocess.PIPE, stderr=subprocess.DEVNULL).stdout != b"yes\n":
                continue
            certificate = json.loads(subprocess.run([given.program, "infer", *words[2:]], stdout=subprocess.PIPE, check=True).stdout)
            values = Values(number)
            for _ in range(RUNS):
                start, answers = values.value(declared["input"]), values.answers(declared)
                ours, peer = Ours(given.program, folder, start, answers), Peer(as_moto_reads(definition), start, answers)
                found = misfits(definition, declared, certificate, peer) or differences(definition, ours, peer)
                passed += not found
                failed += bool(found)
                for it in found[:3]:
                    print(f"machine {number}, input {told(start)}, answers {told(answers)}: {it}", flush=True)
    print(f"{passed} passed, {failed} failed")
    return 0 if passed and not failed else 1


if __name__ == "__main__":
    sys.exit(main())
