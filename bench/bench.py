#!/usr/bin/env python3
"""Times the program on large texts, beside Python's own reading of the same texts.

usage: python3 bench/bench.py [--program FILE] [--plain] [FORM..]

Each form is a kind of text in growing sizes; the names of all forms, or those that are named:
- chains: the check of a chain of Pass states, each with object shapes of 20 fields as input and output; the certificate
  of the largest is just below the limit of 16 MiB a line;
- wide: the check of one Pass state with object shapes of many fields;
- check-rules: the check of a Choice with so many rules, which all lead to one state;
- check-nested: the check of Parallels and Maps that nest in each other, so many times the same six levels;
- check-wide: the check of so many Pass states with object shapes of 1,000 fields;
- check-deep: the check of so many Pass states with shapes that nest 56 levels;
- check-findings: the check of a chain with a finding in every state;
- check-doublings: the check of a certificate that lists so many shapes, each an object of two of the one before;
- infer-chain, infer-against: the inference of a chain, in byte order of the names and against it. Of a hundred instructions
  45 and 41 read the definition, 30 and 33 infer, and 19 write the certificate;
- infer-doublings: the inference, with its shapes listed, of so many states that each put their input into two fields;
- verify-ring: so many states in a ring, in byte order of the names, of which the last nests its input one level deeper;
- verify-ring-against: the same, against the order of the names;
- verify-fields: a chain of states that each place a field of their own. The shape at each state is another one, so that the
  entries of all their fields grow as the square of the states, though their names are shared: three fifths of the
  instructions hash, copy, go over and drop these;
- verify-nested: the nested Parallels and Maps of check-nested;
- verify-hub: a Choice that leads to so many states, which all lead to one;
- lint-hub: what is told of the machine of verify-hub, in which nothing is wrong;
- lint-findings: what is told of a Choice that leads to so many states, each with a finding;
- lint-complaints: what is told of a chain of so many states, each with a complaint;
- run-chain: the run of a chain of Pass states over a record of 20 fields;
- run-loop: a loop of four states (a template with Format, a Result that is placed, a Choice back), cut off after so
  many steps;
- run-growing: a loop that nests its input one level deeper at each turn, cut off after so many turns. At each turn the whole
  input is copied, since an entry shows it and the output has it as a part;
- run-map, run-map-last: a Map over so many items with an ItemSelector, its first and its last place first;
- run-tasks-last: a Map of Tasks with declared shapes, its last place first;
- run-parallel: a Parallel of so many branches;
- run-retry: a Task that is retried so many times;
- run-wide: an input of so many megabytes that goes through five states;
- read-records, read-numbers, read-texts, read-unsorted: an input of so many megabytes, a list of records of six fields, of
  numbers, of texts with escapes, of records whose fields don't stand in byte order, which is read and no step taken. A record
  takes sixteen bytes a byte: its fields stand in a leaf of the kit's ordered map, which has room for more than twice as many;
- read-definition: a definition of so many megabytes, with templates, rules and retriers, which is read and no step taken.
  Its floor is the JSON value that is made of the text and dropped again: half of the instructions;
- read-certificate: a certificate of so many megabytes, which is read and checked. Half of the instructions read the keywords
  of shapes as levels and put the shapes into the table, a sixth takes the tokens, and a twelfth makes the trees of the
  keywords other than properties;
- read-declared: declared shapes of so many megabytes, beside a small definition, which are read and checked: the input is an
  object, each field of which is an object of 20 fields. Three fifths of the instructions read them into a table, a seventh
  makes shapes of the numbers, and a fifth puts these into the checker's table.

An object takes a leaf of the kit's ordered map, 848 bytes, however few its fields, and these leaves are most of what a run
takes: at the peak of run-parallel two thirds, in the JSON value of the definition; of run-map three quarters, of the items that
the template makes and the inputs that are told; of run-retry nine tenths, of the answers. At the peak of run-chain they are four
tenths, and the table of states, which grows, is nearly half.

For each size: the processor time of the program (user and system, the fastest of three runs) less that of a bare start, its
peak memory (its own, in one more run, which the system stops at its end), the time that json.loads takes for what the
program reads and prints (fastest of three), the ratio of the two, and the bytes of memory a byte of what is read and
printed. Between two sizes: the exponent by which the time grows in what is read and printed. The exit status is 0 where
every run ended as it must.

With --plain the figures of a plain program stand beside those: bench/plain.rs, which does the same with nothing proved. It
is compiled by rustc (1.88 or later) into a folder that is removed in the end, and run on the same texts: its processor time
less that of its own bare start, its peak memory, and the ratios of the program's time and memory to these. Only the forms
that it does are taken. Where it prints other bytes or ends with another status, that is told and makes the exit status 1;
where it can't be compiled, the exit status is 2.
"""

import ctypes
import filecmp
import itertools
import json
import math
import os
import pathlib
import subprocess
import sys
import tempfile
import threading
import time

TOP = pathlib.Path(__file__).resolve().parent.parent
PROGRAM = TOP / "crates/asl/out/asl"
PLAIN = TOP / "bench/plain.rs"
COMPILE = ["rustc", "--edition=2024", "-Copt-level=3", "-Ccodegen-units=1", "-Cpanic=abort"]
RUNS = 3
LIMIT = 16777216
# json.loads recurses: what a growing loop prints nests thousands of levels.
DEPTH = 100000
STACK = 1 << 29
# What is asked of the system's ptrace, the option that a process stops at its end, and how such a stop is told.
TRACE_ME, GO_ON, SET_OPTIONS = 0, 7, 0x4200
STOP_AT_EXIT, EXITS = 0x40, 6
PTRACE = ctypes.CDLL(None, use_errno=True).ptrace
PTRACE.argtypes = [ctypes.c_long, ctypes.c_long, ctypes.c_void_p, ctypes.c_void_p]
PTRACE.restype = ctypes.c_long


def names(count):
    """The names of so many states, in byte order."""
    return [f"S{i:05}" for i in range(count)]


def record(fields):
    """A record of so many fields."""
    return {f"item{i:02}": i for i in range(fields)}


def shape(fields):
    """A closed object shape of so many fields, each needed."""
    return {"type": "object", "properties": {it: {"type": "integer"} for it in record(fields)},
            "required": [*record(fields)], "additionalProperties": False}


def chain(count, against=False):
    """A machine of so many Pass states, one after the other, in byte order of their names or against it."""
    each = names(count)[::-1] if against else names(count)
    follows = [*({"Next": it} for it in each[1:]), {"End": True}]
    return {"StartAt": each[0], "States": {it: {"Type": "Pass", **after} for it, after in zip(each, follows)}}


def alone(state, name="A"):
    """A machine of one state."""
    return {"StartAt": name, "States": {name: state}}


def checked(count, fields):
    """A chain, its declared shapes and its certificate."""
    one = shape(fields)
    states = {it: {"input": one, "output": one} for it in names(count)}
    return {"definition": chain(count), "declared": {"input": one, "tasks": {}},
            "certificate": {"version": 1, "output": one, "states": states}}


def certified(definition, one, **others):
    """A check where the declared input and each state's shapes are that shape, but for the entries that are given."""
    states = {it: others.get(it, {"input": one, "output": one}) for it in definition["States"]}
    return {"definition": definition, "declared": {"input": one, "tasks": {}},
            "certificate": {"version": 1, "output": one, "states": states}}


def ruled(rules):
    """A Choice with so many rules, which all lead to one state, and its check."""
    rule = {"Variable": "$.item00", "IsPresent": True, "Next": "Z"}
    states = {"A": {"Type": "Choice", "Choices": [rule] * rules, "Default": "Z"}, "Z": {"Type": "Succeed"}}
    return certified({"StartAt": "A", "States": states}, shape(20))


def nested_scope(name, levels):
    """A scope of one state: a Parallel of two branches and a Map in turn, down to so many levels."""
    if not levels:
        return alone({"Type": "Pass", "End": True}, name)
    if levels % 2:
        branches = [nested_scope(f"{name}{it}", levels - 1) for it in "ab"]
        return alone({"Type": "Parallel", "OutputPath": "$[0]", "Branches": branches, "End": True}, name)
    processor = nested_scope(f"{name}m", levels - 1)
    return alone({"Type": "Map", "ItemsPath": "$.items", "ItemSelector": {"items.$": "$.items"},
                  "ItemProcessor": processor, "ResultPath": None, "End": True}, name)


def nested(count):
    """A chain of so many states, each of which holds a scope of six levels of Parallels and Maps."""
    chained = chain(count)
    for name, state in chained["States"].items():
        state.update({"Type": "Parallel", "OutputPath": "$[0]", "Branches": [nested_scope(f"{name}-", 6)]})
    return {"definition": chained, "declared": {"input": LISTED, "tasks": {}}}


LISTED = {"type": "object", "properties": {"items": {"type": "array", "items": {"type": "integer"}}},
          "required": ["items"], "additionalProperties": False}


def entries_of(scope):
    """The certificate's entries of the states of a nested scope, in which every input and output has one shape."""
    for name, state in scope["States"].items():
        inner = state.get("Branches", [state["ItemProcessor"]] if "ItemProcessor" in state else [])
        entry = {"input": LISTED, "output": LISTED}
        if state["Type"] == "Parallel":
            entry["branches"] = [LISTED] * len(inner)
        if state["Type"] == "Map":
            entry["item"] = LISTED
        yield name, entry
        for it in inner:
            yield from entries_of(it)


def nested_check(count):
    """The check of the nested states."""
    texts = nested(count)
    return {**texts, "certificate": {"version": 1, "output": LISTED, "states": dict(entries_of(texts["definition"]))}}


def deep(levels):
    """A shape that nests so many levels."""
    one = {"type": "integer"}
    for _ in range(levels - 1):
        one = {"type": "object", "properties": {"a": one}, "required": ["a"], "additionalProperties": False}
    return one


def with_findings(count):
    """The check of a chain in which no state's output is inside its certified one."""
    texts = checked(count, 20)
    for entry in texts["certificate"]["states"].values():
        entry["output"] = {"type": "string"}
    return texts


def doublings(count):
    """The check of one state whose shape is an object of two of the shape before, so many times over."""
    twice = {"type": "object", "required": ["a", "b"], "additionalProperties": False}
    listed = [{"type": "integer"}]
    listed += ({**twice, "properties": {it: {"shape": at} for it in "ab"}} for at in range(count))
    last = {"shape": count}
    return {"definition": alone({"Type": "Pass", "End": True}), "declared": {"input": False, "tasks": {}},
            "certificate": {"version": 1, "shapes": listed, "output": last, "states": {"A": {"input": last, "output": last}}}}


def doubled(count):
    """A chain of so many states that each put their input into two fields."""
    machine = chain(count)
    for state in machine["States"].values():
        state["Parameters"] = {"a.$": "$", "b.$": "$"}
    return {"definition": machine, "declared": {"input": {"type": "integer"}, "tasks": {}}}


def inferred(definition, fields=3):
    """The machine with its declared shapes: an input of so many fields."""
    return {"definition": definition, "declared": {"input": shape(fields), "tasks": {}}}


def ring(count, against=False):
    """So many states in a ring, of which the last nests its input one level deeper, and a way out of the first."""
    machine = chain(count, against)
    first, *_, last = machine["States"]
    machine["States"][last] = {"Type": "Pass", "Parameters": {"p.$": "$"}, "Next": first}
    second = machine["States"][first].pop("Next")
    rule = {"Variable": "$.out", "IsPresent": True, "Next": "Z"}
    machine["States"][first] = {"Type": "Choice", "Choices": [rule], "Default": second}
    machine["States"]["Z"] = {"Type": "Succeed"}
    return {"definition": machine, "declared": {"input": {"type": "object"}, "tasks": {}}}


def placing(count):
    """A chain of so many states, each of which places a field of its own."""
    machine = chain(count)
    for name, state in machine["States"].items():
        state.update({"Result": 1, "ResultPath": f"$.{name}"})
    closed = {"type": "object", "properties": {}, "additionalProperties": True}
    return {"definition": machine, "declared": {"input": closed, "tasks": {}}}


def hub(count):
    """A Choice that leads to so many states, which all lead to one."""
    each = names(count)
    rules = [{"Variable": "$.item00", "NumericEquals": at, "Next": it} for at, it in enumerate(each)]
    states = {"A": {"Type": "Choice", "Choices": rules, "Default": "Z"},
              **{it: {"Type": "Pass", "Next": "Z"} for it in each}, "Z": {"Type": "Succeed"}}
    return inferred({"StartAt": "A", "States": states})


def hub_with_findings(count):
    """A Choice that leads to so many states, in each of which a path names nothing."""
    texts = hub(count)
    for at, state in enumerate(texts["definition"]["States"].values()):
        if state["Type"] == "Pass":
            state["OutputPath"] = f"$.missing{at}"
    return texts


def with_complaints(count):
    """A chain of so many states, each with a field that it may not have."""
    texts = inferred(chain(count))
    for state in texts["definition"]["States"].values():
        state["Colour"] = "red"
    return texts


def loop(steps):
    """Four states that follow each other for ever."""
    states = {
        "Told": {"Type": "Pass", "Parameters": {"n.$": "$.n", "told.$": "States.Format('number {}', $.n)"},
                 "ResultPath": "$.last", "Next": "Placed"},
        "Placed": {"Type": "Pass", "Result": {"a": [1, 2, 3]}, "ResultPath": "$.placed.here", "Next": "Again"},
        "Again": {"Type": "Choice", "Choices": [{"Variable": "$.n", "NumericGreaterThan": 0, "Next": "Told"}],
                  "Default": "Over"},
        "Over": {"Type": "Succeed"}}
    return {"definition": {"StartAt": "Told", "States": states}, "input": {"n": 7}, "answers": []}


def growing(turns):
    """A state that wraps its input up and comes next again."""
    return {"definition": alone({"Type": "Pass", "Parameters": {"p.$": "$"}, "Next": "A"}), "input": {}, "answers": []}


def mapped(items):
    """A Map over so many items, each of which is selected with its number."""
    selector = {"i.$": "$$.Map.Item.Index", "v.$": "$$.Map.Item.Value"}
    state = {"Type": "Map", "ItemSelector": selector, "ItemProcessor": alone({"Type": "Pass", "End": True}, "P"), "End": True}
    return {"definition": alone(state), "input": [*range(items)], "answers": []}


def tasks(items):
    """A Map with a Task for each of so many items, and declared shapes."""
    processor = alone({"Type": "Task", "Resource": "r", "End": True}, "T")
    whole = {"type": "integer"}
    return {"definition": alone({"Type": "Map", "ItemProcessor": processor, "End": True}), "input": [*range(items)],
            "answers": [{"Gives": i} for i in range(items)],
            "declared": {"input": {"type": "array", "items": whole}, "tasks": {"T": {"takes": whole, "gives": whole}}}}


def parallel(branches):
    """A Parallel of so many branches, each of one state."""
    each = [{"StartAt": it, "States": {it: {"Type": "Pass", "End": True}}} for it in names(branches)]
    return {"definition": alone({"Type": "Parallel", "Branches": each, "End": True}), "input": 1, "answers": []}


def retried(times):
    """A Task that fails so many times before it gives."""
    retry = [{"ErrorEquals": ["States.ALL"], "MaxAttempts": times}]
    failure = {"Fails": {"Error": "Busy"}}
    return {"definition": alone({"Type": "Task", "Resource": "r", "Retry": retry, "End": True}), "input": 1,
            "answers": [failure] * times + [{"Gives": 2}]}


def repeated(one, megabytes):
    """The value so many times that the text of all is of so many megabytes."""
    return [one] * (megabytes * 1000000 // (len(json.dumps(one, separators=(",", ":"))) + 1))


def long_input(megabytes):
    """An input of so many megabytes, a list of records, that goes through five states."""
    return {"definition": chain(5), "input": repeated(record(20), megabytes), "answers": []}


def read(one, megabytes):
    """An input of so many megabytes, a list of one value, which is only read."""
    return {"definition": chain(1), "input": repeated(one, megabytes), "answers": []}


CUSTOMER = {"active": True, "city": "Bern", "id": 170032, "name": "Aline Favre", "score": 81, "tags": ["new", "north"]}


def long_definition(megabytes):
    """A definition of so many megabytes: Tasks with templates and retriers, and Choices with rules, which is only read. A
    definition has at most 10,000 states, so each of them is long."""
    retry = {"ErrorEquals": ["Busy", "States.Timeout"], "IntervalSeconds": 3, "MaxAttempts": 2, "BackoffRate": 1.5}
    template = {"order.$": "$.order.id", "lines": [{"n.$": "$.lines[0].n"}] * 6,
                **{f"told{it}.$": "States.Format('order {}', $.order.id)" for it in range(4)}}
    task = {"Type": "Task", "Resource": "arn:book", "Parameters": template, "ResultPath": "$.booked", "Retry": [retry] * 6}
    both = {"And": [{"Variable": "$.order.id", "IsNumeric": True}, {"Variable": "$.order.id", "NumericGreaterThan": 7}]}
    pair = len(json.dumps([task, [both] * 6], separators=(",", ":"))) + 240
    machine = chain(megabytes * 1000000 // pair * 2)
    each = list(machine["States"].values())
    for state, choice in zip(each[::2], each[1::2]):
        state.update(task)
        after = choice.pop("Next", state["Next"])
        choice.pop("End", None)
        choice.update({"Type": "Choice", "Choices": [{**both, "Next": after}] * 6, "Default": after})
    return {"definition": machine, "input": 1, "answers": []}


def long_certificate(megabytes):
    """A chain with a certificate of so many megabytes."""
    entry = len(json.dumps({"S00000": {"input": shape(20), "output": shape(20)}}, separators=(",", ":")))
    return checked(megabytes * 1000000 // entry, 20)


def long_declared(megabytes):
    """One Pass state with declared shapes of so many megabytes, an object of objects, and a certificate that takes everything."""
    field = len(json.dumps({"S00000": shape(20)}, separators=(",", ":"))) - 1
    each = {it: shape(20) for it in names(megabytes * 1000000 // field)}
    one = {"type": "object", "properties": each, "additionalProperties": False}
    return {**certified(alone({"Type": "Pass", "End": True}), True), "declared": {"input": one, "tasks": {}}}


# The words behind the program's name, where SIZE stands for the size; a check reads its texts as lines.
CHECK = []
INFER = ["infer", "definition", "declared"]
VERIFY = ["verify", "definition", "declared"]
LINT = ["lint", "definition", "--declared", "declared"]
CUT_OFF = ["run", "definition", "input", "answers", "--max-steps", "SIZE"]
RUN = ["run", "definition", "input", "answers", "--max-steps", "10000"]
LAST = [*RUN, "--order", "last"]
LISTED_TEXT = [*INFER, "--numbered"]
READ = ["run", "definition", "input", "answers", "--max-steps", "0"]

# Each form: how its texts are made of a size, its sizes, its words, and the status with which it ends.
FORMS = {
    "chains": (lambda n: checked(n, 20), [2500, 5000, 10000], CHECK, 0),
    "wide": (lambda n: checked(1, n), [50000, 100000], CHECK, 0),
    "check-rules": (ruled, [2000, 4000, 8000], CHECK, 0),
    "check-nested": (nested_check, [25, 50, 100], CHECK, 0),
    "check-wide": (lambda n: certified(chain(n), shape(1000)), [12, 25, 50], CHECK, 0),
    "check-deep": (lambda n: certified(chain(n), deep(56)), [250, 500, 1000], CHECK, 0),
    "check-findings": (with_findings, [2500, 5000, 10000], CHECK, 1),
    "check-doublings": (doublings, [10000, 20000, 40000], CHECK, 0),
    "infer-chain": (lambda n: inferred(chain(n)), [2500, 5000, 10000], INFER, 0),
    "infer-against": (lambda n: inferred(chain(n, True)), [1000, 2000, 4000], INFER, 0),
    "infer-doublings": (doubled, [10, 20, 40], LISTED_TEXT, 0),
    "verify-ring": (ring, [1000, 2000, 4000], VERIFY, 0),
    "verify-ring-against": (lambda n: ring(n, True), [25, 50, 100], VERIFY, 0),
    "verify-fields": (placing, [100, 200, 400], VERIFY, 0),
    "verify-nested": (nested, [25, 50, 100], VERIFY, 0),
    "verify-hub": (hub, [500, 1000, 2000], VERIFY, 0),
    "lint-hub": (hub, [500, 1000, 2000], LINT, 0),
    "lint-findings": (hub_with_findings, [2250, 4500, 9000], LINT, 1),
    "lint-complaints": (with_complaints, [2500, 5000, 10000], LINT, 1),
    "run-chain": (lambda n: {"definition": chain(n), "input": record(20), "answers": []}, [2500, 5000, 10000], RUN, 0),
    "run-loop": (loop, [2500, 5000, 10000], CUT_OFF, 4),
    "run-growing": (growing, [1250, 2500, 5000], CUT_OFF, 4),
    "run-map": (mapped, [1250, 2500, 5000], RUN, 0),
    "run-map-last": (mapped, [1250, 2500, 5000], LAST, 0),
    "run-tasks-last": (tasks, [1200, 2400, 4800], [*LAST, "--declared", "declared"], 0),
    "run-parallel": (parallel, [1000, 2000, 4000], RUN, 0),
    "run-retry": (retried, [1250, 2500, 4990], RUN, 0),
    "run-wide": (long_input, [4, 8, 16], RUN, 0),
    "read-records": (lambda n: read(CUSTOMER, n), [2, 4, 8], READ, 4),
    "read-numbers": (lambda n: read(170032, n), [2, 4, 8], READ, 4),
    "read-texts": (lambda n: read('to "north"\n\tand \u00e9t\u00e9', n), [2, 4, 8], READ, 4),
    "read-unsorted": (lambda n: read(dict(reversed(CUSTOMER.items())), n), [2, 4, 8], READ, 4),
    "read-definition": (long_definition, [2, 4, 8], READ, 4),
    "read-certificate": (long_certificate, [2, 4, 8], CHECK, 0),
    "read-declared": (long_declared, [1, 2, 4, 8], CHECK, 0),
}

# The forms that the plain program does.
PLAINLY = ["chains", "wide", "check-wide", "check-deep", "run-chain", "run-map", "run-map-last", "run-tasks-last", "run-parallel",
           "run-retry", "run-wide", "read-records", "read-numbers", "read-unsorted", "read-certificate", "read-declared"]


def words_of(form, size):
    """The words behind the program's name."""
    return [str(size) if it == "SIZE" else it for it in FORMS[form][2]]


def make(form, size, folder):
    """Writes the texts of one size: as the lines of a check, or as the files of a run."""
    texts = FORMS[form][0](size)
    spelled = {name: json.dumps(text, separators=(",", ":")) for name, text in texts.items()}
    for name, text in spelled.items():
        if len(text) > LIMIT:
            raise ValueError(f"{form} {size}: the {name} has {len(text)} bytes, which is beyond the limit")
        pathlib.Path(folder, name).write_text(text, encoding="utf-8")
    asked = "\n".join(spelled.values()) if FORMS[form][2] == CHECK else ""
    pathlib.Path(folder, "asked").write_text(asked, encoding="utf-8")


def loads(folder):
    """Prints the shortest time of several in which json.loads reads what the program reads and prints."""
    texts = [it.read_text(encoding="utf-8") for it in pathlib.Path(folder).iterdir() if it.name not in ("asked", "said")]
    said = pathlib.Path(folder, "said").read_text(encoding="utf-8").splitlines()
    texts += [it for it in said if it.startswith("{")]
    times = []
    for _ in range(RUNS):
        begin = time.process_time()
        for text in texts:
            json.loads(text)
        times.append(time.process_time() - begin)
    print(min(times))


def in_child(*words):
    """Runs this script with the words, and returns what it prints.

    The large texts are made and read by children, so that this process stays small, and starts others quickly.
    """
    command = [sys.executable, __file__, *map(str, words)]
    return subprocess.run(command, stdout=subprocess.PIPE, check=True, text=True).stdout


def run(program, words, status, folder, said="said"):
    """Runs the program once, which prints into the file of that name; returns its processor time in seconds."""
    with open(os.path.join(folder, "asked"), "rb") as asked, open(os.path.join(folder, said), "wb") as out:
        child = subprocess.Popen([program, *words], cwd=folder, stdin=asked, stdout=out, stderr=subprocess.DEVNULL)
        _, ended, used = os.wait4(child.pid, 0)
    child.returncode = os.waitstatus_to_exitcode(ended)
    if child.returncode != status:
        raise ValueError(f"{program} {' '.join(words)} ended with {child.returncode}, not with {status}")
    return used.ru_utime + used.ru_stime


def ptrace(request, process, data=0):
    """Asks something of the system about a process that is traced."""
    if PTRACE(request, process, None, data) < 0:
        raise OSError(ctypes.get_errno(), os.strerror(ctypes.get_errno()))


def peak(program, words, folder):
    """Runs the program once more; returns its peak memory in bytes.

    What the system tells of a child that has ended counts what its parent held when it was started, too. So the child is
    traced, and what is told of it alone is read when it is about to end.
    """
    with open(os.path.join(folder, "asked"), "rb") as asked:
        child = subprocess.Popen([program, *words], cwd=folder, stdin=asked, stdout=subprocess.DEVNULL,
                                 stderr=subprocess.DEVNULL, preexec_fn=lambda: PTRACE(TRACE_ME, 0, None, None))
    # It stops where the program begins.
    if not os.WIFSTOPPED(os.waitpid(child.pid, 0)[1]):
        raise ValueError("no program can be traced here, so that its peak memory isn't known")
    ptrace(SET_OPTIONS, child.pid, STOP_AT_EXIT)
    ptrace(GO_ON, child.pid)
    if os.waitpid(child.pid, 0)[1] >> 16 != EXITS:
        child.kill()
        raise ValueError(f"{program} {' '.join(words)} was stopped before its end")
    told = pathlib.Path(f"/proc/{child.pid}/status").read_text(encoding="utf-8")
    ptrace(GO_ON, child.pid)
    child.wait()
    return int(told.split("VmHWM:")[1].split()[0]) * 1024


def bare_start(program, folder):
    """The processor time of a start that does nothing else."""
    pathlib.Path(folder, "asked").write_text("", encoding="utf-8")
    return min(run(program, ["--help"], 0, folder) for _ in range(10))


def figures(program, bare, form, size, folder, said="said"):
    """Runs the program on the texts of one size, and returns its processor time less a bare start, and its peak memory."""
    words, status = words_of(form, size), FORMS[form][3]
    seconds = min(run(program, words, status, folder, said) for _ in range(RUNS)) - bare
    return seconds, peak(program, words, folder)


def measured(programs, form, size, folder):
    """Makes the texts of one size, runs the programs on them, prints a line, and returns their size and the first one's time."""
    in_child("--make", form, size, folder)
    seconds, memory = figures(*programs[0], form, size, folder)
    python = float(in_child("--loads", folder))
    length = sum(it.stat().st_size for it in pathlib.Path(folder).iterdir() if it.name != "asked")
    line = (f"{size:7} {length:11} {seconds:9.3f} {memory / 1e6:8.1f} {python:9.3f} {seconds / python:6.2f}"
            f" {memory / length:7.1f}")
    for program, bare in programs[1:]:
        plainly, room = figures(program, bare, form, size, folder, "said-plainly")
        ratio = f"{seconds / plainly:6.2f}" if plainly > 0 else "     -"
        line += f" {plainly:9.4f} {room / 1e6:8.1f} {ratio} {memory / room:6.2f}"
    print(line, flush=True)
    if programs[1:] and not filecmp.cmp(*(os.path.join(folder, it) for it in ("said", "said-plainly")), shallow=False):
        raise ValueError(f"{form} {size}: the plain program prints other bytes")
    return length, seconds


def sizes_of(programs, form):
    """Measures the form in its sizes, and gives for each how much is read and printed and how long it takes."""
    for size in FORMS[form][1]:
        with tempfile.TemporaryDirectory(prefix="asl-bench-") as folder:
            yield measured(programs, form, size, folder)


def bench(programs, forms):
    """Measures the forms in all their sizes, with one program or with two. Returns whether every run ended as it must."""
    with tempfile.TemporaryDirectory(prefix="asl-bench-") as folder:
        programs = [(it, bare_start(it, folder)) for it in programs]
    print("a bare start: " + ", plain: ".join(f"{bare * 1000:.1f} ms" for _, bare in programs))
    is_well = True
    for form in forms:
        print(f"== {form}")
        print("   size     bytes/B program/s  peak/MB  python/s  ratio  B per B"
              + ("   plain/s  peak/MB   time memory" if programs[1:] else ""))
        try:
            for (length, seconds), (longer, more) in itertools.pairwise(sizes_of(programs, form)):
                # What takes no longer than a bare start has no growth to tell.
                if min(seconds, more) > 0:
                    exponent = math.log(more / seconds) / math.log(longer / length)
                    print(f"growth from {length} to {longer} bytes: exponent {exponent:.2f}", flush=True)
        except ValueError as why:
            print(why, flush=True)
            is_well = False
    return is_well


def compiled(folder):
    """Compiles the plain program into the folder, and returns its path; where that can't be done, a line tells why."""
    program = os.path.join(folder, "plain")
    try:
        subprocess.run([*COMPILE, "-o", program, PLAIN], check=True)
    except FileNotFoundError:
        print("--plain wants rustc, which isn't there", file=sys.stderr)
        return None
    except subprocess.CalledProcessError:
        print(f"rustc doesn't compile {PLAIN}", file=sys.stderr)
        return None
    return program


def bench_plainly(program, forms):
    """Measures those of the forms that the plain program does, with both programs. Returns the exit status."""
    with tempfile.TemporaryDirectory(prefix="asl-bench-") as folder:
        plain = compiled(folder)
        if not plain:
            return 2
        return 0 if bench([program, plain], [it for it in forms if it in PLAINLY]) else 1


def main(words):
    if words[:1] == ["--make"]:
        make(words[1], int(words[2]), words[3])
    elif words[:1] == ["--loads"]:
        sys.setrecursionlimit(DEPTH)
        threading.stack_size(STACK)
        reader = threading.Thread(target=loads, args=[words[1]])
        reader.start()
        reader.join()
    else:
        program, is_plain = PROGRAM, "--plain" in words
        words = [it for it in words if it != "--plain"]
        if words[:1] == ["--program"]:
            program, words = pathlib.Path(words[1]).resolve(), words[2:]
        if any(it not in FORMS for it in words):
            print(__doc__, end="", file=sys.stderr)
            return 2
        if is_plain:
            return bench_plainly(program, words or FORMS)
        return 0 if bench([program], words or FORMS) else 1
    return 0


if __name__ == "__main__":
    sys.exit(main(sys.argv[1:]))
