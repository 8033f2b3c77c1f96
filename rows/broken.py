"""Declared shapes and definitions that are broken at several places, made at random, and where each fault in them stands.

Where the faults stand is read here once more, of the rules in docs/REFERENCE.md (4, Shapes, and 8, Refused texts) alone. The
same ones are made each time.
"""

import json
import random

from placing import Places, character_of

TYPES = ["array", "boolean", "integer", "null", "object", "string"]
ANNOTATIONS = ["$schema", "$id", "$comment", "title", "description", "default", "examples"]
OF_ARRAYS = ["prefixItems", "items", "minItems"]
OF_OBJECTS = ["properties", "required", "additionalProperties"]
UNREAD = ["minLength", "enum", "pattern", "anyOf", "$ref", "uniqueItems"]
# Operators of rules that are read, with a right value, and some that aren't.
OPERATORS = {"IsNull": True, "StringEquals": "x", "NumericEquals": 1, "StringEqual": "x", "TimestampEquals": "2016-03-14T01:59:00Z"}
UNREAD_OPERATORS = ["StringEqual", "TimestampEquals"]
DEEPEST = 4


# Shapes.


class ShapeMaker:
    """Makes shapes of which about every second has a fault of its own."""

    def __init__(self, seed):
        self.random = random.Random(seed)

    def often(self, chance):
        return self.random.random() < chance

    def some(self, names):
        return self.random.sample(names, self.random.randint(0, min(2, len(names))))

    def shape(self, depth=0):
        if depth > DEEPEST or self.often(0.15):
            return self.random.choice([True, False, {}, {"type": "string"}])
        if self.often(0.08):
            return self.random.choice([7, "string", None, [], [True]])
        keywords = [(it, self.value(it, depth)) for it in self.keywords()]
        self.random.shuffle(keywords)
        return dict(keywords)

    def keywords(self):
        typed = ["type"] if self.often(0.85) else []
        read = [it for it in [*OF_ARRAYS, *OF_OBJECTS] if self.often(0.5)]
        unread = self.some(UNREAD) if self.often(0.3) else []
        return [*typed, *read, *unread, *(self.some(ANNOTATIONS) if self.often(0.3) else [])]

    def value(self, keyword, depth):
        """The value of a keyword, a wrong one now and then."""
        if keyword in [*UNREAD, *ANNOTATIONS] or self.often(0.12):
            return self.random.choice([7, "x", None, [], {}, True])
        if keyword == "type":
            return self.type()
        if keyword == "items":
            return self.shape(depth + 1)
        if keyword == "prefixItems":
            return [self.shape(depth + 1) for _ in range(self.random.randint(0, 3))]
        if keyword == "minItems":
            return self.random.randint(0, 3)
        if keyword == "properties":
            return {name: self.shape(depth + 1) for name in self.random.sample("abcdef", self.random.randint(0, 3))}
        if keyword == "required":
            return [self.random.choice("abc") for _ in range(self.random.randint(0, 3))]
        return self.random.choice([True, False])

    def type(self):
        if self.often(0.5):
            return self.random.choice([["array", "object"], ["object", "array", "null"]])
        if self.often(0.15):
            return self.random.choice([["string", "date"], [], ["null", "null"], [7], "number"])
        return self.random.choice(["array", "object", "array", "object", "string"])


def faults_of_type(said, path):
    """Where a `type` is at fault: at the first text in it that is no type, or at itself. A place is a path, and whether it is
    that of a name."""
    if isinstance(said, str):
        return [] if said in TYPES else [(path, False)]
    if not isinstance(said, list):
        return [(path, False)]
    other = next((number for number, it in enumerate(said) if it not in TYPES), None)
    if other is not None:
        return [((*path, other), False)]
    return [] if said and len(set(said)) == len(said) else [(path, False)]


def faults_of_arrays(shape, path):
    """Where what a shape says of lists is at fault, the shapes in it included."""
    first, least = shape.get("prefixItems", []), shape.get("minItems", 0)
    is_list = isinstance(first, list)
    count = len(first) if is_list else 0
    if not is_list:
        yield (*path, "prefixItems"), False
    if isinstance(least, bool) or least != count:
        yield (*path, "minItems" if "minItems" in shape else "prefixItems"), False
    for number, it in enumerate(first if is_list else []):
        yield from faults_of_shape(it, (*path, "prefixItems", number))
    if "items" in shape:
        yield from faults_of_shape(shape["items"], (*path, "items"))


def faults_of_objects(shape, path):
    """The same of objects."""
    fields, needed = shape.get("properties", {}), shape.get("required", [])
    if not isinstance(fields, dict):
        yield (*path, "properties"), False
    are_names = isinstance(needed, list) and all(isinstance(it, str) for it in needed)
    if not are_names or len(set(needed)) != len(needed):
        yield (*path, "required"), False
    if not isinstance(shape.get("additionalProperties", True), bool):
        yield (*path, "additionalProperties"), False
    for name, it in fields.items() if isinstance(fields, dict) else []:
        yield from faults_of_shape(it, (*path, "properties", name))


def faults_of_shape(shape, path):
    """Where a shape is at fault, at whatever depth."""
    if isinstance(shape, bool):
        return
    if not isinstance(shape, dict):
        yield path, False
        return
    known = ["type", *ANNOTATIONS]
    if "type" in shape:
        wrong = faults_of_type(shape["type"], (*path, "type"))
        if wrong:
            yield from wrong
            return
        said = shape["type"] if isinstance(shape["type"], list) else [shape["type"]]
        known += [*(OF_ARRAYS if "array" in said else []), *(OF_OBJECTS if "object" in said else [])]
        if "array" in said:
            yield from faults_of_arrays(shape, path)
        if "object" in said:
            yield from faults_of_objects(shape, path)
    for name in shape:
        if name not in known:
            yield (*path, name), True


def declared_faults(declared):
    """Where declared shapes are at fault: the task, the field and the rule that are told, and the place."""
    told = [(None, "input", "BadShape", it) for it in faults_of_shape(declared["input"], ("input",))]
    for name, task in declared["tasks"].items():
        for field, shape in task.items():
            told += [(name, field, "BadShape", it) for it in faults_of_shape(shape, ("tasks", name, field))]
    return told


def made_declared(seed):
    maker = ShapeMaker(seed)
    tasks = {name: {"takes": maker.shape(), "gives": maker.shape()} for name in maker.some(["Load", "Store", "Ask"])}
    return {"input": maker.shape(), "tasks": tasks}


# Definitions.


class DefinitionMaker:
    """Makes definitions in which some rules have an operator that isn't read, and some names are those of no state."""

    def __init__(self, seed):
        self.random = random.Random(seed)
        self.count = 0

    def scope(self, depth=0):
        names = [f"S{self.count + number}" for number in range(self.random.randint(1, 3))]
        self.count += len(names)
        # The name of a state further out, or further in, is none of this scope.
        known = [*names, "S0", f"S{self.count}", "None"]
        return {
            # The machine itself begins nowhere, so that each definition is refused.
            "StartAt": self.random.choice(known) if depth else "None",
            "States": {name: self.state(known, depth) for name in names},
        }

    def state(self, known, depth):
        made = self.random.choice([self.choice, self.choice, self.task, self.parallel if depth < 2 else self.task])
        return made(known, depth)

    def choice(self, known, _):
        return {"Type": "Choice", "Choices": [self.rule(known) for _ in range(self.random.randint(1, 6))]}

    def rule(self, known):
        operator = self.random.choice(list(OPERATORS))
        return {"Variable": "$.a", operator: OPERATORS[operator], "Next": self.random.choice(known)}

    def catchers(self, known):
        return [{"ErrorEquals": ["E"], "Next": self.random.choice(known)} for _ in range(self.random.randint(0, 4))]

    def task(self, known, _):
        return {"Type": "Task", "Resource": "r", "Catch": self.catchers(known), "Next": self.random.choice(known)}

    def parallel(self, known, depth):
        branches = [self.scope(depth + 1) for _ in range(self.random.randint(1, 4))]
        return {"Type": "Parallel", "Branches": branches, "Catch": self.catchers(known), "End": True}


def complaints_of_state(name, state, known, path):
    """Where a state is at fault: the state, the field and the rule that are told, and the place."""
    for number, rule in enumerate(state.get("Choices", [])):
        unread = next((it for it in rule if it in UNREAD_OPERATORS), None)
        if unread:
            yield name, "Choices", "BadRule", ((*path, "Choices", number, unread), True)
        elif rule["Next"] not in known:
            yield name, "Choices", "NoSuchState", ((*path, "Choices", number, "Next"), False)
    for number, catcher in enumerate(state.get("Catch", [])):
        if catcher["Next"] not in known:
            yield name, "Catch", "NoSuchState", ((*path, "Catch", number, "Next"), False)
    if state.get("Next", known[0]) not in known:
        yield name, "Next", "NoSuchState", ((*path, "Next"), False)
    for number, branch in enumerate(state.get("Branches", [])):
        if branch["StartAt"] not in branch["States"]:
            yield name, "Branches", "NoSuchState", ((*path, "Branches", number, "StartAt"), False)
        yield from complaints_of_scope(branch, (*path, "Branches", number))


def complaints_of_scope(scope, path=()):
    known = list(scope["States"])
    for name, state in scope["States"].items():
        yield from complaints_of_state(name, state, known, (*path, "States", name))


def definition_faults(definition):
    """Where a definition is at fault."""
    return [(None, "StartAt", "NoSuchState", (("StartAt",), False)), *complaints_of_scope(definition)]


# What lint tells of them.


def at_characters(text, faults):
    """Of what is told the character at which it stands, in place of the path."""
    places = Places(text)
    values, names = ({path: at for at, path in it.items()} for it in (places.values, places.names))
    return [(state, field, rule, (names if is_name else values)[path]) for state, field, rule, (path, is_name) in faults]


def told_of(text, diagnostics):
    return [(it.get("state"), it.get("field"), it["rule"], character_of(text, it)) for it in diagnostics]


def in_order(told):
    return sorted(told, key=lambda it: [str(part) for part in it])


def fault_of_broken(text, faults, diagnostics):
    """What is told of a text beside the faults that stand in it, or isn't told, or None."""
    wanted, told = in_order(at_characters(text, faults)), in_order(told_of(text, diagnostics))
    return None if wanted == told else f"{text!r} has the faults {wanted}, and {told} is told"


def broken_texts(count):
    """So many broken definitions and declared shapes: of each its file, its text and where it is at fault."""
    for number in range(count):
        indent = [None, 1, 2][number % 3]
        definition, declared = DefinitionMaker(number).scope(), made_declared(number)
        yield f"{number:04}.asl.json", json.dumps(definition, indent=indent), definition_faults(definition)
        yield f"{number:04}.declared.json", json.dumps(declared, indent=indent), declared_faults(declared)
