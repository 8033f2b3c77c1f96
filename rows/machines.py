"""Random state machines with declared shapes, the same for the same number.

Most are read and have data that flows through all types of states; some of these have faults, as paths that may name
nothing, and some are refused. Nothing is known of which is which: two ways of asking are compared on them.
"""

import random

# The fields of objects, and those that a path may ask for: mostly these, rarely one that is never there.
FIELDS = ["a", "b", "c"]
KINDS = ["integer", "string", "boolean", "null"]
# How often, of a hundred, something is made wrong in the text of a machine.
REFUSED = 15


class Maker:
    """Makes one machine. States are numbered as they are made, over all scopes."""

    def __init__(self, number):
        self.random = random.Random(number)
        self.count = 0
        self.tasks = {}

    def chance(self, percent):
        return self.random.randrange(100) < percent

    def pick(self, choices):
        return self.random.choice(choices)

    def shape(self, depth=0):
        """A shape: mostly an object of some of the fields, of which most have to be there."""
        if depth > 1 or self.chance(30 if depth else 5):
            return self.pick([{"type": it} for it in KINDS] + [True, {"type": ["integer", "null"]}])
        if self.chance(15):
            return {"type": "array", "items": self.shape(depth + 1)}
        fields = [it for it in FIELDS if self.chance(80)]
        shape = {
            "type": "object",
            "properties": {it: self.shape(depth + 1) for it in fields},
            "required": [it for it in fields if self.chance(85)],
        }
        if self.chance(20):
            shape["additionalProperties"] = False
        return shape

    def path(self, most=2):
        """A path of up to so many fields."""
        names = [self.pick(FIELDS) if self.chance(97) else "z" for _ in range(self.random.randint(0, most))]
        return "$" + "".join(f"['{it}']" if self.chance(5) else f".{it}" for it in names) + ("[0]" if self.chance(3) else "")

    def literal(self):
        return self.pick([1, "x", True, None, [], [1, "x"], {}, {"a": 1}, {"a": {"b": 2}, "c": "y"}])

    def call(self, depth=0):
        """A call of an intrinsic function."""
        inner = self.call(1) if depth == 0 and self.chance(20) else self.path(1)
        return self.pick([
            f"States.Array({inner}, 7)", f"States.Array('x', {inner}, true)", f"States.Format('{{}}', {inner})",
            f"States.Format('{{}} of {{}}', {self.path(1)}, 12)", "States.Format('x')",
            f"States.ArrayLength(States.Array({inner}))", f"States.ArrayLength({self.path(1)})",
        ])

    def template(self, items=(), depth=0):
        """A payload template; `items` are paths that it may have beside its own."""
        made = {}
        for it in FIELDS:
            if self.chance(60 - 20 * depth):
                name, value = self.pick([
                    (it, self.literal()), (f"{it}.$", self.path(1)), (f"{it}.$", self.path(1)), (f"{it}.$", self.call()),
                    (f"{it}.$", self.call()), *[(f"{it}.$", of) for of in items],
                ])
                if depth < 2 and self.chance(15):
                    name, value = it, self.template(items, depth + 1)
                    value = [value, self.literal()] if self.chance(20) else value
                made[name] = value
        return made

    def rule(self, depth=0):
        """A choice rule without its `Next`."""
        variable = {"Variable": self.path(1)}
        order = self.pick(["Equals", "LessThan", "GreaterThan", "LessThanEquals", "GreaterThanEquals"])
        tests = [
            {"IsPresent": self.chance(70)}, {"IsPresent": self.chance(70)}, {"IsNull": self.chance(50)},
            {"IsString": self.chance(80)}, {"IsNumeric": self.chance(80)}, {"IsBoolean": self.chance(80)},
            {f"Numeric{order}": 1}, {f"String{order}": "x"}, {"StringMatches": self.pick(["x*", "*", "*y", "x"])},
            {"BooleanEquals": True}, {f"Numeric{order}Path": self.path(1)}, {f"String{order}Path": self.path(1)},
        ]
        test = {**variable, **self.pick(tests)}
        if depth == 0 and self.chance(20):
            inner = test if self.chance(70) else self.rule(1)
            return {self.pick(["And", "Or"]): [{**variable, "IsPresent": True}, inner]}
        return {"Not": test} if self.chance(10) else test

    def data_fields(self, *names):
        """Some of the fields by which a state picks and moves data."""
        made = {
            "InputPath": self.path(1), "Parameters": self.template(), "ResultSelector": self.template(),
            "ResultPath": self.pick(["$", None, "$.a", "$.b", "$.c.d"]), "OutputPath": self.path(1),
        }
        return {it: made[it] for it in names if self.chance(25)}

    def catchers(self, targets):
        """`Retry` and `Catch`, or neither."""
        made = {}
        if self.chance(20):
            made["Retry"] = [{"ErrorEquals": [self.pick(["E", "States.ALL", "States.TaskFailed"])], "MaxAttempts": 1}]
        if targets and self.chance(30):
            caught = [{"ErrorEquals": ["States.ALL"], "Next": self.pick(targets)}]
            if self.chance(30):
                caught.insert(0, {"ErrorEquals": ["E"], "ResultPath": "$.a", "Next": self.pick(targets)})
            made["Catch"] = caught
        return made

    def state(self, name, later, depth):
        """A state, which leads to later ones of its scope, or ends it."""
        kinds = ["Pass", "Pass", "Pass", "Task", "Task", "Choice", "Wait", "Succeed", "Fail"]
        if depth < 2:
            kinds += ["Parallel", "Map"]
        kind = self.pick(kinds) if later else self.pick(["Pass", "Task", "Succeed"])
        made = {"Type": kind}
        if kind == "Choice":
            made["Choices"] = [{**self.rule(), "Next": self.pick(later)} for _ in range(self.random.randint(1, 3))]
            if self.chance(85):
                made["Default"] = self.pick(later)
            return {**made, **self.data_fields("InputPath", "OutputPath")}
        if kind == "Succeed":
            return {**made, **self.data_fields("InputPath", "OutputPath")}
        if kind == "Fail":
            return {**made, "Error": "E"}
        made.update({"Next": later[0] if self.chance(75) else self.pick(later)} if later else {"End": True})
        if kind == "Wait":
            made.update(self.pick([{"Seconds": 1}, {"Seconds": 1}, {"SecondsPath": self.path(1)}]))
            return {**made, **self.data_fields("InputPath", "OutputPath")}
        if kind == "Pass":
            made.update({"Result": self.literal()} if self.chance(30) else {})
            return {**made, **self.data_fields("InputPath", "Parameters", "ResultPath", "OutputPath")}
        made.update(self.data_fields("InputPath", "Parameters", "ResultSelector", "ResultPath", "OutputPath"))
        made.update(self.catchers(later))
        if kind == "Task":
            made["Resource"] = "arn"
            if self.chance(98):
                self.tasks[name] = {"gives": self.shape()}
                if self.chance(30):
                    self.tasks[name]["takes"] = self.shape()
        elif kind == "Parallel":
            made["Branches"] = [self.scope(depth + 1) for _ in range(self.random.randint(1, 2))]
        else:
            made["ItemsPath"] = self.path(1)
            if self.chance(40):
                made["ItemSelector"] = self.template(["$$.Map.Item.Value", "$$.Map.Item.Index", "$$.Map.Item.Value.a"])
            made[self.pick(["ItemProcessor", "ItemProcessor", "Iterator"])] = self.scope(depth + 1)
        return made

    def scope(self, depth):
        """A machine, a branch or a processor."""
        names = []
        for _ in range(self.random.randint(1, 5 - 2 * depth)):
            names.append(f"S{self.count}")
            self.count += 1
        return {
            "StartAt": names[0],
            "States": {it: self.state(it, names[number + 1:], depth) for number, it in enumerate(names)},
        }

    def break_somewhere(self, definition):
        """Makes something wrong in the text of a state."""
        state = self.pick(list(definition["States"].values()))
        state.update(self.pick([
            {"Next": "Nowhere"}, {"Colour": "red"}, {"Assign": {}}, {"OutputPath": "a"}, {"ResultPath": "$.a[*]"},
            {"Type": "Passs"}, {"Parameters": {"a.$": "States.UUID()"}}, {"Comment": 1.5}, {"End": "yes"}, {"Type": None},
        ]))

    def machine(self):
        """A definition and its declared shapes."""
        definition = self.scope(0)
        if self.chance(REFUSED):
            self.break_somewhere(definition)
        declared = {"input": self.shape(), "tasks": self.tasks}
        if self.chance(2):
            declared["tasks"]["Nobody"] = {"gives": True}
        if self.chance(2):
            declared["colour"] = "red"
        return definition, declared
