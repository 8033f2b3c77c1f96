"""Where the values and the names of fields stand in a JSON text, and whether a diagnostic of `asl lint` stands where it should.

The place of a diagnostic that names a state is a value in that state, in the field that it names, or, where the state has no
such field, the state's name or the object that the field is absent from. Where it says of a path that it may name nothing,
that path stands at the place, in whichever spelling, or a call with it. In declared shapes it is in the entry of the task that
is named, or in the field, or else at the whole.
"""

import json
import re

BLANK = re.compile(r"[ \t\r\n]*")
WORD = re.compile(r"[-+.\w]+")
MAY_NAME_NOTHING = re.compile(r"(\$.*) may name nothing", flags=re.DOTALL)
STEP = re.compile(r"""\.(?P<dotted>[^.\[\]'",()\s]+)|\['(?P<single>[^']*)'\]|\["(?P<double>[^"]*)"\]|\[(?P<index>\d+)\]""")
# What stands in front of an item's own paths.
ITEM = "$$.Map.Item.Value"
# Older names of fields, each with the one under which it is told.
OLDER = {"Iterator": "ItemProcessor", "Parameters": "ItemSelector"}


class Places:
    """At which character of a JSON text the value of each path begins, and each field's name. A path is names and numbers."""

    def __init__(self, text):
        self.text, self.at = text, 0
        self.values, self.names = {}, {}
        self.skip()
        self.value(())

    def skip(self):
        self.at = BLANK.match(self.text, self.at).end()

    def value(self, path):
        self.values[self.at] = path
        first = self.text[self.at]
        if first in "{[":
            self.parts(path, first)
        elif first == '"':
            self.string()
        else:
            self.at = WORD.match(self.text, self.at).end()

    def parts(self, path, first):
        """The fields of an object, or the elements of a list."""
        count = 0
        self.at += 1
        self.skip()
        while self.text[self.at] not in "}]":
            key = self.name(path) if first == "{" else count
            self.value((*path, key))
            count += 1
            self.skip()
            if self.text[self.at] == ",":
                self.at += 1
                self.skip()
        self.at += 1

    def name(self, path):
        """The name of a field, and the colon behind it."""
        place = self.at
        name = self.string()
        self.names[place] = (*path, name)
        self.skip()
        self.at += 1
        self.skip()
        return name

    def string(self):
        text, self.at = json.decoder.scanstring(self.text, self.at + 1, False)
        return text


def character_of(text, diagnostic):
    """The character of the text at a diagnostic's line and column."""
    lines = text.split("\n")
    return sum(len(it) + 1 for it in lines[:diagnostic["line"] - 1]) + diagnostic["column"] - 1


def steps_from(text, at):
    """The steps of the path that stands in a text behind its dollar, as names and numbers."""
    steps = []
    while found := STEP.match(text, at):
        name = next((it for it in [found["dotted"], found["single"], found["double"]] if it is not None), None)
        steps.append(int(found["index"]) if name is None else name)
        at = found.end()
    return steps


def paths_in(text):
    """The steps of each path in a text, which is one or a call."""
    text = text.replace(ITEM, "$")
    return [steps_from(text, it.end()) for it in re.finditer(r"\$", text)]


def in_state(path, state):
    """The part of the path that is inside the state, or None where it doesn't lead there."""
    at = [number for number in range(1, len(path)) if path[number - 1] == "States" and path[number] == state]
    return path[at[0] + 1:] if at else None


def fault_of_state(places, at, path, state, field):
    """Where what stands at a character of the text isn't in the field of the state, or None."""
    inside = in_state(path, state)
    if inside is None:
        return f"{path} isn't in the state {state!r}"
    if field is None or field in inside or OLDER.get((*inside, None)[0]) == field:
        return None
    # A field that is absent is told at the name of the state, or at the object in it, that lacks it.
    may_lack = places.text[at] == "{" or not inside
    has_it = (*path, field) in places.values.values()
    return None if may_lack and not has_it else f"{path} isn't in the field {field}"


def fault_of_path(places, at, path):
    """Where another path stands at a character of the text, or None."""
    if places.text[at] != '"':
        return f"no text stands where {path} is told"
    found = json.decoder.scanstring(places.text, at + 1, False)[0]
    return None if steps_from(path, 1) in paths_in(found) else f"{found!r} stands where {path} is told"


def fault_in_declared(path, state, field):
    """Where a path isn't in the entry of a task, or in a field, or None."""
    front = ("tasks", state) if state is not None else (field,)
    return None if path[:len(front)] == front or (state is None and not path) else f"{path} isn't in {front}"


def fault_of_place(text, diagnostic):
    """Where a diagnostic's place isn't that of what it names in the text, or None. The text is JSON."""
    places, at = Places(text), character_of(text, diagnostic)
    path = places.values.get(at, places.names.get(at))
    if path is None:
        return f"no value and no name begins at {at}"
    if ".declared." in diagnostic["file"]:
        is_whole = diagnostic["rule"] == "NotWhole"
        return None if is_whole else fault_in_declared(path, diagnostic.get("state"), diagnostic.get("field"))
    told = MAY_NAME_NOTHING.fullmatch(diagnostic["message"])
    other = fault_of_path(places, at, told[1].replace(ITEM, "$")) if told else None
    if other or "state" not in diagnostic:
        return other
    return fault_of_state(places, at, path, diagnostic["state"], diagnostic.get("field"))
