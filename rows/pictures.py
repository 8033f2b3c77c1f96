"""What a picture that `asl graph` writes shows, read back from it, and what it has to show by the definition's text.

Both are a Picture: the boxes in their order, each with the scope that it stands in, and the lines away from each box in
their order. A box is told by its state's name, a circle by Start or End. Blanks and what stands in place of control
characters are left out of names and labels, since a picture breaks long ones into lines. With declared shapes states are
red and grey by the diagnostics of `asl lint`.
"""

import dataclasses
import html
import json
import re

START, END = "(Start)", "(End)"
# Of a longer label a picture tells the beginning.
CUT = "…"


@dataclasses.dataclass
class Picture:
    """Boxes are (scope, name, type, form), lines (scope, from, to, is dashed, label); red and grey are names of states."""
    boxes: list
    lines: list
    red: set
    grey: set


def plain(text):
    """The text without blanks and control characters."""
    return "".join(it for it in text if it.isprintable() and not it.isspace())


def form_of(kind):
    """The form of a state's box, by its type."""
    return "rhombus" if kind == "Choice" else "rounded" if kind in ("Succeed", "Fail") else "box"


def scopes_of(state):
    """The scopes inside a state, in their order."""
    if state["Type"] == "Parallel":
        return state["Branches"]
    return [state.get("ItemProcessor", state.get("Iterator"))] if state["Type"] == "Map" else []


def exits_of(state):
    """Where a state leads: a name, whether by an error, and the line's label; None stands for the words of some rule."""
    if state["Type"] == "Choice":
        yield from ((rule["Next"], False, None) for rule in state["Choices"])
        if "Default" in state:
            yield state["Default"], False, "Default"
    elif state["Type"] not in ("Succeed", "Fail"):
        yield state.get("Next", END), False, ""
    for catcher in state.get("Catch", []):
        yield catcher["Next"], True, ", ".join(catcher["ErrorEquals"])


def draw_scope(machine, scope, picture):
    """Adds what is to be drawn of a scope and of those inside it."""
    exits = {name: list(exits_of(state)) for name, state in machine["States"].items()}
    picture.boxes.append((scope, START, "", "circle"))
    picture.lines.append((scope, START, plain(machine["StartAt"]), False, ""))
    for name, state in machine["States"].items():
        inner = scopes_of(state)
        picture.boxes.append((scope, plain(name), state["Type"], "cluster" if inner else form_of(state["Type"])))
        for number, it in enumerate(inner, start=1):
            draw_scope(it, (*scope, (plain(name), number)), picture)
        for to, is_dashed, label in exits[name]:
            picture.lines.append((scope, plain(name), to if to == END else plain(to), is_dashed, label))
    if any(to == END for it in exits.values() for to, _, _ in it):
        picture.boxes.append((scope, END, "", "double circle"))


def sources_of(picture):
    """From where lines lead to each state: the names of states, None where the machine starts, of a scope its state."""
    sources = {name: set() for _, name, kind, _ in picture.boxes if kind}
    for scope, source, target, _, _ in picture.lines:
        if target != END:
            sources[target].add(source if source != START else scope[-1][0] if scope else None)
    return sources


def without_data(picture, warned):
    """The states to which no data comes: those of which a warning tells it, and what such states alone lead to."""
    sources = sources_of(picture)
    found, before = set(sources), None
    while found != before:
        before = found
        found = {it for it in before if it in warned or sources[it] <= before}
    return found


def drawing_of(definition, errors=(), warned=None):
    """What is to be drawn of a definition. With declared shapes: the states with errors, and those without data by warnings."""
    picture = Picture([], [], set(), set())
    draw_scope(json.loads(definition), (), picture)
    if warned is not None:
        picture.red = {plain(it) for it in errors} & set(sources_of(picture))
        picture.grey = without_data(picture, {plain(it) for it in warned}) - picture.red
    return picture


class Reader:
    """Reads a picture line by line. A box has its id; a scope is that of the clusters that are open."""

    def __init__(self):
        self.picture = Picture([], [], set(), set())
        self.names, self.open, self.edges = {}, [], []

    def enter(self, number, label):
        """Opens the cluster of a state, or of one of its branches."""
        state = re.fullmatch(r"(.*) ?\((Parallel|Map, each item)\)", label, flags=re.DOTALL)
        if state:
            name, kind = plain(state[1]), state[2].split(",")[0]
            self.names[number] = name
            self.picture.boxes.append((self.scope(), name, kind, "cluster"))
            self.open.append((name, 1) if kind == "Map" else None)
        else:
            parent = self.names[number.rpartition("_")[0]]
            self.open.append((parent, int(re.fullmatch(r"branch (\d+)", label)[1])))

    def scope(self):
        return tuple(it for it in self.open if it)

    def put(self, number, label, form, look):
        """Takes a box; what is in it is its state's name and type."""
        name, kind = plain(label), ""
        if form in ("circle", "double circle"):
            name = f"({name})"
        else:
            text, _, kind = label.rpartition("\n")
            name = plain(text)
        self.names[number] = name
        self.picture.boxes.append((self.scope(), name, kind, form))
        self.paint(number, look)

    def paint(self, number, look):
        """Takes the colour of a state's box."""
        if look in ("red", "grey"):
            getattr(self.picture, look).add(self.names[number])

    def draw(self, source, target, is_dashed, label):
        self.edges.append((self.scope(), source, target, is_dashed, plain(label)))

    def done(self):
        """The picture: lines may stand in front of the boxes that they lead to."""
        for scope, source, target, is_dashed, label in self.edges:
            self.picture.lines.append((scope, self.names[source], self.names[target], is_dashed, label))
        return self.picture


def mermaid_text(text):
    """What a label in a picture for Mermaid says."""
    named = re.sub(r"#(\d+);", lambda it: chr(int(it[1])), text.replace("<br/>", "\n"))
    return re.sub(r"#([a-z]+);", lambda it: html.unescape(f"&{it[1]};"), named)


MERMAID_FORMS = {'["': "box", '(["': "rounded", '{"': "rhombus", '(("': "circle", '((("': "double circle"}
MERMAID_LOOKS = {None: "", "finding": "red", "unreached": "grey"}
MERMAID_PASSED = re.compile(r"flowchart TD|%% .*|classDef .*|direction TB|")
MERMAID_BOX = re.compile(r'(\w+)(\(\(\("|\(\("|\(\["|\{"|\[")(.*?)"[\])}]+(?::::(\w+))?')
MERMAID_LINE = re.compile(r'(\w+) (-->|-\.->)(?:\|"(.*)"\|)? (\w+)')


def of_mermaid(text):
    """The picture of a text for Mermaid."""
    reader = Reader()
    for line in map(str.strip, text.split("\n")):
        opened = re.fullmatch(r'subgraph (\w+)\["(.*)"\]', line)
        painted = re.fullmatch(r"class (\w+) (\w+)", line)
        box, drawn = MERMAID_BOX.fullmatch(line), MERMAID_LINE.fullmatch(line)
        if opened:
            reader.enter(opened[1], mermaid_text(opened[2]))
        elif line == "end":
            reader.open.pop()
        elif painted:
            reader.paint(painted[1], MERMAID_LOOKS[painted[2]])
        elif box:
            reader.put(box[1], mermaid_text(box[3]), MERMAID_FORMS[box[2]], MERMAID_LOOKS[box[4]])
        elif drawn:
            reader.draw(drawn[1], drawn[4], drawn[2] == "-.->", mermaid_text(drawn[3] or ""))
        elif not MERMAID_PASSED.fullmatch(line):
            raise ValueError(f"a line of a picture isn't read: {line!r}")
    return reader.done()


DOT_PASSED = re.compile(r"digraph \{|// .*|compound=true|newrank=true|fontname=.*|(node|edge) \[.*|in\w+ \[.*|out\w+ \[.*|")
DOT_LINE = re.compile(r"(\w+) -> (\w+)(?: \[(.*)\])?")
DOT_BOX = re.compile(r"(\w+) \[(.*)\]")
DOT_FORMS = {"circle": "circle", "doublecircle": "double circle", "diamond": "rhombus"}
DOT_LOOKS = {"#cf222e": "red", "#8c959f": "grey"}


def dot_attributes(text):
    """The attributes between brackets, by name."""
    found = re.findall(r'(\w+)=(?:"((?:[^"\\]|\\.)*)"|([^,\s]+))', text or "")
    return {name: re.sub(r"\\(.)", lambda it: "\n" if it[1] == "n" else it[1], quoted) or bare for name, quoted, bare in found}


def dot_end(name):
    """The box that a line leads to or from: a cluster has a point of its own for each."""
    return "s" + re.fullmatch(r"(?:in|out)(\w+)", name)[1] if re.match("in|out", name) else name


def of_dot(text):
    """The picture of a text for dot."""
    reader, cluster = Reader(), None
    for line in map(str.strip, text.split("\n")):
        opened, drawn, box = re.fullmatch(r"subgraph cluster_(\w+) \{", line), DOT_LINE.fullmatch(line), DOT_BOX.fullmatch(line)
        if opened:
            cluster = opened[1]
        elif line.startswith("graph [") and cluster:
            had = dot_attributes(line[len("graph ["):-1])
            reader.enter(cluster, had["label"])
            if had["fontcolor"] != "black":
                reader.paint(cluster, DOT_LOOKS[had["color"]])
        elif line == "}":
            if reader.open:
                reader.open.pop()
        elif drawn:
            had = dot_attributes(drawn[3])
            if had.get("style") != "invis":
                reader.draw(dot_end(drawn[1]), dot_end(drawn[2]), had.get("style") == "dashed", had.get("label", ""))
        elif not DOT_PASSED.fullmatch(line):
            had = dot_attributes(box[2])
            form = DOT_FORMS.get(had.get("shape"), "rounded" if "rounded" in had.get("style", "") else "box")
            reader.put(box[1], had["label"], form, DOT_LOOKS.get(had.get("color"), ""))
    return reader.done()


def is_label(told, label):
    """Whether a line's label is the wanted one, or, if it is a longer one, begins it; some words have to tell a rule."""
    if label is None:
        return told not in ("", "Default")
    whole = plain(label)
    return told == whole or (told.endswith(CUT) and whole.startswith(told[:-1]))


def fault_of_lines(told, lines):
    """Where lines aren't those that are wanted, in the order of those away from each box, or None."""
    def away(each):
        return sorted(each, key=lambda it: it[:2])
    for one, other in zip(away(told), away(lines)):
        if one[:4] != other[:4] or not is_label(one[4], other[4]):
            return f"a line is {one} in place of {other}"
    return None if len(told) == len(lines) else f"{len(told)} lines are drawn in place of {len(lines)}"


def fault_between(picture, other):
    """Where a picture shows something else than what is wanted, or None."""
    for one, two in zip(picture.boxes, other.boxes):
        if one != two:
            return f"a box is {one} in place of {two}"
    if len(picture.boxes) != len(other.boxes):
        return f"{len(picture.boxes)} boxes are drawn in place of {len(other.boxes)}"
    if picture.red != other.red or picture.grey != other.grey:
        return f"red is {sorted(picture.red ^ other.red)} or grey {sorted(picture.grey ^ other.grey)} in one alone"
    return fault_of_lines(picture.lines, other.lines)
