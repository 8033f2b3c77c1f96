"""The short notation of a shape, given as the JSON that spells it in a certificate: docs/REFERENCE.md, "Short notation"."""

import json
import re

KINDS = ["boolean", "integer", "string", "array", "object", "null"]
LEVELS, PARTS = 3, 6
UNTOLD = "…"


def kinds_of(shape):
    """The types of the values that have a shape, of which none may be there."""
    if shape is True:
        return KINDS
    if shape is False:
        return []
    kinds = shape["type"]
    return [kinds] if isinstance(kinds, str) else kinds


def lists_of(shape):
    """The shapes of a list's first elements, and of those that follow."""
    return ([], True) if shape is True else (shape.get("prefixItems", []), shape.get("items", True))


def objects_of(shape):
    """The shapes of an object's fields, which of them are needed, and whether there may be others."""
    if shape is True:
        return {}, set(), True
    needed = set(shape.get("required", []))
    fields = {**{name: True for name in needed}, **shape.get("properties", {})}
    return fields, needed, shape.get("additionalProperties", True)


def has_list(shape):
    """Whether some list has the shape."""
    return "array" in kinds_of(shape) and all(has_some(it) for it in lists_of(shape)[0])


def has_object(shape):
    """Whether some object has the shape."""
    if "object" not in kinds_of(shape):
        return False
    fields, needed, _ = objects_of(shape)
    return all(has_some(fields[it]) for it in needed)


def has_some(shape):
    """Whether some value has the shape."""
    return has_list(shape) or has_object(shape) or any(it not in ("array", "object") for it in kinds_of(shape))


def takes_all(shape):
    """Whether every value has the shape."""
    if set(kinds_of(shape)) != set(KINDS):
        return False
    first, rest = lists_of(shape)
    fields, needed, others = objects_of(shape)
    return not first and (rest is True or takes_all(rest)) and not needed and others and all(map(takes_all, fields.values()))


def name_noted(name):
    """A field's name."""
    return name if re.fullmatch(r"[A-Za-z_][A-Za-z0-9_]*", name) else json.dumps(name, ensure_ascii=False)


def elements_noted(shape, levels):
    """The parts of a list."""
    first, rest = lists_of(shape)
    if levels == 0:
        return [UNTOLD] if first or has_some(rest) else []
    told = [noted(it, levels - 1) for it in first[:PARTS]] + [UNTOLD] * (len(first) > PARTS)
    return told + [f"..{noted(rest, levels - 1)}"] * has_some(rest)


def members_noted(shape, levels):
    """The parts of an object."""
    fields, needed, others = objects_of(shape)
    if levels == 0:
        return [UNTOLD] if fields else [".."] * others
    names = sorted(fields, key=str.encode)
    told = [f"{name_noted(it)}{'' if it in needed else '?'}: {noted(fields[it], levels - 1)}" for it in names[:PARTS]]
    return told + [UNTOLD] * (len(names) > PARTS) + [".."] * others


def noted(shape, levels=LEVELS):
    """The shape in short notation, with so many levels."""
    if takes_all(shape):
        return "any"
    if not has_some(shape):
        return "nothing"
    parts = [it for it in ["boolean", "integer", "string"] if it in kinds_of(shape)]
    if has_list(shape):
        parts.append(f"[{', '.join(elements_noted(shape, levels))}]")
    if has_object(shape):
        parts.append(f"{{{', '.join(members_noted(shape, levels))}}}")
    return " | ".join(parts + [it for it in ["null"] if it in kinds_of(shape)])
