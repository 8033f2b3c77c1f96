"""Texts of the tables, in which a part between << and >> is made.

<<TEXT * N>>        TEXT, N times
<<C to N>>          the character C as often as makes the whole text N bytes long
<<bytes 00 ff>>     these bytes, in hexadecimal
<<states N>>        N Pass states S00000, S00001, .., each followed by the next, the last one ending
<<entries N>>       a certificate's entries for these states, integers going in and out
<<pairs N>>         a certificate's listed shapes: integers, and N of closed objects, each with two fields of the one before
<<lists N>>         the same of N listed shapes: integers, and lists, each of the one before
<<orders>>          fields k0000, k0001, .. of an object shape, each with a list of types: of one to six of them, in every order
<<orders, sorted>>  the same fields, the types of each in byte order, and one alone without a list
<<loop N>>          N Pass states, each followed by the one before it, and the first, which wraps its input, by the last
<<lists N over K>>  shapes that a certificate lists behind its number K: N, each of the lists of the shape in front of it
<<pairs N over K>>  the same, each of the lists whose first two elements have the shape in front of it
<<twins N over K>>  the same, each of the objects whose fields a and b have to be there, and have the shape in front of it
<<lists or null N over K>>  the same of lists, and of pairs and twins, each of null too
<<all of PATH>>     the file with that path from the top of the repository
<<all of PATH, OLD => NEW>>     the same with NEW in place of OLD, which stands in it once
"""

import itertools
import json
import pathlib
import re

TOP = pathlib.Path(__file__).resolve().parent.parent


def made(text):
    """Returns the bytes of a table's text, its parts made."""
    pieces = re.split(r"<<(.*?)>>", text)
    fills = [part for part in pieces[1::2] if re.fullmatch(r". to \d+", part)]
    done = [
        b"" if part in fills else made_part(part) if is_part else part.encode()
        for is_part, part in zip(alternating(), pieces)
    ]
    if not fills:
        return b"".join(done)
    if len(fills) > 1:
        raise ValueError(f"two parts fill one text: {fills}")
    place = 2 * pieces[1::2].index(fills[0]) + 1
    done[place] = filling(fills[0], sum(map(len, done)))
    return b"".join(done)


def alternating():
    """Gives False, True, False, True, without an end."""
    is_part = False
    while True:
        yield is_part
        is_part = not is_part


def filling(part, length):
    """Returns the filling of a text that is `length` bytes long without it."""
    character, wanted = part[0], int(part[len("x to "):])
    if len(character.encode()) != 1 or wanted < length:
        raise ValueError(f"<<{part}>> can't fill a text of {length} bytes")
    return character.encode() * (wanted - length)


def made_part(part):
    """Returns the bytes of one part, which stood between << and >>."""
    repeated = re.fullmatch(r"(.+) \* (\d+)", part)
    if repeated:
        return repeated[1].encode() * int(repeated[2])
    counted = re.fullmatch(r"(states|entries|pairs|lists|loop) (\d+)", part)
    if counted:
        make = {"states": states, "entries": entries, "pairs": pairs, "lists": lists, "loop": loop}[counted[1]]
        return make(int(counted[2])).encode()
    listed = re.fullmatch(r"(lists|pairs|twins)( or null)? (\d+) over (\d+)", part)
    if listed:
        spelling = or_null(SPELLINGS[listed[1]]) if listed[2] else SPELLINGS[listed[1]]
        return chained(spelling, int(listed[3]), int(listed[4])).encode()
    if part in ("orders", "orders, sorted"):
        return orders(part != "orders").encode()
    if part.startswith("all of "):
        return file_with(*part[len("all of "):].partition(", ")[::2])
    if part.startswith("bytes "):
        return bytes.fromhex(part[len("bytes "):])
    raise ValueError(f"nothing makes <<{part}>>")


def file_with(path, change):
    """Returns the bytes of a file, changed as `OLD => NEW` says, where it says something."""
    text = (TOP / path).read_bytes()
    old, _, new = change.partition(" => ")
    if old and text.count(old.encode()) != 1:
        raise ValueError(f"'{old}' doesn't stand once in {path}")
    return text.replace(old.encode(), new.encode()) if old else text


# A shape over the one of number K.
SPELLINGS = {
    "lists": '{"type":"array","items":{"shape":K}}',
    "pairs": '{"type":"array","prefixItems":[{"shape":K},{"shape":K}],"minItems":2}',
    "twins": '{"type":"object","properties":{"a":{"shape":K},"b":{"shape":K}},"required":["a","b"]}',
}


def or_null(spelling):
    """Returns the spelling of a shape of one kind with null as a second one."""
    return re.sub(r'^{"type":("[a-z]+")', r'{"type":[\1,"null"]', spelling)


def chained(spelling, count, first):
    """Returns so many shapes behind that number, each over the one in front of it."""
    return ",".join(spelling.replace("K", str(first + i)) for i in range(count))


def states(count):
    """Returns the members of `States` for a chain of Pass states."""
    chained = (f'"S{i:05}":{{"Type":"Pass","Next":"S{i + 1:05}"}},' for i in range(count - 1))
    return "".join(chained) + f'"S{count - 1:05}":{{"Type":"Pass","End":true}}'


def entries(count):
    """Returns the members of a certificate's `states` for that chain."""
    integers = '{"input":{"type":"integer"},"output":{"type":"integer"}}'
    return ",".join(f'"S{i:05}":{integers}' for i in range(count))


def pairs(count):
    """Returns the shape of integers, and behind it so many of closed objects that need two fields of the one before."""
    listed = ['{"type":"integer"}']
    for i in range(count):
        fields = f'"a":{{"shape":{i}}},"b":{{"shape":{i}}}'
        listed.append(f'{{"type":"object","additionalProperties":false,"properties":{{{fields}}},"required":["a","b"]}}')
    return ",".join(listed)


def lists(count):
    """Returns so many listed shapes: that of integers, and of lists, each of the one before."""
    listed = (f'{{"items":{{"shape":{i}}},"type":"array"}}' for i in range(count - 1))
    return ",".join(['{"type":"integer"}', *listed])


def orders(is_sorted):
    """Returns the fields of an object shape, each with the types of one order, or with the same types in byte order."""
    types = ["array", "boolean", "integer", "null", "object", "string"]
    every = (order for count in range(1, 7) for order in itertools.permutations(types, count))
    listed = (sorted(order) if is_sorted else order for order in every)
    spelled = (order[0] if is_sorted and len(order) == 1 else order for order in listed)
    fields = (f'"k{i:04}":{json.dumps({"type": it}, separators=(",", ":"))}' for i, it in enumerate(spelled))
    return ",".join(fields)


def loop(count):
    """Returns the members of `States` for a loop of Pass states against the order of their names."""
    back = (f',"S{i:05}":{{"Type":"Pass","Next":"S{i - 1:05}"}}' for i in range(1, count))
    wrap = f'"S00000":{{"Type":"Pass","Parameters":{{"p.$":"$"}},"Next":"S{count - 1:05}"}}'
    return wrap + "".join(back)
