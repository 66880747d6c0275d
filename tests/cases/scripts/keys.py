"""Each key of each command: left out, twice, under another name, with a value of another form, and at both ends of its range.

Every line is done over an empty store, where a good one has a plain end."""
import json

BAD = 3
MOST = 2**64 - 1
LEAST = -(2**63)
X = '{"name":"x","type":"int64","domain":[0,9],"extent":10}'
V = '{"name":"v","type":"int64"}'
# What is no list, no object, no text, no number and no truth.
OTHERS = {
    "list": ["null", "true", "1", '"a"', "{}"],
    "object": ["null", "true", "1", '"a"', "[]"],
    "text": ["null", "true", "1", "[]", "{}"],
    "number": ["null", "true", '"1"', "[1]", "{}", "1.0", "1e1", "-0", str(MOST + 1), str(LEAST - 1)],
    "truth": ["null", "1", "0", '"true"', "[]", "{}"],
}


class Key:
    """A key of a form: values that may stand under it, and values that may not."""

    def __init__(self, name, good, bad):
        self.name, self.good, self.bad = name, good, bad


def stamps(name):
    return Key(name, ["0", str(MOST)], [*OTHERS["number"], "-1"])


def words(name, *good):
    return Key(name, [f'"{word}"' for word in good], [*OTHERS["text"], '"Row"', '""', f'"{good[0]} "'])


BOX = Key(
    "box",
    ["{}", '{"x":[0,0]}', f'{{"x":[{LEAST},{MOST}]}}', '{"x":[1,2],"y":[3,4]}'],
    [*OTHERS["object"], '{"x":[1,0]}', '{"x":[1]}', '{"x":[1,2,3]}', '{"x":1}', '{"x":["0",1]}', '{"1x":[0,1]}', '{"":[0,1]}', f'{{"x":[0,{MOST + 1}]}}'],
)
ATTRS = [V, '{"name":"v","type":"text","nullable":true}', '{"name":"v","type":"blob","fill":"00ff"}', '{"name":"v","type":"uint8","fill":255,"nullable":false}']
NO_ATTRS = [
    "1", "[]", '{"name":"v"}', '{"type":"int8"}', '{"name":"v","type":"int128"}', '{"name":"in","type":"int8"}', '{"name":"v","type":"int8","null":true}',
    *(f'{{"name":"v","type":"int8","nullable":{other}}}' for other in OTHERS["truth"]),
    *(f'{{"name":{other},"type":"int8"}}' for other in OTHERS["text"]),
    *(f'{{"name":"v","type":{other}}}' for other in OTHERS["text"]),
    *(f'{{"name":"v","type":"int8","fill":{other}}}' for other in ("true", "[]", "{}", "1.5")),
]
NO_DIMS = [
    "1", "[]", '{"name":"x","type":"int64","domain":[0,9]}', '{"name":"x","type":"int64","extent":1}', '{"name":"x","domain":[0,9],"extent":1}',
    '{"type":"int64","domain":[0,9],"extent":1}', '{"name":"x","type":"text","domain":[0,9],"extent":1}', '{"name":"x","type":"blob","domain":[0,9],"extent":1}',
    '{"name":"x","type":"int64","domain":[0],"extent":1}', '{"name":"x","type":"int64","domain":[0,9,9],"extent":1}', '{"name":"x","type":"int64","domain":0,"extent":1}',
    '{"name":"x","type":"int64","domain":[0,"9"],"extent":1}', '{"name":"not","type":"int64","domain":[0,9],"extent":1}',
    '{"name":"x","type":"int64","domain":[0,9],"extent":1,"order":"row"}',
    *(f'{{"name":"x","type":"int64","domain":[0,9],"extent":{other}}}' for other in OTHERS["number"]),
]
COMMON = [
    Key("lane", ["0", "7"], [*OTHERS["number"], "-1", "8"]),
    stamps("at"),
    Key("stop", [str(MOST), '"vac"', '"wrt"', '"part"'], ["null", "true", "[]", "{}", "-1", "1.0", '"del"', '"Vac"', '""', '"1"', str(MOST + 1)]),
]
FORMS = {
    "create": [
        words("kind", "sparse", "dense"),
        Key("dims", [f"[{X}]"], [*OTHERS["list"], "[]", *(f"[{other}]" for other in NO_DIMS)]),
        Key("attrs", [*(f"[{attr}]" for attr in ATTRS)], [*OTHERS["list"], *(f"[{other}]" for other in NO_ATTRS)]),
        words("cell_order", "row", "col"),
        words("tile_order", "row", "col"),
        Key("capacity", ["1", "1000000"], [*OTHERS["number"], "0", "-1", "1000001", str(2**32)]),
    ],
    "evolve": [
        Key("add", ["[]", *(f"[{attr}]" for attr in ATTRS)], [*OTHERS["list"], *(f"[{other}]" for other in NO_ATTRS)]),
        Key("drop", ["[]", '["v"]', '["v","v"]'], [*OTHERS["list"], "[1]", "[null]", '["or"]', '[""]', '["1v"]', '["v w"]']),
    ],
    "write": [
        Key(
            "cols",
            ["{}", '{"x":[1],"v":[null]}', f'{{"x":[{LEAST},{MOST}],"v":["","a"]}}'],
            [*OTHERS["object"], '{"x":[]}', '{"x":1}', '{"x":[true]}', '{"x":[[1]]}', '{"x":[{}]}', '{"x":[1.5]}', f'{{"x":[{MOST + 1}]}}', '{"is":[1]}'],
        ),
        BOX,
        words("layout", "row", "col"),
    ],
    "read": [
        stamps("from"),
        stamps("to"),
        BOX,
        Key("where", ['""', '"v = 1"'], OTHERS["text"]),
        Key("fields", ['["x"]', '["v","v"]'], [*OTHERS["list"], "[]", "[1]", '["null"]', '[""]']),
        words("layout", "row", "col", "global"),
    ],
    "delete": [Key("where", ['""', '"v = 1"'], OTHERS["text"])],
    "consolidate": [
        stamps("from"),
        stamps("to"),
        Key("min", ["2", "64"], [*OTHERS["number"], "-1", "0", "1", "65", "4097"]),
        Key("max", ["2", "4096"], [*OTHERS["number"], "-1", "0", "1", "4097", str(2**32)]),
    ],
    "vacuum": [],
    "unlock": [],
    "fragments": [],
}
# What has to stand in a line of the form.
LEAST_KEYS = {
    "create": {"kind": '"sparse"', "dims": f"[{X}]", "attrs": f"[{V}]"},
    "evolve": {"drop": '["v"]'},
    "write": {"cols": '{"x":[5],"v":[1]}'},
    "read": {},
    "delete": {"where": '"v = 1"'},
    "consolidate": {},
    "vacuum": {},
    "unlock": {},
    "fragments": {},
}


def line(command, keys, behind=()):
    """A line with these keys, and then with more of them, some perhaps for a second time."""
    members = [("cmd", f'"{command}"'), *keys.items(), *behind]
    return ("{" + ",".join(f'"{name}":{value}' for name, value in members) + "}\n").encode()


def end(command, keys):
    """What a good line prints over an empty store."""
    lane, at = keys.get("lane", "0"), keys.get("at", "9")
    ends = {"create": "ok", "unlock": "ok\t0", "fragments": "ok\t0"}
    looked = keys.get("to", at) if command == "read" else at
    return f"{lane}.1\t{command}\t{ends.get(command, f'refused{chr(9)}NoSchema{chr(9)}{looked}')}\n".encode(), 0


def good(command, keys, behind=()):
    return line(command, keys, behind), *end(command, {**keys, **dict(behind)})


def bad(command, keys, behind=()):
    return line(command, keys, behind), b"bad script\t1\n", BAD


def of_key(command, key, base):
    """The lines in which one key is left out, comes twice, or has each of its values."""
    rest = {name: value for name, value in base.items() if name != key.name}
    if key.name in LEAST_KEYS[command]:
        yield f"no {key.name}", bad(command, rest)
    elif key.name != "at":  # (without it the stamp is the clock's, and told by most ends)
        yield f"no {key.name}", good(command, rest)
    for value in key.good:
        yield f"{key.name} {value}", good(command, {**rest, key.name: value})
    for value in key.bad:
        yield f"{key.name} {value}", bad(command, {**rest, key.name: value})
    # a key that comes twice counts with its last value
    yield f"{key.name} twice, the last one good", good(command, {**rest, key.name: key.bad[0]}, [(key.name, key.good[0])])
    yield f"{key.name} twice, the last one bad", bad(command, {**rest, key.name: key.good[0]}, [(key.name, key.bad[0])])
    for other in (key.name.upper(), key.name + " ", key.name + "s"):
        yield f"{other!r} beside {key.name}", bad(command, {**rest, key.name: key.good[0]}, [(other, key.good[0])])


def cases():
    known = {key.name for keys in FORMS.values() for key in keys}
    for command, own in FORMS.items():
        base = {**LEAST_KEYS[command], "at": "9"}
        yield f"{command}: its least form", *good(command, base)
        for key in [*own, *COMMON]:
            for name, case in of_key(command, key, base):
                yield f"{command}: {name}", *case
        for name in sorted(known - {key.name for key in own}):
            yield f"{command}: {name}, a key of other commands", *bad(command, base, [(name, "0")])
        for name in (command.upper(), command + " ", command[:-1], ""):
            yield f"{command}: the name {name!r}", *bad(name, base)
    for other in OTHERS["text"]:
        yield f"a name {other}", json.dumps({"cmd": 0}).replace("0", other).encode(), b"bad script\t1\n", BAD
