"""Sparse arrays whose fragments have many tiles, or few, against plain lists of their cells: tiles of each size, up to eight dimensions, each type of
values with nulls and without, at the ends of domains. Which cells a box has, and in which order they stand, is searched in the lists."""
import itertools
import json
import random

CAPACITIES = (1, 2, 3, 10, 1_000_000)
ENDS = {"int8": (-128, 127), "uint8": (0, 255), "int16": (-(2**15), 2**15 - 1), "uint32": (0, 2**32 - 1), "int64": (-(2**63), 2**63 - 1), "uint64": (0, 2**64 - 1)}
VALUES = {"int8": (-128, 0, 127), "uint16": (0, 1, 65535), "int64": (-(2**63), 0, 2**63 - 1), "uint64": (0, 2**64 - 1), "text": ("", "a", "é", "it's"), "blob": ("", "00", "ff00")}


def line(*parts):
    return "\t".join(map(str, parts)).encode() + b"\n"


def shown(value, kind):
    if value is None:
        return "null"
    if kind == "text":
        return json.dumps(value, ensure_ascii=False)
    return f"#{value}" if kind == "blob" else str(value)


def played(*commands):
    return b"".join(json.dumps(command, separators=(",", ":")).encode() + b"\n" for command in commands)


def create(dims, attrs, capacity):
    return {"cmd": "create", "at": 0, "kind": "sparse", "capacity": capacity, "dims": dims, "attrs": attrs}


def many_cells(seed, capacity, count):
    """Cells with up to eight dimensions and all types of values, written in two writes, read by boxes, then merged and read again."""
    chance = random.Random(seed)
    dims = [{"name": f"d{i}", "type": chance.choice(["int8", "int32", "uint64"]), "domain": [0, 3], "extent": chance.randrange(1, 5)} for i in range(count)]
    attrs = [{"name": f"a{i}", "type": kind, "nullable": chance.random() < 0.5} for i, kind in enumerate(VALUES)]
    cells, commands, out = {}, [create(dims, attrs, capacity)], line("0.1", "create", "ok")
    for number in (2, 3):
        places = list({tuple(chance.randrange(4) for _ in dims) for _ in range(12)})
        rows = [[None if it["nullable"] and chance.random() < 0.3 else chance.choice(VALUES[it["type"]]) for it in attrs] for _ in places]
        cells.update(zip(places, rows))
        columns = {f"d{i}": [place[i] for place in places] for i in range(count)}
        columns.update({it["name"]: [row[i] for row in rows] for i, it in enumerate(attrs)})
        commands.append({"cmd": "write", "at": number, "cols": columns})
        out += line(f"0.{number}", "write", "ok", f"__{number}_{number}_{number:032x}_1")
    number = 4
    for round in range(2):
        for _ in range(6):
            box = {it["name"]: sorted([chance.randrange(4), chance.randrange(4)]) for it in dims if chance.random() < 0.7}
            fields = chance.sample([it["name"] for it in dims + attrs], chance.randrange(1, 4))
            kinds = {it["name"]: it["type"] for it in dims + attrs}
            read = {"cmd": "read", "at": 9, "fields": fields}
            if box:
                read["box"] = box
            found = []
            for place in sorted(cells):
                if all(low <= place[int(name[1:])] <= high for name, (low, high) in box.items()):
                    row = {**{f"d{i}": x for i, x in enumerate(place)}, **{it["name"]: v for it, v in zip(attrs, cells[place])}}
                    found.append(line(*(shown(row[name], kinds[name]) for name in fields)))
            commands.append(read)
            out += line(f"0.{number}", "read", "ok", len(found), 0) + b"".join(found)
            number += 1
        if round == 0:
            commands.append({"cmd": "consolidate", "at": 8})
            out += line(f"0.{number}", "consolidate", "ok", f"__2_3_{number:032x}_1", 2)
            number += 1
    return played(*commands), out


def ends(kind, capacity):
    """Cells at both ends of the domain of a type: no tile is past them."""
    low, high = ENDS[kind]
    dims, attrs = [{"name": "x", "type": kind, "domain": [low, high], "extent": 1}], [{"name": "v", "type": "int8"}]
    cells = [low, low + 1, high - 1, high]
    commands = [create(dims, attrs, capacity), {"cmd": "write", "at": 1, "cols": {"x": cells, "v": [1, 2, 3, 4]}}]
    out = line("0.1", "create", "ok") + line("0.2", "write", "ok", f"__1_1_{2:032x}_1")
    for number, (first, last) in enumerate(itertools.combinations_with_replacement(cells, 2), 3):
        found = [line(x, v) for v, x in enumerate(cells, 1) if first <= x <= last]
        commands.append({"cmd": "read", "at": 9, "box": {"x": [first, last]}})
        out += line(f"0.{number}", "read", "ok", len(found), 0) + b"".join(found)
    return played(*commands), out


def long_texts(size):
    """A text of so many bytes between two empty ones, each in a tile of its own, and all in one."""
    for capacity in (1, 10):
        dims, attrs = [{"name": "x", "type": "int8", "domain": [0, 9], "extent": 10}], [{"name": "s", "type": "text"}]
        write = {"cmd": "write", "at": 1, "cols": {"x": [0, 1, 2], "s": ["", "a" * size, ""]}}
        reads = {"cmd": "read", "at": 9, "fields": ["x"], "where": "s = ''"}, {"cmd": "read", "at": 9, "box": {"x": [1, 1]}}
        out = line("0.1", "create", "ok") + line("0.2", "write", "ok", f"__1_1_{2:032x}_1") + line("0.3", "read", "ok", 2 if size else 3, 0)
        out += line(0) + (b"" if size else line(1)) + line(2) + line("0.4", "read", "ok", 1, 0) + line(1, '"' + "a" * size + '"')
        yield f"{size} bytes in tiles of {capacity}", played(create(dims, attrs, capacity), write, *reads), out, 0


def cases():
    for seed, (capacity, count) in enumerate(itertools.product(CAPACITIES, range(1, 9))):
        yield f"{count} dimensions in tiles of {capacity}", *many_cells(seed, capacity, count), 0
    for kind, capacity in itertools.product(ENDS, (1, 3)):
        yield f"ends of {kind} in tiles of {capacity}", *ends(kind, capacity), 0
    for size in (0, 10_000_000):
        yield from long_texts(size)
