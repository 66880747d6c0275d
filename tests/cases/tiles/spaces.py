"""Dense arrays whose writes are boxes at the rims of space tiles and across them, against plain lists of the cells: up to five dimensions, each order of
cells and of tiles, all types of values. They are read by boxes that cut tiles, then merged, so that some cells have no write, and read again."""
import itertools
import random

from shapes import VALUES, line, played, shown

SIDE = 6
LEAST = {"int8": -128, "int64": -(2**63), "uint16": 65535, "uint64": 2**64 - 1, "text": "", "blob": ""}


def places_of(box):
    return list(itertools.product(*(range(low, high + 1) for low, high in box)))


def any_box(chance, dims):
    return [tuple(sorted((chance.randrange(SIDE), chance.randrange(SIDE)))) for _ in dims]


def reads(chance, dims, attrs, cells, number):
    """Reads of boxes, the first of which is the whole domain where that has few cells."""
    kinds = {it["name"]: it["type"] for it in dims + attrs}
    for turn in range(6):
        box = [(0, SIDE - 1)] * len(dims) if turn == 0 and len(dims) < 4 else any_box(chance, dims)
        fields = chance.sample([it["name"] for it in dims + attrs], chance.randrange(1, 4))
        found = []
        for place in places_of(box):
            values = cells.get(place) or [None if it["nullable"] else LEAST[it["type"]] for it in attrs]
            row = {**{f"d{i}": x for i, x in enumerate(place)}, **{it["name"]: value for it, value in zip(attrs, values)}}
            found.append(line(*(shown(row[name], kinds[name]) for name in fields)))
        command = {"cmd": "read", "at": 9, "fields": fields, "box": {f"d{i}": list(side) for i, side in enumerate(box)}}
        yield command, line(f"0.{number + turn}", "read", "ok", len(found), 0) + b"".join(found)


def boxes(seed, count, cell_order, tile_order):
    """Three writes of boxes, some over one another; reads; a consolidation; the same reads once more, and reads of other boxes."""
    chance = random.Random(seed)
    dims = [{"name": f"d{i}", "type": chance.choice(["uint8", "int32", "int64"]), "domain": [0, SIDE - 1], "extent": chance.choice([1, 2, 3, 4, 6])} for i in range(count)]
    attrs = [{"name": f"a{i}", "type": kind, "nullable": chance.random() < 0.5} for i, kind in enumerate(VALUES)]
    create = {"cmd": "create", "at": 0, "kind": "dense", "cell_order": cell_order, "tile_order": tile_order, "dims": dims, "attrs": attrs}
    cells, commands, out = {}, [create], line("0.1", "create", "ok")
    for number in (2, 3, 4):
        box = any_box(chance, dims)
        places = places_of(box)
        rows = [[None if it["nullable"] and chance.random() < 0.3 else chance.choice(VALUES[it["type"]]) for it in attrs] for _ in places]
        cells.update(zip(places, rows))
        columns = {it["name"]: [row[i] for row in rows] for i, it in enumerate(attrs)}
        commands.append({"cmd": "write", "at": number, "box": {f"d{i}": list(side) for i, side in enumerate(box)}, "cols": columns})
        out += line(f"0.{number}", "write", "ok", f"__{number}_{number}_{number:032x}_1")
    number = 5
    for turn in range(2):
        for command, answer in reads(chance, dims, attrs, cells, number):
            commands.append(command)
            out += answer
            number += 1
        if turn == 0:
            commands.append({"cmd": "consolidate", "at": 8})
            out += line(f"0.{number}", "consolidate", "ok", f"__2_4_{number:032x}_1", 3)
            number += 1
            commands.append({"cmd": "vacuum", "at": 8})
            out += line(f"0.{number}", "vacuum", "ok", 3)
            number += 1
    return played(*commands), out


def cases():
    for seed, (count, cell_order, tile_order) in enumerate(itertools.product(range(1, 6), ("row", "col"), ("row", "col"))):
        yield f"{count} dimensions, cells by {cell_order} and tiles by {tile_order}", *boxes(seed, count, cell_order, tile_order), 0
