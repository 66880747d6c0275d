"""Random scripts over sparse and dense arrays, against plain lists of the writes, deletes and schemas in them.

The lists are searched from end to end for each cell, as docs/FORMATS.md says which write, delete and schema counts. Nothing here
is taken from the program. Each script is made from a seed, which is its name.

Consolidations and vacuums stand among the commands. They leave the lists as they are. For what they print, and for the writes that are clipped
from reads of dense arrays, the fragments are listed too, each with the writes that went into it, and the names that stand in each `.vac`.

In some scripts commands are stopped, leases are removed, and the commits are listed. A stop falls where a command has the same calls whatever there is to read,
or before a call of a kind. The leases are listed, since one that a vacuum left holds others up, and any holds up a vacuum.
"""
import itertools
import json
import random

SCRIPTS = 300
COMMANDS = 30
STAMPS = 6
WRT, DEL, VAC = range(3)
ENDINGS = ("wrt", "del", "vac")
DEFAULT_FILLS = {"int8": -128, "uint8": 255, "int64": -(2**63), "text": ""}


class Attribute:
    def __init__(self, name, kind, nullable, fill):
        self.name, self.kind, self.nullable, self.fill = name, kind, nullable, fill

    def declared(self, chance):
        said = {"name": self.name, "type": self.kind}
        if self.nullable:
            said["nullable"] = True
        default = None if self.nullable else DEFAULT_FILLS[self.kind]
        if self.fill != default or chance.random() < 0.3:
            said["fill"] = self.fill
        return said

    def is_like(self, other):
        return (self.name, self.kind, self.nullable) == (other.name, other.kind, other.nullable)


def some_value(chance, kind):
    return chance.choice(["", "a", "b", "it's", "é"]) if kind == "text" else chance.randrange(6)


def some_attribute(chance, name):
    kind, nullable = chance.choice(list(DEFAULT_FILLS)), chance.random() < 0.4
    default = None if nullable else DEFAULT_FILLS[kind]
    return Attribute(name, kind, nullable, some_value(chance, kind) if chance.random() < 0.5 else default)


# ---- conditions: each gives its text, the fields that it names, and whether values of the fields match


def literal(value):
    return "'" + value.replace("'", "''") + "'" if isinstance(value, str) else str(value)


def some_test(chance, fields):
    """fields: the type of each field by its name."""
    name = chance.choice(sorted(fields))
    value = some_value(chance, fields[name])
    way = chance.randrange(9)
    if way < 6:
        sign = ("<", "<=", ">", ">=", "=", "!=")[way]
        holds = (
            lambda a: a.encode() < value.encode() if isinstance(a, str) else a < value,
            lambda a: a.encode() <= value.encode() if isinstance(a, str) else a <= value,
            lambda a: a.encode() > value.encode() if isinstance(a, str) else a > value,
            lambda a: a.encode() >= value.encode() if isinstance(a, str) else a >= value,
            lambda a: a == value,
            lambda a: a != value,
        )[way]
        return f"{name} {sign} {literal(value)}", {name}, lambda row: row[name] is not None and holds(row[name])
    if way == 6:
        return f"{name} is null", {name}, lambda row: row[name] is None
    values = [some_value(chance, fields[name]) for _ in range(chance.randrange(1, 4))]
    listed = "(" + ", ".join(map(literal, values)) + ")"
    if way == 7:
        return f"{name} in {listed}", {name}, lambda row: row[name] is not None and row[name] in values
    return f"{name} not in {listed}", {name}, lambda row: row[name] is not None and row[name] not in values


def some_condition(chance, fields, depth=2):
    way = chance.randrange(5) if depth else 4
    if way == 0:
        text, named, matches = some_condition(chance, fields, depth - 1)
        return f"not ({text})", named, lambda row: not matches(row)
    if way in (1, 2):
        left, right = some_condition(chance, fields, depth - 1), some_condition(chance, fields, depth - 1)
        word, both = (("and", all), ("or", any))[way - 1]
        return f"({left[0]}) {word} ({right[0]})", left[1] | right[1], lambda row: both([left[2](row), right[2](row)])
    return some_test(chance, fields)


# ---- arrays


class Array:
    def __init__(self, chance, dense):
        self.chance, self.dense = chance, dense
        self.dims = [("x", -2, 3, 2), ("y", 0, 4, 3)][: chance.randrange(1, 3)]
        self.cell_order, self.tile_order = chance.choice(["row", "col"]), chance.choice(["row", "col"])
        self.schemas = [((0, 1), [some_attribute(chance, "v"), some_attribute(chance, "w")])]
        self.writes = []  # (key, attributes, coordinates, row by name)
        self.deletes = []  # (key, attributes that are named, whether a row matches)
        self.fragments = []  # those that are committed: (least stamp, greatest stamp, number, key of the schema)
        self.origins = {}  # by the number of a fragment the keys of the writes that went into it
        self.vacs = {}  # by the number of a fragment the fragments that its `.vac` names, each as (least stamp, greatest stamp, number)
        self.commits = set()  # (least stamp, greatest stamp, number, place of its ending among ENDINGS)
        self.leases = set()  # those that were left by commands that were stopped: (stamp, number, ending)
        self.stopping = None  # what chooses the stops, where there are any

    def create(self):
        types = {"x": "int8", "y": "int16"}
        dims = [{"name": n, "type": types[n], "domain": [low, high], "extent": extent} for n, low, high, extent in self.dims]
        said = {"cmd": "create", "at": 0, "kind": "dense" if self.dense else "sparse", "dims": dims}
        said["attrs"] = [it.declared(self.chance) for it in self.schemas[0][1]]
        if self.chance.random() < 0.8:
            said["capacity"] = self.chance.randrange(1, 5)
        return {**said, "cell_order": self.cell_order, "tile_order": self.tile_order}

    def schema_there(self, at):
        """The schema with the greatest key up to a timestamp: its key and its attributes."""
        return max((it for it in self.schemas if it[0][0] <= at), key=lambda it: it[0])

    def schema_at(self, at):
        return self.schema_there(at)[1]

    def fields_at(self, at):
        kinds = {name: "int64" for name, *_ in self.dims}
        return {**kinds, **{it.name: it.kind for it in self.schema_at(at)}}

    def some_box(self):
        box = {}
        for name, low, high, _ in self.dims:
            if self.chance.random() < 0.6:
                box[name] = sorted([self.chance.randint(low, high), self.chance.randint(low, high)])
        return box

    def cells_of(self, box):
        """The cells of a box, in row order."""
        bounds = [box.get(name, [low, high]) for name, low, high, _ in self.dims]
        return list(itertools.product(*(range(low, high + 1) for low, high in bounds)))

    def sorted_by(self, layout, cells):
        if layout == "global":
            tiles = lambda c: tuple((at - low) // extent for at, (_, low, _, extent) in zip(c, self.dims))
            turned = lambda order, places: places if order == "row" else places[::-1]
            return sorted(cells, key=lambda c: (turned(self.tile_order, tiles(c)), turned(self.cell_order, c)))
        return sorted(cells, key=lambda c: c if layout == "row" else c[::-1])

    # ---- stops

    def some_stop(self, said, calls, points=()):
        """Stops a command perhaps, after fewer than so many calls or before one of these points. It gives the stop, or None where the command goes on."""
        if not self.stopping or self.stopping.random() < 0.8:
            return None
        said["stop"] = stop = self.stopping.choice([*range(calls), "vac", "wrt", "part", calls + 999])
        return stop if stop in range(calls) or stop in points else None

    def end_beside_leases(self, number, said, calls, ending):
        """How a command ends that puts its lease by its first call, where its stop ends it early or another lease holds it up. It makes so many calls at least, and three where it is held up."""
        others = sorted(it for it in self.leases if "exc" in (ending, it[2]))
        stop = self.some_stop(said, 3 if others else calls)
        if stop is not None:
            return self.stopped_with_its_lease(number, said, ending) if stop else ["stopped"]
        if others:
            at, by, held = others[0]
            return ["refused", "Leased", f"__leases/__{at}_{at}_{by:032x}.{held}"]
        return None

    def stopped_with_its_lease(self, number, said, ending):
        self.leases.add((said["at"], number, ending))
        return ["stopped"]

    def unlock(self, number):
        removed, self.leases = self.leases, set()
        return {"cmd": "unlock"}, ["ok", str(len(removed))]

    def listing(self, number):
        names = [f"__commits/__{first}_{last}_{by:032x}_1.{ENDINGS[place]}" for first, last, by, place in sorted(self.commits)]
        return {"cmd": "fragments"}, ["ok", str(len(names))], [[name] for name in names]

    # ---- commands: each gives its object and what is printed behind its name

    def evolve(self, number):
        at = self.chance.randrange(STAMPS)
        attributes = self.schema_at(at)
        dropped = [it.name for it in attributes if self.chance.random() < 0.3]
        left = [it for it in attributes if it.name not in dropped]
        free = [name for name in ("v", "w", "u") if name not in [it.name for it in left]]
        added = [some_attribute(self.chance, name) for name in free if self.chance.random() < 0.7]
        said = {"cmd": "evolve", "at": at, "drop": dropped, "add": [it.declared(self.chance) for it in added]}
        if self.some_stop(said, 3) is not None:
            return said, ["stopped"]
        if not left + added:
            return said, ["refused", "NoAttrLeft"]
        self.schemas.append(((at, number), left + added))
        return said, ["ok", f"__{at}_{at}_{number:032x}"]

    def write(self, number):
        at = self.chance.randrange(STAMPS)
        attributes, said = self.schema_at(at), {"cmd": "write", "at": at}
        if self.dense:
            box, layout = self.some_box(), self.chance.choice(["row", "col"])
            cells = self.sorted_by(layout, self.cells_of(box))
            said.update(box=box, layout=layout, cols={})
        else:
            cells = self.chance.sample(self.cells_of({}), self.chance.randrange(1, 5))
            said["cols"] = {name: [cell[at] for cell in cells] for at, (name, *_) in enumerate(self.dims)}
        rows = [{} for _ in cells]
        for it in attributes:
            for row in rows:
                none = it.nullable and self.chance.random() < 0.3
                row[it.name] = None if none else some_value(self.chance, it.kind)
            said["cols"][it.name] = [row[it.name] for row in rows]
        if self.some_stop(said, 5, ["wrt"]) is not None:
            return said, ["stopped"]
        self.commits.add((at, at, number, WRT))
        for cell, row in zip(cells, rows):
            self.writes.append(((at, number), attributes, cell, row))
        self.fragments.append((at, at, number, self.schema_there(at)[0]))
        self.origins[number] = {(at, number)}
        return said, ["ok", f"__{at}_{at}_{number:032x}_1"]

    def consolidate(self, number):
        at = self.chance.randrange(STAMPS)
        said, begin, end, least, most = {"cmd": "consolidate", "at": at}, 0, at, 2, 64
        if self.chance.random() < 0.3:
            said["from"] = begin = self.chance.randrange(STAMPS)
        if self.chance.random() < 0.7:
            said["to"] = end = self.chance.randrange(STAMPS)
        if self.chance.random() < 0.3:
            said["min"] = least = self.chance.randrange(2, 5)
        if self.chance.random() < 0.3:
            said["max"] = most = self.chance.randrange(least, least + 3)
        early = self.end_beside_leases(number, said, 5, "shr")
        if early:
            return said, early
        merged = self.merged()
        whole = sorted(it for it in self.fragments if begin <= it[0] and it[1] <= end and it[:3] not in merged)
        of_schema = lambda key: [it for it in whole if it[3] == key]
        shared = [of_schema(it[3]) for it in whole if len(of_schema(it[3])) >= least]
        if not shared:
            return said, ["refused", "NothingToDo", str(len(whole))]
        taken = shared[0][:most]
        first, last = min(it[0] for it in taken), max(it[1] for it in taken)
        point = said.get("stop")
        if point != "vac":
            self.commits.add((first, last, number, VAC))
            self.vacs[number] = {it[:3] for it in taken}.union(*(self.vacs.get(it[2], ()) for it in taken))
        if point in ("vac", "wrt"):
            return said, self.stopped_with_its_lease(number, said, "shr")
        self.commits.add((first, last, number, WRT))
        self.fragments.append((first, last, number, taken[0][3]))
        self.origins[number] = set().union(*(self.origins[it[2]] for it in taken))
        return said, ["ok", f"__{first}_{last}_{number:032x}_1", str(len(taken))]

    def counting(self):
        """The numbers of the committed fragments that have a `.vac`."""
        return {it[2] for it in self.fragments if it[2] in self.vacs}

    def merged(self):
        """What the `.vac` objects of committed fragments name."""
        return set().union(*(self.vacs[it] for it in self.counting()))

    def remove_commit(self, fragment):
        self.fragments = [it for it in self.fragments if it[:3] != fragment]
        self.commits.discard((*fragment, WRT))

    def vacuum(self, number):
        said = {"cmd": "vacuum", "at": self.chance.randrange(STAMPS)}
        early = self.end_beside_leases(number, said, 5, "exc")
        if early:
            return said, early
        removed, read = self.merged(), self.counting()
        if removed and said.get("stop") == "part":
            self.remove_commit(min(removed))
            return said, self.stopped_with_its_lease(number, said, "exc")
        for fragment in removed:
            self.remove_commit(fragment)
        gone = read | {it[2] for it in removed}
        self.vacs = {by: names for by, names in self.vacs.items() if by not in gone}
        self.commits = {it for it in self.commits if it[3] != VAC or it[2] not in gone}
        return said, ["ok", str(len(removed))]

    def delete(self, number):
        at = self.chance.randrange(STAMPS)
        text, named, matches = some_condition(self.chance, self.fields_at(at))
        said = {"cmd": "delete", "at": at, "where": text}
        if self.some_stop(said, 3) is not None:
            return said, ["stopped"]
        if self.dense:
            return said, ["refused", "DenseArray"]
        self.deletes.append(((at, number), [it for it in self.schema_at(at) if it.name in named], matches))
        self.commits.add((at, at, number, DEL))
        return said, ["ok", f"__{at}_{at}_{number:032x}_1"]

    def coordinates(self, cell):
        return {name: at for at, (name, *_) in zip(cell, self.dims)}

    def through(self, wanted, write):
        """The row of a write as these attributes have it."""
        _, attributes, cell, row = write
        said = self.coordinates(cell)
        for it in wanted:
            said[it.name] = row[it.name] if any(it.is_like(other) for other in attributes) else it.fill
        return said

    def clipped(self, begin, end):
        """The keys of the writes that are clipped from a read of an interval, and the fragments that they went into. A sparse fragment is of use wherever it meets the interval, a dense one where it lies in it."""
        meeting = [it for it in self.fragments if begin <= end and it[0] <= end and begin <= it[1]]
        usable = [it for it in meeting if not self.dense or begin <= it[0] and it[1] <= end]
        keys = {it[0] for it in self.writes if begin <= it[0][0] <= end}.difference(*(self.origins[it[2]] for it in usable))
        return keys, sorted(it[:3] for it in meeting if it not in usable and self.origins[it[2]] & keys)

    def row_at(self, cell, begin, end, clipped):
        """The row that a read of an interval has at a cell, before its condition and without the clipped writes, or None."""
        attributes = self.schema_at(end)
        writes = [it for it in self.writes if it[2] == cell and begin <= it[0][0] <= end and it[0] not in clipped]
        if not writes:
            return {**self.coordinates(cell), **{it.name: it.fill for it in attributes}} if self.dense else None
        last = max(writes, key=lambda it: it[0])
        for key, named, matches in self.deletes:
            if begin <= key[0] <= end and last[0] < key and matches(self.through(named, last)):
                return None
        return self.through(attributes, last)

    def read(self, number):
        at = self.chance.randrange(STAMPS)
        said, begin, end = {"cmd": "read", "at": at}, 0, at
        if self.chance.random() < 0.3:
            said["from"] = begin = self.chance.randrange(STAMPS)
        if self.chance.random() < 0.3:
            said["to"] = end = self.chance.randrange(STAMPS)
        box, layout, matches = {}, "row", lambda row: True
        if self.chance.random() < 0.5:
            said["box"] = box = self.some_box()
        if self.chance.random() < 0.6:
            said["layout"] = layout = self.chance.choice(["row", "col", "global"])
        if self.chance.random() < 0.5:
            said["where"], _, matches = some_condition(self.chance, self.fields_at(end))
        fields = list(self.fields_at(end))
        if self.chance.random() < 0.4:
            said["fields"] = fields = [self.chance.choice(fields) for _ in range(self.chance.randrange(1, 4))]
        early = self.end_beside_leases(number, said, 7, "shr")
        if early:
            return said, early
        clipped, left = self.clipped(begin, end)
        rows = [self.row_at(cell, begin, end, clipped) for cell in self.sorted_by(layout, self.cells_of(box))]
        rows = [row for row in rows if row is not None and matches(row)]
        names = [["clipped", f"__{first}_{last}_{by:032x}_1"] for first, last, by in left]
        return said, ["ok", str(len(rows)), str(len(names))], names + [[shown(row[name]) for name in fields] for row in rows]


def shown(value):
    return "null" if value is None else f'"{value}"' if isinstance(value, str) else str(value)


def script_of(seed):
    chance = random.Random(seed)
    array = Array(chance, dense=seed % 3 == 0)
    commands, lines = [array.create()], [["0.1", "create", "ok"]]
    ways = [array.write] * 5 + [array.read] * 4 + [array.delete] * (1 if array.dense else 3) + [array.evolve]
    if seed % 2:
        ways += [array.consolidate] * 2 + [array.vacuum] * 2
    if seed % 4 > 1:
        array.stopping = random.Random(f"stops of {seed}")
        ways += [array.unlock] * 2 + [array.listing]
    for number in range(2, COMMANDS + 2):
        said, end, *rows = chance.choice(ways)(number)
        commands.append(said)
        lines.append([f"0.{number}", said["cmd"], *end])
        lines += [row for several in rows for row in several]
    script = "".join(json.dumps(it, ensure_ascii=False, separators=(",", ":")) + "\n" for it in commands)
    return script.encode(), "".join("\t".join(line) + "\n" for line in lines).encode()


def cases():
    for seed in range(SCRIPTS):
        script, out = script_of(seed)
        yield f"seed {seed}", script, out, 0
