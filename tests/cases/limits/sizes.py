"""Scripts at the limits that docs/FORMATS.md states, and just past them: too large to be kept as files."""
import json

V = {"name": "v", "type": "int64"}
X = {"name": "x", "type": "int64", "domain": [0, 9], "extent": 10}
READ = {"cmd": "read", "at": 9}
BAD = 3


def create(dims=(X,), attrs=(V,)):
    return {"cmd": "create", "at": 0, "kind": "sparse", "dims": list(dims), "attrs": list(attrs)}


def script(*commands):
    return b"".join(json.dumps(command, separators=(",", ":")).encode() + b"\n" for command in commands)


def text(*lines):
    return b"".join("\t".join(map(str, line)).encode() + b"\n" for line in lines)


def fragment(at, number):
    return f"__{at}_{at}_{number:032x}_1"


def attributes():
    """An array has 64 attributes, from its create on and after each evolve."""
    many = [{"name": f"a{i}", "type": "uint8"} for i in range(1, 66)]
    write = {"cmd": "write", "at": 1, "cols": {"x": [5], **{f"a{i}": [i] for i in range(1, 65)}}}
    add = {"cmd": "evolve", "at": 2, "add": [{"name": "w", "type": "int8"}]}
    swap = {"cmd": "evolve", "at": 2, "drop": ["a64"], "add": [{"name": "a65", "type": "int8"}]}
    yield "64 attributes", script(create(attrs=many[:64]), write, READ, add, swap), text(
        ("0.1", "create", "ok"),
        ("0.2", "write", "ok", fragment(1, 2)),
        ("0.3", "read", "ok", 1, 0),
        (5, *range(1, 65)),
        ("0.4", "evolve", "refused", "TooManyAttrs", 65),
        ("0.5", "evolve", "ok", f"__2_2_{5:032x}"),
    ), 0
    yield "65 attributes", script(create(attrs=many)), text(("0.1", "create", "refused", "TooManyAttrs", 65)), 0


def dimensions():
    """An array has one to eight dimensions."""
    for count in range(1, 10):
        dims = [{"name": f"d{i}", "type": "int32", "domain": [0, 9], "extent": i} for i in range(1, count + 1)]
        columns = {"v": [10, 20], **{f"d{i}": [i, 0] for i in range(1, count + 1)}}
        if count == 9:
            yield "9 dimensions", script(create(dims)), text(("0.1", "create", "refused", "TooManyDims", 9)), 0
            continue
        yield f"{count} dimensions", script(create(dims), {"cmd": "write", "at": 1, "cols": columns}, READ), text(
            ("0.1", "create", "ok"),
            ("0.2", "write", "ok", fragment(1, 2)),
            ("0.3", "read", "ok", 2, 0),
            (*[0] * count, 20),
            (*range(1, count + 1), 10),
        ), 0


def conditions():
    """A condition has 32 open parentheses at a place, and 1,024 nodes and values."""
    for name, condition, end in (
        ("32 parentheses", "(" * 32 + "v = 1" + ")" * 32, ("ok", 0, 0)),
        ("33 parentheses", "(" * 33 + "v = 1" + ")" * 33, ("refused", "Condition", "TooDeep")),
        ("1023 values", "v in (" + ",".join("1" * 1023) + ")", ("ok", 0, 0)),
        ("1024 values", "v in (" + ",".join("1" * 1024) + ")", ("refused", "Condition", "TooLarge")),
    ):
        read = {"cmd": "read", "at": 9, "where": condition}
        yield name, script(create(), read), text(("0.1", "create", "ok"), ("0.2", "read", *end)), 0


def labels():
    """A label has 64 bytes."""
    longest = {"name": "a" * 64, "type": "int8"}
    longer = {"name": "a" * 65, "type": "int8"}
    yield "64 letters", script(create(attrs=[longest])), text(("0.1", "create", "ok")), 0
    yield "65 letters", script(create(attrs=[longer])), text(("bad script", 1)), BAD


def nesting():
    """JSON is read 127 levels deep, the line's own object among them. Of a key that comes twice the last value counts, so the lists are read and left."""
    done, bad = ("0.1", "read", "refused", "NoSchema", 9), ("bad script", 1)
    for depth, said, status in ((126, done, 0), (127, bad, BAD), (100_000, bad, BAD)):
        line = b'{"cmd":"read","at":' + b"[" * depth + b"]" * depth + b',"at":9}\n'
        yield f"{depth} lists", line, text(said), status


def commands():
    """A script has 4,096 commands; blank lines do not count as commands."""
    reads = script(READ).replace(b"\n", b"\n\n") * 4096
    ends = text(*((f"0.{number}", "read", "refused", "NoSchema", 9) for number in range(1, 4097)))
    yield "4096 commands", reads, ends, 0
    yield "4097 commands", reads + b'{"cmd":"vacuum"}', text(("bad script", 8193)), BAD
    lanes = script(*({**READ, "lane": number % 8} for number in range(4096)))
    ends = text(*((f"{lane}.{number}", "read", "refused", "NoSchema", 9) for lane in range(8) for number in range(1, 513)))
    yield "4096 commands in eight lanes", lanes, ends, 0
    yield "4097 commands in eight lanes", lanes + script(READ), text(("bad script", 4097)), BAD


def sizes():
    """A script has 64 MiB. The line that holds the first byte past them is bad; a line feed belongs to the line that it ends."""
    whole = b" " * ((1 << 26) - 1) + b"\n"
    yield "64 MiB", whole, b"", 0
    yield "a byte past 64 MiB", whole + b" ", text(("bad script", 2)), BAD
    yield "a line feed past 64 MiB", b" " * (1 << 26) + b"\n", text(("bad script", 1)), BAD


def fields():
    """A read may name a field many times, and has a value in its row for each."""
    write = {"cmd": "write", "at": 1, "cols": {"x": [5], "v": [7]}}
    read = {"cmd": "read", "at": 9, "fields": ["v"] * 70_000}
    yield "70000 fields", script(create(), write, read), text(
        ("0.1", "create", "ok"),
        ("0.2", "write", "ok", fragment(1, 2)),
        ("0.3", "read", "ok", 1, 0),
        [7] * 70_000,
    ), 0


def cells():
    """A write has 2^20 cells. A box that leaves the domain, and a cell twice, come first."""
    count = 2**20 + 1
    wide = {**X, "domain": [0, count - 1]}
    dense = {**create((wide,)), "kind": "dense"}
    for name, make, rest, cols, end in (
        ("dense cells too many", dense, {}, {"v": [1] * count}, ("TooMany", count)),
        ("dense cells too many and outside", dense, {"box": {"x": [-1, count - 1]}}, {"v": [1] * (count + 1)}, ("Domain", 0, -1)),
        ("sparse cells too many", create((wide,)), {}, {"x": list(range(count)), "v": [1] * count}, ("TooMany", count)),
        ("sparse cells too many and one twice", create((wide,)), {}, {"x": [*range(count), 5], "v": [1] * (count + 1)}, ("DuplicateCell", count)),
    ):
        write = {"cmd": "write", "at": 1, **rest, "cols": cols}
        yield name, script(make, write), text(("0.1", "create", "ok"), ("0.2", "write", "refused", *end)), 0


def cases():
    for several in (attributes, dimensions, conditions, labels, nesting, commands, sizes, fields, cells):
        yield from several()
