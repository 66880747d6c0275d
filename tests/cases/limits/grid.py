"""A dense array of a thousand by a thousand cells in space tiles of a hundred by a hundred, written at once, and two cells of it read."""
import json


def cases():
    dims = [{"name": name, "type": "int32", "domain": [0, 999], "extent": 100} for name in ("r", "c")]
    commands = (
        {"cmd": "create", "at": 0, "kind": "dense", "dims": dims, "attrs": [{"name": "v", "type": "int32"}]},
        {"cmd": "write", "at": 1, "cols": {"v": [1000 * r + c for r in range(1000) for c in range(1000)]}},
        {"cmd": "read", "at": 9, "box": {"r": [999, 999], "c": [998, 999]}, "fields": ["v"]},
    )
    script = b"".join(json.dumps(command, separators=(",", ":")).encode() + b"\n" for command in commands)
    out = b"0.1\tcreate\tok\n0.2\twrite\tok\t__1_1_00000000000000000000000000000002_1\n0.3\tread\tok\t2\t0\n999998\n999999\n"
    yield "a grid in a hundred tiles", script, out, 0
