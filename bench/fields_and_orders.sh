#!/usr/bin/env bash
# Times the fields of objects and the orders of cells, in picoseconds for each call.
set -eu
cd "$(dirname "$0")/../crates/speed"
rt run >/dev/null </dev/null
for what in fields orders; do
    ./out/speed "$what"
done
