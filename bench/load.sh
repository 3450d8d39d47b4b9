#!/usr/bin/env bash
# Loads 10^6 quads in a session over a pipe, undoes and redoes that, loads 100 quads more, rolls back five such loads, and
# loads and rolls back a fiftieth as many, each command timed from its first byte to its answer. With a second program, as one
# built before a change, both in turn, in one go, with the ratios; with rdflib where COUNT is at most 10^5, whose rollback is its
# AuditableStore's.
# Usage: bench/load.sh [RDFKEEP [COUNT [OTHER]]], where RDFKEEP is the built program (apt-get install python3-rdflib).
set -euo pipefail
here=$(cd "$(dirname "$0")" && pwd)
rdfkeep=$(realpath "${1:-$here/../rdfkeep}")
count=${2:-1000000}
other=${3:+$(realpath "$3")}
for python in python3 /usr/bin/python3; do
    "$python" -c 'import rdflib' 2> /dev/null && break
done
work=$(mktemp -d)
trap 'rm -rf "$work"' EXIT

python3 "$here/catalogue.py" "$count" 1 > "$work/data"
python3 "$here/catalogue.py" "$((count / 50))" 2 > "$work/more"
printf 'input: %s quads, %s MB\n' "$count" "$(($(stat -c %s "$work/data") / 1000000))"
for round in 1 2 3; do
    python3 "$here/load_session.py" "$work" "$rdfkeep" > "$work/this.$round"
    if [ -n "$other" ]; then python3 "$here/load_session.py" "$work" "$other" > "$work/other.$round"; fi
done
if [ "$count" -le 100000 ]; then "$python" "$here/load_rdflib.py" "$work" > "$work/rdflib.1"; fi

python3 - "$work" <<'PY'
import glob
import sys

work = sys.argv[1]
columns = {}
for name in ("this", "other", "rdflib"):
    rounds = [dict(line.rsplit(" ", 1) for line in open(it)) for it in sorted(glob.glob(f"{work}/{name}.[0-9]"))]
    if rounds:
        columns[name] = {step: min(float(it[step]) for it in rounds) for step in rounds[0]}
print("%-32s" % "" + "".join("%12s" % name for name in columns) + "".join("%16s" % f"{name} / this" for name in columns if name != "this"))
for step, ours in columns["this"].items():
    row = "%-32s" % step + "".join("%12.4f" % it[step] if step in it else "%12s" % "" for it in columns.values())
    print(row + "".join("%16.2f" % (it[step] / max(ours, 1e-6)) if step in it else "%16s" % "" for name, it in columns.items() if name != "this"))
PY
