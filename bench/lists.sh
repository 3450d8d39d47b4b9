#!/usr/bin/env bash
# Measures a dataset in three orders beside the one as a sorted list: a load of 10^6 quads, its undo and its redo, a load of 100 more,
# a rollback of five such, and a load of a fiftieth as many with its undo. Each is run in a process of its own, in turn, three times.
# It prints the best seconds of each step, as the program measures them, and the most memory, and ends with status 1 where
# the two tell other counts of quads.
# Usage: bench/lists.sh PROGRAM [COUNT], where PROGRAM is the built program of crates/dataset_model (apt-get install time).
set -euo pipefail
program=$(realpath "$1")
count=${2:-1000000}
work=$(mktemp -d)
trap 'rm -rf "$work"' EXIT

for round in 1 2 3; do
    for kind in orders plain; do
        /usr/bin/time -f '%M' -o "$work/$kind.$round.peak" "$program" measure "$kind" "$count" > "$work/$kind.$round"
    done
done
printf 'input: %s quads\n' "$count"

python3 - "$work" <<'PY'
import pathlib
import re
import sys

work, kinds, rounds = pathlib.Path(sys.argv[1]), ("orders", "plain"), (1, 2, 3)
told = {(kind, round): re.findall(r"(.+): (\S+) s, (\d+) quads\n", (work / f"{kind}.{round}").read_text()) for kind in kinds for round in rounds}
counts = {it: [(step, quads) for step, _, quads in lines] for it, lines in told.items()}
if len(counts["orders", 1]) != 7 or any(it != counts["orders", 1] for it in counts.values()):
    raise SystemExit("the two tell other counts of quads: %s" % counts)
print("%-20s %10s %10s %10s %15s" % ("", "quads", "orders s", "plain s", "plain / orders"))
for place, (step, quads) in enumerate(counts["orders", 1]):
    orders, plain = (min(float(told[kind, round][place][1]) for round in rounds) for kind in kinds)
    print("%-20s %10s %10.6f %10.6f %15.2f" % (step, quads, orders, plain, plain / max(orders, 1e-6)))
orders, plain = (min(int((work / f"{kind}.{round}.peak").read_text()) for round in rounds) * 1024 / 1e6 for kind in kinds)
print("%-20s %10s %10.1f %10.1f %15.2f" % ("peak MB", "", orders, plain, plain / orders))
PY
