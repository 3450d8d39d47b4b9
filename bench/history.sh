#!/usr/bin/env bash
# What changed, and the way back: over a load of 10^5 quads and 1,000 updates of one quad, over 20,000 and 100,000 updates of one
# quad, behind 40,000 marks, and what 100,000 small updates, loads of Turtle and queries take each. With a second program, as one built
# before a change, both in turn, in one go, with the ratios; COUNTS then says over how many updates of one quad both go. The
# rollback of rdflib's AuditableStore stands beside up to 20,000 updates of one quad, as many as it keeps in minutes.
# Usage: [COUNTS="20000 100000"] bench/history.sh [RDFKEEP [OTHER [SMALL]]], where RDFKEEP is the built program and SMALL the number
# of small requests (apt-get install python3-rdflib).
set -euo pipefail
here=$(cd "$(dirname "$0")" && pwd)
rdfkeep=$(realpath "${1:-$here/../rdfkeep}")
other=${2:+$(realpath "$2")}
small=${3:-100000}
counts=${COUNTS:-20000 100000}
for python in python3 /usr/bin/python3; do
    "$python" -c 'import rdflib' 2> /dev/null && break
done
work=$(mktemp -d)
trap 'rm -rf "$work"' EXIT

python3 "$here/catalogue.py" 100000 1 > "$work/data"
printf 'input: 100000 quads, %s MB\n' "$(($(stat -c %s "$work/data") / 1000000))"
for round in 1 2 3; do
    # shellcheck disable=SC2086
    python3 "$here/history_session.py" "$work" "$rdfkeep" "$small" $counts > "$work/this.$round"
    # shellcheck disable=SC2086
    if [ -n "$other" ]; then python3 "$here/history_session.py" "$work" "$other" "$small" $counts > "$work/other.$round"; fi
done
"$python" "$here/history_rdflib.py" "$work" 1000 20000 > "$work/rdflib.1"

python3 - "$work" <<'PY'
import glob
import sys

work = sys.argv[1]
columns = {}
for name in ("this", "other", "rdflib"):
    rounds = [dict(line.rsplit(" ", 1) for line in open(it)) for it in sorted(glob.glob(f"{work}/{name}.[0-9]"))]
    if rounds:
        columns[name] = {step: min(float(it[step]) for it in rounds) for step in rounds[0]}
steps = list(columns["this"]) + [step for step in columns["rdflib"] if step not in columns["this"]]
print("%-52s" % "" + "".join("%12s" % name for name in columns) + "".join("%16s" % f"{name} / this" for name in columns if name != "this"))
for step in steps:
    row = "%-52s" % step + "".join("%12.4f" % it[step] if step in it else "%12s" % "" for it in columns.values())
    ours = columns["this"].get(step)
    print(row + "".join("%16.2f" % (it[step] / max(ours, 1e-6)) if ours is not None and step in it else "%16s" % "" for name, it in columns.items() if name != "this"))
PY
