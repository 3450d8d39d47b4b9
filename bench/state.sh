#!/usr/bin/env bash
# Saves a session of 10^6 quads as its state text and begins at it again, beside loading the same quads as N-Quads start data, and
# beside rdflib's parse and serialize of N-Quads where COUNT is at most 10^5. With a second program, as one built before a change,
# both in turn, in one go. What is restored has to be saved as the same bytes.
# Usage: bench/state.sh [RDFKEEP [COUNT [OTHER]]], where RDFKEEP is the built program (apt-get install python3-rdflib time).
set -euo pipefail
here=$(cd "$(dirname "$0")" && pwd)
rdfkeep=$(realpath "${1:-$here/../rdfkeep}")
count=${2:-1000000}
other=${3:+$(realpath "$3")}
for python in python3 /usr/bin/python3; do
    "$python" -c 'import rdflib' 2> /dev/null && break
done
work=$(mktemp -d)
trap 'rm -rf "$work"' EXIT

# save FILE FORMAT: the state text of what the file makes
save() {
    echo %state | "$rdfkeep" run --data "$1" --format "$2" | head -n -1
}

# measure NAME.ROUND PROGRAM: user seconds, wall seconds and kibibytes of a start that is loaded, of one that is restored, and of the first
# with its state saved
measure() {
    /usr/bin/time -f 'load %U %e %M' -a -o "$work/$1" "$2" run --data "$work/data" /dev/null
    /usr/bin/time -f 'restore %U %e %M' -a -o "$work/$1" "$2" run --data "$work/state" --format state /dev/null
    /usr/bin/time -f 'load+save %U %e %M' -a -o "$work/$1" "$2" run --data "$work/data" "$work/script" > "$work/saved"
}

python3 "$here/catalogue.py" "$count" 1 > "$work/data"
echo %state > "$work/script"
save "$work/data" nquads > "$work/state"
save "$work/state" state | cmp - "$work/state"
printf 'input: %s quads, %s MB of N-Quads\n' "$count" "$(($(stat -c %s "$work/data") / 1000000))"
for round in 1 2 3; do
    measure "this.$round" "$rdfkeep"
    if [ -n "$other" ]; then measure "other.$round" "$other"; fi
done
if [ "$count" -le 100000 ]; then "$python" "$here/state_rdflib.py" "$work" > "$work/rdflib.1"; fi

python3 - "$work" <<'PY'
import glob
import sys

work = sys.argv[1]
print("%-16s %-10s %8s %8s %9s" % ("", "", "user s", "wall s", "peak MB"))
for name in ("this", "other", "rdflib"):
    rounds = [{step: [*map(float, values)] for step, *values in map(str.split, open(it))} for it in sorted(glob.glob(f"{work}/{name}.[0-9]"))]
    if not rounds:
        continue
    best = {step: [min(it[step][place] for it in rounds) for place in range(3)] for step in rounds[0]}
    if "save" not in best:
        best["save"] = [a - b for a, b in zip(best["load+save"], best["load"])][:2] + [best["load+save"][2]]
    for step in ("load", "restore", "save"):
        if step in best:
            print("%-16s %-10s %8.3f %8.3f %9.1f" % (name, step, *best[step][:2], best[step][2] * 1024 / 1e6), end="")
            print("" if step == "load" else "   %.2f of a load" % (best[step][1] / best["load"][1]))
PY
