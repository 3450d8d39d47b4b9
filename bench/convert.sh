#!/usr/bin/env bash
# Converts seeded catalogues with rdfkeep, serdi and rapper, in one go, and prints what each takes: the best of three rounds.
# Usage: bench/convert.sh nquads|ntriples|turtle|all [RDFKEEP [COUNT [SEED]]], where RDFKEEP is the built program and COUNT the
# number of lines or triples of each catalogue (apt-get install serdi raptor2-utils time).
set -euo pipefail
asked=${1:?usage: bench/convert.sh nquads|ntriples|turtle|all [RDFKEEP [COUNT [SEED]]]}
here=$(cd "$(dirname "$0")" && pwd)
rdfkeep=${2:-$here/../rdfkeep}
count=${3:-1000000}
seed=${4:-1}
case $asked in
    nquads | ntriples | turtle) formats=("$asked") ;;
    all) formats=(nquads ntriples turtle) ;;
    *) echo "convert.sh: no such format: $asked" >&2; exit 2 ;;
esac
work=$(mktemp -d)
trap 'rm -rf "$work"' EXIT

# the catalogue of a format
catalogue() {
    case $1 in
        nquads) python3 "$here/catalogue.py" "$count" "$seed" ;;
        ntriples) python3 "$here/catalogue.py" "$count" "$seed" triples ;;
        turtle) python3 "$here/turtle_catalogue.py" "$count" "$seed" ;;
    esac
}

# the command's output goes to a file, what it takes to another: seconds of user and system time and by the clock, kibibytes
measure() {
    local name=$1
    shift
    /usr/bin/time -f '%U %S %e %M' -o "$work/$name.time" "$@" > "$work/$name.out" 2> "$work/$name.err" || {
        printf '%s failed: %s\n' "$name" "$(head -1 "$work/$name.err")"
    }
}

# the table of a format
compare() {
    python3 - "$work" <<'PY'
import sys

work = sys.argv[1]
best = {}
print("%-8s %11s %8s %10s %10s" % ("", "processor s", "wall s", "peak MB", "lines out"))
for name in ("rdfkeep", "serdi", "rapper"):
    runs = []
    for number in (1, 2, 3):
        last = open(f"{work}/{name}.{number}.time").read().strip().splitlines()[-1]
        user, system, wall, peak = (float(x) for x in last.split())
        runs.append((user + system, wall, peak))
    processor, wall, peak = min(runs, key=lambda run: run[1])
    with open(f"{work}/{name}.1.out", "rb") as out:
        count = sum(1 for _ in out)
    best[name] = (processor, wall)
    print("%-8s %11.2f %8.2f %10.1f %10d" % (name, processor, wall, peak * 1024 / 1e6, count))
for other in ("serdi", "rapper"):
    print("rdfkeep / %-6s processor %.2f, wall %.2f" % (other, best["rdfkeep"][0] / max(best[other][0], 0.01), best["rdfkeep"][1] / max(best[other][1], 0.01)))
PY
}

for format in "${formats[@]}"; do
    input=$work/input
    catalogue "$format" > "$input"
    printf '%s: %s statements, %s MB, seed %s\n' "$format" "$count" "$(($(stat -c %s "$input") / 1000000))" "$seed"
    written=ntriples
    if [ "$format" = nquads ]; then written=nquads; fi
    for round in 1 2 3; do
        measure "rdfkeep.$round" "$rdfkeep" convert --from "$format" "$input"
        measure "serdi.$round" serdi -i "$format" -o nquads "$input"
        measure "rapper.$round" rapper -q -i "$format" -o "$written" "$input"
    done
    compare
done
