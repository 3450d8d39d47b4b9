#!/usr/bin/env bash
# Asks queries of many shapes of 10^5 quads, most in the default graph and some in 1,000 others, with rdfkeep, Apache Jena in memory and warm, and
# rdflib, in one go, and prints the processor time from each query's text to its last row, loading apart. rdfkeep's times are the best of many means over
# a fiftieth of a second in a session, Jena's the best of many and of its two datasets in memory, rdflib's the best of three. A query may take two minutes and
# rdfkeep 8 GB; what passes either is a dash. The memory of rdfkeep is what a query takes at the peak beside the session's own.
# Usage: bench/shapes.sh [RDFKEEP [COUNT [SEED [NAME..]]]], where RDFKEEP is the built program, COUNT the number of quads and each NAME a shape of
# shapes_catalogue.py, all if none is given (apt-get install libapache-jena-java default-jdk-headless python3-rdflib time).
set -euo pipefail
here=$(cd "$(dirname "$0")" && pwd)
rdfkeep=$(realpath "${1:-$here/../rdfkeep}")
count=${2:-100000}
seed=${3:-1}
for python in python3 /usr/bin/python3; do
    "$python" -c 'import rdflib' 2> /dev/null && break
done
work=$(mktemp -d)
trap 'rm -rf "$work"' EXIT

python3 "$here/shapes_catalogue.py" "$work" "$count" "$seed"
read -r -a names < "$work/names"
if [ $# -gt 3 ]; then names=("${@:4}"); fi
printf 'input: %s quads, seed %s\n' "$(wc -l < "$work/data")" "$seed"

/usr/bin/time -f %M -o "$work/rdfkeep.peak" python3 "$here/shapes_session.py" "$rdfkeep" "$work" "${names[@]}" > "$work/rdfkeep"
for kind in general transactional; do
    /usr/bin/time -f %M -o "$work/$kind.peak" "$here/jena.sh" "$work" "$kind" "$work" "${names[@]}" > "$work/$kind"
done
/usr/bin/time -f %M -o "$work/rdflib.peak" "$python" "$here/shapes_rdflib.py" "$work" "${names[@]}" > "$work/rdflib"

python3 - "$work" "${names[@]}" <<'PY'
import math
import sys

work, *names = sys.argv[1:]
number = lambda word: None if word == "-" else float(word)
read = lambda name: {line.split()[0]: [number(it) for it in line.split()[1:]] for line in open(f"{work}/{name}")}
ours, general, transactional, rdflib = (read(it) for it in ("rdfkeep", "general", "transactional", "rdflib"))
shown = lambda number, form: "-" if number is None else form % number
ratios = {"Jena": [], "rdflib": []}
print("%-16s %7s %10s %10s %10s %9s %9s %9s" % ("", "rows", "rdfkeep s", "Jena s", "rdflib s", "Jena /", "rdflib /", "MB"))
for name in names:
    our, rows, peak = ours[name]
    both = [it for it in (general[name], transactional[name]) if it[0] is not None]
    theirs = {"Jena": min(both) if both else (None, None), "rdflib": rdflib[name]}
    texts = [shown(rows, "%d"), shown(our, "%.6f"), *(shown(it[0], "%.6f") for it in theirs.values())]
    for other, (their, _) in theirs.items():
        texts.append("-" if None in (our, their) else "%.3g" % (their / our))
        if None not in (our, their):
            ratios[other].append(their / our)
    note = "".join("   %s: %d rows" % (other, it[1]) for other, it in theirs.items() if None not in (rows, it[1]) and it[1] != rows)
    print("%-16s %7s %10s %10s %10s %9s %9s %9s%s" % (name, *texts, shown(peak, "%.1f"), note))
means = ["%.2f" % math.exp(sum(map(math.log, it)) / len(it)) if it else "-" for it in ratios.values()]
print("%-16s %7s %10s %10s %10s %9s %9s   (geometric mean where both answer)" % ("", "", "", "", "", *means))
peaks = [float(open(f"{work}/{name}.peak").read().split()[-1]) * 1024 / 1e6 for name in ("general", "transactional", "rdflib")]
print("whole processes at the peak: Jena %.0f and %.0f MB, rdflib %.0f MB" % tuple(peaks))
PY
