#!/usr/bin/env bash
# Asks nine queries of 10^5 quads with rdfkeep, Apache Jena, rdflib and roqet, in one go, and prints the processor time that
# each takes, loading apart, and the most memory of each process. rdfkeep's times are means of twenty in one session, from the
# query's text to the last row, Jena's the best of many, warm, and of its two datasets in memory, rdflib's the best of three,
# roqet's one run less one that only loads. Each must find as many rows; roqet has no MINUS.
# Usage: bench/query.sh [RDFKEEP [COUNT [SEED]]], where RDFKEEP is the built program and COUNT the number of quads
# (apt-get install libapache-jena-java default-jdk-headless python3-rdflib rasqal-utils time).
set -euo pipefail
here=$(cd "$(dirname "$0")" && pwd)
rdfkeep=$(realpath "${1:-$here/../rdfkeep}")
count=${2:-100000}
seed=${3:-1}
for python in python3 /usr/bin/python3; do
    "$python" -c 'import rdflib' 2> /dev/null && break
done
work=$(mktemp -d)
trap 'rm -rf "$work"' EXIT
names=(star path optional filter union distinct groups minus unbound)

python3 "$here/query_catalogue.py" "$work" "$count" "$seed"
printf 'input: %s quads, seed %s\n' "$(wc -l < "$work/data")" "$seed"

python3 - "$work" "$rdfkeep" "${names[@]}" <<'PY'
import subprocess
import sys
import time

work, rdfkeep, *names = sys.argv[1:]
session = subprocess.Popen([rdfkeep, "run", "--data", f"{work}/data"], stdin=subprocess.PIPE, stdout=subprocess.PIPE)


def spent():
    """The processor seconds of the session so far, by the clock that Linux keeps for a process."""
    return time.clock_gettime(~session.pid << 3 | 2)


def ask(text):
    """The seconds that the answer to a query takes, and how many rows there are."""
    begun = spent()
    session.stdin.write(b"%query\n" + text + b"%end\n")
    session.stdin.flush()
    for line in session.stdout:
        if line.startswith(b"ok "):
            return spent() - begun, int(line[3:])
    raise SystemExit("rdfkeep gives no answer")


ask(b"ASK { }\n")
with open(f"{work}/rdfkeep", "w") as out:
    for name in names:
        text = open(f"{work}/{name}.rq", "rb").read()
        times, rows = zip(*(ask(text) for _ in range(20)))
        print(name, sum(times) / len(times), rows[0], file=out)
session.stdin.close()
session.wait()
PY
for name in "${names[@]}"; do printf '%%query\n%s\n%%end\n' "$(cat "$work/$name.rq")"; done > "$work/script"
/usr/bin/time -f %M -o "$work/rdfkeep.peak" "$rdfkeep" run --data "$work/data" "$work/script" > /dev/null
/usr/bin/time -f %M -o "$work/rdflib.peak" "$python" "$here/query_rdflib.py" "$work" "${names[@]}" > "$work/rdflib"
for kind in general transactional; do
    /usr/bin/time -f %M -o "$work/$kind.peak" "$here/jena.sh" "$work" "$kind" "$work" "${names[@]}" > "$work/$kind"
done

# roqet loads the data anew for each query
printf 'SELECT ?o { <a:none> <a:none> ?o }\n' > "$work/load.rq"
for name in load "${names[@]}"; do
    /usr/bin/time -f '%U %S %M' -o "$work/$name.time" timeout 120 roqet -q -i sparql -D "$work/data" -F ntriples -r csv "$work/$name.rq" > "$work/$name.csv" || true
    rows=$(($(wc -l < "$work/$name.csv") - 1))
    printf '%s %s %s\n' "$name" "$(tail -n 1 "$work/$name.time")" "$rows"
done > "$work/roqet"

python3 - "$work" "${names[@]}" <<'PY'
import sys

work, *names = sys.argv[1:]
read = lambda name: {line.split()[0]: [float(it) for it in line.split()[1:]] for line in open(f"{work}/{name}")}
ours, theirs, third = read("rdfkeep"), read("rdflib"), read("roqet")
jena = {name: min(found, read("transactional")[name]) for name, found in read("general").items()}
third = {name: (user + system, most, rows) for name, (user, system, most, rows) in third.items()}
load, peak = third["load"][0], max(it[1] for it in third.values())
columns = ("rdfkeep", "Jena", "rdflib", "roqet")
print("%-10s %6s" % ("", "rows"), *("%10s" % f"{it} s" for it in columns), *("%9s" % f"{it} /" for it in columns[1:]))
for name in names:
    found = [ours[name], jena[name], theirs[name], (max(third[name][0] - load, 0.001), third[name][2])]
    times, rows = [it[0] for it in found], [it[1] for it in found]
    note = "" if len(set(rows)) == 1 else "   rows: " + ", ".join("%s %d" % it for it in zip(columns, rows))
    print("%-10s %6d" % (name, rows[0]), *("%10.6f" % it for it in times), *("%9.2f" % (it / times[0]) for it in times[1:]), note)
peaks = [float(open(f"{work}/{name}.peak").read()) for name in ("rdfkeep", "general", "transactional", "rdflib")]
peaks = [it * 1024 / 1e6 for it in (peaks[0], min(peaks[1:3]), peaks[3], peak)]
print("%-10s %6s" % ("memory", ""), *("%10.1f" % it for it in peaks), "  (peak MB)")
PY
