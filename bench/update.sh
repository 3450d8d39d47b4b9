#!/usr/bin/env bash
# Changes 10^5 quads by INSERT DATA of as many others and by DELETE DATA of them all, and takes each change back, with
# rdfkeep and with rdflib, in one go, and prints what each takes. rdflib is given each change in requests of 500 quads,
# since one of 10^4 takes it minutes.
# Usage: bench/update.sh [RDFKEEP [COUNT [SEED]]], where RDFKEEP is the built program and COUNT the number of quads
# (apt-get install python3-rdflib).
set -euo pipefail
here=$(cd "$(dirname "$0")" && pwd)
rdfkeep=$(realpath "${1:-$here/../rdfkeep}")
count=${2:-100000}
seed=${3:-1}
for python in python3 /usr/bin/python3; do
    "$python" -c 'import rdflib' 2> /dev/null && break
done
work=$(mktemp -d)
trap 'rm -rf "$work"' EXIT

python3 "$here/update_catalogue.py" "$work" "$count" "$seed"
printf 'input: %s quads, changed by %s, seed %s\n' "$count" "$count" "$seed"
: > "$work/start.script"
for change in insert delete; do
    { echo %update; cat "$work/$change"; echo %end; } > "$work/$change.script"
    { cat "$work/$change.script"; echo %undo; } > "$work/$change-undo.script"
done

python3 - "$work" "$rdfkeep" "$count" <<'PY'
import subprocess
import sys
import time

work, rdfkeep, count = sys.argv[1:]
answers = {"start": "", "insert": f"ok +{count} -0\n", "delete": f"ok +0 -{count}\n"}
answers["insert-undo"] = answers["insert"] + answers["delete"]
answers["delete-undo"] = answers["delete"] + answers["insert"]


def seconds(script):
    """The best of five rounds."""
    rounds = []
    for _ in range(5):
        begun = time.perf_counter()
        said = subprocess.run([rdfkeep, "run", "--data", f"{work}/data", f"{work}/{script}.script"], capture_output=True, text=True)
        rounds.append(time.perf_counter() - begun)
        if said.stdout != answers[script]:
            raise SystemExit(f"rdfkeep, {script}: {said.stdout[:100]!r} {said.stderr[:100]!r}")
    return min(rounds)


took = {script: seconds(script) for script in answers}
with open(f"{work}/rdfkeep", "w") as out:
    for change in ("insert", "delete"):
        print(change, took[change] - took["start"], took[change + "-undo"] - took[change], file=out)
print("rdfkeep begins with the data in %.2f s, which the times below leave out" % took["start"])
PY

"$python" "$here/update_rdflib.py" "$work" > "$work/rdflib"

python3 - "$work" "$count" <<'PY'
import sys

work, count = sys.argv[1], int(sys.argv[2])
theirs = {line.split()[0]: [float(it) for it in line.split()[1:]] for line in open(f"{work}/rdflib")}
ours = {line.split()[0]: [float(it) for it in line.split()[1:]] for line in open(f"{work}/rdfkeep")}
print("%-16s %10s %10s %18s" % ("", "rdfkeep s", "rdflib s", "rdflib / rdfkeep"))
for change, between in (("insert", 2 * count), ("delete", 0)):
    update, audited, rollback, *quads = theirs[change]
    if quads != [count, between, count]:
        raise SystemExit(f"rdflib, {change}: it has {quads} quads")
    for name, our, their in ((change, ours[change][0], update), (change + ", undone", ours[change][1], rollback)):
        print("%-16s %10.3f %10.3f %18.1f" % (name, our, their, their / max(our, 0.001)))
    print("%-16s %10s %10.3f   (the update that is to be rolled back)" % ("", "", audited))
PY
