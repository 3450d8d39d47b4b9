#!/usr/bin/env bash
# Renames a class in 10^5 quads, that of every fiftieth subject, by DELETE and INSERT under a pattern, takes it back and
# makes it again, with rdfkeep and with rdflib, in one go, and prints what each takes: of rdfkeep the mean of forty in one
# session over a pipe, of rdflib, where COUNT is at most 10^5, the best of five. rdflib takes back by the rollback of its
# AuditableStore, and makes the update again, since it has no redo.
# Usage: bench/modify.sh [RDFKEEP [COUNT [SEED]]], where RDFKEEP is the built program and COUNT the number of quads
# (apt-get install python3-rdflib).
set -euo pipefail
here=$(cd "$(dirname "$0")" && pwd)
rdfkeep=$(realpath "${1:-$here/../rdfkeep}")
count=${2:-100000}
seed=${3:-1}
for python in python3 /usr/bin/python3; do
    "$python" -c 'import rdflib' 2> /dev/null && break
done
work=$(mktemp -d)
trap 'rm -rf "$work"' EXIT

python3 "$here/modify_catalogue.py" "$work" "$count" "$seed"
printf 'input: %s quads, of which %s are renamed, seed %s\n' "$count" "$(cat "$work/renamed")" "$seed"

python3 - "$work" "$rdfkeep" <<'PY'
import subprocess
import sys
import time

work, rdfkeep = sys.argv[1:]
renamed = int(open(f"{work}/renamed").read())
session = subprocess.Popen([rdfkeep, "run", "--data", f"{work}/data"], stdin=subprocess.PIPE, stdout=subprocess.PIPE)


def seconds(command, answer):
    """The time from a command's first byte to its answer."""
    begun = time.perf_counter()
    session.stdin.write(command)
    session.stdin.flush()
    said = session.stdout.readline().decode()
    if said != answer + "\n":
        raise SystemExit(f"rdfkeep: {said!r}")
    return time.perf_counter() - begun


seconds(b"%changes\n", "ok 0")
rename = b"%update\n" + open(f"{work}/rename", "rb").read() + b"%end\n"
answer = f"ok +{renamed} -{renamed}"
rounds = [[seconds(it, answer) for it in (rename, b"%undo\n", b"%redo\n", b"%undo\n")] for _ in range(40)]
with open(f"{work}/rdfkeep", "w") as out:
    print(*(sum(times) / len(times) for times in list(zip(*rounds))[:3]), file=out)
PY

if [ "$count" -le 100000 ]; then "$python" "$here/modify_rdflib.py" "$work" > "$work/rdflib"; fi

python3 - "$work" <<'PY'
import pathlib
import sys

work = pathlib.Path(sys.argv[1])
renamed = int((work / "renamed").read_text())
ours = [float(it) for it in (work / "rdfkeep").read_text().split()]
names = ("update", "undo", "redo")
if not (work / "rdflib").is_file():
    print("%-16s %10s" % ("", "rdfkeep s"))
    for row in zip(names, ours):
        print("%-16s %10.5f" % row)
    sys.exit()
update, kept, rollback, again, *counts = (float(it) for it in (work / "rdflib").read_text().split())
if counts != [renamed, 0, renamed, 0]:
    raise SystemExit(f"rdflib: the class has {counts} subjects")
print("%-16s %10s %10s %18s" % ("", "rdfkeep s", "rdflib s", "rdflib / rdfkeep"))
for name, our, their in zip(names, ours, (update, rollback, again)):
    print("%-16s %10.5f %10.5f %18.1f" % (name, our, their, their / max(our, 0.00001)))
print("%-16s %10s %10.5f   (the update that is to be rolled back)" % ("", "", kept))
PY
