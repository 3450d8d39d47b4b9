#!/usr/bin/env bash
# Runs a session of many small commands, a load and its undo in turn, from a file and over a pipe, and prints what each takes. With a
# second program, as one built before a change, it runs both in turn, in one go, and prints the ratios. Then it runs sessions of loads
# and deletions of one quad with and without a depth of 100, over a tenth and over all of so many, of 100 quads again and again and of
# quads that are always new.
# Usage: bench/session.sh [RDFKEEP [OTHER [COUNT]]], where COUNT is the number of loads, each with its undo (apt-get install time).
set -euo pipefail
here=$(cd "$(dirname "$0")" && pwd)
rdfkeep=$(realpath "${1:-$here/../rdfkeep}")
other=${2:+$(realpath "$2")}
count=${3:-100000}
work=$(mktemp -d)
trap 'rm -rf "$work"' EXIT

python3 - "$work" "$count" <<'PY'
import sys

work, count = sys.argv[1], int(sys.argv[2])
with open(f"{work}/script", "w") as script, open(f"{work}/answers", "w") as answers:
    for number in range(count):
        script.write(f"%load nquads\n<http://e/s{number}> <http://e/p> \"{number}\" .\n%end\n%undo\n")
        answers.write("ok +1 -0\nok +0 -1\n")
PY
printf 'input: %s loads and undos, %s MB\n' "$count" "$(($(stat -c %s "$work/script") / 1000000))"

# the answers go to a file, what a run takes to another: user seconds, wall seconds, kibibytes
measure() {
    local name=$1 program=$2
    /usr/bin/time -f '%U %e %M' -o "$work/$name.file" "$program" run "$work/script" > "$work/out"
    cmp "$work/out" "$work/answers"
    /usr/bin/time -f '%U %e %M' -o "$work/$name.pipe" "$program" run < <(cat "$work/script") > "$work/out"
    cmp "$work/out" "$work/answers"
}

# loads of one quad, each deleted: how many, and how many quads they are of
changes() {
    python3 - "$work/$1" "$2" "$3" <<'PY'
import sys

path, count, quads = sys.argv[1], int(sys.argv[2]), int(sys.argv[3])
with open(path, "w") as script:
    for number in range(count):
        quad = f'<http://e/s{number % quads}> <http://e/p> "{number % quads}" .'
        script.write(f"%load nquads\n{quad}\n%end\n%update\nDELETE DATA {{ {quad} }}\n%end\n")
PY
}

for round in 1 2 3; do
    measure "this.$round" "$rdfkeep"
    if [ -n "$other" ]; then measure "other.$round" "$other"; fi
done

python3 - "$work" "${other:+other}" <<'PY'
import sys

work, names = sys.argv[1], ["this"] + sys.argv[2].split()
best = {}
print("%-12s %8s %8s %10s" % ("", "user s", "wall s", "peak MB"))
for name in names:
    for way in ("file", "pipe"):
        runs = [tuple(float(x) for x in open(f"{work}/{name}.{number}.{way}").read().split()) for number in (1, 2, 3)]
        user, wall, peak = min(runs, key=lambda run: run[1])
        best[name, way] = (user, wall, peak)
        print("%-12s %8.2f %8.2f %10.1f" % (f"{name}, {way}", user, wall, peak * 1024 / 1e6))
if "other" in names:
    for way in ("file", "pipe"):
        ratios = [there / max(here, 0.01) for here, there in zip(best["this", way], best["other", way])]
        print("other / this, %s: user %.2f, wall %.2f, peak %.2f" % (way, *ratios))
PY

printf '\n%-34s %10s %10s %12s\n' 'loads and deletions of one quad' 'user s' 'wall s' 'peak MB'
for quads in 100 $((10 * count)); do
    for size in $((count / 10)) "$count"; do
        changes changes "$size" "$quads"
        for words in "" "--depth 100"; do
            # shellcheck disable=SC2086
            /usr/bin/time -f '%U %e %M' -o "$work/taken" "$rdfkeep" run $words "$work/changes" > "$work/out"
            read -r user wall peak < "$work/taken"
            name="$size of $([ "$quads" = 100 ] && echo 100 || echo all new)${words:+, $words}"
            printf '%-34s %10s %10s %12s\n' "$name" "$user" "$wall" "$(python3 -c "print('%.1f' % ($peak * 1024 / 1e6))")"
        done
    done
done
