#!/bin/bash
# Times asimrun on bench/panel44.txt beside the same drawing translated by hand to C, and compares what
# they write. Each is run several times, writing to /dev/null, and the shortest time is taken.
#
#   bench/run.sh [RUNS]        (5 runs if no count is given)
set -euo pipefail
cd "$(dirname "$0")/.."
runs=${1:-5}
program=crates/asimrun/out/asimrun
drawing=bench/panel44.txt

if [ ! -x "$program" ]; then
    echo "$program is missing: build it with ./run-example.sh" >&2
    exit 2
fi
work=$(mktemp -d)
trap 'rm -rf "$work"' EXIT
gcc -O3 -o "$work/panel44" bench/panel44.c

"$program" < "$drawing" > "$work/asimrun.out"
"$work/panel44" > "$work/c.out"
if cmp -s "$work/asimrun.out" "$work/c.out"; then
    echo "outputs: the same, $(wc -c < "$work/c.out") bytes"
else
    echo "outputs: they differ" >&2
    cmp "$work/asimrun.out" "$work/c.out" >&2 || true
    exit 1
fi

# shortest COMMAND..: the shortest time of several runs, in microseconds
shortest() {
    local best= start end i
    for ((i = 0; i < runs; i++)); do
        start=$(date +%s%N)
        "$@" < "$drawing" > /dev/null
        end=$(date +%s%N)
        if [ -z "$best" ] || [ $(((end - start) / 1000)) -lt "$best" ]; then
            best=$(((end - start) / 1000))
        fi
    done
    echo "$best"
}

ours=$(shortest "$program")
hand=$(shortest "$work/panel44")
awk -v a="$ours" -v c="$hand" 'BEGIN {
    printf "asimrun: %.3f s\nC by hand: %.3f s\nratio: %.2f\n", a / 1e6, c / 1e6, a / c
}'
