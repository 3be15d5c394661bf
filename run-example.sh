#!/bin/sh
# Runs asimrun on a drawing with its run sheet and prints the trace.
#
#   ./run-example.sh             examples/count.txt
#   ./run-example.sh FILE        FILE, for example examples/stack.txt
#
# The program is proved and built first if it has not been built yet.
set -eu
root=$(cd "$(dirname "$0")" && pwd)
drawing=${1:-$root/examples/count.txt}
program=$root/crates/asimrun/out/asimrun
if [ ! -r "$drawing" ]; then
    echo "run-example.sh: cannot read $drawing" >&2
    exit 2
fi
if [ ! -x "$program" ]; then
    (cd "$root/crates/asimrun" && rt run < "$root/examples/count.txt") >&2
fi
exec "$program" < "$drawing"
