#!/bin/sh
# bench/run.sh [SETTLE] [OUTPUT] [FOLDER..]: settle beside `clingo -n 257` on the same plans.
#
# SETTLE is the program (default: the environment's SETTLE, then target/bin/settle), OUTPUT the
# Markdown table (default target/bench/results.md), and the folders hold NAME.plan and NAME.lp
# (default: bench/plans, bench/tables, bench/hard and the families that bench/families.py writes). The environment's
# BEFORE may name another settle, whose runs alternate with the others.
set -e
cd "$(dirname "$0")/.."
. tests/build.sh
need_rustc
need_clingo

command -v valgrind >/dev/null || echo "valgrind is missing: nodes are not counted" >&2

settle=${1:-${SETTLE:-target/bin/settle}}
output=${2:-target/bench/results.md}
if [ ! -x "$settle" ]; then
    echo "$settle is missing: build the program settle first, or name it" >&2
    exit 2
fi
[ $# -gt 2 ] && shift 2 || {
    python3 bench/families.py target/bench/families
    set -- bench/plans bench/tables bench/hard target/bench/families
}

build_program bench/measure.rs target/bench/measure
mkdir -p "$(dirname "$output")"
export SETTLE="$settle"
target/bench/measure "$settle" "$(command -v clingo)" bench/nodes.py "$output" "$@"
