#!/bin/sh
# bench/walks.sh [OUTPUT] [FOLDER..]: walks over all positions by the proved library (target/staticlib, or the folder EXPORTS_DIR), one position in a call
# and up to 256 in a call, beside `clingo -n 0` on the same plans, and the slowest single call beside `clingo -n 1`.
#
# OUTPUT is the Markdown table (default target/bench/walks.md), and the folders hold NAME.plan and NAME.lp, as for bench/run.sh.
set -e
cd "$(dirname "$0")/.."
. tests/build.sh
need_rustc
need_cc
need_clingo

folder=${EXPORTS_DIR:-target/staticlib}
if [ -z "${EXPORTS_DIR:-}" ] && command -v rt >/dev/null; then
    build_library
fi
output=${1:-target/bench/walks.md}
[ $# -gt 1 ] && shift || {
    python3 bench/families.py target/bench/families
    set -- bench/plans bench/tables target/bench/families
}

mkdir -p target/bench "$(dirname "$output")"
cc -std=c11 -O2 -Wall -Wextra -Werror -Iinclude bench/walk.c -L"$folder" -lexports -o target/bench/walk
build_program bench/walks.rs target/bench/walks
target/bench/walks target/bench/walk "$(command -v clingo)" "$output" "$@"
