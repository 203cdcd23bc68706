#!/bin/sh
# bench/blames.sh [OUTPUT] [FOLDER..]: the few constraints that empty a plan by the proved library (target/staticlib, or the folder EXPORTS_DIR) beside the same
# pass with clingo, one call a question, on the plans that have no position.
#
# OUTPUT is the Markdown table (default target/bench/blames.md), and the folders hold NAME.plan and NAME.lp, as for bench/run.sh.
set -e
cd "$(dirname "$0")/.."
. tests/build.sh
need_rustc
need_cc
need_clingo

folder=${EXPORTS_DIR:-target/staticlib}
if [ -z "${EXPORTS_DIR:-}" ] && command -v rt >/dev/null; then
    build_library
fi
output=${1:-target/bench/blames.md}
[ $# -gt 1 ] && shift || {
    python3 bench/families.py target/bench/families
    set -- bench/plans bench/tables target/bench/families
}

mkdir -p target/bench "$(dirname "$output")"
cc -std=c11 -O2 -Wall -Wextra -Werror -Iinclude bench/blame.c -L"$folder" -lexports -o target/bench/blame
build_program bench/blames.rs target/bench/blames
target/bench/blames target/bench/blame "$(command -v clingo)" "$output" "$@"
