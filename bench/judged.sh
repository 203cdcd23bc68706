#!/bin/sh
# bench/judged.sh [FOLDER..]: a sheet of 256 positions judged by the proved library (target/staticlib, or the folder EXPORTS_DIR), beside 256 calls that judge
# one position each, and beside one process of clingo that checks the same 256. Prints a Markdown table of the plans that have a position.
#
# The folders hold NAME.plan and NAME.lp, as for bench/run.sh; by default bench/plans and bench/tables.
set -e
cd "$(dirname "$0")/.."
. tests/build.sh
need_cc
need_clingo

folder=${EXPORTS_DIR:-target/staticlib}
if [ -z "${EXPORTS_DIR:-}" ] && command -v rt >/dev/null; then
    build_library >&2
fi
[ $# -gt 0 ] || set -- bench/plans bench/tables
mkdir -p target/bench
cc -std=c11 -O2 -Wall -Wextra -Werror -Iinclude bench/judged.c -L"$folder" -lexports -o target/bench/judged
echo "| plan | positions | sheet ms | 256 calls ms | ratio | clingo ms | ratio | places clingo finds |"
echo "|---|---:|---:|---:|---:|---:|---:|---:|"
for plan in $(ls $(printf '%s/*.plan ' "$@")); do
    [ ! -e "${plan%.plan}.lp" ] || target/bench/judged "$(command -v clingo)" "${plan%.plan}.lp" "$plan"
done
