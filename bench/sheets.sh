#!/bin/sh
# bench/sheets.sh [LUCARNE] [OUTPUT]: the tool (default target/lucarne/lucarne) on the sample groups beside clingo on the same sheets, whole processes.
#
# The Markdown table goes to OUTPUT (default target/bench/sheets.md).
set -e
cd "$(dirname "$0")/.."
. tests/build.sh
need_rustc
need_clingo

lucarne=${1:-target/lucarne/lucarne} output=${2:-target/bench/sheets.md}
if [ ! -x "$lucarne" ]; then
    echo "$lucarne is missing: build it first with: tools/lucarne/build.sh" >&2
    exit 2
fi
mkdir -p target/bench "$(dirname "$output")"
echo 'made :- f1, f2. made :- f1, f3. made :- f2, f3.' >target/bench/rows.lp # plans/north's contact table, which clingo reads as a comment
build_program bench/sheets.rs target/bench/sheets
target/bench/sheets "$lucarne" "$(command -v clingo)" target/bench/rows.lp plans/north plans/yard plans/found/clingo-default-adds-four.lp >"$output"
cat "$output"
