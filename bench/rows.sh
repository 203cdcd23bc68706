#!/bin/sh
# bench/rows.sh: a sheet by relay and the way back, by the proved library (target/staticlib, or the folder EXPORTS_DIR) beside the same in C
# compiled with -O2, bit by bit and by exchanging half blocks. Prints a Markdown table.
set -e
cd "$(dirname "$0")/.."
. tests/build.sh
need_cc

folder=${EXPORTS_DIR:-target/staticlib}
if [ -z "${EXPORTS_DIR:-}" ] && command -v rt >/dev/null; then
    build_library
fi
mkdir -p target/bench
cc -std=c11 -O2 -Wall -Wextra -Werror -Iinclude bench/rows.c -L"$folder" -lexports -o target/bench/rows
exec target/bench/rows
