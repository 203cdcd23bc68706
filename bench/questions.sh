#!/bin/sh
# bench/questions.sh: 64 questions over 256 and over a million words, by the proved library (target/staticlib, or the folder EXPORTS_DIR)
# beside the same loop in C compiled with -O2. Prints a Markdown table.
set -e
cd "$(dirname "$0")/.."
. tests/build.sh
need_cc

folder=${EXPORTS_DIR:-target/staticlib}
if [ -z "${EXPORTS_DIR:-}" ] && command -v rt >/dev/null; then
    build_library
fi
mkdir -p target/bench
cc -std=c11 -O2 -Wall -Wextra -Werror -Iinclude bench/questions.c -L"$folder" -lexports -o target/bench/questions
exec target/bench/questions
