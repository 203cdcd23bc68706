#!/bin/sh
# tests/host.sh: builds the C program tests/host.c over include/lucarnecress.h, the proved library and the plain C beside it, and runs it. Every function
# that the library exports must stand in the header and be called by the program (tests/told.py). The last line is 'N passed, 0 failed'.
#
# The library is taken from the folder EXPORTS_DIR (default target/staticlib).
set -e
cd "$(dirname "$0")/.."
. tests/build.sh
need_cc

folder=${EXPORTS_DIR:-target/staticlib}
if [ -z "${EXPORTS_DIR:-}" ] && command -v rt >/dev/null; then
    build_library
fi
need_python
tests/told.py
mkdir -p target/tests
cc -std=c11 -Wall -Wextra -Werror -Iinclude tests/host.c host/lucarnecress.c -L"$folder" -lexports -o target/tests/host
exec target/tests/host
