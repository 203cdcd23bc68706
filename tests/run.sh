#!/bin/sh
# tests/run.sh [count] [seed]: builds the comparison with the proved library and runs it.
#
# The library is taken from the folder EXPORTS_DIR (default target/staticlib). With
# EXPORTS_DIR=stand-in the brute-force lister itself stands in for it.
set -e
cd "$(dirname "$0")/.."
. tests/build.sh
need_rustc

folder=${EXPORTS_DIR:-target/staticlib}
if [ "$folder" = stand-in ]; then
    folder=target/tests/stand_in
    build_stand_in tests/stand_in.rs "$folder/libexports.a" staticlib
    export LIBRARY_BY_FORCE=1 # a sample that is too large for the lister is not asked of it
fi
if [ -z "${EXPORTS_DIR:-}" ] && command -v rt >/dev/null; then
    build_library
fi
if [ ! -e "$folder/libexports.a" ]; then
    echo "$folder/libexports.a is missing: build it first with: tests/programs.sh library" >&2
    exit 2
fi

build_compare "$folder" target/tests/compare static
exec target/tests/compare "$@"
