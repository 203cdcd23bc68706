#!/bin/sh
# tests/stacks.sh [--all]: whether the header tells enough stack for each function: first against what host/stack.py works out from the proved library's
# machine code, then against what calls take on painted stacks (tests/stacks.c): over the samples, the quick plans of bench/hard and 1,000 drawn plans; with
# --all over bench/ but for hidfun_5_5, which takes minutes a call, and 20,000 drawn ones. The last line is 'N passed, M failed'.
#
# The library is taken from the folder EXPORTS_DIR (default target/staticlib).
set -e
cd "$(dirname "$0")/.."
. tests/build.sh
need_cc
need_python
need_rustc

archive=${EXPORTS_DIR:-target/staticlib}/libexports.a work=target/tests
mkdir -p "$work"
if [ -z "${EXPORTS_DIR:-}" ] && command -v rt >/dev/null; then
    build_library
fi
host/stack.py "$archive"
host/stack.py --table "$archive" >"$work/stacks.table"

if [ "${1:-}" = --all ]; then
    drawn=20000
    set -- bench/plans/*.plan bench/tables/*.plan --once
    for plan in bench/hard/*.plan; do
        [ "$plan" = bench/hard/hidfun_5_5.plan ] || set -- "$@" "$plan"
    done
else
    drawn=1000
    set -- --once bench/hard/guardtseitin_15_4_11.plan bench/hard/hidrand_4_4_11.plan bench/hard/sathid_4_3_4_11.plan bench/hard/sathid_8_3_4_11.plan
fi
rm -rf "$work/drawn"
rustc --edition 2021 -C opt-level=0 tests/draw.rs -o "$work/draw"
"$work/draw" "$work/drawn" "$drawn" 1
cc -std=c11 -O2 -Wall -Wextra -Werror -pthread -Iinclude tests/stacks.c "$archive" -o "$work/stacks"
exec "$work/stacks" "$work/stacks.table" "$work/drawn" plans/*.plan "$@"
