#!/bin/bash
# tools/lucarne/tests/run.sh [--install] [--update]: builds the tool and tries it: sessions with their output and exit status, drawn groups, sheets
# beside clingo's lists, sample plans, full outputs, pages in a browser, and wrong tools, which must fail. The last line is 'N passed, 0 failed,
# M skipped'.
#
# What asks for gringo, clingo or chromium is skipped with a word where they are not installed; --install gets them from Debian's packages first.
# --update writes what the sessions print now as what is expected. The proved library is taken from EXPORTS_DIR, as build.sh does.
cd "$(dirname "$0")/../../.." || exit 2
. tests/build.sh
here=tools/lucarne/tests work=target/lucarne-tests update=
for option in "$@"; do
    case $option in
    --install) need_clingo && need_chromium ;;
    --update) update=1 ;;
    *) echo "unknown option: $option" >&2 && exit 2 ;;
    esac
done
. "$here/parts.sh"

tools/lucarne/build.sh "$work/lucarne" || exit 2
"$here/can_fail.sh" >"$work/can_fail.log" 2>&1 & # at the same time as the others
faulty=$!
build_tests "$work" || exit 2
try_all "$work" "$update"
wait "$faulty"
result $? "wrong tools that are not noticed"
cat "$work/can_fail.log"

tell_skipped
echo "$passed passed, $failed failed, $skipped skipped"
[ "$failed" = 0 ]
