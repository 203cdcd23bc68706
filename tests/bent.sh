#!/bin/sh
# tests/bent.sh [-j JOBS] [NAME ..]: wrong programs that reach over several files or crates. Each patch of tests/bent bends a definition together with its
# code and, where a law only repeats the computation, the law. What stands below is still proved then; the crate that the patch's first line names says the
# same a second time, and must refuse it. Without names all are tried, each in a copy of the crates in a temporary folder. What a patch leaves as it is need
# not be proved again where this checkout has it proved. What was said of each stands in target/bent/NAME.log.
set -e
cd "$(dirname "$0")/.."
if [ "$1" = --one ]; then
    patch=$2
    name=$(basename "$patch" .patch)
    crate=$(sed -n '1s/^Refused by: //p' "$patch")
    log=$PWD/target/bent/$name.log
    copy=$(mktemp -d)
    trap 'rm -rf "$copy"' EXIT
    mkdir -p target/bent
    git init -q "$copy" # rt looks for the top of a repository
    tar -c --no-wildcards-match-slash --exclude='crates/*/out' crates.txt crates | tar -x -C "$copy"
    if ! patch -s -f -E -p1 -d "$copy" <"$patch" >"$log" 2>&1; then
        echo "$patch: does not fit the sources; see $log" >&2
        exit 1
    fi
    if (cd "$copy/crates/$crate" && ${RT:-rt} check) >"$log" 2>&1; then
        echo "$patch: proved, and it must not be" >&2
        exit 1
    fi
    # Where a crate below is refused, or one cannot be read, rt says that no library was built.
    if grep -q '^rt: .*library.* did not build\|^rt: mend these first' "$log" || ! grep -q '^logic=not-proved' "$log"; then
        echo "$patch: refused by another crate than $crate, or not tried; see $log" >&2
        exit 1
    fi
    echo "$patch: refused by $crate"
    exit
fi
jobs=1
if [ "$1" = -j ]; then
    jobs=$2
    shift 2
fi
if [ $# -eq 0 ]; then
    set -- tests/bent/*.patch
fi
for name; do
    echo "tests/bent/$(basename "$name" .patch).patch"
done | xargs -P "$jobs" -n 1 tests/bent.sh --one || {
    echo "not all are refused" >&2
    exit 1
}
echo "$# passed, 0 failed"
