#!/bin/sh
# tests/settle.sh [SETTLE]: runs the built program (default target/bin/settle) on every sample plan and compares with its sheet: as a file, with
# its bytes arriving one by one, and with bytes behind END far beyond those that settle keeps. An output that takes nothing is said on
# standard error. The plans of plans/reading are held against their maker. The last line is 'N passed, 0 failed'.
cd "$(dirname "$0")/.." || exit 2
. tests/build.sh
need_python
settle=${1:-target/bin/settle}
passed=0 failed=0

# result NAME STATUS: counts one comparison.
result() {
    if [ "$2" = 0 ]; then
        passed=$((passed + 1))
    else
        failed=$((failed + 1))
        echo "differs: $1"
    fi
}

for plan in plans/*.plan; do
    name=$(basename "$plan" .plan)
    "$settle" <"$plan" | cmp -s - "plans/$name.sheet"
    result "$name" $?
    dd if="$plan" bs=1 2>/dev/null | "$settle" | cmp -s - "plans/$name.sheet"
    result "$name, byte by byte" $?
    (head -c 1 "$plan" && sleep 0.02 && tail -c +2 "$plan") | "$settle" | cmp -s - "plans/$name.sheet"
    result "$name, in two parts" $?
done

# A plan that reads is refused by 9 at its length, however much stands behind it.
for extra in 1 4000 4096 9000 300000; do
    length=$(($(wc -c <plans/plan-p.plan)))
    (cat plans/plan-p.plan && head -c "$extra" /dev/zero) | "$settle" | grep -qx "refused 9 at $length"
    result "plan-p with $extra bytes behind it" $?
done

# The stored plans of plans/reading are what their maker makes, no fewer and no more.
made=$(mktemp -d)
python3 plans/reading/make.py "$made" && diff -r --exclude=PLANS.md --exclude=make.py plans/reading "$made"
result "plans/reading beside what make.py makes" $?
rm -rf "$made"

"$settle" <plans/plan-p.plan 2>&1 >/dev/full | grep -qx 'the sheet was not written in full'
result "an output that is full" $?

echo "$passed passed, $failed failed"
[ "$failed" = 0 ]
