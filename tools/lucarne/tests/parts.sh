# The parts of the tests; read by run.sh and can_fail.sh, from the repository's root. Each counts in passed, failed and skipped.
passed=0 failed=0 skipped=0 skips=()
export CARGO_TARGET_DIR=${CARGO_TARGET_DIR:-$PWD/target/lucarne-tests/cargo} LUCARNE_PROFILE=dev

# result STATUS WHAT: counts one comparison.
result() {
    if [ "$1" = 0 ]; then
        passed=$((passed + 1))
    else
        failed=$((failed + 1))
        echo "FAILED: $2"
    fi
}

# is_there PROGRAM WHAT: whether a program is installed; otherwise what asks for it is skipped.
is_there() {
    command -v "$1" >/dev/null && return
    skip "skipped, since $1 is not installed: $2"
    return 1
}

# skip LINE: counts what is skipped, and keeps it for the last lines.
skip() {
    skipped=$((skipped + 1)) skips+=("$1")
}

# tell_skipped: all that was skipped.
tell_skipped() {
    [ "$skipped" = 0 ] || printf '%s\n' "${skips[@]}"
}

# build_test FOLDER NAME: a test over the tool's library in this folder, static as that is.
build_test() {
    rustc --edition 2021 -C opt-level=0 -C target-feature=+crt-static "tools/lucarne/tests/$2.rs" -o "$1/test-$2" \
        --extern "lucarne=$1/liblucarne.rlib" -L "dependency=$CARGO_TARGET_DIR/debug/deps"
}

# build_tests FOLDER: the drawn tests.
build_tests() {
    local name
    need_rustc
    for name in audit files layout mangled sheets; do
        build_test "$1" "$name" || return 1
    done
}

# try_pages FOLDER: pages and pictures, by their text and in a browser; the group that the page's samples tell of.
try_pages() {
    build_test "$1" page || return
    try_drawn page "$1" text
    if is_there chromium "pages in a browser"; then
        try_drawn page "$1" browser chromium "$1"
    fi
    try_group "$1" plans/story
}

# play SESSION: runs the commands of a session, lines that start with "$ ", and writes them with what they print and their exit status.
play() {
    local line status
    while IFS= read -r line; do
        case $line in
        '#'*) printf '%s\n' "$line" ;;
        '$ '*)
            printf '%s\n' "$line"
            (eval "${line#??}") 2>&1
            status=$?
            printf '[status %s]\n' "$status"
            ;;
        esac
    done <"$1"
}

# try_sessions FOLDER UPDATE: each session must print what it holds. One that needs a program says so in its first line. Where first_failure is set, one
# that does not is enough.
try_sessions() {
    local session name need
    lucarne() { "$tool" "$@"; }
    tool=$PWD/$1/lucarne
    mkdir -p target/session
    for session in tools/lucarne/tests/sessions/*.txt; do
        name=$(basename "$session" .txt)
        need=$(sed -n '1s/^# needs //p' "$session")
        [ -z "$need" ] || is_there "$need" "session $name" || continue
        play "$session" >"$1/session-$name.txt"
        find target/session -type l -delete # rt takes no links in the checkout
        [ -z "$2" ] || cp "$1/session-$name.txt" "$session"
        diff "$session" "$1/session-$name.txt" >"$1/session-$name.diff"
        result $? "session $name: $(head -n 6 "$1/session-$name.diff")"
        if [ -n "${first_failure:-}" ] && [ "$failed" != 0 ]; then return; fi
    done
}

# try_drawn NAME FOLDER OPERANDS..: a drawn test; its comparisons count, and what it skips with a word.
try_drawn() {
    local output line
    if output=$("$2/test-$1" "${@:3}" 2>&1); then
        grep '^note: ' <<<"$output"
    else
        printf '%s\n' "$output"
    fi
    while IFS= read -r line; do
        skip "$line"
    done < <(grep '^skipped, ' <<<"$output")
    count_last "$output" "$1"
}

# count_last OUTPUT NAME: adds up 'N passed, M failed' of an output's last line.
count_last() {
    local last=${1##*$'\n'}
    if [[ $last =~ ^([0-9]+)\ passed,\ ([0-9]+)\ failed$ ]]; then
        passed=$((passed + BASH_REMATCH[1])) failed=$((failed + BASH_REMATCH[2]))
    else
        result 1 "$2 did not end well: $last"
    fi
}

# try_samples FOLDER: each sample plan by its bytes gives the sheet that stands beside it, and a plan of text is the bytes; each sample group
# compiled and listed again is the same list, and the sheet is that of the compiled plan.
try_samples() {
    local plan name group tool=$1/lucarne
    build_program tests/plan_text.rs "$1/plan_text" || return
    for plan in plans/*.plan; do
        name=${plan%.plan}
        "$1/plan_text" to-bytes <"$name.txt" >"$1/sample.plan" && cmp -s "$1/sample.plan" "$plan"
        result $? "$name.txt is not $plan"
        if grep -q '^refused' "$name.sheet"; then
            "$tool" list "$1/sample.plan" --as sheet 2>&1 | grep -q "($(cat "$name.sheet"))"
        else
            "$tool" list "$1/sample.plan" --as sheet 2>/dev/null | cmp -s - "$name.sheet"
        fi
        result $? "$plan does not give its sheet"
    done
    for group in plans/north plans/yard plans/found/*.lp tools/lucarne/tests/groups/*; do
        needs_gringo "$group" && { is_there gringo "sample $group" || continue; }
        try_group "$1" "$group"
    done
}

# try_group FOLDER GROUP: text to bytes and back to names; the sheet by the built program settle, where it is built.
try_group() {
    local tool=$1/lucarne
    "$tool" compile "$2" -q -o "$1/group.plan" && "$tool" list "$1/group.plan" >"$1/group.one" && "$tool" list "$2" -q >"$1/group.two" &&
        sed -i 's/ (not proved: .*//' "$1/group.two" && # what is said of sheets alone
        cmp -s "$1/group.one" "$1/group.two"
    result $? "$2 compiled is another list"
    "$tool" list "$2" -q --as sheet >"$1/group.sheet"
    if [ -x target/bin/settle ]; then
        target/bin/settle <"$1/group.plan" | cmp -s - "$1/group.sheet"
        result $? "$2: the sheet is not settle's"
    fi
    rm -f "$1/group.plan" "$1/group.names"
}

# needs_gringo GROUP: whether its sheets have variables.
needs_gringo() {
    grep -q '[A-Z][a-z0-9]*)\|\.\.' "$1" -r --include='*.lp'
}

# try_audits FOLDER COUNT: lists from elsewhere, of every sample group that can be read here.
try_audits() {
    local group groups=()
    for group in plans/north plans/story plans/yard plans/found/*.lp tools/lucarne/tests/groups/*; do
        ! needs_gringo "$group" || command -v gringo >/dev/null || continue
        groups+=("$group")
    done
    try_drawn audit "$1" "$2" 1 "${groups[@]}"
}

# try_all FOLDER UPDATE: all parts.
try_all() {
    try_sessions "$1" "$2"
    try_drawn files "$1" "$1/files"
    try_drawn layout "$1" 2000 1
    try_drawn mangled "$1" "$1" 3000 1
    if is_there clingo "drawn sheets beside clingo's lists" && is_there gringo "both readers"; then
        try_drawn sheets "$1" 500 1
    fi
    try_audits "$1" 3000
    try_samples "$1"
    try_pages "$1"
}
