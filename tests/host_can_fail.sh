#!/bin/bash
# tests/host_can_fail.sh [part of a name]: shows that the tests of the host's library notice mistakes: in copies with one deliberate mistake each a check
# must fail. All of them, or those that are named so. The last line is 'N mistakes, M not noticed'.
#
# The proved library is taken from the folder EXPORTS_DIR (default target/staticlib).
cd "$(dirname "$0")/.." || exit 2
EXPORTS_DIR=$(realpath "${EXPORTS_DIR:-target/staticlib}")
export EXPORTS_DIR
named=${1:-} tried=0 unnoticed=0 room=$(mktemp -d)
trap 'rm -rf "$room"' EXIT

# A room of its own outside the checkout, where rt takes no links and no second crates: links to all files but those of .git and what is made.
for entry in * crates/*/*; do
    case $entry in
    target | crates | crates/*/out) ;;
    *) mkdir -p "$room/$(dirname "$entry")" && cp -rs "$PWD/$entry" "$room/$entry" ;;
    esac
done
cd "$room" || exit 2

# Checks. The painted one takes no plans but those that go deep.
told() { tests/told.py; }
frames() { host/stack.py "$EXPORTS_DIR/libexports.a"; }
painted() {
    mkdir -p target/none && host/stack.py --table "$EXPORTS_DIR/libexports.a" >target/table &&
        cc -std=c11 -O2 -pthread -Iinclude tests/stacks.c "$EXPORTS_DIR/libexports.a" -o target/stacks && target/stacks target/table target/none
}
called() { tests/host.sh; }
installed() { tests/installed.sh contents; }
by_pkg_config() { tests/installed.sh pkg_config; }
examples() { tests/installed.sh examples; }

# with_mistake CHECK NAME FILE RIGHT WRONG: a copy with WRONG in place of RIGHT in a file must fail in this check.
with_mistake() {
    local right wrong
    [[ $2 == *"$named"* ]] || return 0
    right=$(<"$3")
    wrong=${right/"$4"/"$5"}
    if [ "$wrong" = "$right" ]; then
        echo "$3 has no line for the mistake: $2" >&2
        exit 2
    fi
    cp --remove-destination "$(realpath "$3")" "$3.right"
    printf '%s\n' "$wrong" >"$3.wrong"
    chmod --reference="$3.right" "$3.wrong"
    mv "$3.wrong" "$3"
    tried=$((tried + 1))
    if "$1" >"$room/output" 2>&1; then
        echo "NOT NOTICED: $2"
        unnoticed=$((unnoticed + 1))
    else
        echo "noticed: $2 ($(grep -m 1 -i 'differs\|failed:\|too much\|_STACK\|stack.py:' "$room/output" | cut -c 1-120))"
    fi
    mv "$3.right" "$3"
}

for check in told frames painted called installed by_pkg_config examples; do
    if ! "$check" >"$room/output" 2>&1; then
        cat "$room/output" >&2
        echo "without a mistake this check fails: $check" >&2
        exit 2
    fi
done

header=include/lucarnecress.h
list_stack=$(grep '^#define LUCARNECRESS_LIST_STACK ' "$header")
with_mistake frames "the stack of a list is told as 64 KiB" "$header" "$list_stack" '#define LUCARNECRESS_LIST_STACK 65536u'
with_mistake painted "the same, seen by a call" "$header" "$list_stack" '#define LUCARNECRESS_LIST_STACK 65536u'
with_mistake frames "the stack of a list is not told" "$header" "$list_stack" ''
with_mistake frames "the most of all is that of a list" "$header" "$(grep '^#define LUCARNECRESS_STACK ' "$header")" \
    "#define LUCARNECRESS_STACK ${list_stack##* }"
with_mistake painted "a recursion is a quarter as deep" host/stack.py 'BITS = 64' 'BITS = 16'
with_mistake painted "a recursion is no call" host/stack.py 'max(own) * nested_calls(name) if own else 0' '0'
with_mistake painted "the loop over pages is one page" host/stack.py 'return [(i + 1, (state[1], None))]' 'return [(i + 1, state)]'
with_mistake frames "pushes are not counted" host/stack.py 'return depth + 8, probe' 'return depth, probe'
with_mistake frames "a recursion has another measure" crates/searching/proofs/search/+explore/Invariants.antt 'ones (undecided' 'rank (undecided'
with_mistake told "a refusal has other words than the tool's" host/lucarnecress.c 'a RULE has neither head nor body' 'a RULE is empty'
with_mistake told "the tool has other words than the library" tools/lucarne/src/plan/words.rs '"rule {} is in no unit"' '"rule {} has no unit"'
with_mistake told "a refusal has no words" host/lucarnecress.c '    case LUCARNECRESS_CYCLE:
        return "a unit depends on itself in a circle";
' ''
with_mistake told "two refusals have the same words" host/lucarnecress.c 'more than 64 questions are asked at once' 'a RULE has neither head nor body'
with_mistake told "the library has another version than the tool" "$header" '#define LUCARNECRESS_VERSION "' '#define LUCARNECRESS_VERSION "9.'
with_mistake told "a function is not declared" "$header" 'uint64_t lucarnecress_common(' 'uint64_t lucarnecress_shared('
with_mistake told "a function is not in the man page" host/lucarnecress.3 'lucarnecress_blame(' 'lucarnecress_why('
with_mistake called "a sum with a carry is a refusal" "$header" '((code) >= LUCARNECRESS_BAD_READING * LUCARNECRESS_CODE_STEP)' \
    '((code) >= LUCARNECRESS_CODE_STEP)'
with_mistake called "the least code is no refusal" "$header" '((code) >= LUCARNECRESS_CODE_STEP) /*' '((code) > LUCARNECRESS_CODE_STEP) /*'
with_mistake called "the longest plan is shorter" "$header" 'LUCARNECRESS_PLAN_BYTES 3783u' 'LUCARNECRESS_PLAN_BYTES 3774u'
with_mistake called "words of one number too many" host/lucarnecress.c '    default:' '    case 25:
        return "a refusal that is none";
    default:'
with_mistake installed "a function is not in the shared library" host/lucarnecress.map 'lucarnecress_*;' 'lucarnecress_[a-q]*; lucarnecress_version;'
with_mistake installed "the shared library has no soname" host/build.sh ' -Wl,-soname,"$soname"' ''
with_mistake installed "the proved code is not as it was" host/build.sh 'ar rcD' 'strip -g "$folder/$name.a" && ar rcD'
with_mistake by_pkg_config "pkg-config names another library" host/lucarnecress.pc.in '-llucarnecress' '-lexports'
with_mistake by_pkg_config "the library is linked behind the sources alone" host/lucarnecress.pc.in \
    '-Wl,--push-state,--no-as-needed' '-Wl,--push-state,--as-needed'
with_mistake examples "audit.c does not look for what is missing" examples/audit.c 'code == LUCARNECRESS_LACKS' 'code == LUCARNECRESS_LACKS + 1'
with_mistake examples "walk.c ends with its first call" examples/walk.c 'count[0] < BATCH' 'count[0] <= BATCH'
with_mistake examples "walk.c does not say that it was stopped" examples/walk.c 'WTERMSIG(status) == SIGALRM' 'WTERMSIG(status) == SIGTERM'
with_mistake examples "lucarnecress.py reads the highest byte first" examples/lucarnecress.py '"little"' '"big"'

echo "$tried mistakes, $unnoticed not noticed"
[ "$unnoticed" = 0 ]
