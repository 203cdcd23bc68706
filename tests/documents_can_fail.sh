#!/bin/bash
# tests/documents_can_fail.sh [TOOL]: shows that tests/documents.py and docs/links.py notice mistakes, each in a copy of the documents with one. The last
# line is 'N mistakes noticed, M not'. TOOL is lucarne, as for documents.py.
cd "$(dirname "$0")/.." || exit 2
tool=${1:-target/lucarne-tests/lucarne} noticed=0 missed=0
scratch=$(mktemp -d)
trap 'rm -rf "$scratch"' EXIT

# count STATUS WHAT: what a check said of a mistake.
count() {
    if [ "$1" = 1 ]; then
        noticed=$((noticed + 1))
    else
        missed=$((missed + 1))
        echo "not noticed: $2"
    fi
}

# mistaken PAGE COMMAND: a copy of the page with a mistake, which must be one.
mistaken() {
    mkdir -p "$scratch/$(dirname "$1")"
    sed "$2" "$1" >"$scratch/$1"
    ! cmp -s "$1" "$scratch/$1" || echo "changes nothing: $2 of $1"
}

# print_wrong PAGE COMMAND: a page that prints something else.
print_wrong() {
    mistaken "$1" "$2"
    tests/documents.py --tool "$tool" "$scratch/$1" >/dev/null
    count $? "$2 of $1"
}

# lay_root: a folder that looks like the root, with a links.py of its own.
lay_root() {
    rm -rf "$scratch/root" && mkdir -p "$scratch/root/docs"
    for entry in * docs/*; do
        [ "$entry" = docs ] || ln -s "$PWD/$entry" "$scratch/root/$entry"
    done
    rm "$scratch/root/docs/links.py"
    cp docs/links.py "$scratch/root/docs/links.py"
}

# cite_wrong PAGE COMMAND: a page with a link, path, name or size that does not hold.
cite_wrong() {
    lay_root
    rm "$scratch/root/$1"
    sed "$2" "$1" >"$scratch/root/$1"
    ! cmp -s "$1" "$scratch/root/$1" || echo "changes nothing: $2 of $1"
    "$scratch/root/docs/links.py" 2>/dev/null
    count $? "$2 of $1"
}

print_wrong docs/PLANNER.md 's/^    positions 67:/    positions 66:/'         # another number
print_wrong docs/PLANNER.md 's/^       7  lr, or, xr, T JR$//'                # a line left out
print_wrong docs/PLANNER.md 's/`lucarne rows plans/`lucarne row plans/'       # no such command
print_wrong docs/PLANNER.md 's/^    \$ lucarne keys/    lucarne keys/'        # a block that is no command
print_wrong README.md 's/^       2  T1 TR/       2  T2 TR/'                   # a line before '..'
lay_root
"$scratch/root/docs/links.py" || { echo "links.py refuses the documents as they are" && exit 1; }
cite_wrong README.md 's/(docs\/HOST.md)/(docs\/HOSTS.md)/'                    # a page that is not there
cite_wrong README.md 's/#refusals/#refusal/'                                  # a heading that is not there
cite_wrong README.md 's/`plans\/clingo-default-misses-one`/`plans\/clingo-misses-one`/' # a sample that is not there
cite_wrong README.md 's/docs\/page-asked.png/docs\/page-asks.png/'            # a picture that is not there
cite_wrong docs/THEOREMS.md 's/`last_list`/`last_lists`/'                     # a theorem that is not there
cite_wrong docs/THEOREMS.md 's/`judge\/proofs\/Settled`/`judge\/proofs\/Settle`/' # a file that is not there
cite_wrong docs/THEOREMS.md 's/list_positions/list_position/'                 # a function that is not there
cite_wrong docs/THEOREMS.md '1s/$/'"$(printf 'x%.0s' {1..4400})"'/'           # a page that is too long
echo "$noticed mistakes noticed, $missed not"
[ "$missed" = 0 ]
