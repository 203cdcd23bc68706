#!/bin/bash
# tools/lucarne/pictures.sh [--look FOLDER]: makes the documents' pictures of the page anew, docs/page.png and docs/page-asked.png, by chromium. With
# --look it writes others to a folder, to be looked at before a change of the page lands: 67 positions by 31 relays, 256 by 56, a phone's width, dark,
# and printed on A4 and letter (PDF).
set -e
cd "$(dirname "$0")/../.."
. tests/build.sh
. tools/lucarne/tests/parts.sh
need_chromium
what=documents folder=docs
if [ "${1:-}" = --look ]; then
    what=look folder=${2:?a folder to write to}
    mkdir -p "$folder"
fi
work=target/lucarne-tests
mkdir -p "$work"
tools/lucarne/build.sh "$work/lucarne"
build_test "$work" page
"$work/test-page" "$what" chromium "$work" "$folder"
