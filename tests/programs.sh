#!/bin/sh
# tests/programs.sh [library|settle]: proves and builds what the tests, the hosts and the tool stand on: the library target/staticlib/libexports.a and the
# program target/bin/settle, or the one of them that is named.
set -e
cd "$(dirname "$0")/.."
. tests/build.sh

case ${1:-} in
"") build_library && build_settle ;;
library | settle) "build_$1" ;;
*) echo "usage: tests/programs.sh [library|settle]" >&2 && exit 2 ;;
esac
