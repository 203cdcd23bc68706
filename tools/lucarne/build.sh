#!/bin/sh
# tools/lucarne/build.sh [OUTPUT]: builds the tool (default target/lucarne/lucarne) by cargo, the proved library linked in: one static program. Beside
# it stands liblucarne.rlib, which the tests link with what cargo leaves in CARGO_TARGET_DIR (default target/lucarne/cargo).
#
# The proved library is taken from the folder EXPORTS_DIR; without it tests/programs.sh builds target/staticlib. The libraries of others come from
# Debian's packages where these are there or can be installed, else from crates.io. The environment's LUCARNE_SOURCE may name another folder of
# sources, LUCARNE_PROFILE another profile of cargo's (dev is quick to build), RUSTC another compiler, and CARGO another cargo.
set -e
cd "$(dirname "$0")/../.."
. tests/build.sh
need_crates

folder=${EXPORTS_DIR:-target/staticlib}
if [ -z "${EXPORTS_DIR:-}" ] && command -v rt >/dev/null; then
    build_library
fi
if [ ! -e "$folder/libexports.a" ]; then
    echo "$folder/libexports.a is missing: build it first with: tests/programs.sh library" >&2
    exit 2
fi
output=${1:-target/lucarne/lucarne} profile=${LUCARNE_PROFILE:-release}
mkdir -p "$(dirname "$output")"
output=$(realpath "$output") here=$PWD/tools/lucarne source=$(realpath "${LUCARNE_SOURCE:-tools/lucarne/src}")
EXPORTS_DIR=$(realpath "$folder")
CARGO_TARGET_DIR=$(realpath -m "${CARGO_TARGET_DIR:-target/lucarne/cargo}")
export EXPORTS_DIR CARGO_TARGET_DIR

# The package is built in a copy: Debian's libraries have sums of their own, which cargo writes down beside the versions.
package=$(dirname "$output")/copy
rm -rf "$package" && mkdir -p "$package"
cp "$here/Cargo.toml" "$here/Cargo.lock" "$here/build.rs" "$package/"
cp -r "$here/.cargo" "$package/.cargo"
cp -rp "$source" "$package/src"
from=
if have_crates; then from="--offline --config $here/debian.toml"; fi
# A program at fixed addresses starts sooner: there is nothing to relocate. The tests' own programs are linked otherwise.
if [ "$profile" = release ]; then
    export RUSTFLAGS="-C target-feature=+crt-static -C relocation-model=static"
fi
# shellcheck disable=SC2086 # the options are several words
(cd "$package" && ${CARGO:-cargo} build --quiet --profile "$profile" $from)

built=$CARGO_TARGET_DIR/$profile
[ "$profile" != dev ] || built=$CARGO_TARGET_DIR/debug
install -m 755 "$built/lucarne" "$output"
cp "$built/liblucarne.rlib" "$(dirname "$output")/liblucarne.rlib"
