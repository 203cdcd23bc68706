#!/bin/sh
# host/build.sh [FOLDER]: builds the library for hosts in this folder (default target/host): liblucarnecress.a and liblucarnecress.so.VERSION, whose links
# host/install.sh makes. Both have the proved functions as tests/programs.sh leaves them, and beside them the two of host/lucarnecress.c, which are plain C.
#
# The proved library is taken from the folder EXPORTS_DIR (default target/staticlib). The last line is the version.
set -e
cd "$(dirname "$0")/.."
. tests/build.sh
need_cc

folder=${1:-target/host} proved=${EXPORTS_DIR:-target/staticlib}
if [ -z "${EXPORTS_DIR:-}" ] && command -v rt >/dev/null; then
    build_library
fi
if [ ! -e "$proved/libexports.a" ]; then
    echo "$proved/libexports.a is missing: build it first with: tests/programs.sh library" >&2
    exit 2
fi
version=$(sed -n 's/^#define LUCARNECRESS_VERSION "\(.*\)"$/\1/p' include/lucarnecress.h)
name=liblucarnecress soname=liblucarnecress.so.${version%%.*}

rm -rf "$folder" && mkdir -p "$folder"
cc -std=c99 -O2 -fPIC -Wall -Wextra -Werror -Iinclude -c host/lucarnecress.c -o "$folder/lucarnecress.o"
cp "$proved/libexports.a" "$folder/$name.a"
ar rcD "$folder/$name.a" "$folder/lucarnecress.o"
# Bound when it is loaded: no call takes stack for the loader. Every reference must be found, and nothing be written over in the code.
cc -shared -nostartfiles -Wl,-soname,"$soname" -Wl,--version-script=host/lucarnecress.map -Wl,-z,now -Wl,-z,relro -Wl,-z,text -Wl,-z,defs -Wl,-z,noexecstack \
    -Wl,--whole-archive "$folder/$name.a" -Wl,--no-whole-archive -o "$folder/$name.so.$version"
rm "$folder/lucarnecress.o"
echo "$version"
