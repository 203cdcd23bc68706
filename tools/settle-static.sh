#!/bin/sh
# tools/settle-static.sh [OBJECT] [OUTPUT]: links the proved object file of settle (default target/obj/settle.o, as `tests/programs.sh settle` leaves it)
# without a C library and without a loader, into target/bin/settle-static. A process of it starts in a fraction of the time.
set -e
cd "$(dirname "$0")/.."
. tests/build.sh
need_cc

object=${1:-target/obj/settle.o}
output=${2:-target/bin/settle-static}
if [ ! -e "$object" ]; then
    echo "$object is missing: prove and build the program first with: tests/programs.sh settle" >&2
    exit 2
fi
cc -O2 -Wall -ffreestanding -fno-stack-protector -fno-pie -fno-tree-loop-distribute-patterns -fno-asynchronous-unwind-tables \
    -static -nostdlib -no-pie -Wl,--build-id=none -Wl,-z,noexecstack -o "$output" tools/settle-static.c "$object"
echo "$output"
