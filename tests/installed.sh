#!/bin/bash
# tests/installed.sh [PART..]: installs the library for hosts in a temporary folder and tries it there, all parts or those that are named: what header and
# libraries have (contents), a host built by pkg-config (pkg_config), the examples and C++ (examples), and the packages (packages). What asks for
# pkg-config, a C++ compiler, groff or dpkg-deb is skipped with a word where they are not installed. The last line is 'N passed, M failed, S skipped'.
#
# The proved library is taken from the folder EXPORTS_DIR (default target/staticlib).
cd "$(dirname "$0")/.." || exit 2
. tests/build.sh
need_cc
need_python
want_pkg_config
proved=${EXPORTS_DIR:-target/staticlib}/libexports.a
work=$(mktemp -d)
trap 'rm -rf "$work"' EXIT
prefix=$work/prefix
passed=0 failed=0 skipped=0

# result STATUS WHAT: counts one comparison.
result() {
    if [ "$1" = 0 ]; then
        passed=$((passed + 1))
    else
        failed=$((failed + 1))
        echo "FAILED: $2"
    fi
}

# is_there PROGRAM WHAT: whether a program is installed; otherwise what asks for it is skipped.
is_there() {
    command -v "$1" >/dev/null && return
    echo "skipped, since $1 is not installed: $2"
    skipped=$((skipped + 1))
    return 1
}

# declared: the functions that the header declares.
declared() {
    sed -n 's/^\(uint64_t \|const char \*\)\(lucarnecress_[a-z_]*\)(.*/\2/p' "$prefix/include/lucarnecress.h" | sort
}

# What the libraries have: the proved code as it was, the functions of the header and no other, and nothing that could hold a state.
try_contents() {
    local so=$prefix/lib/liblucarnecress.so object=$work/exports_c.o
    ar p "$proved" exports_c.o >"$object"
    ar p "$prefix/lib/liblucarnecress.a" exports_c.o | cmp -s - "$object"
    result $? "the proved code is not in liblucarnecress.a as it was"
    diff <(declared) <(nm -D --defined-only "$so" | awk '$2 == "T" {sub("@.*", "", $3); print $3}' | sort)
    result $? "liblucarnecress.so has other functions than the header"
    diff <(declared | grep -v '_version$\|_refusal_text$') <(nm -g --defined-only "$object" | awk '{print $3}' | sort)
    result $? "the proved functions are others than the header's"
    diff <(printf 'memcpy\nmemset\n') <(nm -u "$object" | awk '{print $2}' | sort)
    result $? "the proved code asks for more than memcpy and memset"
    ! objdump -h "$object" | grep -A1 -E ' \.(data|bss|tdata|tbss)' | grep -v READONLY | grep -q ALLOC
    result $? "the proved code has data that can be written"
    readelf -d "$so" | grep -q 'SONAME.*\[liblucarnecress\.so\.1\]'
    result $? "liblucarnecress.so has no soname liblucarnecress.so.1"
    grep -q "lucarnecress $version" "$prefix/share/man/man3/lucarnecress.3"
    result $? "the man page is of another version"
    if is_there groff "the man page's form"; then
        [ -z "$(groff -man -Tutf8 -ww -z "$prefix/share/man/man3/lucarnecress.3" 2>&1)" ]
        result $? "the man page has faults"
    fi
}

# lists WHAT COMMAND..: a command that lists gives each sample's sheet.
lists() {
    local plan wrong=0
    for plan in plans/*.plan; do
        "${@:2}" <"$plan" 2>/dev/null | cmp -s - "${plan%.plan}.sheet" || { wrong=1 && echo "$1: not the sheet of $plan"; }
    done
    result "$wrong" "$1"
}

# The line that a host's author writes first.
try_pkg_config() {
    is_there pkg-config "a host built with it" || return
    [ "$(pkg-config --modversion lucarnecress)" = "$version" ]
    result $? "pkg-config knows another version"
    # shellcheck disable=SC2046 # the options are several words
    cc $(pkg-config --cflags --libs lucarnecress) examples/list.c -o "$work/list-by-pkg-config"
    lists "list.c by pkg-config" "$work/list-by-pkg-config"
}

# The header without a warning in C and C++, and the examples, with the shared and the static library.
try_examples() {
    local name standard
    for name in list audit walk; do
        for standard in c99 c11; do
            cc -std="$standard" -pedantic -Wall -Wextra -Werror -I"$prefix/include" "examples/$name.c" -L"$prefix/lib" -llucarnecress -o "$work/$name"
            result $? "$name.c in $standard"
        done
    done
    if is_there c++ "a host in C++"; then
        c++ -std=c++17 -pedantic -Wall -Wextra -Werror -I"$prefix/include" tests/host.cc -L"$prefix/lib" -llucarnecress -o "$work/host-cc" &&
            "$work/host-cc"
        result $? "a host in C++"
    fi
    cc -I"$prefix/include" examples/list.c "$prefix/lib/liblucarnecress.a" -o "$work/list-static"
    lists "list.c with the static library" "$work/list-static"
    "$work/list" <plans/plan-p-without-edge.plan 2>&1 >/dev/null | grep -qx 'list: a rule shares relays with rules that its unit does not see'
    result $? "list.c: a refusal in words"
    tests/examples.py "$work"
    result $? "the examples, above"
}

# Both packages, unpacked under one root, do for building and running.
try_packages() {
    local root=$work/root deb libdir
    is_there dpkg-deb "the packages" || return
    host/package.sh "$work/packages" >"$work/package.log" 2>&1 || cat "$work/package.log"
    for deb in liblucarnecress1 liblucarnecress-dev; do
        dpkg-deb -x "$work/packages/${deb}_${version}_$(dpkg --print-architecture).deb" "$root"
        result $? "package $deb"
    done
    libdir=$(dirname "$(find "$root" -name liblucarnecress.a)")
    cc -I"$root/usr/include" examples/list.c -L"$libdir" -llucarnecress -o "$work/list-by-package" &&
        LD_LIBRARY_PATH=$libdir "$work/list-by-package" <plans/plan-p.plan | cmp -s - plans/plan-p.sheet
    result $? "list.c by the packages"
    [ "$(sed -n 's/^Version: //p' "$libdir/pkgconfig/lucarnecress.pc")" = "$version" ] && grep -qx 'prefix=/usr' "$libdir/pkgconfig/lucarnecress.pc"
    result $? "the package's pkg-config file"
}

tools/lucarne/install.sh --host "$prefix" >"$work/install.log" 2>&1 || { cat "$work/install.log" && exit 1; }
version=$(sed -n 's/^version = "\(.*\)"$/\1/p' tools/lucarne/Cargo.toml)
export PKG_CONFIG_PATH=$prefix/lib/pkgconfig LD_LIBRARY_PATH=$prefix/lib
[ $# -gt 0 ] || set -- contents pkg_config examples packages
for part in "$@"; do
    "try_$part"
done
echo "$passed passed, $failed failed, $skipped skipped"
[ "$failed" = 0 ]
