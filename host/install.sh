#!/bin/sh
# host/install.sh [PREFIX]: builds the library for hosts from this checkout and installs it under PREFIX (default /usr/local): header, libraries,
# pkg-config file, man page and examples. A package's root is named by the environment's DESTDIR, another folder for libraries by LIBDIR (default
# PREFIX/lib), and the proved library by EXPORTS_DIR, as host/build.sh does.
set -e
prefix=$(realpath -m "${1:-/usr/local}")
cd "$(dirname "$0")/.."
libdir=${LIBDIR:-$prefix/lib} root=${DESTDIR:-} built=target/host
version=$(host/build.sh "$built" | tail -n 1)
documents=$root$prefix/share/doc/lucarnecress

install -d "$root$prefix/include" "$root$libdir/pkgconfig" "$root$prefix/share/man/man3" "$documents/examples"
install -m 644 include/lucarnecress.h "$root$prefix/include/lucarnecress.h"
install -m 644 "$built/liblucarnecress.a" "$root$libdir/liblucarnecress.a"
install -m 755 "$built/liblucarnecress.so.$version" "$root$libdir/liblucarnecress.so.$version"
ln -sf "liblucarnecress.so.$version" "$root$libdir/liblucarnecress.so.${version%%.*}"
ln -sf "liblucarnecress.so.${version%%.*}" "$root$libdir/liblucarnecress.so"
sed "s|@PREFIX@|$prefix|; s|@LIBDIR@|$libdir|; s|@VERSION@|$version|" host/lucarnecress.pc.in >"$root$libdir/pkgconfig/lucarnecress.pc"
sed "s|@VERSION@|$version|" host/lucarnecress.3 >"$root$prefix/share/man/man3/lucarnecress.3"
chmod 644 "$root$libdir/pkgconfig/lucarnecress.pc" "$root$prefix/share/man/man3/lucarnecress.3"
install -m 644 examples/*.c examples/*.py "$documents/examples/"
if [ -z "$root" ] && [ "$(id -u)" = 0 ]; then
    case $libdir in
    /usr/local/lib | /usr/lib) ldconfig ;; # where the loader looks
    esac
fi
echo "installed $root$libdir/liblucarnecress.so.$version"
