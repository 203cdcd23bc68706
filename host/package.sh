#!/bin/sh
# host/package.sh [FOLDER]: makes liblucarnecress1_VERSION_ARCHITECTURE.deb, the shared library that hosts run with, and liblucarnecress-dev_.., what they are
# built with, in this folder (default target). They need neither the kit nor anything but the C library.
set -e
cd "$(dirname "$0")/.."
folder=${1:-target}
architecture=$(dpkg --print-architecture)
libdir=/usr/lib/$(dpkg-architecture -qDEB_HOST_MULTIARCH 2>/dev/null || cc -print-multiarch)
work=$(mktemp -d)
trap 'rm -rf "$work"' EXIT
dev=$work/dev run=$work/run
mkdir -p "$folder"
DESTDIR=$dev LIBDIR=$libdir host/install.sh /usr
version=$(sed -n 's/^Version: //p' "$dev$libdir/pkgconfig/lucarnecress.pc")
soname=so.${version%%.*}
runtime=liblucarnecress${soname#so.}

# A package has its documents under its own name, and manual pages packed.
mv "$dev/usr/share/doc/lucarnecress" "$dev/usr/share/doc/liblucarnecress-dev"
gzip -9n "$dev/usr/share/man/man3/lucarnecress.3"
install -d "$run$libdir" "$run/usr/share/doc/$runtime" "$run/DEBIAN" "$dev/DEBIAN"
mv "$dev$libdir/liblucarnecress.$soname" "$dev$libdir/liblucarnecress.so.$version" "$run$libdir/"
chmod 644 "$run$libdir/liblucarnecress.so.$version"
for documents in "$run/usr/share/doc/$runtime" "$dev/usr/share/doc/liblucarnecress-dev"; do
    echo "No licence is granted yet." >"$documents/copyright"
done
echo "liblucarnecress ${soname#so.} $runtime (>= $version)" >"$run/DEBIAN/shlibs"
echo "activate-noawait ldconfig" >"$run/DEBIAN/triggers"

# control ROOT PACKAGE SECTION DEPENDS SUMMARY: the package's control file; its description comes from the standard input.
control() {
    cat >"$1/DEBIAN/control" <<CONTROL
Package: $2
Source: lucarnecress
Version: $version
Architecture: $architecture
Section: $3
Priority: optional
Depends: $4
Installed-Size: $(du -sk "$1/usr" | cut -f1)
Maintainer: Lucarnecress <lucarnecress@localhost>
Description: $5
$(cat)
CONTROL
    dpkg-deb --root-owner-group --build "$1" "$folder/$2_${version}_$architecture.deb"
}

control "$run" "$runtime" libs "libc6 (>= 2.14)" "every settled position of a relay group: shared library" <<TEXT
 Lists every settled position (answer set) of a relay group from a plan of
 bytes. The functions are proved: none is left out, and none is added.
TEXT
control "$dev" liblucarnecress-dev libdevel "$runtime (= $version)" "every settled position of a relay group: for programs in C" <<TEXT
 Header, static library, pkg-config file, manual page and examples for
 programs that call the proved functions of liblucarnecress.
TEXT
