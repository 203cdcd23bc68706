#!/bin/sh
# tools/lucarne/package.sh [--host] [FOLDER]: makes lucarne_VERSION_ARCHITECTURE.deb in this folder (default target). It needs neither the kit nor a
# compiler where it is installed; completions and the manual page are in it; gringo is recommended, for sheets with variables and for --check-with clingo. With
# --host they are the packages of the library for programs in C, as host/package.sh says.
set -e
if [ "${1:-}" = --host ]; then
    shift
    exec "$(dirname "$0")/../../host/package.sh" "$@"
fi
cd "$(dirname "$0")/../.."
folder=${1:-target}
version=$(sed -n 's/^version = "\(.*\)"$/\1/p' tools/lucarne/Cargo.toml)
architecture=$(dpkg --print-architecture)
root=target/lucarne/package
tools/lucarne/build.sh target/lucarne/lucarne

rm -rf "$root"
. tools/lucarne/beside.sh
install -d "$root/DEBIAN" "$root/usr/bin" "$root/usr/share/doc/lucarne/examples" "$folder"
install -m 755 target/lucarne/lucarne "$root/usr/bin/lucarne"
install_beside "$root/usr/bin/lucarne" "$root/usr/share" vendor-completions
install -m 644 README.md "$root/usr/share/doc/lucarne/README.md"
install -d "$root/usr/share/doc/lucarne/docs/planner"
install -m 644 docs/PLANNER.md docs/SHEETS.md docs/FORMAT.md docs/CLINGO.md docs/page.png docs/page-asked.png "$root/usr/share/doc/lucarne/docs/"
install -m 644 docs/planner/* "$root/usr/share/doc/lucarne/docs/planner/"
for group in north yard found story; do
    install -d "$root/usr/share/doc/lucarne/examples/$group"
    install -m 644 "plans/$group"/* "$root/usr/share/doc/lucarne/examples/$group/"
done
cat >"$root/DEBIAN/control" <<CONTROL
Package: lucarne
Version: $version
Architecture: $architecture
Section: science
Priority: optional
Recommends: gringo
Installed-Size: $(du -sk "$root/usr" | cut -f1)
Maintainer: Lucarnecress <lucarnecress@localhost>
Description: every settled position of a relay group, by name
 Reads relays and rules by name from sheets that clingo reads too, works
 out the links between sheets, and lists every settled position (answer
 set) by a library that is proved to leave none out.
CONTROL
dpkg-deb --root-owner-group --build "$root" "$folder/lucarne_${version}_$architecture.deb"
