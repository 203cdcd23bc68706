#!/bin/sh
# tools/lucarne/install.sh [--host] [PREFIX]: builds the tool from this checkout and installs it as PREFIX/bin/lucarne (default /usr/local), with the
# completions for bash, zsh and fish and the manual page. With --host it is the library for programs in C, as host/install.sh says. What building asks for is
# installed first, by root on Debian.
set -e
if [ "${1:-}" = --host ]; then
    shift
    exec "$(dirname "$0")/../../host/install.sh" "$@"
fi
prefix=${1:-/usr/local}
cd "$(dirname "$0")/../.."
tools/lucarne/build.sh target/lucarne/lucarne
. tools/lucarne/beside.sh
install -d "$prefix/bin"
install -m 755 target/lucarne/lucarne "$prefix/bin/lucarne"
install_beside "$prefix/bin/lucarne" "$prefix/share" site-functions
echo "installed $prefix/bin/lucarne"
