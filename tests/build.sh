# Functions that build the proved library and program and the test programs; read by the scripts of this folder, host/, bench/ and tools/.

# build_library: proves the functions that other languages call, and leaves them as target/staticlib/libexports.a. What is proved already, here or in another
# checkout on this machine, is not proved again.
build_library() {
    (cd crates/exports_c && rt lib) || return
    mkdir -p target/staticlib
    put_if_new crates/exports_c/out/libexports_c.a target/staticlib/libexports.a
}

# build_settle: proves the program settle, runs it once on nothing, and leaves it as target/bin/settle, with the object file that it was linked from as
# target/obj/settle.o.
build_settle() {
    (cd crates/settle && rt run </dev/null >/dev/null) || return
    mkdir -p target/bin target/obj
    put_if_new crates/settle/out/settle target/bin/settle
    put_if_new crates/settle/out/settle.o target/obj/settle.o
}

# put_if_new FILE COPY: copies a file, unless the copy is the same already: so it keeps its time, and nothing is built over it again.
put_if_new() {
    cmp -s "$1" "$2" || cp -f "$1" "$2"
}

# Finds a rustc that works. It may stand in the folder of the user's cargo, off the path.
find_rustc() {
    rustc --version >/dev/null 2>&1 && return
    HOME=$(getent passwd "$(id -u)" | cut -d: -f6)
    PATH="$PATH:$HOME/.cargo/bin"
    export HOME PATH
    rustc --version >/dev/null 2>&1
}

# Makes sure that rustc is there and works; on a Debian machine without it, root installs it.
need_rustc() {
    find_rustc && return
    if [ "$(id -u)" = 0 ] && command -v apt-get >/dev/null; then
        { apt-get update && apt-get install -y rustc; } >&2
    fi
    rustc --version >/dev/null 2>&1 && return
    echo "rustc is missing: install it, on Debian as root with: apt-get update && apt-get install -y rustc" >&2
    exit 2
}

# Debian's packages of the libraries that the tool uses.
CRATE_PACKAGES="librust-clap-dev librust-clap-complete-dev librust-csv-dev librust-serde-json-dev librust-sha2-dev"

# install_for_tool: what building and trying the tool asks for, as far as it is missing and root can have it from Debian's packages. Where one cannot
# be had the others still are; what is missing then is told by those that ask for it.
install_for_tool() {
    local packages="" package
    find_rustc || packages="rustc"
    cargo --version >/dev/null 2>&1 || packages="$packages cargo"
    have_crates || packages="$packages $CRATE_PACKAGES"
    { command -v gringo && command -v clingo; } >/dev/null || packages="$packages gringo"
    command -v chromium >/dev/null || packages="$packages chromium"
    command -v pkg-config >/dev/null || packages="$packages pkg-config"
    if [ -z "$packages" ] || [ "$(id -u)" != 0 ] || ! command -v apt-get >/dev/null; then return; fi
    apt-get update || true
    for package in $packages; do
        DEBIAN_FRONTEND=noninteractive apt-get install -y --no-install-recommends "$package" || echo "not to be had: $package"
    done
}

# have_crates: whether Debian's packages of the libraries that the tool uses are there.
have_crates() {
    local crate
    for crate in clap clap_complete csv serde_json sha2; do
        ls -d "/usr/share/cargo/registry/$crate-"[0-9]* >/dev/null 2>&1 || return 1
    done
}

# Makes sure that cargo works and that the libraries that the tool uses can be had; on a Debian machine without them, root installs
# them. Elsewhere cargo gets the same versions from crates.io.
need_crates() {
    [ -n "${RUSTC:-}" ] || need_rustc
    ${CARGO:-cargo} --version >/dev/null 2>&1 && have_crates && return
    if [ "$(id -u)" = 0 ] && command -v apt-get >/dev/null; then
        local packages="$CRATE_PACKAGES"
        ${CARGO:-cargo} --version >/dev/null 2>&1 || packages="$packages cargo"
        # shellcheck disable=SC2086 # the packages are several words
        { apt-get update && apt-get install -y --no-install-recommends $packages; } >&2 || true
    fi
    ${CARGO:-cargo} --version >/dev/null 2>&1 && return
    echo "cargo is missing: install it, on Debian as root with: apt-get update && apt-get install -y cargo" >&2
    exit 2
}

# Makes sure that there is a C compiler; on a Debian machine without one, root installs it.
need_cc() {
    command -v cc >/dev/null && return
    if [ "$(id -u)" = 0 ] && command -v apt-get >/dev/null; then
        { apt-get update && apt-get install -y gcc libc6-dev; } >&2
    fi
    command -v cc >/dev/null && return
    echo "cc is missing: install a C compiler, on Debian as root with: apt-get update && apt-get install -y gcc libc6-dev" >&2
    exit 2
}

# Makes sure that there is python3; on a Debian machine without it, root installs it.
need_python() {
    command -v python3 >/dev/null && return
    if [ "$(id -u)" = 0 ] && command -v apt-get >/dev/null; then
        { apt-get update && apt-get install -y python3; } >&2
    fi
    command -v python3 >/dev/null && return
    echo "python3 is missing: install it, on Debian as root with: apt-get update && apt-get install -y python3" >&2
    exit 2
}

# Makes sure that there is clingo; on a Debian machine without it, root installs it.
need_clingo() {
    command -v clingo >/dev/null && return
    if [ "$(id -u)" = 0 ] && command -v apt-get >/dev/null; then
        { apt-get update && apt-get install -y gringo; } >&2
    fi
    command -v clingo >/dev/null && return
    echo "clingo is missing: install it, on Debian as root with: apt-get update && apt-get install -y gringo" >&2
    exit 2
}

# Makes sure that there is a browser; on a Debian machine without it, root installs it.
need_chromium() {
    command -v chromium >/dev/null && return
    if [ "$(id -u)" = 0 ] && command -v apt-get >/dev/null; then
        { apt-get update && apt-get install -y chromium; } >&2
    fi
    command -v chromium >/dev/null && return
    echo "chromium is missing: install it, on Debian as root with: apt-get update && apt-get install -y chromium" >&2
    exit 2
}

# Gets pkg-config on a Debian machine without it, where root can; what asks for it is skipped otherwise.
want_pkg_config() {
    command -v pkg-config >/dev/null && return
    if [ "$(id -u)" = 0 ] && command -v apt-get >/dev/null; then
        { apt-get update && apt-get install -y --no-install-recommends pkg-config; } >&2 || true
    fi
}

# build_program SOURCE OUTPUT [OPTIONS]: one program by rustc alone; no other package is needed.
build_program() {
    local source="$1" output="$2"
    shift 2
    mkdir -p "$(dirname "$output")"
    rustc --edition 2021 -O "$source" -o "$output" "$@"
}

# build_stand_in SOURCE OUTPUT KIND: the library's interface over the lister that stands beside
# SOURCE, as a staticlib or a cdylib.
build_stand_in() {
    build_program "$1" "$2" --crate-type "$3" --crate-name exports
}

# build_compare FOLDER OUTPUT KIND: the comparison with the library of this folder, static or dylib.
build_compare() {
    build_program tests/compare.rs "$2" -L "native=$1" -l "$3=exports"
}
