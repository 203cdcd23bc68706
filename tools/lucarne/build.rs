//! Links the proved library, libexports.a in the folder EXPORTS_DIR (default: target/staticlib of the repository, where `tests/programs.sh library` puts it).

use std::path::PathBuf;

fn main() {
    let own = || PathBuf::from(std::env::var_os("CARGO_MANIFEST_DIR").unwrap_or_default()).join("../../target/staticlib");
    let folder = std::env::var_os("EXPORTS_DIR").map_or_else(own, PathBuf::from);
    println!("cargo:rerun-if-env-changed=EXPORTS_DIR");
    println!("cargo:rerun-if-changed={}", folder.join("libexports.a").display());
    println!("cargo:rustc-link-search=native={}", folder.display());
    println!("cargo:rustc-link-lib=static=exports");
}
