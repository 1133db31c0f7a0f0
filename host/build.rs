//! Links the archive of the proved engine, which `tools/programs` writes, on x86-64, and stops if it is not there.
//! Reads nothing but the archive's own path inside the repository.

use std::path::PathBuf;

fn main() {
    println!("cargo:rerun-if-changed=build.rs");
    let machine = std::env::var("CARGO_CFG_TARGET_ARCH").expect("cargo names the machine");
    if machine != "x86_64" || std::env::var_os("CARGO_FEATURE_ARCHIVE").is_none() {
        return;
    }
    let manifest = std::env::var_os("CARGO_MANIFEST_DIR").expect("cargo names the manifest's folder");
    let folder = PathBuf::from(manifest).join("../target/staticlib");
    let archive = folder.join("libjunctionmoth.a");
    println!("cargo:rerun-if-changed={}", archive.display());
    assert!(
        archive.is_file(),
        "target/staticlib/libjunctionmoth.a is missing: run `tools/programs` at the top of the repository, \
         or build with --no-default-features, which leaves the archive out"
    );
    println!("cargo:rustc-link-search=native={}", folder.display());
    println!("cargo:rustc-link-lib=static=junctionmoth");
}
