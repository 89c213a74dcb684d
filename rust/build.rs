//! Links libcapi.a, which `tools/build capi` writes. FLOECAVERN_LIB names another folder that has it.

use std::path::PathBuf;

fn main() {
    println!("cargo:rerun-if-env-changed=FLOECAVERN_LIB");
    let folder = match std::env::var_os("FLOECAVERN_LIB") {
        Some(folder) => PathBuf::from(folder),
        None => PathBuf::from(std::env::var_os("CARGO_MANIFEST_DIR").unwrap()).join("../target/staticlib"),
    };
    let archive = folder.join("libcapi.a");
    assert!(archive.exists(), "{} is missing: run `tools/build capi` first", archive.display());
    println!("cargo:rerun-if-changed={}", archive.display());
    println!("cargo:rustc-link-search=native={}", folder.display());
    println!("cargo:rustc-link-lib=static=capi");
}
