//! Links the archive that `rt lib` writes in `crates/sections`, from its folder
//! `out` or from the folder that `SECTIONS_LIBRARY` names.

fn main() {
    let here = std::env::var("CARGO_MANIFEST_DIR").expect("cargo sets it");
    let folder = std::env::var("SECTIONS_LIBRARY")
        .unwrap_or_else(|_| format!("{here}/../../crates/sections/out"));
    println!("cargo:rustc-link-search=native={folder}");
    println!("cargo:rustc-link-lib=static=sections");
    println!("cargo:rerun-if-changed={folder}/libsections.a");
    println!("cargo:rerun-if-env-changed=SECTIONS_LIBRARY");
}
