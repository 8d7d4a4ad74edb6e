//! Links liblulzhemor.a, which `rt lib` writes in crates/lulzhemor. LULZHEMOR_LIB names another folder that has it.

use std::path::PathBuf;

fn main() {
    println!("cargo:rerun-if-env-changed=LULZHEMOR_LIB");
    let folder = match std::env::var_os("LULZHEMOR_LIB") {
        Some(folder) => PathBuf::from(folder),
        None => PathBuf::from(env!("CARGO_MANIFEST_DIR")).join("../../crates/lulzhemor/out"),
    };
    let archive = folder.join("liblulzhemor.a");
    assert!(
        archive.exists(),
        "{} is missing: run `rt lib` in crates/lulzhemor, or set LULZHEMOR_LIB",
        archive.display()
    );
    println!("cargo:rerun-if-changed={}", archive.display());
    println!("cargo:rustc-link-search=native={}", folder.display());
    println!("cargo:rustc-link-lib=static=lulzhemor");
}
