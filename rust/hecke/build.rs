//! Links the archive that `rt lib hecke_c` writes.

use std::path::Path;

fn main() {
    let folder = Path::new(&std::env::var("CARGO_MANIFEST_DIR").unwrap()).join("../../crates/hecke_c/out");
    let archive = folder.join("libhecke_c.a");
    println!("cargo::rerun-if-changed={}", archive.display());
    if !archive.is_file() {
        println!("cargo::error=crates/hecke_c/out/libhecke_c.a is missing: run `rt lib hecke_c` first");
        return;
    }
    println!("cargo::rustc-link-search=native={}", folder.display());
    println!("cargo::rustc-link-lib=static=hecke_c");
}
