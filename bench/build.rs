//! Compiles the files of `c/` by cc, and by clang where there is one, and renames the calls of an older archive, if one is given.

use std::path::{Path, PathBuf};
use std::process::Command;

/// Runs a program, and panics if it fails.
fn run(command: &mut Command) {
    let status = command.status().unwrap_or_else(|error| panic!("{command:?}: {error}"));
    assert!(status.success(), "{command:?} fails");
}

/// The files in C, by name.
const FILES: [&str; 2] = ["nested", "pairing"];

/// Compiles the product, the word action and the pairing under names that begin with the compiler's, for the archive's target.
fn compiled(compiler: &str, out: &Path) -> [PathBuf; 2] {
    FILES.map(|file| {
        let (source, object) = (format!("c/{file}.c"), out.join(format!("{file}_{compiler}.o")));
        let calls = [("PRODUCT", "product"), ("ACT_WORD", "act_word"), ("PAIRING", "pairing")];
        let names = calls.map(|(name, call)| format!("-D{name}={compiler}_{call}"));
        let flags = ["-std=gnu11", "-Wall", "-Wextra", "-O3", "-march=x86-64", "-fPIE", "-c", &source, "-o"];
        run(Command::new(compiler).args(names).args(flags).arg(&object));
        object
    })
}

/// Has the static library of a name, which stands in the folder, linked.
fn link(name: &str, out: &Path) {
    println!("cargo::rustc-link-search=native={}", out.display());
    println!("cargo::rustc-link-lib=static={name}");
}

/// Calls of an older archive, under names that begin with `before_`; its other names become local.
fn renamed(archive: &str, out: &Path) {
    let mut objcopy = Command::new("objcopy");
    for call in ["hecke_product", "hecke_act_word", "hecke_tower_of_images"] {
        objcopy.arg(format!("--redefine-sym={call}=before_{call}")).arg(format!("--keep-global-symbol=before_{call}"));
    }
    run(objcopy.arg(archive).arg(out.join("libbefore.a")));
}

fn main() {
    let out = PathBuf::from(std::env::var("OUT_DIR").unwrap());
    FILES.iter().for_each(|file| println!("cargo::rerun-if-changed=c/{file}.c"));
    println!("cargo::rerun-if-env-changed=PATH");
    println!("cargo::rerun-if-env-changed=HECKE_BEFORE");
    println!("cargo::rustc-check-cfg=cfg(clang, before)");

    let mut objects = compiled("cc", &out).to_vec();
    if Command::new("clang").arg("--version").output().is_ok() {
        println!("cargo::rustc-cfg=clang");
        objects.extend(compiled("clang", &out));
    }
    let library = out.join("libtuned.a");
    let _ = std::fs::remove_file(&library);
    run(Command::new("ar").arg("crs").arg(&library).args(objects));
    link("tuned", &out);

    if let Some(archive) = std::env::var("HECKE_BEFORE").ok().filter(|archive| !archive.is_empty()) {
        println!("cargo::rerun-if-changed={archive}");
        println!("cargo::rustc-cfg=before");
        renamed(&archive, &out);
        link("before", &out);
    }
}
