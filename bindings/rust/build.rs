//! Links libvorzhyket.a from the folder that VORZHYKET_LIB names, or from where `tool/build archive` puts it.
use std::{env, path::PathBuf};

fn main() {
    println!("cargo:rerun-if-env-changed=VORZHYKET_LIB");
    let folder = match env::var_os("VORZHYKET_LIB") {
        Some(folder) => PathBuf::from(folder),
        None => PathBuf::from(env::var_os("CARGO_MANIFEST_DIR").unwrap()).join("../../target/staticlib"),
    };
    let archive = folder.join("libvorzhyket.a");
    if !archive.exists() {
        panic!("{} is missing: run `tool/build archive`, or name its folder in VORZHYKET_LIB", archive.display());
    }
    println!("cargo:rerun-if-changed={}", archive.display());
    println!("cargo:rustc-link-search=native={}", folder.display());
    println!("cargo:rustc-link-lib=static=vorzhyket");
}
