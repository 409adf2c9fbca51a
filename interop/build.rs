//! Links the archive under test, whatever it is called: the file that the
//! environment variable GUC_ARCHIVE names, or ../target/staticlib/libguc.a.

use std::env::var_os;
use std::path::PathBuf;

fn main() {
    println!("cargo:rerun-if-env-changed=GUC_ARCHIVE");
    let here = PathBuf::from(var_os("CARGO_MANIFEST_DIR").expect("set by cargo"));
    let out = PathBuf::from(var_os("OUT_DIR").expect("set by cargo"));
    let beside = here.join("../target/staticlib/libguc.a");
    let archive = var_os("GUC_ARCHIVE").map_or(beside, PathBuf::from);
    println!("cargo:rerun-if-changed={}", archive.display());
    // None is needed to check the code alone, so it is linking that fails.
    let copy = out.join("libguc.a");
    if let Err(problem) = std::fs::copy(&archive, &copy) {
        println!("cargo:warning=no archive at {}: {problem}", archive.display());
        let _ = std::fs::remove_file(copy);
    }
    println!("cargo:rustc-link-search=native={}", out.display());
    println!("cargo:rustc-link-lib=static=guc");
}
