//! Tells rustc where the product is: the archive in target/staticlib, or what DARTELM_LIBRARY names, an archive or a shared library.

use std::env;
use std::path::{Path, PathBuf};

fn main() {
    println!("cargo::rerun-if-env-changed=DARTELM_LIBRARY");
    let native = Path::new(env!("CARGO_MANIFEST_DIR")).join("../target/staticlib/libdartelm.a");
    let library = env::var_os("DARTELM_LIBRARY").map_or(native, PathBuf::from);
    println!("cargo::rerun-if-changed={}", library.display());
    if !library.exists() {
        println!("cargo::error={} is not there: build the product's archive first", library.display());
        return;
    }
    let is_archive = library.extension().is_some_and(|e| e == "a");
    let folder = library.parent().unwrap_or(Path::new("."));
    println!("cargo::rustc-link-search=native={}", folder.display());
    println!("cargo::rustc-link-lib={}=dartelm", if is_archive { "static" } else { "dylib" });
}
