//! Links the proved library, which `tools/built capi` writes to the
//! repository's target/staticlib, or the one in the folder that
//! FLOAT_INDEX_LIBRARY names.

use std::env::var;
use std::path::{Path, PathBuf};

fn main() {
    let here = var("CARGO_MANIFEST_DIR").expect("cargo names the folder of the package");
    let own = Path::new(&here).join("../../target/staticlib");
    let folder = var("FLOAT_INDEX_LIBRARY").map_or(own, PathBuf::from);
    let library = folder.join("libcapi.a");
    if !library.exists() {
        println!("cargo:warning=no libcapi.a: run `tools/built capi` first");
    }
    println!("cargo:rerun-if-changed={}", library.display());
    println!("cargo:rerun-if-env-changed=FLOAT_INDEX_LIBRARY");
    // For the build scripts of those that depend on it.
    println!("cargo:folder={}", folder.display());
    println!("cargo:rustc-link-search=native={}", folder.display());
    println!("cargo:rustc-link-lib=static=capi");
}
