//! Links the library of src/inner.rs where one lies beside the proved one, and says so
//! by `asks_in_turn`.

use std::env::var;
use std::path::Path;

fn main() {
    println!("cargo:rustc-check-cfg=cfg(asks_in_turn)");
    let folder = var("DEP_CAPI_FOLDER").expect("float_index names the library's folder");
    let library = Path::new(&folder).join("librepeating.a");
    println!("cargo:rerun-if-changed={}", library.display());
    if library.exists() {
        println!("cargo:rustc-link-search=native={folder}");
        println!("cargo:rustc-link-lib=static=repeating");
        println!("cargo:rustc-cfg=asks_in_turn");
    }
}
