//! Links libame.a: of the folder that AME_LIB names, or of bindings/out.

use std::env;
use std::path::PathBuf;

fn main() {
    let folder = match env::var_os("AME_LIB") {
        Some(folder) => PathBuf::from(folder),
        None => PathBuf::from(env::var_os("CARGO_MANIFEST_DIR").expect("cargo sets it")).join("../out"),
    };
    println!("cargo:rerun-if-env-changed=AME_LIB");
    println!("cargo:rerun-if-changed={}", folder.join("libame.a").display());
    println!("cargo:rustc-link-search=native={}", folder.display());
    println!("cargo:rustc-link-lib=static=ame");
}
