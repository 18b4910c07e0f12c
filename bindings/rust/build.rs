//! Links target/staticlib/libengine.a of the repository, which `tools/staticlib engine` writes.
use std::{env, path::Path};

fn main() {
    let here = env::var("CARGO_MANIFEST_DIR").expect("cargo tells the package's folder");
    let libraries = Path::new(&here).join("../../target/staticlib");
    println!("cargo:rerun-if-changed=build.rs");
    println!("cargo:rerun-if-changed={}", libraries.join("libengine.a").display());
    println!("cargo:rustc-link-search=native={}", libraries.display());
    println!("cargo:rustc-link-lib=static=engine");
}
