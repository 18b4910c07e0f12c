//! Links target/staticlib/libreading.a of the repository, which `tools/staticlib reading` writes, where the feature `engine` is on, and
//! libearlier.a, which `bench/earlier` writes, where `earlier` is.
use std::{env, path::Path};

fn main() {
    println!("cargo:rerun-if-changed=build.rs");
    if env::var_os("CARGO_FEATURE_ENGINE").is_none() {
        return;
    }
    let here = env::var("CARGO_MANIFEST_DIR").expect("cargo tells the package's folder");
    let libraries = Path::new(&here).join("../target/staticlib");
    println!("cargo:rerun-if-changed={}", libraries.join("libreading.a").display());
    println!("cargo:rustc-link-search=native={}", libraries.display());
    println!("cargo:rustc-link-lib=static=reading");
    if env::var_os("CARGO_FEATURE_EARLIER").is_some() {
        println!("cargo:rerun-if-changed={}", libraries.join("libearlier.a").display());
        println!("cargo:rustc-link-lib=static=earlier");
    }
}
