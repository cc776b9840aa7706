//! With the feature `proved`, links `libcapi.a` out of the folder that the environment
//! variable `LEVEL_STORE_LIB_DIR` names; without it, out of `target/staticlib` of the repository.

use std::env;
use std::path::{Path, PathBuf};

fn main() {
    println!("cargo::rerun-if-changed=build.rs");
    println!("cargo::rerun-if-env-changed=LEVEL_STORE_LIB_DIR");
    if env::var_os("CARGO_FEATURE_PROVED").is_none() {
        return;
    }
    let package = env::var("CARGO_MANIFEST_DIR").expect("set by cargo");
    let folder = match env::var_os("LEVEL_STORE_LIB_DIR") {
        Some(folder) => PathBuf::from(folder),
        None => Path::new(&package).join("../../target/staticlib"),
    };
    let library = folder.join("libcapi.a");
    if !library.is_file() {
        eprintln!(
            "feature proved: {} not found; LEVEL_STORE_LIB_DIR names the folder of libcapi.a by its absolute path",
            library.display()
        );
        std::process::exit(1);
    }
    println!("cargo::rerun-if-changed={}", library.display());
    println!("cargo::rustc-link-search=native={}", folder.display());
    println!("cargo::rustc-link-lib=static=capi");
}
