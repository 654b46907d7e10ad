//! Links libkadvitul.a from the folder that `make lib` builds it in, or from the folder KADVITUL_LIB.

use std::env;
use std::path::PathBuf;

fn main() {
    let folder = archive_folder();
    let archive = folder.join("libkadvitul.a");
    println!("cargo:rerun-if-env-changed=KADVITUL_LIB");
    println!("cargo:rerun-if-changed={}", archive.display());
    if !archive.is_file() {
        println!("cargo::error={} is missing; `make lib` in the project's folder makes it", archive.display());
        return;
    }
    println!("cargo:rustc-link-search=native={}", folder.display());
    println!("cargo:rustc-link-lib=static:-bundle=kadvitul");
}

fn archive_folder() -> PathBuf {
    if let Some(folder) = env::var_os("KADVITUL_LIB") {
        return folder.into();
    }
    let package = env::var_os("CARGO_MANIFEST_DIR").expect("cargo sets CARGO_MANIFEST_DIR");
    PathBuf::from(package).with_file_name("target").join("staticlib")
}
