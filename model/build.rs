//! Tells the linker where the proved libraries are, when the features that link them are on.

use std::env;
use std::path::PathBuf;

fn main() {
    println!("cargo::rerun-if-changed=build.rs");
    println!("cargo::rerun-if-env-changed=MOONHALYARD_LIB");
    for (feature, library) in [("LIBRARY", "boundary"), ("WRITING", "boundary_writer")] {
        if env::var_os(format!("CARGO_FEATURE_{feature}")).is_some() {
            link(library);
        }
    }
}

fn link(library: &str) {
    // A relative folder counts from this package's folder.
    let here = PathBuf::from(env::var_os("CARGO_MANIFEST_DIR").unwrap());
    let folder = env::var_os("MOONHALYARD_LIB").unwrap_or("../target/staticlib".into());
    let folder = here.join(folder);
    let archive = folder.join(format!("lib{library}.a"));
    if !archive.exists() {
        println!(
            "cargo::error=no {}: build the proved library or set MOONHALYARD_LIB",
            archive.display()
        );
    }
    println!("cargo::rerun-if-changed={}", archive.display());
    println!("cargo::rustc-link-search=native={}", folder.display());
    println!("cargo::rustc-link-lib=static:-bundle={library}");
}
