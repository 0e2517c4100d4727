//! Tells the linker where the installed library is: MOONHALYARD_LIB, or the lib of the folder that this crate is installed in, or what pkg-config says, or
//! where the linker looks by itself. The archive is linked where it is found.

use std::env;
use std::path::{Path, PathBuf};
use std::process::Command;

fn main() {
    println!("cargo:rerun-if-env-changed=MOONHALYARD_LIB");
    println!("cargo:rerun-if-changed=build.rs");
    match folder() {
        Some(folder) => {
            println!("cargo:rustc-link-search=native={}", folder.display());
            let archive = folder.join("libmoonhalyard.a").exists();
            println!("cargo:rustc-link-lib={}=moonhalyard", if archive { "static" } else { "dylib" });
        }
        None => println!("cargo:rustc-link-lib=dylib=moonhalyard"),
    }
}

fn folder() -> Option<PathBuf> {
    if let Some(told) = env::var_os("MOONHALYARD_LIB") {
        return Some(told.into());
    }
    let here = PathBuf::from(env::var_os("CARGO_MANIFEST_DIR")?);
    let beside = here.join("../../../lib");
    if beside.join("libmoonhalyard.a").exists() {
        return Some(beside);
    }
    let told = Command::new("pkg-config").args(["--variable=libdir", "moonhalyard"]).output().ok()?;
    let told = String::from_utf8(told.stdout).ok()?;
    let told = Path::new(told.trim());
    told.is_dir().then(|| told.to_path_buf())
}
