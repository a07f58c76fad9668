//! Says where the static library is that holds the proved code.
//!
//! The archive is `libexports.a`. On x86-64 it is the proved code itself, in
//! `target/staticlib`. That code is compiled for x86-64 only, so on other
//! machines an archive of the same name, in `target/bridge`, hands each call to
//! an x86-64 program. `ASDRIFEN_LIB_DIR` names another folder.

use std::env;
use std::path::{Path, PathBuf};

fn main() {
    let folder = library_folder();
    let archive = folder.join("libexports.a");
    println!("cargo:rerun-if-env-changed=ASDRIFEN_LIB_DIR");
    println!("cargo:rerun-if-changed={}", archive.display());
    println!("cargo:rustc-link-search=native={}", folder.display());
    // Linked where a program is made, so that documents and checks need no archive.
    println!("cargo:rustc-link-lib=static:-bundle=exports");
    if !archive.is_file() {
        println!(
            "cargo:warning={} is not there, so no program can be linked. Run tools/build-library at the top of the repository.",
            archive.display()
        );
    }
}

fn library_folder() -> PathBuf {
    if let Some(folder) = env::var_os("ASDRIFEN_LIB_DIR") {
        return PathBuf::from(folder);
    }
    let here = env::var("CARGO_MANIFEST_DIR").expect("cargo sets CARGO_MANIFEST_DIR");
    let machine = env::var("CARGO_CFG_TARGET_ARCH").expect("cargo sets CARGO_CFG_TARGET_ARCH");
    let top = Path::new(&here)
        .ancestors()
        .nth(2)
        .expect("the crate stands two folders down");
    let kind = if machine == "x86_64" {
        "staticlib"
    } else {
        "bridge"
    };
    top.join("target").join(kind)
}
