//! Links the proved code: libtushalets.a from the folder that TUSHALETS_LIB_DIR names, or from where
//! `tools/build-library` writes it.
use std::env;
use std::path::{Path, PathBuf};

const FOLDER_VARIABLE: &str = "TUSHALETS_LIB_DIR";
const DEFAULT_FOLDER: &str = "../../target/staticlib";
const ARCHIVE: &str = "libtushalets.a";

fn main() {
    println!("cargo:rerun-if-changed=build.rs");
    println!("cargo:rerun-if-env-changed={FOLDER_VARIABLE}");
    let folder = folder();
    let archive = folder.join(ARCHIVE);
    println!("cargo:rerun-if-changed={}", archive.display());
    if !archive.is_file() {
        eprintln!("There is no {}.", archive.display());
        eprintln!(
            "Run tools/build-library at the root of the repository, which writes the archive to target/staticlib,"
        );
        eprintln!("or set {FOLDER_VARIABLE} to the absolute path of a folder that has {ARCHIVE}.");
        std::process::exit(1);
    }
    println!("cargo:rustc-link-search=native={}", folder.display());
    println!("cargo:rustc-link-lib=static=tushalets");
}

/// A relative folder counts from the folder of this crate.
fn folder() -> PathBuf {
    let manifest = env::var_os("CARGO_MANIFEST_DIR").expect("cargo sets CARGO_MANIFEST_DIR");
    match env::var_os(FOLDER_VARIABLE) {
        Some(folder) => Path::new(&manifest).join(folder),
        None => Path::new(&manifest).join(DEFAULT_FOLDER),
    }
}
