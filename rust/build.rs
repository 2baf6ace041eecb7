//! Links the proved library's archive, or says how to make it.

use std::env;
use std::path::{Path, PathBuf};

const FOLDER_VARIABLE: &str = "LHSTAR_LIB_DIR";
const USUAL_FOLDER: &str = "../target/staticlib";
const ARCHIVE: &str = "liblhstar.a";

fn main() {
    println!("cargo::rerun-if-changed=build.rs");
    println!("cargo::rerun-if-env-changed={FOLDER_VARIABLE}");
    let folder = archive_folder();
    let archive = folder.join(ARCHIVE);
    println!("cargo::rerun-if-changed={}", archive.display());
    if archive.is_file() {
        println!("cargo::rustc-link-search=native={}", folder.display());
        println!("cargo::rustc-link-lib=static=lhstar");
    } else {
        tell_what_to_do(&archive);
    }
}

/// The folder that the variable names, else the one where `rt` puts the archive. A relative one is seen from this
/// package's folder.
fn archive_folder() -> PathBuf {
    let package = PathBuf::from(env::var_os("CARGO_MANIFEST_DIR").expect("cargo names the package's folder"));
    package.join(env::var_os(FOLDER_VARIABLE).unwrap_or_else(|| USUAL_FOLDER.into()))
}

fn tell_what_to_do(archive: &Path) {
    println!("cargo::error=the proved library is not built: there is no file {}", archive.display());
    println!("cargo::error=run `make` in the project's root; it writes target/staticlib/{ARCHIVE}");
    println!("cargo::error=if you have {ARCHIVE} elsewhere, name its folder in the variable {FOLDER_VARIABLE}");
}
