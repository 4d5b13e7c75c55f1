//! Links libauttervil.a in the folder that AUTTERVIL_LIBRARY names, or build/, where `make lib` writes it.

use std::env;
use std::path::{Path, PathBuf};

const FOLDER: &str = "AUTTERVIL_LIBRARY";

fn main() {
    println!("cargo:rerun-if-env-changed={FOLDER}");
    let built = || Path::new(env!("CARGO_MANIFEST_DIR")).join("../build");
    let folder = env::var_os(FOLDER).map_or_else(built, PathBuf::from);
    println!("cargo:rerun-if-changed={}", folder.join("libauttervil.a").display());
    println!("cargo:rustc-link-search=native={}", folder.display());
    println!("cargo:rustc-link-lib=static=auttervil");
}
