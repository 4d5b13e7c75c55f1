//! With the feature `linked`, package `linked` links libauttervil.a of the folder that
//! AUTTERVIL_LIBRARY names, and the header's wrappers are compiled by the C compiler, CC or cc.

use std::env;
use std::path::{Path, PathBuf};
use std::process::Command;

const FOLDER: &str = "AUTTERVIL_LIBRARY";

fn main() {
    println!("cargo:rerun-if-env-changed={FOLDER}");
    println!("cargo:rerun-if-changed=build.rs");
    if env::var_os("CARGO_FEATURE_LINKED").is_none() {
        return;
    }
    let folder = env::var(FOLDER).unwrap_or_else(|_| panic!("{FOLDER} names the folder of libauttervil.a"));
    let archive = Path::new(&folder).join("libauttervil.a");
    let archive = archive.canonicalize().unwrap_or_else(|_| panic!("there is no {}", archive.display()));
    println!("cargo:rerun-if-changed={}", archive.display());
    println!("cargo:rustc-link-search=native={}", archive.parent().expect("it is in a folder").display());
    wrappers();
}

/// src/wrappers.c as an archive; the library that it calls comes with package `linked`.
fn wrappers() {
    let out = PathBuf::from(env::var_os("OUT_DIR").expect("cargo says where"));
    let (object, archive) = (out.join("wrappers.o"), out.join("libwrappers.a"));
    let compiler = env::var_os("CC").unwrap_or_else(|| "cc".into());
    let flags = ["-std=c99", "-O2", "-Wall", "-Wextra", "-Werror", "-fPIC", "-I../include", "-c"];
    run(Command::new(compiler).args(flags).arg("src/wrappers.c").arg("-o").arg(&object));
    run(Command::new("ar").arg("rcs").arg(&archive).arg(&object));
    println!("cargo:rerun-if-env-changed=CC");
    println!("cargo:rerun-if-changed=src/wrappers.c");
    println!("cargo:rerun-if-changed=../include/auttervil.h");
    println!("cargo:rustc-link-search=native={}", out.display());
    println!("cargo:rustc-link-lib=static=wrappers");
}

fn run(command: &mut Command) {
    let status = command.status().unwrap_or_else(|why| panic!("{command:?}: {why}"));
    assert!(status.success(), "{command:?} failed");
}
