//! write-cases DIR: writes DIR/names_run, DIR/rowset_run, DIR/compile_run and DIR/calls_run, each with
//! the files stdin and stdout.

use second::cases::{calls, charts, names, rows};
use std::path::{Path, PathBuf};
use std::{env, fs, io};

fn folder(top: &Path, name: &str) -> io::Result<PathBuf> {
    let folder = top.join(name);
    fs::create_dir_all(&folder)?;
    Ok(folder)
}

fn main() -> io::Result<()> {
    let top = env::args().nth(1).expect("write-cases DIR");
    let named = folder(Path::new(&top), "names_run")?;
    fs::write(named.join("stdin"), names::input())?;
    fs::write(named.join("stdout"), names::expected(&names::input()))?;
    let rowed = folder(Path::new(&top), "rowset_run")?;
    let (mut input, mut expected) = (Vec::new(), Vec::new());
    rows::write_cases(&mut input, &mut expected)?;
    fs::write(rowed.join("stdin"), input)?;
    fs::write(rowed.join("stdout"), expected)?;
    let compiled = folder(Path::new(&top), "compile_run")?;
    let (input, expected) = charts::texts().expect("a text takes what is written to it");
    fs::write(compiled.join("stdin"), input)?;
    fs::write(compiled.join("stdout"), expected)?;
    let called = folder(Path::new(&top), "calls_run")?;
    let (input, expected) = calls::texts();
    fs::write(called.join("stdin"), input)?;
    fs::write(called.join("stdout"), expected)
}
