//! write-examples DIRECTORY: writes the modules of theorems there, and the lines that list them to
//! stdout.

use second::theorems::modules;
use std::path::Path;
use std::process::ExitCode;

fn main() -> ExitCode {
    let Some(directory) = std::env::args().nth(1) else {
        eprintln!("usage: write-examples DIRECTORY");
        return ExitCode::FAILURE;
    };
    for module in modules() {
        let path = Path::new(&directory).join(format!("{}.antt", module.name));
        if let Err(error) = std::fs::write(&path, &module.text) {
            eprintln!("{}: {error}", path.display());
            return ExitCode::FAILURE;
        }
        println!("pub mod {}", module.name);
    }
    ExitCode::SUCCESS
}
