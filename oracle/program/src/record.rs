//! Writes the recorded lists anew.

use checks::lists::LISTS;
use original::UnchangedRust;
use std::fs;
use std::path::Path;
use std::process::ExitCode;

/// Below the given folder, or below the repository.
pub fn run(root: &Path) -> ExitCode {
    if !original::AS_PUBLISHED {
        eprintln!("RUST_SRC names an edited Rust: nothing is recorded from it");
        return ExitCode::FAILURE;
    }
    for (folder, record) in LISTS {
        let list = record(&mut UnchangedRust::default());
        let folder = root.join(folder);
        let written = fs::create_dir_all(&folder)
            .and_then(|()| fs::write(folder.join("stdin"), &list.input))
            .and_then(|()| fs::write(folder.join("stdout"), &list.output));
        if let Err(error) = written {
            eprintln!("{}: {error}", folder.display());
            return ExitCode::FAILURE;
        }
        println!("{}: {} records", folder.display(), list.records);
    }
    ExitCode::SUCCESS
}
