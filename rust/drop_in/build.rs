//! Finds the unchanged Rust, which stays outside the repository: in ../shared/docs/src beside it, or in the folder that RUST_SRC names.
//!
//! Tests and example each include the file that is written here, as their module `fiber`: the Rust names itself by that path.

use std::path::PathBuf;
use std::{env, fs, process};

const FILES: [&str; 2] = ["gossip_policy", "peer_message_policy"];

fn main() {
    println!("cargo:rerun-if-env-changed=RUST_SRC");
    let here = PathBuf::from(env::var_os("CARGO_MANIFEST_DIR").expect("cargo names this crate's folder"));
    let source = match env::var_os("RUST_SRC") {
        Some(folder) if !folder.is_empty() => PathBuf::from(folder),
        _ => here.join("../../../shared/docs/src"),
    };
    let mut modules = String::from("pub(crate) use fiber_types::Pubkey;\n");
    for name in FILES {
        let file = source.join(format!("crates/fiber-lib/src/fiber/{name}.rs"));
        println!("cargo:rerun-if-changed={}", file.display());
        let file = file.canonicalize().unwrap_or_else(|error| {
            eprintln!(
                "\nThe Rust to compare with is missing: {} ({error}).\n\
                 It is looked for in ../shared/docs/src beside the repository; set RUST_SRC to the folder that holds \
                 crates/fiber-lib/src/fiber.\n",
                file.display()
            );
            process::exit(1)
        });
        modules += &format!("#[path = {file:?}]\npub(crate) mod {name};\n");
    }
    let out = PathBuf::from(env::var_os("OUT_DIR").expect("cargo names a folder to write to"));
    fs::write(out.join("modules.rs"), modules).expect("writing to OUT_DIR");
}
