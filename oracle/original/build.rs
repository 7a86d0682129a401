//! Copies the Rust to OUT_DIR, its text unchanged, with accessors appended that read and set private state.
//!
//! The files stay where they are: <repository>/../shared/docs/src, or the folder that RUST_SRC names.
//! gossip_policy.rs begins with an inner attribute, which `include!` refuses, so the copies are named with `#[path]`.

use std::path::{Path, PathBuf};
use std::{env, fs, process};

/// The files, and the FNV-1a hash of each as published (nervosnetwork/fiber 704a14ea11).
const FILES: [(&str, u64); 2] = [
    ("gossip_policy", 0xf6d6e3cfdad22506),
    ("peer_message_policy", 0xef4862b28a0e0c17),
];

fn main() {
    println!("cargo:rerun-if-env-changed=RUST_SRC");
    let here = PathBuf::from(env::var("CARGO_MANIFEST_DIR").unwrap());
    let out = PathBuf::from(env::var("OUT_DIR").unwrap());
    let source = match env::var("RUST_SRC") {
        Ok(folder) if !folder.is_empty() => PathBuf::from(folder),
        _ => here.join("../../../shared/docs/src"),
    };
    let mut modules = String::new();
    let mut as_published = true;
    for (name, published) in FILES {
        let file = source.join(format!("crates/fiber-lib/src/fiber/{name}.rs"));
        let accessors = here.join(format!("accessors/{name}.rs"));
        println!("cargo:rerun-if-changed={}", file.display());
        println!("cargo:rerun-if-changed={}", accessors.display());
        let rust = read(&file);
        as_published &= hash(&rust) == published;
        let text = rust + &read(&accessors);
        let copy = out.join(format!("{name}.rs"));
        fs::write(&copy, text).expect("writing to OUT_DIR");
        modules += &format!("#[path = {copy:?}]\npub(crate) mod {name};\n");
    }
    modules += &format!("pub(crate) const AS_PUBLISHED: bool = {as_published};\n");
    fs::write(out.join("modules.rs"), modules).expect("writing to OUT_DIR");
}

fn hash(text: &str) -> u64 {
    let step = |hash: u64, byte: u8| (hash ^ u64::from(byte)).wrapping_mul(0x100_0000_01b3);
    text.bytes().fold(0xcbf2_9ce4_8422_2325, step)
}

fn read(file: &Path) -> String {
    fs::read_to_string(file).unwrap_or_else(|error| {
        eprintln!(
            "The Rust to compare with is missing: {} ({error}).\n\
             It is looked for in ../shared/docs/src beside the repository; set RUST_SRC to the folder \
             that holds crates/fiber-lib/src/fiber.",
            file.display()
        );
        process::exit(1);
    })
}
