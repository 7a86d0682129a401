//! Finds the archives of the proved library, or has them made.
//!
//! `UGLEZMIR_LIB_DIR` names a folder with ready ones, which are linked as they are. Otherwise `scripts/archive` proves and compiles them from
//! the sources that this crate stands among; that needs the Rattle kit's command `rt`, and does nothing where they are made of these sources.

use std::collections::{BTreeMap, BTreeSet};
use std::path::{Path, PathBuf};
use std::process::{exit, Command};
use std::{env, fs};

/// The crates whose C functions are linked, an archive each.
const EXPORTING: [&str; 7] = [
    "c_peers",
    "c_buckets",
    "c_bans",
    "c_limiter",
    "c_gossip",
    "c_snapshot",
    "c_trace",
];

/// The variable that names a folder with ready archives.
const READY: &str = "UGLEZMIR_LIB_DIR";

/// The scripts that make archives, seen from the repository's top.
const SCRIPTS: [&str; 3] = ["scripts/archive", "scripts/compile", "scripts/made.sh"];

fn main() {
    println!("cargo:rerun-if-env-changed={READY}");
    let folder = match env::var_os(READY) {
        Some(folder) if !folder.is_empty() => ready(&PathBuf::from(folder)),
        _ => made(),
    };
    println!("cargo:rustc-link-search=native={}", folder.display());
    for name in EXPORTING {
        println!("cargo:rustc-link-lib=static={name}");
    }
}

/// The folder that the user names, once every archive is seen there.
fn ready(named: &Path) -> PathBuf {
    if named.is_relative() {
        fail(&format!("{READY} is {}: give the folder's full path.", named.display()));
    }
    let folder = named.canonicalize().unwrap_or_else(|error| {
        fail(&format!(
            "{READY} names the folder {}, which can't be opened: {error}.",
            named.display()
        ));
    });
    for name in EXPORTING {
        let archive = folder.join(format!("lib{name}.a"));
        println!("cargo:rerun-if-changed={}", archive.display());
        if !archive.is_file() {
            fail(&format!(
                "{READY} names the folder {}, which has no lib{name}.a. `scripts/archive` in the repository of the proved library \
                 writes all archives to target/native.",
                folder.display()
            ));
        }
    }
    folder
}

/// A folder of cargo's, with copies of the archives that the repository's scripts have made: `target/native` may go, or change, at any time.
fn made() -> PathBuf {
    let root = sources();
    same_machine();
    let rt = find_rt();
    watch(&root, &rt);
    match Command::new(root.join(SCRIPTS[0])).args(EXPORTING).status() {
        Ok(status) if status.success() => copied(&root.join("target/native")),
        Ok(status) => fail(&format!(
            "`scripts/archive` could not make the archives ({status}); what it said stands above."
        )),
        Err(error) => fail(&format!("`scripts/archive` could not be run: {error}.")),
    }
}

fn copied(from: &Path) -> PathBuf {
    let into = PathBuf::from(env::var_os("OUT_DIR").expect("cargo names a folder to write to"));
    for name in EXPORTING {
        let archive = format!("lib{name}.a");
        if let Err(error) = fs::copy(from.join(&archive), into.join(&archive)) {
            fail(&format!(
                "{archive} could not be copied from {}: {error}.",
                from.display()
            ));
        }
    }
    into
}

fn sources() -> PathBuf {
    let here = PathBuf::from(env::var_os("CARGO_MANIFEST_DIR").expect("cargo names this crate's folder"));
    let root = here.join("../..");
    if !root.join("crates.txt").is_file() || !root.join(SCRIPTS[0]).is_file() {
        fail(&format!(
            "The sources of the proved library are not where they stand in its repository, two folders above {}.",
            here.display()
        ));
    }
    root.canonicalize().expect("a folder that was just read")
}

/// Archives are compiled for the processor at hand.
fn same_machine() {
    let of = |name: &str| env::var(name).unwrap_or_default();
    let (host, target) = (of("HOST"), of("TARGET"));
    let processor = |triple: &str| triple.split('-').next().map(str::to_string);
    if processor(&host) != processor(&target) || of("CARGO_CFG_TARGET_OS") != "linux" {
        fail(&format!(
            "The archives are made for the machine that makes them, under Linux: this one is {host}, and {target} is wanted."
        ));
    }
}

fn find_rt() -> PathBuf {
    let folders = env::var_os("PATH").unwrap_or_default();
    let found = env::split_paths(&folders)
        .map(|folder| folder.join("rt"))
        .find(|rt| rt.is_file());
    found.unwrap_or_else(|| {
        fail("The Rattle kit's command `rt`, which proves and compiles the library, is not on the PATH.");
    })
}

/// What the archives are made of: the crates below the exporting ones, the scripts, the kit. Not the archives, which the build itself writes.
fn watch(root: &Path, rt: &Path) {
    let list = fs::read_to_string(root.join("crates.txt")).expect("a file that was just seen");
    let mut watched = vec![root.join("crates.txt"), rt.to_path_buf()];
    watched.extend(SCRIPTS.map(|script| root.join(script)));
    for name in below(&list) {
        watched.extend(["src", "specs", "proofs"].map(|part| root.join("crates").join(&name).join(part)));
    }
    for path in watched.iter().filter(|path| path.exists()) {
        println!("cargo:rerun-if-changed={}", path.display());
    }
}

/// The exporting crates' static libraries, `NAME_c`, and all that they need, by crates.txt's lines `name words: needed ..`; a library of the kit
/// has no line.
fn below(list: &str) -> BTreeSet<String> {
    let line = |line: &str| {
        let (head, needs) = line.split('#').next()?.split_once(':')?;
        let name = head.split_whitespace().next()?;
        let needs = needs.split_whitespace().map(str::to_string).collect();
        Some((name.to_string(), needs))
    };
    let needs: BTreeMap<String, Vec<String>> = list.lines().filter_map(line).collect();
    let mut seen = BTreeSet::new();
    let mut open: Vec<String> = EXPORTING.map(|name| format!("{name}_c")).to_vec();
    while let Some(name) = open.pop() {
        if let Some(needed) = needs.get(&name) {
            open.extend(needed.iter().filter(|needed| !seen.contains(*needed)).cloned());
            seen.insert(name);
        }
    }
    seen
}

fn fail(what: &str) -> ! {
    eprintln!("\nuglezmir-sys: {what}\n");
    eprintln!("The proved library is linked in one of two ways:");
    eprintln!(
        "  ready archives: set {READY} to the folder that holds {};",
        EXPORTING.map(|name| format!("lib{name}.a")).join(", ")
    );
    eprintln!("  from its sources: use this crate in the library's repository, on Linux, with the Rattle kit's command `rt` on the PATH;");
    eprintln!("                    the first build proves the library, which takes some minutes.\n");
    exit(1)
}
