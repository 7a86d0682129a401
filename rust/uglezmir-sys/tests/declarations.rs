//! The declarations in `src/ffi.rs` and in `include/uglezmir.h` are those of the library's sources, and so are the numbers: no compiler sees both
//! sides of the C boundary, so this test reads all three.

use std::collections::{BTreeMap, BTreeSet};
use std::fs;
use std::path::{Path, PathBuf};

/// How a function is called: what crosses for each parameter, and what comes back.
type Shape = (Vec<String>, String);
type Functions = BTreeMap<String, Shape>;
type Numbers = BTreeMap<String, u64>;

/// It is withdrawn later, so the header doesn't publish it.
const UNPUBLISHED: &str = "uglezmir_held_time";

fn root() -> PathBuf {
    Path::new(env!("CARGO_MANIFEST_DIR")).join("../..")
}

fn read(file: &str) -> String {
    fs::read_to_string(root().join(file)).unwrap_or_else(|error| panic!("{file}: {error}"))
}

/// The text of every source of the crates whose name begins so.
fn sources(prefix: &str) -> String {
    let folders = fs::read_dir(root().join("crates"))
        .unwrap()
        .map(|entry| entry.unwrap().path());
    let named = |folder: &PathBuf| folder.file_name().unwrap().to_str().unwrap().starts_with(prefix);
    let files = folders
        .filter(named)
        .flat_map(|folder| fs::read_dir(folder.join("src")).unwrap());
    files
        .map(|file| fs::read_to_string(file.unwrap().path()).unwrap())
        .collect()
}

/// The functions of a text, each behind the mark: its name, its parameters, and what follows them.
fn declared<'a>(text: &'a str, mark: &'a str) -> impl Iterator<Item = (&'a str, Vec<&'a str>, &'a str)> {
    text.split(mark).skip(1).map(|rest| {
        let (name, rest) = rest.split_once('(').unwrap();
        let (parameters, behind) = rest.split_once(')').unwrap();
        let parameters = parameters.split(',').map(str::trim).filter(|p| !p.is_empty()).collect();
        (name.trim(), parameters, behind)
    })
}

/// What a reference to a Rust or Rattle type crosses as: a slice as a pointer and a length.
fn reference(type_of: &str, numbers: &Numbers) -> Vec<String> {
    let (access, pointed) = match type_of.strip_prefix("mut ") {
        Some(pointed) => ("changed", pointed),
        None => ("read", type_of),
    };
    let inner = pointed.trim_start_matches('[').trim_end_matches(']');
    match inner.split_once(';') {
        Some((item, length)) => vec![format!("{access} {} {item}", number(length.trim(), numbers))],
        None if pointed.starts_with('[') => vec![format!("{access} many {inner}"), "length".into()],
        None => vec![format!("{access} 1 {inner}")],
    }
}

fn number(text: &str, numbers: &Numbers) -> u64 {
    let named = text.rsplit("::").next().unwrap().trim_start_matches("UGLEZMIR_");
    named.parse().unwrap_or_else(|_| numbers[named])
}

fn of_rattle(text: &str, numbers: &Numbers) -> Functions {
    let mut functions = Functions::new();
    for (name, parameters, behind) in declared(text, "pub extern \"C\" fn ") {
        let shape = |parameter: &&str| {
            let (_, type_of) = parameter.split_once(": ").unwrap();
            match type_of.strip_prefix('&') {
                Some(type_of) => reference(type_of, numbers),
                None => vec![type_of.to_string()],
            }
        };
        let back = behind
            .trim_start()
            .strip_prefix("->")
            .map_or("nothing", |back| back.split_whitespace().next().unwrap());
        functions.insert(name.into(), (parameters.iter().flat_map(shape).collect(), back.into()));
    }
    functions
}

fn of_rust(text: &str, aliases: &BTreeMap<String, String>, numbers: &Numbers) -> Functions {
    let mut functions = Functions::new();
    for (name, parameters, behind) in declared(text, "pub fn ") {
        let shape = |parameter: &&str| {
            let (_, type_of) = parameter.split_once(": ").unwrap();
            match (type_of, type_of.strip_prefix('&')) {
                ("*mut u8", _) => vec!["changed many u8".to_string()],
                ("*const u8", _) => vec!["read many u8".to_string()],
                ("usize", _) => vec!["length".to_string()],
                (_, Some(type_of)) => {
                    let (access, named) = type_of
                        .strip_prefix("mut ")
                        .map_or(("", type_of), |named| ("mut ", named));
                    let named = aliases.get(named).map_or(named, String::as_str);
                    reference(&format!("{access}{named}"), numbers)
                }
                _ => vec![type_of.to_string()],
            }
        };
        let back = behind
            .split(';')
            .next()
            .unwrap()
            .trim()
            .strip_prefix("-> ")
            .unwrap_or("nothing");
        functions.insert(name.into(), (parameters.iter().flat_map(shape).collect(), back.into()));
    }
    functions
}

fn of_c(text: &str, numbers: &Numbers) -> Functions {
    let item = |c: &str| match c {
        "uint8_t" => "u8",
        "uint32_t" => "u32",
        "uint64_t" => "u64",
        other => panic!("{other} crosses"),
    };
    let mut functions = Functions::new();
    // a declaration ends in `;` and follows a comment
    for line in text.split(';').filter_map(|part| part.rsplit("*/").next()) {
        let Some((back, rest)) = line.trim().split_once(" uglezmir_") else {
            continue;
        };
        let (name, rest) = rest.split_once('(').unwrap();
        let parameters = rest.split(')').next().unwrap().split(',').map(str::trim);
        let shape = |parameter: &str| {
            let (access, rest) = match parameter.strip_prefix("const ") {
                Some(rest) => ("read", rest),
                None => ("changed", parameter),
            };
            let (type_of, named) = rest.split_once(' ').unwrap();
            match (type_of, named.strip_prefix('*'), named.split_once('[')) {
                ("size_t", ..) => "length".to_string(),
                (_, Some("value" | "length"), _) => format!("{access} 1 {}", item(type_of)),
                (_, Some(_), _) => format!("{access} many {}", item(type_of)),
                (_, _, Some((_, count))) => {
                    format!(
                        "{access} {} {}",
                        number(count.trim_end_matches(']'), numbers),
                        item(type_of)
                    )
                }
                _ => item(type_of).to_string(),
            }
        };
        let back = if back == "void" { "nothing" } else { item(back) };
        functions.insert(
            format!("uglezmir_{name}"),
            (parameters.map(shape).collect(), back.into()),
        );
    }
    functions
}

/// The constants of `src/numbers.rs`.
fn numbers() -> Numbers {
    constants(&read("rust/uglezmir-sys/src/numbers.rs"))
}

/// The lines `pub const NAME: type = number;`.
fn constants(text: &str) -> Numbers {
    let constant = |line: &str| {
        let (name, rest) = line.strip_prefix("pub const ")?.split_once(':')?;
        let value = rest.split_once("= ")?.1.trim_end_matches(';').replace('_', "");
        Some((name.to_string(), value.parse().ok()?))
    };
    text.lines().filter_map(constant).collect()
}

/// `pub type Name = [..];`, and those of a key.
fn aliases() -> BTreeMap<String, String> {
    let folder = fs::read_dir(root().join("rust/uglezmir-sys/src")).unwrap();
    let text: String = folder
        .map(|file| fs::read_to_string(file.unwrap().path()).unwrap())
        .collect();
    let alias = |line: &str| {
        let (name, of) = line.strip_prefix("pub type ")?.split_once(" = ")?;
        Some((name.to_string(), of.trim_end_matches(';').to_string()))
    };
    text.lines().filter_map(alias).collect()
}

/// The C functions of the sources; the width of a trace's line has its name there.
fn exported() -> Functions {
    let mut named = numbers();
    named.extend(constants(&sources("trace_lines")));
    of_rattle(&sources("c_"), &named)
}

#[test]
fn rust_declares_what_is_exported() {
    let exported = exported();
    let declared = of_rust(&read("rust/uglezmir-sys/src/ffi.rs"), &aliases(), &numbers());
    assert!(exported.len() >= 18, "{:?}", exported.keys());
    assert_eq!(exported, declared);
}

#[test]
fn the_header_declares_what_is_exported() {
    let mut exported = exported();
    assert!(exported.remove(UNPUBLISHED).is_some());
    assert_eq!(exported, of_c(&read("include/uglezmir.h"), &numbers()));
}

#[test]
fn the_header_has_every_number() {
    let define = |line: &str| {
        let (name, value) = line.strip_prefix("#define UGLEZMIR_")?.split_once(' ')?;
        Some((name.to_string(), value.parse().ok()?))
    };
    let defined: Numbers = read("include/uglezmir.h").lines().filter_map(define).collect();
    assert_eq!(numbers(), defined);
}

fn upper_snake(camel: &str) -> String {
    let mut name = String::new();
    for letter in camel.chars() {
        if letter.is_uppercase() && !name.is_empty() {
            name.push('_');
        }
        name.extend(letter.to_uppercase());
    }
    name
}

/// The arms `number => XOperation::Name,` of the sources, as `OP_X_NAME`.
fn operations(text: &str) -> Numbers {
    let arm = |line: &str| {
        let (value, named) = line.trim().trim_end_matches(',').split_once(" => ")?;
        let (subject, name) = named.split_once("Operation::")?;
        Some((
            format!("OP_{}_{}", upper_snake(subject), upper_snake(name)),
            value.parse().ok()?,
        ))
    };
    text.lines().filter_map(arm).collect()
}

#[test]
fn operations_have_the_sources_numbers() {
    let ours: Numbers = numbers()
        .into_iter()
        .filter(|(name, _)| name.starts_with("OP_"))
        .collect();
    assert_eq!(operations(&sources("c_")), ours);
}

/// The arms `Refusal::Name => number,` of the sources.
fn refusals(text: &str) -> Numbers {
    let arm = |line: &str| {
        let (name, value) = line.trim().strip_prefix("Refusal::")?.split_once(" => ")?;
        Some((upper_snake(name), value.trim_end_matches(',').parse().ok()?))
    };
    text.lines().filter_map(arm).collect()
}

#[test]
fn answers_causes_refusals_and_violations_have_the_sources_numbers() {
    let ours = numbers();
    let answers = constants(&(read("crates/c_words/src/answers.rt") + &read("crates/c_terms/src/reply.rt")));
    let is_answer = |name: &str| !["ANSWERS", "UNKNOWN"].contains(&name);
    for (named, prefix) in [
        (answers.into_iter().filter(|(name, _)| is_answer(name)).collect(), ""),
        (constants(&read("crates/c_words/src/cause.rt")), "CAUSE_"),
        (refusals(&sources("refusal")), "REFUSAL_"),
    ] {
        let named: Numbers = named;
        assert!(named.len() >= 6, "{named:?}");
        for (name, number) in named {
            assert_eq!(ours.get(&format!("{prefix}{name}")), Some(&number), "{name}");
        }
    }
    let mut seen = BTreeSet::new();
    for line in sources("c_bans").lines() {
        let Some((number, rest)) = line.trim().split_once(" => Some(GossipViolation::") else {
            continue;
        };
        let name = format!("VIOLATION_{}", upper_snake(rest.trim_end_matches("),")));
        assert_eq!(ours.get(&name), Some(&number.parse().unwrap()), "{name}");
        seen.insert(name);
    }
    assert_eq!(seen.len(), 3);
}
