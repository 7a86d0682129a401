//! The self-test: each edit of the Rust is built and compared; the comparison must notice it.

use checks::compare::Part;
use checks::mutants::{self, Mutant};
use std::fs;
use std::path::{Path, PathBuf};
use std::process::{Command, ExitCode, Stdio};
use std::time::{Duration, Instant};

const SOURCE: &str = "crates/fiber-lib/src/fiber";
const FILES: [&str; 2] = ["peer_message_policy.rs", "gossip_policy.rs"];
/// An edit may make the Rust loop for ever.
const LONGEST_RUN: Duration = Duration::from_secs(60);

enum Verdict {
    Caught(String),
    Survived,
    Broken(String),
}

struct SelfTest {
    oracle: PathBuf,
    source: PathBuf,
    part: Part,
    calls: String,
    seed: String,
}

/// Of a hundred calls, so many of a whole comparison are on the gossip policy.
const GOSSIP_SHARE: u64 = 30;

#[derive(Default)]
struct Counts {
    caught: usize,
    explained: usize,
    wrong: Vec<String>,
}

/// The edits of the gossip policy's own parts are tried only where the port has them.
pub fn run(oracle: &Path, has_gossip: bool, calls: u64, seed: u64) -> ExitCode {
    let mut counts = Counts::default();
    let mut parts = vec![(Part::Rest, calls)];
    if has_gossip {
        parts.push((Part::Gossip, calls * GOSSIP_SHARE / 100));
    }
    let mut count = 0;
    for (part, calls) in parts {
        if !run_part(oracle, part, calls, seed, &mut counts) {
            return ExitCode::FAILURE;
        }
        count += mutants::of_part(part).len();
    }
    for line in &counts.wrong {
        println!("{line}");
    }
    println!(
        "{count} mutants: {} caught, {} survived with an explanation, {} wrong",
        counts.caught,
        counts.explained,
        counts.wrong.len()
    );
    ExitCode::from(!counts.wrong.is_empty() as u8)
}

/// Whether the unchanged Rust passes.
fn run_part(oracle: &Path, part: Part, calls: u64, seed: u64, counts: &mut Counts) -> bool {
    let source = std::env::var("RUST_SRC")
        .ok()
        .filter(|folder| !folder.is_empty())
        .map(PathBuf::from)
        .unwrap_or(oracle.join("../../shared/docs/src"));
    let test = SelfTest {
        oracle: oracle.to_path_buf(),
        source,
        part,
        calls: calls.to_string(),
        seed: seed.to_string(),
    };
    match test.try_text("unchanged", None) {
        Verdict::Survived => println!("the unchanged Rust: no mismatch in {calls} calls"),
        Verdict::Caught(how) | Verdict::Broken(how) => {
            println!("the unchanged Rust doesn't pass: {how}");
            return false;
        }
    }
    for mutant in mutants::of_part(part) {
        let verdict = test.try_text(mutant.name, Some(mutant));
        match (verdict, mutant.same) {
            (Verdict::Caught(how), "") => {
                println!("caught    {}: {how}", mutant.name);
                counts.caught += 1;
            }
            (Verdict::Survived, why) if !why.is_empty() => {
                println!("survived  {}: {why}", mutant.name);
                counts.explained += 1;
            }
            (Verdict::Survived, _) => counts.wrong.push(format!("SURVIVED  {}", mutant.name)),
            (Verdict::Caught(how), _) => {
                let line = format!("CAUGHT, though thought the same: {}: {how}", mutant.name);
                counts.wrong.push(line);
            }
            (Verdict::Broken(how), _) => counts.wrong.push(format!("BROKEN    {}: {how}", mutant.name)),
        }
    }
    true
}

impl SelfTest {
    fn try_text(&self, name: &str, mutant: Option<&Mutant>) -> Verdict {
        let tree = self.oracle.join("target/mutants/source").join(name);
        match self.write(&tree, mutant).and_then(|()| self.build(&tree)) {
            Ok(()) => self.compare(),
            Err(how) => Verdict::Broken(how),
        }
    }

    fn write(&self, tree: &Path, mutant: Option<&Mutant>) -> Result<(), String> {
        let folder = tree.join(SOURCE);
        fs::create_dir_all(&folder).map_err(|error| error.to_string())?;
        for file in FILES {
            let from = self.source.join(SOURCE).join(file);
            let mut text = fs::read_to_string(&from)
                .map_err(|error| format!("{}: {error}; RUST_SRC names another folder", from.display()))?;
            if let Some(mutant) = mutant.filter(|mutant| mutant.file == file) {
                text = mutant
                    .apply(&text)
                    .ok_or("the old text doesn't stand there exactly once")?;
            }
            fs::write(folder.join(file), text).map_err(|error| error.to_string())?;
        }
        Ok(())
    }

    /// In a folder of its own, where all but the edited crate and the checker is built once; those two without
    /// optimising, which is quicker than running them is slower. Sums wrap all the same (Cargo.toml).
    fn build(&self, tree: &Path) -> Result<(), String> {
        let output = Command::new("cargo")
            .args(["build", "--offline", "--release", "--quiet", "--package", "checker"])
            .args(["--config", "profile.release.package.original.opt-level=0"])
            .args(["--config", "profile.release.package.checker.opt-level=0"])
            .arg("--manifest-path")
            .arg(self.oracle.join("Cargo.toml"))
            .arg("--target-dir")
            .arg(self.oracle.join("target/mutants/build"))
            .env("RUST_SRC", tree)
            .output()
            .map_err(|error| error.to_string())?;
        if output.status.success() {
            return Ok(());
        }
        let errors = String::from_utf8_lossy(&output.stderr);
        let first = errors.lines().find(|line| line.starts_with("error"));
        Err(format!("does not build: {}", first.unwrap_or("no error given")))
    }

    fn part_name(&self) -> &str {
        match self.part {
            Part::Gossip => "gossip",
            Part::Rest => "rest",
        }
    }

    fn compare(&self) -> Verdict {
        let said = self.oracle.join("target/mutants/said");
        let run = fs::File::create(&said).and_then(|file| {
            Command::new(self.oracle.join("target/mutants/build/release/checker"))
                .args([self.part_name(), &self.calls, &self.seed])
                .stdout(file)
                .stderr(Stdio::null())
                .spawn()
        });
        let mut run = match run {
            Ok(run) => run,
            Err(error) => return Verdict::Broken(error.to_string()),
        };
        let began = Instant::now();
        let status = loop {
            match run.try_wait() {
                Ok(Some(status)) => break status,
                _ if began.elapsed() > LONGEST_RUN => {
                    let _ = run.kill();
                    let _ = run.wait();
                    return Verdict::Caught("does not end".into());
                }
                _ => std::thread::sleep(Duration::from_millis(5)),
            }
        };
        let text = fs::read_to_string(&said).unwrap_or_default();
        let line: String = text.lines().next().unwrap_or("").chars().take(90).collect();
        match status.code() {
            Some(0) => Verdict::Survived,
            Some(1) => Verdict::Caught(line),
            Some(101) => Verdict::Caught("panics".into()),
            other => Verdict::Broken(format!("ended with {other:?}")),
        }
    }
}
