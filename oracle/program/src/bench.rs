//! Times the unchanged Rust and the port: two traces of admits, new peers over a full table, how an admit's time grows with the rows and where it
//! goes, the port's walk beside one written by hand, and the gossip policy's calls.

mod clock;
mod evicting;
mod gossip;
mod growth;
mod plot;
mod processor;
mod sides;
mod stages;
mod trace;
mod walk;

use clock::RUNS;
use std::process::ExitCode;
use trace::{Maker, Trace, SMALL_AND_FULL, THREE_A_MILLISECOND};
use vocabulary::Port;

const EVENTS: usize = 100_000;

/// Prints all times, and draws how an admit's grows where a file is named.
pub fn run<P: Port>(port: &P, picture: Option<&str>) -> ExitCode {
    let processor = processor::name();
    println!("processor: {processor}");
    println!(
        "{EVENTS} admits, processor time, median of {RUNS} runs each, in turns; the port is {}",
        port.name()
    );
    for peers in SMALL_AND_FULL {
        println!("{peers:>5} peers: {}", sides::time(port, &from_nothing(peers)));
    }
    walk::run(port);
    stages::run(port);
    evicting::run(port);
    let points = growth::run(port);
    gossip::run(port);
    match picture.map(|file| (file, std::fs::write(file, plot::svg(&processor, &points)))) {
        Some((file, Err(error))) => {
            eprintln!("{file}: {error}");
            ExitCode::FAILURE
        }
        _ => ExitCode::SUCCESS,
    }
}

/// Random peers that have no rows yet.
fn from_nothing(peers: usize) -> Trace {
    let mut maker = Maker::new(THREE_A_MILLISECOND);
    let keys = maker.keys(peers);
    Trace {
        opening: Vec::new(),
        events: maker.of_any(&keys, EVENTS),
        rows: peers,
    }
}
