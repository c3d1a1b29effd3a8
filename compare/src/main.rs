//! The program `compare`: an independent scheduler written from document 01 alone. Here stand its
//! commands.

mod assignment;
#[cfg(feature = "library")]
mod bench;
mod card;
mod cases;
#[cfg(feature = "library")]
mod differ;
#[cfg(feature = "library")]
mod hungarian;
#[cfg(feature = "library")]
mod library;
mod log;
mod matching;
mod random;
mod replay;
mod samples;
mod selftest;
mod slot;
#[cfg(feature = "library")]
mod soak;
mod vectors;
mod wide;

use std::io::Write;
use std::path::Path;
use std::process::ExitCode;

const USAGE: &str =
    "compare replay FILE | compare selftest | compare vectors DIR | compare logs DIR\n\
     with the library: compare bench | compare differ [SEED [ROUNDS]] | compare soak SECONDS [SEED] \
     | compare soak slots COUNT [SEED] [M N D] | compare soak one CARDSEED [M N D]";

/// Where a command that calls the proved library is not there.
#[cfg(not(feature = "library"))]
const NEEDS_LIBRARY: &str =
    "this command needs the proved library: `bin/library` in the \
     project's root, then `--features library`";

fn main() -> ExitCode {
    let words: Vec<String> = std::env::args().skip(1).collect();
    let words: Vec<&str> = words.iter().map(String::as_str).collect();
    match words[..] {
        ["replay", file] => replay_file(file),
        ["selftest"] => selftest_all(),
        ["vectors", directory] => said(directory, vectors::write(Path::new(directory))),
        ["logs", directory] => said(directory, vectors::write_samples(Path::new(directory))),
        ["bench"] | ["differ" | "soak", ..] => with_library(&words),
        _ => fault(USAGE),
    }
}

/// A message on standard error and exit status 2.
fn fault(message: &str) -> ExitCode {
    eprintln!("{message}");
    ExitCode::from(2)
}

fn replay_file(file: &str) -> ExitCode {
    let text = match std::fs::read(file) {
        Ok(log) => replay::replay(&log),
        Err(error) => return fault(&format!("{file}: {error}")),
    };
    match std::io::stdout().write_all(text.as_bytes()) {
        Ok(()) => ExitCode::SUCCESS,
        Err(error) => fault(&format!("standard output: {error}")),
    }
}

/// A stop inside the program counts as a difference.
fn selftest_all() -> ExitCode {
    match std::panic::catch_unwind(selftest::run) {
        Ok(true) => ExitCode::SUCCESS,
        _ => ExitCode::from(1),
    }
}

/// The commands that compare the proved library with this program.
#[cfg(feature = "library")]
fn with_library(words: &[&str]) -> ExitCode {
    let run = || match words {
        ["bench"] => Some(bench_all()),
        ["differ", rest @ ..] => differ::command(rest),
        ["soak", rest @ ..] => soak::command(rest),
        _ => None,
    };
    match std::panic::catch_unwind(run) {
        Ok(Some(true)) => ExitCode::SUCCESS,
        Ok(None) => fault(USAGE),
        _ => ExitCode::from(1),
    }
}

/// A difference between the library and what it is set beside ends the benchmark.
#[cfg(feature = "library")]
fn bench_all() -> bool {
    bench::run()
        .map_err(|difference| eprintln!("{difference}"))
        .is_ok()
}

#[cfg(not(feature = "library"))]
fn with_library(_: &[&str]) -> ExitCode {
    fault(NEEDS_LIBRARY)
}

/// What was written, or why not.
fn said(directory: &str, written: std::io::Result<String>) -> ExitCode {
    match written {
        Ok(text) => {
            print!("{text}");
            ExitCode::SUCCESS
        }
        Err(error) => fault(&format!("{directory}: {error}")),
    }
}

#[cfg(test)]
mod tests {
    #[test]
    fn the_selftest_is_well() {
        assert!(super::selftest::run());
    }
}
