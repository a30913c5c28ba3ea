//! Nanoseconds per access of four engines: the proved one through include/aqua.h, an idiomatic one in Rust, a tuned one
//! in Rust, and the tuned one built for this very processor (`native`). All judge every refusal at every call, make the
//! same calls on the same memory, and must give the same answers and leave the same memory. Exit status 0 if they do;
//! the targets are judged on the last lines.

mod clock;
mod machine;
mod measure;
mod report;
mod runner;
mod stream;
mod worn;

use measure::{measure, Cell, ROUNDS};
use std::process::ExitCode;
use std::time::Instant;
use stream::{stream, KINDS};

struct Options {
    markdown: bool,
    runs: usize,
}

fn options() -> Option<Options> {
    let mut options = Options { markdown: false, runs: 1 };
    let mut words = std::env::args().skip(1);
    while let Some(word) = words.next() {
        match word.as_str() {
            "--markdown" => options.markdown = true,
            "--runs" => options.runs = words.next()?.parse().ok().filter(|&runs| runs > 0)?,
            _ => return None,
        }
    }
    Some(options)
}

fn run() -> Result<Vec<Cell>, String> {
    let mut cells = Vec::new();
    for kind in KINDS {
        report::print_head(kind);
        for size in kind.sizes() {
            let cell = measure(&stream(kind, size))?;
            report::print_row(&cell);
            cells.push(cell);
        }
    }
    Ok(cells)
}

fn all_runs(options: &Options) -> Result<(), String> {
    println!("{}", machine::describe()?);
    println!("Nanoseconds of processor time per access, and ratios of speeds (above 1: the proved engine is faster),");
    println!("each the median of {ROUNDS} rounds. An access is a read into a buffer of W bytes, not cleared before.");
    let mut runs = Vec::new();
    for number in 1..=options.runs {
        if options.runs > 1 {
            println!("\nRun {number} of {}", options.runs);
        }
        runs.push(run()?);
    }
    if options.markdown || options.runs > 1 {
        report::print_markdown(&runs);
    }
    report::summary(&runs);
    Ok(())
}

fn main() -> ExitCode {
    let Some(options) = options() else {
        eprintln!("usage: lab/bench/run [--markdown] [--runs N]");
        return ExitCode::from(2);
    };
    let begun = Instant::now();
    match all_runs(&options) {
        Ok(()) => {
            println!("bench: ok ({:.0} s)", begun.elapsed().as_secs_f64());
            ExitCode::SUCCESS
        }
        Err(what) => {
            println!("bench: FAILED\n{what}");
            ExitCode::FAILURE
        }
    }
}
