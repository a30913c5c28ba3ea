//! Compares the trace program with a second interpreter of trace files, written from documents 01 and 02. Arguments: the
//! program (crates/trace/out/trace if none is given), then a seed. `--interpret` in place of the program makes this one the
//! interpreter, from standard input to standard output; `--self` compares it with itself through a process. With both a
//! fault may be named after them, to see it found.

mod bank_vectors;
mod census;
mod file;
mod flaw;
mod hostile;
mod interpret;
mod malformed;
mod program;
mod sound;
mod vectors;
mod worn;

use census::Census;
use file::File;
use flaw::{Flaw, FLAWS};
use interpret::{interpret, Verdict};
use model::rng::Rng;
use program::Program;
use std::io::{Read, Write};
use std::process::ExitCode;
use std::time::Instant;

const WELL_FORMED: usize = 3_000;
const WORN: usize = 150;
const MALFORMED: usize = 2_600;
/// Files with more steps than this are tried on a planted fault only while nothing shorter shows it.
const LONG: u64 = 1_000;

/// Lists that reach the figures, from the repository's examples.
const WITNESSES: [&str; 6] = [
    include_str!("../../../examples/witness/home.trace"),
    include_str!("../../../examples/witness/slot.trace"),
    include_str!("../../../examples/witness/home-over-tick.trace"),
    include_str!("../../../examples/witness/slot-over-tick.trace"),
    include_str!("../../../examples/witness/quarantines.trace"),
    include_str!("../../../examples/witness/nine.trace"),
];

/// Where a file is kept that the program fails on.
const KEPT: &str = "target/trace-failed.in";

/// The program's answer to one file is the one expected: standard output byte for byte, nothing on standard error, and exit
/// status 0.
fn compare(program: &Program, at: usize, file: &File, expected: &str) -> Result<(), String> {
    let piece = [usize::MAX, 4_096, 1_000, 60_000][at % 4];
    let ran = program.run(&file.bytes, piece)?;
    if ran.status.success() && ran.said.is_empty() && ran.output == expected.as_bytes() {
        return Ok(());
    }
    let shown = |bytes: &[u8]| {
        let text = String::from_utf8_lossy(&bytes[..bytes.len().min(600)]).into_owned();
        format!("{} bytes: {text:?}", bytes.len())
    };
    let first = ran.output.iter().zip(expected.as_bytes()).position(|(got, wanted)| got != wanted);
    let kept = if std::fs::write(KEPT, &file.bytes).is_ok() { format!(", kept as {KEPT}") } else { String::new() };
    Err(format!(
        "file {at} ({}{kept}), {}\nprogram, {}, {}\nstandard error, {}\nexpected {}\nfirst difference at byte {}",
        file.rule,
        shown(&file.bytes),
        ran.status,
        shown(&ran.output),
        shown(&ran.said),
        shown(expected.as_bytes()),
        first.unwrap_or(ran.output.len().min(expected.len())),
    ))
}

fn compare_vectors(program: &Program) -> Result<(), String> {
    let vectors = vectors::all();
    for (at, vector) in vectors.iter().enumerate() {
        let file = File::new("vector", vector.file.clone());
        if interpret(&file.bytes, Flaw::Nothing).text != vector.printed {
            return Err(format!("the second interpreter fails on {:?}", String::from_utf8_lossy(&file.bytes)));
        }
        compare(program, at, &file, &vector.printed)?;
    }
    println!("a. files with lines printed in document 01 or derived by hand from 01 and 02: {}", vectors.len());
    Ok(())
}

/// Files, each with what is expected of it; they are made once and serve the planted faults too.
type Expected = (File, interpret::Printed);

fn compare_files(program: &Program, files: &[Expected]) -> Result<(), String> {
    let mut census = Census::default();
    for (at, (file, printed)) in files.iter().enumerate() {
        compare(program, at, file, &printed.text)?;
        census.note(file, printed);
    }
    println!(
        "b. files whose standard output was equal byte for byte, with exit status 0 and no message: {}",
        census.files
    );
    census.print();
    census.judge()
}

/// Input that cannot be read to its end is refused, and a message says why: whether nothing came, a blank, or a whole trace.
fn refuse_broken(program: &Program) -> Result<(), String> {
    let inputs: [&[u8]; 4] = [b"", b" \n", b"6 4 2 1 2 2 5 2 1 1", b"6 4 2 1 2 2 5 2 1 1\n"];
    for input in inputs {
        let ran = program.run_broken(input)?;
        if !ran.status.success()
            || ran.output != b"trace refused\n"
            || !ran.said.starts_with(b"trace: standard input: ")
        {
            let [printed, said] = [&ran.output, &ran.said].map(|bytes| String::from_utf8_lossy(bytes).into_owned());
            return Err(format!("a read that fails after {input:?}: {}, {printed:?}, {said:?}", ran.status));
        }
    }
    println!("c. inputs that cannot be read to their end, refused with a message: {}", inputs.len());
    Ok(())
}

/// Every planted fault must show in some file.
fn planted_faults(files: &[Expected]) -> Result<(), String> {
    let length = |(_, printed): &Expected| match printed.verdict {
        Verdict::Ran(seen) => seen.reads.iter().sum::<u64>() + seen.ticks,
        _ => 0,
    };
    let (long, short): (Vec<_>, Vec<_>) = files.iter().partition(|file| length(file) > LONG);
    println!("d. planted faults, files that show each, of {} (of {} long ones: the first)", short.len(), long.len());
    let shows = |flaw: Flaw, (file, printed): &Expected| interpret(&file.bytes, flaw).text != printed.text;
    let mut unnoticed = Vec::new();
    for flaw in FLAWS {
        let mut count = short.iter().filter(|file| shows(flaw, file)).count();
        if count == 0 {
            count = usize::from(long.iter().any(|file| shows(flaw, file)));
        }
        let name = format!("{flaw:?}");
        println!("   {name:<44}{count:>6}");
        if count == 0 {
            unnoticed.push(name);
        }
    }
    if unnoticed.is_empty() {
        Ok(())
    } else {
        Err(format!("planted faults unnoticed: {}", unnoticed.join(", ")))
    }
}

fn run(program: &Program, seed: u64) -> Result<(), String> {
    let rng = &mut Rng::new(seed);
    let begun = Instant::now();
    let time = |what: &str| eprintln!("   ({what}: {:.1} s since the start)", begun.elapsed().as_secs_f64());
    compare_vectors(program)?;
    let mut files = sound::files(rng, WELL_FORMED);
    files.extend(worn::files(rng, WORN));
    files.extend(hostile::files(rng));
    files.extend(malformed::files(rng, MALFORMED));
    files.extend(WITNESSES.map(|text| File::new("witness", text)));
    let expect = |file: File| {
        let printed = interpret(&file.bytes, Flaw::Nothing);
        (file, printed)
    };
    let files: Vec<Expected> = files.into_iter().map(expect).collect();
    time("files made");
    compare_files(program, &files)?;
    time("files compared");
    refuse_broken(program)?;
    planted_faults(&files)?;
    time("planted faults");
    Ok(())
}

/// This program as the interpreter. A second argument names a fault to plant.
fn interpret_input(flaw: Option<String>) -> Result<(), String> {
    let flaw = match flaw {
        None => Flaw::Nothing,
        Some(name) => FLAWS.into_iter().find(|flaw| format!("{flaw:?}") == name).ok_or("no such fault")?,
    };
    let mut input = Vec::new();
    let text = match std::io::stdin().read_to_end(&mut input) {
        Ok(_) => interpret(&input, flaw).text,
        Err(error) => {
            eprintln!("trace: standard input: {error}");
            "trace refused\n".to_string()
        }
    };
    std::io::stdout().write_all(text.as_bytes()).map_err(|error| error.to_string())
}

fn start() -> Result<(), String> {
    let mut arguments = std::env::args_os().skip(1);
    let path = arguments.next().unwrap_or("crates/trace/out/trace".into());
    let second = arguments.next().map(|argument| argument.to_string_lossy().into_owned());
    if path == "--interpret" {
        return interpret_input(second);
    }
    let program = if path == "--self" {
        let this = std::env::current_exe().map_err(|error| error.to_string())?;
        let fault = arguments.next();
        Program { path: this.into(), arguments: std::iter::once("--interpret".into()).chain(fault).collect() }
    } else {
        Program { path, arguments: Vec::new() }
    };
    let seed = second.map_or(Ok(20_240_607), |seed| seed.parse()).map_err(|_| "the seed must be a number")?;
    println!("seed {seed}, program {}", program.path.display());
    run(&program, seed)?;
    println!("trace: ok");
    Ok(())
}

fn main() -> ExitCode {
    match start() {
        Ok(()) => ExitCode::SUCCESS,
        Err(what) => {
            println!("trace: FAILED\n{what}");
            ExitCode::FAILURE
        }
    }
}
