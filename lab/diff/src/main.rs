//! Compares the library of include/aqua.h with an engine written a second time from documents 01 and 02. The first
//! argument overrides the seed. Exit status 0 only if everything agrees and every planted fault is noticed.

mod banks;
mod estimates;
mod fixed;
mod garbage;
mod hammer;
mod huge;
mod pair;
mod seen;
mod sizing;
mod sound;
mod tally;
mod witness;
mod worn;

use model::fault::{Fault, FAULTS};
use model::memory::Settings;
use model::rng::Rng;
use pair::Counts;
use seen::Seen;
use std::process::ExitCode;
use std::time::Instant;

const SOUND_CALLS: u64 = 1_500_000;
const GARBAGE_CALLS: u64 = 3_000_000;
const HAMMER_CALLS: u64 = 250_000;
const FAULT_CALLS: u64 = 400_000;
const LEAST_HITS: u64 = 100;

fn sound_histories(rng: &mut Rng, counts: &mut Counts) -> Result<(), String> {
    let mut seen = Seen::default();
    while counts.total() < SOUND_CALLS {
        sound::random(rng, Fault::Nothing, counts, &mut seen)?;
    }
    sound::lengths(rng, Fault::Nothing, counts, &mut seen)?;
    worn::largest(rng, counts, &mut seen)?;
    // The most tracker entries, 65,536 of them, and the largest settings of all; few calls, since each compares 400
    // kilobytes and 537 megabytes.
    for a in [1, 2, 65_535] {
        let l = 4_096 * a.min(332);
        let entries = Settings { n: 1_000, q: 40, w: 1, k: 4_096, a, l, b: 16 };
        sound::history(rng, &entries, 400, Fault::Nothing, counts, &mut seen)?;
    }
    let largest = Settings { n: 60_000, q: 5_500, w: 8_192, k: 4_096, a: 2, l: 8_193, b: 16 };
    sound::history(rng, &largest, 16, Fault::Nothing, counts, &mut seen)?;
    seen.print(counts.total());
    seen.judge(LEAST_HITS)
}

fn garbage_memory(rng: &mut Rng, counts: &mut Counts) -> Result<(), String> {
    let begun = counts.total();
    let mut cases = 0u64;
    while counts.total() < begun + GARBAGE_CALLS {
        garbage::case(rng, Fault::Nothing, counts)?;
        cases += 1;
    }
    println!("b. garbage memory: {} calls on {cases} memories", counts.total() - begun);
    let by_hand = fixed::scenes(counts)? + banks::scenes(counts)?;
    println!("   calls on tables made for them, as worked out by hand: {by_hand}");
    match huge::refused()? {
        Some(made) => println!("   lengths past 32 bits: {made} calls refused as due"),
        None => println!("   lengths past 32 bits: not tried, the machine gives no address space for them"),
    }
    sizing::compare(rng, 100_000, counts)
}

fn hammering(rng: &mut Rng, counts: &mut Counts) -> Result<(), String> {
    println!("d. hammering streams, most openings in one epoch and over one tick by the outside tally:");
    hammer::printed_trace(counts)?;
    for a in [1, 2, 3, 4, 7, 20, 100] {
        hammer::hammer(rng, a, HAMMER_CALLS, counts)?;
    }
    for a in [1, 2, 3, 10, 250] {
        (1..=16).try_for_each(|b| hammer::attained(a, b, counts))?;
    }
    for a in [1_000, 65_535] {
        [1, 2, 3].into_iter().try_for_each(|b| hammer::attained(a, b, counts))?;
    }
    println!(
        "   streams attain A + 2 at a home, A + 3 at a slot, over one tick 2 A + 4 and 2 A + 5, B (L / A) quarantines and a 9 \
         with Q = 2 B (L / A) - 1, for A up to 250 with every B, for A = 1,000 and 65,535 with B = 1, 2 and 3"
    );
    witness::reached(counts)
}

/// Every planted fault must show as a difference; sound histories and garbage memory take turns.
fn planted_faults(seed: u64) -> Result<(), String> {
    println!("e. planted faults, calls until the difference showed (by sound histories; by garbage memory):");
    let mut unnoticed = Vec::new();
    for fault in FAULTS {
        let mut by_sound = Counts::default();
        let mut by_garbage = Counts::default();
        let rng = &mut Rng::new(seed);
        let mut sound_shows = false;
        while !sound_shows && by_sound.total() < FAULT_CALLS {
            sound_shows = sound::random(rng, fault, &mut by_sound, &mut Seen::default()).is_err();
        }
        sound_shows = sound_shows || sound::lengths(rng, fault, &mut by_sound, &mut Seen::default()).is_err();
        let mut garbage_shows = false;
        while !garbage_shows && by_garbage.total() < FAULT_CALLS {
            garbage_shows = garbage::case(rng, fault, &mut by_garbage).is_err();
        }
        let shown = |shows: bool, counts: &Counts| if shows { counts.total().to_string() } else { "-".to_string() };
        let name = format!("{fault:?}");
        println!("   {name:<36}{:>9}{:>9}", shown(sound_shows, &by_sound), shown(garbage_shows, &by_garbage));
        if !sound_shows && !garbage_shows {
            unnoticed.push(name);
        }
    }
    if unnoticed.is_empty() {
        Ok(())
    } else {
        Err(format!("planted faults unnoticed: {}", unnoticed.join(", ")))
    }
}

fn run(seed: u64) -> Result<(), String> {
    let rng = &mut Rng::new(seed);
    let mut counts = Counts::default();
    let begun = Instant::now();
    let time = |what: &str| eprintln!("   ({what}: {:.1} s since the start)", begun.elapsed().as_secs_f64());
    sound_histories(rng, &mut counts)?;
    time("sound histories");
    garbage_memory(rng, &mut counts)?;
    time("garbage memory");
    hammering(rng, &mut counts)?;
    time("hammering streams");
    println!("c. calls per number and kind, answers and all lent memory equal in each:");
    counts.print();
    counts.judge(LEAST_HITS)?;
    planted_faults(seed)?;
    time("planted faults");
    Ok(())
}

fn main() -> ExitCode {
    let seed = match std::env::args().nth(1).map(|given| given.parse::<u64>()) {
        None => 20_240_607,
        Some(Ok(seed)) => seed,
        Some(Err(_)) => {
            eprintln!("the seed must be a number");
            return ExitCode::from(2);
        }
    };
    println!("seed {seed}");
    match run(seed) {
        Ok(()) => {
            println!("diff: ok");
            ExitCode::SUCCESS
        }
        Err(what) => {
            println!("diff: FAILED\n{what}");
            ExitCode::FAILURE
        }
    }
}
