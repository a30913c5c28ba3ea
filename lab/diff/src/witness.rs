//! The lists with which it is proved that every figure is reached, as `bin/witness` writes them: by the outside tally each reaches
//! its figure exactly, and does not without its last read.

use crate::hammer::{run, Ran, TICK};
use crate::pair::Counts;
use model::memory::Settings;
use std::process::Command;

/// The most steps of a trace.
const MOST: u64 = 4_096;

/// The threshold of the lists in examples/witness.
const SHOWN: u64 = 3;

struct Figure {
    /// As `bin/witness` names it.
    name: &'static str,
    /// The steps of its list with B banks: so many for each of A, and so many more.
    length: fn(u64) -> (u64, u64),
    /// What it is to be with these settings.
    due: fn(&Settings) -> u64,
    /// What it was in a run, in whichever epoch it was greatest.
    had: fn(&Ran) -> u64,
}

/// The accesses that got 9.
fn nines(ran: &Ran) -> u64 {
    ran.numbers.iter().filter(|&&number| number == 9).count() as u64
}

const FIGURES: [Figure; 6] = [
    Figure { name: "home", length: |_| (4, 1), due: |s| u64::from(s.a) + 2, had: |ran| ran.most.home },
    Figure { name: "slot", length: |_| (4, 1), due: |s| u64::from(s.a) + 3, had: |ran| ran.most.slot },
    Figure {
        name: "home-over-tick",
        length: |_| (9, 2),
        due: |s| 2 * u64::from(s.a) + 4,
        had: |ran| ran.most.home_over_tick,
    },
    Figure {
        name: "slot-over-tick",
        length: |_| (6, 2),
        due: |s| 2 * u64::from(s.a) + 5,
        had: |ran| ran.most.slot_over_tick,
    },
    Figure { name: "quarantines", length: |b| (2 * b, 1), due: Settings::figure, had: |ran| ran.most.quarantines },
    Figure { name: "nine", length: |b| (4 * b, 1), due: |_| 1, had: nines },
];

/// What `bin/witness` writes; none where it says that a trace cannot have so many steps.
fn written(name: &str, a: u64, b: u64) -> Result<Option<String>, String> {
    let command = Command::new("bin/witness").args([name, &a.to_string(), &b.to_string()]).output();
    let ran = command.map_err(|error| format!("bin/witness: {error}"))?;
    let said = String::from_utf8_lossy(&ran.stderr);
    match ran.status.code() {
        Some(0) if said.is_empty() => Ok(Some(String::from_utf8_lossy(&ran.stdout).into_owned())),
        Some(1) if said.contains(&format!("and a trace has at most {MOST}")) && ran.stdout.is_empty() => Ok(None),
        _ => Err(format!("bin/witness {name} {a} {b}: {}, {said}", ran.status)),
    }
}

/// The settings and the steps of a trace.
fn read(trace: &str) -> Result<(Settings, Vec<u32>), String> {
    let numbers: Result<Vec<u32>, _> = trace.split_whitespace().map(str::parse).collect();
    match numbers.map_err(|error| format!("{error}: {trace}"))?.as_slice() {
        [7, n, q, w, k, a, l, b, count, steps @ ..] if *count as usize == steps.len() => {
            Ok((Settings { n: *n, q: *q, w: *w, k: *k, a: *a, l: *l, b: *b }, steps.to_vec()))
        }
        _ => Err(format!("no trace with a first count of 7: {trace}")),
    }
}

/// The list for A and B is as long as it is to be, reaches its figure exactly, and does not without its last read. All its calls
/// are accepted, but for the last of `nine`, which gets 9 with one slot less than suffices.
fn reaches(figure: &Figure, a: u64, b: u64, counts: &mut Counts) -> Result<(), String> {
    let wrong = |what: &str| format!("bin/witness {} {a} {b}: {what}", figure.name);
    let trace = written(figure.name, a, b)?.ok_or_else(|| wrong("no trace"))?;
    let (s, steps) = read(&trace)?;
    let (each, more) = (figure.length)(b);
    if (u64::from(s.a), u64::from(s.b), steps.len() as u64) != (a, b, each * a + more) {
        return Err(wrong(&format!("another list: {s:?}, {} steps", steps.len())));
    }
    let ran = run(s, std::slice::from_ref(&steps), counts)?;
    let nine = figure.name == "nine";
    if nine && u64::from(s.q) + 1 != 2 * s.figure() {
        return Err(wrong(&format!("another number of slots: {s:?}")));
    }
    let (last, others) = ran.numbers.split_last().ok_or_else(|| wrong("no steps"))?;
    let accepted = others.iter().all(|&number| number == 0) && *last == if nine { 9 } else { 0 };
    if !accepted || (figure.had)(&ran) != (figure.due)(&s) {
        return Err(wrong(&format!("{:?} with {s:?}, due {}, last answer {last}", ran.most, (figure.due)(&s))));
    }
    let last = steps.iter().rposition(|&step| step != TICK).ok_or_else(|| wrong("no read"))?;
    let short = [&steps[..last], &steps[last + 1..]].concat();
    if (figure.had)(&run(s, &[short], counts)?) >= (figure.due)(&s) {
        return Err(wrong("the figure is reached without the last read"));
    }
    Ok(())
}

/// Every figure, for small A and the greatest with which its list is a trace, where the next is refused; the lists in examples/ are
/// what `bin/witness` writes.
pub fn reached(counts: &mut Counts) -> Result<(), String> {
    let mut lists = 0;
    for figure in &FIGURES {
        let shown = format!("examples/witness/{}.trace", figure.name);
        let text = std::fs::read_to_string(&shown).map_err(|error| format!("{shown}: {error}"))?;
        if written(figure.name, SHOWN, 1)? != Some(text) {
            return Err(format!("{shown} is not what bin/witness writes for A = {SHOWN}"));
        }
        for b in [1, 2, 3, 16] {
            let (each, more) = (figure.length)(b);
            let greatest = (MOST - more) / each;
            for a in [1, 2, SHOWN, greatest] {
                reaches(figure, a, b, counts)?;
                lists += 1;
            }
            if written(figure.name, greatest + 1, b)?.is_some() {
                return Err(format!("bin/witness {} {} {b} writes more than {MOST} steps", figure.name, greatest + 1));
            }
        }
    }
    println!("   {lists} lists of bin/witness reach their figures exactly, and do not without their last read");
    Ok(())
}
