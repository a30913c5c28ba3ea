//! The figures as tables, for a terminal and in Markdown, and whether the targets are met.

use crate::measure::Cell;
use crate::runner::{IDIOMATIC, PROVED, RUNNERS, TUNED};
use crate::stream::{Kind, Size};

/// Proved against tuned: as fast, within the noise of a machine that others use.
const EVEN: f64 = 0.9;
/// Proved against idiomatic, on misses with K = 4096.
const TWICE: f64 = 2.0;
/// Nanoseconds of the proved engine for an access that is refused with 9.
const REFUSED: f64 = 20_000.0;

/// The first engine is the proved one, with which the others are compared.
const OTHERS: std::ops::Range<usize> = 1..RUNNERS.len();

pub fn print_head(kind: Kind) {
    let names: String = RUNNERS.iter().map(|runner| format!("{:>11}", runner.name)).collect();
    let others: String = OTHERS.map(|at| format!("{:>13}", format!("/ {}", RUNNERS[at].name))).collect();
    println!("\n{}: {}", kind.name(), kind.settings());
    println!("{:>5}{:>6}{:>4}{names}   proved:{others}", "W", "K", "B");
}

pub fn print_row(cell: &Cell) {
    let times: String = cell.nanoseconds.iter().map(|&time| format!("{:>11}", nanoseconds(time))).collect();
    let ratios: String = OTHERS.map(|at| format!("{:>13}", ratio(cell.ratios[at]))).collect();
    let Size { w, k, b } = cell.size;
    println!("{w:>5}{k:>6}{b:>4}{times}{:>10}{ratios}", "");
}

fn nanoseconds(time: f64) -> String {
    let digits = if time < 99.95 { 1 } else { 0 };
    format!("{time:.digits$}")
}

fn ratio(ratio: f64) -> String {
    let digits = if ratio < 99.995 { 2 } else { 0 };
    format!("{ratio:.digits$}")
}

fn least(figures: impl Iterator<Item = f64>) -> f64 {
    figures.fold(f64::INFINITY, f64::min)
}

fn most(figures: impl Iterator<Item = f64>) -> f64 {
    figures.fold(0.0, f64::max)
}

fn verdict(met: bool) -> &'static str {
    if met {
        "met"
    } else {
        "MISSED"
    }
}

/// The least and the most, or one number where they are printed alike.
fn range(figures: impl Iterator<Item = f64> + Clone, print: fn(f64) -> String) -> String {
    let (least, most) = (print(least(figures.clone())), print(most(figures)));
    if least == most {
        least
    } else {
        format!("{least} to {most}")
    }
}

/// All runs in one table, in Markdown.
pub fn print_markdown(runs: &[Vec<Cell>]) {
    let names = RUNNERS.map(|runner| runner.name);
    let others: Vec<String> = OTHERS.map(|at| format!("proved / {}", names[at])).collect();
    println!(
        "\n| pattern | W | K | B | {} | {} |",
        names.map(|name| format!("{name}, ns")).join(" | "),
        others.join(" | ")
    );
    println!("|---|{}", "---|".repeat(3 + names.len() + others.len()));
    for (at, cell) in runs[0].iter().enumerate() {
        let times = (0..names.len()).map(|by| range(runs.iter().map(|run| run[at].nanoseconds[by]), nanoseconds));
        let ratios = OTHERS.map(|by| range(runs.iter().map(|run| run[at].ratios[by]), ratio));
        let figures: Vec<String> = times.chain(ratios).collect();
        let Size { w, k, b } = cell.size;
        println!("| {} | {w} | {k} | {b} | {} |", cell.kind.name(), figures.join(" | "));
    }
}

/// How the proved engine compares with another one: the least and the most ratio of all runs, for each B and K. Accesses
/// that are refused are left out.
fn compare(runs: &[Vec<Cell>], by: usize) {
    let accepted = || runs.iter().flatten().filter(|cell| cell.number == 0);
    let mut sizes: Vec<(u32, u32)> = accepted().map(|cell| (cell.size.b, cell.size.k)).collect();
    sizes.sort_unstable();
    sizes.dedup();
    for sizes in sizes.chunk_by(|one, next| one.0 == next.0) {
        let ranges = sizes.iter().map(|&(b, k)| {
            let cells = accepted().filter(move |cell| (cell.size.b, cell.size.k) == (b, k));
            format!("{} with K = {k}", range(cells.map(|cell| cell.ratios[by]), ratio))
        });
        let ranges: Vec<String> = ranges.collect();
        println!("proved / {}, B = {}: {}", RUNNERS[by].name, sizes[0].0, ranges.join(", "));
    }
}

pub fn summary(runs: &[Vec<Cell>]) {
    let cells = || runs.iter().flatten();
    let timed = |of: fn(&Cell) -> bool| cells().filter(|cell| of(cell)).map(|cell| cell.accesses).sum::<u64>();
    let (all, fives, nines) = (timed(|_| true), timed(|cell| cell.number == 5), timed(|cell| cell.number == 9));
    println!("\naccesses timed: {all}, of them refused with 5: {fives}, with 9: {nines}, with another number: 0;");
    println!("answers, bytes read and lent memory equal in all cells");
    OTHERS.for_each(|by| compare(runs, by));
    let large = cells().filter(|cell| cell.kind == Kind::Misses && cell.size.k == 4096);
    let least = least(large.map(|cell| cell.ratios[IDIOMATIC]));
    let met = verdict(least >= TWICE);
    println!("target, proved / idiomatic at least {TWICE} on misses with K = 4096: {least:.2}, {met}");
    let most = most(cells().filter(|cell| cell.kind == Kind::Nines).map(|cell| cell.nanoseconds[PROVED]));
    let met = verdict(most < REFUSED);
    println!("target, an access of the proved engine refused with 9 below {REFUSED} ns: {most:.0}, {met}");
    let below: Vec<&Cell> = cells().filter(|cell| cell.ratios[TUNED] < EVEN).collect();
    let verdict = if below.is_empty() { "met in every cell" } else { "MISSED" };
    println!("target, proved / tuned at least {EVEN}: {verdict}");
    for cell in below {
        let Size { w, k, b } = cell.size;
        println!("   below: {}, W = {w}, K = {k}, B = {b}: {:.2}", cell.kind.name(), cell.ratios[TUNED]);
    }
}
