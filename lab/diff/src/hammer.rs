//! Hammering streams judged by the outside tally: the bounds of demand 3 hold in every epoch, those of document 02's Ask 6
//! over every tick, and all are attained.

use crate::pair::{Counts, Pair};
use crate::sound::{banks, Watcher};
use crate::tally::{self, Figures};
use model::fault::Fault;
use model::memory::{Answer, Call, Memory, Settings, NONE};
use model::rng::Rng;

/// The mark of a tick among the rows to read.
pub const TICK: u32 = 65_535;

/// A history of reads and ticks.
struct Stream<'a> {
    s: Settings,
    pair: Pair,
    watcher: Watcher,
    most: Figures,
    counts: &'a mut Counts,
}

impl<'a> Stream<'a> {
    fn new(s: Settings, counts: &'a mut Counts) -> Result<Stream<'a>, String> {
        let mut pair = Pair::new(Memory::raw(&s, 0), Fault::Nothing, false);
        pair.call(&s, &Call::SetUp, counts)?;
        let watcher = Watcher::new(&s, &pair.library.store);
        Ok(Stream { s, pair, watcher, most: Figures::default(), counts })
    }

    /// Takes the epoch's figures so far into the maxima and judges them.
    fn note(&mut self, f: Figures) -> Result<(), String> {
        self.most.raise(&f);
        tally::judge(&self.s, &f)
    }

    /// One step: a row to read, or the mark of a tick.
    fn step(&mut self, step: u32) -> Result<Answer, String> {
        let call = if step == TICK { Call::Tick } else { Call::Read { row: step, length: self.s.w as usize } };
        let answer = self.pair.call(&self.s, &call, self.counts)?;
        if let Some(figures) = self.watcher.see(&self.s, &call, &answer, &self.pair)? {
            self.note(figures)?;
        }
        Ok(answer)
    }

    fn end(&mut self) -> Result<(), String> {
        self.note(self.watcher.tally.figures())
    }
}

fn settings([n, q, k, a, l, b]: [u32; 6]) -> Settings {
    Settings { n, q, w: 1, k, a, l, b }
}

/// Document 01's trace with the lines of document 02's Ask 4, step by step: number, place, estimate (worked out by hand),
/// slot moved to, row sent home.
pub fn printed_trace(counts: &mut Counts) -> Result<(), String> {
    let steps = [1, 1, 1, 1, 1, 1, TICK, 1, 1, 2, 2, 3, TICK, 3, 3, 2, 2];
    let printed = [
        (0, 1, 1, NONE, NONE),
        (0, 1, 2, 0, NONE),
        (0, 4, 1, NONE, NONE),
        (0, 4, 2, 1, NONE),
        (0, 5, 0, NONE, NONE),
        (8, 0, 0, NONE, NONE),
        (0, 0, 0, NONE, NONE),
        (0, 5, 1, NONE, NONE),
        (0, 5, 2, 0, NONE),
        (0, 2, 1, NONE, NONE),
        (9, 0, 0, NONE, NONE),
        (0, 3, 0, NONE, NONE),
        (0, 0, 0, NONE, NONE),
        (0, 3, 1, NONE, NONE),
        (0, 3, 2, 1, NONE),
        (0, 2, 1, NONE, NONE),
        (0, 2, 2, 0, 1),
    ];
    let mut stream = Stream::new(settings([4, 2, 2, 2, 5, 1]), counts)?;
    for (at, (step, line)) in steps.into_iter().zip(printed).enumerate() {
        let got = stream.step(step)?;
        if (got.number, got.place, got.estimate, got.slot, got.row) != line {
            return Err(format!("document 01's trace, step {}: {got:?}, printed {line:?}", at + 1));
        }
    }
    stream.end()
}

/// The numbers that a stream answered, the figures at its end, and the greatest of any epoch.
pub struct Ran {
    pub numbers: Vec<u32>,
    figures: Figures,
    pub most: Figures,
}

/// Runs the steps after set-up.
pub fn run(s: Settings, steps: &[Vec<u32>], counts: &mut Counts) -> Result<Ran, String> {
    let mut stream = Stream::new(s, counts)?;
    let mut numbers = Vec::new();
    for &step in steps.iter().flatten() {
        numbers.push(stream.step(step)?.number);
    }
    stream.end()?;
    Ok(Ran { numbers, figures: stream.watcher.tally.figures(), most: stream.most })
}

/// A stream that meets a 9 with one slot less than suffices, and none with one slot more, where its last epoch has as many
/// quarantines as there can be.
///
/// With two entries for each of B banks, L = 2 A and N = 4 B, an epoch has at most 2 B quarantines and 4 B slots suffice.
/// Home i and slot i, which is physical row N + i, are of bank i mod B. In the first epoch rows 0 to 2 B - 1 are read A
/// times each and take the slots of their numbers. In the second they are read A times again, there: row i leaves slot i
/// worn and takes slot 2 B + i, as long as there is one. With 4 B - 1 slots there is none for row 2 B - 1: the head is at slot
/// 0 again, with 2 B - 1 slots gone by; slots 0 to 2 B - 2 are worn, 2 B - 1 is the row's own, and slot 2 B, in which row 0 is
/// now, is not worn. That would be 2 B + 1 slots more, 4 B in all: a 9. With 4 B slots row 2 B - 1 takes the last.
fn one_slot_short(a: u32, b: u32, counts: &mut Counts) -> Result<bool, String> {
    let once: Vec<Vec<u32>> = (0..2 * b).map(|row| vec![row; a as usize]).collect();
    let steps = [once.clone(), vec![vec![TICK]], once].concat();
    let s = settings([4 * b, 4 * b - 1, 2, a, 2 * a, b]);
    let short = run(s, &steps, counts)?;
    let roomy = run(Settings { q: s.q + 1, ..s }, &steps, counts)?;
    let (last, others) = short.numbers.split_last().ok_or("no steps")?;
    let accepted = others.iter().chain(&roomy.numbers).all(|&number| number == 0);
    Ok(*last == 9 && accepted && roomy.figures.quarantines == s.figure())
}

/// Streams that attain the figures: A + 2 at row 0's home, in its second epoch; A + 3 at slot 0, in its second epoch; 2 A + 4
/// and 2 A + 5 at the same rows in the second epoch and the third together; and a 9 with one slot less than suffices. The
/// first four ask for at most as many entries in a bank as there are slots, and for at most A times as many accesses of it;
/// so they attain the figures with any number of banks. They are the lists of `Tight` (crates/history/specs/Tight.antt), which
/// `bin/witness` writes for small A; here A may be any.
pub fn attained(a: u32, b: u32, counts: &mut Counts) -> Result<(), String> {
    let burst = |row: u32| vec![row; a as usize];
    let tick = || vec![TICK];
    let (two, three) = (settings([3, 2, 2, a, 2 * a, b]), settings([4, 3, 3, a, 3 * a, b]));
    // Row 2 sends row 0 home, which is opened for that, then hammered, then left.
    let steps = [burst(0), burst(1), tick(), burst(2), burst(0)];
    let home = run(two, &steps, counts)?;
    // Slot 0 is opened by row 0 once less than A times, twice when row 2 takes its place, and twice when that row leaves.
    let almost = || vec![0; a as usize - 1];
    let steps = [burst(0), burst(1), tick(), almost(), burst(2), vec![2]];
    let slot = run(two, &steps, counts)?;
    // With a slot and a row more: row 3 sends row 0 home, row 0 sends row 1 home, and row 1 row 2. After the second tick row
    // 2 sends row 3 home, and row 3 sends row 0 home again.
    let first = [burst(0), burst(1), burst(2), tick()];
    let steps = [&first[..], &[burst(3), burst(0), burst(1), tick(), burst(2), burst(3), burst(0)]].concat();
    let home_twice = run(three, &steps, counts)?;
    // The same as for A + 3, and after a second tick row 0 takes slot 0, which is empty by then, is hammered there, and
    // leaves it.
    let steps = [burst(0), burst(1), tick(), almost(), burst(2), vec![2], tick(), burst(0), burst(0)];
    let slot_twice = run(two, &steps, counts)?;
    let figures =
        [home.figures.home, slot.figures.slot, home_twice.figures.home_over_tick, slot_twice.figures.slot_over_tick];
    if [home, slot, home_twice, slot_twice].iter().flat_map(|ran| &ran.numbers).any(|&number| number != 0) {
        return Err(format!("a step of an attaining stream was refused, for A = {a} and B = {b}"));
    }
    let short = one_slot_short(a, b, counts)?;
    let due = [a + 2, a + 3, 2 * a + 4, 2 * a + 5].map(u64::from);
    if !short || figures != due {
        return Err(format!("the attaining streams miss the figures for A = {a}, B = {b}: {figures:?}, a 9: {short}"));
    }
    Ok(())
}

/// Streams that chase the head and the rows just moved, for one threshold and any number of banks; prints the maxima that
/// they reach.
pub fn hammer(rng: &mut Rng, a: u32, calls: u64, counts: &mut Counts) -> Result<(), String> {
    let mut most = Figures::default();
    let (mut streams, mut epochs, mut roomy_epochs, mut tight_spent) = (0u64, 0u64, 0u64, 0u64);
    // Epochs with as many quarantines as there can be, with one bank and with more.
    let mut full = [0u64; 2];
    let target = counts.total() + calls;
    while counts.total() < target {
        let b = banks(rng) as u32;
        let n = rng.between(2, 12) as u32 + rng.pick(&[0, b - 1, 2 * b - 2]);
        let k = rng.between(1, 8) as u32;
        let l = if rng.once_in(3) { rng.between(1, u64::from(a * (k + 1)) - 1) as u32 } else { a * (k + 1) - 1 };
        let figure = 2 * b * (l / a);
        let q = rng.pick(&[figure, figure, figure + 1, figure.saturating_sub(1), figure / 2, figure / 2 + 1]).max(2);
        let s = settings([n, q, k, a, l, b]);
        let mut stream = Stream::new(s, counts)?;
        let mut recent = vec![0];
        let mut left = rng.between(20, 60 + 24 * u64::from(a * b)).min(20_000) as i64;
        while left > 0 {
            let at = (stream.pair.library.control.head + rng.below(2) as u32) % q;
            let guest = u32::from(stream.pair.library.reverse[at as usize]);
            let any = rng.below(u64::from(n)) as u32;
            let row = match rng.below(4) {
                0 if guest != NONE => guest,
                1 | 2 => rng.pick(&recent),
                _ => any,
            };
            let length = rng.pick(&[a, a, a, a, a - 1, 1, 2 * a, a / 2]);
            for _ in 0..length {
                left -= 1;
                let answer = stream.step(row)?;
                if answer.slot != NONE {
                    recent.insert(0, row);
                    if answer.row != NONE {
                        recent.insert(0, answer.row);
                    }
                    recent.truncate(3);
                }
                if answer.number != 0 {
                    tight_spent += u64::from(answer.number == 9);
                    break;
                }
            }
            let ended = stream.pair.library.control.acts[..b as usize].iter().all(|&acts| acts == l);
            if ended || rng.once_in(12 * u64::from(b)) {
                let equal = l >= a && stream.watcher.tally.figures().quarantines == s.figure();
                full[usize::from(b > 1)] += u64::from(equal);
                stream.step(TICK)?;
                epochs += 1;
                roomy_epochs += u64::from(q >= figure);
            }
        }
        stream.end()?;
        streams += 1;
        most.raise(&stream.most);
    }
    println!(
        "  A {a:>5}: {streams:>5} streams, {epochs:>6} epochs; home {} of {}, slot {} of {}; over one tick {} of {} and {} of \
         {}; quarantines at most B (L / A) (equal in {} epochs of one bank and {} of more); no 9 in {roomy_epochs} epochs \
         with Q >= 2 B (L / A), {tight_spent} with less",
        most.home, a + 2, most.slot, a + 3, most.home_over_tick, 2 * a + 4, most.slot_over_tick, 2 * a + 5,
        full[0], full[1],
    );
    if full.contains(&0) {
        return Err(format!("no epoch had as many quarantines as there can be, for A = {a}: {full:?}"));
    }
    Ok(())
}
