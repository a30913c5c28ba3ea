//! Sound histories in which the head meets slots that are worn already (document 02, Ask 4): rows that sit in slots ahead
//! of the head are hammered out of them. The head goes by a slot at most once in an epoch, and each row hammered out takes a
//! slot before the worn ones; so a run of worn slots has at most half of all.

use crate::pair::Counts;
use crate::seen::Seen;
use crate::sound::{banks, History};
use model::fault::Fault;
use model::memory::{Call, Settings, NONE};
use model::rng::Rng;

/// Settings with more rows at home than in slots, and mostly with an entry for each row that an epoch moves, in whatever
/// bank.
fn settings(rng: &mut Rng) -> Settings {
    let q = match rng.below(8) {
        0 => rng.between(2, 4),
        1 | 2 => rng.between(5, 33),
        3 => rng.between(100, 300),
        _ => rng.between(34, 80),
    };
    let n = 2 * q + rng.between(1, 8);
    let b = banks(rng);
    let k = rng.pick(&[q, q + 1, q + 8, 2 * q, q.div_ceil(2)]).div_ceil(b);
    let a = rng.pick(&[1, 1, 2, 3, 5]);
    let w = rng.pick(&[1, 1, 2, 9]);
    let [n, q, w, k, a, l, b] = [n, q, w, k, a, a * (k + 1) - 1, b].map(|x| x as u32);
    Settings { n, q, w, k, a, l, b }
}

/// Reads a row some times, or until a read is refused; gives that read's number, else 0.
fn burst(history: &mut History, row: u32, times: u32) -> Result<u32, String> {
    for _ in 0..times {
        let number = history.read(row)?.number;
        if number != 0 {
            return Ok(number);
        }
    }
    Ok(0)
}

/// Some row that is at home.
fn at_home(rng: &mut Rng, history: &History, s: &Settings) -> u32 {
    loop {
        let row = rng.below(u64::from(s.n)) as u32;
        if history.memory().forward[row as usize] == NONE as u16 {
            return row;
        }
    }
}

/// The head goes round once: every slot gets a row that was at home, over as many epochs as that takes.
fn fill(rng: &mut Rng, history: &mut History, s: &Settings) -> Result<(), String> {
    history.step(&Call::Tick)?;
    for _ in 0..s.q {
        let row = at_home(rng, history, s);
        while history.memory().forward[row as usize] == NONE as u16 {
            if burst(history, row, s.a)? != 0 {
                history.step(&Call::Tick)?;
            }
        }
    }
    Ok(())
}

/// A run of slots to wear in one epoch.
struct Run {
    /// Its distance from the head at the epoch's begin.
    gap: u32,
    length: u32,
    /// One slot in so many is hammered one time too few; none where this is 0.
    spared: u64,
}

/// One epoch: a run of slots is worn, and then rows from anywhere move past it.
fn epoch(rng: &mut Rng, history: &mut History, s: &Settings, run: Run) -> Result<(), String> {
    history.step(&Call::Tick)?;
    let head = history.memory().control.head;
    for ahead in run.gap..run.gap + run.length {
        let guest = u32::from(history.memory().reverse[((head + ahead) % s.q) as usize]);
        if guest != NONE {
            let times = if run.spared > 0 && rng.once_in(run.spared) { s.a - 1 } else { s.a };
            if burst(history, guest, times)? == 8 && s.b == 1 {
                return Ok(());
            }
        }
    }
    let after = history.memory().reverse[((head + run.gap + run.length) % s.q) as usize];
    for _ in 0..rng.between(2, 6) {
        let row = match rng.below(6) {
            0 => rng.below(u64::from(s.n)) as u32,
            // The row in the slot after the run passes its own slot too.
            1 | 2 if u32::from(after) != NONE => u32::from(after),
            _ => at_home(rng, history, s),
        };
        if burst(history, row, s.a)? == 8 && s.b == 1 {
            return Ok(());
        }
    }
    Ok(())
}

/// A history of random settings, over some epochs.
pub fn random(rng: &mut Rng, fault: Fault, counts: &mut Counts, seen: &mut Seen) -> Result<(), String> {
    let s = settings(rng);
    let mut history = History::begin(rng, &s, fault, counts, seen)?;
    for _ in 0..rng.between(1, 8) {
        fill(rng, &mut history, &s)?;
        let half = (s.q - 1) / 2;
        let any = rng.between(1, u64::from(half.max(1))) as u32;
        let length = rng.pick(&[any, any, half, half + 1]);
        let gap = (length + rng.pick(&[0, 0, 0, 1, 2])).min(s.q - 1);
        let spared = rng.pick(&[0, 0, 0, 2, 40]);
        epoch(rng, &mut history, &s, Run { gap, length, spared })?;
    }
    history.end()
}

/// The most slots, and the most entries of one bank or the most banks: more than 2,000 worn slots in a row, with slots left
/// after them and without.
pub fn largest(rng: &mut Rng, counts: &mut Counts, seen: &mut Seen) -> Result<(), String> {
    for (k, b) in [(4_096, 1), (512, 16)] {
        let s = Settings { n: 11_010, q: 5_500, w: 1, k, a: 1, l: k, b };
        let mut history = History::begin(rng, &s, Fault::Nothing, counts, seen)?;
        for (gap, length) in [(2_040, 2_040), (2_750, 2_749), (2_750, 2_750)] {
            fill(rng, &mut history, &s)?;
            epoch(rng, &mut history, &s, Run { gap, length, spared: 0 })?;
        }
        history.end()?;
    }
    Ok(())
}
