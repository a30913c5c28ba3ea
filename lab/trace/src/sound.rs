//! Well-formed traces over small settings, whose steps follow the rows that were moved.

use crate::file::{File, Words};
use crate::interpret::{ENTRIES_MOST, TICK};
use model::engine::{Model, Refusal};
use model::fault::Fault;
use model::memory::{Memory, Settings};
use model::rng::Rng;

/// B: often 1, otherwise any for which K × B is at most what a trace may have.
pub fn banks(rng: &mut Rng, k: u64) -> u64 {
    let most = (ENTRIES_MOST / k).clamp(1, 16);
    let (few, any) = (rng.between(1, most.min(3)), rng.between(1, most));
    rng.pick(&[1, few, any])
}

/// Settings with L at most what A and K allow.
pub fn settings(rng: &mut Rng, n: u64, q: u64, w: u64, k: u64, a: u64) -> Settings {
    let most = (a * (k + 1) - 1).min(1_360_000);
    let l = if rng.once_in(2) { most } else { rng.between(1, most) };
    let [n, q, w, k, a, l, b] = [n, q, w, k, a, l, banks(rng, k)].map(|x| x as u32);
    Settings { n, q, w, k, a, l, b }
}

/// Settings so small that the conditions often meet.
pub fn small(rng: &mut Rng) -> Settings {
    let [n, q, w] = [rng.between(1, 7), rng.between(2, 6), rng.between(1, 4)];
    let [k, a] = [rng.between(1, 5), rng.between(1, 5)];
    settings(rng, n, q, w, k, a)
}

/// Steps that hammer rows just moved, rows in the slot at the head, and others; with ticks, and rows that do not exist.
pub fn chase(rng: &mut Rng, s: &Settings, length: usize) -> Vec<u32> {
    let mut engine = Model::new(Memory::raw(s, 0), Fault::Nothing);
    let mut buffer = vec![0; s.w as usize];
    let mut steps = Vec::with_capacity(length);
    let mut recent = vec![0];
    if engine.set_up(s).is_err() {
        return steps;
    }
    while steps.len() < length {
        let guest = engine.memory.reverse.get(engine.memory.control.head as usize).copied().unwrap_or(0);
        let any = rng.below(u64::from(s.n)) as u32;
        let row = match rng.below(16) {
            0 => rng.pick(&[s.n, s.n + 1, 65_534, 65_536, 65_537, 131_071, u32::MAX - 1, u32::MAX]),
            1..=4 if u32::from(guest) < s.n => u32::from(guest),
            5..=10 => rng.pick(&recent),
            _ => any,
        };
        let burst = rng.pick(&[1, 1, s.a - 1, s.a, s.a, s.a + 1, 2 * s.a]).clamp(1, 2 * s.k.max(8));
        let mut last = None;
        for _ in 0..burst {
            steps.push(row);
            let answer = engine.read(s, row, &mut buffer);
            last = answer.as_ref().err().copied();
            if let Ok(served) = answer {
                recent.extend(served.moved_to.map(|_| row));
                recent.extend(served.sent_home.map(|row| row as u32));
                recent.drain(..recent.len().saturating_sub(3));
            }
        }
        let ends = match last {
            Some(Refusal::Epoch | Refusal::Spent) => rng.once_in(2),
            _ => rng.once_in(24),
        };
        if ends && engine.tick(s).is_ok() {
            steps.push(TICK);
        }
    }
    steps.truncate(length);
    steps
}

/// Files of short and middling length.
pub fn files(rng: &mut Rng, count: usize) -> Vec<File> {
    (0..count)
        .map(|_| {
            let s = small(rng);
            let length = rng.pick(&[0, 1, 2, 8, 20, 40, 60, 120]);
            let length = rng.between(length / 2, length) as usize;
            let words = Words::new(&s, &chase(rng, &s, length)).either(rng);
            let bytes = if rng.once_in(2) { words.plain() } else { words.varied(rng) };
            File::new("well-formed", bytes)
        })
        .collect()
}
