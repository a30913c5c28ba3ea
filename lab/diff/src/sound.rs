//! Sound histories: set-up, then mixtures of calls in hostile patterns. Beside the comparison with the model, a watcher
//! from outside keeps the tally of demand 3, the bytes that each visible row must hold, and what estimates tell.

use crate::estimates::Estimates;
use crate::pair::{Counts, Pair};
use crate::seen::Seen;
use crate::tally::{self, Figures, Tally};
use crate::worn;
use model::fault::Fault;
use model::memory::{Answer, Call, Memory, Settings, NONE};
use model::rng::Rng;

/// The watcher: it sees calls and answers only, and `spill`.
pub struct Watcher {
    pub tally: Tally,
    estimates: Estimates,
    shadow: Vec<u8>,
}

impl Watcher {
    /// After an accepted set-up each row is at home and holds what its home holds.
    pub fn new(s: &Settings, store: &[u8]) -> Watcher {
        let shadow = store[..s.n as usize * s.w as usize].to_vec();
        Watcher { tally: Tally::new(s), estimates: Estimates::new(s), shadow }
    }

    /// Takes in a call; gives the figures of the epoch where one ended.
    pub fn see(&mut self, s: &Settings, call: &Call, answer: &Answer, pair: &Pair) -> Result<Option<Figures>, String> {
        let w = s.w as usize;
        if answer.number == 0 {
            let (row, part) = match call {
                Call::Read { row, .. } => (Some(*row), Some(&pair.buffer[..])),
                Call::Inspect { row } => (Some(*row), Some(&pair.library.store[answer.start..][..answer.length])),
                Call::Write { row, column, bytes } => {
                    self.shadow[*row as usize * w + column..][..bytes.len()].copy_from_slice(bytes);
                    (Some(*row), None)
                }
                Call::SetUp | Call::Tick => (None, None),
            };
            if let Some(row) = row {
                let start = self.tally.place(row).ok_or("a row outside was accepted")? * w;
                let answered = match call {
                    Call::Inspect { .. } => answer.start,
                    _ => answer.place as usize * w,
                };
                if start != answered {
                    return Err(format!("{call:?}: from byte {answered} on answered, the tally has {start}, {s:?}"));
                }
                if part.is_some_and(|part| part != &self.shadow[row as usize * w..][..w]) {
                    return Err(format!("{call:?}: the bytes are not those last written, {s:?}"));
                }
            }
        }
        self.estimates.feed(s, call, answer, &pair.library.control)?;
        self.tally.judge_nine(s, answer)?;
        let figures = self.tally.feed(call, answer);
        if let Some(figures) = &figures {
            tally::judge(s, figures)?;
        }
        Ok(figures)
    }
}

/// B: often 1, otherwise any, few more often than many.
pub fn banks(rng: &mut Rng) -> u64 {
    let (few, any) = (rng.between(2, 5), rng.between(1, 16));
    rng.pick(&[1, few, any])
}

/// Settings in range, from every edge, with a store of at most `cap` bytes.
pub fn settings(rng: &mut Rng, cap: u64) -> Settings {
    loop {
        let n = rng.skewed(1, 60_000);
        let q = rng.skewed(2, 5_500);
        let w = rng.skewed(1, 8_192);
        if (n + q) * w > cap {
            continue;
        }
        let k = rng.skewed(1, 4_096);
        let a = if rng.once_in(4) { rng.skewed(1, 65_535) } else { rng.between(1, 6) };
        let most = (a * (k + 1) - 1).min(1_360_000);
        let l = if rng.once_in(2) { most } else { rng.skewed(1, most) };
        let [n, q, w, k, a, l, b] = [n, q, w, k, a, l, banks(rng)].map(|x| x as u32);
        return Settings { n, q, w, k, a, l, b };
    }
}

enum Pattern {
    Hammer(u32),
    /// Rows in turn, each so far from the last.
    RoundRobin {
        from: u32,
        width: u32,
        apart: u32,
    },
    Alternate(u32, u32),
    JustMoved,
    AtHead,
    Anywhere,
}

struct Driver {
    pattern: Pattern,
    left: u64,
    step: u32,
}

impl Driver {
    fn row(&mut self, rng: &mut Rng, s: &Settings, memory: &Memory, recent: &[u32]) -> u32 {
        let any = |rng: &mut Rng| rng.below(u64::from(s.n)) as u32;
        if self.left == 0 {
            self.pattern = match rng.below(8) {
                0 | 1 => Pattern::Hammer(any(rng)),
                2 => {
                    let width = rng.pick(&[2, 3, s.k, s.k + 1, s.q, s.q + 1]).min(s.n);
                    Pattern::RoundRobin { from: any(rng), width, apart: rng.pick(&[1, s.b]) }
                }
                3 => Pattern::Alternate(any(rng), any(rng)),
                4 | 5 => Pattern::JustMoved,
                6 => Pattern::AtHead,
                _ => Pattern::Anywhere,
            };
            self.left = rng.between(1, 4 * u64::from(s.a.min(64)) + 8);
        }
        self.left -= 1;
        self.step = self.step.wrapping_add(1);
        match self.pattern {
            Pattern::Hammer(row) => row,
            Pattern::RoundRobin { from, width, apart } => (from + self.step % width * apart) % s.n,
            Pattern::Alternate(one, other) => {
                if self.step.is_multiple_of(2) {
                    one
                } else {
                    other
                }
            }
            Pattern::JustMoved if !recent.is_empty() => rng.pick(recent),
            Pattern::AtHead => {
                let guest = u32::from(memory.reverse[memory.control.head as usize]);
                if guest == NONE {
                    any(rng)
                } else {
                    guest
                }
            }
            _ => any(rng),
        }
    }

    fn call(&mut self, rng: &mut Rng, s: &Settings, memory: &Memory, recent: &[u32]) -> Call {
        let w = s.w as usize;
        let row = self.row(rng, s, memory, recent);
        let epoch = u64::from(s.l * s.b).min(u64::from(s.a) * u64::from(s.q)).clamp(4, 4000);
        match rng.below(100) {
            0..=1 => {
                let row = rng.pick(&[s.n, s.n + 1, 65_535, 65_536, u32::MAX]);
                if rng.once_in(2) {
                    Call::Read { row, length: w }
                } else {
                    Call::Inspect { row }
                }
            }
            2 => Call::Read { row, length: rng.pick(&[0, w - 1, w + 1]) },
            3 => Call::Write { row, column: rng.pick(&[w, w + 1, usize::MAX]), bytes: rng.bytes(1) },
            4 => Call::Write { row, column: w, bytes: Vec::new() },
            5..=12 => Call::Inspect { row },
            13..=35 => {
                let count = if rng.once_in(4) { w } else { rng.below(w as u64 + 1) as usize };
                Call::Write { row, column: rng.below((w - count) as u64 + 1) as usize, bytes: rng.bytes(count) }
            }
            36 if rng.once_in(400) => Call::SetUp,
            _ if rng.once_in(epoch) => Call::Tick,
            _ => Call::Read { row, length: w },
        }
    }
}

/// A history under way: every step is compared and watched.
pub struct History<'a> {
    s: Settings,
    pair: Pair,
    watcher: Watcher,
    recent: Vec<u32>,
    counts: &'a mut Counts,
    seen: &'a mut Seen,
}

impl<'a> History<'a> {
    /// A history of the given settings, set up.
    pub fn begin(
        rng: &mut Rng, s: &Settings, fault: Fault, counts: &'a mut Counts, seen: &'a mut Seen,
    ) -> Result<History<'a>, String> {
        let mut memory = Memory::raw(s, 0);
        if memory.store.len() <= 1 << 22 {
            memory = Memory::raw(s, rng.word() as u8);
            memory.store = rng.bytes(memory.store.len());
        }
        seen.histories += 1;
        seen.store_most = seen.store_most.max(memory.store.len());
        let watcher = Watcher::new(s, &memory.store);
        let pair = Pair::new(memory, fault, false);
        let mut history = History { s: *s, pair, watcher, recent: Vec::new(), counts, seen };
        history.step(&Call::SetUp)?;
        Ok(history)
    }

    /// The lent memory as the last call left it.
    pub fn memory(&self) -> &Memory {
        &self.pair.library
    }

    pub fn read(&mut self, row: u32) -> Result<Answer, String> {
        self.step(&Call::Read { row, length: self.s.w as usize })
    }

    pub fn step(&mut self, call: &Call) -> Result<Answer, String> {
        let before = self.pair.library.control;
        let answer = self.pair.call(&self.s, call, self.counts)?;
        self.seen.note(&self.s, call, &answer, &before, &self.pair.library.control);
        let ended = self.watcher.see(&self.s, call, &answer, &self.pair)?;
        self.seen.epochs += u64::from(ended.is_some());
        match call {
            Call::SetUp if answer.number == 0 => {
                tally::judge(&self.s, &self.watcher.tally.figures())?;
                self.watcher = Watcher::new(&self.s, &self.pair.library.store);
            }
            Call::Read { row, .. } | Call::Write { row, .. } if answer.slot != NONE => {
                self.recent.insert(0, *row);
                if answer.row != NONE {
                    self.recent.insert(0, answer.row);
                }
                self.recent.truncate(4);
            }
            _ => {}
        }
        Ok(answer)
    }

    /// Judges the figures of the epoch that the list ends in.
    pub fn end(self) -> Result<(), String> {
        tally::judge(&self.s, &self.watcher.tally.figures())
    }
}

/// One history of the given number of calls.
pub fn history(
    rng: &mut Rng, s: &Settings, calls: u64, fault: Fault, counts: &mut Counts, seen: &mut Seen,
) -> Result<(), String> {
    let mut history = History::begin(rng, s, fault, counts, seen)?;
    let mut driver = Driver { pattern: Pattern::Anywhere, left: 0, step: 0 };
    for _ in 1..calls {
        let call = driver.call(rng, s, &history.pair.library, &history.recent);
        match history.step(&call)?.number {
            8 if rng.once_in(6) => {
                history.step(&Call::Tick)?;
            }
            9 if rng.once_in(6) => {
                history.step(&Call::Tick)?;
                if history.step(&call)?.number != 0 {
                    return Err(format!("refused with 9, and again as the first call after a tick: {call:?}, {s:?}"));
                }
                history.seen.retried_after_nine += 1;
            }
            _ => {}
        }
    }
    history.end()
}

/// A history of random settings, as long as its memory is small.
pub fn random(rng: &mut Rng, fault: Fault, counts: &mut Counts, seen: &mut Seen) -> Result<(), String> {
    if rng.once_in(3) {
        return worn::random(rng, fault, counts, seen);
    }
    let cap = if rng.once_in(40) { 1 << 21 } else { 1 << 16 };
    let s = settings(rng, cap);
    let cost = Memory::raw(&s, 0).bytes() as u64 + 16 * s.entries() as u64;
    let calls = (24_000_000 / (cost + 1)).clamp(40, 4000);
    history(rng, &s, calls, fault, counts, seen)
}

/// Histories with rows of the lengths at which the library's copies take another way, and of those beside them.
pub fn lengths(rng: &mut Rng, fault: Fault, counts: &mut Counts, seen: &mut Seen) -> Result<(), String> {
    for w in [255, 256, 257, 511, 512, 513, 4_095, 4_096, 4_097, 8_191, 8_192] {
        for b in [1, 3] {
            let s = Settings { n: 6, q: 4, w, k: 3, a: 2, l: 7, b };
            history(rng, &s, 1_000, fault, counts, seen)?;
        }
    }
    Ok(())
}
