//! Makes each call twice, of the library and of the model, and compares answers and all of the lent memory.

use aqua::Sum;
use model::engine::{Model, Refusal, Served};
use model::fault::Fault;
use model::memory::{Answer, Call, Memory, Settings, BANKS, KINDS, NONE, SIZING};

/// Lines of the table: accepted, then the refusals in the order in which they are judged.
pub const LINES: [&str; 11] = [
    "0 accepted",
    "1 settings",
    "2 together",
    "3 lengths",
    "4 control",
    "5 row",
    "6 span",
    "7 row's pointers",
    "8 epoch",
    "9 quarantine",
    "7 destination",
];

fn line(refusal: Option<Refusal>) -> usize {
    refusal.map_or(0, |r| r as usize + 1)
}

/// Which lines each kind of call can reach, by the last column of document 01's table.
fn reachable(kind: usize, line: usize) -> bool {
    match KINDS[kind] {
        "set-up" => line <= 3,
        "read" | "write" => true,
        "tick" => line <= 4,
        "inspect" => line <= 5 || line == 7,
        _ => line <= 1,
    }
}

/// Calls made, per line and kind; and the accepted ones per number of banks.
#[derive(Clone, Copy, Default)]
pub struct Counts {
    lines: [[u64; KINDS.len()]; LINES.len()],
    banks: [u64; BANKS],
}

impl Counts {
    pub fn total(&self) -> u64 {
        self.lines.iter().flatten().sum()
    }

    pub fn sizing(&mut self, sum: &Sum) {
        self.lines[usize::from(sum.number != 0)][SIZING] += 1;
    }

    fn note(&mut self, s: &Settings, call: &Call, refusal: Option<Refusal>) {
        self.lines[line(refusal)][call.kind()] += 1;
        if refusal.is_none() {
            self.banks[(s.b as usize).clamp(1, BANKS) - 1] += 1;
        }
    }

    pub fn print(&self) {
        print!("{:<18}", "number");
        KINDS.iter().for_each(|kind| print!("{kind:>10}"));
        println!("{:>12}", "in all");
        for (name, counts) in LINES.iter().zip(&self.lines) {
            print!("{name:<18}");
            for (kind, count) in counts.iter().enumerate() {
                let at = LINES.iter().position(|l| l == name).unwrap_or(0);
                if reachable(kind, at) {
                    print!("{count:>10}")
                } else {
                    print!("{:>10}", "-")
                }
            }
            println!("{:>12}", counts.iter().sum::<u64>());
        }
        println!("calls compared: {}; accepted with 1 to {BANKS} banks: {:?}", self.total(), self.banks);
    }

    /// Every line that a kind of call can reach was reached at least `least` times, and so was every number of banks.
    pub fn judge(&self, least: u64) -> Result<(), String> {
        if self.banks.iter().any(|&count| count < least) {
            return Err("some number of banks was hit too seldom".to_string());
        }
        for (at, counts) in self.lines.iter().enumerate() {
            for (kind, &count) in counts.iter().enumerate() {
                if reachable(kind, at) && count < least {
                    return Err(format!("{} was hit only {count} times by {}", LINES[at], KINDS[kind]));
                }
            }
        }
        Ok(())
    }
}

/// The library's memory beside the model's.
pub struct Pair {
    pub library: Memory,
    model: Model,
    /// Also take a copy of the library's memory before each call, and see that a refusal left it as it was.
    watch_refusals: bool,
    /// The read buffer of the last call, as the library left it.
    pub buffer: Vec<u8>,
}

fn access(model: &Model, s: &Settings, asked: u32, served: &Result<Served, Refusal>) -> (Answer, Option<Refusal>) {
    let slot_or_row = |n: Option<usize>| n.map_or(NONE, |n| n as u32);
    match served {
        Err(r) => {
            let estimate = model.refused_estimate(s, asked, *r).unwrap_or(0);
            (Answer { estimate, ..Answer::bare(r.number()) }, Some(*r))
        }
        Ok(s) => {
            let (slot, row) = (slot_or_row(s.moved_to), slot_or_row(s.sent_home));
            let (place, estimate) = (s.place as u64, s.estimate.unwrap_or(0));
            (Answer { place, estimate, slot, row, ..Answer::bare(0) }, None)
        }
    }
}

fn plain(done: Result<(), Refusal>) -> (Answer, Option<Refusal>) {
    (Answer::bare(done.err().map_or(0, Refusal::number)), done.err())
}

impl Pair {
    pub fn new(memory: Memory, fault: Fault, watch_refusals: bool) -> Pair {
        Pair { model: Model::new(memory.clone(), fault), library: memory, watch_refusals, buffer: Vec::new() }
    }

    pub fn call(&mut self, s: &Settings, call: &Call, counts: &mut Counts) -> Result<Answer, String> {
        let before = self.watch_refusals.then(|| self.library.clone());
        let blank = |length: usize| (0..length).map(|i| i as u8 ^ 0xA5).collect::<Vec<u8>>();
        self.buffer.clear();
        let mut expected_buffer = Vec::new();
        let mut lent = aqua::lend(&mut self.library);
        let (got, (expected, refusal)) = match call {
            Call::SetUp => (lent.set_up(s), plain(self.model.set_up(s))),
            Call::Tick => (lent.tick(s), plain(self.model.tick(s))),
            Call::Inspect { row } => {
                let (bare, refusal) = plain(self.model.inspect(s, *row).map(|_| ()));
                let (start, length) = self.model.inspect_span(s, *row);
                (lent.inspect(s, *row), (Answer { start, length, ..bare }, refusal))
            }
            Call::Read { row, length } => {
                self.buffer = blank(*length);
                expected_buffer = blank(*length);
                let expected = self.model.read(s, *row, &mut expected_buffer);
                (lent.read(s, *row, &mut self.buffer), access(&self.model, s, *row, &expected))
            }
            Call::Write { row, column, bytes } => {
                let expected = self.model.write(s, *row, *column, bytes);
                (lent.write(s, *row, *column, bytes), access(&self.model, s, *row, &expected))
            }
        };
        counts.note(s, call, refusal);
        let found = if got != expected {
            Some(format!("answer: library {got:?}, model {expected:?}"))
        } else if self.buffer != expected_buffer {
            Some("the read buffer".to_string())
        } else if got.number != 0 && before.as_ref().is_some_and(|b| *b != self.library) {
            Some("a refusal changed the lent memory".to_string())
        } else if got.number != 0 && self.buffer != blank(self.buffer.len()) {
            Some("a refusal changed the read buffer".to_string())
        } else {
            self.library.difference(&self.model.memory)
        };
        match found {
            None => Ok(got),
            Some(what) => {
                let before = before.map_or(String::new(), |b| format!("before the call:\n{}", b.describe()));
                let after = self.library.describe();
                Err(format!("{what}\ncall {call:?}\n{s:?}\n{before}library after the call:\n{after}"))
            }
        }
    }
}
