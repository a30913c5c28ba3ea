//! What the compared files held: that every kind of judgement and of step was reached, and how often.

use crate::file::File;
use crate::interpret::{Printed, Seen, Verdict, FILE_MOST, STEPS_MOST, TICK};

#[derive(Default)]
pub struct Census {
    pub files: u64,
    form: u64,
    /// Empty traces, and those of them with the most bytes.
    empty: u64,
    empty_most_bytes: u64,
    settings: [u64; 2],
    store: u64,
    entries: u64,
    ran: u64,
    /// Traces with a first count of 7, and with more than one bank.
    seven: u64,
    banks: u64,
    /// Files with no steps, with the most steps, and of the most bytes, that were not refused.
    no_steps: u64,
    most_steps: u64,
    most_bytes: u64,
    /// Files of one byte too many.
    byte_too_many: u64,
    steps: Seen,
    /// Steps whose row is no 16-bit number, or only just.
    large_rows: u64,
}

impl Census {
    pub fn note(&mut self, file: &File, printed: &Printed) {
        self.files += 1;
        self.byte_too_many += u64::from(file.bytes.len() == FILE_MOST + 1);
        match printed.verdict {
            Verdict::Form => self.form += 1,
            Verdict::Empty => {
                self.empty += 1;
                self.empty_most_bytes += u64::from(file.bytes.len() == FILE_MOST);
            }
            Verdict::Settings(number) => self.settings[usize::from(number != 1)] += 1,
            Verdict::Store => self.store += 1,
            Verdict::Entries => self.entries += 1,
            Verdict::Ran(seen) => {
                self.ran += 1;
                let words = words(&file.bytes);
                self.seven += u64::from(words.first() == Some(&7));
                self.banks += u64::from(seen.banks > 1);
                let reads: u64 = seen.reads.iter().sum();
                let steps = (reads + seen.ticks) as usize;
                self.no_steps += u64::from(steps == 0);
                self.most_steps += u64::from(steps == STEPS_MOST);
                self.most_bytes += u64::from(file.bytes.len() == FILE_MOST);
                self.add(&seen);
                self.large_rows += large_rows(&words, steps);
            }
        }
    }

    fn add(&mut self, seen: &Seen) {
        self.steps.reads.iter_mut().zip(seen.reads).for_each(|(sum, count)| *sum += count);
        self.steps.ticks += seen.ticks;
        self.steps.moved += seen.moved;
        self.steps.past_slots += seen.past_slots;
        self.steps.past_many += seen.past_many;
        self.steps.sent_home += seen.sent_home;
        self.steps.to_other_bank += seen.to_other_bank;
        self.steps.slot_full += seen.slot_full;
    }

    fn lines(&self) -> [(&'static str, u64, u64); 26] {
        let reads = self.steps.reads;
        [
            ("form refused", self.form, 1_000),
            ("empty traces", self.empty, 50),
            ("   of 65,536 bytes", self.empty_most_bytes, 5),
            ("settings refused with 1", self.settings[0], 100),
            ("settings refused with 2", self.settings[1], 50),
            ("store too large", self.store, 50),
            ("K times B too large", self.entries, 50),
            ("steps made", self.ran, 2_000),
            ("   with a first count of 7", self.seven, 1_000),
            ("   with more than one bank", self.banks, 1_000),
            ("no steps", self.no_steps, 50),
            ("4,096 steps", self.most_steps, 20),
            ("65,536 bytes, not refused", self.most_bytes, 10),
            ("65,537 bytes", self.byte_too_many, 10),
            ("reads accepted", reads[0], 50_000),
            ("   rows moved", self.steps.moved, 5_000),
            ("   to another bank", self.steps.to_other_bank, 1_000),
            ("   past other slots", self.steps.past_slots, 1_000),
            ("   past more than 16 slots", self.steps.past_many, 30),
            ("   rows sent home", self.steps.sent_home, 1_000),
            ("reads refused with 5", reads[5], 1_000),
            ("   rows from 65,534 on", self.large_rows, 1_000),
            ("reads refused with 8", reads[8], 1_000),
            ("   with room in home's bank", self.steps.slot_full, 500),
            ("reads refused with 9", reads[9], 1_000),
            ("ticks", self.steps.ticks, 1_000),
        ]
    }

    pub fn print(&self) {
        for (what, count, _) in self.lines() {
            println!("   {what:<28}{count:>9}");
        }
    }

    /// Every line was reached often enough, and no step met a number that no trace can meet.
    pub fn judge(&self) -> Result<(), String> {
        for (what, count, least) in self.lines() {
            if count < least {
                return Err(format!("{} was reached only {count} times, of {least}", what.trim()));
            }
        }
        match [1, 2, 3, 4, 6, 7].iter().find(|&&number| self.steps.reads[number] != 0) {
            Some(number) => Err(format!("a step was refused with {number}")),
            None => Ok(()),
        }
    }
}

/// The numbers of a well-formed file.
fn words(bytes: &[u8]) -> Vec<u64> {
    let words = bytes.split(|byte| b" \n".contains(byte)).filter(|word| !word.is_empty());
    words.map(|word| word.iter().fold(0, |value, digit| value * 10 + u64::from(digit - b'0'))).collect()
}

/// Rows of 65,534 and more among the steps of a well-formed file.
fn large_rows(words: &[u64], steps: usize) -> u64 {
    let rows = &words[words.len().saturating_sub(steps)..];
    rows.iter().filter(|&&row| row >= 65_534 && row != u64::from(TICK)).count() as u64
}
