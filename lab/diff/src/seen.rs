//! What the sound histories met: how the search for a slot ended, and how places, homes and slots lay in the banks.

use model::memory::{Answer, Call, Control, Settings, NONE};

/// What was seen over many histories.
#[derive(Default)]
pub struct Seen {
    pub histories: u64,
    pub epochs: u64,
    quarantines: u64,
    sent_home: u64,
    /// Rows moved past at least one slot, past more than 16 slots, and past others into the last slot left.
    past_slots: u64,
    past_many: u64,
    into_the_last: u64,
    /// Most slots that one row was moved past.
    most_passed: u32,
    /// Accesses refused with 9 while slots were left, and while more than 16 were left.
    all_left_passed: u64,
    many_left_passed: u64,
    pub retried_after_nine: u64,
    pub store_most: usize,
    /// Rows moved to a slot of another bank than the place's, and past a slot of another bank.
    to_other_bank: u64,
    past_other_bank: u64,
    /// Accesses refused with 8 while the bank of the row's home was not full, and accepted while that was full.
    slot_full: u64,
    home_full: u64,
}

/// The library's search for a slot takes another way where this many slots were passed.
const MANY: u32 = 16;

impl Seen {
    /// Takes in a call of a history, with the control record before and after it.
    pub fn note(&mut self, s: &Settings, call: &Call, answer: &Answer, before: &Control, after: &Control) {
        let row = match call {
            Call::Read { row, .. } | Call::Write { row, .. } => *row as usize,
            Call::SetUp | Call::Tick | Call::Inspect { .. } => return,
        };
        let full = |physical: usize| before.acts[s.bank(physical)] == s.l;
        match answer.number {
            0 => {
                self.home_full += u64::from(full(row));
                if answer.slot != NONE {
                    self.moved(s, answer, before, after.passed - before.passed - 1);
                }
            }
            8 => self.slot_full += u64::from(!full(row)),
            9 => {
                self.all_left_passed += u64::from(before.passed < s.q);
                self.many_left_passed += u64::from(before.passed + MANY < s.q);
            }
            _ => {}
        }
    }

    /// A row was moved past so many slots.
    fn moved(&mut self, s: &Settings, answer: &Answer, before: &Control, past: u32) {
        let other = |slot: u32| s.bank((s.n + slot) as usize) != s.bank(answer.place as usize);
        self.quarantines += 1;
        self.sent_home += u64::from(answer.row != NONE);
        self.past_slots += u64::from(past > 0);
        self.past_many += u64::from(past > MANY);
        self.into_the_last += u64::from(past > 0 && before.passed + past + 1 == s.q);
        self.most_passed = self.most_passed.max(past);
        self.to_other_bank += u64::from(other(answer.slot));
        self.past_other_bank += u64::from((0..past).any(|ahead| other((before.head + ahead) % s.q)));
    }

    pub fn print(&self, calls: u64) {
        println!(
            "a. sound histories: {calls} calls in {} histories, {} epochs ended, {} quarantines, {} rows sent home, {} \
             accesses refused with 9 and accepted after a tick, store up to {} bytes",
            self.histories,
            self.epochs,
            self.quarantines,
            self.sent_home,
            self.retried_after_nine,
            self.store_most,
        );
        println!(
            "   slots passed: in {} quarantines, more than {MANY} in {}, up to the last slot left in {}, at most {}; \
             refused with 9 while slots were left: {}, more than {MANY} of them: {}",
            self.past_slots,
            self.past_many,
            self.into_the_last,
            self.most_passed,
            self.all_left_passed,
            self.many_left_passed,
        );
        println!(
            "   banks: {} rows moved to a slot of another bank, {} past one; refused with 8 by the slot's bank while the \
             home's had room: {}, accepted in a slot while the home's was full: {}",
            self.to_other_bank, self.past_other_bank, self.slot_full, self.home_full,
        );
    }

    /// Each way in which the search can end, and each way in which places lie in the banks, was met at least `least` times.
    pub fn judge(&self, least: u64) -> Result<(), String> {
        let search = [self.past_slots, self.past_many, self.into_the_last, self.all_left_passed, self.many_left_passed];
        let banks = [self.to_other_bank, self.past_other_bank, self.slot_full, self.home_full];
        if search.iter().chain(&banks).any(|&times| times < least) {
            return Err(format!(
                "ends of the search were met only {search:?} times, ways of the banks {banks:?} times"
            ));
        }
        Ok(())
    }
}
