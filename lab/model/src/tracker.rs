//! The tracker: step 2 of an access, and which slots the head passes afterwards (document 02, Asks 4 and 5). Step 2 leaves
//! its results beside the lent tracker, which stays as it was until the access is carried out.

use crate::banks::Banks;
use crate::fault::{Bank, Fault, Wear};
use crate::memory::{Memory, Settings, BANKS};

/// The tracker as step 2 leaves it.
pub struct Tracked {
    pub rows: Vec<u16>,
    pub counts: Vec<u32>,
    pub spill: [u32; BANKS],
    /// None where only `spill` rose.
    pub estimate: Option<u32>,
}

/// The entry, of those given, that names a row: the lowest such, or the highest where that is the error.
fn entry_of(
    rows: &[u16], mut entries: impl DoubleEndedIterator<Item = usize>, name: usize, highest: bool,
) -> Option<usize> {
    let names = |&entry: &usize| usize::from(rows[entry]) == name;
    if highest {
        entries.rfind(names)
    } else {
        entries.find(names)
    }
}

/// "If an entry names p (the lowest such), its count rises by 1 and that is the estimate. Else, if some count equals
/// `spill`, the lowest such entry takes p with count `spill` + 1, and that is the estimate. Else `spill` rises by 1 and
/// there is no estimate." And "Step 2 looks only at the entries of p's bank", which is given here.
pub fn step_two(banks: &Banks, memory: &Memory, bank: usize, name: usize) -> Tracked {
    let fault = banks.fault;
    let spill_at = if fault == Fault::Bank(Bank::FirstSpill) { 0 } else { bank };
    let spill = memory.control.spill[spill_at];
    let (rows, counts) = (memory.rows.clone(), memory.counts.clone());
    let mut after = Tracked { rows, counts, spill: memory.control.spill, estimate: None };
    let mut entries = banks.entries(bank);
    if let Some(entry) = entry_of(&after.rows, entries.clone(), name, fault == Fault::HighestNameRules) {
        after.counts[entry] = after.counts[entry].wrapping_add(1);
        after.estimate = Some(after.counts[entry]);
        return after;
    }
    let spare = |&entry: &usize| memory.counts[entry] == spill;
    let found = if fault == Fault::HighestSpareTaken { entries.rfind(spare) } else { entries.find(spare) };
    match found {
        Some(entry) => {
            after.rows[entry] = name as u16;
            after.counts[entry] = if fault == Fault::EntryStartsAtOne { 1 } else { spill.wrapping_add(1) };
            after.estimate = Some(after.counts[entry]);
        }
        None if fault == Fault::Bank(Bank::SpillRisesInAll) => {
            after.spill[..banks.count()].iter_mut().for_each(|spill| *spill = spill.wrapping_add(1));
        }
        None => after.spill[spill_at] = spill.wrapping_add(1),
    }
    after
}

/// What decides which slots the head passes.
pub struct Search<'a> {
    pub banks: &'a Banks<'a>,
    pub before: &'a Memory,
    pub after: &'a Tracked,
    /// The place that the moving row leaves, and the slot that it is, if it is one.
    pub place: usize,
    pub own: Option<usize>,
}

impl Search<'_> {
    /// "The head shall pass every slot whose physical row has, in the lowest entry naming it, a tracker count of A or more
    /// after step 2, as well as the moving row's own slot." The entries are those of the slot's bank (Ask 5). The slot is
    /// `ahead` slots from the head on.
    fn passes(&self, slot: usize, ahead: usize) -> bool {
        let Banks { s, fault, .. } = *self.banks;
        let late = ahead >= 16;
        let planted = |wear: Wear| fault == Fault::Wear(wear) || (late && fault == Fault::LateWear(wear));
        let Settings { n, a, .. } = *s;
        let (rows, counts) = if planted(Wear::BeforeStepTwo) {
            (&self.before.rows, &self.before.counts)
        } else {
            (&self.after.rows, &self.after.counts)
        };
        let physical = n as usize + slot;
        let name = if planted(Wear::BySlotNumber) { slot } else { physical };
        let bank = if planted(Wear::InMoversBank) {
            self.banks.of(self.place)
        } else if planted(Wear::InBankOfSlotNumber) {
            self.banks.of(slot)
        } else {
            self.banks.of(name)
        };
        let entries = if planted(Wear::InEveryBank) { self.banks.all_entries() } else { self.banks.entries(bank) };
        let count = entry_of(rows, entries, name, planted(Wear::ByHighestEntry)).map(|entry| counts[entry]);
        let least = if planted(Wear::AboveThreshold) { a + 1 } else { a };
        let worn = count.is_some_and(|count| count >= least) && !planted(Wear::NotLookedAt);
        let own = self.own == Some(slot);
        if own && planted(Wear::OwnSlotTaken) {
            return false;
        }
        if planted(Wear::OtherBanksPassed) && self.banks.of(physical) != self.banks.of(self.place) {
            return true;
        }
        worn || own
    }

    /// "The destination is the first slot from `head` on that isn't passed; `passed` rises by the slots passed plus one."
    /// Gives both; none where every slot is passed.
    pub fn destination(&self) -> Option<(usize, u32)> {
        let Banks { s, fault, .. } = *self.banks;
        let (head, q) = (self.before.control.head as usize, s.q as usize);
        let round = if fault == Fault::SearchEndsAtLastSlot { 0..0 } else { 0..head };
        let found = (head..q).chain(round).zip(1..).find(|&(slot, rise)| !self.passes(slot, rise as usize - 1));
        match found {
            None if fault == Fault::NoDestinationTakesHead => Some((head, 1)),
            Some((slot, _)) if fault == Fault::PassedRisesByOne => Some((slot, 1)),
            found => found,
        }
    }
}
