//! Document 02's Ask 5: which bank a physical row is of, which entries are a bank's, and what is judged of each bank. An
//! error that takes settings or lengths which it should refuse must still be answered; so lengths are looked at again here.

use crate::fault::{Bank, Fault};
use crate::memory::{Control, Memory, Settings, BANKS};
use std::iter::StepBy;
use std::ops::Range;

pub struct Banks<'a> {
    pub s: &'a Settings,
    pub fault: Fault,
    /// Entries that are lent.
    length: usize,
}

impl Banks<'_> {
    pub fn new<'a>(s: &'a Settings, memory: &Memory, fault: Fault) -> Banks<'a> {
        Banks { s, fault, length: memory.rows.len().min(memory.counts.len()) }
    }

    fn planted(&self, bank: Bank) -> bool {
        self.fault == Fault::Bank(bank)
    }

    /// B, as far as the control record has places.
    pub fn count(&self) -> usize {
        (self.s.b as usize).clamp(1, BANKS)
    }

    /// "Physical row p belongs to bank p mod B."
    pub fn of(&self, physical: usize) -> usize {
        let (n, b) = (self.s.n as usize, self.count());
        match self.fault {
            Fault::Bank(Bank::ByQuotient) => (physical / b).min(b - 1),
            Fault::Bank(Bank::BySixteen) => physical % 16 % b,
            Fault::Bank(Bank::ByLowBits) => physical & (b - 1),
            Fault::Bank(Bank::OfSlotNumber) if physical >= n => (physical - n) % b,
            _ => physical % b,
        }
    }

    /// "Tracker buffers hold B × K entries, bank after bank."
    pub fn entries(&self, bank: usize) -> StepBy<Range<usize>> {
        let (k, b) = (self.s.k as usize, self.count());
        let early = usize::from(bank > 0 && self.planted(Bank::EntriesFromKLessOne));
        let (from, to, step) = if self.planted(Bank::EntriesByTurns) {
            (bank, b * k, b)
        } else {
            (bank * k - early, (bank + 1) * k - early, 1)
        };
        (from..to.min(self.length)).step_by(step)
    }

    pub fn all_entries(&self) -> StepBy<Range<usize>> {
        (0..self.length).step_by(1)
    }

    /// Number 4: "head ≥ Q, passed > Q", or of some bank "acts > L, spill > acts, spill ≥ A, or some count > acts". The
    /// place is that of the row that is called for, if any.
    pub fn sound(&self, memory: &Memory, place: Option<usize>) -> bool {
        let Control { head, passed, spill, acts } = &memory.control;
        let mut judged = match (self.fault, place) {
            (Fault::Bank(Bank::AllPlacesJudged), _) => 0..BANKS,
            (Fault::Bank(Bank::OnePlaceMoreJudged), _) => 0..(self.count() + 1).min(BANKS),
            (Fault::Bank(Bank::LastPlaceNotJudged), _) => 0..self.count() - 1,
            (Fault::Bank(Bank::FirstAloneJudged), _) => 0..1,
            (Fault::Bank(Bank::PlaceAloneJudged), Some(place)) => self.of(place)..self.of(place) + 1,
            _ => 0..self.count(),
        };
        let first = acts[0];
        let largest = acts[..self.count()].iter().max().copied().unwrap_or(0);
        let bank_is_sound = |bank: usize| {
            let (spill, acts) = (spill[bank], acts[bank]);
            let spill_most = if self.planted(Bank::SpillByFirst) { first } else { acts };
            let count_most = match self.fault {
                Fault::Bank(Bank::CountsByFirst) => first,
                Fault::Bank(Bank::CountsByLargest) => largest,
                Fault::CountsNotJudged => u32::MAX,
                _ => acts,
            };
            let below = spill < self.s.a || (self.fault == Fault::SpillAtThresholdTaken && spill == self.s.a);
            let counts = self.entries(bank).all(|entry| memory.counts[entry] <= count_most);
            acts <= self.s.l && spill <= spill_most && below && counts
        };
        *head < self.s.q && *passed <= self.s.q && judged.all(bank_is_sound)
    }

    /// Number 8: "8 looks at the bank of p", the place.
    pub fn full(&self, control: &Control, row: usize, place: usize) -> bool {
        let acts = &control.acts[..self.count()];
        let l = self.s.l;
        match self.fault {
            Fault::Bank(Bank::OfRowFull) => acts[self.of(row)] == l,
            Fault::Bank(Bank::FirstFull) => acts[0] == l,
            Fault::Bank(Bank::AnyFull) => acts.contains(&l),
            Fault::Bank(Bank::AllTogetherFull) => acts.iter().map(|&acts| u64::from(acts)).sum::<u64>() >= l.into(),
            _ => acts[self.of(place)] == l,
        }
    }

    /// The bank whose `acts` rises.
    pub fn counted(&self, row: usize, place: usize) -> usize {
        match self.fault {
            Fault::Bank(Bank::OfRowCounts) => self.of(row),
            Fault::Bank(Bank::FirstCounts) => 0,
            _ => self.of(place),
        }
    }

    /// B is "1 to 16".
    pub fn range(&self) -> Range<u32> {
        match self.fault {
            Fault::Bank(Bank::NoBankTaken) => 0..17,
            Fault::Bank(Bank::SeventeenTaken) => 1..18,
            Fault::Bank(Bank::SixteenRefused) => 1..16,
            _ => 1..17,
        }
    }

    /// Number 2 is a bank's: "L is A × (K + 1) or more".
    pub fn limit_holds(&self) -> bool {
        let [k, a, l, b] = [self.s.k, self.s.a, self.s.l, self.s.b].map(u64::from);
        match self.fault {
            Fault::Bank(Bank::LimitByAllEntries) => l < a * (b * k + 1),
            Fault::Bank(Bank::LimitByAllAccesses) => b * l < a * (k + 1),
            _ => l < a * (k + 1),
        }
    }

    /// The lengths of the tracker's two parts.
    pub fn lengths(&self) -> [usize; 2] {
        let (one, all) = (self.s.k as usize, self.s.entries());
        match self.fault {
            Fault::Bank(Bank::LengthsOfOneBank) => [one, one],
            Fault::Bank(Bank::RowsOfOneBank) => [one, all],
            Fault::Bank(Bank::CountsOfOneBank) => [all, one],
            _ => [all, all],
        }
    }

    /// How many of the record's places, and of the entries, a tick clears.
    pub fn cleared_by_tick(&self) -> (usize, usize) {
        match self.fault {
            Fault::Bank(Bank::TickClearsAllPlaces) => (BANKS, self.length),
            Fault::Bank(Bank::TickClearsOnePlaceMore) => ((self.count() + 1).min(BANKS), self.length),
            Fault::Bank(Bank::TickClearsFirstPlaceAlone) => (1, self.length),
            Fault::Bank(Bank::TickClearsFirstEntriesAlone) => (self.count(), self.entries(0).len()),
            _ => (self.count(), self.length),
        }
    }

    /// The same of set-up.
    pub fn cleared_by_set_up(&self) -> (usize, usize) {
        match self.fault {
            Fault::Bank(Bank::SetUpClearsPlacesBelow) => (self.count(), self.length),
            Fault::Bank(Bank::SetUpKeepsLastPlace) => (BANKS - 1, self.length),
            Fault::Bank(Bank::SetUpClearsFirstEntriesAlone) => (BANKS, self.entries(0).len()),
            _ => (BANKS, self.length),
        }
    }
}
