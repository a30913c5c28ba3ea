//! The tally of demand 3, kept from outside: it is fed the calls and, from the answers, the number, the slot moved to
//! and the row sent home. It sees no table, no tracker and no control record.

use model::memory::{Answer, Call, Settings, NONE};
use std::ops::Range;

/// What one epoch added, and what it and the one before it added together. A stretch of calls with at most one tick in it
/// lies within two such epochs, and openings are only ever added; so a stretch has no more than these two.
#[derive(Clone, Copy, PartialEq, Eq, Debug, Default)]
pub struct Figures {
    /// Most openings of one home.
    pub home: u64,
    /// Most openings of one slot.
    pub slot: u64,
    /// Most openings of one home in this epoch and the one before.
    pub home_over_tick: u64,
    /// Most openings of one slot in this epoch and the one before.
    pub slot_over_tick: u64,
    pub quarantines: u64,
    /// Accesses refused for want of a slot.
    pub spent: u64,
}

impl Figures {
    /// Takes from other figures what is greater there.
    pub fn raise(&mut self, other: &Figures) {
        self.home = self.home.max(other.home);
        self.slot = self.slot.max(other.slot);
        self.home_over_tick = self.home_over_tick.max(other.home_over_tick);
        self.slot_over_tick = self.slot_over_tick.max(other.slot_over_tick);
        self.quarantines = self.quarantines.max(other.quarantines);
        self.spent = self.spent.max(other.spent);
    }
}

pub struct Tally {
    n: usize,
    places: Vec<usize>,
    openings: Vec<u64>,
    quarantines: u64,
    spent: u64,
    /// Accepted accesses of the epoch so far.
    accesses: u64,
    /// Cumulative openings as they stood when the epoch before this one began.
    openings_before: Vec<u64>,
    /// Cumulative counts as they stood when the epoch began.
    openings_then: Vec<u64>,
    quarantines_then: u64,
    spent_then: u64,
}

impl Tally {
    /// The tally as set-up leaves it.
    pub fn new(s: &Settings) -> Tally {
        let (n, q) = (s.n as usize, s.q as usize);
        Tally {
            n,
            places: (0..n).collect(),
            openings: vec![0; n + q],
            quarantines: 0,
            spent: 0,
            accesses: 0,
            openings_before: vec![0; n + q],
            openings_then: vec![0; n + q],
            quarantines_then: 0,
            spent_then: 0,
        }
    }

    /// The place of a visible row; none where there is no such row.
    pub fn place(&self, row: u32) -> Option<usize> {
        self.places.get(row as usize).copied()
    }

    /// Takes in one call of the list. An accepted tick gives the figures of the epoch that it ends.
    pub fn feed(&mut self, call: &Call, answer: &Answer) -> Option<Figures> {
        match call {
            Call::Read { row, .. } | Call::Write { row, .. } => {
                if answer.number == 0 {
                    self.access(*row as usize, answer.slot, answer.row);
                } else if answer.number == 9 {
                    self.spent += 1;
                }
                None
            }
            Call::Tick if answer.number == 0 => {
                let figures = self.figures();
                std::mem::swap(&mut self.openings_before, &mut self.openings_then);
                self.openings_then.clone_from(&self.openings);
                self.quarantines_then = self.quarantines;
                self.spent_then = self.spent;
                self.accesses = 0;
                Some(figures)
            }
            Call::Tick | Call::SetUp | Call::Inspect { .. } => None,
        }
    }

    fn access(&mut self, row: usize, slot: u32, sent_home: u32) {
        let place = self.places[row];
        self.openings[place] += 1;
        self.accesses += 1;
        if slot == NONE {
            return;
        }
        let to = self.n + slot as usize;
        self.quarantines += 1;
        self.openings[place] += 1;
        self.openings[to] += 1;
        self.places[row] = to;
        if sent_home != NONE {
            let home = sent_home as usize;
            self.openings[to] += 1;
            self.openings[home] += 1;
            self.places[home] = home;
        }
    }

    /// Judges that a 9, if that is what the last call got, does not come early: two slots for each quarantine of the
    /// epoch so far are all slots but one at least, and each quarantine, the refused one included, took A accesses.
    pub fn judge_nine(&self, s: &Settings, answer: &Answer) -> Result<(), String> {
        let quarantines = self.quarantines - self.quarantines_then;
        let late = u64::from(s.q) <= 2 * quarantines + 1 && u64::from(s.a) * (quarantines + 1) <= self.accesses + 1;
        if answer.number != 9 || late {
            Ok(())
        } else {
            Err(format!("9 after {quarantines} quarantines and {} accesses of an epoch, {s:?}", self.accesses))
        }
    }

    /// The figures of the epoch so far, and with the one before.
    pub fn figures(&self) -> Figures {
        let most = |since: &[u64], rows: Range<usize>| rows.map(|p| self.openings[p] - since[p]).max().unwrap_or(0);
        let (homes, slots) = (0..self.n, self.n..self.openings.len());
        Figures {
            home: most(&self.openings_then, homes.clone()),
            slot: most(&self.openings_then, slots.clone()),
            home_over_tick: most(&self.openings_before, homes),
            slot_over_tick: most(&self.openings_before, slots),
            quarantines: self.quarantines - self.quarantines_then,
            spent: self.spent - self.spent_then,
        }
    }
}

/// Judges an epoch's figures by demand 3's bounds; a slot's is that of document 02, Ask 4, and the quarantines are at
/// most B times 01's figure, "and so are the slots needed" (Ask 5). With the epoch before, the bounds are Ask 6's.
pub fn judge(s: &Settings, f: &Figures) -> Result<(), String> {
    let a = u64::from(s.a);
    let most = s.figure();
    let epoch =
        f.home <= a + 2 && f.slot <= a + 3 && f.quarantines <= most && (u64::from(s.q) < 2 * most || f.spent == 0);
    let over_tick = f.home_over_tick <= 2 * a + 4 && f.slot_over_tick <= 2 * a + 5;
    match (epoch, over_tick) {
        (true, true) => Ok(()),
        (false, _) => Err(format!("an epoch breaks demand 3's bounds: {f:?} with {s:?}")),
        (true, false) => Err(format!("a stretch over one tick breaks Ask 6's bounds: {f:?} with {s:?}")),
    }
}
