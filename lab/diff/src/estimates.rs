//! What follows from an estimate for its place (document 02, Ask 2), judged from outside: the judge is fed the calls, their
//! answers and `spill` of the place's bank as the call left it. A place whose estimate has reached A is left, and no row
//! moves to it again in the epoch (Ask 4) or is sent home to it; so no estimate is above A, and a row moves at A alone.

use model::memory::{Answer, Call, Control, Settings, NONE};

/// What the answers of the running epoch said of each place.
pub struct Estimates {
    /// How often accesses opened it.
    accesses: Vec<u32>,
    /// The last estimate other than 0 that was answered for it.
    latest: Vec<u32>,
    /// How often accesses opened it after that one.
    since: Vec<u32>,
}

impl Estimates {
    pub fn new(s: &Settings) -> Estimates {
        let places = s.n as usize + s.q as usize;
        Estimates { accesses: vec![0; places], latest: vec![0; places], since: vec![0; places] }
    }

    /// Takes in a call, and judges what it answered if it is an accepted access.
    pub fn feed(&mut self, s: &Settings, call: &Call, answer: &Answer, control: &Control) -> Result<(), String> {
        match call {
            _ if answer.number != 0 => Ok(()),
            Call::Read { .. } | Call::Write { .. } => {
                self.access(s, answer, control.spill[s.bank(answer.place as usize)])
            }
            Call::Tick => {
                self.accesses.fill(0);
                self.latest.fill(0);
                self.since.fill(0);
                Ok(())
            }
            Call::SetUp | Call::Inspect { .. } => Ok(()),
        }
    }

    fn access(&mut self, s: &Settings, answer: &Answer, spill: u32) -> Result<(), String> {
        let place = answer.place as usize;
        self.accesses[place] += 1;
        let (accesses, latest, estimate) = (self.accesses[place], self.latest[place], answer.estimate);
        let least = latest + self.since[place] + 1;
        let moved = answer.slot != NONE;
        let holds = if estimate == 0 {
            self.since[place] += 1;
            !moved && accesses <= spill && least <= spill
        } else {
            self.latest[place] = estimate;
            self.since[place] = 0;
            moved == (estimate == s.a)
                && (least..=s.a).contains(&estimate)
                && (accesses..=accesses + spill).contains(&estimate)
        };
        if holds && spill < s.a {
            Ok(())
        } else {
            Err(format!(
                "{answer:?}: {accesses} accesses of the place, a count of at least {least}, spill {spill}, {s:?}"
            ))
        }
    }
}
