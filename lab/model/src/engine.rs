//! The engine of document 01, with Asks 2, 4 and 5 of document 02, written a second time and from these documents alone. An
//! access is first planned without a change, so a refusal cannot leave a trace, and then carried out. It answers for any
//! settings and any memory. One deliberate error can be planted, to show that the comparison would find it.

use crate::banks::Banks;
use crate::fault::{Bank, Fault};
use crate::memory::{Control, Memory, Settings};
use crate::tracker::{step_two, Search, Tracked};

const EMPTY: u16 = 65535;

#[derive(Clone, Copy, PartialEq, Eq, Debug)]
pub enum Refusal {
    Setting,
    Together,
    Length,
    Control,
    Row,
    Span,
    RowPointers,
    Epoch,
    Spent,
    Destination,
}

impl Refusal {
    pub fn number(self) -> u32 {
        match self {
            Refusal::Setting => 1,
            Refusal::Together => 2,
            Refusal::Length => 3,
            Refusal::Control => 4,
            Refusal::Row => 5,
            Refusal::Span => 6,
            Refusal::RowPointers | Refusal::Destination => 7,
            Refusal::Epoch => 8,
            Refusal::Spent => 9,
        }
    }
}

/// The answer of an accepted read or write.
pub struct Served {
    pub place: usize,
    /// The tracker's estimate after the access; none where only `spill` rose.
    pub estimate: Option<u32>,
    pub moved_to: Option<usize>,
    pub sent_home: Option<usize>,
}

/// A quarantine that is due.
struct Journey {
    to: usize,
    rise: u32,
    evicts: Option<usize>,
}

struct Plan {
    place: usize,
    left_slot: Option<usize>,
    tracked: Tracked,
    journey: Option<Journey>,
}

pub struct Model {
    pub memory: Memory,
    fault: Fault,
}

/// A pointer table entry as the number that it names.
fn named(table: &[u16], at: usize) -> Option<usize> {
    table.get(at).filter(|&&entry| entry != EMPTY).map(|&entry| usize::from(entry))
}

impl Model {
    pub fn new(memory: Memory, fault: Fault) -> Model {
        Model { memory, fault }
    }

    fn planted(&self, fault: Fault) -> bool {
        self.fault == fault
    }

    fn banks<'a>(&self, s: &'a Settings) -> Banks<'a> {
        Banks::new(s, &self.memory, self.fault)
    }

    fn judge_settings_and_lengths(&self, s: &Settings) -> Result<(), Refusal> {
        let banks = self.banks(s);
        let ranges = [
            (s.n, 1..=60_000),
            (s.q, 2..=5_500),
            (s.w, 1..=8_192),
            (s.k, 1..=4_096),
            (s.a, 1..=65_535),
            (s.l, 1..=1_360_000),
        ];
        if ranges.iter().any(|(value, range)| !range.contains(value)) || !banks.range().contains(&s.b) {
            return Err(Refusal::Setting);
        }
        if !banks.limit_holds() {
            return Err(Refusal::Together);
        }
        let (n, q, w) = (s.n as usize, s.q as usize, s.w as usize);
        let m = &self.memory;
        let pointers_fit = [m.store.len(), m.forward.len(), m.reverse.len()] == [(n + q) * w, n, q];
        if !pointers_fit || [m.rows.len(), m.counts.len()] != banks.lengths() {
            return Err(Refusal::Length);
        }
        Ok(())
    }

    /// The row that is called for bears on nothing here but one of the errors.
    fn judge_control(&self, s: &Settings, row: Option<u32>) -> Result<(), Refusal> {
        let place = row.filter(|&row| row < s.n).map(|row| self.believed_place(s, row as usize));
        if self.banks(s).sound(&self.memory, place) {
            Ok(())
        } else {
            Err(Refusal::Control)
        }
    }

    /// The place of a row by its forward entry alone.
    fn believed_place(&self, s: &Settings, row: usize) -> usize {
        named(&self.memory.forward, row).map_or(row, |slot| s.n as usize + slot)
    }

    /// The slot that the row sits in, if any.
    fn judge_row_pointers(&self, s: &Settings, row: usize) -> Result<Option<usize>, Refusal> {
        match named(&self.memory.forward, row) {
            None => Ok(None),
            Some(slot) if slot < s.q as usize && named(&self.memory.reverse, slot) == Some(row) => Ok(Some(slot)),
            Some(_) => Err(Refusal::RowPointers),
        }
    }

    /// "If that would exceed Q, the access gets 9 at 9's place", which is before the destination's 7. Where every slot is
    /// passed there is no destination, and the slots passed plus one are Q + 1.
    fn judge_journey(&self, s: &Settings, row: usize, own: Option<usize>, after: &Tracked) -> Result<Journey, Refusal> {
        let place = own.map_or(row, |slot| s.n as usize + slot);
        let search = Search { banks: &self.banks(s), before: &self.memory, after, place, own };
        let (to, rise) = search.destination().ok_or(Refusal::Spent)?;
        let most = if self.planted(Fault::SpentOneSlotEarly) { s.q - 1 } else { s.q };
        let spent = self.memory.control.passed + rise > most;
        if spent && !self.planted(Fault::DestinationBeforeSpent) {
            return Err(Refusal::Spent);
        }
        let evicts = match named(&self.memory.reverse, to) {
            None => None,
            Some(guest) if named(&self.memory.forward, guest) == Some(to) => Some(guest),
            Some(guest) if self.planted(Fault::DestinationNotJudged) && guest < s.n as usize && guest != row => {
                Some(guest)
            }
            Some(_) => return Err(Refusal::Destination),
        };
        if spent {
            Err(Refusal::Spent)
        } else {
            Ok(Journey { to, rise, evicts })
        }
    }

    fn plan(&self, s: &Settings, row: u32, fits: bool) -> Result<Plan, Refusal> {
        self.judge_settings_and_lengths(s)?;
        self.judge_control(s, Some(row))?;
        let row_stands = row < s.n;
        if !fits && (row_stands || self.planted(Fault::SpanBeforeRow)) {
            return Err(Refusal::Span);
        }
        if !row_stands {
            return Err(Refusal::Row);
        }
        let row = row as usize;
        let banks = self.banks(s);
        let full = |place: usize| banks.full(&self.memory.control, row, place);
        if self.planted(Fault::EpochBeforePointers) && full(self.believed_place(s, row)) {
            return Err(Refusal::Epoch);
        }
        let left_slot = self.judge_row_pointers(s, row)?;
        let place = left_slot.map_or(row, |slot| s.n as usize + slot);
        if full(place) {
            return Err(Refusal::Epoch);
        }
        let name = if self.planted(Fault::TracksVisibleRow) { row } else { place };
        let bank = banks.of(if self.planted(Fault::Bank(Bank::OfRowInStepTwo)) { row } else { name });
        let tracked = step_two(&banks, &self.memory, bank, name);
        let due = tracked.estimate.is_some_and(|estimate| {
            estimate % s.a == 0 || (self.planted(Fault::QuarantineFromThresholdOn) && estimate >= s.a)
        });
        let journey = if due { Some(self.judge_journey(s, row, left_slot, &tracked)?) } else { None };
        Ok(Plan { place, left_slot, tracked, journey })
    }

    fn line(&mut self, s: &Settings, physical: usize) -> &mut [u8] {
        self.memory.store.chunks_exact_mut(s.w as usize).nth(physical).expect("a physical row")
    }

    fn copy(&mut self, s: &Settings, from: usize, to: usize) {
        let carried = self.line(s, from).to_vec();
        let short = self.planted(Fault::CopyOneByteShort) || (self.planted(Fault::LongestRowCutShort) && s.w == 8_192);
        let count = carried.len() - usize::from(short);
        self.line(s, to)[..count].copy_from_slice(&carried[..count]);
    }

    fn carry_out(&mut self, s: &Settings, row: usize, plan: Plan, touch: impl FnOnce(&mut [u8])) -> Served {
        let Plan { place, left_slot, tracked, journey } = plan;
        let Tracked { rows, counts, spill, estimate } = tracked;
        self.memory.rows = rows;
        self.memory.counts = counts;
        self.memory.control.spill = spill;
        let counted = self.banks(s).counted(row, place);
        self.count(counted);
        let before = self.line(s, place).to_vec();
        touch(self.line(s, place));
        let mut served = Served { place, estimate: self.told(s, place, estimate), moved_to: None, sent_home: None };
        if let Some(Journey { to, rise, evicts }) = journey {
            let slot_row = s.n as usize + to;
            if let Some(guest) = evicts {
                self.copy(s, slot_row, guest);
                if !self.planted(Fault::SentHomeForwardKept) {
                    self.memory.forward[guest] = EMPTY;
                }
            }
            self.copy(s, place, slot_row);
            if self.planted(Fault::CopiedBeforeWritten) {
                self.line(s, slot_row).copy_from_slice(&before);
            }
            if self.planted(Fault::PlaceLeftIsCleared) {
                self.line(s, place).fill(0);
            }
            if let Some(old) = left_slot.filter(|_| !self.planted(Fault::OldReverseKept)) {
                self.memory.reverse[old] = EMPTY;
            }
            self.memory.reverse[to] = row as u16;
            self.memory.forward[row] = to as u16;
            self.memory.control.head = ((to + 1) % s.q as usize) as u32;
            self.memory.control.passed += rise;
            served.moved_to = Some(to);
            served.sent_home = evicts;
        }
        served
    }

    /// "`acts` rises by 1", that of a bank.
    fn count(&mut self, bank: usize) {
        let acts = &mut self.memory.control.acts[bank];
        *acts = acts.wrapping_add(1);
    }

    /// The estimate that is handed on; the tracker is as the access leaves it.
    fn told(&self, s: &Settings, place: usize, estimate: Option<u32>) -> Option<u32> {
        match self.fault {
            Fault::EstimateBeforeAccess => estimate.map(|count| count.wrapping_sub(1)),
            Fault::SpillForNoEstimate => estimate.or(Some(self.memory.control.spill[s.bank(place)])),
            Fault::EstimateOfAnotherEntry => estimate.and(self.memory.counts.first().copied()),
            _ => estimate,
        }
    }

    /// The estimate in the answer of a refused access: none.
    pub fn refused_estimate(&self, s: &Settings, row: u32, refusal: Refusal) -> Option<u32> {
        let late = matches!(refusal, Refusal::Epoch | Refusal::Spent);
        if late && self.planted(Fault::RefusalHasEstimate) {
            let banks = self.banks(s);
            step_two(&banks, &self.memory, banks.of(row as usize), row as usize).estimate
        } else {
            None
        }
    }

    fn access(&mut self, s: &Settings, row: u32, fits: bool, touch: impl FnOnce(&mut [u8])) -> Result<Served, Refusal> {
        match self.plan(s, row, fits) {
            Ok(plan) => Ok(self.carry_out(s, row as usize, plan, touch)),
            Err(refusal) => {
                if self.planted(Fault::RefusedAccessCounts) && refusal == Refusal::Spent {
                    self.count(s.bank(self.believed_place(s, row as usize)));
                }
                Err(refusal)
            }
        }
    }

    pub fn set_up(&mut self, s: &Settings) -> Result<(), Refusal> {
        self.judge_settings_and_lengths(s)?;
        let cleared = self.banks(s).cleared_by_set_up();
        self.memory.forward.fill(EMPTY);
        self.memory.reverse.fill(EMPTY);
        self.clear_tracker(cleared);
        self.memory.control.head = 0;
        self.memory.control.passed = 0;
        if self.planted(Fault::SetUpClearsStore) {
            self.memory.store.fill(0);
        }
        Ok(())
    }

    pub fn read(&mut self, s: &Settings, row: u32, buffer: &mut [u8]) -> Result<Served, Refusal> {
        let fits = buffer.len() as u64 == u64::from(s.w);
        let answer = self.access(s, row, fits, |line| buffer.copy_from_slice(line));
        if self.planted(Fault::RefusedReadFillsBuffer) && matches!(answer, Err(Refusal::Spent | Refusal::Epoch)) {
            buffer.fill(0);
        }
        answer
    }

    pub fn write(&mut self, s: &Settings, row: u32, column: usize, bytes: &[u8]) -> Result<Served, Refusal> {
        let end = if self.planted(Fault::ColumnWraps) {
            Some(column.wrapping_add(bytes.len()))
        } else {
            column.checked_add(bytes.len())
        };
        let fits = end.is_some_and(|end| end as u64 <= u64::from(s.w));
        if bytes.is_empty() && self.planted(Fault::EmptyWriteIsNothing) {
            let plan = self.plan(s, row, fits)?;
            return Ok(Served { place: plan.place, estimate: plan.tracked.estimate, moved_to: None, sent_home: None });
        }
        self.access(s, row, fits, |line| line.iter_mut().skip(column).zip(bytes).for_each(|(to, from)| *to = *from))
    }

    /// Clears so many of the record's places for banks, and so many entries.
    fn clear_tracker(&mut self, (places, entries): (usize, usize)) {
        self.memory.rows[..entries].fill(EMPTY);
        self.memory.counts[..entries].fill(0);
        self.memory.control.spill[..places].fill(0);
        self.memory.control.acts[..places].fill(0);
    }

    /// "The record's places for banks from B on are 0 at set-up and not looked at or changed afterwards."
    pub fn tick(&mut self, s: &Settings) -> Result<(), Refusal> {
        self.judge_settings_and_lengths(s)?;
        if !self.planted(Fault::TickNotJudged) {
            self.judge_control(s, None)?;
        }
        let old = self.memory.control;
        self.clear_tracker(self.banks(s).cleared_by_tick());
        let control = &mut self.memory.control;
        match self.fault {
            Fault::TickResetsHead => *control = Control { head: 0, passed: 0, ..*control },
            Fault::TickKeepsSpill => *control = Control { spill: old.spill, passed: 0, ..*control },
            Fault::TickKeepsPassed => {}
            _ => control.passed = 0,
        }
        Ok(())
    }

    /// Inspect, by its first call; gives the row's place too.
    pub fn inspect(&self, s: &Settings, row: u32) -> Result<usize, Refusal> {
        self.judge_settings_and_lengths(s)?;
        self.judge_control(s, Some(row))?;
        if row >= s.n {
            return Err(Refusal::Row);
        }
        Ok(self.judge_row_pointers(s, row as usize)?.map_or(row as usize, |slot| s.n as usize + slot))
    }

    /// Inspect, by its second call: start and length of the part of the store that holds the row, 0 and 0 in a refusal.
    pub fn inspect_span(&self, s: &Settings, row: u32) -> (usize, usize) {
        let w = s.w as usize;
        match self.inspect(s, row) {
            Ok(_) if self.planted(Fault::SpanOfTheHome) => (row as usize * w, w),
            Ok(place) => (place * w, w),
            Err(_) if self.planted(Fault::RefusedSpanHasLength) => (0, w),
            Err(_) => (0, 0),
        }
    }
}
