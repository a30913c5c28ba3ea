//! The streams of accesses that are timed, each from a memory that a history of accepted calls can leave.

use crate::worn;
use model::memory::{Control, Memory, Settings, BANKS};
use model::rng::Rng;

/// In place of a row: a tick.
pub const TICK: u32 = 65_535;

/// The mark of an empty entry.
const EMPTY: u16 = 65_535;

/// The most visible rows that settings can ask for.
const MOST_ROWS: u32 = 60_000;

/// Rows that the streams of hits and of misses take in a random order; few, so that their bytes stay in the cache.
const FEW: u32 = 16;

#[derive(Clone, Copy, PartialEq, Eq, Debug)]
pub enum Kind {
    /// The tracker is full, and 16 rows are read whose entries are spread evenly over the banks and over each bank: the
    /// names are searched to the middle on average. For 16 banks of 4096 entries there are too few rows; there the last
    /// entries of each bank stay empty.
    Hits,
    /// The tracker is full, each count is above spill, and 16 rows are read that no entry names: each access passes
    /// over all names and all counts of its bank and raises spill. It ends before spill reaches the counts, and starts
    /// over.
    Misses,
    /// Rows are read in turn, more than twice as many as there are entries, so none is ever named: each access passes
    /// over all names and takes the next entry with count spill; one access in K + 1 raises spill instead. There is one
    /// bank.
    NewRows,
    /// Each row is read A times, then the next: the A-th access moves it, and as all slots are taken by then it also
    /// sends a row home, two copies for A accesses. A tick ends each epoch, and its time counts.
    Hammering,
    /// The tracker is full, and each access moves a row. Of the slots that the head has not gone by, three of four are
    /// worn: it passes three for each move, and sends a row home from the fourth.
    WornSlots,
    /// The tracker is full, and all slots that the head has not gone by are worn, as many as a history can leave. Each
    /// access would move its row and is refused with 9.
    Nines,
    /// Row N is read, and each access is refused with 5, which is judged directly after 4: it passes over the counts of
    /// all banks and does nothing else.
    Fives,
}

pub const KINDS: [Kind; 7] =
    [Kind::Hits, Kind::Misses, Kind::NewRows, Kind::Hammering, Kind::WornSlots, Kind::Nines, Kind::Fives];

/// The sizes of a cell.
#[derive(Clone, Copy, PartialEq, Eq, Debug)]
pub struct Size {
    pub w: u32,
    pub k: u32,
    pub b: u32,
}

const WIDTHS: [u32; 2] = [64, 8192];

impl Kind {
    pub fn name(self) -> &'static str {
        match self {
            Kind::Hits => "hits",
            Kind::Misses => "misses",
            Kind::NewRows => "new rows",
            Kind::Hammering => "hammering",
            Kind::WornSlots => "worn slots",
            Kind::Nines => "nines",
            Kind::Fives => "fives",
        }
    }

    /// The sizes that cells are made for: K with one bank and each W, then K and B with W = 64. With 16 entries an epoch
    /// has at most 16 worn slots, too few to be timed; W does not bear on an access that is refused; and each of 16
    /// banks has at most 4094 physical rows, so with 4096 entries there are no misses.
    pub fn sizes(self) -> Vec<Size> {
        let (entries, banked): (&[u32], &[(u32, u32)]) = match self {
            Kind::Hits | Kind::Hammering => (&[16, 256, 4096], &[(256, 4), (4096, 4), (256, 16), (4096, 16)]),
            Kind::Misses => (&[16, 256, 4096], &[(256, 4), (4096, 4), (256, 16), (3584, 16)]),
            Kind::NewRows => (&[16, 256, 4096], &[]),
            Kind::WornSlots => (&[256, 4096], &[]),
            Kind::Nines => (&[], &[(4096, 1)]),
            Kind::Fives => (&[], &[(4096, 16)]),
        };
        let one_bank = WIDTHS.iter().flat_map(|&w| entries.iter().map(move |&k| Size { w, k, b: 1 }));
        one_bank.chain(banked.iter().map(|&(k, b)| Size { w: 64, k, b })).collect()
    }

    /// The other settings. By those of all kinds but nines and fives every access is accepted.
    pub fn settings(self) -> &'static str {
        match self {
            Kind::Hits => "N = B K or 60000, Q = 2, A = 65535, L = 1000000; no row is moved",
            Kind::Misses => "N = B K + 16, Q = 2, A = 65535, L = 1100000 or 325 K; no row is moved",
            Kind::NewRows => "N = 2 K + 2, Q = 2, A = 65535, L = 1000000; no row is moved",
            Kind::Hammering => "A = 8, L = 128, Q = 32, N = 40; every eighth access moves a row and sends one home",
            Kind::WornSlots => "A = 2, L = 2 K + 1, Q = 448, N = K + 256; each access moves a row past 3 worn slots",
            Kind::Nines => "A = 2, L = 8193, Q = 5500, N = 6846; each access is refused, all 2750 slots left are worn",
            Kind::Fives => "N = 16, Q = 2, A = 65535, L = 1000000; each access is refused, row N is read",
        }
    }
}

pub struct Stream {
    pub kind: Kind,
    pub s: Settings,
    /// The memory at the start.
    pub start: Memory,
    /// Rows to read after set-up, or ticks, by which the start is reached; none where there are too many of them.
    pub lead: Option<Vec<u32>>,
    /// Rows to read, or ticks.
    pub steps: Vec<u32>,
    /// The number that each access gets.
    pub number: u32,
    /// How often the steps are made in one pass; before each time the tracker and the control record start over.
    pub times: usize,
    /// What one time must do: rows moved, rows sent home, and spill of each bank at the end.
    pub moved: u64,
    pub sent_home: u64,
    pub spill: [u32; BANKS],
}

/// Memory before set-up, with bytes that tell the rows apart.
fn raw_memory(s: &Settings) -> Memory {
    let mut m = Memory::raw(s, 0xA5);
    for (row, part) in m.store.chunks_exact_mut(s.w as usize).enumerate() {
        let first = row.wrapping_mul(2_654_435_761) >> 7;
        part.iter_mut().enumerate().for_each(|(column, byte)| *byte = (first + column) as u8);
    }
    m
}

/// The same memory as set-up leaves it.
pub fn new_memory(s: &Settings) -> Memory {
    let mut m = raw_memory(s);
    [&mut m.forward, &mut m.reverse, &mut m.rows].into_iter().for_each(|table| table.fill(EMPTY));
    m.counts.fill(0);
    m.control = Control::default();
    m
}

/// The row sits in the slot, and its bytes are there as well as at its home.
pub fn seat(s: &Settings, m: &mut Memory, row: u32, slot: u32) {
    m.forward[row as usize] = slot as u16;
    m.reverse[slot as usize] = row as u16;
    copy_of(s, m, row, slot);
}

/// The slot has the bytes of the row.
pub fn copy_of(s: &Settings, m: &mut Memory, row: u32, slot: u32) {
    let (w, row, slot) = (s.w as usize, row as usize, s.n as usize + slot as usize);
    m.store.copy_within(row * w..(row + 1) * w, slot * w);
}

/// Steps after set-up by which the rows 0 to Q - 1 come to sit in the slots of the same numbers: each is read A times. A
/// tick ends each epoch, which has as many rows as L allows.
pub fn fill_slots(s: &Settings) -> Vec<u32> {
    let rows: Vec<u32> = (0..s.q).collect();
    let epochs = rows.chunks((s.l / s.a) as usize);
    epochs.flat_map(|rows| rows.iter().flat_map(|&row| again(row, s.a)).chain([TICK])).collect()
}

pub fn again(row: u32, times: u32) -> impl Iterator<Item = u32> {
    std::iter::repeat_n(row, times as usize)
}

/// The tracker after each of the rows 0 to B * entries - 1 was read `count` times, which moved none: in each bank so
/// many entries are taken, in the order of the rows.
fn fill_tracker(s: &Settings, m: &mut Memory, entries: u32, count: u32) {
    let k = s.k as usize;
    for (bank, acts) in (0..s.b).zip(&mut m.control.acts) {
        let names = (bank..).step_by(s.b as usize).take(entries as usize);
        m.rows[bank as usize * k..].iter_mut().zip(names).for_each(|(entry, row)| *entry = row as u16);
        m.counts[bank as usize * k..][..entries as usize].fill(count);
        *acts = entries * count;
    }
}

fn any_of(rows: &[u32], count: usize) -> Vec<u32> {
    let rng = &mut Rng::new(rows.len() as u64);
    (0..count).map(|_| rng.pick(rows)).collect()
}

/// Accesses of one pass: some 2 milliseconds of the idiomatic engine.
fn pass_length(size: Size) -> usize {
    2_000_000 / (20 + size.b as usize * size.k as usize + size.w as usize / 16)
}

pub fn stream(kind: Kind, size: Size) -> Stream {
    let wanted = pass_length(size);
    match kind {
        Kind::Hits => hits(size, wanted),
        Kind::Misses => misses(size, wanted),
        Kind::NewRows => new_rows(size, wanted),
        Kind::Hammering => hammering(size, wanted),
        Kind::WornSlots => worn::worn_slots(size, wanted),
        Kind::Nines => worn::nines(size),
        Kind::Fives => fives(size, wanted),
    }
}

/// No row is moved: each is read some thousand times, far less often than A.
fn hits(Size { w, k, b }: Size, wanted: usize) -> Stream {
    let entries = k.min(MOST_ROWS / b);
    let s = Settings { n: b * entries, q: 2, w, k, a: 65_535, l: 1_000_000, b };
    let mut start = new_memory(&s);
    fill_tracker(&s, &mut start, entries, 1);
    let few: Vec<u32> = (0..FEW).map(|i| (2 * i + 1) * entries / (2 * FEW) * b + i % b).collect();
    let (lead, steps) = (Some((0..s.n).collect()), any_of(&few, wanted));
    Stream { kind: Kind::Hits, s, start, lead, steps, number: 0, times: 1, moved: 0, sent_home: 0, spill: [0; BANKS] }
}

/// The counts are as high as L allows, so that many accesses fit below them.
fn misses(Size { w, k, b }: Size, wanted: usize) -> Stream {
    let s = Settings { n: b * k + FEW, q: 2, w, k, a: 65_535, l: 1_100_000.max(k * 325), b };
    let count = (s.l / (k + 1)).min(60_000);
    let mut start = new_memory(&s);
    fill_tracker(&s, &mut start, k, count);
    let few: Vec<u32> = (b * k..s.n).collect();
    let length = wanted.min(count as usize);
    let (steps, times) = (any_of(&few, length), wanted.div_ceil(length));
    let mut spill = [0; BANKS];
    steps.iter().for_each(|row| spill[(row % b) as usize] += 1);
    Stream { kind: Kind::Misses, s, start, lead: None, steps, number: 0, times, moved: 0, sent_home: 0, spill }
}

fn new_rows(Size { w, k, .. }: Size, wanted: usize) -> Stream {
    let s = Settings { n: 2 * k + 2, q: 2, w, k, a: 65_535, l: 1_000_000, b: 1 };
    let start = new_memory(&s);
    let steps = (0..wanted as u32).map(|at| at % s.n).collect();
    let (lead, mut spill) = (Some(Vec::new()), [0; BANKS]);
    spill[0] = wanted as u32 / (k + 1);
    Stream { kind: Kind::NewRows, s, start, lead, steps, number: 0, times: 1, moved: 0, sent_home: 0, spill }
}

/// Q is twice L / A, so that there is a slot for each move. At the start all slots are taken.
fn hammering(Size { w, k, b }: Size, wanted: usize) -> Stream {
    let a = 8;
    let moves = k.min(16);
    let q = 2 * moves;
    let s = Settings { n: q + 8, q, w, k, a, l: a * moves, b };
    let mut start = new_memory(&s);
    (0..q).for_each(|slot| seat(&s, &mut start, slot, slot));
    let epochs = (wanted as u32).div_ceil(s.l);
    let mut steps = Vec::with_capacity((epochs * (s.l + 1)) as usize);
    for turn in 0..epochs * moves {
        steps.extend(again((q + turn) % s.n, a));
        if (turn + 1) % moves == 0 {
            steps.push(TICK);
        }
    }
    let (lead, moved, spill) = (Some(fill_slots(&s)), u64::from(epochs * moves), [0; BANKS]);
    Stream { kind: Kind::Hammering, s, start, lead, steps, number: 0, times: 1, moved, sent_home: moved, spill }
}

fn fives(Size { w, k, b }: Size, wanted: usize) -> Stream {
    let s = Settings { n: FEW, q: 2, w, k, a: 65_535, l: 1_000_000, b };
    let (start, lead, steps) = (new_memory(&s), Some(Vec::new()), again(s.n, wanted as u32).collect());
    Stream { kind: Kind::Fives, s, start, lead, steps, number: 5, times: 1, moved: 0, sent_home: 0, spill: [0; BANKS] }
}

impl Stream {
    /// Rows read when the steps are made once.
    pub fn reads(&self) -> u64 {
        self.steps.iter().filter(|&&step| step != TICK).count() as u64
    }

    /// The memory that is lent to set-up.
    pub fn raw(&self) -> Memory {
        raw_memory(&self.s)
    }

    /// Puts the memory back to the start; the store only in the slots that have another row. The other parts have their
    /// bytes still, since nothing is written but by moves.
    pub fn rewind(&self, m: &mut Memory) {
        if self.moved > 0 {
            let (w, n) = (self.s.w as usize, self.s.n as usize);
            for slot in (0..self.s.q as usize).filter(|&slot| m.reverse[slot] != self.start.reverse[slot]) {
                let part = (n + slot) * w..(n + slot + 1) * w;
                m.store[part.clone()].copy_from_slice(&self.start.store[part]);
            }
            m.forward.copy_from_slice(&self.start.forward);
            m.reverse.copy_from_slice(&self.start.reverse);
        }
        m.rows.copy_from_slice(&self.start.rows);
        m.counts.copy_from_slice(&self.start.counts);
        m.control = self.start.control;
    }
}
