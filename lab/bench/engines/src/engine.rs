//! The engine of document 01 in plain Rust, with a tracker for each bank (document 02, Ask 5) and with every refusal
//! judged at every call. How tables are searched, and so how the slot for a move is found, is a parameter: the
//! idiomatic and the tuned engine differ in nothing else. It has the calls that the streams make.

use crate::scan::Scan;
use crate::worn::{Passes, Ring, Tracked};
use aqua::Lent;
use model::memory::{Answer, Control, Settings, NONE};

const EMPTY: u16 = 65_535;

/// How step 2 of an access goes; with an entry, which is numbered through all banks, stands its new count, the estimate.
enum Way {
    Raise(usize, u32),
    Take(usize, u32),
    Spill,
}

/// A quarantine that is due.
struct Move {
    to: usize,
    rise: u32,
    sent_home: Option<usize>,
}

fn judge_settings(s: &Settings) -> Result<(), u32> {
    let in_range = (1..=60_000).contains(&s.n)
        && (2..=5_500).contains(&s.q)
        && (1..=8_192).contains(&s.w)
        && (1..=4_096).contains(&s.k)
        && (1..=65_535).contains(&s.a)
        && (1..=1_360_000).contains(&s.l)
        && (1..=16).contains(&s.b);
    if !in_range {
        return Err(1);
    }
    if s.l >= s.a * (s.k + 1) {
        return Err(2);
    }
    Ok(())
}

fn judge_lengths(s: &Settings, m: &Lent) -> Result<(), u32> {
    let (n, q, w, entries) = (s.n as usize, s.q as usize, s.w as usize, s.b as usize * s.k as usize);
    let fit = m.store.len() == (n + q) * w
        && m.forward.len() == n
        && m.reverse.len() == q
        && m.rows.len() == entries
        && m.counts.len() == entries;
    if fit {
        Ok(())
    } else {
        Err(3)
    }
}

/// There are as many parts of K counts as banks, so the places of the record from B on are not looked at.
#[inline(always)]
fn judge_control<S: Scan, const ONE: bool>(s: &Settings, m: &Lent) -> Result<(), u32> {
    let Control { head, passed, spill, acts } = &*m.control;
    let unsound = |bank: usize, counts: &[u32]| {
        let (spill, acts) = (spill[bank], acts[bank]);
        acts > s.l || spill > acts || spill >= s.a || S::any_above(counts, acts)
    };
    let some_bank_unsound = || {
        if ONE {
            unsound(0, m.counts)
        } else {
            m.counts.chunks(s.k as usize).enumerate().any(|(bank, counts)| unsound(bank, counts))
        }
    };
    if *head >= s.q || *passed > s.q || some_bank_unsound() {
        Err(4)
    } else {
        Ok(())
    }
}

/// Step 2, without a change.
#[inline(always)]
fn choose<S: Scan, const ONE: bool>(s: &Settings, m: &Lent, bank: usize, place: usize) -> Way {
    let (k, first) = (s.k as usize, bank * s.k as usize);
    let (rows, counts) =
        if ONE { (&*m.rows, &*m.counts) } else { (&m.rows[first..first + k], &m.counts[first..first + k]) };
    if let Some(at) = S::row(rows, place as u16) {
        return Way::Raise(first + at, counts[at] + 1);
    }
    let spill = m.control.spill[bank];
    match S::count(counts, spill) {
        Some(at) => Way::Take(first + at, spill + 1),
        None => Way::Spill,
    }
}

/// Where the row goes from its place, with 9 and the destination's 7 judged. `entry` and `count` are those of step 2.
#[inline(always)]
fn plan_move<S: Passes, const ONE: bool>(
    s: &Settings, m: &Lent, slot: Option<usize>, place: usize, entry: usize, count: u32,
) -> Result<Move, u32> {
    let (rows, counts, k, banks) = (&*m.rows, &*m.counts, s.k as usize, if ONE { 1 } else { s.b });
    let tracked = Tracked { rows, counts, k, banks, entry, place: place as u16, count, threshold: s.a };
    let (q, head) = (s.q as usize, m.control.head as usize);
    let ring = Ring { first: s.n as usize, q, head, left: (s.q - m.control.passed) as usize, own: slot };
    let passed = S::passed(&tracked, &ring).ok_or(9u32)?;
    let (to, rise) = (ring.slot(passed), passed as u32 + 1);
    let sent_home = match m.reverse[to] {
        EMPTY => None,
        row if m.forward.get(usize::from(row)) == Some(&(to as u16)) => Some(usize::from(row)),
        _ => return Err(7),
    };
    Ok(Move { to, rise, sent_home })
}

#[inline(always)]
fn carry_out(s: &Settings, m: &mut Lent, row: usize, slot: Option<usize>, place: usize, moved: &Move) {
    let Move { to, rise, sent_home } = moved;
    let (n, w) = (s.n as usize, s.w as usize);
    let target = n + to;
    if let Some(guest) = sent_home {
        m.store.copy_within(target * w..(target + 1) * w, guest * w);
        m.forward[*guest] = EMPTY;
    }
    m.store.copy_within(place * w..(place + 1) * w, target * w);
    if let Some(slot) = slot {
        m.reverse[slot] = EMPTY;
    }
    m.reverse[*to] = row as u16;
    m.forward[row] = *to as u16;
    m.control.head = if *to as u32 + 1 < s.q { *to as u32 + 1 } else { 0 };
    m.control.passed += rise;
}

#[inline(always)]
pub fn access<S: Scan + Passes>(s: &Settings, m: &mut Lent, row: u32, buffer: &mut [u8]) -> Result<Answer, u32> {
    if s.b == 1 {
        access_with::<S, true>(s, m, row, buffer)
    } else {
        access_with::<S, false>(s, m, row, buffer)
    }
}

/// `ONE` says that there is one bank: then no remainder is taken, and no part is cut out of a table. An access is
/// compiled a second time for that, and all that it calls is inlined: measured, that is the fastest form of the two
/// engines.
#[inline(always)]
fn access_with<S: Scan + Passes, const ONE: bool>(
    s: &Settings, m: &mut Lent, row: u32, buffer: &mut [u8],
) -> Result<Answer, u32> {
    judge_settings(s)?;
    judge_lengths(s, m)?;
    judge_control::<S, ONE>(s, m)?;
    if row >= s.n {
        return Err(5);
    }
    let (n, w) = (s.n as usize, s.w as usize);
    if buffer.len() != w {
        return Err(6);
    }
    let row = row as usize;
    let slot = match m.forward[row] {
        EMPTY => None,
        slot if m.reverse.get(usize::from(slot)) == Some(&(row as u16)) => Some(usize::from(slot)),
        _ => return Err(7),
    };
    let place = slot.map_or(row, |slot| n + slot);
    let bank = if ONE { 0 } else { place % s.b as usize };
    if m.control.acts[bank] == s.l {
        return Err(8);
    }
    let way = choose::<S, ONE>(s, m, bank, place);
    let (estimate, moved) = match way {
        Way::Raise(entry, count) | Way::Take(entry, count) => {
            let due = count % s.a == 0;
            (count, if due { Some(plan_move::<S, ONE>(s, m, slot, place, entry, count)?) } else { None })
        }
        Way::Spill => (0, None),
    };
    buffer.copy_from_slice(&m.store[place * w..(place + 1) * w]);
    match way {
        Way::Raise(entry, count) => m.counts[entry] = count,
        Way::Take(entry, count) => {
            m.rows[entry] = place as u16;
            m.counts[entry] = count;
        }
        Way::Spill => m.control.spill[bank] += 1,
    }
    m.control.acts[bank] += 1;
    if let Some(moved) = &moved {
        carry_out(s, m, row, slot, place, moved);
    }
    let slot = moved.as_ref().map_or(NONE, |moved| moved.to as u32);
    let sent_home = moved.and_then(|moved| moved.sent_home).map_or(NONE, |row| row as u32);
    Ok(Answer { place: place as u64, estimate, slot, row: sent_home, ..Answer::bare(0) })
}

#[inline(always)]
pub fn tick<S: Scan>(s: &Settings, m: &mut Lent) -> u32 {
    let judged = judge_settings(s).and_then(|()| judge_lengths(s, m)).and_then(|()| judge_control::<S, false>(s, m));
    if let Err(number) = judged {
        return number;
    }
    m.rows.fill(EMPTY);
    m.counts.fill(0);
    m.control.passed = 0;
    m.control.spill[..s.b as usize].fill(0);
    m.control.acts[..s.b as usize].fill(0);
    0
}

#[inline(never)]
pub fn set_up(s: &Settings, m: &mut Lent) -> u32 {
    if let Err(number) = judge_settings(s).and_then(|()| judge_lengths(s, m)) {
        return number;
    }
    m.forward.fill(EMPTY);
    m.reverse.fill(EMPTY);
    m.rows.fill(EMPTY);
    m.counts.fill(0);
    *m.control = Control::default();
    0
}
