//! The streams in which slots are worn. A slot becomes worn by the access that moves its row to another one, and stays
//! so up to the tick. So an epoch has at most as many worn slots as moves, and each move takes the head one slot further
//! at least: where all slots that the head has not gone by are worn, they are at most half of Q. There is one bank.

use crate::stream::{again, copy_of, fill_slots, new_memory, seat, Kind, Size, Stream};
use model::memory::{Memory, Settings, BANKS};

/// A row that was read once is moved by the next access.
const A: u32 = 2;

/// Moves of one time in the stream of worn slots, and the slots that the head passes for each.
const MOVES: u32 = 64;
const PASSED: u32 = 3;

/// Slots that are worn in the stream of nines, half of the most that settings can ask for.
const WORN: u32 = 2750;

/// Accesses of one pass in the stream of nines. Each one takes the idiomatic engine some milliseconds.
const REFUSED: u32 = 8;

struct Worn {
    s: Settings,
    start: Memory,
    lead: Vec<u32>,
    /// Rows at home that were read once.
    once: Vec<u32>,
}

/// A start with a full tracker at which the slots given are worn. The head has gone by as many slots, all before them.
/// The lead first brings a row to every slot, the one of the same number. In the last epoch rows at home are read once,
/// as many as there are entries to spare, and take the low entries; then the row in each slot to be worn is read A times
/// and moves to the head's slot.
fn wear(k: u32, w: u32, q: u32, worn: &[u32]) -> Worn {
    let moves = worn.len() as u32;
    let spare = k - moves;
    let s = Settings { n: q + spare, q, w, k, a: A, l: A * (k + 1) - 1, b: 1 };
    let once: Vec<u32> = (q..s.n).collect();
    let mut lead = fill_slots(&s);
    lead.extend(&once);
    lead.extend(worn.iter().flat_map(|&row| again(row, A)));

    let mut start = new_memory(&s);
    (moves..q).filter(|slot| !worn.contains(slot)).for_each(|slot| seat(&s, &mut start, slot, slot));
    for (slot, &left) in (0..).zip(worn) {
        seat(&s, &mut start, left, slot);
        copy_of(&s, &mut start, left, left);
    }
    let names = once.iter().copied().chain(worn.iter().map(|slot| s.n + slot));
    start.rows.iter_mut().zip(names).for_each(|(entry, name)| *entry = name as u16);
    let (low, high) = start.counts.split_at_mut(spare as usize);
    low.fill(1);
    high.fill(A);
    start.control.head = moves;
    start.control.passed = moves;
    start.control.acts[0] = spare + A * moves;
    Worn { s, start, lead, once }
}

pub fn worn_slots(Size { w, k, .. }: Size, wanted: usize) -> Stream {
    let moves = PASSED * MOVES;
    let q = moves + (PASSED + 1) * MOVES;
    let worn: Vec<u32> = (moves..q).filter(|slot| (slot - moves) % (PASSED + 1) != PASSED).collect();
    let Worn { s, start, lead, once } = wear(k, w, q, &worn);
    let (lead, steps) = (Some(lead), once[..MOVES as usize].to_vec());
    let (times, moved, spill) = (wanted.div_ceil(steps.len()), u64::from(MOVES), [0; BANKS]);
    Stream { kind: Kind::WornSlots, s, start, lead, steps, number: 0, times, moved, sent_home: moved, spill }
}

pub fn nines(Size { w, k, .. }: Size) -> Stream {
    let Worn { s, start, lead, once } = wear(k, w, 2 * WORN, &(WORN..2 * WORN).collect::<Vec<_>>());
    let spread = |i| once[((2 * i + 1) as usize * once.len()) / (2 * REFUSED as usize)];
    let (lead, steps, spill) = (Some(lead), (0..REFUSED).map(spread).collect(), [0; BANKS]);
    Stream { kind: Kind::Nines, s, start, lead, steps, number: 9, times: 1, moved: 0, sent_home: 0, spill }
}
