//! The slots that the head passes, and how far it goes to the first one that it does not.

use crate::scan::{lowest, Blocks, Plain, Scan};

/// The most slots that settings can ask for.
const MOST_SLOTS: usize = 5_500;

/// Slots that the tuned engine looks at one by one, before it makes a table of all.
const LOOKS: usize = 8;

/// The tracker as step 2 of an access that moves its row leaves it: `entry` names the place of the access and has its
/// new count, every other entry is as it is lent.
pub struct Tracked<'a> {
    /// The entries of all banks, `k` for each.
    pub rows: &'a [u16],
    pub counts: &'a [u32],
    pub k: usize,
    pub banks: u32,
    pub entry: usize,
    pub place: u16,
    pub count: u32,
    pub threshold: u32,
}

impl Tracked<'_> {
    /// The lowest entry of the physical row's bank that names it has a count of the threshold or more.
    fn worn<S: Scan>(&self, name: u16) -> bool {
        if name == self.place {
            return self.count >= self.threshold;
        }
        let bank = if self.banks == 1 { 0 } else { u32::from(name) % self.banks };
        let first = bank as usize * self.k;
        let rows = &self.rows[first..first + self.k];
        let found = match S::row(rows, name) {
            Some(at) if first + at == self.entry => S::row(&rows[at + 1..], name).map(|further| at + 1 + further),
            found => found,
        };
        found.is_some_and(|at| self.counts[first + at] >= self.threshold)
    }
}

/// The slots that the head has not gone by in this epoch: `left` of them, from `head` on, round `q`.
pub struct Ring {
    /// Physical row of slot 0.
    pub first: usize,
    pub q: usize,
    pub head: usize,
    pub left: usize,
    /// The slot that the moving row sits in.
    pub own: Option<usize>,
}

impl Ring {
    /// The slot that is so many steps from the head, fewer than Q.
    pub fn slot(&self, steps: usize) -> usize {
        let far = self.head + steps;
        if far < self.q {
            far
        } else {
            far - self.q
        }
    }

    fn passes<S: Scan>(&self, tracked: &Tracked, steps: usize) -> bool {
        let slot = self.slot(steps);
        self.own == Some(slot) || tracked.worn::<S>((self.first + slot) as u16)
    }
}

/// How many slots the head passes before one where a row can go; none where it passes all that are left.
pub trait Passes {
    fn passed(tracked: &Tracked, ring: &Ring) -> Option<usize>;
}

impl Passes for Plain {
    fn passed(tracked: &Tracked, ring: &Ring) -> Option<usize> {
        (0..ring.left).find(|&steps| !ring.passes::<Plain>(tracked, steps))
    }
}

impl Passes for Blocks {
    /// A usual move finds its slot at the first look.
    fn passed(tracked: &Tracked, ring: &Ring) -> Option<usize> {
        let near = (0..ring.left.min(LOOKS)).find(|&steps| !ring.passes::<Blocks>(tracked, steps));
        if near.is_some() || ring.left <= LOOKS {
            return near;
        }
        marked(tracked, ring)
    }
}

/// One walk over the tracker marks the worn slots in a table, which is then searched. Each bank is walked from its
/// highest entry to its lowest, so that the lowest one that names a slot has the last word; the entry of step 2, which
/// is the lowest for its place, comes last of all. Entries that name no slot of their bank are noted behind the last one.
#[cold]
#[inline(never)]
fn marked(tracked: &Tracked, ring: &Ring) -> Option<usize> {
    let mut table = [0u8; MOST_SLOTS + 1];
    let worn = &mut table[..=ring.q];
    let mut mark = |of_this_bank: bool, name: u16, count: u32| {
        let slot = usize::from(name).wrapping_sub(ring.first).min(ring.q);
        worn[if of_this_bank { slot } else { ring.q }] = u8::from(count >= tracked.threshold);
    };
    let (entry, k, banks) = (tracked.entry, tracked.k, tracked.banks);
    for bank in 0..banks {
        let first = bank as usize * k;
        let end = first + k;
        for part in [(entry + 1).clamp(first, end)..end, first..entry.clamp(first, end)] {
            for (&name, &count) in tracked.rows[part.clone()].iter().zip(&tracked.counts[part]).rev() {
                mark(banks == 1 || u32::from(name) % banks == bank, name, count);
            }
        }
    }
    mark(true, tracked.place, tracked.count);
    if let Some(own) = ring.own {
        worn[own] = 1;
    }
    let (before, from_head) = worn[..ring.q].split_at(ring.head);
    let straight = ring.left.min(from_head.len());
    let round = &before[..ring.left - straight];
    lowest(&from_head[..straight], 0).or_else(|| lowest(round, 0).map(|at| straight + at))
}
