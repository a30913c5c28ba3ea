//! Single reads on tables that were made for them, with answers worked out by hand from document 02's Ask 4: which slots
//! the head passes, where it stops, and what is judged before what. All of them have one bank, as before Ask 5; `banks`
//! has more.

use crate::pair::{Counts, Pair};
use model::fault::Fault;
use model::memory::{Answer, Call, Control, Memory, Settings, NONE};

/// What a read finds: empty tables, an empty tracker and a control record of zeros, but for what is put in.
pub struct Scene {
    pub s: Settings,
    pub memory: Memory,
}

/// What is answered, and `head` and `passed` afterwards.
#[derive(PartialEq, Eq, Debug)]
pub enum End {
    Moved { slot: u32, sent_home: u32, head: u32, passed: u32 },
    Refused(u32),
}

impl Scene {
    /// N, Q, W, K, A and L, with one bank.
    fn new([n, q, w, k, a, l]: [u32; 6]) -> Scene {
        Scene::banked([n, q, w, k, a, l, 1])
    }

    /// N, Q, W, K, A, L and B.
    pub fn banked([n, q, w, k, a, l, b]: [u32; 7]) -> Scene {
        let s = Settings { n, q, w, k, a, l, b };
        let mut memory = Memory::raw(&s, 255);
        memory.counts.fill(0);
        memory.control = Control::default();
        Scene { s, memory }
    }

    /// The tracker's first entries, those of the first bank.
    fn tracker(self, entries: &[(u32, u32)]) -> Scene {
        self.bank(0, entries)
    }

    /// A bank's first entries: physical row and count. Its `acts` becomes the sum of its counts.
    pub fn bank(mut self, bank: usize, entries: &[(u32, u32)]) -> Scene {
        let of_bank = self.s.entries_of(bank);
        for (at, &(row, count)) in of_bank.clone().zip(entries) {
            self.memory.rows[at] = row as u16;
            self.memory.counts[at] = count;
        }
        self.memory.control.acts[bank] = self.memory.counts[of_bank].iter().sum();
        self
    }

    pub fn head(mut self, head: u32, passed: u32) -> Scene {
        self.memory.control.head = head;
        self.memory.control.passed = passed;
        self
    }

    /// The row sits in the slot.
    pub fn sits(mut self, row: u16, slot: u16) -> Scene {
        self.memory.forward[usize::from(row)] = slot;
        self.memory.reverse[usize::from(slot)] = row;
        self
    }

    /// The slot's reverse entry names a row that does not sit there.
    fn unsound(mut self, slot: u16) -> Scene {
        self.memory.reverse[usize::from(slot)] = 0;
        self
    }

    /// One read of a row; `what` names the scene in a report.
    pub fn read(self, what: &str, row: u32, expected: End, counts: &mut Counts) -> Result<(), String> {
        let Scene { s, memory } = self;
        let mut pair = Pair::new(memory, Fault::Nothing, true);
        let answer = pair.call(&s, &Call::Read { row, length: s.w as usize }, counts)?;
        let Answer { number, slot, row: sent_home, .. } = answer;
        let Control { head, passed, .. } = pair.library.control;
        let end = if number == 0 { End::Moved { slot, sent_home, head, passed } } else { End::Refused(number) };
        if end == expected {
            Ok(())
        } else {
            Err(format!("{what}: {answer:?}, {:?}, expected {expected:?}, {s:?}", pair.library.control))
        }
    }
}

/// The row was moved to the slot, and nothing was sent home.
pub fn moved(slot: u32, head: u32, passed: u32) -> End {
    End::Moved { slot, sent_home: NONE, head, passed }
}

/// Few slots, each scene by itself.
fn small(counts: &mut Counts) -> Result<(), String> {
    // Row 1 takes entry 0, so the lowest entry that names slot 0's physical row 2 is then entry 1, with a count of 1.
    Scene::new([2, 2, 1, 2, 1, 2]).tracker(&[(2, 0), (2, 1)]).read("after step 2", 1, moved(1, 0, 2), counts)?;
    // Row 1 is known; of the two entries that name slot 0 the lower rules.
    let named_twice = |low, high| Scene::new([2, 2, 1, 3, 2, 5]).tracker(&[(2, low), (2, high), (1, 1)]);
    named_twice(1, 2).read("lowest entry below A", 1, moved(0, 1, 1), counts)?;
    named_twice(2, 1).read("lowest entry at A", 1, moved(1, 0, 2), counts)?;
    // Every slot is worn; `passed` is 0.
    let worn_out = Scene::new([2, 2, 1, 3, 1, 3]).tracker(&[(2, 1), (3, 1)]);
    worn_out.read("all slots worn", 0, End::Refused(9), counts)?;
    // Two slots, and row 0 sits in the one at the head, whose count comes to A.
    let own = || Scene::new([2, 2, 1, 2, 2, 5]).sits(0, 0);
    own().tracker(&[(2, 1)]).read("own slot at the head", 0, moved(1, 0, 2), counts)?;
    own().tracker(&[(2, 1)]).head(0, 1).read("own slot, one slot left", 0, End::Refused(9), counts)?;
    own().tracker(&[(2, 1), (3, 2)]).read("own slot, the other worn", 0, End::Refused(9), counts)?;
    own().tracker(&[(2, 1), (3, 1)]).read("own slot, the other below A", 0, moved(1, 0, 2), counts)?;
    own().tracker(&[(2, 1)]).head(1, 0).read("own slot before the head", 0, moved(1, 0, 1), counts)?;
    // Slot 0 has a count of A and slot 1 one of A - 1; a slot's own number names a home.
    let beside = Scene::new([3, 3, 1, 4, 3, 11]).tracker(&[(3, 3), (4, 2), (1, 2)]);
    beside.sits(2, 1).read("A beside A - 1", 1, End::Moved { slot: 1, sent_home: 2, head: 2, passed: 2 }, counts)?;
    let homes = Scene::new([3, 3, 1, 4, 3, 11]).tracker(&[(0, 3), (2, 3), (1, 2)]);
    homes.read("homes of the slots' numbers", 1, moved(0, 1, 1), counts)
}

/// Four slots, the head at slot 1: `passed` allows exactly the slots left; 9 comes before the destination's 7.
fn limits(counts: &mut Counts) -> Result<(), String> {
    let scene = |worn: u32, passed: u32| {
        let entries: Vec<(u32, u32)> = (0..worn).map(|ahead| (2 + (1 + ahead) % 4, 1)).collect();
        Scene::new([2, 4, 1, 6, 1, 6]).tracker(&entries).head(1, passed)
    };
    for worn in 0..=4 {
        let to = (1 + worn) % 4;
        for passed in 0..=4 {
            let fits = worn < 4 && passed + worn < 4;
            let expected = if fits { moved(to, (to + 1) % 4, passed + worn + 1) } else { End::Refused(9) };
            scene(worn, passed).read("slots left", 1, expected, counts)?;
            let expected = End::Refused(if fits { 7 } else { 9 });
            scene(worn, passed).unsound(to as u16).read("destination unsound", 1, expected, counts)?;
        }
    }
    Ok(())
}

/// Runs of every length about 16, over the end of the table too; the entries name them forwards or backwards.
fn runs(counts: &mut Counts) -> Result<(), String> {
    for q in [16, 17, 18, 19, 40] {
        for head in [0, 1, q / 2, q - 1] {
            for worn in 0..=q {
                for backwards in [false, true] {
                    let in_turn = |at: u32| if backwards { worn - 1 - at } else { at };
                    let mut entries: Vec<(u32, u32)> = (0..worn).map(|at| (3 + (head + in_turn(at)) % q, 2)).collect();
                    // The slot after the run is below A, as the row to be moved is before the read.
                    entries.push((3 + (head + worn) % q, 1));
                    entries.push((2, 1));
                    let to = (head + worn) % q;
                    let scene = || Scene::new([3, q, 1, q + 8, 2, 2 * q + 17]).tracker(&entries);
                    let expected = if worn < q { moved(to, (to + 1) % q, worn + 1) } else { End::Refused(9) };
                    scene().head(head, 0).read("a run of worn slots", 2, expected, counts)?;
                    if worn < q {
                        let left = q - worn - 1;
                        let expected = moved(to, (to + 1) % q, q);
                        scene().head(head, left).read("a run up to the last slot", 2, expected, counts)?;
                        scene().head(head, left + 1).read("a run too long", 2, End::Refused(9), counts)?;
                    }
                }
            }
        }
    }
    Ok(())
}

/// The most slots and entries: 4,095 worn slots, over the end of the table, and an entry to take for the row.
fn largest(counts: &mut Counts) -> Result<(), String> {
    let entries: Vec<(u32, u32)> = (0..4_095).map(|at| (2 + (3_000 + at) % 5_500, 1)).collect();
    let scene = || Scene::new([2, 5_500, 1, 4_096, 1, 4_096]).tracker(&entries);
    scene().head(3_000, 0).read("largest", 0, moved(1_595, 1_596, 4_096), counts)?;
    scene().head(3_000, 1_404).read("largest, to the last slot", 0, moved(1_595, 1_596, 5_500), counts)?;
    scene().head(3_000, 1_405).read("largest, one slot short", 0, End::Refused(9), counts)
}

/// All scenes; the number of calls made.
pub fn scenes(counts: &mut Counts) -> Result<u64, String> {
    let begun = counts.total();
    small(counts)?;
    limits(counts)?;
    runs(counts)?;
    largest(counts)?;
    Ok(counts.total() - begun)
}
