//! Lent memory that no history can leave: contents near sound ones, wrong lengths, settings out of range, absurd rows,
//! columns and lengths. The library must answer as the model does, and a refusal must change nothing.

use crate::pair::{Counts, Pair};
use crate::sound::banks;
use model::fault::Fault;
use model::memory::{Call, Control, Memory, Settings, BANKS};
use model::rng::Rng;

/// Small settings in range, so that the conditions often meet.
fn small(rng: &mut Rng) -> Settings {
    if rng.once_in(60) {
        return crate::sound::settings(rng, 1 << 15);
    }
    let n = rng.between(1, 6);
    let q = rng.between(2, 5);
    let w = rng.between(1, 4);
    let k = rng.between(1, 4);
    let a = rng.between(1, 4);
    let most = a * (k + 1) - 1;
    let l = if rng.once_in(2) { most } else { rng.between(1, most) };
    let [n, q, w, k, a, l, b] = [n, q, w, k, a, l, banks(rng)].map(|x| x as u32);
    Settings { n, q, w, k, a, l, b }
}

/// One setting, or the sum of two, put at or past an edge of its range.
fn distort(rng: &mut Rng, s: &Settings) -> Settings {
    let mut out = *s;
    let edge = |rng: &mut Rng, low: u32, high: u32| {
        let far = rng.word() as u32;
        rng.pick(&[low.wrapping_sub(1), low, high, high + 1, 0, 65_535, 65_536, u32::MAX, u32::MAX - 1, far])
    };
    match rng.below(9) {
        0 => out.n = edge(rng, 1, 60_000),
        1 => out.q = edge(rng, 2, 5_500),
        2 => out.w = edge(rng, 1, 8_192),
        3 => out.k = edge(rng, 1, 4_096),
        4 => out.a = edge(rng, 1, 65_535),
        5 => out.l = edge(rng, 1, 1_360_000),
        6 => out.b = edge(rng, 1, 16),
        _ => {
            // L of a bank, and what it would be of all banks together.
            let product = u64::from(s.a) * (u64::from(s.k) + 1);
            let all = u64::from(s.a) * (u64::from(s.b) * u64::from(s.k) + 1);
            let share = product / u64::from(s.b.max(1));
            let last = product.wrapping_sub(1);
            out.l = rng.pick(&[last, product, product + 1, 2 * product, all.wrapping_sub(1), all, share]) as u32;
        }
    }
    out
}

/// A number for a table entry, near the numbers that mean something.
fn entry(rng: &mut Rng, s: &Settings) -> u16 {
    let any = rng.word() as u32;
    let near = rng.below(u64::from(s.n.max(s.q)) + 1) as u32;
    rng.pick(&[near, near, near, 65_535, 65_534, s.n, s.n.wrapping_sub(1), s.q, s.q.wrapping_sub(1), 0, any]) as u16
}

/// A number up to `most`, often the most itself or the one before it.
fn upto(rng: &mut Rng, most: u32) -> u32 {
    match rng.below(4) {
        0 => most,
        1 => most.saturating_sub(1),
        _ => rng.below(u64::from(most) + 1) as u32,
    }
}

/// A physical row for an entry of a bank: mostly one of that bank, otherwise any.
fn name(rng: &mut Rng, s: &Settings, bank: usize) -> u16 {
    let all = u64::from(s.n + s.q);
    let of_bank = bank as u64 + u64::from(s.b) * rng.below(all.div_ceil(u64::from(s.b)));
    let any = rng.below(all);
    rng.pick(&[of_bank, of_bank, any]) as u16
}

/// The places from B on, which are never looked at: zeros, small numbers or noise.
fn fill_places_beyond(rng: &mut Rng, s: &Settings, control: &mut Control) {
    let bound = rng.pick(&[1, 8, 1 << 32]);
    let beyond = control.spill[s.b as usize..].iter_mut().chain(&mut control.acts[s.b as usize..]);
    beyond.for_each(|place| *place = rng.below(bound) as u32);
}

/// Pointers that agree, a tracker and a control record within condition 4.
fn near_sound(rng: &mut Rng, s: &Settings) -> Memory {
    let mut m = Memory::raw(s, 0xFF);
    m.store = rng.bytes(m.store.len());
    for slot in 0..s.q as usize {
        let row = rng.below(u64::from(s.n)) as usize;
        if m.forward[row] == 65_535 && !rng.once_in(3) {
            m.forward[row] = slot as u16;
            m.reverse[slot] = row as u16;
        }
    }
    m.control.head = rng.below(u64::from(s.q)) as u32;
    m.control.passed = if rng.once_in(2) { 0 } else { upto(rng, s.q) };
    fill_places_beyond(rng, s, &mut m.control);
    for bank in 0..s.b as usize {
        let acts = upto(rng, s.l);
        let spill = upto(rng, acts.min(s.a - 1));
        (m.control.spill[bank], m.control.acts[bank]) = (spill, acts);
        for at in s.entries_of(bank) {
            m.rows[at] = name(rng, s, bank);
            let before_multiple = (upto(rng, acts) / s.a * s.a + s.a - 1).min(acts);
            m.counts[at] = if rng.once_in(3) { spill } else { before_multiple };
        }
    }
    m
}

/// Settings and a tracker that names slots from the head on, some of them twice or more often and with counts about A, in
/// their own banks and in others. So the head often passes slots, all of them now and then; and what the lowest entry of
/// the slot's bank says, and what step 2 has just changed, often decides.
fn worn(rng: &mut Rng) -> (Settings, Memory) {
    let q = match rng.below(600) {
        0 => rng.skewed(41, 5_500),
        1..=200 => rng.between(17, 40),
        _ => rng.between(2, 5),
    };
    let n = rng.between(1, 6);
    let b = banks(rng);
    let share = q.div_ceil(b);
    let k = if rng.once_in(2) { 2 * share } else { rng.between(share.div_ceil(2), 2 * share + 2) }.min(4_096);
    let a = rng.between(1, 3);
    let l = a * (k + 1) - 1;
    let [n, q, w, k, a, l, b] = [n, q, rng.between(1, 2), k, a, l, b].map(|x| x as u32);
    let s = Settings { n, q, w, k, a, l, b };
    let mut m = near_sound(rng, &s);
    for bank in 0..b as usize {
        m.control.acts[bank] = rng.between(u64::from((a + 1).min(l - 1)), u64::from(l - 1)) as u32;
        m.control.spill[bank] = if rng.once_in(4) { rng.below(u64::from(a)) as u32 } else { a - 1 };
        m.control.spill[bank] = m.control.spill[bank].min(m.control.acts[bank]);
    }
    name_slots(rng, &s, &mut m);
    if b > 1 && rng.once_in(2) {
        name_in_another_bank(rng, &s, &mut m);
    }
    // Rows at home, which no entry names so far.
    for row in 0..n as usize {
        if rng.once_in(2) {
            if let Some(entry) = m.reverse.get_mut(usize::from(m.forward[row])) {
                *entry = 65_535;
            }
            m.forward[row] = 65_535;
        }
    }
    // In each bank an entry to take, or to know a row by; often one of those that a later one repeats.
    for bank in 0..b as usize {
        let among = if rng.once_in(2) { k } else { k.min(q.div_ceil(b)) };
        let at = s.entries_of(bank).start + rng.below(u64::from(among)) as usize;
        m.counts[at] = rng.pick(&[m.control.spill[bank], m.control.spill[bank], a - 1]).min(m.control.acts[bank]);
        if rng.once_in(3) {
            m.rows[at] = rng.below(u64::from(n)) as u16;
        }
    }
    if !rng.once_in(4) {
        m.control.passed = rng.pick(&[0, 0, 0, 1]);
    }
    (s, m)
}

/// The entries of each bank name its slots from the head on, in turn and round again, or in the reverse order. One in so
/// many names any slot instead, of whatever bank, and one in so many counts is below A.
fn name_slots(rng: &mut Rng, s: &Settings, m: &mut Memory) {
    let Settings { n, q, k, a, .. } = *s;
    let head = m.control.head;
    let backwards = rng.once_in(3);
    let (astray, low) = (rng.pick(&[3, 16, 256]), rng.pick(&[2, 8, 256]));
    for bank in 0..s.b as usize {
        let (spill, acts) = (m.control.spill[bank], m.control.acts[bank]);
        let slot_rows = (0..q).map(|ahead| n + (head + ahead) % q);
        let own: Vec<u32> = slot_rows.filter(|&row| s.bank(row as usize) == bank).collect();
        for (at, entry) in (0..k).zip(s.entries_of(bank)) {
            let in_turn = if backwards { k - 1 - at } else { at } as usize;
            let row = match own.len() {
                0 => n + rng.below(u64::from(q)) as u32,
                _ if rng.once_in(astray) => n + rng.below(u64::from(q)) as u32,
                slots => own[in_turn % slots],
            };
            m.rows[entry] = row as u16;
            let count =
                if rng.once_in(low) { rng.pick(&[0, a - 1, spill]) } else { rng.pick(&[a, a, a + 1, 2 * a - 1]) };
            m.counts[entry] = count.min(acts);
        }
    }
}

/// One slot, from the seventeenth on if there are as many, is worn by the entries of its bank and not by one of another
/// bank, or the other way round.
fn name_in_another_bank(rng: &mut Rng, s: &Settings, m: &mut Memory) {
    let ahead = if s.q > 17 { rng.between(16, u64::from(s.q - 1).min(24)) } else { rng.below(u64::from(s.q)) } as u32;
    let row = s.n + (m.control.head + ahead) % s.q;
    let (own, banks) = (s.bank(row as usize), s.b as usize);
    let other = s.entries_of((own + rng.between(1, banks as u64 - 1) as usize) % banks);
    let taken = rng.pick(&other.collect::<Vec<usize>>());
    let worn_here = rng.once_in(2);
    m.rows[taken] = row as u16;
    for bank in 0..banks {
        let count = if (bank == own) == worn_here { s.a } else { s.a - 1 };
        for entry in s.entries_of(bank).filter(|&entry| u32::from(m.rows[entry]) == row) {
            m.counts[entry] = count.min(m.control.acts[bank]);
        }
    }
}

/// One thing spoilt.
fn spoil(rng: &mut Rng, s: &Settings, m: &mut Memory) {
    fn put<T>(rng: &mut Rng, table: &mut [T], value: T) {
        let at = rng.below(table.len() as u64) as usize;
        if let Some(entry) = table.get_mut(at) {
            *entry = value;
        }
    }
    // Any place of the record; those from B on may hold anything.
    let place = if rng.once_in(6) { rng.below(BANKS as u64) } else { rng.below(u64::from(s.b)) } as usize;
    let (spill, acts) = (m.control.spill[place], m.control.acts[place]);
    let far = rng.word() as u32;
    let value = entry(rng, s);
    match rng.below(11) {
        0 | 1 => put(rng, &mut m.forward, value),
        2 | 3 => put(rng, &mut m.reverse, value),
        4 => put(rng, &mut m.rows, value),
        5 => {
            let count = rng.pick(&[acts, acts.wrapping_add(1), spill, 0, u32::MAX, far]);
            let of_bank = s.entries_of(place % s.b as usize);
            put(rng, &mut m.counts[of_bank], count);
        }
        6 => m.control.head = rng.pick(&[0, s.q - 1, s.q, s.q + 1, u32::MAX, far]),
        7 => m.control.passed = rng.pick(&[0, s.q - 1, s.q, s.q + 1, u32::MAX, far]),
        8 => m.control.spill[place] = rng.pick(&[acts, acts.wrapping_add(1), s.a - 1, s.a, u32::MAX, far]),
        9 => m.control.acts[place] = rng.pick(&[0, s.l - 1, s.l, s.l + 1, u32::MAX, far]),
        _ => {
            let (one, other) = (rng.below(m.forward.len() as u64), rng.below(m.forward.len() as u64));
            if !m.forward.is_empty() {
                m.forward.swap(one as usize, other as usize);
            }
        }
    }
}

/// Nothing but noise, of the right lengths.
fn noise(rng: &mut Rng, s: &Settings) -> Memory {
    let mut m = Memory::raw(s, 0);
    m.store = rng.bytes(m.store.len());
    for table in [&mut m.forward, &mut m.reverse, &mut m.rows] {
        table.iter_mut().for_each(|e| *e = entry(rng, s));
    }
    let small = rng.once_in(2);
    let word = |rng: &mut Rng| if small { rng.below(4) as u32 } else { rng.word() as u32 };
    m.counts.iter_mut().for_each(|c| *c = word(rng));
    let places = [(); BANKS];
    let (spill, acts) = (places.map(|()| word(rng)), places.map(|()| word(rng)));
    m.control = Control { head: word(rng), passed: word(rng), spill, acts };
    m
}

/// One part given another length, or both parts of the tracker that of one bank.
fn resize(rng: &mut Rng, s: &Settings, m: &mut Memory) {
    let k = s.k as usize;
    let length = |rng: &mut Rng, now: usize| rng.pick(&[0, 1, k, now.saturating_sub(1), now + 1, 2 * now, now + 256]);
    match rng.below(6) {
        0 => m.store.resize(length(rng, m.store.len()), 7),
        1 => m.forward.resize(length(rng, m.forward.len()), 65_535),
        2 => m.reverse.resize(length(rng, m.reverse.len()), 65_535),
        3 => m.rows.resize(length(rng, m.rows.len()), 65_535),
        4 => m.counts.resize(length(rng, m.counts.len()), 0),
        _ => {
            m.rows.resize(k, 65_535);
            m.counts.resize(k, 0);
        }
    }
}

fn call(rng: &mut Rng, s: &Settings) -> Call {
    let w = (s.w as usize).min(8_193);
    let row = if rng.once_in(12) {
        let far = rng.word() as u32;
        rng.pick(&[s.n, s.n.wrapping_add(1), 60_000, 65_535, 65_536, u32::MAX, u32::MAX - 1, far])
    } else {
        rng.below(u64::from(s.n)) as u32
    };
    let wrong = rng.once_in(14);
    match rng.below(12) {
        0 => Call::SetUp,
        1 => Call::Tick,
        2 | 3 => Call::Inspect { row },
        4..=7 => {
            let length = if wrong { rng.pick(&[0, 1, w.saturating_sub(1), w + 1, 2 * w]) } else { w };
            Call::Read { row, length }
        }
        _ => {
            let count = rng.below(w as u64 + 1) as usize;
            let column = if wrong {
                let wraps = usize::MAX - count;
                let cut = (1usize << 32) + rng.below(w as u64 + 1) as usize;
                rng.pick(&[w, w + 1, w - count + 1, u32::MAX as usize, usize::MAX, wraps, wraps.wrapping_add(1), cut])
            } else {
                rng.below((w - count) as u64 + 1) as usize
            };
            let count = if wrong && rng.once_in(4) { rng.pick(&[0, w + 1, 2 * w]) } else { count };
            Call::Write { row, column, bytes: rng.bytes(count) }
        }
    }
}

/// One memory and a few calls on it.
pub fn case(rng: &mut Rng, fault: Fault, counts: &mut Counts) -> Result<(), String> {
    let (s, mut memory) = if rng.once_in(4) {
        worn(rng)
    } else {
        let s = small(rng);
        let memory = if rng.once_in(5) { noise(rng, &s) } else { near_sound(rng, &s) };
        (s, memory)
    };
    for _ in 0..rng.pick(&[0, 0, 1, 1, 2]) {
        spoil(rng, &s, &mut memory);
    }
    let mut usual = s;
    if rng.once_in(8) {
        // Settings past an edge with memory of exactly the lengths that they name, where that can be lent.
        usual = distort(rng, &s);
        let cells = (u64::from(usual.n) + u64::from(usual.q)) * u64::from(usual.w);
        if cells <= 1 << 16 && usual.k <= 5_000 && usual.b <= 20 {
            memory.store.resize(cells as usize, 3);
            memory.forward.resize(usual.n as usize, 65_535);
            memory.reverse.resize(usual.q as usize, 65_535);
            memory.rows.resize(usual.entries(), 65_535);
            memory.counts.resize(usual.entries(), 0);
        }
    }
    if rng.once_in(10) {
        resize(rng, &s, &mut memory);
    }
    let mut pair = Pair::new(memory, fault, true);
    for _ in 0..rng.between(1, 6) {
        let now = if rng.once_in(25) { distort(rng, &usual) } else { usual };
        let call = call(rng, &now);
        pair.call(&now, &call, counts)?;
    }
    Ok(())
}
