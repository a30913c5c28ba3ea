//! Single calls on tables that were made for them, with answers worked out by hand from document 02's Ask 5: what belongs
//! to a bank, which bank is looked at, and what becomes of the record's places from B on.

use crate::fixed::{moved, End, Scene};
use crate::pair::{Counts, Pair};
use model::fault::Fault;
use model::memory::{Answer, Call, Control, Memory, Settings, BANKS};

/// Makes a call, and gives the answer and the memory that the library left.
fn made(scene: Scene, call: &Call, counts: &mut Counts) -> Result<(Answer, Memory), String> {
    let mut pair = Pair::new(scene.memory, Fault::Nothing, true);
    let answer = pair.call(&scene.s, call, counts)?;
    Ok((answer, pair.library))
}

fn expect(holds: bool, what: &str, answer: &Answer, memory: &Memory) -> Result<(), String> {
    if holds {
        Ok(())
    } else {
        Err(format!("{what}: {answer:?}\n{}", memory.describe()))
    }
}

fn read(row: u32) -> Call {
    Call::Read { row, length: 1 }
}

/// One call of each kind that is judged by 4, all of row 0.
fn judged_calls() -> [Call; 4] {
    [read(0), Call::Write { row: 0, column: 0, bytes: vec![7] }, Call::Tick, Call::Inspect { row: 0 }]
}

/// "8 looks at the bank of p": rows 0 and 1 are at home in banks 0 and 1; slot 1 is physical row 3, of bank 1.
fn full(counts: &mut Counts) -> Result<(), String> {
    let scene = |acts: [u32; 2]| {
        let mut scene = Scene::banked([2, 2, 1, 1, 2, 3, 2]);
        scene.memory.control.acts[..2].copy_from_slice(&acts);
        scene
    };
    let in_slot = |acts: [u32; 2]| scene(acts).sits(0, 1);
    let eight = || End::Refused(8);
    in_slot([0, 3]).read("the slot's bank is full, the home's is not", 0, eight(), counts)?;
    scene([3, 0]).read("the home's bank is full", 0, eight(), counts)?;
    scene([0, 3]).read("the home's bank is full", 1, eight(), counts)?;
    let stays = |what: &str, scene: Scene, row: u32, place: u64, acts: [u32; 2], counts: &mut Counts| {
        let (answer, memory) = made(scene, &read(row), counts)?;
        let right = Answer { place, estimate: 1, ..Answer::bare(0) };
        expect(answer == right && memory.control.acts[..2] == acts, what, &answer, &memory)
    };
    stays("the home's bank is full, the slot's is not", in_slot([3, 2]), 0, 3, [3, 3], counts)?;
    stays("another bank is full", scene([3, 0]), 1, 1, [3, 1], counts)?;
    stays("no bank is full, all together have more than L", scene([2, 2]), 0, 0, [3, 2], counts)
}

/// "Step 2 looks only at the entries of p's bank", with that bank's `spill`. Rows 1 and 3 and slot 1 are of bank 1, with
/// entries 2 and 3.
fn step_two(counts: &mut Counts) -> Result<(), String> {
    let scene = || Scene::banked([4, 2, 1, 2, 3, 8, 2]);
    // An entry of bank 0 names row 1 with a count of 2; with it row 1 would be due. Entry 2 is taken.
    let (answer, memory) = made(scene().bank(0, &[(1, 2)]), &read(1), counts)?;
    let right = answer.estimate == 1 && memory.rows[..3] == [1, 65_535, 1] && memory.counts == [2, 0, 1, 0];
    expect(right, "a row named in another bank", &answer, &memory)?;
    // Bank 1 has no count of 0; entry 1, which is bank 0's last, has. So `spill` of bank 1 rises.
    let (answer, memory) = made(scene().bank(0, &[(2, 1)]).bank(1, &[(1, 1), (5, 2)]), &read(3), counts)?;
    let Control { spill, acts, .. } = memory.control;
    let right = answer.estimate == 0 && spill[..2] == [0, 1] && acts[..2] == [1, 4];
    expect(right && memory.rows == [2, 65_535, 1, 5], "no count of spill in the bank", &answer, &memory)?;
    // Bank 0 has a `spill` of 2, bank 1 one of 1, which is the count of its last entry.
    let mut two = scene().bank(0, &[(0, 2), (2, 2)]).bank(1, &[(1, 2), (5, 1)]);
    two.memory.control.spill[..2].copy_from_slice(&[2, 1]);
    let (answer, memory) = made(two, &read(3), counts)?;
    let right = answer.estimate == 2 && memory.rows[3] == 3 && memory.counts == [2, 2, 2, 2];
    expect(right && memory.control.spill[..2] == [2, 1], "each bank's spill", &answer, &memory)
}

/// "Ask 4's count only at those of the slot's bank": row 0 of bank 0 is due and finds slot 1, physical row 5 of bank 1, at
/// the head.
fn worn(counts: &mut Counts) -> Result<(), String> {
    let scene = |own: &[(u32, u32)], other: &[(u32, u32)]| {
        let due = [&[(0, 1)], own].concat();
        Scene::banked([4, 4, 1, 2, 2, 5, 2]).bank(0, &due).bank(1, other).head(1, 0)
    };
    let (passed, taken) = (|| moved(2, 3, 2), || moved(1, 2, 1));
    scene(&[], &[(5, 2)]).read("worn in its bank, which is not the mover's", 0, passed(), counts)?;
    scene(&[(5, 2)], &[]).read("named in the mover's bank alone", 0, taken(), counts)?;
    scene(&[(5, 2)], &[(5, 1)]).read("below A in its bank", 0, taken(), counts)?;
    scene(&[(5, 1)], &[(5, 2)]).read("below A in the mover's bank, worn in its own", 0, passed(), counts)?;
    scene(&[], &[(5, 1), (5, 2)]).read("the lowest entry of its bank", 0, taken(), counts)?;
    // With an odd N slot 0 is of bank 1, though 0 is even; with B = 3 it is of bank 0, and row 1 of bank 1.
    let odd = |bank: usize| Scene::banked([3, 2, 1, 2, 2, 5, 2]).bank(0, &[(0, 1)]).bank(bank, &[(3, 2), (0, 1)]);
    odd(1).read("the bank of the physical row", 0, moved(1, 0, 2), counts)?;
    odd(0).read("not the bank of the slot's number", 0, moved(0, 1, 1), counts)?;
    for bank in 0..3 {
        let scene = Scene::banked([3, 3, 1, 2, 2, 5, 3]).bank(1, &[(1, 1)]).bank(bank, &[(3, 2), (1, 1)]);
        let end = if bank == 0 { moved(1, 2, 2) } else { moved(0, 1, 1) };
        scene.read("worn in one bank of three", 1, end, counts)?;
    }
    Ok(())
}

/// The conditions of 4 are per bank, and the places from B on are not judged. In each bank in turn one thing is put at its
/// limit and then past it.
fn judged(counts: &mut Counts) -> Result<(), String> {
    type Change = fn(&mut Memory, Option<usize>, usize, u32);
    let changes: [Change; 4] = [
        // A is 3 and L is 8; every bank begins with 4 accesses. The bank's last entry is at `last`, if there is such a
        // bank.
        |m, _, bank, past| m.control.acts[bank] = 8 + past,
        |m, _, bank, past| (m.control.spill[bank], m.control.acts[bank]) = (2, 2 - past),
        |m, _, bank, past| m.control.spill[bank] = 2 + past,
        |m, last, _, past| last.iter().for_each(|&last| m.counts[last] = 4 + past),
    ];
    for b in 1..=BANKS {
        for bank in 0..BANKS {
            for (change, past) in changes.iter().flat_map(|change| [(change, 0), (change, 1)]) {
                for call in judged_calls() {
                    let mut scene = Scene::banked([20, 3, 1, 2, 3, 8, b as u32]);
                    scene.memory.control.acts = [4; BANKS];
                    let last = (bank < b).then(|| 2 * bank + 1);
                    change(&mut scene.memory, last, bank, past);
                    let full =
                        scene.memory.control.acts[0] == 8 && matches!(call, Call::Read { .. } | Call::Write { .. });
                    let number = if bank < b && past == 1 {
                        4
                    } else if full {
                        8
                    } else {
                        0
                    };
                    let (answer, memory) = made(scene, &call, counts)?;
                    expect(answer.number == number, "4 of each bank", &answer, &memory)?;
                }
            }
        }
    }
    Ok(())
}

/// "The record's places for banks from B on are 0 at set-up and not looked at or changed afterwards."
fn kept(counts: &mut Counts) -> Result<(), String> {
    for b in 1..BANKS {
        let mut scene = Scene::banked([20, 3, 1, 2, 3, 8, b as u32]);
        for at in b..BANKS {
            (scene.memory.control.spill[at], scene.memory.control.acts[at]) = (u32::MAX - at as u32, at as u32);
        }
        let garbage = scene.memory.control;
        let mut pair = Pair::new(scene.memory, Fault::Nothing, true);
        let calls = [read(0), read(19), read(20), Call::Inspect { row: 1 }, Call::Tick, read(5)];
        for call in calls {
            let answer = pair.call(&scene.s, &call, counts)?;
            let Control { spill, acts, .. } = &pair.library.control;
            let same = (&spill[b..], &acts[b..]) == (&garbage.spill[b..], &garbage.acts[b..]);
            let cleared =
                !matches!(call, Call::Tick) || (spill[..b].iter().chain(&acts[..b])).all(|&figure| figure == 0);
            expect(same && cleared, "places from B on stay", &answer, &pair.library)?;
        }
        let answer = pair.call(&scene.s, &Call::SetUp, counts)?;
        let empty = pair.library.control == Control::default() && pair.library.counts.iter().all(|&count| count == 0);
        expect(empty, "set-up clears all places", &answer, &pair.library)?;
    }
    Ok(())
}

/// The range of B, the check of 2, which is per bank, and the lengths B × K; for every call.
fn settings(counts: &mut Counts) -> Result<(), String> {
    let mut numbered = |what: &str, s: Settings, scene: &Scene, number: u32| -> Result<(), String> {
        for call in judged_calls().into_iter().chain([Call::SetUp]) {
            let (answer, memory) = made(Scene { s, memory: scene.memory.clone() }, &call, counts)?;
            expect(answer.number == number, what, &answer, &memory)?;
        }
        Ok(())
    };
    for b in [1, 2, 15, 16, 0, 17, 18, 32, 1 << 16, 1 << 31, u32::MAX] {
        let in_range = (1..=16).contains(&b);
        let mut scene = Scene::banked([3, 2, 1, 1, 2, 3, b.min(64)]);
        scene.s.b = b;
        numbered("the range of B", scene.s, &scene, u32::from(!in_range))?;
        numbered("1 before 2", Settings { l: 4, ..scene.s }, &scene, if in_range { 2 } else { 1 })?;
    }
    let scene = || Scene::banked([3, 2, 1, 3, 2, 7, 4]);
    for length in [0, 1, 3, 4, 7, 9, 11, 12, 13, 15, 16, 24, 48] {
        for (names, figures) in [(true, true), (true, false), (false, true)] {
            let mut scene = scene();
            if names {
                scene.memory.rows.resize(length, 65_535);
            }
            if figures {
                scene.memory.counts.resize(length, 0);
            }
            numbered("B × K entries", scene.s, &scene, if length == 12 { 0 } else { 3 })?;
        }
    }
    Ok(())
}

/// 16 banks of 4,096 entries: bank 15 ends with entry 65,535.
fn largest(counts: &mut Counts) -> Result<(), String> {
    let mut scene = Scene::banked([100, 2, 1, 4_096, 3, 12_290, 16]);
    scene.memory.counts.fill(1);
    scene.memory.counts[65_535] = 0;
    scene.memory.control.acts = [4_096; BANKS];
    let s = scene.s;
    let mut pair = Pair::new(scene.memory, Fault::Nothing, true);
    // Rows 15, 31 and 47 are of bank 15: one takes the last entry, one only `spill`, one the bank's first entry.
    for (row, estimate, spill, entry) in [(15, 1, 0, Some(65_535)), (31, 0, 1, None), (47, 2, 1, Some(61_440))] {
        let answer = pair.call(&s, &read(row), counts)?;
        let m = &pair.library;
        let taken = entry.is_none_or(|entry: usize| u32::from(m.rows[entry]) == row && m.counts[entry] == estimate);
        let right = answer.estimate == estimate && taken && m.control.spill[15] == spill;
        expect(right && m.control.spill[..15] == [0; 15], "the last bank's entries", &answer, m)?;
    }
    expect(pair.library.control.acts[15] == 4_099, "the last bank's acts", &Answer::bare(0), &pair.library)
}

/// All scenes; the number of calls made.
pub fn scenes(counts: &mut Counts) -> Result<u64, String> {
    let begun = counts.total();
    full(counts)?;
    step_two(counts)?;
    worn(counts)?;
    judged(counts)?;
    kept(counts)?;
    settings(counts)?;
    largest(counts)?;
    Ok(counts.total() - begun)
}
