//! Lengths past 32 bits: a part that is too long by exactly 2 to the 32 elements must not pass for the right length.
//! The pages of the one large allocation are never touched, so it costs address space only (at this alignment the
//! allocator hands out fresh zero pages).

use aqua::{lend, Lent};
use model::memory::{Answer, Memory, Settings};
use std::alloc::{alloc_zeroed, dealloc, Layout};

const BEYOND: usize = 1 << 32;

/// The number of calls made; none where the machine does not give the address space.
pub fn refused() -> Result<Option<u64>, String> {
    let s = Settings { n: 3, q: 2, w: 4, k: 2, a: 2, l: 5, b: 3 };
    let size = (BEYOND + 64) * 4;
    let layout = Layout::from_size_align(size, 8).map_err(|e| e.to_string())?;
    // Safety: the size is not 0.
    let block = unsafe { alloc_zeroed(layout) };
    if block.is_null() {
        return Ok(None);
    }
    let mut memory = Memory::raw(&s, 0);
    lend(&mut memory).set_up(&s);
    let before = memory.clone();
    let mut made = 0;
    let mut wrong = Vec::new();
    let mut expect = |what: &str, got: Answer, number: u32| {
        made += 1;
        if got != Answer::bare(number) {
            wrong.push(format!("{what} too long by 2 to the 32: {got:?}, expected {number}"));
        }
    };
    // Safety: the block holds BEYOND + 64 elements of each type, and each slice is used alone.
    let bytes = |length: usize| unsafe { std::slice::from_raw_parts_mut(block, BEYOND + length) };
    let halves = |length: usize| unsafe { std::slice::from_raw_parts_mut(block.cast::<u16>(), BEYOND + length) };
    let words = |length: usize| unsafe { std::slice::from_raw_parts_mut(block.cast::<u32>(), BEYOND + length) };
    let all = |what: &str, mut lent: Lent, expect: &mut dyn FnMut(&str, Answer, u32)| {
        expect(what, lent.set_up(&s), 3);
        expect(what, lent.read(&s, 0, &mut [0; 4]), 3);
        expect(what, lent.write(&s, 0, 0, &[1]), 3);
        expect(what, lent.tick(&s), 3);
        expect(what, lent.inspect(&s, 0), 3);
    };
    all("store", Lent { store: bytes(20), ..lend(&mut memory) }, &mut expect);
    all("forward", Lent { forward: halves(3), ..lend(&mut memory) }, &mut expect);
    all("reverse", Lent { reverse: halves(2), ..lend(&mut memory) }, &mut expect);
    all("rows", Lent { rows: halves(6), ..lend(&mut memory) }, &mut expect);
    all("counts", Lent { counts: words(6), ..lend(&mut memory) }, &mut expect);
    expect("read buffer", lend(&mut memory).read(&s, 0, bytes(4)), 6);
    expect("bytes to write", lend(&mut memory).write(&s, 0, 0, bytes(1)), 6);
    expect("column", lend(&mut memory).write(&s, 0, BEYOND, &[1]), 6);
    expect("column and bytes", lend(&mut memory).write(&s, 0, usize::MAX - BEYOND, bytes(1)), 6);
    let touched = bytes(0)[..4096].iter().any(|&b| b != 0) || memory != before;
    // Safety: allocated above with this layout, and no slice of it is used after this.
    unsafe { dealloc(block, layout) };
    if touched {
        wrong.push("a refusal changed what was lent".to_string());
    }
    if wrong.is_empty() {
        Ok(Some(made))
    } else {
        Err(wrong.join("\n"))
    }
}
