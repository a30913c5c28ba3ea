//! The C interface of include/aqua.h and safe calls over slices. A slice's pointer is never null, also if it is empty.

use model::memory::{Answer, Control, Memory, Settings};

#[repr(C)]
#[derive(Clone, Copy)]
struct Outcome {
    number: u32,
    slot: u32,
    row: u32,
    estimate: u32,
    place: u64,
}

#[repr(C)]
#[derive(Clone, Copy)]
struct Span {
    start: usize,
    length: usize,
}

#[repr(C)]
#[derive(Clone, Copy, PartialEq, Eq, Debug)]
pub struct Sum {
    pub number: u32,
    pub value: u64,
}

#[rustfmt::skip] // a pointer and its length stand together
#[link(name = "rank", kind = "static")]
extern "C" {
    fn aqua_set_up(
        control: *mut Control, settings: Settings,
        store: *const u8, store_length: usize,
        forward: *mut u16, forward_length: usize, reverse: *mut u16, reverse_length: usize,
        rows: *mut u16, rows_length: usize, counts: *mut u32, counts_length: usize,
    ) -> u32;
    fn aqua_read(
        control: *mut Control, settings: Settings, row: u32,
        buffer: *mut u8, buffer_length: usize, store: *mut u8, store_length: usize,
        forward: *mut u16, forward_length: usize, reverse: *mut u16, reverse_length: usize,
        rows: *mut u16, rows_length: usize, counts: *mut u32, counts_length: usize,
    ) -> Outcome;
    fn aqua_write(
        control: *mut Control, settings: Settings, row: u32, column: usize,
        bytes: *const u8, bytes_length: usize, store: *mut u8, store_length: usize,
        forward: *mut u16, forward_length: usize, reverse: *mut u16, reverse_length: usize,
        rows: *mut u16, rows_length: usize, counts: *mut u32, counts_length: usize,
    ) -> Outcome;
    fn aqua_tick(
        control: *mut Control, settings: Settings,
        store: *const u8, store_length: usize,
        forward: *const u16, forward_length: usize, reverse: *const u16, reverse_length: usize,
        rows: *mut u16, rows_length: usize, counts: *mut u32, counts_length: usize,
    ) -> u32;
    fn aqua_inspect_number(
        control: *const Control, settings: Settings, row: u32,
        store: *const u8, store_length: usize,
        forward: *const u16, forward_length: usize, reverse: *const u16, reverse_length: usize,
        rows: *const u16, rows_length: usize, counts: *const u32, counts_length: usize,
    ) -> u32;
    fn aqua_inspect_span(
        control: *const Control, settings: Settings, row: u32,
        store: *const u8, store_length: usize,
        forward: *const u16, forward_length: usize, reverse: *const u16, reverse_length: usize,
        rows: *const u16, rows_length: usize, counts: *const u32, counts_length: usize,
    ) -> Span;
    fn aqua_least_size(trefw: u64, trc: u64, tmov: u64, banks: u64, threshold: u64) -> Sum;
    fn aqua_most_activations(trefw: u64, trc: u64, trefi: u64, trfc: u64) -> Sum;
}

/// The lent memory as slices, so that a caller may also lend parts of something else.
pub struct Lent<'a> {
    pub control: &'a mut Control,
    pub store: &'a mut [u8],
    pub forward: &'a mut [u16],
    pub reverse: &'a mut [u16],
    pub rows: &'a mut [u16],
    pub counts: &'a mut [u32],
}

#[inline]
pub fn lend(memory: &mut Memory) -> Lent<'_> {
    Lent {
        control: &mut memory.control,
        store: &mut memory.store,
        forward: &mut memory.forward,
        reverse: &mut memory.reverse,
        rows: &mut memory.rows,
        counts: &mut memory.counts,
    }
}

#[inline]
fn answer(o: Outcome) -> Answer {
    Answer { place: o.place, estimate: o.estimate, slot: o.slot, row: o.row, ..Answer::bare(o.number) }
}

#[rustfmt::skip]
impl Lent<'_> {
    #[inline]
    pub fn set_up(&mut self, s: &Settings) -> Answer {
        // Safety: every pointer comes with the length of the slice that it was taken from, and slices do not overlap.
        Answer::bare(unsafe {
            aqua_set_up(
                self.control, *s, self.store.as_ptr(), self.store.len(),
                self.forward.as_mut_ptr(), self.forward.len(), self.reverse.as_mut_ptr(), self.reverse.len(),
                self.rows.as_mut_ptr(), self.rows.len(), self.counts.as_mut_ptr(), self.counts.len(),
            )
        })
    }

    #[inline]
    pub fn read(&mut self, s: &Settings, row: u32, buffer: &mut [u8]) -> Answer {
        // Safety: as above.
        answer(unsafe {
            aqua_read(
                self.control, *s, row, buffer.as_mut_ptr(), buffer.len(), self.store.as_mut_ptr(), self.store.len(),
                self.forward.as_mut_ptr(), self.forward.len(), self.reverse.as_mut_ptr(), self.reverse.len(),
                self.rows.as_mut_ptr(), self.rows.len(), self.counts.as_mut_ptr(), self.counts.len(),
            )
        })
    }

    #[inline]
    pub fn write(&mut self, s: &Settings, row: u32, column: usize, bytes: &[u8]) -> Answer {
        // Safety: as above.
        answer(unsafe {
            aqua_write(
                self.control, *s, row, column, bytes.as_ptr(), bytes.len(), self.store.as_mut_ptr(), self.store.len(),
                self.forward.as_mut_ptr(), self.forward.len(), self.reverse.as_mut_ptr(), self.reverse.len(),
                self.rows.as_mut_ptr(), self.rows.len(), self.counts.as_mut_ptr(), self.counts.len(),
            )
        })
    }

    #[inline]
    pub fn tick(&mut self, s: &Settings) -> Answer {
        // Safety: as above.
        Answer::bare(unsafe {
            aqua_tick(
                self.control, *s, self.store.as_ptr(), self.store.len(),
                self.forward.as_ptr(), self.forward.len(), self.reverse.as_ptr(), self.reverse.len(),
                self.rows.as_mut_ptr(), self.rows.len(), self.counts.as_mut_ptr(), self.counts.len(),
            )
        })
    }

    /// Both calls of inspect, with the same arguments.
    pub fn inspect(&self, s: &Settings, row: u32) -> Answer {
        // Safety: as above; nothing is written.
        let (number, span) = unsafe {
            let number = aqua_inspect_number(
                &*self.control, *s, row, self.store.as_ptr(), self.store.len(),
                self.forward.as_ptr(), self.forward.len(), self.reverse.as_ptr(), self.reverse.len(),
                self.rows.as_ptr(), self.rows.len(), self.counts.as_ptr(), self.counts.len(),
            );
            let span = aqua_inspect_span(
                &*self.control, *s, row, self.store.as_ptr(), self.store.len(),
                self.forward.as_ptr(), self.forward.len(), self.reverse.as_ptr(), self.reverse.len(),
                self.rows.as_ptr(), self.rows.len(), self.counts.as_ptr(), self.counts.len(),
            );
            (number, span)
        };
        Answer { start: span.start, length: span.length, ..Answer::bare(number) }
    }
}

pub fn least_size(trefw: u64, trc: u64, tmov: u64, banks: u64, threshold: u64) -> Sum {
    // Safety: numbers only.
    unsafe { aqua_least_size(trefw, trc, tmov, banks, threshold) }
}

pub fn most_activations(trefw: u64, trc: u64, trefi: u64, trfc: u64) -> Sum {
    // Safety: numbers only.
    unsafe { aqua_most_activations(trefw, trc, trefi, trfc) }
}
