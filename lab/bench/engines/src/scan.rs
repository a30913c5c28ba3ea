//! How a table is searched: as one writes it first, and in blocks without branches.

/// The three searches of an access.
pub trait Scan {
    /// The lowest tracker entry that names the physical row.
    fn row(rows: &[u16], name: u16) -> Option<usize>;
    /// The lowest tracker entry with that count.
    fn count(counts: &[u32], value: u32) -> Option<usize>;
    /// Some count is above the limit.
    fn any_above(counts: &[u32], limit: u32) -> bool;
}

/// Iterators that stop at the first hit.
pub struct Plain;

impl Scan for Plain {
    fn row(rows: &[u16], name: u16) -> Option<usize> {
        rows.iter().position(|&row| row == name)
    }

    fn count(counts: &[u32], value: u32) -> Option<usize> {
        counts.iter().position(|&count| count == value)
    }

    fn any_above(counts: &[u32], limit: u32) -> bool {
        counts.iter().any(|&count| count > limit)
    }
}

/// Blocks of 64 entries, each examined whole, so that the compiler takes vector instructions; from the first block that
/// has a hit, or from what is left after the last whole block, blocks of 16 in the same way; then one by one.
pub struct Blocks;

/// The start of the first block from `from` on that has a hit, or of what is left after the last whole block.
fn skip<T: Copy + PartialEq, const BLOCK: usize>(table: &[T], from: usize, value: T) -> usize {
    let (blocks, _) = table[from..].as_chunks::<BLOCK>();
    let whole = blocks.iter().take_while(|block| !block.iter().fold(false, |hit, &x| hit | (x == value))).count();
    from + whole * BLOCK
}

/// The lowest entry with that value.
pub fn lowest<T: Copy + PartialEq>(table: &[T], value: T) -> Option<usize> {
    let far = skip::<T, 64>(table, 0, value);
    let from = skip::<T, 16>(table, far, value);
    table[from..].iter().position(|&x| x == value).map(|at| from + at)
}

impl Scan for Blocks {
    fn row(rows: &[u16], name: u16) -> Option<usize> {
        lowest(rows, name)
    }

    fn count(counts: &[u32], value: u32) -> Option<usize> {
        lowest(counts, value)
    }

    /// SSE4.1 and all that came after it take the greater of two counts in one instruction. Without it, as for x86-64
    /// without extensions, that takes several, and a comparison of each count is faster. Each form was timed in both.
    fn any_above(counts: &[u32], limit: u32) -> bool {
        if cfg!(target_feature = "sse4.1") {
            counts.iter().fold(0, |most, &count| most.max(count)) > limit
        } else {
            counts.iter().fold(false, |hit, &count| hit | (count > limit))
        }
    }
}
