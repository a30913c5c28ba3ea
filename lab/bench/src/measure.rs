//! Times one stream with the four engines in turn, over the same memory and the same read buffer, and compares what
//! they answered and what they left.

use crate::runner::{Runner, ORDER, PROVED, RUNNERS};
use crate::stream::{Kind, Size, Stream};
use model::memory::Memory;

/// Rounds of one cell. In each round every engine makes one short pass, so that other work on the machine meets all of
/// them alike; the engine that begins changes.
pub const ROUNDS: usize = 301;

/// One stream's figures, by engine. Each is a median over the rounds.
pub struct Cell {
    pub kind: Kind,
    pub size: Size,
    pub accesses: u64,
    /// The number that each of them got.
    pub number: u32,
    /// Time of one access.
    pub nanoseconds: [f64; RUNNERS.len()],
    /// Accesses of the proved engine in the time of one access of this engine, within a round.
    pub ratios: [f64; RUNNERS.len()],
}

fn median(figures: impl Iterator<Item = f64>) -> f64 {
    let mut sorted: Vec<f64> = figures.collect();
    sorted.sort_by(f64::total_cmp);
    sorted.get(sorted.len() / 2).copied().unwrap_or(f64::NAN)
}

/// Fails where two memories differ.
fn alike(place: &str, what: &str, m: &Memory, expected: &Memory) -> Result<(), String> {
    m.difference(expected).map_or(Ok(()), |difference| Err(format!("{place}: {what}: {difference}")))
}

/// Every engine reaches the start, gives each access the number that the stream announces and moves what it announces,
/// reads and leaves what the first one does, and leaves the start where its accesses are refused.
fn judge(stream: &Stream, m: &mut Memory, buffer: &mut [u8]) -> Result<(), String> {
    let mut first: Option<(u64, Memory)> = None;
    for Runner { name, reach, census, .. } in RUNNERS {
        let place = format!("{name} on {} with {:?}", stream.kind.name(), stream.s);
        if stream.lead.is_some() {
            let mut reached = stream.raw();
            reach(stream, &mut reached, buffer).map_err(|what| format!("{place}: {what}"))?;
            alike(&place, "another start", &reached, &stream.start)?;
        }
        let [numbered, moved, sent_home, sum] = census(stream, m, buffer);
        let found = (numbered, moved, sent_home, m.control.spill);
        let announced = (stream.reads(), stream.moved, stream.sent_home, stream.spill);
        if found != announced {
            return Err(format!(
                "{place}: reads that get {}, moved, sent home, spill {found:?}, expected {announced:?}",
                stream.number
            ));
        }
        match &first {
            None => first = Some((sum, m.clone())),
            Some((expected, _)) if sum != *expected => return Err(format!("{place}: other bytes read")),
            Some((_, expected)) => alike(&place, "other memory", m, expected)?,
        }
        if stream.number == 0 {
            stream.rewind(m);
        }
        alike(&place, "not back at the start", m, &stream.start)?;
    }
    Ok(())
}

/// Times a stream, once its answers are judged. The buffer lies half a page from the rows, to the byte: so the copies
/// run over like alignments and never over addresses that the processor takes for one another.
pub fn measure(stream: &Stream) -> Result<Cell, String> {
    let mut m = stream.start.clone();
    let w = stream.s.w as usize;
    let mut room = vec![0; w + 4096];
    let apart = (m.store.as_ptr() as usize).wrapping_sub(room.as_ptr() as usize).wrapping_add(2048) % 4096;
    let buffer = &mut room[apart..apart + w];
    judge(stream, &mut m, buffer)?;
    let mut expected = None;
    let mut seconds = [[0.0; RUNNERS.len()]; ROUNDS];
    for (round, seconds) in seconds.iter_mut().enumerate() {
        for turn in 0..ORDER.len() {
            let at = ORDER[(round + turn) % ORDER.len()];
            let (time, answers) = (RUNNERS[at].pass)(stream, &mut m, buffer);
            if *expected.get_or_insert(answers) != answers || answers.others != 0 {
                return Err(format!("{} on {}: other answers", RUNNERS[at].name, stream.kind.name()));
            }
            seconds[at] = time.as_secs_f64();
        }
    }
    let accesses = stream.reads() * stream.times as u64;
    let time = |at| median(seconds.iter().map(|round| round[at])) * 1e9 / accesses as f64;
    let ratio = |at| median(seconds.iter().map(|round| round[at] / round[PROVED]));
    Ok(Cell {
        kind: stream.kind,
        size: Size { w: stream.s.w, k: stream.s.k, b: stream.s.b },
        accesses: accesses * (ROUNDS * RUNNERS.len()) as u64,
        number: stream.number,
        nanoseconds: std::array::from_fn(time),
        ratios: std::array::from_fn(ratio),
    })
}
