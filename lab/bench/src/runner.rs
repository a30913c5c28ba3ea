//! The four engines with the calls that the streams make, and one pass of a stream over an engine.

use crate::clock::thread_time;
use crate::stream::{Stream, TICK};
use aqua::Lent;
use model::memory::{Answer, Memory, Settings, NONE};
use std::time::Duration;

trait Engine {
    fn set_up(s: &Settings, m: &mut Memory) -> u32;
    fn read(s: &Settings, m: &mut Memory, row: u32, buffer: &mut [u8]) -> Answer;
    fn tick(s: &Settings, m: &mut Memory) -> u32;
}

struct Proved;

impl Engine for Proved {
    fn set_up(s: &Settings, m: &mut Memory) -> u32 {
        aqua::lend(m).set_up(s).number
    }

    #[inline]
    fn read(s: &Settings, m: &mut Memory, row: u32, buffer: &mut [u8]) -> Answer {
        aqua::lend(m).read(s, row, buffer)
    }

    fn tick(s: &Settings, m: &mut Memory) -> u32 {
        aqua::lend(m).tick(s).number
    }
}

macro_rules! engine {
    ($name:ident, $package:ident::$calls:ident) => {
        struct $name;

        impl Engine for $name {
            fn set_up(s: &Settings, m: &mut Memory) -> u32 {
                $package::set_up(s, &mut aqua::lend(m))
            }

            #[inline]
            fn read(s: &Settings, m: &mut Memory, row: u32, buffer: &mut [u8]) -> Answer {
                let Lent { control, store, forward, reverse, rows, counts } = aqua::lend(m);
                $package::$calls::read(control, *s, row, buffer, store, forward, reverse, rows, counts)
            }

            fn tick(s: &Settings, m: &mut Memory) -> u32 {
                $package::$calls::tick(s, &mut aqua::lend(m))
            }
        }
    };
}

engine!(Idiomatic, engines::idiomatic);
engine!(Tuned, engines::tuned);
engine!(Native, native::tuned);

/// What the answers of one pass were: whether a call got another number than the stream announces, and a checksum over
/// the answers and the bytes read. It is kept within the time that is taken, so it is short.
#[derive(Clone, Copy, PartialEq, Eq, Debug, Default)]
pub struct Answers {
    /// Not 0 where a number is another one.
    pub others: u32,
    sum: u64,
}

impl Answers {
    #[inline]
    fn note(&mut self, a: &Answer, number: u32, byte: u8) {
        self.others |= a.number ^ number;
        self.sum = self.sum.rotate_left(7) ^ a.place ^ u64::from(a.slot) << 20 ^ u64::from(a.row) << 40;
        self.sum = self.sum.wrapping_add(u64::from(byte) ^ u64::from(a.estimate) << 8);
    }
}

/// One pass over the stream: the time of its reads and ticks, and what they answered.
fn pass<E: Engine>(stream: &Stream, m: &mut Memory, buffer: &mut [u8]) -> (Duration, Answers) {
    let mut answers = Answers::default();
    let mut time = Duration::ZERO;
    for _ in 0..stream.times {
        stream.rewind(m);
        let begun = thread_time();
        for &step in &stream.steps {
            if step == TICK {
                answers.others |= E::tick(&stream.s, m);
            } else {
                let answer = E::read(&stream.s, m, step, buffer);
                answers.note(&answer, stream.number, buffer[buffer.len() / 2]);
            }
        }
        time += thread_time() - begun;
    }
    (time, answers)
}

/// Set-up and then the steps that lead to the start. Every call must be accepted.
fn reach<E: Engine>(stream: &Stream, m: &mut Memory, buffer: &mut [u8]) -> Result<(), String> {
    let s = &stream.s;
    let number = E::set_up(s, m);
    if number != 0 {
        return Err(format!("set-up gets {number}"));
    }
    for (at, &step) in stream.lead.iter().flatten().enumerate() {
        let number = if step == TICK { E::tick(s, m) } else { E::read(s, m, step, buffer).number };
        if number != 0 {
            return Err(format!("step {at} after set-up gets {number}"));
        }
    }
    Ok(())
}

/// The steps of the stream once, from its start: reads that got its number, rows moved, rows sent home, and the checksum
/// of each byte in the buffer after a read.
fn census<E: Engine>(stream: &Stream, m: &mut Memory, buffer: &mut [u8]) -> [u64; 4] {
    let mut seen = [0; 4];
    stream.rewind(m);
    for &step in &stream.steps {
        if step == TICK {
            E::tick(&stream.s, m);
            continue;
        }
        let a = E::read(&stream.s, m, step, buffer);
        seen[0] += u64::from(a.number == stream.number);
        seen[1] += u64::from(a.slot != NONE);
        seen[2] += u64::from(a.row != NONE);
        seen[3] = buffer.iter().fold(seen[3], |sum, &byte| (sum ^ u64::from(byte)).wrapping_mul(0x0100_0000_01B3));
    }
    seen
}

pub struct Runner {
    pub name: &'static str,
    pub pass: fn(&Stream, &mut Memory, &mut [u8]) -> (Duration, Answers),
    pub reach: fn(&Stream, &mut Memory, &mut [u8]) -> Result<(), String>,
    pub census: fn(&Stream, &mut Memory, &mut [u8]) -> [u64; 4],
}

const fn runner<E: Engine>(name: &'static str) -> Runner {
    Runner { name, pass: pass::<E>, reach: reach::<E>, census: census::<E> }
}

pub const PROVED: usize = 0;
pub const IDIOMATIC: usize = 1;
pub const TUNED: usize = 2;
pub const NATIVE: usize = 3;

/// `native` is the tuned engine built for this very processor.
pub const RUNNERS: [Runner; 4] = [
    runner::<Proved>("proved"),
    runner::<Idiomatic>("idiomatic"),
    runner::<Tuned>("tuned"),
    runner::<Native>("native"),
];

/// The order in a round. A processor may run slower for a while after wide vector instructions: so the idiomatic engine,
/// whose passes are the longest, comes after the native one.
pub const ORDER: [usize; 4] = [PROVED, TUNED, NATIVE, IDIOMATIC];
