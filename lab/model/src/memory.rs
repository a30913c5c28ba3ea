//! What the caller lends, the calls, and their answers, as plain data.

use std::ops::Range;

/// The control record has a place for each of so many banks, whatever the settings.
pub const BANKS: usize = 16;

#[repr(C)]
#[derive(Clone, Copy, PartialEq, Eq, Debug)]
pub struct Settings {
    pub n: u32,
    pub q: u32,
    pub w: u32,
    pub k: u32,
    pub a: u32,
    pub l: u32,
    pub b: u32,
}

impl Settings {
    /// "Physical row p belongs to bank p mod B."
    pub fn bank(&self, physical: usize) -> usize {
        physical % self.b as usize
    }

    /// "Tracker buffers hold B × K entries, bank after bank."
    pub fn entries(&self) -> usize {
        self.b as usize * self.k as usize
    }

    pub fn entries_of(&self, bank: usize) -> Range<usize> {
        let k = self.k as usize;
        bank * k..(bank + 1) * k
    }

    /// The most quarantines of an epoch.
    pub fn figure(&self) -> u64 {
        u64::from(self.b) * u64::from(self.l / self.a)
    }
}

#[repr(C)]
#[derive(Clone, Copy, PartialEq, Eq, Debug, Default)]
pub struct Control {
    pub head: u32,
    pub passed: u32,
    pub spill: [u32; BANKS],
    pub acts: [u32; BANKS],
}

// The layouts of include/aqua.h.
const _: () = assert!(size_of::<Settings>() == 28 && size_of::<Control>() == 136);

/// All the memory that is lent from call to call.
#[derive(Clone, PartialEq, Eq, Debug)]
pub struct Memory {
    pub store: Vec<u8>,
    pub forward: Vec<u16>,
    pub reverse: Vec<u16>,
    pub rows: Vec<u16>,
    pub counts: Vec<u32>,
    pub control: Control,
}

impl Memory {
    /// Memory of the lengths that the settings ask for, with nothing meaningful in it.
    pub fn raw(s: &Settings, fill: u8) -> Memory {
        let wide = u16::from_le_bytes([fill, fill]);
        Memory {
            store: vec![fill; (s.n as usize + s.q as usize) * s.w as usize],
            forward: vec![wide; s.n as usize],
            reverse: vec![wide; s.q as usize],
            rows: vec![wide; s.entries()],
            counts: vec![u32::from(wide); s.entries()],
            control: Control {
                head: wide.into(),
                passed: wide.into(),
                spill: [wide.into(); BANKS],
                acts: [wide.into(); BANKS],
            },
        }
    }

    /// Bytes that one comparison looks at.
    pub fn bytes(&self) -> usize {
        self.store.len() + 2 * (self.forward.len() + self.reverse.len() + self.rows.len()) + 4 * self.counts.len()
    }

    /// The first place where two memories differ.
    pub fn difference(&self, other: &Memory) -> Option<String> {
        fn first<T: PartialEq + std::fmt::Debug>(name: &str, a: &[T], b: &[T]) -> Option<String> {
            if a == b {
                return None;
            }
            let at = a.iter().zip(b).position(|(x, y)| x != y);
            Some(match at {
                Some(i) => format!("{name}[{i}]: library {:?}, model {:?}", a[i], b[i]),
                None => format!("{name}: lengths {} and {}", a.len(), b.len()),
            })
        }
        let control = (self.control != other.control)
            .then(|| format!("control: library {:?}, model {:?}", self.control, other.control));
        control
            .or_else(|| first("counts", &self.counts, &other.counts))
            .or_else(|| first("rows", &self.rows, &other.rows))
            .or_else(|| first("reverse", &self.reverse, &other.reverse))
            .or_else(|| first("forward", &self.forward, &other.forward))
            .or_else(|| first("store", &self.store, &other.store))
    }

    /// A description for a report; tables longer than a line are cut.
    pub fn describe(&self) -> String {
        fn cut<T: std::fmt::Debug>(name: &str, part: &[T]) -> String {
            let shown = &part[..part.len().min(24)];
            let more = if shown.len() < part.len() { " ..." } else { "" };
            format!("  {name} ({}) {shown:?}{more}\n", part.len())
        }
        format!(
            "  {:?}\n{}{}{}{}{}",
            self.control,
            cut("forward", &self.forward),
            cut("reverse", &self.reverse),
            cut("rows", &self.rows),
            cut("counts", &self.counts),
            cut("store", &self.store),
        )
    }
}

#[derive(Clone, Debug)]
pub enum Call {
    SetUp,
    Read { row: u32, length: usize },
    Write { row: u32, column: usize, bytes: Vec<u8> },
    Tick,
    Inspect { row: u32 },
}

pub const KINDS: [&str; 6] = ["set-up", "read", "write", "tick", "inspect", "sizing"];
pub const SIZING: usize = 5;

impl Call {
    pub fn kind(&self) -> usize {
        match self {
            Call::SetUp => 0,
            Call::Read { .. } => 1,
            Call::Write { .. } => 2,
            Call::Tick => 3,
            Call::Inspect { .. } => 4,
        }
    }
}

/// Every figure of every kind of answer; a figure that a kind of call does not give is 0 or, for slot and row, none.
#[derive(Clone, Copy, PartialEq, Eq, Debug)]
pub struct Answer {
    pub number: u32,
    pub place: u64,
    /// The tracker's estimate after the access.
    pub estimate: u32,
    pub slot: u32,
    pub row: u32,
    pub start: usize,
    pub length: usize,
}

pub const NONE: u32 = 65535;

impl Answer {
    #[inline]
    pub fn bare(number: u32) -> Answer {
        Answer { number, place: 0, estimate: 0, slot: NONE, row: NONE, start: 0, length: 0 }
    }
}
