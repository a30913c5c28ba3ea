//! Traces in which the head meets runs of worn slots (document 02, Ask 4): rows that sit ahead of it are read until they
//! leave their slots, and then rows move past these.

use crate::file::{File, Words};
use crate::interpret::{STEPS_MOST, TICK};
use crate::sound::banks;
use model::engine::Model;
use model::fault::Fault;
use model::memory::{Memory, Settings, NONE};
use model::rng::Rng;

/// A trace in the making, and the engine after its steps.
struct Maker {
    s: Settings,
    engine: Model,
    buffer: Vec<u8>,
    steps: Vec<u32>,
}

impl Maker {
    fn new(s: Settings) -> Maker {
        let mut engine = Model::new(Memory::raw(&s, 0), Fault::Nothing);
        let _ = engine.set_up(&s);
        Maker { s, engine, buffer: vec![0; s.w as usize], steps: Vec::new() }
    }

    fn tick(&mut self) {
        self.steps.push(TICK);
        let _ = self.engine.tick(&self.s);
    }

    /// Reads a row some times; tells whether every read was accepted.
    fn burst(&mut self, row: u32, times: u32) -> bool {
        (0..times).all(|_| {
            self.steps.push(row);
            self.engine.read(&self.s, row, &mut self.buffer).is_ok()
        })
    }

    /// The row in the slot that lies so far from slot `from` on.
    fn guest(&self, from: u32, ahead: u32) -> Option<u32> {
        let row = u32::from(self.engine.memory.reverse[((from + ahead) % self.s.q) as usize]);
        Some(row).filter(|&row| row != NONE)
    }

    fn at_home(&self, rng: &mut Rng) -> u32 {
        loop {
            let row = rng.below(u64::from(self.s.n)) as u32;
            if self.engine.memory.forward[row as usize] == NONE as u16 {
                return row;
            }
        }
    }

    /// Every slot gets a row; then, in a new epoch, a run of slots is worn, and rows move past it.
    fn round(&mut self, rng: &mut Rng) {
        let Settings { n, q, a, .. } = self.s;
        for _ in 0..q {
            let row = self.at_home(rng);
            if !self.burst(row, a) {
                self.tick();
                self.burst(row, a);
            }
        }
        self.tick();
        let head = self.engine.memory.control.head;
        let half = (q - 1) / 2;
        let any = rng.between(1, u64::from(half.max(1))) as u32;
        let length = rng.pick(&[any, half, half, half + 1]);
        let gap = length + rng.pick(&[0, 0, 1]);
        for ahead in gap..gap + length {
            if let Some(row) = self.guest(head, ahead) {
                let times = if rng.once_in(60) { a - 1 } else { a };
                self.burst(row, times);
            }
        }
        for _ in 0..rng.between(2, 5) {
            let row = match rng.below(6) {
                0 => rng.below(u64::from(n)) as u32,
                1 | 2 => self.guest(head, gap + length).unwrap_or(0),
                _ => self.at_home(rng),
            };
            self.burst(row, a);
        }
        self.tick();
    }
}

/// Traces of a few epochs; the first two have as many slots as a trace can wear half of, with one bank and with 16.
pub fn files(rng: &mut Rng, count: usize) -> Vec<File> {
    (0..count)
        .map(|at| {
            let largest = at < 2;
            let few = rng.between(2, 30) as u32;
            let q = if largest { 2_600 } else { rng.pick(&[few, few + 36, few + 36]) };
            let a = if largest { 1 } else { rng.pick(&[1, 1, 2, 3]) };
            let n = 2 * q + rng.between(1, 5) as u32;
            let b = if largest { [1, 16][at] } else { banks(rng, 66) as u32 };
            let k = (q + rng.between(0, 8) as u32).div_ceil(b);
            let mut maker = Maker::new(Settings { n, q, w: 1, k, a, l: a * (k + 1) - 1, b });
            let rounds = if largest { 1 } else { rng.between(1, 3) };
            (0..rounds).for_each(|_| maker.round(rng));
            maker.steps.truncate(STEPS_MOST);
            File::new("worn slots", Words::new(&maker.s, &maker.steps).plain())
        })
        .collect()
}
