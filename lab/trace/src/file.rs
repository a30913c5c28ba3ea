//! Trace files in the making: numbers, and the bytes between them.

use model::memory::Settings;
use model::rng::Rng;

/// A file to compare, with the name of the rule that it was made by.
pub struct File {
    pub rule: &'static str,
    pub bytes: Vec<u8>,
}

impl File {
    pub fn new(rule: &'static str, bytes: impl Into<Vec<u8>>) -> File {
        File { rule, bytes: bytes.into() }
    }
}

/// The numbers of a trace as words, so that any of them may also be too large or no number at all.
#[derive(Clone)]
pub struct Words(pub Vec<String>);

impl Words {
    /// With a first count of 6 where B is 1, and of 7 where it is not.
    pub fn new(s: &Settings, steps: &[u32]) -> Words {
        let six = [6, s.n, s.q, s.w, s.k, s.a, s.l, steps.len() as u32];
        let words = Words(six.iter().chain(steps).map(u32::to_string).collect());
        if s.b == 1 {
            words
        } else {
            words.with_banks(s.b)
        }
    }

    /// With a first count of 7 and the given B, which may also be 1.
    pub fn with_banks(mut self, b: u32) -> Words {
        if self.second_count() == 7 {
            self.0.insert(7, b.to_string());
        }
        self.set(0, "7").set(7, b.to_string())
    }

    /// A trace with B = 1 can be written in two ways; now and then the longer one.
    pub fn either(self, rng: &mut Rng) -> Words {
        if self.second_count() == 7 && rng.once_in(3) {
            self.with_banks(1)
        } else {
            self
        }
    }

    /// Where the second count stands, with the first count as it was made.
    pub fn second_count(&self) -> usize {
        if self.0.first().is_some_and(|first| first == "7") {
            8
        } else {
            7
        }
    }

    pub fn set(mut self, at: usize, word: impl Into<String>) -> Words {
        if let Some(old) = self.0.get_mut(at) {
            *old = word.into();
        }
        self
    }

    /// As document 01 writes its example.
    pub fn plain(&self) -> Vec<u8> {
        self.0.join(" ").into_bytes()
    }

    /// With blanks and newlines between, before and after, and leading zeros, as the form allows.
    pub fn varied(&self, rng: &mut Rng) -> Vec<u8> {
        let mut bytes = Vec::new();
        let gap = |rng: &mut Rng, bytes: &mut Vec<u8>, least: u64| {
            let length = if rng.once_in(6) { rng.below(6) } else { 0 }.max(least);
            (0..length).for_each(|_| bytes.push(rng.pick(b"  \n")));
        };
        gap(rng, &mut bytes, 0);
        for (at, word) in self.0.iter().enumerate() {
            gap(rng, &mut bytes, u64::from(at > 0));
            let zeros = if rng.once_in(12) { rng.below(14) } else { 0 };
            bytes.extend(std::iter::repeat_n(b'0', zeros as usize));
            bytes.extend_from_slice(word.as_bytes());
        }
        gap(rng, &mut bytes, 0);
        bytes
    }

    /// Filled up to a length with one byte, before the word at `before` or after the last.
    pub fn padded(&self, with: u8, before: usize, length: usize) -> Vec<u8> {
        let (front, back) = self.0.split_at(before.min(self.0.len()));
        let (mut bytes, back) = (front.join(" ").into_bytes(), back.join(" ").into_bytes());
        if !bytes.is_empty() {
            bytes.push(b' ');
        }
        bytes.resize(bytes.len().max(length.saturating_sub(back.len())), with);
        bytes.extend(back);
        bytes
    }
}
