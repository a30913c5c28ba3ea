//! Files at the limits: large settings and long traces, the longest files, numbers too large for a word, settings
//! refused.

use crate::file::{File, Words};
use crate::interpret::{FILE_MOST, STEPS_MOST, TICK};
use crate::sound::{chase, settings, small};
use model::memory::Settings;
use model::rng::Rng;

/// The limits of each setting, in the order of the file.
const RANGES: [(u32, u32); 7] = [(1, 60_000), (2, 5_500), (1, 8_192), (1, 4_096), (1, 65_535), (1, 1_360_000), (1, 16)];

/// Hammering streams of some hundred steps.
fn hammering(rng: &mut Rng, files: &mut Vec<File>) {
    for _ in 0..500 {
        let [n, q, w] = [rng.between(1, 60), rng.between(2, 40), rng.between(1, 8)];
        let [k, a] = [rng.between(1, 40), rng.between(1, 60)];
        let [q, k, a] = [rng.pick(&[2, 2, 3, q]), rng.pick(&[1, 2, k]), rng.pick(&[1, 1, 2, 3, a])];
        let mut s = settings(rng, n, q, w, k, a);
        if rng.once_in(10) {
            s.l = 1;
        }
        let length = rng.between(100, 700) as usize;
        files.push(File::new("hammering", Words::new(&s, &chase(rng, &s, length)).either(rng).varied(rng)));
    }
}

/// Stores of 32,768 bytes and near that, in every shape; one byte more is refused.
fn stores(rng: &mut Rng, files: &mut Vec<File>) {
    for w in (0..14).map(|bits| 1 << bits).chain([3, 5, 7, 127, 8_191]) {
        for size in [32_767, 32_768, 32_769, 65_536, 65_537, 98_304] {
            for q in [2, 3, 5_500] {
                let rows = size / w;
                if rows <= q || rows - q > 60_000 {
                    continue;
                }
                for n in [rows - q, rows - q + 1] {
                    let k = rng.between(1, 8);
                    let s = settings(rng, n.min(60_000), q, w, k, 1);
                    let steps = [s.n - 1, TICK, s.n - 1, 0, s.n, TICK, s.n - 1];
                    files.push(File::new("store near its limit", Words::new(&s, &steps).plain()));
                }
            }
        }
    }
    for b in [1, 2, 16] {
        let largest = Settings { n: 60_000, q: 5_500, w: 8_192, k: 4_096, a: 65_535, l: 1_360_000, b };
        files.push(File::new("store near its limit", Words::new(&largest, &[1, 2, 3]).plain()));
    }
}

/// K × B at 4,096, just below and just above, up to 65,536; with settings that are refused, and with too large a store.
fn entries(rng: &mut Rng, files: &mut Vec<File>) {
    for b in (1..=17).chain(1..=17) {
        let limit = 4_096 / b;
        for k in [limit - 1, limit, limit + 1, 2 * limit, 3 * limit + 7, 4_096, 4_097] {
            let a = rng.between(1, 3) as u32;
            let s = Settings { n: 40, q: 6, w: 1, k, a, l: a * (k + 1) - 1, b };
            let steps: Vec<u32> = (0..40).map(|at| rng.pick(&[at, at % 7, 3, TICK])).collect();
            let words = Words::new(&s, &steps).either(rng);
            files.push(File::new("K times B near its limit", words.plain()));
            let refused = words.clone().set(6, (a * (k + 1)).to_string());
            files.push(File::new("K times B and L", refused.plain()));
            files.push(File::new("K times B and the store", words.clone().set(3, "713").plain()));
            files.push(File::new("K times B and Q", words.set(2, "1").plain()));
        }
    }
}

/// The largest traces: 4,096 steps, 4,096 tracker entries, in one bank or in more, as many rows as the store allows.
fn largest(rng: &mut Rng, files: &mut Vec<File>) {
    let shapes = [(27_268, 5_500, 1), (32_766, 2, 1), (2, 2, 8_192), (1, 3, 8_192), (60, 4, 512), (8_000, 192, 4)];
    for (n, q, w) in shapes {
        for (k, a) in [(4_096, 1), (4_096, 2), (1, 4_095), (16, 20)] {
            let s = settings(rng, n, q, w, k, a);
            files.push(File::new("largest", Words::new(&s, &chase(rng, &s, STEPS_MOST)).plain()));
        }
        for (k, b) in [(256, 16), (2_048, 2), (1, 16), (4_096, 1)] {
            let s = Settings { b, ..settings(rng, n, q, w, k, 2) };
            files.push(File::new("largest", Words::new(&s, &chase(rng, &s, STEPS_MOST)).with_banks(b).plain()));
        }
        let s = settings(rng, n, q, w, 1_000, 1);
        let steps: Vec<u32> =
            (0..STEPS_MOST as u32).map(|at| if at % 1_001 == 1_000 { TICK } else { at % s.n }).collect();
        files.push(File::new("largest", Words::new(&s, &steps).plain()));
    }
}

/// Files of 65,535, 65,536 and 65,537 bytes, and far more; filled by blanks, newlines and leading zeros, anywhere.
fn long(rng: &mut Rng, files: &mut Vec<File>) {
    for length in [FILE_MOST - 1, FILE_MOST, FILE_MOST + 1, FILE_MOST + 2, 2 * FILE_MOST, 3 * FILE_MOST + 17] {
        for with in *b" \n0" {
            for _ in 0..5 {
                let s = small(rng);
                let words = Words::new(&s, &chase(rng, &s, 20)).either(rng);
                let (second, last) = (words.second_count(), words.0.len());
                let any = rng.below(last as u64) as usize;
                let before = rng.pick(&[0, 1, second - 1, second, last - 1, any]);
                files.push(File::new("long", words.padded(with, before, length)));
                if with != b'0' {
                    files.push(File::new("long", words.padded(with, last, length)));
                }
            }
        }
        files.push(File::new("long, only blanks", vec![b' '; length]));
        files.push(File::new("long, one number", vec![b'0'; length]));
    }
    // As many steps as a file may hold, filled up to the limit.
    for b in [1, 2] {
        let s = Settings { n: 9, q: 2, w: 1, k: 1, a: 9, l: 9, b };
        let steps: Vec<u32> = (0..STEPS_MOST as u32).map(|at| at % 9).collect();
        let words = Words::new(&s, &steps);
        files.push(File::new("long", words.padded(b'0', words.second_count() + 1, FILE_MOST)));
    }
}

/// 10 to the power `zeros`, plus a small number.
fn power(zeros: usize, plus: u32) -> String {
    format!("1{plus:0zeros$}")
}

/// Numbers of many digits, in each place of a file.
fn large_numbers(rng: &mut Rng, files: &mut Vec<File>) {
    let powers = ["4294967295", "4294967296", "18446744073709551615", "18446744073709551616"];
    for at in (0..13).chain(0..13) {
        let s = small(rng);
        let words = Words::new(&s, &chase(rng, &s, 6)).either(rng);
        let Some(old) = words.0.get(at).cloned() else { continue };
        let value: u64 = old.parse().unwrap_or(0);
        let mut put = |word: String| files.push(File::new("large number", words.clone().set(at, word).varied(rng)));
        powers.iter().for_each(|power| put(power.to_string()));
        // The number itself, after zeros; the number plus 2 to the 32 and to the 64.
        [10, 30, 200, 400, 3_000].iter().for_each(|&zeros| put(format!("{}{old}", "0".repeat(zeros))));
        put((value + (1 << 32)).to_string());
        put((u128::from(value) + (1 << 64)).to_string());
        put(format!("000{}", u128::from(value) + (1 << 32)));
        put((10 * (u128::from(value) + (1 << 32))).to_string());
        for zeros in [10, 19, 20, 38, 100, 400] {
            put(power(zeros, value as u32));
        }
        put("9".repeat(400));
        put("42949672950".to_string());
        put("4294967300".to_string());
        put(format!("{}4294967295", "0".repeat(300)));
        put(format!("{}4294967296", "0".repeat(300)));
    }
}

/// Settings past each edge, alone, together, and with too large a store; products past 32 bits.
fn refused_settings(rng: &mut Rng, files: &mut Vec<File>) {
    let good = |rng: &mut Rng| {
        let s = small(rng);
        Words::new(&s, &chase(rng, &s, 5)).either(rng)
    };
    for (at, (low, high)) in (1..).zip(RANGES) {
        let edges = [low - 1, low, high, high + 1, 0, 65_535, 65_536, 65_537, 1 << 31, u32::MAX];
        for edge in edges {
            // The seventh setting needs a first count of 7.
            let words = if at == 7 { good(rng).with_banks(edge) } else { good(rng).set(at, edge.to_string()) };
            files.push(File::new("setting at an edge", words.plain()));
            let other = rng.between(1, words.second_count() as u64 - 1) as usize;
            let far = rng.word() as u32;
            let wild = rng.pick(&[0, 1 << 16, 1 << 31, u32::MAX, far]);
            files.push(File::new("settings at edges", words.set(other, wild.to_string()).plain()));
        }
    }
    for _ in 0..120 {
        let s = small(rng);
        let product = s.a * (s.k + 1);
        let l = rng.pick(&[product - 1, product, product, product + 1, 1_360_000, 1_360_001]);
        let mut words = Words::new(&s, &[0, 0]).set(6, l.to_string());
        if rng.once_in(2) {
            // With a store that is too large too.
            words = words.set(1, "60000").set(3, rng.pick(&["8192", "1", "100"]));
        }
        files.push(File::new("L near A (K + 1)", words.plain()));
    }
    // N + Q, N times W, A times K + 1, (N + Q) times W and K times B past 32 bits, so that they would come out small.
    let large = ["4294967295", "4294967294", "2147483648", "65536", "1431655766", "4294934528"];
    for _ in 0..100 {
        let mut words = good(rng);
        for _ in 0..rng.between(1, 4) {
            let at = rng.between(1, words.second_count() as u64 - 1) as usize;
            words = words.set(at, rng.pick(&large));
        }
        files.push(File::new("products past 32 bits", words.plain()));
    }
}

/// Lists of no steps, of one and of the most; ticks alone; the same row all the time.
fn counts_of_steps(rng: &mut Rng, files: &mut Vec<File>) {
    for length in [0, 1, 2, STEPS_MOST - 1, STEPS_MOST] {
        for _ in 0..6 {
            let s = small(rng);
            let row = rng.below(u64::from(s.n)) as u32;
            for step in [row, TICK, u32::MAX] {
                let words = Words::new(&s, &vec![step; length]).either(rng);
                files.push(File::new("one step repeated", words.plain()));
            }
            files.push(File::new("chase", Words::new(&s, &chase(rng, &s, length)).either(rng).varied(rng)));
        }
    }
}

pub fn files(rng: &mut Rng) -> Vec<File> {
    let mut files = Vec::new();
    hammering(rng, &mut files);
    stores(rng, &mut files);
    entries(rng, &mut files);
    largest(rng, &mut files);
    long(rng, &mut files);
    large_numbers(rng, &mut files);
    refused_settings(rng, &mut files);
    counts_of_steps(rng, &mut files);
    files
}
