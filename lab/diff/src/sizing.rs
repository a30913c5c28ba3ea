//! The two sizing sums against 128-bit arithmetic, and document 01's printed values.

use crate::pair::Counts;
use aqua::{least_size, most_activations, Sum};
use model::rng::Rng;

fn within(value: u64, low: u64, high: u64) -> bool {
    (low..=high).contains(&value)
}

fn sum(holds: bool, value: impl FnOnce() -> u128) -> Sum {
    if holds {
        Sum { number: 0, value: value() as u64 }
    } else {
        Sum { number: 1, value: 0 }
    }
}

fn argument(rng: &mut Rng, low: u64, high: u64) -> u64 {
    if rng.once_in(24) {
        let far = rng.word();
        rng.pick(&[low.wrapping_sub(1), high + 1, u64::MAX, far, 1 << 32, (1 << 32) + low])
    } else {
        rng.skewed(low, high)
    }
}

pub fn compare(rng: &mut Rng, cases: u64, counts: &mut Counts) -> Result<(), String> {
    let printed = [(1000, 15302), (500, 23053), (250, 30872), (125, 37176), (50, 42367), (1, 46620)];
    for (threshold, size) in printed {
        let got = least_size(64_000_000, 45, 1_370, 16, threshold);
        if got != (Sum { number: 0, value: size }) {
            return Err(format!("least size for threshold {threshold}: {got:?}, document 01 has {size}"));
        }
    }
    let got = most_activations(64_000_000, 45, 7_800, 350);
    if got != (Sum { number: 0, value: 1_358_404 }) {
        return Err(format!("most activations: {got:?}, document 01 has 1358404"));
    }
    for _ in 0..cases {
        let trefw = argument(rng, 1, 1_000_000_000);
        let trc = argument(rng, 1, 10_000);
        let tmov = argument(rng, 1, 1_000_000);
        let banks = argument(rng, 1, 1_024);
        let a = argument(rng, 1, 65_535);
        let shared = within(trefw, 1, 1_000_000_000) && within(trc, 1, 10_000);
        let holds = shared && within(tmov, 1, 1_000_000) && within(banks, 1, 1_024) && within(a, 1, 65_535);
        let expected = sum(holds, || {
            let [t, c, m, b, a] = [trefw, trc, tmov, banks, a].map(u128::from);
            let below = a * c + b * m;
            (t * b).div_ceil(below)
        });
        let got = least_size(trefw, trc, tmov, banks, a);
        counts.sizing(&expected);
        if got != expected {
            return Err(format!("least_size({trefw}, {trc}, {tmov}, {banks}, {a}): {got:?}, expected {expected:?}"));
        }
        let trefi = argument(rng, 1, 1_000_000);
        let last = trefi.wrapping_sub(1);
        let under = rng.below(trefi);
        let trfc = rng.pick(&[under, under, under, under, 0, last, trefi, trefi.wrapping_add(1)]);
        let holds = shared && within(trefi, 1, 1_000_000) && trfc < trefi;
        let expected = sum(holds, || {
            let [t, c, i, f] = [trefw, trc, trefi, trfc].map(u128::from);
            t * (i - f) / (i * c)
        });
        let got = most_activations(trefw, trc, trefi, trfc);
        counts.sizing(&expected);
        if got != expected {
            return Err(format!("most_activations({trefw}, {trc}, {trefi}, {trfc}): {got:?}, expected {expected:?}"));
        }
    }
    Ok(())
}
