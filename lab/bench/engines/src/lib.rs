//! Two engines in Rust that the benchmark compares with the proved one: an idiomatic and a tuned one. This source is
//! built twice, as `engines` for x86-64 without extensions and as `native` for the very processor that it runs on. No
//! public function is generic: so each is compiled here, with this package's instructions, and not where it is called.

mod engine;
mod scan;
mod worn;

pub use engine::set_up;

/// The calls of one engine. A read takes what the library's call takes, each slice by itself, and is not inlined: a call
/// costs a call, as it does with the library.
macro_rules! calls {
    ($name:ident, $scan:ident) => {
        pub mod $name {
            use crate::{engine, scan::$scan};
            use aqua::Lent;
            use model::memory::{Answer, Control, Settings};

            #[inline(never)]
            #[allow(clippy::too_many_arguments)]
            pub fn read(
                control: &mut Control, s: Settings, row: u32, buffer: &mut [u8], store: &mut [u8], forward: &mut [u16],
                reverse: &mut [u16], rows: &mut [u16], counts: &mut [u32],
            ) -> Answer {
                let mut m = Lent { control, store, forward, reverse, rows, counts };
                engine::access::<$scan>(&s, &mut m, row, buffer).unwrap_or_else(Answer::bare)
            }

            #[inline(never)]
            pub fn tick(s: &Settings, m: &mut Lent) -> u32 {
                engine::tick::<$scan>(s, m)
            }
        }
    };
}

calls!(idiomatic, Plain);
calls!(tuned, Blocks);

/// A set of instructions that not every x86-64 processor has.
pub struct Instructions {
    pub name: &'static str,
    /// This package was built with them.
    pub built: bool,
    /// The processor has them.
    pub present: bool,
}

#[inline(never)]
pub fn instructions() -> Vec<Instructions> {
    macro_rules! sets {
        ($($name:tt),*) => {
            vec![$(Instructions {
                name: $name,
                built: cfg!(target_feature = $name),
                present: std::is_x86_feature_detected!($name),
            }),*]
        };
    }
    sets!["sse4.2", "avx", "avx2", "bmi2", "avx512f", "avx512bw", "avx512vl"]
}
