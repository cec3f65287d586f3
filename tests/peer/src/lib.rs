//! A second SSAT solver, written apart from the proved one and not proved.
//!
//! It reads the same files and answers the same ten operations, the marks, the clause reader and the job lists of the
//! program `ssat_tally`, by its own methods, so that the two can be compared. A set of literals is kept as a 64-bit
//! mask (bit `l` for literal `l`): with at most 32 variables every literal is under 64.
//!
//! The library links `libssat_c.a` and `libplain_c.a` from the directory in SSAT_LIB_DIR (a relative one is taken from
//! this package), else from `out` of their crates, where `rt lib` writes them. The tests run `ssat_tally`, `ssat_repair`
//! and `run_samples` from the directory in SSAT_BIN_DIR, else from `out` of theirs, where `rt ci` and `rt run` leave
//! them. With `--features no-ffi` the library links nothing and the tests that need the proved solver are left out.
//!
//!     cargo test --release                    all tests
//!     cargo test --release -- --nocapture     with the counts of what was answered
//!     cargo run --release --features no-ffi --bin make_samples ../../crates
//!     cargo bench                             the benchmark, ../../bench/main.rs
//!
//! The random files are the same in every run. PEER_SEED gives others, PEER_ROUNDS so many times
//! as many.

pub mod answer;
pub mod cases;
pub mod derivation;
pub mod enumerate;
#[cfg(not(feature = "no-ffi"))]
pub mod ffi;
pub mod generate;
pub mod guard;
pub mod list;
pub mod near;
pub mod points;
pub mod random;
pub mod repair;
pub mod rules;
pub mod samples;
pub mod search;
pub mod tables;
pub mod walk;
pub mod writer;

/// A set of literals, bit `l` for literal `l`.
pub type Literals = u64;

/// The opposites of a set of literals.
pub fn opposites(set: Literals) -> Literals {
    const POSITIVE: u64 = 0x5555_5555_5555_5555;
    (set & POSITIVE) << 1 | (set >> 1) & POSITIVE
}

/// The level of a clause: 0 if it is empty, else 1 + its highest variable.
pub fn level(set: Literals) -> usize {
    (64 - set.leading_zeros() as usize).div_ceil(2)
}

/// The literals of a set, rising, each once.
pub fn literals_of(mut set: Literals) -> impl Iterator<Item = u32> {
    std::iter::from_fn(move || {
        let literal = set.trailing_zeros();
        set &= set.checked_sub(1)?;
        Some(literal)
    })
}

/// Words, least byte first, as bytes.
pub fn to_bytes(words: &[u32]) -> Vec<u8> {
    words.iter().flat_map(|word| word.to_le_bytes()).collect()
}

/// Bytes as words, least byte first. Bytes after the last whole word are dropped.
pub fn to_words(bytes: &[u8]) -> Vec<u32> {
    bytes.chunks_exact(4).map(|four| u32::from_le_bytes([four[0], four[1], four[2], four[3]])).collect()
}
