//! The two proved readers against each other.

use super::NUMBERS;
use peer::ffi::{Returned, BEFORE};
use peer::to_words;

/// Which of the small limits a file exceeds.
#[derive(Clone, Copy, Debug, PartialEq, Eq)]
pub enum Beyond {
    Neither,
    /// By a trailer that stands in a file of a right length.
    Variables,
    Bytes,
    Both,
}

impl Beyond {
    fn of(bytes: &[u8]) -> Beyond {
        let variables = match to_words(bytes)[..] {
            [.., _, n, _, _] if bytes.len().is_multiple_of(4) => n,
            _ => 0,
        };
        match (bytes.len() > 4_096, variables > 16) {
            (false, false) => Beyond::Neither,
            (false, true) => Beyond::Variables,
            (true, false) => Beyond::Bytes,
            (true, true) => Beyond::Both,
        }
    }
}

/// How often the bench's reader and the small one returned each two numbers, by the limits that the files exceed.
#[derive(Default)]
pub struct Readings([[[u64; NUMBERS]; NUMBERS]; 4]);

impl Readings {
    /// Takes in what the two returned for one file. Fails unless it is the same within the small limits, and beyond
    /// them the small reader's refusal is the first of 1 to 3 that applies: only 2 stands before 3.
    pub fn take(&mut self, bytes: &[u8], bench: Returned, small: Returned) {
        let beyond = Beyond::of(bytes);
        let wanted = match beyond {
            Beyond::Neither => bench,
            Beyond::Variables if bench.0 == 2 => bench,
            Beyond::Variables => (3, BEFORE),
            Beyond::Bytes | Beyond::Both => (1, BEFORE),
        };
        assert!(small == wanted, "beyond {beyond:?}: bench {bench:?}, small {small:?}, {:?}", to_words(bytes));
        self.0[beyond as usize][bench.0 as usize][small.0 as usize] += 1;
    }

    /// Fails unless each two of these numbers were returned for at least `least` files that exceed these limits.
    pub fn reached(&self, beyond: Beyond, pairs: impl IntoIterator<Item = (u32, u32)>, least: u64) {
        for (bench, small) in pairs {
            let count = self.0[beyond as usize][bench as usize][small as usize];
            assert!(count >= least, "beyond {beyond:?}: bench {bench} and small {small} only {count} times");
        }
    }

    /// The counts of files beyond the small limits, a line for each kind.
    pub fn report(&self) -> String {
        let mut text = String::new();
        for beyond in [Beyond::Variables, Beyond::Bytes, Beyond::Both] {
            let mut counts = String::new();
            for (bench, smalls) in self.0[beyond as usize].iter().enumerate() {
                for (small, count) in smalls.iter().enumerate().filter(|(_, count)| **count > 0) {
                    counts += &format!(" {bench}/{small}:{count}");
                }
            }
            if !counts.is_empty() {
                text += &format!("  bench/small beyond {beyond:?}:{counts}\n");
            }
        }
        text
    }
}
