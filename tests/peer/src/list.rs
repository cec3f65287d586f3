//! Document 02's job lists and tallies: what the program `ssat_tally` reads, counts and prints.

use crate::answer::Answer;
use crate::rules::Fault;

/// The most lines and bytes of a list.
pub const MOST_LINES: usize = 4_096;
pub const MOST_BYTES: usize = 65_536;

/// With any count of so many or more, a tally takes in nothing.
pub const FULL: u64 = 4_096;

/// The digits of the largest limit.
const LARGEST: &[u8] = b"18446744073709551615";

/// What a line of a list asks for.
#[derive(Clone, Copy, Debug, PartialEq, Eq)]
pub struct Job<'a> {
    /// The file's name.
    pub name: &'a [u8],
    pub lo: u64,
    pub hi: u64,
}

/// The lines of a list. What stands after the last line feed is one too, unless it is empty.
pub fn lines(list: &[u8]) -> Vec<&[u8]> {
    let mut lines: Vec<&[u8]> = list.split(|byte| *byte == b'\n').collect();
    if lines.last().is_some_and(|last| last.is_empty()) {
        lines.pop();
    }
    lines
}

/// What a line asks for; none for a line of another form.
pub fn job(line: &[u8]) -> Option<Job<'_>> {
    let fields: Vec<&[u8]> = line.split(|byte| *byte == b' ').collect();
    let [name, lo, hi] = fields[..] else {
        return None;
    };
    if name.is_empty() || name.contains(&0) {
        return None;
    }
    Some(Job { name, lo: limit(lo)?, hi: limit(hi)? })
}

/// A number under 2^64 from its decimal digits, with any leading noughts.
fn limit(text: &[u8]) -> Option<u64> {
    if text.is_empty() || !text.iter().all(u8::is_ascii_digit) {
        return None;
    }
    let noughts = text.iter().take_while(|digit| **digit == b'0').count();
    let digits = &text[noughts..];
    // Without leading noughts the longer number is the larger; of two of one length it is the one whose first other
    // digit is larger.
    if (digits.len(), digits) > (LARGEST.len(), LARGEST) {
        return None;
    }
    Some(digits.iter().fold(0, |number, digit| 10 * number + u64::from(digit - b'0')))
}

/// The lines of a list, each with what it asks for, or the refusal of the list.
pub fn read(list: &[u8]) -> Result<Vec<Option<Job<'_>>>, Fault> {
    let lines = lines(list);
    if lines.len() > MOST_LINES || list.len() > MOST_BYTES {
        return Err((24, None));
    }
    Ok(lines.into_iter().map(job).collect())
}

/// How the result for a line is counted, by the place of its count in a tally.
#[derive(Clone, Copy, Debug, PartialEq, Eq)]
pub enum Kind {
    Refused = 1,
    Above = 2,
    Below = 3,
    Within = 4,
}

impl Kind {
    pub fn of(verdict: &Answer) -> Kind {
        match (verdict.code, &verdict.numbers[..]) {
            (0, [1, _]) => Kind::Above,
            (0, [2, _]) => Kind::Below,
            (0, _) => Kind::Within,
            _ => Kind::Refused,
        }
    }
}

/// The counts of files, refused, above, below and within.
#[derive(Clone, Copy, Debug, Default, PartialEq, Eq)]
pub struct Tally(pub [u64; 5]);

impl Tally {
    pub fn is_full(&self) -> bool {
        self.0.iter().any(|count| *count >= FULL)
    }

    /// Takes in one result.
    pub fn take(&mut self, kind: Kind) {
        if !self.is_full() {
            self.0[0] += 1;
            self.0[kind as usize] += 1;
        }
    }

    pub fn sheet(&self) -> String {
        let words = ["files", "refused", "above", "below", "within"];
        words.iter().zip(self.0).map(|(word, count)| format!("{word} {count}\n")).collect()
    }
}

/// What the program prints for a list, with `judge` to give the kind of the result for a line's file.
pub fn sheet(list: &[u8], judge: impl Fn(&Job) -> Kind) -> String {
    match read(list) {
        Ok(jobs) => {
            let mut tally = Tally::default();
            jobs.iter().for_each(|job| tally.take(job.as_ref().map_or(Kind::Refused, &judge)));
            tally.sheet()
        }
        Err((number, _)) => format!("refused {number}\n"),
    }
}
