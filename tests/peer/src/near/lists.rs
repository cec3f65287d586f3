//! Readings of job lists, and counts, that are nearly document 02's. Random lists are to tell them from it: those lists
//! are counted that have another sheet by another reading.

use crate::list::{job, lines, Job, Kind, Tally, MOST_BYTES, MOST_LINES};
use std::collections::HashMap;
use std::ops::Range;

struct Notion {
    name: &'static str,
    most_lines: usize,
    most_bytes: usize,
    lines: fn(&[u8]) -> Vec<&[u8]>,
    /// What a line is read as.
    line: fn(&[u8]) -> Vec<u8>,
    counts: fn([u64; 5]) -> [u64; 5],
}

/// Document 02's.
const RIGHT: Notion = Notion {
    name: "",
    most_lines: MOST_LINES,
    most_bytes: MOST_BYTES,
    lines,
    line: <[u8]>::to_vec,
    counts: |counts| counts,
};

const NOTIONS: [Notion; 22] = [
    Notion { name: "4,096 lines refused", most_lines: MOST_LINES - 1, ..RIGHT },
    Notion { name: "4,097 lines taken", most_lines: MOST_LINES + 1, ..RIGHT },
    Notion { name: "65,536 bytes refused", most_bytes: MOST_BYTES - 1, ..RIGHT },
    Notion { name: "65,537 bytes taken", most_bytes: MOST_BYTES + 1, ..RIGHT },
    Notion { name: "an empty last line counted", lines: |list| list.split(|byte| *byte == b'\n').collect(), ..RIGHT },
    Notion {
        name: "an empty first line not counted",
        lines: |list| lines(list.strip_prefix(b"\n").unwrap_or(list)),
        ..RIGHT
    },
    Notion {
        name: "a last line without line feed not counted",
        lines: |list| list.split_inclusive(|byte| *byte == b'\n').filter_map(|line| line.strip_suffix(b"\n")).collect(),
        ..RIGHT
    },
    Notion {
        name: "lines of another form not counted",
        lines: |list| lines(list).into_iter().filter(|line| job(line).is_some()).collect(),
        ..RIGHT
    },
    Notion {
        name: "tabs as blanks",
        line: |line| line.iter().map(|byte| if *byte == b'\t' { b' ' } else { *byte }).collect(),
        ..RIGHT
    },
    Notion { name: "byte 13 at the end left out", line: |line| without_end(line, b"\r"), ..RIGHT },
    Notion { name: "a blank at the end left out", line: |line| without_end(line, b" "), ..RIGHT },
    Notion { name: "a blank at the start left out", line: |line| without_start(line, b" "), ..RIGHT },
    Notion {
        name: "two blanks as one",
        line: |line| fields(line).filter(|field| !field.is_empty()).collect::<Vec<_>>().join(&b' '),
        ..RIGHT
    },
    Notion {
        name: "what stands after the upper limit left out",
        line: |line| fields(line).take(3).collect::<Vec<_>>().join(&b' '),
        ..RIGHT
    },
    Notion {
        name: "the name ended by byte 0",
        line: |line| with_fields(line, 0..1, |name| first_while(name, |byte| byte != 0)),
        ..RIGHT
    },
    Notion {
        name: "a limit ended by a byte that is no digit",
        line: |line| with_fields(line, 1..3, |limit| first_while(limit, |byte| byte.is_ascii_digit())),
        ..RIGHT
    },
    Notion {
        name: "a sign before a limit",
        line: |line| with_fields(line, 1..3, |limit| without_start(limit, b"+")),
        ..RIGHT
    },
    Notion {
        name: "an empty limit as 0",
        line: |line| with_fields(line, 1..3, |limit| if limit.is_empty() { b"0".to_vec() } else { limit.to_vec() }),
        ..RIGHT
    },
    Notion {
        name: "a limit of at most 20 digits",
        line: |line| with_fields(line, 1..3, |limit| if limit.len() > 20 { b"x".to_vec() } else { limit.to_vec() }),
        ..RIGHT
    },
    Notion { name: "a limit modulo 2^64", line: |line| with_fields(line, 1..3, modulo), ..RIGHT },
    Notion {
        name: "files without the refused",
        counts: |[files, refused, above, below, within]| [files - refused, refused, above, below, within],
        ..RIGHT
    },
    Notion {
        name: "above and below exchanged",
        counts: |[files, refused, above, below, within]| [files, refused, below, above, within],
        ..RIGHT
    },
];

fn fields(line: &[u8]) -> impl Iterator<Item = &[u8]> {
    line.split(|byte| *byte == b' ')
}

/// A line of three fields with some of them changed; another line as it is.
fn with_fields(line: &[u8], which: Range<usize>, change: fn(&[u8]) -> Vec<u8>) -> Vec<u8> {
    let mut fields: Vec<Vec<u8>> = fields(line).map(<[u8]>::to_vec).collect();
    if fields.len() == 3 {
        fields[which].iter_mut().for_each(|field| *field = change(field));
    }
    fields.join(&b' ')
}

fn without_start(text: &[u8], start: &[u8]) -> Vec<u8> {
    text.strip_prefix(start).unwrap_or(text).to_vec()
}

fn without_end(text: &[u8], end: &[u8]) -> Vec<u8> {
    text.strip_suffix(end).unwrap_or(text).to_vec()
}

fn first_while(text: &[u8], taken: fn(u8) -> bool) -> Vec<u8> {
    text.iter().copied().take_while(|byte| taken(*byte)).collect()
}

/// The digits of a number modulo 2^64; another text as it is.
fn modulo(text: &[u8]) -> Vec<u8> {
    if text.is_empty() || !text.iter().all(u8::is_ascii_digit) {
        return text.to_vec();
    }
    let next = |number: u64, digit: &u8| number.wrapping_mul(10).wrapping_add(u64::from(digit - b'0'));
    text.iter().fold(0, next).to_string().into_bytes()
}

impl Notion {
    /// The sheet for a list, with `kind` to give the kind of the result for a line.
    fn sheet(&self, list: &[u8], kind: &mut impl FnMut(Vec<u8>) -> Kind) -> String {
        let lines = (self.lines)(list);
        if lines.len() > self.most_lines || list.len() > self.most_bytes {
            return String::from("refused 24\n");
        }
        let mut tally = Tally::default();
        lines.into_iter().for_each(|line| tally.take(kind((self.line)(line))));
        Tally((self.counts)(tally.0)).sheet()
    }
}

/// For each notion, how many lists have another sheet by it.
#[derive(Default)]
pub struct Told([u64; NOTIONS.len()]);

impl Told {
    /// Takes in a list, with `judge` to give the kind of the result for a line's file.
    pub fn take(&mut self, list: &[u8], judge: impl Fn(&Job) -> Kind) {
        // Most lines are read alike by most notions: each is judged once.
        let mut kinds = HashMap::new();
        let mut kind = |line| {
            *kinds.entry(line).or_insert_with_key(|line: &Vec<u8>| job(line).as_ref().map_or(Kind::Refused, &judge))
        };
        let right = RIGHT.sheet(list, &mut kind);
        for (count, notion) in self.0.iter_mut().zip(&NOTIONS) {
            *count += u64::from(notion.sheet(list, &mut kind) != right);
        }
    }

    /// Prints the counts (seen with `--nocapture`) and fails unless at least `least` lists told each notion.
    pub fn reached(&self, least: u64) {
        for (count, notion) in self.0.iter().zip(&NOTIONS) {
            println!("  {}: told by {count} lists", notion.name);
            assert!(*count >= least, "{}: told by {count} lists only", notion.name);
        }
    }
}
