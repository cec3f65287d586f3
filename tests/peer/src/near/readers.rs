//! Small readers that are nearly document 02's. Random files are to tell them from it: those files are counted that
//! have another answer by another reader.

use crate::answer::reading;
use crate::rules::{draft_by, read, read_by, read_small, Fault, Reader, Rules, BENCH, SMALL};
use crate::{to_bytes, to_words};

type Reading = Result<Rules, Fault>;

struct Notion {
    name: &'static str,
    limits: Reader,
    /// What is made of the right reader's answer for these limits.
    change: fn(&[u8], Reading) -> Reading,
}

/// Document 02's.
const RIGHT: Notion = Notion { name: "", limits: SMALL, change: |_, reading| reading };

/// Between two limits of bytes that differ there is a multiple of 4: others would be the same reader.
const NOTIONS: [Notion; 37] = [
    Notion { name: "4,096 bytes refused", limits: Reader { bytes: 4_092, ..SMALL }, ..RIGHT },
    Notion { name: "4,100 bytes taken", limits: Reader { bytes: 4_100, ..SMALL }, ..RIGHT },
    Notion { name: "4,096 words taken", limits: Reader { bytes: 16_384, ..SMALL }, ..RIGHT },
    Notion { name: "65,536 bytes taken", limits: Reader { bytes: BENCH.bytes, ..SMALL }, ..RIGHT },
    Notion { name: "16 variables refused", limits: Reader { variables: 15, ..SMALL }, ..RIGHT },
    Notion { name: "17 variables taken", limits: Reader { variables: 17, ..SMALL }, ..RIGHT },
    Notion { name: "32 variables taken", limits: Reader { variables: BENCH.variables, ..SMALL }, ..RIGHT },
    Notion { name: "the bench's limits", limits: BENCH, ..RIGHT },
    Notion { name: "513 clauses refused", limits: Reader { clauses: 512, ..SMALL }, ..RIGHT },
    Notion { name: "1,021 clauses refused", limits: Reader { clauses: 1_020, ..SMALL }, ..RIGHT },
    Notion { name: "1,024 clauses refused", limits: Reader { clauses: 1_023, ..SMALL }, ..RIGHT },
    Notion { name: "1,025 clauses taken", limits: Reader { clauses: 1_025, ..SMALL }, ..RIGHT },
    Notion {
        name: "2 before 1",
        change: |bytes, reading| if is(2, &read(bytes)) { Err((2, None)) } else { reading },
        ..RIGHT
    },
    Notion {
        name: "3 before 1",
        change: |bytes, reading| if counts_exceed(bytes) { Err((3, None)) } else { reading },
        ..RIGHT
    },
    Notion {
        name: "3 before 2",
        change: |bytes, reading| if is(2, &reading) && counts_exceed(bytes) { Err((3, None)) } else { reading },
        ..RIGHT
    },
    Notion {
        name: "the bench's refusals before the limits",
        change: |bytes, reading| read(bytes).and(reading),
        ..RIGHT
    },
    Notion {
        name: "1 for too many variables",
        change: |_, reading| if is(3, &reading) { Err((1, None)) } else { reading },
        ..RIGHT
    },
    Notion {
        name: "3 for too many bytes",
        change: |bytes, reading| if is(1, &reading) && !is(1, &read(bytes)) { Err((3, None)) } else { reading },
        ..RIGHT
    },
    Notion { name: "no place", change: |_, reading| reading.map_err(|fault| (fault.0, None)), ..RIGHT },
    // Which clause 26 names.
    Notion {
        name: "the clause that the first copy equals",
        change: |bytes, reading| with_26(bytes, reading, |list| first(list).map(|[before, _]| before)),
        ..RIGHT
    },
    Notion {
        name: "the first clause that has a copy",
        change: |bytes, reading| {
            with_26(bytes, reading, |list| (0..list.len()).find(|at| list[at + 1..].contains(&list[*at])))
        },
        ..RIGHT
    },
    Notion {
        name: "the last copy",
        change: |bytes, reading| {
            with_26(bytes, reading, |list| (0..list.len()).rfind(|at| list[..*at].contains(&list[*at])))
        },
        ..RIGHT
    },
    Notion {
        name: "copies counted from 1",
        change: |bytes, reading| with_26(bytes, reading, |list| first(list).map(|[_, copy]| copy + 1)),
        ..RIGHT
    },
    // Which clauses are equal.
    Notion { name: "copies taken", limits: ANY_COPIES, ..RIGHT },
    Notion {
        name: "neighbours compared alone",
        change: |bytes, reading| with_26(bytes, reading, |list| (1..list.len()).find(|at| list[at - 1] == list[*at])),
        ..RIGHT
    },
    Notion {
        name: "clauses compared with the first alone",
        change: |bytes, reading| with_26(bytes, reading, |list| (1..list.len()).find(|at| list[0] == list[*at])),
        ..RIGHT
    },
    Notion {
        name: "the last clause not compared",
        change: |bytes, reading| {
            with_26(bytes, reading, |list| first(&list[..list.len().saturating_sub(1)]).map(|[_, copy]| copy))
        },
        ..RIGHT
    },
    Notion {
        name: "clauses compared with those after the first",
        change: |bytes, reading| with_26(bytes, reading, |list| first(list.get(1..)?).map(|[_, copy]| copy + 1)),
        ..RIGHT
    },
    Notion {
        name: "empty clauses taken",
        change: |bytes, reading| {
            with_26(bytes, reading, |list| first_by(list, |a, b| a == b && !a.is_empty()).map(|[_, copy]| copy))
        },
        ..RIGHT
    },
    Notion {
        name: "clauses compared as far as the shorter",
        change: |bytes, reading| wider(bytes, reading, |a, b| a.starts_with(b) || b.starts_with(a)),
        ..RIGHT
    },
    Notion {
        name: "clauses compared by their variables",
        change: |bytes, reading| {
            wider(bytes, reading, |a, b| {
                let variables = |list: &[u32]| list.iter().map(|literal| literal / 2).collect::<Vec<_>>();
                variables(a) == variables(b)
            })
        },
        ..RIGHT
    },
    Notion {
        name: "clauses compared by their length and last literal",
        change: |bytes, reading| wider(bytes, reading, |a, b| a.len() == b.len() && a.last() == b.last()),
        ..RIGHT
    },
    // Where 26 stands.
    Notion { name: "26 after 8", change: |bytes, reading| after(bytes, reading, |number| number == 8), ..RIGHT },
    Notion { name: "26 after 9", change: |bytes, reading| after(bytes, reading, |_| true), ..RIGHT },
    Notion {
        name: "26 before 23",
        change: |bytes, reading| before(bytes, reading, |number| number == 23, |a, b| a == b),
        ..RIGHT
    },
    Notion {
        name: "26 before 7",
        change: |bytes, reading| before(bytes, reading, |number| matches!(number, 7 | 23), |a, b| a == b),
        ..RIGHT
    },
    Notion {
        name: "26 before 23, with clauses compared as sets",
        change: |bytes, reading| before(bytes, reading, |number| number == 23, same_set),
        ..RIGHT
    },
];

/// The small reader without 26.
const ANY_COPIES: Reader = Reader { left_out: &[26], ..SMALL };

/// The clauses of a file that no check before 7 refuses, whatever its weights are.
fn clauses(bytes: &[u8]) -> Option<Vec<Vec<u32>>> {
    let mut words = to_words(bytes);
    let trailer = words.len().checked_sub(4)?;
    let start = words[trailer + 2] as usize;
    words.get_mut(start..trailer)?.fill(0);
    let reader = Reader { left_out: &[7, 23, 26], ..SMALL };
    draft_by(reader, &to_bytes(&words)).ok().map(|draft| draft.clauses)
}

/// The first clause that equals an earlier one, after the earlier one, with `equal` to tell what is equal.
fn first_by(list: &[Vec<u32>], equal: fn(&[u32], &[u32]) -> bool) -> Option<[usize; 2]> {
    let earlier = |at: usize| list[..at].iter().position(|other| equal(other, &list[at]));
    (0..list.len()).find_map(|at| earlier(at).map(|before| [before, at]))
}

fn first(list: &[Vec<u32>]) -> Option<[usize; 2]> {
    first_by(list, |a, b| a == b)
}

/// A reading by which 26 names another clause of a file that it refuses, or none and is left out.
fn with_26(bytes: &[u8], reading: Reading, find: impl Fn(&[Vec<u32>]) -> Option<usize>) -> Reading {
    if !is(26, &reading) {
        return reading;
    }
    match clauses(bytes).and_then(|list| find(&list)) {
        Some(clause) => Err((26, Some(clause))),
        None => read_by(ANY_COPIES, bytes),
    }
}

/// A reading by which more clauses are equal.
fn wider(bytes: &[u8], reading: Reading, equal: fn(&[u32], &[u32]) -> bool) -> Reading {
    let reached = !matches!(reading, Err((1..=7 | 23, _)));
    match clauses(bytes).filter(|_| reached).and_then(|list| first_by(&list, equal)) {
        Some([_, copy]) => Err((26, Some(copy))),
        None => reading,
    }
}

/// A reading by which 26 stands after other numbers.
fn after(bytes: &[u8], reading: Reading, others: fn(u32) -> bool) -> Reading {
    match read_by(ANY_COPIES, bytes) {
        Err(fault) if is(26, &reading) && others(fault.0) => Err(fault),
        _ => reading,
    }
}

/// A reading by which 26 stands before other numbers, of those after 6.
fn before(bytes: &[u8], reading: Reading, others: fn(u32) -> bool, equal: fn(&[u32], &[u32]) -> bool) -> Reading {
    match reading {
        Err((number, _)) if others(number) => {
            let copy = clauses(bytes).and_then(|list| first_by(&list, equal));
            copy.map_or(reading, |[_, copy]| Err((26, Some(copy))))
        }
        _ => reading,
    }
}

fn same_set(a: &[u32], b: &[u32]) -> bool {
    a.iter().all(|literal| b.contains(literal)) && b.iter().all(|literal| a.contains(literal))
}

fn is(number: u32, reading: &Reading) -> bool {
    reading.as_ref().is_err_and(|fault| fault.0 == number)
}

/// Whether a file has a trailer by which it has more variables or clauses than the small reader takes.
fn counts_exceed(bytes: &[u8]) -> bool {
    match to_words(bytes)[..] {
        [.., m, n, _, _] if bytes.len().is_multiple_of(4) => n > SMALL.variables || m > SMALL.clauses,
        _ => false,
    }
}

/// For each notion, how many files have another answer by it.
pub struct Told([u64; NOTIONS.len()]);

impl Default for Told {
    fn default() -> Told {
        Told([0; NOTIONS.len()])
    }
}

impl Told {
    pub fn take(&mut self, bytes: &[u8]) {
        let right = reading(&read_small(bytes));
        for (count, notion) in self.0.iter_mut().zip(&NOTIONS) {
            let other = (notion.change)(bytes, read_by(notion.limits, bytes));
            *count += u64::from(reading(&other) != right);
        }
    }

    /// Prints the counts (seen with `--nocapture`) and fails unless at least `least` files told each notion.
    pub fn reached(&self, least: u64) {
        for (count, notion) in self.0.iter().zip(&NOTIONS) {
            println!("  {}: told by {count} files", notion.name);
            assert!(*count >= least, "{}: told by {count} files only", notion.name);
        }
    }
}
