//! What the files were that the repair took, and the buffers that it was lent.

use peer::answer::Answer;
use peer::repair::{first_occurrences, has_opposites};
use peer::rules::{self, draft_by, first_copy, RuleDraft, REPAIR};

/// A kind of files, told by the old file and the new one.
type Shape = (&'static str, fn(&RuleDraft, &RuleDraft) -> bool);

const SHAPES: [Shape; 16] = [
    ("no variables", |old, _| old.prefix.is_empty()),
    ("32 variables", |old, _| old.prefix.len() == 32),
    ("no clauses", |old, _| old.clauses.is_empty()),
    ("1,024 clauses", |old, _| old.clauses.len() == 1_024),
    ("nothing to do", |old, new| old == new),
    ("all clauses dropped", |old, new| !old.clauses.is_empty() && new.clauses.is_empty()),
    ("the first clause dropped alone", |old, new| drops_alone(old, new, old.clauses.first())),
    ("the last clause dropped alone", |old, new| drops_alone(old, new, old.clauses.last())),
    ("an empty clause kept", |_, new| new.clauses.contains(&Vec::new())),
    ("the last clause dropped alone, a copy", |old, new| {
        let copy = first_copy(&made(&kept(&old.clauses), ordered));
        old.clauses.len() == new.clauses.len() + 1 && copy == Some(new.clauses.len())
    }),
    ("copies as they stand", |old, _| first_copy(&kept(&old.clauses)).is_some()),
    ("copies once in order alone", |old, _| {
        let kept = kept(&old.clauses);
        first_copy(&kept).is_none() && first_copy(&made(&kept, sorted)).is_some()
    }),
    ("copies once without repeats alone", |old, _| {
        let kept = kept(&old.clauses);
        first_copy(&made(&kept, sorted)).is_none() && first_copy(&made(&kept, ordered)).is_some()
    }),
    ("two empty clauses", |old, _| old.clauses.iter().filter(|list| list.is_empty()).count() > 1),
    ("one clause with opposites twice", |old, _| {
        let opposed: Vec<&Vec<u32>> = old.clauses.iter().filter(|list| has_opposites(list)).collect();
        first_copy(&opposed).is_some()
    }),
    ("a clause of all variables reordered", |old, new| {
        let all = |list: &&Vec<u32>| list.len() > 2 && list.len() == old.prefix.len() && !list.is_sorted();
        old.clauses.iter().filter(all).any(|list| new.clauses.iter().any(|kept| kept.len() == list.len()))
    }),
];

/// The clauses that are not dropped for opposites, as they stand.
fn kept(clauses: &[Vec<u32>]) -> Vec<&Vec<u32>> {
    clauses.iter().filter(|list| !has_opposites(list)).collect()
}

/// What is made of each clause.
fn made(clauses: &[&Vec<u32>], make: fn(&[u32]) -> Vec<u32>) -> Vec<Vec<u32>> {
    clauses.iter().map(|list| make(list)).collect()
}

fn sorted(list: &[u32]) -> Vec<u32> {
    let mut list = list.to_vec();
    list.sort_unstable();
    list
}

/// In order and without repeats.
fn ordered(list: &[u32]) -> Vec<u32> {
    sorted(&first_occurrences(list))
}

/// Whether one clause is dropped for opposites, this one, and others are kept.
fn drops_alone(old: &RuleDraft, new: &RuleDraft, clause: Option<&Vec<u32>>) -> bool {
    let one = !new.clauses.is_empty() && old.clauses.len() == new.clauses.len() + 1;
    one && clause.is_some_and(|clause| has_opposites(clause))
}

/// How many files and buffers there were of each kind.
#[derive(Default)]
pub struct Repairs {
    shapes: [u64; SHAPES.len()],
    /// Files by the counts that are over 0: 1 for clauses dropped, 2 for literals dropped, 4 for clauses reordered.
    counts: [u64; 8],
    /// Files that the reader accepts, refuses by 7, by 23 and by 26.
    readings: [u64; 4],
    /// Buffers of no byte, as long as a new file that is shorter than the old; of 4 and 1 bytes less than the old file,
    /// as long as it, of a byte more and of more.
    buffers: [u64; 7],
}

impl Repairs {
    /// Takes in a file that is repaired, with the lengths of the buffers that were lent for it.
    pub fn take(&mut self, rule: &[u8], repaired: &Answer, capacities: &[usize]) {
        let [old, new] = [rule, &repaired.written].map(|file| draft_by(REPAIR, file).unwrap());
        for (count, (_, is)) in self.shapes.iter_mut().zip(&SHAPES) {
            *count += u64::from(is(&old, &new));
        }
        let counts = repaired.numbers[1..].iter().enumerate();
        self.counts[counts.map(|(at, count)| usize::from(*count > 0) << at).sum::<usize>()] += 1;
        let reading = match rules::read(rule) {
            Ok(_) => 0,
            Err((7, _)) => 1,
            Err((23, _)) => 2,
            Err(_) => 3,
        };
        self.readings[reading] += 1;
        let (long, short) = (rule.len(), repaired.written.len());
        for &capacity in capacities {
            let borders = [
                capacity == 0,
                capacity == short && short < long,
                capacity + 4 == long,
                capacity + 1 == long,
                capacity == long,
                capacity == long + 1,
                capacity > long + 1,
            ];
            self.buffers.iter_mut().zip(borders).for_each(|(count, is)| *count += u64::from(is));
        }
    }

    /// Prints the counts (seen with `--nocapture`) and fails unless each is at least `least`.
    pub fn reached(&self, least: u64) {
        for ((name, _), count) in SHAPES.iter().zip(self.shapes) {
            println!("  {name}: {count} files");
            assert!(count >= least, "{name}: {count} files only");
        }
        let others = [&self.counts[..], &self.readings, &self.buffers].concat();
        assert!(others.iter().all(|count| *count >= least), "{}", self.report());
    }

    /// A line of counts, or nothing where no file was repaired.
    pub fn report(&self) -> String {
        let Repairs { counts, readings, buffers, .. } = self;
        if *counts == [0; 8] {
            return String::new();
        }
        format!("  repaired, by counts over 0: {counts:?}; read, 7, 23, 26: {readings:?}; buffers: {buffers:?}\n")
    }
}
