//! Repairs that are nearly document 02's. Random files are to tell them from it: those files are counted that have
//! another answer, or other bytes written, by another repair.

use crate::answer::{repairing, Answer};
use crate::repair::{drop_copies, first_occurrences, has_opposites, mend, mend_all, repair, repair_with, Mended};
use crate::rules::{draft_by, Reader, RuleDraft, BENCH, REPAIR};
use crate::to_words;

/// A rule file, and the length of the buffer that is lent for it.
#[derive(Clone, Copy)]
struct Call<'a> {
    rule: &'a [u8],
    capacity: usize,
}

struct Notion {
    name: &'static str,
    reader: Reader,
    /// What becomes of a clause by itself.
    clause: fn(&[u32]) -> Mended,
    /// What becomes of copies, from the clauses as they stand and what becomes of each by itself.
    copies: fn(&[Vec<u32>], &mut [Mended]),
    /// What is made of the answer.
    change: fn(Call, Answer) -> Answer,
}

/// Document 02's.
const RIGHT: Notion = Notion {
    name: "",
    reader: REPAIR,
    clause: mend,
    copies: |_, mended| drop_copies(mended),
    change: |_, answer| answer,
};

const NOTIONS: [Notion; 66] = [
    // The literals of a kept clause.
    Notion { name: "literals left in their order", clause: |list| with_literals(list, first_occurrences), ..RIGHT },
    Notion {
        name: "literals in falling order",
        clause: |list| with_literals(list, |list| reversed(&sorted(&first_occurrences(list)))),
        ..RIGHT
    },
    Notion { name: "repeats left", clause: |list| with_literals(list, sorted), ..RIGHT },
    Notion {
        name: "repeats left unless side by side",
        clause: |list| with_literals(list, |list| sorted(&merged(list))),
        ..RIGHT
    },
    // Which clauses are dropped.
    Notion { name: "clauses with opposites kept", clause: Mended::kept, ..RIGHT },
    Notion {
        name: "the first literal of each variable kept",
        clause: |list| kept_but(list, |before, literal| before.iter().any(|other| other / 2 == literal / 2)),
        ..RIGHT
    },
    Notion {
        name: "opposites dropped and the other literals kept",
        clause: |list| kept_but(list, |_, literal| list.contains(&(literal ^ 1))),
        ..RIGHT
    },
    Notion {
        name: "opposites side by side alone",
        clause: |list| kept_unless(list, list.windows(2).any(|two| two[0] == two[1] ^ 1)),
        ..RIGHT
    },
    Notion {
        name: "opposites after their variables alone",
        clause: |list| kept_unless(list, has_opposite_after(list)),
        ..RIGHT
    },
    Notion {
        name: "opposites before their variables alone",
        clause: |list| kept_unless(list, has_opposite_after(&reversed(list))),
        ..RIGHT
    },
    Notion {
        name: "any literals that differ by 1 as opposites",
        clause: |list| kept_unless(list, list.iter().any(|literal| list.contains(&(literal + 1)))),
        ..RIGHT
    },
    Notion {
        name: "clauses with repeats dropped",
        clause: |list| kept_unless(list, has_opposites(list) || first_occurrences(list) != list),
        ..RIGHT
    },
    Notion {
        name: "empty clauses dropped",
        clause: |list| kept_unless(list, has_opposites(list) || list.is_empty()),
        ..RIGHT
    },
    Notion { name: "kept clauses put in order", change: |_, answer| with_clauses(answer, |list| list.sort()), ..RIGHT },
    // Which copies are dropped.
    Notion { name: "copies kept", copies: |_, _| {}, ..RIGHT },
    Notion {
        name: "the last copy kept and those before it dropped",
        copies: |_, mended| {
            mended.reverse();
            drop_copies(mended);
            mended.reverse();
        },
        ..RIGHT
    },
    Notion {
        name: "all dropped of which there is a copy",
        copies: |_, mended| {
            let all = mended.to_vec();
            drop_each(mended, |at| all.iter().filter(|clause| clause.literals == all[at].literals).count() > 1);
        },
        ..RIGHT
    },
    Notion {
        name: "one copy of each clause dropped",
        copies: |_, mended| {
            let all = mended.to_vec();
            drop_each(mended, |at| all[..at].iter().filter(|clause| clause.literals == all[at].literals).count() == 1);
        },
        ..RIGHT
    },
    Notion {
        name: "copies compared with the clause before alone",
        copies: |_, mended| {
            let all = mended.to_vec();
            drop_each(mended, |at| at > 0 && all[at - 1].literals == all[at].literals);
        },
        ..RIGHT
    },
    Notion {
        name: "copies compared with the kept clause before alone",
        copies: |_, mended| {
            let all = mended.to_vec();
            drop_each(mended, |at| {
                let before = all[..at].iter().rev().find(|clause| clause.literals.is_some());
                before.is_some_and(|clause| clause.literals == all[at].literals)
            });
        },
        ..RIGHT
    },
    Notion { name: "copies compared as they stand", copies: |old, mended| by(old, mended, <[u32]>::to_vec), ..RIGHT },
    Notion { name: "copies compared with their repeats", copies: |old, mended| by(old, mended, sorted), ..RIGHT },
    Notion { name: "copies compared out of order", copies: |old, mended| by(old, mended, first_occurrences), ..RIGHT },
    Notion {
        name: "copies compared by their variables",
        copies: |old, mended| by(old, mended, |list| merged(&sorted(&list.iter().map(|l| l / 2).collect::<Vec<_>>()))),
        ..RIGHT
    },
    Notion {
        name: "copies of empty clauses kept",
        copies: |_, mended| {
            let all = mended.to_vec();
            drop_copies(mended);
            let empty = Some(Vec::new());
            mended.iter_mut().zip(all).filter(|(_, old)| old.literals == empty).for_each(|(clause, old)| *clause = old);
        },
        ..RIGHT
    },
    // What a copy adds to the counts.
    Notion { name: "copies not counted", copies: |_, mended| with_counts(mended, |_| [0; 3]), ..RIGHT },
    Notion {
        name: "literals of copies counted",
        copies: |_, mended| {
            with_counts(mended, |old| [1, old.literals.as_ref().map_or(0, Vec::len) as u64 + old.counts[1], 0])
        },
        ..RIGHT
    },
    Notion {
        name: "repeats in copies counted",
        copies: |_, mended| with_counts(mended, |old| [1, old.counts[1], 0]),
        ..RIGHT
    },
    Notion {
        name: "copies out of order counted",
        copies: |_, mended| with_counts(mended, |old| [1, 0, old.counts[2]]),
        ..RIGHT
    },
    Notion {
        name: "copies of dropped clauses counted twice",
        copies: |old, mended| {
            drop_copies(mended);
            let sets: Vec<Vec<u32>> = old.iter().map(|list| merged(&sorted(list))).collect();
            for at in (1..sets.len()).filter(|at| has_opposites(&old[*at]) && sets[..*at].contains(&sets[*at])) {
                mended[at].counts[0] += 1;
            }
        },
        ..RIGHT
    },
    Notion {
        name: "copies of dropped clauses not counted",
        copies: |old, mended| {
            drop_copies(mended);
            for at in (1..old.len()).filter(|at| has_opposites(&old[*at]) && old[..*at].contains(&old[*at])) {
                mended[at].counts[0] = 0;
            }
        },
        ..RIGHT
    },
    // What a clause adds to the counts.
    Notion {
        name: "repeats in dropped clauses counted",
        clause: |list| with_count(list, 1, |_| list.len() - first_occurrences(list).len()),
        ..RIGHT
    },
    Notion {
        name: "literals of dropped clauses counted",
        clause: |list| with_count(list, 1, |right| if has_opposites(list) { list.len() } else { right }),
        ..RIGHT
    },
    Notion {
        name: "clauses with repeats counted, not literals",
        clause: |list| with_count(list, 1, |right| right.min(1)),
        ..RIGHT
    },
    Notion {
        name: "dropped clauses out of order counted",
        clause: |list| with_count(list, 2, |_| usize::from(!first_occurrences(list).is_sorted())),
        ..RIGHT
    },
    Notion {
        name: "order judged without the earlier repeats",
        clause: |list| judged(list, |list| reversed(&first_occurrences(&reversed(list)))),
        ..RIGHT
    },
    Notion { name: "order judged with repeats", clause: |list| judged(list, <[u32]>::to_vec), ..RIGHT },
    Notion { name: "order judged with repeats unless side by side", clause: |list| judged(list, merged), ..RIGHT },
    Notion {
        name: "places where literals fall counted",
        clause: |list| with_count(list, 2, |right| right * falls(&first_occurrences(list))),
        ..RIGHT
    },
    // The numbers answered.
    Notion {
        name: "the length in words",
        change: |_, answer| with_number(answer, 0, |right| right.numbers[0] / 4),
        ..RIGHT
    },
    Notion {
        name: "the old length",
        change: |call, answer| with_number(answer, 0, |_| call.rule.len() as u64),
        ..RIGHT
    },
    Notion { name: "the kept clauses counted", change: |_, answer| with_number(answer, 1, clauses_written), ..RIGHT },
    Notion {
        name: "two counts exchanged",
        change: |_, answer| {
            let exchanged = with_number(answer.clone(), 1, |_| answer.numbers[2]);
            with_number(exchanged, 2, |_| answer.numbers[1])
        },
        ..RIGHT
    },
    // The trailer and the rest of the buffer.
    Notion { name: "the number of clauses as it was", change: |call, answer| with_old_word(call, answer, 4), ..RIGHT },
    Notion { name: "the prefix start as it was", change: |call, answer| with_old_word(call, answer, 2), ..RIGHT },
    Notion { name: "the word count as it was", change: |call, answer| with_old_word(call, answer, 1), ..RIGHT },
    Notion {
        name: "noughts up to the old length",
        change: |call, answer| with_end(answer, |written| written.resize(call.rule.len(), 0)),
        ..RIGHT
    },
    Notion {
        name: "the old file up to its length",
        change: |call, answer| with_end(answer, |written| written.extend(&call.rule[written.len()..])),
        ..RIGHT
    },
    Notion {
        name: "what has room written after 25",
        change: |call, mut answer| {
            if answer.code == 25 {
                answer.written = without_25(call).written;
                answer.written.truncate(call.capacity);
            }
            answer
        },
        ..RIGHT
    },
    // 25.
    Notion { name: "25 left out", change: |call, _| without_25(call), ..RIGHT },
    Notion {
        name: "25 by the new length",
        change: |call, answer| {
            let found = without_25(call);
            if found.written.len() > call.capacity {
                answer
            } else {
                found
            }
        },
        ..RIGHT
    },
    Notion {
        name: "25 for a buffer of the old length",
        change: |call, answer| with_25(call, answer, call.rule.len() + 1, &[0]),
        ..RIGHT
    },
    Notion { name: "25 before 9", change: |call, answer| with_25(call, answer, call.rule.len(), &[9]), ..RIGHT },
    Notion { name: "25 before 8", change: |call, answer| with_25(call, answer, call.rule.len(), &[8, 9]), ..RIGHT },
    Notion { name: "25 before 6", change: |call, answer| with_25(call, answer, call.rule.len(), &[6, 8, 9]), ..RIGHT },
    Notion {
        name: "25 before 5",
        change: |call, answer| with_25(call, answer, call.rule.len(), &[5, 6, 8, 9]),
        ..RIGHT
    },
    Notion {
        name: "25 before 1",
        change: |call, answer| with_25(call, answer, call.rule.len(), &[1, 2, 3, 4, 5, 6, 8, 9]),
        ..RIGHT
    },
    // The reader.
    Notion { name: "7 asked", reader: Reader { left_out: &[23, 26], ..BENCH }, ..RIGHT },
    Notion { name: "23 asked", reader: Reader { left_out: &[7, 26], ..BENCH }, ..RIGHT },
    Notion { name: "26 asked", reader: Reader { left_out: &[7, 23], ..BENCH }, ..RIGHT },
    Notion { name: "7 and 23 asked", reader: Reader { left_out: &[26], ..BENCH }, ..RIGHT },
    Notion { name: "7, 23 and 26 asked", reader: BENCH, ..RIGHT },
    Notion { name: "5 without the repeats", change: with_long_clauses, ..RIGHT },
    Notion { name: "6 in kept clauses alone", change: with_6_in_kept, ..RIGHT },
    Notion { name: "6 by the number of a kept clause", change: with_number_of_kept, ..RIGHT },
    Notion {
        name: "no place",
        change: |_, answer| if answer.code == 0 { answer } else { Answer::refused((answer.code, None)) },
        ..RIGHT
    },
];

fn sorted(list: &[u32]) -> Vec<u32> {
    let mut list = list.to_vec();
    list.sort_unstable();
    list
}

fn reversed(list: &[u32]) -> Vec<u32> {
    list.iter().rev().copied().collect()
}

/// Without repeats that stand side by side.
fn merged(list: &[u32]) -> Vec<u32> {
    let mut list = list.to_vec();
    list.dedup();
    list
}

/// How many literals are followed by a lower one.
fn falls(list: &[u32]) -> usize {
    list.windows(2).filter(|two| two[0] > two[1]).count()
}

/// Whether the opposite of a variable stands somewhere after it.
fn has_opposite_after(list: &[u32]) -> bool {
    list.iter().enumerate().any(|(at, literal)| literal % 2 == 0 && list[at..].contains(&(literal + 1)))
}

/// A clause that has other literals if it is kept.
fn with_literals(list: &[u32], literals: fn(&[u32]) -> Vec<u32>) -> Mended {
    let right = mend(list);
    Mended { literals: right.literals.map(|_| literals(list)), ..right }
}

/// A clause that is kept without some of its literals, told by those before and themselves.
fn kept_but(list: &[u32], dropped: impl Fn(&[u32], u32) -> bool) -> Mended {
    let left: Vec<u32> = (0..list.len()).filter(|&at| !dropped(&list[..at], list[at])).map(|at| list[at]).collect();
    let mut mended = Mended::kept(&left);
    mended.counts[1] += (list.len() - left.len()) as u64;
    mended
}

fn kept_unless(list: &[u32], is_dropped: bool) -> Mended {
    if is_dropped {
        Mended::DROPPED
    } else {
        Mended::kept(list)
    }
}

/// A clause that adds another number to one of the counts.
fn with_count(list: &[u32], at: usize, count: impl Fn(usize) -> usize) -> Mended {
    let mut mended = mend(list);
    mended.counts[at] = count(mended.counts[at] as usize) as u64;
    mended
}

/// A clause that is reordered if it is kept and other literals of it do not rise.
fn judged(list: &[u32], literals: fn(&[u32]) -> Vec<u32>) -> Mended {
    let rise = literals(list).is_sorted_by(|before, after| before < after);
    with_count(list, 2, |_| usize::from(!has_opposites(list) && !rise))
}

/// Drops the kept clauses of these numbers.
fn drop_each(mended: &mut [Mended], is_copy: impl Fn(usize) -> bool) {
    for (at, clause) in mended.iter_mut().enumerate().filter(|(_, clause)| clause.literals.is_some()) {
        if is_copy(at) {
            *clause = Mended::DROPPED;
        }
    }
}

/// Drops the kept clauses that are the same as an earlier one by what is made of them as they stand.
fn by(old: &[Vec<u32>], mended: &mut [Mended], compared: fn(&[u32]) -> Vec<u32>) {
    let lists: Vec<Option<Vec<u32>>> =
        old.iter().zip(&*mended).map(|(list, clause)| clause.literals.as_ref().map(|_| compared(list))).collect();
    drop_each(mended, |at| lists[..at].contains(&lists[at]));
}

/// Drops copies, which add other numbers to the counts.
fn with_counts(mended: &mut [Mended], counts: fn(&Mended) -> [u64; 3]) {
    let all = mended.to_vec();
    drop_copies(mended);
    for (clause, old) in mended.iter_mut().zip(&all).filter(|(clause, old)| clause != old) {
        clause.counts = counts(old);
    }
}

/// An answer by which the clauses are written in another order.
fn with_clauses(mut answer: Answer, change: fn(&mut [Vec<u32>])) -> Answer {
    if let Ok(RuleDraft { mut clauses, prefix }) = draft_by(BENCH, &answer.written) {
        change(&mut clauses);
        answer.written = RuleDraft { clauses, prefix }.bytes();
    }
    answer
}

/// An answer with another number.
fn with_number(mut answer: Answer, at: usize, number: impl Fn(&Answer) -> u64) -> Answer {
    if answer.code == 0 {
        answer.numbers[at] = number(&answer);
    }
    answer
}

fn clauses_written(answer: &Answer) -> u64 {
    let words = to_words(&answer.written);
    words[words.len() - 4].into()
}

/// An answer by which a word of the trailer is the old file's.
fn with_old_word(call: Call, mut answer: Answer, from_end: usize) -> Answer {
    if answer.code == 0 {
        let (old, new) = (call.rule.len() - 4 * from_end, answer.written.len() - 4 * from_end);
        answer.written[new..new + 4].copy_from_slice(&call.rule[old..old + 4]);
    }
    answer
}

/// An answer by which more is written.
fn with_end(mut answer: Answer, more: impl Fn(&mut Vec<u8>)) -> Answer {
    if answer.code == 0 {
        more(&mut answer.written);
    }
    answer
}

fn without_25(call: Call) -> Answer {
    repairing(repair(call.rule, usize::MAX))
}

/// 25 in place of other return values, for a buffer of fewer bytes than `least`.
fn with_25(call: Call, answer: Answer, least: usize, codes: &[u32]) -> Answer {
    if call.capacity < least && codes.contains(&answer.code) {
        Answer::refused((25, None))
    } else {
        answer
    }
}

/// An answer to a file that 5 refuses: what it would be if no clause had repeats, if it is accepted then.
fn with_long_clauses(call: Call, answer: Answer) -> Answer {
    let shorter = if answer.code == 5 { without_repeats(call.rule) } else { None };
    match shorter.and_then(|rule| repair(&rule.bytes(), usize::MAX).ok()) {
        Some(repaired) => repairing(Ok(repaired)),
        None => answer,
    }
}

/// A file with no repeats in its clauses, however long they were; none if the clauses do not end at the prefix.
fn without_repeats(rule: &[u8]) -> Option<RuleDraft> {
    let words = to_words(rule);
    let (body, trailer) = words.split_at(words.len() - 4);
    let (mut left, pairs) = body.split_at(trailer[2] as usize);
    let mut clauses = Vec::new();
    for _ in 0..trailer[0] {
        let (k, after) = left.split_first()?;
        let (literals, after) = after.split_at_checked(*k as usize)?;
        clauses.push(first_occurrences(literals));
        left = after;
    }
    let prefix = pairs.chunks_exact(2).map(|pair| [pair[0], pair[1]]).collect();
    left.is_empty().then_some(RuleDraft { clauses, prefix })
}

/// The repair's reader without 6.
const ANY_LITERAL: Reader = Reader { left_out: &[6, 7, 23, 26], ..BENCH };

/// The clauses of a file that 6 refuses; none for another, or if 8 or 9 would refuse it too.
fn refused_by_6(call: Call, answer: &Answer) -> Option<RuleDraft> {
    draft_by(ANY_LITERAL, call.rule).ok().filter(|_| answer.code == 6)
}

fn with_6_in_kept(call: Call, answer: Answer) -> Answer {
    let Some(rule) = refused_by_6(call, &answer) else {
        return answer;
    };
    let bound = 2 * rule.prefix.len() as u32;
    let fails = |list: &Vec<u32>| !has_opposites(list) && list.iter().any(|literal| *literal >= bound);
    match rule.clauses.iter().position(fails) {
        Some(clause) => Answer::refused((6, Some(clause))),
        None => repairing(repair_with(ANY_LITERAL, |clauses| mend_all(mend, clauses), call.rule, call.capacity)),
    }
}

fn with_number_of_kept(call: Call, mut answer: Answer) -> Answer {
    if let Some(rule) = refused_by_6(call, &answer) {
        let before = mend_all(mend, &rule.clauses[..answer.numbers[0] as usize]);
        answer.numbers[0] = before.iter().filter(|clause| clause.literals.is_some()).count() as u64;
    }
    answer
}

impl Notion {
    fn answer(&self, call: Call) -> Answer {
        let mend = |clauses: &[Vec<u32>]| {
            let mut mended: Vec<Mended> = clauses.iter().map(|clause| (self.clause)(clause)).collect();
            (self.copies)(clauses, &mut mended);
            mended
        };
        (self.change)(call, repairing(repair_with(self.reader, mend, call.rule, call.capacity)))
    }
}

/// For each notion, how many files have another answer by it.
pub struct Told([u64; NOTIONS.len()]);

impl Default for Told {
    fn default() -> Told {
        Told([0; NOTIONS.len()])
    }
}

impl Told {
    /// Takes in a file, with lent buffers of these lengths.
    pub fn take(&mut self, rule: &[u8], capacities: &[usize]) {
        let calls: Vec<Call> = capacities.iter().map(|&capacity| Call { rule, capacity }).collect();
        let right: Vec<Answer> = calls.iter().map(|call| RIGHT.answer(*call)).collect();
        for (count, notion) in self.0.iter_mut().zip(&NOTIONS) {
            let told = calls.iter().zip(&right).any(|(call, right)| notion.answer(*call) != *right);
            *count += u64::from(told);
        }
    }

    /// Prints the counts (seen with `--nocapture`) and fails unless at least `least` files told each notion.
    pub fn reached(&self, least: u64) {
        for (count, notion) in self.0.iter().zip(&NOTIONS) {
            println!("  {}: told by {count} files", notion.name);
            assert!(*count >= least, "{}: told by {count} files only", notion.name);
        }
    }
}
