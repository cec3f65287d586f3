//! Samples for document 02's small reader, each file read by the bench's reader first.

use super::{distinct_clauses, with, List};
use crate::cases::Operation;
use crate::generate::{longest_rule, RuleDraft};
use crate::{to_bytes, to_words};

impl List {
    /// A file with the bench's answer and the small reader's.
    fn readings(&mut self, name: &str, file: &[u8], bench: (u32, &[u64]), small: (u32, &[u64])) {
        self.add(format!("small-{name}-on-bench"), file, Operation::Read, bench.0, bench.1);
        self.add(format!("small-{name}"), file, Operation::ReadSmall, small.0, small.1);
    }

    /// A file that both readers answer alike.
    fn alike(&mut self, name: &str, file: &[u8], code: u32, numbers: &[u64]) {
        self.readings(name, file, (code, numbers), (code, numbers));
    }

    /// A file that the bench's reader accepts with these numbers and the small one refuses.
    fn beyond(&mut self, name: &str, file: &[u8], numbers: [u64; 4], small: u32) {
        self.readings(name, file, (0, &numbers), (small, &[]));
    }
}

/// Both readers on both sides of each border of the small one.
pub(super) fn small_reader(list: &mut List) {
    lengths(list);
    copies(list);
    numbers_of_variables(list);
    numbers_of_clauses(list);
    refusals(list);
    files_above(list);
}

/// `m` empty clauses over `n` existential variables, in 16 + 8n + 4m bytes.
fn empty_clauses(n: usize, m: usize) -> RuleDraft {
    RuleDraft { clauses: vec![Vec::new(); m], prefix: vec![[0, 0]; n] }
}

/// Different clauses over `n` existential variables in so many words, so that the prefix begins there: three literals
/// each, and the last as many as there is room for.
fn short_clauses(n: u32, words: usize) -> RuleDraft {
    let triples = (0..n).flat_map(|a| (a + 1..n).flat_map(move |b| (b + 1..n).map(move |c| [2 * a, 2 * b, 2 * c])));
    let signed = triples.flat_map(|[a, b, c]| (0..8).map(move |s| vec![a + s % 2, b + s / 2 % 2, c + s / 4]));
    let mut clauses: Vec<Vec<u32>> = signed.take(words / 4).collect();
    assert_eq!(clauses.len(), words / 4, "enough clauses");
    if let Some(k) = (words as u32 % 4).checked_sub(1) {
        clauses.push((0..k).map(|v| 2 * v).collect());
    }
    RuleDraft { clauses, prefix: vec![[0, 0]; n as usize] }
}

/// 57 different clauses of 16 literals, one of `k` and {28, 30}, over 16 variables: the prefix begins at word 973 + k.
/// With 15 as `k` the file has 4,096 bytes.
fn long_clauses(k: u32) -> RuleDraft {
    let clause = |k, number: u32| (0..k).map(|v| 2 * v + (number >> v & 1)).collect();
    let mut clauses: Vec<Vec<u32>> = (0..57).map(|number| clause(16, number)).collect();
    clauses.extend([clause(k, 57), vec![28, 30]]);
    RuleDraft { clauses, prefix: vec![[1, 2]; 16] }
}

/// 1: the length, alone and with 3.
fn lengths(list: &mut List) {
    list.alike("length-0", &[], 1, &[]);
    list.alike("length-12", &to_bytes(&[0, 0, 3]), 1, &[]);
    list.alike("length-16", &to_bytes(&[0, 0, 0, 4]), 0, &[0, 0, 0, 1]);
    list.alike("length-4092", &short_clauses(16, 987).bytes(), 0, &[16, 247, 987, 1]);
    list.alike("length-4096", &short_clauses(16, 988).bytes(), 0, &[16, 247, 988, 1]);
    list.beyond("length-4100", &short_clauses(16, 989).bytes(), [16, 248, 989, 1], 1);
    // No multiples of 4.
    let file = [short_clauses(16, 988).bytes(), vec![0; 5]].concat();
    for len in [4_093, 4_094, 4_095, 4_097, 4_098, 4_099, 4_101] {
        list.alike(&format!("length-{len}"), &file[..len], 1, &[]);
    }

    // One variable less than 16; one more.
    list.alike("length-4096-n-15", &short_clauses(15, 990).bytes(), 0, &[15, 248, 990, 1]);
    list.beyond("length-4100-n-15", &short_clauses(15, 991).bytes(), [15, 248, 991, 1], 1);
    list.beyond("length-4092-n-17", &short_clauses(17, 985).bytes(), [17, 247, 985, 1], 3);
    list.beyond("length-4096-n-17", &short_clauses(17, 986).bytes(), [17, 247, 986, 1], 3);
    list.beyond("length-4100-n-17", &short_clauses(17, 987).bytes(), [17, 247, 987, 1], 1);

    // Clauses with more literals.
    let whole = 3u64.pow(16);
    list.alike("length-4092-long-clauses", &long_clauses(14).bytes(), 0, &[16, 59, 987, whole]);
    list.alike("length-4096-long-clauses", &long_clauses(15).bytes(), 0, &[16, 59, 988, whole]);
    list.beyond("length-4100-long-clauses", &long_clauses(16).bytes(), [16, 59, 989, whole], 1);
    let longer = short_clauses(16, 1_214);
    list.beyond("length-5000", &longer.bytes(), [16, 304, 1_214, 1], 1);
    let count = with(&longer.words(), 1_249, 1_251);
    list.readings("length-5000-count", &to_bytes(&count), (2, &[]), (1, &[]));
    list.beyond("length-65536", &longest_rule([0, 0]).bytes(), [32, 1_024, 16_316, 1], 1);
}

/// 26: empty clauses, of which a file has one at most; copies at both ends of the longest file, and beyond the limits.
fn copies(list: &mut List) {
    list.alike("empty-clause", &empty_clauses(0, 1).bytes(), 0, &[0, 1, 1, 1]);
    list.alike("empty-clauses-2", &empty_clauses(0, 2).bytes(), 26, &[1]);
    list.alike("empty-clauses-1019", &empty_clauses(0, 1_019).bytes(), 26, &[1]);
    list.alike("empty-clauses-1020", &empty_clauses(0, 1_020).bytes(), 26, &[1]);
    list.readings("empty-clauses-1021", &empty_clauses(0, 1_021).bytes(), (26, &[1]), (1, &[]));
    list.alike("empty-clauses-988-n-16", &empty_clauses(16, 988).bytes(), 26, &[1]);
    list.readings("empty-clauses-989-n-16", &empty_clauses(16, 989).bytes(), (26, &[1]), (1, &[]));
    list.readings("empty-clauses-2-n-17", &empty_clauses(17, 2).bytes(), (26, &[1]), (3, &[]));

    // 4,096 bytes, one clause of which is a copy of an earlier one; two copies, of which the first is named.
    let with_copies = |words: usize, n: u32, copies: &[(usize, usize)]| {
        let mut rule = short_clauses(n, words);
        copies.iter().for_each(|&(from, to)| rule.clauses[to] = rule.clauses[from].clone());
        rule.bytes()
    };
    for (from, to) in [(0, 1), (0, 246), (1, 246), (245, 246), (123, 124)] {
        let file = with_copies(988, 16, &[(from, to)]);
        assert_eq!(file.len(), 4_096);
        list.alike(&format!("copy-of-{from}-at-{to}"), &file, 26, &[to as u64]);
    }
    list.alike("copies-at-100-and-246", &with_copies(988, 16, &[(0, 246), (99, 100)]), 26, &[100]);
    list.alike("copies-a-b-b-a", &with_copies(988, 16, &[(1, 2), (0, 3)]), 26, &[2]);
    // 4,112 bytes, and 17 variables.
    list.readings("copy-length-4112", &with_copies(992, 16, &[(0, 247)]), (26, &[247]), (1, &[]));
    list.readings("copy-n-17", &with_copies(986, 17, &[(0, 245)]), (26, &[245]), (3, &[]));
    list.readings("copy-bytes-n-32", &with_copies(988, 32, &[(0, 246)]), (26, &[246]), (1, &[]));

    // With the checks before it and after it, in files of 16 variables.
    let file = |clauses: &[&[u32]], pair| {
        let mut rule = RuleDraft::new(clauses, &[[0, 0]; 16]);
        rule.prefix[15] = pair;
        rule.bytes()
    };
    let pair: &[u32] = &[28, 31];
    list.alike("order-7-26", &file(&[pair, pair, &[0, 1]], [0, 0]), 7, &[2]);
    list.alike("order-23-26", &file(&[pair, pair, &[2, 0]], [0, 0]), 23, &[2]);
    list.alike("order-26-8", &file(&[pair, pair], [0, 1]), 26, &[1]);
    list.alike("order-26-8-distinct", &file(&[pair, &[28, 30]], [0, 1]), 8, &[15]);
    let large = |clauses: &[&[u32]]| RuleDraft::new(clauses, &[[65_535, 65_535]; 16]).bytes();
    list.alike("order-26-9", &large(&[pair, pair]), 26, &[1]);
    list.alike("order-26-9-distinct", &large(&[pair, &[28]]), 9, &[]);
}

/// 3 by the number of variables, and 2 before it.
fn numbers_of_variables(list: &mut List) {
    for n in [1, 15, 16] {
        list.alike(&format!("n-{n}"), &empty_clauses(n, 0).bytes(), 0, &[n as u64, 0, 0, 1]);
    }
    for n in [17, 18, 31, 32] {
        list.beyond(&format!("n-{n}"), &empty_clauses(n, 0).bytes(), [n as u64, 0, 0, 1], 3);
    }
    list.alike("n-33", &empty_clauses(33, 0).bytes(), 3, &[]);
    list.alike("n-2^31", &to_bytes(&[0, 1 << 31, 0, 4]), 3, &[]);
    list.alike("n-2^31+16", &to_bytes(&[0, (1 << 31) + 16, 0, 4]), 3, &[]);
    for n in [16, 17, 32, 33] {
        let mut words = empty_clauses(n, 0).words();
        words[2 * n + 3] += 1;
        list.alike(&format!("n-{n}-count"), &to_bytes(&words), 2, &[]);
    }
}

/// 3 by the number of clauses: 1,024 may be claimed, though they have no room in 4,096 bytes.
fn numbers_of_clauses(list: &mut List) {
    for m in [1_020, 1_021, 1_024] {
        list.alike(&format!("m-{m}-of-0"), &to_bytes(&[m, 0, 0, 4]), 5, &[0]);
    }
    list.alike("m-1025-of-0", &to_bytes(&[1_025, 0, 0, 4]), 3, &[]);
    list.alike("m-2^32-1-of-0", &to_bytes(&[u32::MAX, 0, 0, 4]), 3, &[]);
    let words = empty_clauses(0, 1_020).words();
    list.alike("m-1024-of-1020", &to_bytes(&with(&words, 1_020, 1_024)), 5, &[1_020]);
    list.alike("m-1025-of-1020", &to_bytes(&with(&words, 1_020, 1_025)), 3, &[]);
    list.beyond("m-1024", &distinct_clauses(1_024, 1).bytes(), [32, 1_024, 4_096, 1], 1);
    list.readings("m-1025", &distinct_clauses(1_025, 1).bytes(), (3, &[]), (1, &[]));
}

/// The reader's refusals after 1 within the small limits, with more bytes and with more variables.
fn refusals(list: &mut List) {
    for (name, file, code, place) in faults(&long_clauses(15), 58, 15) {
        list.alike(&format!("{name}-within"), &file, code, &place);
    }
    for (name, file, code, place) in faults(&long_clauses(16), 58, 15) {
        list.readings(&format!("{name}-bytes"), &file, (code, &place), (1, &[]));
    }
    let wide = RuleDraft::new(&[&[0], &[2], &[28, 30]], &[[1, 2]; 17]);
    for (name, file, code, place) in faults(&wide, 2, 16) {
        let small = if code == 2 { 2 } else { 3 };
        list.readings(&format!("{name}-variables"), &file, (code, &place), (small, &[]));
    }
}

/// A file with each fault, and what the bench's reader refuses it by. The last clause is {28, 30}, the first is as long
/// as one between; `clause` and `variable` are the numbers of the last ones.
fn faults(rule: &RuleDraft, clause: usize, variable: usize) -> Vec<(&'static str, Vec<u8>, u32, Vec<u64>)> {
    let words = rule.words();
    let trailer = words.len() - 4;
    let changed = |at: usize, word: u32| to_bytes(&with(&words, at, word));
    let last_clause = |literals: &[u32]| {
        let mut rule = rule.clone();
        rule.clauses[clause] = literals.to_vec();
        rule.bytes()
    };
    let weights = |variables: std::ops::RangeInclusive<usize>, pair: [u32; 2]| {
        let mut rule = rule.clone();
        rule.prefix[variables].fill(pair);
        rule.bytes()
    };
    // The first clause in the place of the last of its length.
    let copy = rule.clauses.iter().rposition(|list| list.len() == rule.clauses[0].len()).unwrap();
    let mut copied = rule.clone();
    copied.clauses[copy] = rule.clauses[0].clone();
    let (start, literals) = (words[trailer + 2], 2 * variable as u32 + 2);
    let (in_clause, in_prefix) = (vec![clause as u64], vec![variable as u64]);
    vec![
        ("count", changed(trailer + 3, words[trailer + 3] - 1), 2, vec![]),
        ("n-33", changed(trailer + 1, 33), 3, vec![]),
        ("m-1025", changed(trailer, 1_025), 3, vec![]),
        ("start", changed(trailer + 2, start - 1), 4, vec![]),
        ("reaches-past", changed(start as usize - 3, 3), 5, in_clause.clone()),
        ("m-less", changed(trailer, clause as u32), 5, in_clause.clone()),
        ("literal", last_clause(&[28, literals]), 6, in_clause.clone()),
        ("variable-twice", last_clause(&[28, 29]), 7, in_clause.clone()),
        ("unordered", last_clause(&[30, 28]), 23, in_clause),
        ("copy", copied.bytes(), 26, vec![copy as u64]),
        ("weights", weights(variable..=variable, [1, 65_536]), 8, in_prefix),
        ("whole", weights(0..=variable, [65_535, 65_535]), 9, vec![]),
    ]
}

/// The files above that only the bench's reader has read: those within the small limits, and those that 1 or 2 refuses.
fn files_above(list: &mut List) {
    for case in list.0.clone() {
        let within = match to_words(&case.rule)[..] {
            [.., n, _, _] => n <= 16 || matches!(case.expected.code, 1 | 2),
            _ => true,
        };
        let alone = case.operation == Operation::Read && !case.name.starts_with("small-");
        if alone && within && case.rule.len() <= 4_096 {
            let name = format!("{}-small", case.name);
            list.add(name, &case.rule, Operation::ReadSmall, case.expected.code, &case.expected.numbers);
        }
    }
}
