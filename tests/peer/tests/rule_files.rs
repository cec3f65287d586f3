//! The proved solver against the peer on rule files: both readers, figure, verdict, tally, cut, marks and point, the
//! writer and the repair.

#![cfg(not(feature = "no-ffi"))]

#[allow(dead_code)]
mod common;

use common::{
    random, rounds, Pair, CHECK, CUT, DERIVE, FIGURE, NAMING, PLAIN_CUT, PLAIN_FIGURE, PLAIN_VERDICT, POINT, READ,
    READ_SMALL, REPAIR, VERDICT,
};
use peer::answer::Solver;
use peer::ffi::{direct, Place};
use peer::generate::{self, RuleDraft, Wholes};
use peer::near::{searches, Told};
use peer::repair;
use peer::rules;
use peer::writer::{DerivationDraft, LineDraft};
use peer::{to_bytes, to_words};

#[test]
fn valid_files() {
    let (mut random, mut pair) = (random(101), Pair::new());
    for round in 0..rounds(40_000) {
        let most = if round % 8 == 0 { 12 } else { 7 };
        let draft = generate::small_rule(&mut random, most);
        pair.rule(&mut random, &draft.bytes());
    }
    pair.report("valid_files");
    for (figure, verdict, cut) in [(FIGURE, VERDICT, CUT), (PLAIN_FIGURE, PLAIN_VERDICT, PLAIN_CUT)] {
        pair.reached(figure, [0], 35_000);
        pair.reached(verdict, [0, 10, 11], 1_000);
        pair.reached(cut, [0, 12], 10_000);
    }
    pair.reached(POINT, [0, 12], 10_000);
    pair.reached(POINT, [27], 1_000);
    pair.reached(DERIVE, [0, 22], 70_000);
    pair.reached(CHECK, [0], 35_000);
    pair.reached(REPAIR, [0, 25], 35_000);
    assert!(pair.verdicts.iter().all(|count| *count > 1_000), "within, above, below: {:?}", pair.verdicts);
    pair.clashed([3_000, 5_000, 2_000], 300);
    pair.tallied.reached(1_000);
}

/// Files in which clauses clash or nearly do: enough of them tell document 02's clash from what is nearly one, and the
/// search from what is nearly it.
#[test]
fn clashing_files() {
    let (mut random, mut pair) = (random(111), Pair::new());
    let (mut told, mut searches) = (Told::default(), searches::Told::default());
    for _ in 0..rounds(10_000) {
        let bytes = generate::small_clashing_rule(&mut random, 6).bytes();
        if pair.rule(&mut random, &bytes) {
            let rules = rules::read(&bytes).unwrap();
            told.take(&rules);
            searches.take(&rules);
        }
    }
    pair.report("clashing_files");
    told.reached(500);
    searches.reached(60);
    pair.clashed([2_000, 2_000, 1_000], 100);
}

#[test]
fn long_files() {
    let (mut random, mut pair) = (random(102), Pair::new());
    for _ in 0..rounds(120) {
        let draft = generate::long_rule(&mut random);
        let mut bytes = draft.bytes();
        pair.rule(&mut random, &bytes);
        for _ in 0..20 {
            let good = bytes.clone();
            generate::damage_rule(&mut random, &mut bytes);
            pair.read(&mut random, &bytes);
            bytes = good;
        }
    }
    // Around the longest file that is accepted: 65,536 bytes.
    let words = generate::longest_rule([1, 2]).words();
    assert_eq!(words.len(), 16_384);
    pair.rule(&mut random, &to_bytes(&words));
    for extra in 1..=4_096 {
        let mut bytes = to_bytes(&words);
        bytes.resize(65_536 + extra, 0);
        pair.read(&mut random, &bytes);
    }
    pair.report("long_files");
    pair.reached(READ, [0, 1, 2, 3, 4, 5, 6, 7, 23, 26, 8], 1);
    pair.named_later(READ, NAMING, 1);
    pair.reached(FIGURE, [0], 60);
    pair.reached(DERIVE, [0, 22], 60);
    pair.clashed([40, 50, 0], 0);
}

/// Files of 10 to 32 variables whose tree is small enough to walk.
#[test]
fn wide_files() {
    let (mut random, mut pair) = (random(109), Pair::new());
    for round in 0..rounds(600) {
        let n = random.within(10, 32);
        let m = random.within(n, 8 * n);
        let make = if round % 3 == 0 { generate::clashing_rule } else { generate::rule };
        let draft = make(&mut random, n, m);
        pair.rule(&mut random, &draft.bytes());
    }
    pair.report("wide_files");
    pair.reached(FIGURE, [0], 200);
    pair.reached(DERIVE, [0, 22], 300);
    pair.clashed([30, 300, 5], 0);
}

/// Files on which a good search is needed, small enough for the plain forms, with all their cuts.
#[test]
fn hard_files() {
    let (mut random, mut pair) = (random(112), Pair::new());
    for (count, least, most) in [(1_000, 10, 13), (300, 14, 16), (80, 17, 20)] {
        for _ in 0..rounds(count) {
            let family = generate::family(&mut random, least, most);
            let bytes = generate::hard_rule(&mut random, family).bytes();
            let rules = rules::read(&bytes);
            let mut solvers = vec![Solver::by_search(&rules)];
            if most <= 16 {
                solvers.push(Solver::new(&rules));
            }
            pair.solve(&mut random, &bytes, rules.as_ref().unwrap(), &solvers);
        }
    }
    pair.report("hard_files");
    pair.reached(FIGURE, [0], 1_380);
    assert!(pair.verdicts.iter().all(|count| *count > 1_000), "within, above, below: {:?}", pair.verdicts);
}

/// Files whose whole is 2^53, one of those next to it, or one about it: enough of their cuts are plotted and refused,
/// and tell document 02's marks and points from what is nearly them.
#[test]
fn plotted_files() {
    let (mut random, mut pair) = (random(114), Pair::new());
    let wholes = Wholes::about_2_53();
    for _ in 0..rounds(6_000) {
        let bytes = wholes.rule(&mut random).bytes();
        pair.rule(&mut random, &bytes);
    }
    pair.report("plotted_files");
    pair.reached(CUT, [0, 12], 10_000);
    pair.reached(POINT, [0, 12, 27], 10_000);
    pair.points.reached(200);
}

#[test]
fn damaged_files() {
    let (mut random, mut pair) = (random(103), Pair::new());
    for _ in 0..rounds(50_000) {
        let mut bytes = generate::small_rule(&mut random, 7).bytes();
        for _ in 0..random.within(1, 3) {
            generate::damage_rule(&mut random, &mut bytes);
        }
        pair.rule(&mut random, &bytes);
    }
    pair.report("damaged_files");
    for operation in [READ, READ_SMALL, FIGURE, VERDICT, CUT, POINT, DERIVE] {
        pair.reached(operation, [0, 1, 2, 3, 4, 5, 6, 7, 23, 26, 8], 50);
        pair.named_later(operation, [23], 50);
    }
    pair.reached(REPAIR, [0, 1, 2, 3, 4, 5, 6, 8, 25], 50);
}

/// Files with one fault or several, each of the reader's refusals reached by each operation.
#[test]
fn faulty_files() {
    let (mut random, mut pair) = (random(104), Pair::new());
    for _ in 0..rounds(50_000) {
        let mut faults = rules::REFUSALS.to_vec();
        random.shuffle(&mut faults);
        faults.truncate(random.pick(&[1, 1, 1, 2, 3]));
        let bytes = generate::faulty_rule(&mut random, &faults);
        pair.rule(&mut random, &bytes);
    }
    pair.report("faulty_files");
    for operation in [READ, READ_SMALL, FIGURE, VERDICT, CUT, POINT, DERIVE] {
        pair.reached(operation, [0], 300);
        pair.reached(operation, rules::REFUSALS, 300);
        pair.named_later(operation, NAMING, 300);
    }
    pair.reached(REPAIR, repair::REFUSALS, 300);
    pair.named_later(REPAIR, [5, 6, 8], 300);
}

/// Accepted files with clauses put out of order: 23 names the first of them, wherever it stands.
#[test]
fn unordered_files() {
    let (mut random, mut pair) = (random(110), Pair::new());
    let (mut last, mut far, mut made) = (0, 0, 0);
    while made < rounds(10_000) {
        let mut draft =
            if random.once_in(50) { generate::long_rule(&mut random) } else { generate::small_rule(&mut random, 7) };
        let Some(first) = generate::unorder(&mut random, draft.clauses.iter_mut()) else {
            continue;
        };
        made += 1;
        let bytes = draft.bytes();
        assert_eq!(rules::read(&bytes).err(), Some((23, Some(first))), "{draft:?}");
        pair.rule(&mut random, &bytes);
        last += u64::from(first > 0 && first + 1 == draft.clauses.len());
        far += u64::from(first > 255);
    }
    pair.report("unordered_files");
    println!("  the last of several clauses: {last}, a clause after 255: {far}");
    for operation in [READ, FIGURE, VERDICT, CUT, POINT, DERIVE] {
        pair.reached(operation, [23], 10_000);
        pair.named_later(operation, [23], 3_000);
    }
    pair.reached(READ_SMALL, [23], 9_000);
    pair.named_later(READ_SMALL, [23], 3_000);
    pair.reached(REPAIR, [0, 25], 10_000);
    assert!(last >= 1_000 && far >= 50, "the last of several clauses {last}, a clause after 255 {far} times");
}

/// Accepted files with copies put into them: 26 names the first, wherever it stands and wherever what it equals does.
#[test]
fn copied_files() {
    let (mut random, mut pair) = (random(113), Pair::new());
    // Copies at the end, after clause 255, of the clause before and of clause 0.
    let (mut places, mut made) = ([0; 4], 0);
    while made < rounds(10_000) {
        let mut draft =
            if random.once_in(50) { generate::long_rule(&mut random) } else { generate::small_rule(&mut random, 7) };
        let Some(first) = generate::copy_clauses(&mut random, &mut draft.clauses) else {
            continue;
        };
        let bytes = draft.bytes();
        if bytes.len() > 65_536 {
            continue;
        }
        made += 1;
        assert_eq!(rules::read(&bytes).err(), Some((26, Some(first))), "{draft:?}");
        pair.rule(&mut random, &bytes);
        let RuleDraft { clauses, .. } = draft;
        let is = |at: usize| clauses[at] == clauses[first];
        let kinds = [first + 1 == clauses.len() && first > 1, first > 255, is(first - 1), is(0) && first > 1];
        places.iter_mut().zip(kinds).for_each(|(count, is)| *count += u64::from(is));
    }
    pair.report("copied_files");
    println!("  copies at the end, after 255, of the clause before, of clause 0: {places:?}");
    for operation in [READ, FIGURE, VERDICT, CUT, POINT, DERIVE] {
        pair.reached(operation, [26], 10_000);
    }
    pair.reached(READ_SMALL, [26], 9_000);
    pair.reached(REPAIR, [0, 25], 10_000);
    assert!(places.iter().all(|count| *count >= 50), "{places:?}");
}

#[test]
fn noise() {
    let (mut random, mut pair) = (random(105), Pair::new());
    for _ in 0..rounds(50_000) {
        let bytes = generate::noise(&mut random);
        pair.rule(&mut random, &bytes);
    }
    pair.report("noise");
    pair.reached(READ, [0, 1, 3, 4, 5, 7, 8], 10);
    pair.reached(READ, [23], 1);
}

/// Files cut at every byte; and at every word, with the last word set right again.
#[test]
fn cut_files() {
    let (mut random, mut pair) = (random(106), Pair::new());
    let mut files = vec![generate::sample().0.bytes()];
    for _ in 0..rounds(60) {
        files.push(generate::small_rule(&mut random, 8).bytes());
    }
    for bytes in &files {
        for len in 0..=bytes.len() {
            pair.rule(&mut random, &bytes[..len]);
            pair.rule(&mut random, &bytes[bytes.len() - len..]);
        }
        let words = to_words(bytes);
        for len in 1..words.len() {
            for part in [&words[..len], &words[words.len() - len..]] {
                let mut part = part.to_vec();
                part[len - 1] = len as u32;
                pair.rule(&mut random, &to_bytes(&part));
            }
        }
    }
    // A long file, at every byte of its first 6,000.
    let bytes = generate::long_rule(&mut random).bytes();
    for len in 0..=bytes.len().min(6_000) {
        pair.read(&mut random, &bytes[..len]);
    }
    pair.report("cut_files");
    pair.reached(READ, [0, 1, 2, 3, 4, 5], 10);
}

/// Every word of document 01's file, and of others, changed to each of many words.
#[test]
fn changed_words() {
    let (mut random, mut pair) = (random(107), Pair::new());
    let mut files = vec![generate::sample().0.words()];
    for _ in 0..rounds(20) {
        files.push(generate::rule(&mut random, 3, 4).words());
    }
    let mut others: Vec<u32> = (0..=20).collect();
    others.extend([32, 33, 1_024, 1_025, 65_535, 65_536, 1 << 31, (1 << 31) + 3, u32::MAX - 5, u32::MAX]);
    for words in &files {
        for at in 0..words.len() {
            for &other in &others {
                let mut words = words.clone();
                words[at] = other;
                pair.rule(&mut random, &to_bytes(&words));
            }
        }
    }
    pair.report("changed_words");
    pair.reached(READ, [0, 2, 3, 4, 5, 6, 7, 23, 26, 8], 10);
}

/// The same on pages that may only be read: a write would end the process.
#[test]
fn read_only_pages() {
    let mut random = random(108);
    let mut library = peer::ffi::Library::new();
    library.lend_derivation(&generate::sample().1.bytes(), Place::AtEnd);
    for round in 0..rounds(500) {
        let mut bytes = generate::small_rule(&mut random, 6).bytes();
        if round % 2 == 1 {
            generate::damage_rule(&mut random, &mut bytes);
        }
        library.lend_rule(&bytes, Place::AtEnd);
        library.read_only(true);
        library.read();
        library.read_small();
        library.figure();
        library.verdict(0, 1);
        library.tally(0, 1, [0; 5], Place::AtEnd);
        library.cut(2);
        library.point(2, Place::AtEnd);
        library.plain_figure();
        library.plain_verdict(0, 1);
        library.plain_cut(2);
        library.check();
        library.derive(200, Place::AtEnd);
        library.repair(200, Place::AtEnd);
        library.read_only(false);
    }
}

/// The deepest trees and the longest files in a thread with a stack of 1 MiB, all of it guarded.
#[test]
fn small_stack() {
    // Thirty-two variables, each decided by its own clause: the tree is as deep as it can be.
    let clauses: Vec<Vec<u32>> = (0..32).rev().map(|v| vec![2 * v]).collect();
    let deep = RuleDraft { clauses, prefix: vec![[1, 2]; 32] }.bytes();
    let rule = RuleDraft::new(&[], &[[0, 0]; 13]).bytes();
    let line = LineDraft { literals: (0..12).map(|v| 2 * v).collect(), value: 1, resolved: None };
    let mut draft = DerivationDraft { lines: vec![line; 1_023], closing: 2_047 };
    draft.lines.push(LineDraft { literals: Vec::new(), value: 1, resolved: None });
    let steps = draft.bytes();
    // The writer comes to the deepest node of each, and passes its limits in the second.
    let last = RuleDraft { clauses: vec![vec![62]], prefix: vec![[0, 0]; 32] }.bytes();
    let mut buffer = [0; 4_096];
    let mut answers = Vec::new();
    let used = peer::guard::on_stack(1 << 20, &mut || {
        answers.push(direct::figure(&deep));
        answers.push(direct::cut(&deep, 32));
        answers.push(direct::point(&deep, 32).0);
        answers.push(direct::check(&rule, &steps));
        answers.push(direct::derive(&deep, &mut buffer));
        answers.push(direct::derive(&last, &mut buffer));
    });
    println!("small_stack: {used} bytes of stack used");
    let whole = 3u64.pow(32);
    let expected = [
        (0, [1, whole, 0, 0]),
        (0, [1, 1, 0, 0]),
        (0, [1, 0, 0, 0]),
        (0, [1, 1, 0, 0]),
        (0, [3_036, 0, 0, 0]),
        (22, [0; 4]),
    ];
    assert_eq!(answers, expected);
}
