//! The proved repair against the peer, on stored rule files, sound ones and damaged ones. What it writes is read,
//! repaired again and solved. The program `ssat_repair` is run too.

#![cfg(not(feature = "no-ffi"))]

#[allow(dead_code)]
mod common;

use common::{program, random, rounds, Pair, FIGURE, READ, REPAIR};
use peer::answer::repair;
use peer::ffi::{direct, Library, Place, LONGEST};
use peer::generate::{self, RuleDraft};
use peer::near::repairs::Told;
use peer::repair::REFUSALS;
use peer::{to_bytes, to_words};
use std::io::{ErrorKind, Write};
use std::process::{Command, Stdio};

/// The refusals that name a clause or a variable.
const NAMING: [u32; 3] = [5, 6, 8];

/// The most bytes of a rule file, and what the program lends.
const LONGEST_RULE: usize = 65_536;

/// Random files, with buffers about each border: enough of them are answered by each number, and tell document 02's
/// repair from what is nearly it.
#[test]
fn stored_files() {
    let (mut random, mut pair) = (random(501), Pair::new());
    let mut told = Told::default();
    for round in 0..rounds(30_000) {
        let rule = generate::stored_file(&mut random);
        let capacities = generate::buffer_lengths(&mut random, &rule);
        pair.repair(&mut random, &rule, &capacities);
        if round % 3 == 0 && rule.len() < 2_000 {
            told.take(&rule, &capacities);
        }
    }
    pair.report("stored_files");
    pair.reached(REPAIR, [0], 30_000);
    pair.reached(REPAIR, REFUSALS, 1_000);
    pair.named_later(REPAIR, NAMING, 1_000);
    pair.reached(READ, [0], 10_000);
    pair.reached(FIGURE, [0], 10_000);
    pair.repairs.reached(50);
    told.reached(20);
}

/// Files made from those that their repair must give.
#[test]
fn known_files() {
    let (mut random, mut pair) = (random(502), Pair::new());
    for _ in 0..rounds(10_000) {
        let draft = generate::stored_rule(&mut random);
        let rule = draft.stored.bytes();
        let answer = pair.repair(&mut random, &rule, &[]);
        assert_eq!((&answer.written, &answer.numbers[1..]), (&draft.repaired.bytes(), &draft.counts[..]), "{draft:?}");
    }
    pair.report("known_files");
    pair.reached(REPAIR, [0], 20_000);
}

/// Files of up to 1,024 clauses and 65,536 bytes, and longer ones.
#[test]
fn long_files() {
    let (mut random, mut pair) = (random(503), Pair::new());
    for _ in 0..rounds(60) {
        let rule = generate::long_rule(&mut random);
        let draft = generate::spoil(&mut random, rule);
        let rule = draft.stored.bytes();
        let answer = pair.repair(&mut random, &rule, &[0, rule.len() - 1, LONGEST]);
        assert_eq!((&answer.written, &answer.numbers[1..]), (&draft.repaired.bytes(), &draft.counts[..]));
        for _ in 0..10 {
            let mut rule = rule.clone();
            generate::damage_rule(&mut random, &mut rule);
            pair.repair(&mut random, &rule, &[rule.len().saturating_sub(1)]);
        }
    }

    // The longest file, all clauses but the first changed alike.
    let longest = generate::longest_rule([1, 2]);
    let changed = |change: fn(&mut Vec<u32>)| {
        let mut rule = longest.clone();
        rule.clauses[1..].iter_mut().for_each(change);
        rule.bytes()
    };
    let falling = changed(|clause| clause.reverse());
    let falling_with_repeats = |clause: &mut Vec<u32>| {
        clause.reverse();
        clause[1] = clause[0];
    };
    for (rule, counts) in [
        (longest.bytes(), [0, 0, 0]),
        (falling.clone(), [0, 0, 1_023]),
        (changed(|clause| clause[1] = clause[0]), [0, 1_023, 0]),
        (changed(falling_with_repeats), [0, 1_023, 1_023]),
        (changed(|clause| clause[1] = 1), [1_023, 0, 0]),
        // All that are as long as each other are alike.
        (changed(|clause| clause.iter_mut().for_each(|literal| *literal &= !1)), [1_021, 0, 0]),
    ] {
        assert_eq!(rule.len(), 65_536);
        let answer = pair.repair(&mut random, &rule, &[0, 65_532, 65_535, 65_536, 65_537, LONGEST]);
        assert_eq!(answer.numbers[1..], counts);
    }
    for extra in 1..=8 {
        let rule = [&falling[..], &vec![0; extra]].concat();
        pair.repair(&mut random, &rule, &[65_536, LONGEST]);
    }
    pair.report("long_files");
    pair.reached(REPAIR, [0], 200);
    pair.reached(REPAIR, [1, 2, 3, 4, 5, 6, 8, 25], 5);
    pair.named_later(REPAIR, NAMING, 5);
}

/// Files to be repaired: one of all kinds of clauses, and random ones.
fn some_files(test: u64, count: usize) -> Vec<Vec<u32>> {
    let mut random = random(test);
    let clauses: [&[u32]; 6] = [&[4, 0, 4], &[2, 3], &[2, 2], &[], &[0, 4, 0], &[5, 1]];
    let mut files = vec![RuleDraft::new(&clauses, &[[4, 1], [0, 0], [3, 7]]).words()];
    for _ in 0..rounds(count) {
        let rule = generate::rule(&mut random, 4, 4);
        files.push(generate::spoil(&mut random, rule).stored.words());
    }
    files
}

/// Every word of some files changed to each of many words.
#[test]
fn changed_words() {
    let (mut random, mut pair) = (random(504), Pair::new());
    let mut others: Vec<u32> = (0..=20).collect();
    others.extend([32, 33, 1_024, 1_025, 65_535, 65_536, 1 << 31, (1 << 31) + 3, u32::MAX - 5, u32::MAX]);
    for words in some_files(505, 30) {
        for at in 0..words.len() {
            for &other in &others {
                let mut words = words.clone();
                words[at] = other;
                let rule = to_bytes(&words);
                pair.repair(&mut random, &rule, &[rule.len() - 1]);
            }
        }
    }
    pair.report("changed_words");
    pair.reached(REPAIR, [0, 2, 3, 4, 5, 6, 8, 25], 500);
    pair.named_later(REPAIR, NAMING, 500);
}

/// Files cut at every byte; and at every word, with the last word set right again.
#[test]
fn cut_files() {
    let (mut random, mut pair) = (random(506), Pair::new());
    for words in some_files(507, 30) {
        let bytes = to_bytes(&words);
        for len in 0..=bytes.len() {
            for part in [&bytes[..len], &bytes[bytes.len() - len..]] {
                pair.repair(&mut random, part, &[0]);
            }
        }
        for len in 1..words.len() {
            for part in [&words[..len], &words[words.len() - len..]] {
                let mut part = part.to_vec();
                part[len - 1] = len as u32;
                pair.repair(&mut random, &to_bytes(&part), &[0]);
            }
        }
    }
    pair.report("cut_files");
    pair.reached(REPAIR, [0, 1, 2, 3, 4, 5, 25], 10);
}

/// The same on pages that may only be read: a write would end the process.
#[test]
fn read_only_pages() {
    let mut random = random(508);
    let mut library = Library::new();
    for _ in 0..rounds(1_000) {
        let rule = generate::stored_file(&mut random);
        library.lend_rule(&rule, Place::AtEnd);
        library.read_only(true);
        for capacity in [0, rule.len(), rule.len() + 1] {
            library.repair(capacity, Place::AtEnd);
        }
        library.read_only(false);
    }
}

/// The longest file in a thread with a stack of 1 MiB, all of it guarded.
#[test]
fn small_stack() {
    let mut rule = generate::longest_rule([1, 2]);
    rule.clauses.iter_mut().for_each(|clause| clause.reverse());
    let rule = rule.bytes();
    let mut buffer = vec![0; 65_536];
    let mut answer = (0, [0; 4]);
    let used = peer::guard::on_stack(1 << 20, &mut || answer = direct::repair(&rule, &mut buffer));
    println!("small_stack: {used} bytes of stack used");
    assert_eq!(answer, (0, [65_536, 0, 0, 1_023]));
    assert_eq!(to_words(&buffer), generate::longest_rule([1, 2]).words());
}

/// The program `ssat_repair`: the repaired file goes to standard output and the counts to standard error, or nothing and
/// the refusal's line.
#[test]
fn programs() {
    let (mut random, program) = (random(508), program("ssat_repair"));
    let mut codes = [0; 2];
    let mut compare = |rule: &[u8]| {
        let mut command = Command::new(&program);
        let mut child = command.stdin(Stdio::piped()).stdout(Stdio::piped()).stderr(Stdio::piped()).spawn().unwrap();
        match child.stdin.take().unwrap().write_all(rule) {
            // It need not read all of a file that is too long.
            Err(error) if error.kind() == ErrorKind::BrokenPipe && rule.len() > LONGEST_RULE => {}
            done => done.unwrap(),
        }
        let output = child.wait_with_output().unwrap();
        let answer = repair(rule, LONGEST_RULE);
        let notice: String = match answer.code {
            0 => ["bytes", "clauses", "literals", "reordered"]
                .iter()
                .zip(&answer.numbers)
                .map(|(word, number)| format!("{word} {number}\n"))
                .collect(),
            code => {
                let place: String = answer.numbers.iter().map(|place| format!(" {place}")).collect();
                format!("refused {code}{place}\n")
            }
        };
        let same = output.status.success() && output.stdout == answer.written && output.stderr == notice.as_bytes();
        assert!(same, "program {output:?}, peer {answer:?}\nrule {:?}", to_words(rule));
        codes[usize::from(answer.code != 0)] += 1;
    };
    for _ in 0..rounds(600) {
        compare(&generate::stored_file(&mut random));
    }
    let longest = generate::longest_rule([1, 2]).bytes();
    for extra in [0, 1, 4, 100_000] {
        compare(&[&longest[..], &vec![0; extra]].concat());
    }
    println!("programs: {codes:?}");
    assert!(codes.iter().all(|count| *count >= 100), "{codes:?}");
}
