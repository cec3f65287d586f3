//! The proved solver against the peer on derivations, those to be checked and those that it writes.

#![cfg(not(feature = "no-ffi"))]

#[allow(dead_code)]
mod common;

use common::{random, rounds, Pair, CHECK, DERIVE, NAMING};
use peer::answer::{Answer, Solver};
use peer::generate::{self, RuleDraft};
use peer::random::Random;
use peer::rules::{self, Fault, Rules};
use peer::writer::{self, DerivationDraft, Limits, LineDraft};
use peer::{to_bytes, to_words};

/// A rule file of at most `most` variables, with its reading.
fn file(random: &mut Random, most: usize) -> (Vec<u8>, Result<Rules, Fault>) {
    let bytes = generate::small_rule(random, most).bytes();
    let rules = rules::read(&bytes);
    (bytes, rules)
}

/// Valid derivations, each also with one word changed, with each fault put into it, and with lines put out of order.
#[test]
fn accepted_and_near() {
    let (mut random, mut pair) = (random(201), Pair::new());
    // Derivations refused for the order of a line alone: of line 0, and of a later one.
    let mut unordered = [0; 2];
    for _ in 0..rounds(20_000) {
        let (rule, rules) = file(&mut random, 6);
        let solver = Solver::new(&rules);
        let rules = rules.as_ref().unwrap();
        pair.lend_rule(&mut random, &rule);
        let limits = Limits::for_buffer(65_536);
        let plain = writer::derivation(rules, limits).unwrap();
        let free = generate::free_derivation(&mut random, rules, limits).unwrap();
        let drafts = if random.once_in(4) { vec![plain, free] } else { vec![free] };
        for mut draft in drafts {
            let bytes = draft.bytes();
            let got = pair.check(&mut random, &rule, &solver, &bytes);
            assert_eq!(got, solver.figure(), "an accepted derivation closes with the value");
            for _ in 0..6 {
                let mut bytes = bytes.clone();
                generate::damage_derivation(&mut random, &mut bytes);
                pair.check(&mut random, &rule, &solver, &bytes);
            }
            for fault in 15..=21 {
                let mut draft = draft.clone();
                let mut words = generate::faulty_derivation(&mut random, rules, &mut draft, fault);
                if random.once_in(6) {
                    let second = 15 + random.below(7) as u32;
                    words = generate::faulty_derivation(&mut random, rules, &mut draft, second);
                }
                pair.check(&mut random, &rule, &solver, &to_bytes(&words));
            }
            let literals = draft.lines.iter_mut().map(|line| &mut line.literals);
            if let Some(line) = generate::unorder(&mut random, literals) {
                let got = pair.check(&mut random, &rule, &solver, &draft.bytes());
                assert_eq!(got, Answer::refused((16, Some(line))), "{draft:?}");
                unordered[line.min(1)] += 1;
            }
        }
    }
    pair.report("accepted_and_near");
    println!("  line 0 out of order, a later one: {unordered:?}");
    pair.reached(CHECK, [0], 30_000);
    pair.reached(CHECK, 13..=21, 500);
    pair.named_later(CHECK, 15..=20, 300);
    assert!(unordered.iter().all(|count| *count >= 1_000), "line 0 out of order, a later one: {unordered:?}");
}

/// Every word of document 01's derivation, and of others, changed to each of many words.
#[test]
fn changed_words() {
    let (mut random, mut pair) = (random(202), Pair::new());
    let (rule, derivation) = generate::sample();
    let mut files = vec![(rule.bytes(), derivation.words())];
    while files.len() < rounds(80) {
        let (rule, rules) = file(&mut random, 4);
        let limits = Limits { bytes: 65_536, lines: 16 };
        let draft = generate::free_derivation(&mut random, &rules.unwrap(), limits);
        files.extend(draft.map(|draft| (rule, draft.words())));
    }
    let mut others: Vec<u32> = (0..=20).collect();
    others.extend([32, 33, 1_024, 1_025, 65_536, 1 << 31, (1 << 31) + 1, u32::MAX - 1, u32::MAX]);
    for (rule, words) in &files {
        let rules = rules::read(rule);
        let solver = Solver::new(&rules);
        pair.lend_rule(&mut random, rule);
        for at in 0..words.len() {
            for &other in &others {
                let mut words = words.clone();
                words[at] = other;
                pair.check(&mut random, rule, &solver, &to_bytes(&words));
            }
        }
    }
    pair.report("changed_words");
    pair.reached(CHECK, [0, 14, 15, 16, 17, 18, 19, 20, 21], 100);
}

/// Derivations cut at every byte; and at every word, with the last word set right again.
#[test]
fn cut_files() {
    let (mut random, mut pair) = (random(203), Pair::new());
    let (rule, derivation) = generate::sample();
    let mut files = vec![(rule.bytes(), derivation.bytes())];
    while files.len() < rounds(60) {
        let (rule, rules) = file(&mut random, 5);
        let limits = Limits { bytes: 65_536, lines: 40 };
        let draft = generate::free_derivation(&mut random, &rules.unwrap(), limits);
        files.extend(draft.map(|draft| (rule, draft.bytes())));
    }
    for (rule, bytes) in &files {
        let rules = rules::read(rule);
        let solver = Solver::new(&rules);
        pair.lend_rule(&mut random, rule);
        for len in 0..=bytes.len() {
            pair.check(&mut random, rule, &solver, &bytes[..len]);
            pair.check(&mut random, rule, &solver, &bytes[bytes.len() - len..]);
        }
        let words = to_words(bytes);
        for len in 3..words.len() {
            // The trailer after fewer words, and the first words with their last set right.
            let mut kept = words[..len - 3].to_vec();
            kept.extend([words[words.len() - 3], words[words.len() - 2], len as u32]);
            pair.check(&mut random, rule, &solver, &to_bytes(&kept));
            let mut kept = words[..len].to_vec();
            kept[len - 1] = len as u32;
            pair.check(&mut random, rule, &solver, &to_bytes(&kept));
        }
    }
    pair.report("cut_files");
    pair.reached(CHECK, [0, 13, 14, 15], 50);
}

/// A refused rule file is told before anything of the derivation.
#[test]
fn refused_rule_files() {
    let (mut random, mut pair) = (random(204), Pair::new());
    let derivation = generate::sample().1.bytes();
    for _ in 0..rounds(20_000) {
        let fault = random.pick(&rules::REFUSALS);
        let rule = generate::faulty_rule(&mut random, &[fault]);
        let rules = rules::read(&rule);
        let solver = Solver::new(&rules);
        pair.lend_rule(&mut random, &rule);
        let mut derivation = derivation.clone();
        if random.once_in(2) {
            generate::damage_derivation(&mut random, &mut derivation);
        }
        pair.check(&mut random, &rule, &solver, &derivation);
    }
    pair.report("refused_rule_files");
    pair.reached(CHECK, rules::REFUSALS, 100);
    pair.named_later(CHECK, NAMING, 100);
}

/// Derivations of up to 1,024 lines and 65,536 bytes, and some beyond.
#[test]
fn long_derivations() {
    let (mut random, mut pair) = (random(205), Pair::new());
    let mut made = 0;
    while made < rounds(30) {
        let n = random.within(9, 12);
        let m = random.within(n, 2 * n);
        let rule = generate::rule(&mut random, n, m).bytes();
        let rules = rules::read(&rule);
        let solver = Solver::new(&rules);
        let draft = writer::derivation(rules.as_ref().unwrap(), Limits::for_buffer(65_536));
        let Some(draft) = draft.filter(|draft| draft.lines.len() >= 150) else {
            continue;
        };
        made += 1;
        pair.lend_rule(&mut random, &rule);
        let bytes = draft.bytes();
        pair.check(&mut random, &rule, &solver, &bytes);
        for _ in 0..8 {
            let mut bytes = bytes.clone();
            generate::damage_derivation(&mut random, &mut bytes);
            pair.check(&mut random, &rule, &solver, &bytes);
        }
        for fault in 15..=21 {
            let words = generate::faulty_derivation(&mut random, rules.as_ref().unwrap(), &mut draft.clone(), fault);
            pair.check(&mut random, &rule, &solver, &to_bytes(&words));
        }
    }

    // 1,024 lines in exactly 65,536 bytes, and one line or one word more.
    let rule = RuleDraft::new(&[], &[[0, 0]; 13]).bytes();
    let rules = rules::read(&rule);
    let solver = Solver::new(&rules);
    pair.lend_rule(&mut random, &rule);
    let line = |k: u32| LineDraft { literals: (0..k).map(|v| 2 * v).collect(), value: 1, resolved: None };
    let mut lines = vec![line(0)];
    lines.extend((0..1_023).map(|at| line(if at < 9 { 13 } else { 12 })));
    let mut draft = DerivationDraft { lines, closing: 1 };
    assert_eq!(draft.bytes().len(), 65_536);
    let got = pair.check(&mut random, &rule, &solver, &draft.bytes());
    assert_eq!(got, Answer::numbers(&[1, 1]));
    let mut words = draft.words();
    words.insert(16_381, 0);
    *words.last_mut().unwrap() += 1;
    pair.check(&mut random, &rule, &solver, &to_bytes(&words));
    for line in &mut draft.lines[1..] {
        line.literals.clear();
    }
    let got = pair.check(&mut random, &rule, &solver, &draft.bytes());
    assert_eq!(got, Answer::numbers(&[1, 1]));
    draft.lines.push(draft.lines[0].clone());
    let got = pair.check(&mut random, &rule, &solver, &draft.bytes());
    assert_eq!(got, Answer::refused((14, None)));

    pair.report("long_derivations");
    pair.reached(CHECK, [0, 13, 14, 15, 16, 17, 18, 19, 20, 21], 1);
}

/// Derivations about as long as the writer's limits: within both, over 65,536 bytes, over 1,024 lines, over both.
#[test]
fn written_derivations() {
    let (mut random, mut pair) = (random(206), Pair::new());
    let (mut over, mut made) = ([[0; 2]; 2], 0);
    while made < rounds(300) {
        let n = random.within(9, 24);
        let m = random.within(1, 4 * n);
        let rule = generate::rule(&mut random, n, m).bytes();
        let rules = rules::read(&rule);
        let draft = writer::derivation(rules.as_ref().unwrap(), Limits { bytes: 90_000, lines: 1_500 });
        let Some(draft) = draft.filter(|draft| draft.lines.len() >= 500) else {
            continue;
        };
        made += 1;
        let (lines, bytes) = (draft.lines.len() > 1_024, draft.bytes().len() > 65_536);
        over[usize::from(lines)][usize::from(bytes)] += 1;
        pair.lend_rule(&mut random, &rule);
        let answer = pair.derive(&mut random, &rule, &Solver::new(&rules));
        assert_eq!(answer.code, if lines || bytes { 22 } else { 0 });
    }
    pair.report("written_derivations");
    println!("  over no limit, bytes, lines, both: {:?}", over.as_flattened());
    pair.reached(DERIVE, [0, 22], 100);
    assert!(over.as_flattened().iter().all(|count| *count >= 3), "over bytes, over lines: {over:?}");
}
