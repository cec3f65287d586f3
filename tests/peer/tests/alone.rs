//! The peer by itself: document 01's samples, its methods against each other, and document 02's order inside a clause,
//! copies, small reader, job lists, tallies, repair, marks and points.

use peer::answer::{answer, read_small, repair, Answer, Solver};
use peer::cases::Operation;
use peer::generate::{self, Folder, RuleDraft, Seen, Wholes};
use peer::list::{self, Job, Kind, Tally};
use peer::near::{self, Told};
use peer::points::{excess, quotient};
use peer::random::Random;
use peer::repair::{self, Mended};
use peer::rules::{self, Fault, Rules, REPAIR};
use peer::samples;
use peer::search::{self, Verdict};
use peer::tables::Tables;
use peer::writer::{self, DerivationDraft, Limits, LineDraft};
use peer::{derivation, enumerate, to_bytes, to_words, walk};
use std::collections::BTreeMap;

fn rules_of(draft: &RuleDraft) -> Rules {
    rules::read(&draft.bytes()).expect("a valid rule file")
}

fn numbers(list: &[u64]) -> Answer {
    Answer { numbers: list.to_vec(), ..Answer::default() }
}

#[test]
fn sample_words() {
    let (rule, derivation) = generate::sample();
    assert_eq!(rule.words(), [2, 0, 2, 1, 3, 2, 2, 4, 4, 1, 0, 0, 3, 7, 3, 3, 8, 18]);
    let lines = [
        &[1, 3, 1, 2, 5, 1, 0][..],
        &[2, 2, 1, 2, 3, 0, 2, 1, 4],
        &[2, 1, 1, 3, 0, 1, 2, 3],
        &[2, 1, 0, 0, 0, 1, 2, 0],
        &[2, 0, 12, 0, 0, 5, 7],
        &[5, 9, 42],
    ];
    assert_eq!(derivation.words(), lines.concat());
}

/// What the program prints for document 01's file.
#[test]
fn sample_answers() {
    let (rule, draft) = generate::sample();
    let file = rule.bytes();
    assert_eq!(answer(&file, |solver| solver.read()), numbers(&[3, 3, 8, 50]));
    assert_eq!(answer(&file, |solver| solver.figure()), numbers(&[12, 50]));
    let lines = [[0, 50, 50], [0, 40, 40], [0, 40, 40], [12, 12, 0]];
    let rules = rules_of(&rule);
    let tables = Tables::new(&rules);
    for (level, line) in lines.iter().enumerate() {
        assert_eq!(answer(&file, |solver| solver.cut(level as u64)), numbers(line));
        assert_eq!(tables.cut(level), line.map(u128::from));
        assert_eq!(walk::cut(&rules, level).0, *line);
    }
    assert_eq!(answer(&file, |solver| solver.cut(4)), Answer::refused((12, None)));
    assert_eq!(answer(&file, |solver| solver.check(&draft.bytes())), numbers(&[12, 50]));
    assert_eq!(answer(&file, |solver| solver.verdict(12, 12)), numbers(&[0, 12]));
    assert_eq!(answer(&file, |solver| solver.verdict(13, 50)), numbers(&[2, 0]));
    assert_eq!(answer(&file, |solver| solver.verdict(0, 11)), numbers(&[1, 0]));
}

/// P1 to P6.
#[test]
fn proved_samples() {
    let both: &[&[u32]] = &[&[0, 2], &[1, 3]];
    let list = [
        (RuleDraft::new(&[], &[]), [1, 1]),
        (RuleDraft::new(&[&[]], &[]), [0, 1]),
        (RuleDraft::new(&[&[0]], &[[3, 1]]), [3, 4]),
        (RuleDraft::new(&[&[0]], &[[0, 0]]), [1, 1]),
        (RuleDraft::new(both, &[[1, 1], [0, 0]]), [2, 2]),
        (RuleDraft::new(both, &[[0, 0], [1, 1]]), [1, 2]),
    ];
    for (draft, [value, whole]) in list {
        let rules = rules_of(&draft);
        assert_eq!(rules.whole(), whole);
        assert_eq!(enumerate::value(&rules), value);
        assert_eq!(Tables::new(&rules).value(), value);
        assert_eq!(u128::from(walk::value(&rules).0), value);
    }
}

/// Cuts on both sides of document 02's clash, at all levels, and the nodes that are left for the value. Of the two
/// draws the first is true with weight 1 and false with 2, the second with 3 and 4.
#[test]
fn clashes() {
    let check = |clauses: &[&[u32]], prefix: &[[u32; 2]], nodes: u64, cuts: &[[u64; 3]]| {
        let rules = rules_of(&RuleDraft::new(clauses, prefix));
        let tables = Tables::new(&rules);
        assert_eq!(cuts.len(), rules.n() + 1);
        for (d, cut) in cuts.iter().enumerate() {
            assert_eq!(enumerate::cut(&rules, d), cut.map(u128::from), "level {d} of {clauses:?}");
            assert_eq!(tables.cut(d), cut.map(u128::from), "level {d} of {clauses:?}");
            assert_eq!(walk::cut(&rules, d).0, *cut, "level {d} of {clauses:?}");
        }
        let value = cuts[rules.n()][0];
        assert_eq!(enumerate::value(&rules), value.into(), "{clauses:?}");
        assert_eq!(tables.value(), value.into(), "{clauses:?}");
        assert_eq!(tables.nodes(rules.n()), nodes.into(), "{clauses:?}");
        assert_eq!(walk::value(&rules), (value, nodes), "{clauses:?}");
    };
    let one = |clauses: &[&[u32]], nodes, cuts: &_| check(clauses, &[[3, 1]], nodes, cuts);
    let two = |clauses: &[&[u32]], nodes, cuts: &_| check(clauses, &[[1, 2], [3, 4]], nodes, cuts);
    let lost = [0; 3];

    // Opposite signs, the same sign where variable 0 is false, and both.
    one(&[&[0], &[1]], 1, &[lost, lost]);
    one(&[&[1], &[0]], 1, &[lost, lost]);
    two(&[&[0, 2], &[2]], 7, &[[0, 21, 21], [0, 21, 21], [9, 9, 0]]);
    two(&[&[0, 3], &[3]], 7, &[[0, 21, 21], [0, 21, 21], [12, 12, 0]]);
    two(&[&[0, 2], &[2], &[3]], 1, &[lost, lost, lost]);
    // Two variables, with the same sign and with opposite ones; literals 1 and 2 stand side by side.
    two(&[&[0], &[2]], 5, &[[0, 21, 21], [0, 7, 7], [3, 3, 0]]);
    two(&[&[0], &[3]], 5, &[[0, 21, 21], [0, 7, 7], [4, 4, 0]]);
    two(&[&[1], &[2]], 5, &[[0, 21, 21], [0, 14, 14], [6, 6, 0]]);
    // A variable that is not the next one.
    two(&[&[2], &[3]], 1, &[lost, lost, lost]);
    two(&[&[0], &[2], &[3]], 1, &[lost, lost, lost]);
    // Exactly one unset literal, in one clause of the two or in none.
    two(&[&[0, 2], &[1]], 5, &[[0, 21, 21], [0, 14, 14], [6, 6, 0]]);
    two(&[&[0], &[1, 2]], 5, &[[0, 21, 21], [0, 7, 7], [3, 3, 0]]);
    two(&[&[0], &[1, 2], &[3]], 3, &[[0, 21, 21], lost, lost]);
    two(&[&[0, 2], &[1, 3]], 7, &[[0, 21, 21], [0, 21, 21], [10, 10, 0]]);
    // Below level 0: where variable 0 is true one clause is satisfied, or both are; where it is false they clash.
    two(&[&[0, 2], &[3]], 5, &[[0, 21, 21], [0, 7, 7], [4, 4, 0]]);
    two(&[&[2], &[0, 3]], 5, &[[0, 21, 21], [0, 7, 7], [3, 3, 0]]);
    two(&[&[0, 2], &[0, 3]], 3, &[[0, 21, 21], [7, 7, 0], [7, 7, 0]]);
    // No clauses, and an empty clause.
    two(&[], 1, &[[21, 21, 0], [21, 21, 0], [21, 21, 0]]);
    two(&[&[2], &[], &[3]], 1, &[lost, lost, lost]);
    // Under an existential variable: both nodes of level 1 are lost, or one is satisfied.
    check(&[&[0], &[1, 2], &[3]], &[[0, 0], [1, 1]], 3, &[[0, 2, 2], lost, lost]);
    check(&[&[0, 2], &[0, 3]], &[[0, 0], [1, 1]], 3, &[[0, 2, 2], [2, 2, 0], [2, 2, 0]]);
    check(
        &[&[0, 2], &[3], &[2, 4]],
        &[[4, 1], [0, 0], [3, 7]],
        7,
        &[[0, 50, 50], [0, 40, 40], [0, 40, 40], [12, 12, 0]],
    );
}

/// The writer goes on at a clash, which names no clause: at level 0, on the next variable and on a later one, and at
/// level 1.
#[test]
fn writer_goes_on_at_a_clash() {
    let written = |clauses: &[&[u32]], prefix: &[[u32; 2]]| {
        let rules = rules_of(&RuleDraft::new(clauses, prefix));
        to_words(&writer::derive(&rules, 65_536).unwrap())
    };
    assert_eq!(written(&[&[0], &[1]], &[[3, 1]]), [2, 0, 0, 0, 0, 2, 0, 1, 1, 10]);
    assert_eq!(written(&[&[2], &[3]], &[[1, 2], [3, 4]]), [2, 0, 0, 0, 1, 2, 0, 1, 1, 10]);
    let lines = [&[1, 2, 1, 2, 1, 0][..], &[2, 1, 1, 4, 0, 1, 2, 1], &[2, 1, 0, 0, 0, 1, 2, 0]];
    let closing = [&[2, 0, 4, 0, 0, 3, 5][..], &[4, 7, 32]];
    assert_eq!(written(&[&[0, 2], &[3]], &[[1, 2], [3, 4]]), [lines.concat(), closing.concat()].concat());
}

/// Enumeration, tables and walk agree, and the cut's numbers are as they must be. A clash takes from the upper number
/// and the open weight alone.
#[test]
fn methods_agree() {
    let mut random = Random::new(1);
    for round in 0..30_000 {
        let draft = match round % 20 {
            0 => generate::small_rule(&mut random, 12),
            1..6 => generate::small_clashing_rule(&mut random, 8),
            _ => generate::small_rule(&mut random, 8),
        };
        let rules = rules_of(&draft);
        let n = rules.n();
        let tables = Tables::new(&rules);
        let value = enumerate::value(&rules);
        let (walked, nodes) = walk::value(&rules);
        assert_eq!(tables.value(), value, "{draft:?}");
        assert_eq!(u128::from(walked), value, "{draft:?}");
        assert_eq!(tables.nodes(n), u128::from(nodes), "{draft:?}");
        let plain_tables = Tables::without_clashes(&rules);
        assert_eq!(plain_tables.value(), value, "{draft:?}");
        let mut before = [0, rules.whole()];
        for d in 0..=n {
            let [lower, upper, open] = enumerate::cut(&rules, d);
            let plain = enumerate::cut_with(&rules, d, |_, _, _| false);
            assert_eq!(plain_tables.cut(d), plain, "level {d} of {draft:?}");
            assert!(lower == plain[0] && upper <= plain[1] && open <= plain[2], "level {d} of {draft:?}");
            let (walked, nodes) = walk::cut(&rules, d);
            assert_eq!(tables.cut(d), [lower, upper, open], "level {d} of {draft:?}");
            assert_eq!(Tables::down_to(&rules, d).cut(d), [lower, upper, open], "level {d} of {draft:?}");
            assert_eq!(walked.map(u128::from), [lower, upper, open], "level {d} of {draft:?}");
            assert_eq!(tables.nodes(d), u128::from(nodes), "level {d} of {draft:?}");
            assert!(lower <= value && value <= upper && upper - lower <= open);
            assert!(before[0] <= lower && upper <= before[1]);
            before = [lower, upper];
        }
        assert_eq!(before, [value, value]);
    }
}

/// Fails unless the search gives this value, the verdicts with limits around it, and these cuts.
fn search_gives(rules: &Rules, value: u128, cut: impl Fn(usize) -> [u128; 3]) {
    let (value, whole) = (value as u64, rules.whole() as u64);
    assert_eq!(search::value(rules), value, "{rules:?}");
    for (lo, hi) in generate::limits_around(value, whole) {
        let wanted = match value {
            _ if value > hi => Verdict::Above,
            _ if value < lo => Verdict::Below,
            _ => Verdict::Within(value),
        };
        assert_eq!(search::verdict(rules, lo, hi), wanted, "limits {lo} {hi} of {rules:?}");
    }
    let cuts = search::cuts(rules);
    assert_eq!(cuts.len(), rules.n() + 1);
    for (d, numbers) in cuts.into_iter().enumerate() {
        assert_eq!(numbers.map(u128::from), cut(d), "level {d} of {rules:?}");
        assert_eq!(search::cut(rules, d), numbers, "level {d} of {rules:?}");
    }
}

/// The search agrees with enumeration and tables.
#[test]
fn search_agrees() {
    let mut random = Random::new(13);
    for round in 0..40_000 {
        let draft = match round % 20 {
            0 => generate::small_rule(&mut random, 14),
            1..6 => generate::small_clashing_rule(&mut random, 7),
            6..8 => generate::small_clashing_rule(&mut random, 10),
            _ => generate::small_rule(&mut random, 8),
        };
        let rules = rules_of(&draft);
        if rules.n() <= 7 {
            search_gives(&rules, enumerate::value(&rules), |d| enumerate::cut(&rules, d));
        } else {
            let tables = Tables::new(&rules);
            search_gives(&rules, tables.value(), |d| tables.cut(d));
        }
    }
}

/// The search agrees with the tables on files that have many clauses or need a good search.
#[test]
fn search_agrees_on_hard_files() {
    let mut random = Random::new(14);
    for round in 0..400 {
        let draft = match round % 4 {
            0 => generate::long_rule(&mut random),
            _ => {
                let family = generate::family(&mut random, 10, 15);
                generate::hard_rule(&mut random, family)
            }
        };
        let rules = rules_of(&draft);
        let tables = Tables::new(&rules);
        search_gives(&rules, tables.value(), |d| tables.cut(d));
    }
}

/// Random files tell the search from what is nearly it.
#[test]
fn near_searches_are_told() {
    let mut random = Random::new(15);
    let mut told = near::searches::Told::default();
    for round in 0..10_000 {
        let draft = match round % 2 {
            0 => generate::small_rule(&mut random, 6),
            _ => generate::small_clashing_rule(&mut random, 6),
        };
        told.take(&rules_of(&draft));
    }
    told.reached(100);
}

/// Random files tell document 02's clash from what is nearly one.
#[test]
fn near_clashes_are_told() {
    let mut random = Random::new(7);
    let mut told = Told::default();
    for _ in 0..5_000 {
        told.take(&rules_of(&generate::small_clashing_rule(&mut random, 6)));
    }
    told.reached(250);
}

/// Tables and walk agree where enumeration would take too long.
#[test]
fn methods_agree_on_long_files() {
    let mut random = Random::new(2);
    let mut compared = 0;
    for _ in 0..300 {
        let draft = generate::long_rule(&mut random);
        let rules = rules_of(&draft);
        let tables = Tables::new(&rules);
        assert_eq!(enumerate::cut(&rules, 6), tables.cut(6));
        if tables.nodes(rules.n()) * rules.clauses.len() as u128 > 20_000_000 {
            continue;
        }
        compared += 1;
        let (walked, nodes) = walk::value(&rules);
        assert_eq!(u128::from(walked), tables.value());
        assert_eq!(u128::from(nodes), tables.nodes(rules.n()));
        let d = random.below(rules.n());
        assert_eq!(walk::cut(&rules, d).0.map(u128::from), tables.cut(d));
    }
    assert!(compared > 150, "{compared} files compared");
}

/// The writer gives document 01's derivation.
#[test]
fn writer_gives_the_sample() {
    let (rule, expected) = generate::sample();
    assert_eq!(writer::derive(&rules_of(&rule), 168), Some(expected.bytes()));
    assert_eq!(writer::derive(&rules_of(&rule), 167), None);
}

/// The writer fills a buffer of the derivation's length, and refuses one that is a byte shorter.
#[test]
fn writer_needs_the_length() {
    let mut random = Random::new(4);
    for _ in 0..3_000 {
        let rules = rules_of(&generate::small_rule(&mut random, 7));
        let written = writer::derive(&rules, 65_536).unwrap();
        assert_eq!(writer::derive(&rules, written.len() - 1), None);
        assert_eq!(writer::derive(&rules, written.len()).unwrap(), written);
    }
}

/// What the writers write is accepted, and any accepted derivation closes with the value.
#[test]
fn derivations_give_the_value() {
    let mut random = Random::new(3);
    let (mut accepted, mut damaged) = (0, 0);
    let limits = Limits::for_buffer(65_536);
    for _ in 0..6_000 {
        let rules = rules_of(&generate::small_rule(&mut random, 8));
        let value = enumerate::value(&rules);
        let drafts = [
            writer::derivation(&rules, limits).unwrap(),
            generate::free_derivation(&mut random, &rules, limits).unwrap(),
        ];
        for draft in drafts {
            let mut bytes = draft.bytes();
            assert_eq!(derivation::check(&rules, &bytes), Ok(value));
            accepted += 1;
            for _ in 0..4 {
                let good = bytes.clone();
                generate::damage_derivation(&mut random, &mut bytes);
                if let Ok(closing) = derivation::check(&rules, &bytes) {
                    assert_eq!(closing, value, "{:?}", to_words(&bytes));
                    damaged += 1;
                }
                bytes = good;
            }
        }
    }
    assert!(accepted > 10_000 && damaged > 100, "{accepted} {damaged}");
}

/// Clauses out of order are refused by 23, with the first of them; 7 stands before it, in any clause, 8 and 9 after it.
#[test]
fn unordered_clauses() {
    let mut random = Random::new(5);
    let fault = |draft: &RuleDraft| rules::read(&draft.bytes()).err();
    let mut refused = 0;
    for _ in 0..6_000 {
        let mut draft = generate::small_rule(&mut random, 7);
        let Some(first) = generate::unorder(&mut random, draft.clauses.iter_mut()) else {
            continue;
        };
        refused += 1;
        assert_eq!(fault(&draft), Some((23, Some(first))), "{draft:?}");
        let n = draft.prefix.len();
        let mut weights = draft.clone();
        weights.prefix[random.below(n)] = [0, 1];
        assert_eq!(fault(&weights), Some((23, Some(first))), "{weights:?}");
        weights.prefix.fill([65_535, 65_535]);
        assert_eq!(fault(&weights), Some((23, Some(first))), "{weights:?}");

        let mut twice = draft.clone();
        let at = random.below(twice.clauses.len());
        let clause = &mut twice.clauses[at];
        let twin = random.below(2) as u32;
        match clause[..] {
            [] => clause.extend([0, twin]),
            [.., last] if clause.len() < n => clause.push(last ^ twin),
            _ => clause[0] = clause[1] ^ twin,
        }
        assert_eq!(fault(&twice), Some((7, Some(at))), "{twice:?}");

        draft.clauses.iter_mut().for_each(|clause| clause.sort_unstable());
        assert_eq!(fault(&draft), None, "{draft:?}");
    }
    assert!(refused > 2_000, "{refused} files refused");
}

/// Copies of clauses are refused by 26, with the first of them; 7 and 23 stand before it, in any clause, 8 and 9 after
/// it. Without the copies the file is accepted, and it is what the repair makes of it.
#[test]
fn copied_clauses() {
    let mut random = Random::new(16);
    let fault = |draft: &RuleDraft| rules::read(&draft.bytes()).err();
    // Files refused, those that have empty clauses twice, and those with a clause of two literals to put out of order.
    let (mut refused, mut empty, mut unordered) = (0, 0, 0);
    for _ in 0..6_000 {
        let draft = generate::small_rule(&mut random, 7);
        assert_eq!(fault(&draft), None, "{draft:?}");
        let mut copied = draft.clone();
        let Some(first) = generate::copy_clauses(&mut random, &mut copied.clauses) else {
            assert!(draft.clauses.is_empty(), "{draft:?}");
            continue;
        };
        refused += 1;
        empty += u64::from(copied.clauses[first].is_empty());
        assert_eq!(fault(&copied), Some((26, Some(first))), "{copied:?}");
        let n = copied.prefix.len();
        let mut weights = copied.clone();
        if n > 0 {
            weights.prefix[random.below(n)] = [0, 1];
            assert_eq!(fault(&weights), Some((26, Some(first))), "{weights:?}");
            weights.prefix.fill([65_535, 65_535]);
            assert_eq!(fault(&weights), Some((26, Some(first))), "{weights:?}");
        }
        let mut turned = copied.clone();
        if let Some(clause) = generate::unorder(&mut random, turned.clauses.iter_mut()) {
            unordered += 1;
            assert_eq!(fault(&turned), Some((23, Some(clause))), "{turned:?}");
        }
        if n > 1 {
            let at = random.below(turned.clauses.len());
            turned.clauses[at] = vec![2, 2 + random.below(2) as u32];
            assert_eq!(fault(&turned), Some((7, Some(at))), "{turned:?}");
        }

        let all = copied.bytes();
        let repaired = repair::repair(&all, all.len()).expect("a stored rule file");
        let mut kept = copied.clone();
        for at in (0..copied.clauses.len()).rev() {
            if copied.clauses[..at].contains(&copied.clauses[at]) {
                kept.clauses.remove(at);
            }
        }
        let gone = copied.clauses.len() - kept.clauses.len();
        assert_eq!(fault(&kept), None, "{kept:?}");
        assert_eq!((repaired.written, repaired.counts), (kept.bytes(), [gone as u64, 0, 0]), "{copied:?}");
    }
    assert!(refused > 4_000 && empty > 100 && unordered > 2_000, "{refused} {empty} {unordered}");
}

/// Clauses on both sides of 26's border.
#[test]
fn equal_clauses() {
    let check = |clauses: &[&[u32]], copy: Option<usize>| {
        let draft = RuleDraft::new(clauses, &[[0, 0]; 3]);
        let fault = copy.map(|copy| (26, Some(copy)));
        assert_eq!(rules::read(&draft.bytes()).err(), fault, "{clauses:?}");
        assert_eq!(rules::read_small(&draft.bytes()).err(), fault, "{clauses:?}");
        assert!(rules::read_by(REPAIR, &draft.bytes()).is_ok(), "{clauses:?}");
    };
    let [a, b, c]: [&[u32]; 3] = [&[0, 2], &[3], &[2, 4]];
    check(&[a, b, c], None);
    check(&[a, a], Some(1));
    check(&[a, b, a], Some(2));
    check(&[a, b, b, a], Some(2));
    check(&[a, b, c, a], Some(3));
    check(&[a, a, a], Some(1));
    // Empty clauses are equal.
    check(&[&[]], None);
    check(&[&[], &[]], Some(1));
    check(&[&[], a, &[]], Some(2));
    // Other signs, other lengths.
    check(&[a, &[0, 3], &[1, 2], &[1, 3]], None);
    check(&[&[0], a, &[0, 2, 4], &[0, 4]], None);
    check(&[&[0, 2, 4], a, &[0]], None);
    // 1,024 clauses: the last equals the first.
    let mut longest = generate::longest_rule([0, 0]);
    assert!(rules::read(&longest.bytes()).is_ok());
    longest.clauses[1_023] = longest.clauses[0].clone();
    assert_eq!(rules::read(&longest.bytes()).err(), Some((26, Some(1_023))));
}

/// Lines out of order are refused by 16, with the first of them; a resolvent that has a literal less, one more or one
/// turned to its opposite, by 19.
#[test]
fn literals_of_lines() {
    let mut random = Random::new(6);
    let (mut unordered, mut less, mut more) = (0, 0, 0);
    for _ in 0..6_000 {
        let rules = rules_of(&generate::small_rule(&mut random, 6));
        let draft = generate::free_derivation(&mut random, &rules, Limits::for_buffer(65_536)).unwrap();
        let fault = |draft: &DerivationDraft| derivation::check(&rules, &draft.bytes()).err();
        let mut turned = draft.clone();
        if let Some(line) = generate::unorder(&mut random, turned.lines.iter_mut().map(|line| &mut line.literals)) {
            assert_eq!(fault(&turned), Some((16, Some(line))), "{turned:?}");
            unordered += 1;
        }
        let resolvents: Vec<usize> = (0..draft.lines.len()).filter(|&at| draft.lines[at].resolved.is_some()).collect();
        if resolvents.is_empty() {
            continue;
        }
        let line = random.pick(&resolvents);
        let literals = &draft.lines[line].literals;
        let with = |literals: Vec<u32>| {
            let mut draft = draft.clone();
            draft.lines[line].literals = literals;
            draft
        };
        if !literals.is_empty() {
            let at = random.below(literals.len());
            let mut changed = literals.clone();
            changed[at] ^= 1;
            assert_eq!(fault(&with(changed.clone())), Some((19, Some(line))), "{draft:?}");
            changed.remove(at);
            assert_eq!(fault(&with(changed)), Some((19, Some(line))), "{draft:?}");
            less += 1;
        }
        let literal = random.below(2 * rules.n()) as u32;
        if literals.iter().all(|other| other / 2 != literal / 2) {
            let mut changed = literals.clone();
            changed.push(literal);
            changed.sort_unstable();
            assert_eq!(fault(&with(changed)), Some((19, Some(line))), "{draft:?}");
            more += 1;
        }
    }
    assert!(unordered > 2_000 && less > 2_000 && more > 1_000, "{unordered} {less} {more}");
}

/// The wrong programs of document 01 that have a derivation are told apart.
#[test]
fn skipped_totals_count() {
    // Clause {0} over three randomized variables; the line {1} of value R(1) jumps over none,
    // the resolvent over variable 2 jumps over variable 1.
    let rule = RuleDraft::new(&[&[0]], &[[3, 1], [2, 5], [1, 1]]);
    let line = |literals: &[u32], value, resolved| LineDraft { literals: literals.to_vec(), value, resolved };
    let lines = vec![
        line(&[1, 5], 1, None),
        line(&[1, 4], 1, None),
        line(&[1], 14, Some([2, 1, 3])),
        line(&[], 42, Some([0, 5, 0])),
    ];
    let rules = rules_of(&rule);
    let mut draft = DerivationDraft { lines, closing: 7 };
    assert_eq!(derivation::check(&rules, &draft.bytes()), Ok(42));
    draft.lines[2].value = 2;
    assert_eq!(derivation::check(&rules, &draft.bytes()), Err((20, Some(2))));
}

/// Sums and products that would pass modulo 2^32 or 2^64 are refused.
#[test]
fn no_wrapping() {
    let fault = |words: &[u32]| rules::read(&to_bytes(words)).err();
    // Prefix start 2^32 - 2 with n = 1.
    assert_eq!(fault(&[0, 1, u32::MAX - 1, 4]), Some((4, None)));
    // A clause length that wraps to the prefix start: 1 + 1 + k.
    assert_eq!(fault(&[u32::MAX, 1, 0, 1, 5]), Some((5, Some(0))));
    // Four totals of 2^16: whole 2^64.
    let rule = RuleDraft::new(&[], &[[32_768, 32_768]; 4]);
    assert_eq!(fault(&rule.words()), Some((9, None)));
    // 2n modulo 2^32.
    assert_eq!(fault(&[0, 1 << 31, 0, 4]), Some((3, None)));
}

/// The two readers on both sides of each border of the small one.
#[test]
fn small_reader() {
    let check = |file: &[u8], bench: Result<[u64; 4], Fault>, small: Result<[u64; 4], Fault>| {
        let of = |reading: Result<[u64; 4], Fault>| reading.map_or_else(Answer::refused, |list| numbers(&list));
        assert_eq!(answer(file, |solver| solver.read()), of(bench), "bench: {} bytes", file.len());
        assert_eq!(read_small(file), of(small), "small: {} bytes", file.len());
    };
    let alike = |file: &[u8], reading| check(file, reading, reading);
    let refused = |code| Err((code, None));
    // Different clauses of three literals over existential variables, the last perhaps shorter; the prefix begins at
    // this word.
    let words = |n: u32, start: usize| {
        let triples = (0..n).flat_map(|a| (0..a).flat_map(move |b| (0..b).map(move |c| vec![2 * c, 2 * b, 2 * a])));
        let mut clauses: Vec<Vec<u32>> = triples.take(start.div_ceil(4)).collect();
        if let Some(last) = clauses.last_mut().filter(|_| !start.is_multiple_of(4)) {
            last.truncate(start % 4 - 1);
        }
        RuleDraft { clauses, prefix: vec![[0, 0]; n as usize] }.words()
    };
    let file = |n, start| to_bytes(&words(n, start));
    let changed = |mut words: Vec<u32>, from_end: usize, word| {
        let at = words.len() - from_end;
        words[at] = word;
        to_bytes(&words)
    };
    let with = |n, start, from_end, word| changed(words(n, start), from_end, word);

    // Bytes: 4,092, 4,096 and 4,100.
    alike(&file(16, 987), Ok([16, 247, 987, 1]));
    alike(&file(16, 988), Ok([16, 247, 988, 1]));
    check(&file(16, 989), Ok([16, 248, 989, 1]), refused(1));
    for len in [0, 12, 4_093, 4_095, 4_097, 4_099, 4_101] {
        alike(&file(16, 990)[..len], refused(1));
    }
    alike(&file(0, 0), Ok([0, 0, 0, 1]));
    // Variables.
    alike(&file(15, 0), Ok([15, 0, 0, 1]));
    alike(&file(16, 0), Ok([16, 0, 0, 1]));
    check(&file(17, 0), Ok([17, 0, 0, 1]), refused(3));
    check(&file(32, 0), Ok([32, 0, 0, 1]), refused(3));
    alike(&file(33, 0), refused(3));
    // Both: 4,096 and 4,100 bytes.
    check(&file(17, 986), Ok([17, 247, 986, 1]), refused(3));
    check(&file(17, 987), Ok([17, 247, 987, 1]), refused(1));
    // Empty clauses over no variables: one at most is accepted.
    let empty = |m| RuleDraft { clauses: vec![Vec::new(); m], prefix: Vec::new() }.words();
    alike(&to_bytes(&empty(1)), Ok([0, 1, 1, 1]));
    alike(&to_bytes(&empty(2)), Err((26, Some(1))));
    alike(&to_bytes(&empty(1_020)), Err((26, Some(1))));
    check(&to_bytes(&empty(1_021)), Err((26, Some(1))), refused(1));
    // Clauses that are claimed.
    alike(&changed(empty(1_020), 4, 1_024), Err((5, Some(1_020))));
    alike(&changed(empty(1_020), 4, 1_025), refused(3));
    check(&generate::longest_rule([0, 0]).bytes(), Ok([32, 1_024, 16_316, 1]), refused(1));
    check(&to_bytes(&empty(1_025)), refused(3), refused(1));

    // A wrong last word: within the limits, with more variables and with more bytes, of which there are 5,000.
    alike(&with(16, 988, 1, 1_025), refused(2));
    alike(&with(17, 986, 1, 1_025), refused(2));
    check(&with(16, 989, 1, 1_024), refused(2), refused(1));
    check(&file(16, 1_214), Ok([16, 304, 1_214, 1]), refused(1));
    check(&with(16, 1_214, 1, 1_251), refused(2), refused(1));
    // A wrong prefix start, a clause and a variable at fault, and a whole over 2^60, with 16 variables and with 17.
    for (n, small) in [(16, None), (17, Some(refused(3)))] {
        let either = |file: &[u8], bench| check(file, bench, small.unwrap_or(bench));
        let rule =
            |clauses: &[&[u32]], pair| RuleDraft { prefix: vec![pair; n], ..RuleDraft::new(clauses, &[]) }.bytes();
        either(&with(n as u32, 500, 2, 499), refused(4));
        either(&with(n as u32, 500, 4, 124), Err((5, Some(124))));
        either(&rule(&[&[0], &[2 * n as u32]], [0, 0]), Err((6, Some(1))));
        either(&rule(&[&[0], &[2, 3]], [0, 0]), Err((7, Some(1))));
        either(&rule(&[&[0], &[2, 0]], [0, 0]), Err((23, Some(1))));
        either(&rule(&[&[0], &[2], &[0]], [0, 1]), Err((26, Some(2))));
        either(&rule(&[&[0]], [0, 1]), Err((8, Some(0))));
        either(&rule(&[&[0]], [32_768, 32_768]), refused(9));
    }
}

/// Files of so many words have as many, and are accepted, however few variables there are.
#[test]
fn files_of_words() {
    let mut random = Random::new(17);
    for n in 0..=32 {
        for count in (1_018..=1_030).chain([4, 100, 16_384]) {
            let words = generate::rule_of_words(&mut random, n, count).words();
            let fault = rules::read(&to_bytes(&words)).err();
            assert_eq!(fault, None, "{n} variables, {count} words");
            let filled = n >= 6 && count < 16_384 || n >= 15;
            assert!(words.len() == count.max(4 + 2 * n) || !filled, "{n} variables, {count} words: {}", words.len());
        }
    }
}

/// Random files tell document 02's small reader from what is nearly it.
#[test]
fn near_readers_are_told() {
    let mut random = Random::new(9);
    let mut told = near::readers::Told::default();
    for _ in 0..12_000 {
        told.take(&generate::border_file(&mut random));
    }
    told.reached(20);
}

/// What is a line, and where: closed by a line feed or by the end, unless it is empty there.
#[test]
fn lines_of_lists() {
    let check = |list: &[u8], lines: &[&[u8]]| assert_eq!(list::lines(list), lines, "{}", list.escape_ascii());
    check(b"", &[]);
    check(b"\n", &[b""]);
    check(b"\n\n", &[b"", b""]);
    check(b"x", &[b"x"]);
    check(b"x\n", &[b"x"]);
    check(b"x\n\n", &[b"x", b""]);
    check(b"\nx", &[b"", b"x"]);
    check(b"x\ny", &[b"x", b"y"]);
    check(b"x\n\ny\n", &[b"x", b"", b"y"]);
    check(b"x\r\n\0", &[b"x\r", b"\0"]);
}

/// Lines on both sides of each border of their form.
#[test]
fn jobs_of_lines() {
    let read = |line: &[u8], name: &[u8], lo, hi| {
        assert_eq!(list::job(line), Some(Job { name, lo, hi }), "{}", line.escape_ascii());
    };
    let other = |line: &[u8]| assert_eq!(list::job(line), None, "{}", line.escape_ascii());

    read(b"a 0 1", b"a", 0, 1);
    read(b"a 1 0", b"a", 1, 0);
    read(b"12 34 56", b"12", 34, 56);
    // Blanks: two, and none more.
    for line in ["", " ", "  ", "a", "a ", "a 0", "a 0 ", "a  1", " 0 1", " a 0 1", "a 0 1 ", "a  0 1", "a 0  1"] {
        other(line.as_bytes());
    }
    other(b"a 0 1 2");
    // A tab or byte 13 is a part of the name, and spoils a limit.
    read(b"\ta 0 1", b"\ta", 0, 1);
    read(b"a\t 0 1", b"a\t", 0, 1);
    read(b"\r 0 1", b"\r", 0, 1);
    for line in ["a\t0 1", "a 0\t1", "a\t0\t1", "a \t0 1", "a 0 1\t", "a 0 1\r", "a 0\r 1", "\r"] {
        other(line.as_bytes());
    }
    // Names.
    read(b"../x/\xff\x80 0 1", b"../x/\xff\x80", 0, 1);
    read(b"\x01\x7f 0 1", b"\x01\x7f", 0, 1);
    for line in ["\0 0 1", "\0a 0 1", "a\0 0 1", "a\0b 0 1", "a 0\0 1", "a 0 1\0"] {
        other(line.as_bytes());
    }

    // Limits, as the lower and as the upper one.
    let both = |text: &str, limit: Option<u64>| {
        let lines = [format!("a {text} 7"), format!("a 7 {text}")];
        let limits = lines.each_ref().map(|line| list::job(line.as_bytes()).map(|job| [job.lo, job.hi]));
        assert_eq!(limits, [limit.map(|limit| [limit, 7]), limit.map(|limit| [7, limit])], "{text}");
    };
    both("9", Some(9));
    both("10", Some(10));
    both("18446744073709551614", Some(u64::MAX - 1));
    both("18446744073709551615", Some(u64::MAX));
    both("9999999999999999999", Some(9_999_999_999_999_999_999));
    both("10000000000000000000", Some(10_000_000_000_000_000_000));
    both("18446744073709551609", Some(u64::MAX - 6));
    for text in ["18446744073709551616", "18446744073709551620", "18446744073709552000", "20000000000000000000"] {
        both(text, None);
    }
    for text in ["99999999999999999999", "100000000000000000000", "184467440737095516160", "36893488147419103232"] {
        both(text, None);
    }
    // 2^128 and 7 more: modulo 2^64 it is 0 and 7.
    both("340282366920938463463374607431768211456", None);
    both("340282366920938463463374607431768211463", None);
    both("0", Some(0));
    both("00", Some(0));
    both(&"0".repeat(40), Some(0));
    both("000000000000000000000000000012", Some(12));
    both(&format!("{}18446744073709551615", "0".repeat(300)), Some(u64::MAX));
    both(&format!("{}18446744073709551616", "0".repeat(300)), None);
    for text in ["+1", "-1", "-0", "1.", "1,0", "1_0", "0x1", "1e1", "a", "/", ":", "1/", "1:", "\u{661}"] {
        both(text, None);
    }
}

/// 24 on both sides of its borders, each alone.
#[test]
fn lengths_of_lists() {
    let lines = |list: &[u8]| list::read(list).map(|jobs| jobs.len());
    let refused = Err((24, None));
    assert_eq!(lines(&[b'\n'; 4_096]), Ok(4_096));
    assert_eq!(lines(&[b'\n'; 4_097]), refused);
    assert_eq!(lines(&[&[b'\n'; 4_095][..], b"x"].concat()), Ok(4_096));
    assert_eq!(lines(&[&[b'\n'; 4_096][..], b"x"].concat()), refused);
    assert_eq!(lines(&b"a 0 00000000001\n".repeat(4_096)), Ok(4_096));
    assert_eq!(lines(&[b'x'; 65_536]), Ok(1));
    assert_eq!(lines(&[b'x'; 65_537]), refused);
    assert_eq!(lines(&[&[b'x'; 65_535][..], b"\n"].concat()), Ok(1));
    assert_eq!(lines(&[&[b'x'; 65_536][..], b"\n"].concat()), refused);
}

/// A tally takes in a result unless one of its counts is 4,096 or more.
#[test]
fn tallies() {
    let after = |counts: [u64; 5], kind| {
        let mut tally = Tally(counts);
        tally.take(kind);
        tally.0
    };
    let kinds = [Kind::Refused, Kind::Above, Kind::Below, Kind::Within];
    for (at, kind) in kinds.into_iter().enumerate() {
        let mut one = [1, 0, 0, 0, 0];
        one[at + 1] = 1;
        assert_eq!(after([0; 5], kind), one);
        assert_eq!(after([4_095; 5], kind), one.map(|count| 4_095 + count));
        for place in 0..5 {
            for (count, taken) in [(4_095, 1), (4_096, 0), (4_097, 0), (1 << 32, 0), (u64::MAX, 0)] {
                let mut before = [0, 1, 2, 3, 4];
                before[place] = count;
                let mut wanted = before;
                wanted[0] += taken;
                wanted[at + 1] += taken;
                assert_eq!(after(before, kind), wanted);
            }
        }
    }
    assert_eq!(Tally([10, 1, 2, 3, 4]).sheet(), "files 10\nrefused 1\nabove 2\nbelow 3\nwithin 4\n");
}

/// The sheets of lists that name document 01's file, of figure 12 out of 50.
#[test]
fn sheets() {
    let file = generate::sample().0.bytes();
    let judge = |job: &Job| match job.name {
        b"sample" => Kind::of(&answer(&file, |solver| solver.verdict(job.lo, job.hi))),
        b"refused" => Kind::of(&answer(b"", |solver| solver.verdict(job.lo, job.hi))),
        _ => Kind::Refused,
    };
    let check = |list: &[u8], [files, refused, above, below, within]: [u64; 5]| {
        let wanted = format!("files {files}\nrefused {refused}\nabove {above}\nbelow {below}\nwithin {within}\n");
        assert_eq!(list::sheet(list, judge), wanted, "{}", list.escape_ascii());
    };
    check(b"", [0; 5]);
    check(b"\n", [1, 1, 0, 0, 0]);
    check(b"sample 0 11", [1, 0, 1, 0, 0]);
    check(b"sample 13 50\n", [1, 0, 0, 1, 0]);
    check(b"sample 12 12\nsample 0 12\nsample 12 50\nsample 0 50", [4, 0, 0, 0, 4]);
    check(b"sample 13 12\nsample 0 51\nrefused 0 50\nmissing 0 50\nsample 0\n\n", [6, 6, 0, 0, 0]);
    check(b"sample 0 11\n\nsample 13 50\nsample 1 2\nsample 12 12", [5, 1, 2, 1, 1]);
    check(&b"sample 0 50\n".repeat(4_096), [4_096, 0, 0, 0, 4_096]);
    assert_eq!(list::sheet(&b"sample 0 50\n".repeat(4_097), judge), "refused 24\n");
}

/// Random lists have lines of all shapes, and tell document 02's reading from what is nearly it.
#[test]
fn near_lists_are_told() {
    let mut random = Random::new(8);
    let folder = Folder::new(&mut random);
    let (mut seen, mut told) = (Seen::default(), near::lists::Told::default());
    for _ in 0..2_000 {
        let draft = generate::list(&mut random, &folder);
        seen.take(&draft, &folder);
        told.take(&draft.bytes(), |job| folder.kind(job));
    }
    seen.reached(15, 5_000, 40);
    told.reached(20);
}

/// Clauses on both sides of each border of the repair.
#[test]
fn mended_clauses() {
    let kept = |clause: &[u32], literals: &[u32], dropped, reordered| {
        let wanted = Mended { literals: Some(literals.to_vec()), counts: [0, dropped, reordered] };
        assert_eq!(repair::mend(clause), wanted, "{clause:?}");
    };
    let dropped = |clause: &[u32]| assert_eq!(repair::mend(clause), Mended::DROPPED, "{clause:?}");

    kept(&[], &[], 0, 0);
    kept(&[7], &[7], 0, 0);
    kept(&[0, 3, 4], &[0, 3, 4], 0, 0);
    kept(&[4, 3, 0], &[0, 3, 4], 0, 1);
    kept(&[0, 4, 3], &[0, 3, 4], 0, 1);
    // Literals that differ by 1: opposites, and no opposites.
    dropped(&[0, 1]);
    dropped(&[1, 0]);
    kept(&[1, 2], &[1, 2], 0, 0);
    kept(&[2, 1], &[1, 2], 0, 1);
    dropped(&[5, 0, 2, 4]);
    dropped(&[62, 0, 63]);
    // The first of equal literals tells the order.
    kept(&[2, 2], &[2], 1, 0);
    kept(&[0, 4, 0], &[0, 4], 1, 0);
    kept(&[4, 0, 4], &[0, 4], 1, 1);
    kept(&[0, 0, 4, 4, 0], &[0, 4], 3, 0);
    kept(&[4, 0, 0, 4], &[0, 4], 2, 1);
    kept(&[6; 32], &[6], 31, 0);
    // What a dropped clause has besides does not count.
    dropped(&[4, 0, 0, 1]);
    dropped(&[0, 0, 1, 1]);
}

/// Files and buffers on both sides of each border of the repair.
#[test]
fn repaired_files() {
    let weights = [[4, 1], [0, 0], [3, 7]];
    let file = |clauses: &[&[u32]]| RuleDraft::new(clauses, &weights).bytes();
    let check = |old: &[u8], new: &[u8], counts: [u64; 3]| {
        let [clauses, literals, reordered] = counts;
        let numbers = vec![new.len() as u64, clauses, literals, reordered];
        let wanted = Answer { numbers, written: new.to_vec(), ..Answer::default() };
        for capacity in [old.len(), old.len() + 1, 65_536, usize::MAX] {
            assert_eq!(repair(old, capacity), wanted, "{:?}", to_words(old));
        }
        for capacity in [0, new.len().min(old.len() - 4), old.len() - 1] {
            assert_eq!(repair(old, capacity), Answer::refused((25, None)), "{:?}", to_words(old));
        }
    };
    let same = |file: &[u8]| check(file, file, [0; 3]);
    same(&generate::sample().0.bytes());
    same(&file(&[]));
    same(&to_bytes(&[0, 0, 0, 4]));
    same(&to_bytes(&[0, 1, 0, 1, 5]));
    check(&to_bytes(&[0, 0, 2, 0, 2, 6]), &to_bytes(&[0, 1, 0, 1, 5]), [1, 0, 0]);
    // An empty clause stays. Copies go, also those that the repair makes, and count among the clauses alone.
    same(&file(&[&[0], &[], &[0, 2]]));
    check(&file(&[&[0], &[], &[0], &[]]), &file(&[&[0], &[]]), [2, 0, 0]);
    check(&file(&[&[2, 0], &[0, 2], &[0, 2, 0]]), &file(&[&[0, 2]]), [2, 0, 1]);
    check(&file(&[&[0, 2, 0], &[2, 0], &[0, 2]]), &file(&[&[0, 2]]), [2, 1, 0]);
    check(&file(&[&[0, 2], &[4], &[4], &[2, 0]]), &file(&[&[0, 2], &[4]]), [2, 0, 0]);
    check(&file(&[&[0, 1], &[3], &[0, 1]]), &file(&[&[3]]), [2, 0, 0]);
    check(&file(&[&[0, 1], &[3, 2, 3], &[4, 5]]), &file(&[]), [3, 0, 0]);
    let mixed = file(&[&[4, 2], &[0, 1, 1], &[2, 2, 0], &[], &[5, 4], &[3, 3]]);
    check(&mixed, &file(&[&[2, 4], &[0, 2], &[], &[3]]), [2, 2, 2]);
    // The trailer: three clauses from four, the prefix at word 6, 16 words.
    let words = to_words(&repair(&file(&[&[5, 4, 0], &[4, 0, 4], &[1], &[]]), 1_000).written);
    assert_eq!(words, [2, 0, 4, 1, 1, 0, 4, 1, 0, 0, 3, 7, 3, 3, 6, 16]);

    // What the reader refuses by other numbers than 7, 23 and 26, before 25.
    let refused = |file: &[u8], fault: Fault| {
        for capacity in [0, file.len().saturating_sub(1), file.len(), 65_536] {
            assert_eq!(repair(file, capacity), Answer::refused(fault), "{:?}", to_words(file));
        }
    };
    let with = |from_end: usize, word: u32| {
        let mut words = to_words(&mixed);
        let at = words.len() - from_end;
        words[at] = word;
        to_bytes(&words)
    };
    refused(&[], (1, None));
    refused(&mixed[1..], (1, None));
    refused(&mixed[4..], (2, None));
    refused(&with(4, 1_025), (3, None));
    refused(&with(3, 33), (3, None));
    refused(&with(2, 20), (4, None));
    refused(&with(4, 5), (5, Some(5)));
    refused(&with(4, 7), (5, Some(6)));
    refused(&file(&[&[1, 0], &[2, 2, 2, 2]]), (5, Some(1)));
    refused(&file(&[&[1, 0], &[3, 2, 6]]), (6, Some(1)));
    refused(&file(&[&[0], &[0], &[6]]), (6, Some(2)));
    refused(&RuleDraft::new(&[&[2, 0], &[1, 0]], &[[1, 1], [0, 1]]).bytes(), (8, Some(1)));
    refused(&RuleDraft::new(&[&[2, 0], &[1, 0]], &[[65_535, 65_535]; 4]).bytes(), (9, None));
}

/// Random files, whether the reader accepts them or refuses them by 7, 23 or 26, become what they were made from. That
/// is accepted, has no two clauses alike, stays as it is when it is repaired, is satisfied by the same assignments, and
/// has the figure that document 01's rule gives the old clauses, as they stand and as sets.
#[test]
fn repairs_mean_the_same() {
    let mut random = Random::new(11);
    let (mut kinds, mut readings) = ([0; 8], BTreeMap::new());
    for round in 0..30_000 {
        let most = if round % 8 == 0 { 10 } else { 6 };
        let draft = generate::small_stored_rule(&mut random, most);
        let (old, new) = (draft.stored.bytes(), draft.repaired.bytes());
        let repaired = repair::repair(&old, old.len()).expect("a stored rule file");
        assert_eq!((&repaired.written, repaired.counts), (&new, draft.counts), "{draft:?}");
        let again = repair::repair(&new, new.len()).unwrap();
        assert_eq!((&again.written, again.counts), (&new, [0; 3]), "{draft:?}");

        let rules = rules_of(&draft.repaired);
        let clauses = &draft.repaired.clauses;
        assert!((0..clauses.len()).all(|at| !clauses[..at].contains(&clauses[at])), "{draft:?}");
        let n = rules.n();
        if n <= 6 {
            let [old, new] = [&draft.stored, &draft.repaired].map(|rule| &rule.clauses);
            for assignment in 0..1 << n {
                let satisfied = repair::satisfied(old, assignment);
                assert_eq!(satisfied, repair::satisfied(new, assignment), "{assignment:b}: {draft:?}");
            }
        }
        let figure = repair::figure(&draft.stored);
        assert_eq!(figure, enumerate::value(&rules), "{draft:?}");
        let sets = rules::read_by(REPAIR, &old).unwrap();
        assert_eq!(figure, enumerate::value(&sets), "{draft:?}");
        assert_eq!(figure, Tables::new(&sets).value(), "{draft:?}");

        *readings.entry(rules::read(&old).map_or_else(|fault| fault.0, |_| 0)).or_insert(0) += 1;
        let [clauses, literals, reordered] = draft.counts.map(|count| usize::from(count > 0));
        kinds[clauses + 2 * literals + 4 * reordered] += 1;
    }
    println!("repairs_mean_the_same: files by the counts that are not 0: {kinds:?}, by the reader: {readings:?}");
    assert!(kinds.iter().all(|count| *count >= 500), "files by the counts that are not 0: {kinds:?}");
    let all = readings.keys().eq(&[0, 7, 23, 26]) && readings.values().all(|count| *count >= 1_000);
    assert!(all, "files by what the reader answers: {readings:?}");
}

/// Random files tell document 02's repair from what is nearly it.
#[test]
fn near_repairs_are_told() {
    let mut random = Random::new(12);
    let mut told = near::repairs::Told::default();
    for _ in 0..12_000 {
        let rule = generate::stored_file(&mut random);
        // The long ones take most of the time.
        if rule.len() < 2_000 {
            let lengths = generate::buffer_lengths(&mut random, &rule);
            told.take(&rule, &lengths);
        }
    }
    told.reached(20);
}

/// Quotients by their bits, derived by hand: the exponent and 1,023 in three digits of base 16, then the 52 binary
/// digits after the first 1.
#[test]
fn quotients() {
    let check = |part: u128, whole: u128, bits: u64| assert_eq!(quotient(part, whole), bits, "{part} / {whole}");
    let border = 1 << 53;
    for whole in [1, 2, 3, 50, border - 2, border - 1, border] {
        check(0, whole, 0);
        check(whole, whole, 0x3ff0_0000_0000_0000);
    }
    check(1, 2, 0x3fe0_0000_0000_0000);
    check(3, 4, 0x3fe8_0000_0000_0000);
    check(1, 3, 0x3fd5_5555_5555_5555);
    check(2, 3, 0x3fe5_5555_5555_5555);
    check(1, 5, 0x3fc9_9999_9999_999a);
    check(1, 7, 0x3fc2_4924_9249_2492);
    check(5, 7, 0x3fe6_db6d_b6db_6db7);
    check(3, 10, 0x3fd3_3333_3333_3333);
    check(12, 50, 0x3fce_b851_eb85_1eb8);
    check(1, border, 0x3ca0_0000_0000_0000);
    check(3, border, 0x3cb8_0000_0000_0000);
    check(border - 1, border, 0x3fef_ffff_ffff_ffff);
    // 2^-53 + 2^-106 + 2^-159 + ..: a little over the middle of two doubles.
    check(1, border - 1, 0x3ca0_0000_0000_0001);
    check(1, border - 2, 0x3ca0_0000_0000_0001);
    check(border - 2, border - 1, 0x3fef_ffff_ffff_ffff);
    // Middles, which are rounded to the even neighbour, and a carry out of all digits: no quotient out of at most 2^53
    // has either.
    check(border + 1, 2 * border, 0x3fe0_0000_0000_0000);
    check(border + 3, 2 * border, 0x3fe0_0000_0000_0002);
    check(border + 5, 2 * border, 0x3fe0_0000_0000_0002);
    check(2 * border - 3, 2 * border, 0x3fef_ffff_ffff_fffe);
    check(2 * border - 1, 2 * border, 0x3ff0_0000_0000_0000);
    check((1 << 60) - 1, 1 << 60, 0x3ff0_0000_0000_0000);
}

/// The part whose division by an odd whole leaves, after 53 binary digits, a rest as near to half of the whole as can
/// be, under it or over it; none if the first of the digits is 0. The part times 2^53 is that rest, modulo the whole.
fn next_to_a_middle(whole: u64, over: bool) -> Option<u64> {
    let mut part = whole / 2 + u64::from(over);
    for _ in 0..53 {
        part = if part.is_multiple_of(2) { part / 2 } else { (part + whole) / 2 };
    }
    (2 * part >= whole).then_some(part)
}

/// Quotients out of at most 2^53 are the machine's, and the nearest doubles, none of them by a choice between two.
#[test]
fn quotients_are_the_machines() {
    let mut random = Random::new(18);
    // Quotients rounded up, not at all and down; and those next to the middle of two doubles, on both sides.
    let (mut roundings, mut middles) = ([0; 3], [0; 2]);
    let mut check = |part: u64, whole: u64| {
        let double = quotient(part.into(), whole.into());
        assert_eq!(double, (part as f64 / whole as f64).to_bits(), "{part} / {whole}");
        let excess = excess(double, part.into(), whole.into());
        assert!(2 * excess.unsigned_abs() < whole.into(), "{part} / {whole}");
        roundings[(excess.signum() + 1) as usize] += 1;
        excess.unsigned_abs() as u64
    };
    for _ in 0..300_000 {
        let digits = random.within(1, 53);
        let whole = 1 + random.below(1 << digits) as u64;
        let any = random.below(whole as usize + 1) as u64;
        let few = any >> random.below(53);
        for part in [any, few, whole - few, whole / 2, whole / 3, 1, whole - 1] {
            check(part, whole);
        }
        check(any, 1 << 53);
        let odd = (1 << 52) + 2 * random.below(1 << 51) as u64 + 1;
        for over in [false, true] {
            if let Some(part) = next_to_a_middle(odd, over) {
                assert_eq!(check(part, odd), odd / 2, "{part} / {odd}");
                middles[usize::from(over)] += 1;
            }
        }
    }
    println!("quotients_are_the_machines: rounded up, not, down: {roundings:?}; next to a middle: {middles:?}");
    assert!(roundings.iter().chain(&middles).all(|count| *count > 100_000), "{roundings:?}, {middles:?}");
}

/// Marks and points of document 01's file, and both sides of 12's and 27's borders.
#[test]
fn points() {
    let check = |file: &[u8], level, marks: &[f64], open: f64| {
        let bits = |doubles: &[f64]| doubles.iter().map(|double| double.to_bits()).collect();
        let count = marks.len() as u64;
        let wanted = Answer { doubles: bits(marks), ..numbers(&[count]) };
        assert_eq!(answer(file, |solver| solver.marks(level)), wanted, "level {level}");
        let wanted = Answer { doubles: bits(&[marks[0], marks[marks.len() - 1], open]), ..numbers(&[count]) };
        assert_eq!(answer(file, |solver| solver.point(level)), wanted, "level {level}");
    };
    let refused = |file: &[u8], level, fault| {
        assert_eq!(answer(file, |solver| solver.marks(level)), Answer::refused(fault), "level {level}");
        assert_eq!(answer(file, |solver| solver.point(level)), Answer::refused(fault), "level {level}");
    };
    let file = generate::sample().0.bytes();
    check(&file, 0, &[0.0, 1.0], 1.0);
    check(&file, 1, &[0.0, 0.8], 0.8);
    check(&file, 2, &[0.0, 0.8], 0.8);
    check(&file, 3, &[0.24], 0.0);
    refused(&file, 4, (12, None));
    refused(&file, u64::MAX, (12, None));
    refused(&file[4..], 0, (2, None));
    // A choice between a satisfied node and an undetermined one.
    let file = RuleDraft::new(&[&[0, 2]], &[[0, 0], [1, 1]]).bytes();
    check(&file, 0, &[0.0, 1.0], 1.0);
    check(&file, 1, &[1.0], 1.0);
    check(&file, 2, &[1.0], 0.0);

    // Wholes 2^53, 2^53 + 4 and over 2^60; variable 0 is true with half the weight.
    let file = |prefix: &[[u32; 2]]| RuleDraft::new(&[&[0]], prefix).bytes();
    let border = file(&[[32_768, 32_768], [1, 65_535], [65_535, 1], [16, 16]]);
    check(&border, 0, &[0.0, 1.0], 1.0);
    check(&border, 4, &[0.5], 0.0);
    refused(&border, 5, (12, None));
    let over = file(&[[43_691, 43_691], [6_529, 13_058], [2_857, 5_714], [307, 307]]);
    for level in 0..=4 {
        refused(&over, level, (27, None));
        assert_eq!(answer(&over, |solver| solver.cut(level)).code, 0);
    }
    refused(&over, 5, (12, None));
    refused(&file(&[[65_535, 65_535]; 4]), 0, (9, None));
    refused(&file(&[[65_535, 65_535]; 4]), 5, (9, None));
}

/// The wholes of files that are at most 16 from 2^53; random files have them and others on both sides.
#[test]
fn wholes_about_2_53() {
    let border = 1u64 << 53;
    let wholes = Wholes::about_2_53();
    assert_eq!(wholes.products(), [border - 8, border - 2, border, border + 4, border + 12]);
    let mut random = Random::new(19);
    let mut counts = BTreeMap::new();
    for _ in 0..2_000 {
        let whole = rules_of(&wholes.rule(&mut random)).whole() as u64;
        let near = wholes.products().contains(&whole);
        *counts.entry((near.then_some(whole), whole > border)).or_insert(0) += 1;
    }
    assert!(counts.len() == 7 && counts.values().all(|count| *count >= 50), "{counts:?}");
}

/// Random files tell document 02's marks and points from what is nearly them, and so do the samples.
#[test]
fn near_points_are_told() {
    let mut random = Random::new(20);
    let wholes = Wholes::about_2_53();
    let mut told = near::points::Told::default();
    for round in 0..4_000 {
        let draft = if round % 2 == 0 { generate::small_rule(&mut random, 7) } else { wholes.rule(&mut random) };
        let rules = Ok(rules_of(&draft));
        let solver = Solver::new(&rules);
        for level in 0..=draft.prefix.len() as u64 + 1 {
            told.take(&solver.cut(level), solver.whole().unwrap());
        }
    }
    told.reached(200);

    let mut told = near::points::Told::default();
    for case in samples::cases() {
        let rules = rules::read(&case.rule);
        let (Operation::Point(level), Ok(_)) = (case.operation, &rules) else {
            continue;
        };
        let solver = Solver::new(&rules);
        told.take(&solver.cut(level), solver.whole().unwrap());
    }
    told.reached(1);
}
