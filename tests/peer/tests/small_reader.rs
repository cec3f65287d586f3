//! The proved small reader about its limits, against the peer and against the bench's reader.

#![cfg(not(feature = "no-ffi"))]

#[allow(dead_code)]
mod common;

use common::readings::Beyond;
use common::{random, rounds, Pair, NAMING, READ, READ_SMALL};
use peer::ffi::read_small_on_stack;
use peer::generate::{self, RuleDraft};
use peer::near::readers::Told;
use peer::rules::REFUSALS;
use peer::to_bytes;
use std::collections::BTreeMap;

/// Random files: enough of them are answered by each number that each reader can give them, and tell document 02's
/// small reader from what is nearly it.
#[test]
fn border_files() {
    let (mut random, mut pair) = (random(401), Pair::new());
    let mut told = Told::default();
    for round in 0..rounds(40_000) {
        let bytes = generate::border_file(&mut random);
        pair.read(&mut random, &bytes);
        if round % 3 == 0 {
            told.take(&bytes);
        }
    }
    pair.report("border_files");
    for operation in [READ, READ_SMALL] {
        pair.reached(operation, [0], 1_000);
        pair.reached(operation, REFUSALS, 150);
        pair.named_later(operation, NAMING, 100);
    }
    let small_3 = [0, 3, 4, 5, 6, 7, 23, 26, 8, 9].map(|bench| (bench, 3));
    let small_1 = [0, 2, 3, 4, 5, 6, 7, 23, 26, 8, 9].map(|bench| (bench, 1));
    pair.readings.reached(Beyond::Neither, REFUSALS.map(|number| (number, number)), 150);
    pair.readings.reached(Beyond::Variables, small_3.into_iter().chain([(2, 2)]), 100);
    pair.readings.reached(Beyond::Bytes, small_1.into_iter().chain([(1, 1)]), 100);
    pair.readings.reached(Beyond::Both, small_1, 100);
    // What the bench's reader accepts.
    pair.readings.reached(Beyond::Neither, [(0, 0)], 1_000);
    pair.readings.reached(Beyond::Variables, [(0, 3)], 1_000);
    pair.readings.reached(Beyond::Bytes, [(0, 1)], 1_000);
    pair.readings.reached(Beyond::Both, [(0, 1)], 1_000);
    told.reached(20);
}

/// All numbers of variables with all lengths about the limit: valid files, and each with a wrong last word, a wrong
/// prefix start and a byte more.
#[test]
fn all_borders() {
    let (mut random, mut pair) = (random(402), Pair::new());
    for n in 0..=33 {
        for count in 1_015..=1_034 {
            let words = generate::rule_of_words(&mut random, n, count).words();
            pair.read(&mut random, &to_bytes(&words));
            pair.read(&mut random, &[to_bytes(&words), vec![0]].concat());
            for at in [words.len() - 1, words.len() - 2] {
                let mut words = words.clone();
                words[at] += 1;
                pair.read(&mut random, &to_bytes(&words));
            }
        }
    }
    pair.report("all_borders");
    pair.readings.reached(Beyond::Neither, [(0, 0), (1, 1), (2, 2), (4, 4)], 100);
    pair.readings.reached(Beyond::Variables, [(0, 3), (2, 2), (4, 3)], 100);
    pair.readings.reached(Beyond::Variables, [(3, 3)], 10);
    pair.readings.reached(Beyond::Bytes, [(0, 1), (1, 1), (2, 1), (4, 1)], 100);
    pair.readings.reached(Beyond::Both, [(0, 1), (2, 1), (4, 1)], 90);
    pair.readings.reached(Beyond::Both, [(3, 1)], 5);
}

/// The stack that a call of the small reader uses, whatever it answers.
#[test]
fn stack_of_a_call() {
    let mut random = random(403);
    // All variables in each clause, in 4,096 bytes; no two clauses are alike.
    let mut clauses: Vec<Vec<u32>> = (0..58).map(|at| (0..16).map(|v| 2 * v + (at >> v & 1)).collect()).collect();
    clauses.push(vec![31]);
    let largest = RuleDraft { clauses, prefix: vec![[1, 2]; 16] }.bytes();
    assert_eq!(largest.len(), 4_096);
    let mut files = vec![Vec::new(), generate::longest_rule([1, 2]).bytes(), largest];
    files.extend((0..rounds(3_000)).map(|_| generate::border_file(&mut random)));

    let mut most = BTreeMap::new();
    for bytes in files {
        let ((number, _), used) = read_small_on_stack(&bytes);
        let most = most.entry(number).or_insert(used);
        *most = used.max(*most);
    }
    println!("stack_of_a_call: most bytes of stack by return value: {most:?}");
    assert!(most.values().all(|used| *used <= 1_024), "bytes of stack by return value: {most:?}");
    assert!(REFUSALS.iter().chain(&[0]).all(|number| most.contains_key(number)), "not all answered: {most:?}");
}
