//! The derivation checker: refusals 13 to 21, in order.

use crate::rules::{is_rising, set_of, Fault, Rules};
use crate::{level, literals_of, opposites, to_words, Literals};

/// One line as it stands in the file.
struct Line<'a> {
    literals: &'a [u32],
    value: u64,
    /// Variable, true-side parent and false-side parent of a kind 2 line.
    resolved: Option<[u32; 3]>,
}

/// Takes the first line off the words; none if it has a wrong kind, too many literals, or
/// does not fit.
fn take_line<'a>(words: &mut &'a [u32], n: usize) -> Option<Line<'a>> {
    let (head, after) = words.split_at_checked(2)?;
    let (kind, k) = (head[0], head[1] as usize);
    if !(kind == 1 || kind == 2) || k > n {
        return None;
    }
    let (literals, after) = after.split_at_checked(k)?;
    let (value, after) = after.split_at_checked(2)?;
    let (resolved, after) = after.split_at_checked(if kind == 2 { 3 } else { 0 })?;
    *words = after;
    Some(Line { literals, value: u64::from(value[0]) | u64::from(value[1]) << 32, resolved: resolved.try_into().ok() })
}

/// A clause that may be a parent, with its value.
type Known = (Literals, u128);

/// The clause that a reference names, if it names one.
fn named(reference: u32, rules: &Rules, lines: &[Known]) -> Option<Known> {
    let number = (reference / 2) as usize;
    if reference.is_multiple_of(2) {
        rules.clauses.get(number).map(|clause| (*clause, 0))
    } else {
        lines.get(number).copied()
    }
}

/// Checks a derivation over an accepted rule file: the closing value, or the refusal.
pub fn check(rules: &Rules, bytes: &[u8]) -> Result<u128, Fault> {
    if !bytes.len().is_multiple_of(4) || bytes.len() < 12 || bytes.len() > 65_536 {
        return Err((13, None));
    }
    let words = to_words(bytes);
    let (mut body, trailer) = words.split_at(words.len() - 3);
    let (count, closing, total) = (trailer[0] as usize, trailer[1], trailer[2] as usize);
    if total != words.len() || count > 1_024 {
        return Err((14, None));
    }

    let n = rules.n();
    let mut lines = Vec::new();
    for number in 0..count {
        lines.push(take_line(&mut body, n).ok_or((15, Some(number)))?);
    }
    if !body.is_empty() {
        return Err((15, Some(count)));
    }

    let mut sets = Vec::new();
    for (number, line) in lines.iter().enumerate() {
        let large = line.literals.iter().any(|&literal| literal as usize >= 2 * n);
        // Variables that rise do not stand twice.
        let set = if large || !is_rising(line.literals) { None } else { set_of(line.literals) };
        sets.push(set.ok_or((16, Some(number)))?);
    }

    let mut known: Vec<Known> = Vec::new();
    for (number, line) in lines.iter().enumerate() {
        let set = sets[number];
        let value = judge(rules, set, line, &known).map_err(|fault| (fault, Some(number)))?;
        if u128::from(line.value) != value {
            return Err((20, Some(number)));
        }
        known.push((set, value));
    }

    match named(closing, rules, &known) {
        Some((0, value)) => Ok(value),
        _ => Err((21, None)),
    }
}

/// The value that a line ought to have, or 17, 18 or 19.
fn judge(rules: &Rules, set: Literals, line: &Line, known: &[Known]) -> Result<u128, u32> {
    let Some([v, on_true, on_false]) = line.resolved else {
        let against = opposites(set);
        let blocking = rules.clauses.iter().all(|clause| clause & against != 0);
        return if blocking { Ok(rules.rest[level(set)]) } else { Err(17) };
    };
    let v = v as usize;
    if v >= rules.n() {
        return Err(18);
    }
    let (true_side, p) = named(on_true, rules, known).ok_or(18u32)?;
    let (false_side, q) = named(on_false, rules, known).ok_or(18u32)?;
    let (positive, negative) = (1 << (2 * v), 1 << (2 * v + 1));
    if true_side & negative == 0 || false_side & positive == 0 {
        return Err(19);
    }
    if level(true_side) > v + 1 || level(false_side) > v + 1 {
        return Err(19);
    }
    // All other literals of the two, rising, each once.
    let others = literals_of(true_side & !negative | false_side & !positive);
    if !others.eq(line.literals.iter().copied()) {
        return Err(19);
    }
    let skipped: u128 = rules.prefix[level(set)..v].iter().map(|quantifier| quantifier.total()).product();
    Ok(rules.prefix[v].join(p, q) * skipped)
}
