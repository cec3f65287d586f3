//! Samples for document 02's job lists and tallies, and the run of the program `ssat_tally`.

use super::{sample, List};
use crate::answer::{answer, Answer};
use crate::cases::{Case, Operation};
use crate::generate::RuleDraft;
use crate::list::{self, Job, Kind, Tally};
use crate::to_bytes;

/// What a line is read as: the length of the name and the limits; none for a line of another form.
type Read = Option<(usize, u64, u64)>;

impl List {
    fn jobs(&mut self, name: impl Into<String>, list: &[u8], lines: &[Read]) {
        let mut numbers = vec![lines.len() as u64];
        for line in lines {
            match *line {
                Some((length, lo, hi)) => numbers.extend([length as u64, lo, hi]),
                None => numbers.push(0),
            }
        }
        self.add(name, list, Operation::Jobs, 0, &numbers);
    }

    fn too_many(&mut self, name: &str, list: &[u8]) {
        self.add(name, list, Operation::Jobs, 24, &[]);
    }

    /// A verdict of the sample that is taken into a tally, whose counts were and are then these.
    fn tally(&mut self, name: String, (lo, hi): (u64, u64), verdict: &Answer, before: [u32; 5], after: [u32; 5]) {
        let expected = Answer { tally: Some(Tally(after.map(u64::from))), ..verdict.clone() };
        let operation = Operation::Tally(lo, hi, before);
        self.0.push(Case { name, rule: sample().0.bytes(), operation, expected });
    }
}

/// Lists on both sides of each border.
pub(super) fn job_lists(list: &mut List) {
    let one = Some((1, 0, 1));
    let ends: [(&str, &[Read]); 9] = [
        ("", &[]),
        ("\n", &[None]),
        ("\n\n", &[None, None]),
        ("a 0 1\n", &[one]),
        ("a 0 1\n\n", &[one, None]),
        ("\na 0 1", &[None, one]),
        ("a 0 1\nb 2 3", &[one, Some((1, 2, 3))]),
        ("a 0 1\n\nb 2 3\n", &[one, None, Some((1, 2, 3))]),
        ("a 0\n1", &[None, None]),
    ];
    for (text, lines) in ends {
        list.jobs(format!("jobs-{text:?}"), text.as_bytes(), lines);
    }

    // Each line alone, and all of them in one list.
    let lines = lines();
    for (line, read) in &lines {
        list.jobs(format!("job-{}", line.escape_ascii()), line, &[*read]);
    }
    let (texts, reads): (Vec<Vec<u8>>, Vec<Read>) = lines.into_iter().unzip();
    list.jobs("jobs-of-all-forms", &texts.join(&b'\n'), &reads);

    // Each byte as a name, as a limit and after a digit; byte 10 ends the line.
    let mut each_byte = |name: &str, start: &str, end: &str, read: &dyn Fn(u8) -> Read| {
        let bytes = (0..=255).filter(|byte| *byte != b'\n');
        let text: Vec<u8> =
            bytes.clone().flat_map(|byte| [start.as_bytes(), &[byte], end.as_bytes()].concat()).collect();
        list.jobs(name, &text, &bytes.map(read).collect::<Vec<_>>());
    };
    each_byte("jobs-byte-as-name", "", " 0 1\n", &|byte| (byte != 0 && byte != b' ').then_some((1, 0, 1)));
    let digit = |byte: u8| byte.is_ascii_digit().then(|| u64::from(byte - b'0'));
    each_byte("jobs-byte-as-lower", "a ", " 1\n", &|byte| digit(byte).map(|digit| (1, digit, 1)));
    each_byte("jobs-byte-as-upper", "a 1 ", "\n", &|byte| digit(byte).map(|digit| (1, 1, digit)));
    each_byte("jobs-byte-before-upper", "a 1 ", "3\n", &|byte| digit(byte).map(|digit| (1, 1, 10 * digit + 3)));
    each_byte("jobs-byte-after-lower", "a 2", " 1\n", &|byte| digit(byte).map(|digit| (1, 20 + digit, 1)));

    for length in [255, 256, 4_095, 4_096, 65_532] {
        let name = "n".repeat(length);
        list.jobs(format!("job-name-of-{length}"), format!("{name} 0 1").as_bytes(), &[Some((length, 0, 1))]);
    }

    // 24: lines, with a last line feed and without, and with one byte more.
    let line_feeds = |count: usize| vec![b'\n'; count];
    list.jobs("jobs-4096-empty", &line_feeds(4_096), &[None; 4_096]);
    list.too_many("jobs-4097-empty", &line_feeds(4_097));
    list.too_many("jobs-4096-empty-and-byte", &[line_feeds(4_096), b"x".to_vec()].concat());
    let same = |count: usize| b"a 0 1\n".repeat(count);
    list.jobs("jobs-4096", &same(4_096), &[one; 4_096]);
    list.jobs("jobs-4096-no-line-feed", &same(4_096)[..6 * 4_096 - 1], &[one; 4_096]);
    list.too_many("jobs-4096-and-byte", &[same(4_096), b"a".to_vec()].concat());
    list.too_many("jobs-4097", &same(4_097));
    list.too_many("jobs-4097-no-line-feed", &same(4_097)[..6 * 4_097 - 1]);

    // 24: bytes, in one line and in 4,096.
    let long = |length: usize| format!("a {}12 50", "0".repeat(length - 7)).into_bytes();
    list.jobs("jobs-65536-bytes", &long(65_536), &[Some((1, 12, 50))]);
    list.jobs("jobs-65536-bytes-with-line-feed", &[long(65_535), line_feeds(1)].concat(), &[Some((1, 12, 50))]);
    list.too_many("jobs-65537-bytes", &long(65_537));
    list.too_many("jobs-65537-bytes-with-line-feed", &[long(65_536), line_feeds(1)].concat());
    let full = b"a 0 00000000001\n".repeat(4_096);
    list.jobs("jobs-65536-bytes-in-4096", &full, &[one; 4_096]);
    list.too_many("jobs-65537-bytes-in-4096", &[b"b", &full[..]].concat());
}

/// Lines on both sides of each border of their form.
fn lines() -> Vec<(Vec<u8>, Read)> {
    let mut lines: Vec<(Vec<u8>, Read)> = Vec::new();
    let mut add = |line: &[u8], read| lines.push((line.to_vec(), read));
    add(b"a 0 1", Some((1, 0, 1)));
    add(b"a 1 0", Some((1, 1, 0)));
    add(b"0 1 2", Some((1, 1, 2)));
    add("größe 34 56".as_bytes(), Some((7, 34, 56)));
    for (line, length) in [("./a 0 1", 3), ("/ 0 1", 1), ("../x/y 0 1", 6), (". 0 1", 1), ("a,b 0 1", 3)] {
        add(line.as_bytes(), Some((length, 0, 1)));
    }
    for (line, length) in [("\ta 0 1", 2), ("a\t 0 1", 2), ("\t 0 1", 1), ("a\tb 0 1", 3), ("a\r 0 1", 2)] {
        add(line.as_bytes(), Some((length, 0, 1)));
    }
    let blanks = [" ", "  ", "   ", "a", "a ", "a  ", "a 0", "a 0 ", "a  1", " 0 1", "  0 1", " a 0 1", "a 0 1 "];
    let more = ["a  0 1", "a 0  1", "a  0  1", "a b 0 1", "a 0 1 2", "a 0 1 x", "a 0 1  "];
    let tabs = ["a\t0\t1", "a\t0 1", "a 0\t1", "a \t0 1", "a 0\t 1", "a 0 \t1", "a 0 1\t", "a 0 1 \t"];
    let returns = ["\r", "a 0 1\r", "a 0\r 1", "a 0 \r", "a 0 1 \r"];
    let noughts = ["\0", "\0 0 1", "\0a 0 1", "a\0 0 1", "a\0b 0 1", "a 0\0 1", "a 0 1\0", "a \0 1"];
    let texts = ["+1", "-1", "-0", "1-", "1.0", "1,0", "1_0", "0x1", "1e1", "1 1", "1/", "/1", "1:", ":1", "\u{661}"];
    for line in [&blanks[..], &more, &tabs, &returns, &noughts].concat() {
        add(line.as_bytes(), None);
    }

    // Limits, as the lower and as the upper one.
    let mut both = |text: &str, limit: Option<u64>| {
        add(format!("a {text} 7").as_bytes(), limit.map(|limit| (1, limit, 7)));
        add(format!("a 7 {text}").as_bytes(), limit.map(|limit| (1, 7, limit)));
    };
    texts.iter().for_each(|text| both(text, None));
    let exact = |text: &str| Some(text.parse::<u64>().expect("a number under 2^64"));
    for text in ["0", "9", "10", "65536", "4294967295", "4294967296", "9223372036854775807", "9223372036854775808"] {
        both(text, exact(text));
    }
    for text in ["999999999999999999", "1000000000000000000", "9999999999999999999", "10000000000000000000"] {
        both(text, exact(text));
    }
    // 2^64 - 1 with one digit more or less; in the second the digits after it are 9.
    let largest = u64::MAX.to_string();
    both(&largest, Some(u64::MAX));
    for (at, digit) in largest.bytes().map(|byte| byte - b'0').enumerate() {
        if digit < 9 {
            both(&format!("{}{}{}", &largest[..at], digit + 1, &largest[at + 1..]), None);
        }
        if digit > 0 {
            let less = format!("{}{}{}", &largest[..at], digit - 1, "9".repeat(19 - at));
            both(&less, exact(&less));
        }
    }
    // Multiples of 2^64, and 12 more; 10^20 - 1 and 10^20; ten times the largest.
    for times in [1u128, 2, 5, 10, 11, 1 << 32, u64::MAX.into()] {
        both(&(times << 64).to_string(), None);
        both(&((times << 64) + 12).to_string(), None);
    }
    for text in ["99999999999999999999", "100000000000000000000", "184467440737095516150"] {
        both(text, None);
    }
    both(&format!("1{}", "0".repeat(64)), None);
    // Leading noughts.
    for count in [1, 2, 18, 19, 20, 28, 30, 64, 300] {
        let noughts = "0".repeat(count);
        both(&noughts, Some(0));
        both(&format!("{noughts}12"), Some(12));
        both(&format!("{noughts}{largest}"), Some(u64::MAX));
        both(&format!("{noughts}18446744073709551616"), None);
    }
    lines
}

/// Tallies on both sides of each border.
pub(super) fn tallies(list: &mut List) {
    // Every verdict above, and every file that the reader refuses with a place, taken into a new tally.
    for case in list.0.clone() {
        let (lo, hi) = match case.operation {
            Operation::Verdict(lo, hi) => (lo, hi),
            Operation::Read if case.expected.code != 0 && !case.expected.numbers.is_empty() => (0, 0),
            _ => continue,
        };
        let mut after = [1, 0, 0, 0, 0];
        after[Kind::of(&case.expected) as usize] = 1;
        let operation = Operation::Tally(lo, hi, [0; 5]);
        let expected = Answer { tally: Some(Tally(after)), ..case.expected };
        list.0.push(Case { name: format!("tally-{}", case.name), rule: case.rule, operation, expected });
    }

    // A result of each kind: refused by 10 and by 11, above, below, and within with limits equal to the figure.
    let kinds = [
        ("10", (13, 12), Answer::refused((10, None)), 1),
        ("11", (0, 51), Answer::refused((11, None)), 1),
        ("above", (0, 11), Answer::numbers(&[1, 0]), 2),
        ("below", (13, 50), Answer::numbers(&[2, 0]), 3),
        ("within", (12, 12), Answer::numbers(&[0, 12]), 4),
    ];
    for (name, limits, verdict, at) in kinds {
        let mut tally = |name: String, before: [u32; 5], taken: u32| {
            let mut after = before;
            after[0] += taken;
            after[at] += taken;
            list.tally(name, limits, &verdict, before, after);
        };
        tally(format!("tally-{name}-again"), [10, 1, 2, 3, 4], 1);
        // Counts that no tally comes to by itself.
        tally(format!("tally-{name}-apart"), [0, 4_095, 7, 4_094, 1], 1);
        tally(format!("tally-{name}-all-4095"), [4_095; 5], 1);
        tally(format!("tally-{name}-all-4096"), [4_096; 5], 0);
        tally(format!("tally-{name}-all-largest"), [u32::MAX; 5], 0);
        for place in 0..5 {
            for (count, taken) in [(4_094, 1), (4_095, 1), (4_096, 0), (4_097, 0), (65_536, 0), (u32::MAX, 0)] {
                let mut before = [0; 5];
                before[place] = count;
                tally(format!("tally-{name}-{count}-at-{place}"), before, taken);
            }
        }
    }
}

/// A run of the program `ssat_tally`.
pub struct Run {
    pub list: Vec<u8>,
    /// The files of the folder that it runs in, by name.
    pub files: Vec<(&'static str, Vec<u8>)>,
    /// What it must print.
    pub sheet: String,
}

impl Run {
    /// What the peer would print.
    pub fn solve(&self) -> String {
        let file = |name: &[u8]| {
            let name = name.strip_prefix(b"./").unwrap_or(name);
            self.files.iter().find(|(other, _)| other.as_bytes() == name)
        };
        list::sheet(&self.list, |job: &Job| match file(job.name) {
            Some((_, bytes)) => Kind::of(&answer(bytes, |solver| solver.verdict(job.lo, job.hi))),
            None => Kind::Refused,
        })
    }
}

/// The stored run: each line of its list with the kind of its result.
pub fn run() -> Run {
    let files = vec![
        // 12 of 50, 3 of 4 and 1 of 1.
        ("sample", sample().0.bytes()),
        ("größe", RuleDraft::new(&[&[0]], &[[3, 1]]).bytes()),
        ("1", RuleDraft::new(&[], &[]).bytes()),
        ("refused", to_bytes(&[1, 0, 2, 2, 3, 0, 0, 0, 0, 2, 2, 5, 13])),
        ("twice", RuleDraft::new(&[&[0], &[0]], &[[3, 1]]).bytes()),
        ("empty", Vec::new()),
    ];
    let lines = [
        ("sample 0 11", Kind::Above),
        ("sample 13 50", Kind::Below),
        ("sample 12 12", Kind::Within),
        ("sample 0 12", Kind::Within),
        ("sample 12 50", Kind::Within),
        ("", Kind::Refused),
        ("sample 13 12", Kind::Refused),
        ("sample 0 51", Kind::Refused),
        ("sample 0 18446744073709551615", Kind::Refused),
        ("sample 0 18446744073709551616", Kind::Refused),
        ("sample 0 18446744073709551628", Kind::Refused),
        ("sample 00000000000000000000000000000012 0050", Kind::Within),
        ("größe 0 2", Kind::Above),
        ("größe 3 3", Kind::Within),
        ("größe 4 4", Kind::Below),
        ("1 0 0", Kind::Above),
        ("1 1 1", Kind::Within),
        ("./sample 0 11", Kind::Above),
        ("refused 0 0", Kind::Refused),
        ("twice 0 4", Kind::Refused),
        ("empty 0 0", Kind::Refused),
        ("missing 0 50", Kind::Refused),
        (". 0 50", Kind::Refused),
        ("sample  0 50", Kind::Refused),
        (" sample 0 50", Kind::Refused),
        ("sample 0 50 ", Kind::Refused),
        ("sample 0", Kind::Refused),
        ("sample  50", Kind::Refused),
        ("sample 0 50 0", Kind::Refused),
        ("sample\t0 50", Kind::Refused),
        ("sample 0\t50", Kind::Refused),
        ("sample 0 50\r", Kind::Refused),
        ("sample\0 0 50", Kind::Refused),
        ("sample +0 50", Kind::Refused),
        ("sample -0 50", Kind::Refused),
        ("sample 0x0 50", Kind::Refused),
        // Without a line feed.
        ("sample 13 14", Kind::Below),
    ];
    let mut tally = Tally::default();
    lines.iter().for_each(|(_, kind)| tally.take(*kind));
    let list = lines.map(|(line, _)| line).join("\n").into_bytes();
    Run { list, files, sheet: tally.sheet() }
}
