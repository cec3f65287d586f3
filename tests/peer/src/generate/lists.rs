//! Random job lists and tallies, and the folder of rule files that the lists name.

use super::{faulty_rule, longest_rule, often_at_an_end, small_rule};
use crate::answer::Solver;
use crate::list::{self, Job, Kind, Tally};
use crate::random::Random;
use crate::rules::{self, Fault, Rules, REFUSALS};
use std::collections::BTreeMap;
use std::str::from_utf8;

/// A rule file in a folder.
pub struct File {
    /// The path to it from the folder.
    pub path: Vec<u8>,
    pub bytes: Vec<u8>,
    rules: Result<Rules, Fault>,
    /// Figure and whole; of a refused file some numbers.
    figure: [u64; 2],
}

/// What a name in a folder opens.
#[derive(Clone, Copy)]
enum Sort {
    /// An accepted file, by a name of one byte, one that is easily taken wrongly, or the longest.
    Plain,
    Odd,
    LongName,
    /// An accepted file, by a name that is no UTF-8.
    NoText,
    /// An accepted file of 65,536 bytes.
    Longest,
    Refused,
    /// A file that is refused for its length.
    TooLong,
}

/// The rule files that random lists name.
#[derive(Default)]
pub struct Folder {
    pub files: Vec<File>,
    /// The file that each name opens.
    names: BTreeMap<Vec<u8>, usize>,
    /// The names of each sort.
    sorts: [Vec<Vec<u8>>; 7],
}

const ODD: [&[u8]; 12] = [
    "größe".as_bytes(),
    b"x\ty",
    b"\t",
    b"\x01\x7f",
    b"end\r",
    b"sub/b",
    b"sub/deep/c",
    b"../beside",
    b"-",
    b"+1",
    b"18446744073709551616",
    b"*",
];

/// Bytes of no character, a character cut short, a slash in two bytes, and half of a pair that stands for a character.
const NO_TEXT: [&[u8]; 4] = [b"\xff\x80", b"gr\xc3", b"\xc0\xaf", b"\xed\xa0\x80"];

const DIRECTORIES: [&[u8]; 7] = [b".", b"..", b"./", b"sub", b"sub/", b"sub/..", b"/"];

const MISSING: [&[u8]; 13] = [
    b"missing",
    b"sub/missing",
    b"sub/a",
    b"missing/../a",
    b"a/",
    b"a/b",
    b"aa",
    b"A",
    b"'a'",
    b"\"a\"",
    b"\\a",
    b"?",
    b"$PWD/a",
];

/// The most bytes of a name that can be opened, and of what stands between two slashes in it.
const LONGEST_NAME: usize = 4_095;
const LONGEST_PART: usize = 255;

/// The file of this name by one of so many bytes.
fn long_name(name: &[u8], length: usize) -> Vec<u8> {
    [b".", &vec![b'/'; length - name.len() - 1][..], name].concat()
}

impl Folder {
    pub fn new(random: &mut Random) -> Folder {
        let mut folder = Folder::default();
        for letter in b'a'..=b'p' {
            folder.add(Sort::Plain, &[letter], accepted_rule(random));
        }
        for path in ODD.into_iter().chain([&[b'n'; LONGEST_PART][..]]) {
            folder.add(Sort::Odd, path, accepted_rule(random));
        }
        for (name, path) in [("./a", "a"), (".//b", "b"), ("./././c", "c"), ("sub/../d", "d"), ("sub//b", "sub/b")] {
            folder.also(Sort::Odd, name.as_bytes(), path.as_bytes());
        }
        folder.also(Sort::LongName, &long_name(b"a", LONGEST_NAME), b"a");
        for path in NO_TEXT {
            folder.add(Sort::NoText, path, accepted_rule(random));
        }
        for fault in REFUSALS {
            folder.add(Sort::Refused, format!("fault-{fault}").as_bytes(), refused_rule(random, fault));
        }
        // A reader that stops after 65,536 bytes would accept all that are too long but the last.
        let mut longest = longest_rule([1, 2]);
        folder.add(Sort::Longest, b"longest", longest.bytes());
        for more in [1, 4, 70_000] {
            let bytes = [longest.bytes(), vec![0; more]].concat();
            folder.add(Sort::TooLong, format!("longest-and-{more}").as_bytes(), bytes);
        }
        longest.clauses[1_023].push(31);
        folder.add(Sort::TooLong, b"longer", longest.bytes());
        folder
    }

    fn add(&mut self, sort: Sort, path: &[u8], bytes: Vec<u8>) {
        let rules = rules::read(&bytes);
        let figure = Solver::new(&rules).figure().numbers.try_into().unwrap_or([1, 2]);
        self.names.insert(path.to_vec(), self.files.len());
        self.sorts[sort as usize].push(path.to_vec());
        self.files.push(File { path: path.to_vec(), bytes, rules, figure });
    }

    /// Lets a file be named otherwise too.
    fn also(&mut self, sort: Sort, name: &[u8], path: &[u8]) {
        self.names.insert(name.to_vec(), self.names[path]);
        self.sorts[sort as usize].push(name.to_vec());
    }

    /// Lets a file be named from the root too, in a folder that stands at this path. Not if a blank is in it: then the
    /// name would be none.
    pub fn stand_at(&mut self, folder: &[u8]) {
        if !folder.contains(&b' ') {
            self.also(Sort::Odd, &[folder, b"/a"].concat(), b"a");
        }
    }

    /// The kind of the result for a line's file. A name that is no UTF-8 opens none.
    pub fn kind(&self, job: &Job) -> Kind {
        let Some(&file) = self.names.get(job.name).filter(|_| from_utf8(job.name).is_ok()) else {
            return Kind::Refused;
        };
        Kind::of(&Solver::new(&self.files[file].rules).verdict(job.lo, job.hi))
    }

    /// A name of this sort, with limits in order and not over the whole.
    fn job(&self, random: &mut Random, sort: Sort) -> JobDraft {
        let names = &self.sorts[sort as usize];
        let name = &names[random.below(names.len())];
        let [figure, whole] = self.files[self.names[name]].figure;
        let limits = [0, 1, figure.saturating_sub(1), figure, figure, figure + 1, whole / 2, whole];
        let mut pair = [random.pick(&limits).min(whole), random.pick(&limits).min(whole)];
        pair.sort_unstable();
        JobDraft { name: name.clone(), limits: pair.map(|limit| digits(limit.into())), whole: whole.into() }
    }

    fn plain(&self, random: &mut Random) -> JobDraft {
        self.job(random, Sort::Plain)
    }
}

/// An accepted rule file; most have a figure between 0 and the whole.
fn accepted_rule(random: &mut Random) -> Vec<u8> {
    loop {
        let bytes = small_rule(random, 5).bytes();
        let figure = Solver::new(&rules::read(&bytes)).figure().numbers;
        if (1..figure[1]).contains(&figure[0]) || random.once_in(20) {
            return bytes;
        }
    }
}

/// A rule file that is refused by this number.
fn refused_rule(random: &mut Random, fault: u32) -> Vec<u8> {
    loop {
        let bytes = faulty_rule(random, &[fault]);
        if rules::read(&bytes).is_err_and(|(number, _)| number == fault) {
            return bytes;
        }
    }
}

fn digits(number: u128) -> Vec<u8> {
    number.to_string().into_bytes()
}

fn number(digits: &[u8]) -> u128 {
    String::from_utf8_lossy(digits).parse().expect("a limit is a number")
}

/// These digits after so many noughts.
fn after_noughts(count: usize, digits: &[u8]) -> Vec<u8> {
    [&vec![b'0'; count], digits].concat()
}

/// A line before it is written.
struct JobDraft {
    name: Vec<u8>,
    limits: [Vec<u8>; 2],
    whole: u128,
}

impl JobDraft {
    fn bytes(&self) -> Vec<u8> {
        [&self.name, &self.limits[0], &self.limits[1]].map(|field| &field[..]).join(&b' ')
    }

    /// The line with one of its limits changed, or both.
    fn with_limits(mut self, random: &mut Random, change: impl Fn(&mut Random, &[u8]) -> Vec<u8>) -> Vec<u8> {
        let which = random.below(3);
        for (at, limit) in self.limits.iter_mut().enumerate() {
            if which != at {
                *limit = change(random, limit);
            }
        }
        self.bytes()
    }

    /// The line with one of these bytes put into a limit, at its start, its end or between.
    fn with_byte(self, random: &mut Random, bytes: &[u8]) -> Vec<u8> {
        self.with_limits(random, |random, limit| {
            let mut limit = limit.to_vec();
            limit.insert(often_at_an_end(random, limit.len() + 1), random.pick(bytes));
            limit
        })
    }

    /// The line with one of these bytes after it.
    fn with_end(&self, random: &mut Random, bytes: &[u8]) -> Vec<u8> {
        [self.bytes(), vec![random.pick(bytes)]].concat()
    }

    /// The line with one of its blanks, or both, replaced.
    fn with_blanks(&self, random: &mut Random, others: &[&[u8]]) -> Vec<u8> {
        let mut blanks = [&b" "[..]; 2];
        let which = random.below(3);
        for (at, blank) in blanks.iter_mut().enumerate() {
            if which != at {
                *blank = random.pick(others);
            }
        }
        [&self.name, blanks[0], &self.limits[0], blanks[1], &self.limits[1]].concat()
    }
}

/// A form of lines.
struct Shape {
    name: &'static str,
    /// Whether the result for such a line is always a refusal; else it never is.
    refused: bool,
    make: Make,
}

type Make = fn(&mut Random, &Folder) -> Vec<u8>;

const fn refused(name: &'static str, make: Make) -> Shape {
    Shape { name, refused: true, make }
}

const fn judged(name: &'static str, make: Make) -> Shape {
    Shape { name, refused: false, make }
}

const SHAPES: [Shape; 36] = [
    judged("limits in order", |random, folder| folder.plain(random).bytes()),
    refused("limits crossed", |random, folder| {
        let mut job = folder.plain(random);
        job.limits[0] = digits(number(&job.limits[1]) + random.within(1, 3) as u128);
        job.bytes()
    }),
    refused("upper limit over the whole", |random, folder| {
        let mut job = folder.plain(random);
        job.limits[1] = digits(random.pick(&[job.whole + 1, job.whole + 2, 2 * job.whole, 1 << 63]));
        job.bytes()
    }),
    refused("limit of 2^64 - 1", |random, folder| {
        folder.plain(random).with_limits(random, |_, _| digits(u64::MAX.into()))
    }),
    refused("limit 2^64 larger", |random, folder| {
        folder.plain(random).with_limits(random, |_, limit| digits(number(limit) + (1 << 64)))
    }),
    refused("limit larger by a multiple of 2^64", |random, folder| {
        let times = random.pick(&[2, 5, 6, 9, 10, 11, 100, 1 << 32, (1 << 64) - 1]);
        folder.plain(random).with_limits(random, |_, limit| digits(number(limit) + (times << 64)))
    }),
    judged("few leading noughts", |random, folder| {
        let count = random.within(1, 3);
        folder.plain(random).with_limits(random, |_, limit| after_noughts(count, limit))
    }),
    judged("19 to 21 digits", |random, folder| {
        let length = random.within(19, 21);
        folder.plain(random).with_limits(random, |_, limit| after_noughts(length - limit.len(), limit))
    }),
    judged("many leading noughts", |random, folder| {
        let count = random.within(30, 60);
        folder.plain(random).with_limits(random, |_, limit| after_noughts(count, limit))
    }),
    refused("2^64 - 1 or more after noughts", |random, folder| {
        let larger = digits(random.pick(&[u64::MAX.into(), 1 << 64, 99_999_999_999_999_999_999]));
        let count = random.within(1, 30);
        folder.plain(random).with_limits(random, |_, _| after_noughts(count, &larger))
    }),
    refused("empty limit", |random, folder| folder.plain(random).with_limits(random, |_, _| Vec::new())),
    refused("fewer fields", |random, folder| {
        let job = folder.plain(random);
        random.pick(&[&job.name, &[&job.name[..], &job.limits[1]].join(&b' '), &job.limits[0]]).clone()
    }),
    refused("another field", |random, folder| {
        let other = random.pick(&[&b"0"[..], b"x", b"#", b"a 0 1", b"\r"]);
        [&folder.plain(random).bytes(), other].join(&b' ')
    }),
    refused("blanks alone", |random, _| vec![b' '; random.within(1, 3)]),
    refused("blank at the start", |random, folder| [b" ", &folder.plain(random).bytes()[..]].concat()),
    refused("blank at the end", |random, folder| folder.plain(random).with_end(random, b" ")),
    refused("two blanks", |random, folder| folder.plain(random).with_blanks(random, &[b"  "])),
    refused("tab for a blank", |random, folder| folder.plain(random).with_blanks(random, &[b"\t"])),
    refused("tab beside a blank", |random, folder| folder.plain(random).with_blanks(random, &[b"\t ", b" \t"])),
    refused("byte 13 at the end", |random, folder| folder.plain(random).with_end(random, b"\r")),
    refused("other white space at the end", |random, folder| {
        folder.plain(random).with_end(random, b"\t\x0b\x0c\x85\xa0")
    }),
    refused("empty line", |_, _| Vec::new()),
    refused("byte 0 in the name", |random, folder| {
        let mut job = folder.plain(random);
        job.name.insert(random.below(2), 0);
        job.name.extend(random.pick(&[&b""[..], b"x"]));
        job.bytes()
    }),
    refused("byte 0 in a limit", |random, folder| folder.plain(random).with_byte(random, b"\0")),
    refused("sign", |random, folder| folder.plain(random).with_byte(random, b"+-")),
    refused("byte 47 or 58", |random, folder| folder.plain(random).with_byte(random, b"/:")),
    refused("letter or mark in a limit", |random, folder| {
        folder.plain(random).with_byte(random, b"aefxABFLu.,_'\xb2\xff")
    }),
    refused("missing file", |random, folder| {
        JobDraft { name: random.pick(&MISSING).to_vec(), ..folder.plain(random) }.bytes()
    }),
    refused("directory", |random, folder| {
        JobDraft { name: random.pick(&DIRECTORIES).to_vec(), ..folder.plain(random) }.bytes()
    }),
    refused("name that is too long", |random, folder| {
        let mut job = folder.plain(random);
        let length = LONGEST_NAME + random.pick(&[1, 2, 3, 100]);
        job.name = if random.once_in(3) { vec![b'n'; LONGEST_PART + 1] } else { long_name(&job.name, length) };
        job.bytes()
    }),
    judged("name of 4,095 bytes", |random, folder| folder.job(random, Sort::LongName).bytes()),
    judged("odd name", |random, folder| folder.job(random, Sort::Odd).bytes()),
    refused("name that is no UTF-8", |random, folder| folder.job(random, Sort::NoText).bytes()),
    refused("refused file", |random, folder| folder.job(random, Sort::Refused).bytes()),
    judged("file of 65,536 bytes", |random, folder| folder.job(random, Sort::Longest).bytes()),
    refused("file over 65,536 bytes", |random, folder| folder.job(random, Sort::TooLong).bytes()),
];

/// The shapes of lines that are as long as is wanted.
const FILLED: [&str; 3] = ["filled with noughts", "filled with a name", "filled with one field"];

/// A line of a random list.
struct Line {
    shape: &'static str,
    /// Whether the result for it is a refusal.
    refused: bool,
    bytes: Vec<u8>,
}

/// A line of at most so many bytes, often with limits in order.
fn line(random: &mut Random, folder: &Folder, most: usize) -> Line {
    loop {
        let shape = &SHAPES[if random.once_in(3) { 0 } else { random.below(SHAPES.len()) }];
        let bytes = (shape.make)(random, folder);
        if bytes.len() <= most {
            return Line { shape: shape.name, refused: shape.refused, bytes };
        }
    }
}

/// A line of so many bytes, at least some hundred.
fn filled_line(random: &mut Random, folder: &Folder, length: usize) -> Line {
    let mut job = folder.plain(random);
    let more = length - job.bytes().len();
    let shape = random.below(FILLED.len());
    let bytes = match shape {
        0 => {
            let limit = &mut job.limits[random.below(2)];
            *limit = after_noughts(more, limit);
            job.bytes()
        }
        1 => {
            job.name.resize(job.name.len() + more, b'x');
            job.bytes()
        }
        _ => vec![b'x'; length],
    };
    Line { shape: FILLED[shape], refused: shape > 0, bytes }
}

/// A list before it is written.
pub struct ListDraft {
    lines: Vec<Line>,
    /// Whether the last line is closed by a line feed.
    closed: bool,
}

impl ListDraft {
    fn new(random: &mut Random, lines: Vec<Line>) -> ListDraft {
        // Without a line feed an empty last line would be none.
        let closed = random.once_in(2) || lines.last().is_some_and(|line| line.bytes.is_empty());
        ListDraft { lines, closed }
    }

    pub fn bytes(&self) -> Vec<u8> {
        let mut bytes = Vec::new();
        for line in &self.lines {
            bytes.extend(&line.bytes);
            bytes.push(b'\n');
        }
        if !self.closed {
            bytes.pop();
        }
        bytes
    }
}

/// A list, mostly of few lines; sometimes of hundreds, of about 4,096 or of about 65,536 bytes.
pub fn list(random: &mut Random, folder: &Folder) -> ListDraft {
    let (count, most) = match random.below(60) {
        0..4 => (random.pick(&[4_095, 4_096, 4_096, 4_096, 4_096, 4_097, 4_097, 4_097]), 9),
        4..11 => return filled_list(random, folder),
        11..13 => (random.within(100, 1_000), 60),
        _ => (random.within(0, 12), usize::MAX),
    };
    let mut lines: Vec<Line> = (0..count).map(|_| line(random, folder, most)).collect();
    if let Some(first) = lines.first_mut().filter(|_| random.once_in(12)) {
        *first = Line { shape: "empty line", refused: true, bytes: Vec::new() };
    }
    ListDraft::new(random, lines)
}

fn filled_list(random: &mut Random, folder: &Folder) -> ListDraft {
    let lines = (0..random.within(1, 8)).map(|_| line(random, folder, 60)).collect();
    let mut list = ListDraft::new(random, lines);
    let length = random.pick(&[65_535, 65_536, 65_536, 65_537, 65_537]) - list.bytes().len();
    let filled = filled_line(random, folder, length - 1);
    list.lines.insert(random.below(list.lines.len() + 1), filled);
    list
}

/// What the lines of random lists had, of those lists that were not refused.
#[derive(Default)]
pub struct Seen {
    /// How many lines were of each shape.
    shapes: BTreeMap<&'static str, u64>,
    /// How many results were of each kind.
    kinds: [u64; 5],
    refused_lists: u64,
}

impl Seen {
    /// Takes in a list. Fails unless each of its lines is refused or not as its shape says.
    pub fn take(&mut self, draft: &ListDraft, folder: &Folder) {
        let bytes = draft.bytes();
        let Ok(jobs) = list::read(&bytes) else {
            self.refused_lists += 1;
            return;
        };
        assert_eq!(jobs.len(), draft.lines.len(), "{}", bytes.escape_ascii());
        for (job, line) in jobs.iter().zip(&draft.lines) {
            let kind = job.as_ref().map_or(Kind::Refused, |job| folder.kind(job));
            assert_eq!(kind == Kind::Refused, line.refused, "{}: {}", line.shape, line.bytes.escape_ascii());
            *self.shapes.entry(line.shape).or_default() += 1;
            self.kinds[kind as usize] += 1;
        }
    }

    /// Prints the counts (seen with `--nocapture`) and fails unless there were at least so many lines of each shape,
    /// results of each kind and lists that were refused.
    pub fn reached(&self, lines: u64, results: u64, refused_lists: u64) {
        println!("  refused, above, below, within: {:?}; lists refused: {}", &self.kinds[1..], self.refused_lists);
        for shape in SHAPES.iter().map(|shape| shape.name).chain(FILLED) {
            let count = self.shapes.get(shape).copied().unwrap_or(0);
            println!("  {shape}: {count} lines");
            assert!(count >= lines, "{shape}: {count} lines only");
        }
        assert!(self.kinds[1..].iter().all(|count| *count >= results), "results: {:?}", self.kinds);
        assert!(self.refused_lists >= refused_lists, "{} lists refused", self.refused_lists);
    }
}

/// A tally: often all counts are small, often one is about 4,096 or far past it, sometimes several are.
pub fn tally(random: &mut Random) -> Tally {
    let mut counts = [0; 5].map(|_: u64| random.pick(&[0, 0, 1, 7, 1_000, 4_094]));
    for _ in 0..random.pick(&[0, 0, 0, 0, 1, 1, 1, 1, 2, 5]) {
        let large = [4_095, 4_095, 4_096, 4_096, 4_097, 1 << 16, 1 << 32, (1 << 32) + 7, 1 << 63, u64::MAX];
        counts[random.below(5)] = random.pick(&large);
    }
    Tally(counts)
}
