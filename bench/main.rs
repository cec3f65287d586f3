//! The proved solver, through its static library, against the unproved peer: same machine, same
//! input, both optimised. Prints Markdown tables.
//!
//!     cargo bench --manifest-path tests/peer/Cargo.toml
//!     cargo bench --manifest-path tests/peer/Cargo.toml -- programs repairs
//!
//! The second prints the named tables only: programs, hard, trees, derivations, writing, readers, repairs, points.
//!
//! In the first table whole programs are compared: `ssat`, from the directory in SSAT_BIN_DIR or else from
//! `crates/ssat/out`, and the peer's search in a program that prints the same. Each is started anew for each run.
//!
//! In the others the proved solver runs in a thread with a stack of 1 MiB. Both solvers are given the bytes of a
//! file and read it.
//!
//! The second table has files on which a good search is needed, and the peer's own search. There
//! the proved solver is a process of its own, which is ended after 60 seconds, or after those of
//! the variable BENCH_SECONDS; it then has no time in the table.
//!
//! In the third table "nodes" are those of the plain tree that stops where all clauses are
//! satisfied, one is falsified or two clash, counted by the peer; a search visits fewer. The peer
//! solves each file in two ways: "walk" visits that tree, unless it is too large, "tables" shares
//! nodes with the same undetermined clauses.

#[cfg(feature = "no-ffi")]
fn main() {
    eprintln!("The benchmark needs the static library: build without `no-ffi`.");
}

#[cfg(not(feature = "no-ffi"))]
fn main() {
    let arguments: Vec<String> = std::env::args().collect();
    match &arguments[1..] {
        [command, question, n, limits @ ..] if command == "process" => {
            bench::process(question, n, limits)
        }
        [command] if command == "report" => bench::report(),
        names => bench::main(names),
    }
}

#[cfg(not(feature = "no-ffi"))]
mod bench {
    use peer::answer::{self, Solver};
    use peer::ffi::{direct, read_small_on_stack};
    use peer::generate::{self, Family, Freedom, RuleDraft, Shape};
    use peer::guard::on_stack;
    use peer::random::Random;
    use peer::rules::{self, Rules};
    use peer::search::{self, Verdict};
    use peer::tables::Tables;
    use peer::writer::{self, DerivationDraft, Limits, Writer};
    use peer::{derivation, walk};
    use std::collections::HashSet;
    use std::env;
    use std::hint::black_box;
    use std::io::{Read, Write};
    use std::process::{Command, Stdio};
    use std::thread::sleep;
    use std::time::{Duration, Instant};

    const STACK: usize = 1 << 20;
    /// The peer does not walk a tree of more nodes than this.
    const MOST_WALKED: u128 = 10_000_000;

    /// Seconds for one run: the least of several runs, or a single one that takes long.
    fn seconds(mut run: impl FnMut()) -> f64 {
        let begin = Instant::now();
        let mut least = f64::INFINITY;
        for runs in 1..=1_000 {
            let one = Instant::now();
            run();
            least = least.min(one.elapsed().as_secs_f64());
            let all = begin.elapsed().as_secs_f64();
            if all > 1.5 || runs >= 3 && all > 0.15 {
                break;
            }
        }
        least
    }

    /// The same in a thread with a stack of 1 MiB: also the bytes of stack used.
    fn seconds_on_stack(run: &mut (dyn FnMut() + Send)) -> (f64, usize) {
        let stack = on_stack(STACK, run);
        let mut least = 0.0;
        on_stack(STACK, &mut || least = seconds(&mut *run));
        (least, stack)
    }

    fn rules_of(bytes: &[u8]) -> Rules {
        rules::read(bytes).expect("an accepted rule file")
    }

    /// So many clauses, no two of them alike.
    fn distinct(count: usize, mut draw: impl FnMut() -> Vec<u32>) -> Vec<Vec<u32>> {
        let (mut seen, mut clauses) = (HashSet::new(), Vec::new());
        while clauses.len() < count {
            let clause = draw();
            if seen.insert(clause.clone()) {
                clauses.push(clause);
            }
        }
        clauses
    }

    /// Milliseconds, with about three figures.
    fn ms(seconds: f64) -> String {
        let ms = seconds * 1e3;
        let places = if ms < 0.1 {
            4
        } else if ms < 1.0 {
            3
        } else if ms < 10.0 {
            2
        } else if ms < 100.0 {
            1
        } else {
            0
        };
        format!("{ms:.places$}")
    }

    /// A ratio, with about three figures.
    fn ratio(a: f64, b: f64) -> String {
        let ratio = a / b;
        let places = if ratio < 0.01 {
            4
        } else if ratio < 10.0 {
            2
        } else if ratio < 100.0 {
            1
        } else {
            0
        };
        format!("{ratio:.places$}")
    }

    // -----------------------------------------------------------------------------------------
    // Hard files
    // -----------------------------------------------------------------------------------------

    /// For each shape the number of variables, the literals a clause and the clauses a variable.
    const HARD: [(&str, Shape, [[usize; 3]; 8]); 5] = [
        (
            "randomized",
            Shape::Randomized,
            [
                [20, 4, 4],
                [24, 5, 8],
                [24, 9, 32],
                [28, 7, 16],
                [32, 4, 2],
                [32, 5, 8],
                [32, 6, 16],
                [32, 9, 32],
            ],
        ),
        (
            "existential",
            Shape::Existential,
            [
                [24, 4, 10],
                [28, 4, 10],
                [28, 5, 21],
                [32, 4, 8],
                [32, 4, 10],
                [32, 4, 12],
                [32, 5, 21],
                [32, 6, 32],
            ],
        ),
        (
            "alternating",
            Shape::Alternating,
            [
                [20, 7, 16],
                [24, 4, 8],
                [24, 6, 16],
                [28, 5, 4],
                [32, 4, 4],
                [32, 5, 16],
                [32, 6, 8],
                [32, 9, 16],
            ],
        ),
        (
            "existential first",
            Shape::ExistentialFirst,
            [
                [20, 5, 8],
                [24, 4, 2],
                [24, 9, 32],
                [28, 6, 16],
                [32, 4, 4],
                [32, 5, 4],
                [32, 6, 32],
                [32, 7, 8],
            ],
        ),
        (
            "randomized first",
            Shape::RandomizedFirst,
            [
                [20, 6, 16],
                [24, 5, 8],
                [24, 9, 32],
                [28, 4, 4],
                [32, 4, 4],
                [32, 6, 16],
                [32, 7, 32],
                [32, 9, 16],
            ],
        ),
    ];

    /// What is asked of a hard file.
    #[derive(Clone, Copy)]
    enum Question {
        Figure,
        /// A verdict with both limits at the value, one with limits under it, by a tenth, and one
        /// with limits over it, as far as there are such.
        Verdicts,
        Cut(usize),
        /// The cuts at all levels.
        Cuts,
    }

    impl Question {
        fn name(self) -> String {
            match self {
                Question::Figure => "figure".to_string(),
                Question::Verdicts => "verdicts".to_string(),
                Question::Cut(level) => format!("cut {level}"),
                Question::Cuts => "all cuts".to_string(),
            }
        }

        fn of(name: &str) -> Question {
            match name {
                "figure" => Question::Figure,
                "verdicts" => Question::Verdicts,
                "all cuts" => Question::Cuts,
                _ => Question::Cut(name.trim_start_matches("cut ").parse().unwrap()),
            }
        }

        /// The numbers of the proved solver's answers.
        fn proved(self, file: &[u8], n: usize, limits: &[[u64; 2]]) -> Vec<u64> {
            let answers = match self {
                Question::Figure => vec![direct::figure(file)],
                Question::Verdicts => {
                    let verdict = |&[lo, hi]: &[u64; 2]| direct::verdict(file, lo, hi);
                    limits.iter().map(verdict).collect()
                }
                Question::Cut(level) => vec![direct::cut(file, level as u64)],
                Question::Cuts => (0..=n)
                    .map(|level| direct::cut(file, level as u64))
                    .collect(),
            };
            assert!(answers.iter().all(|(code, _)| *code == 0));
            answers
                .iter()
                .flat_map(|(_, out)| &out[..3])
                .copied()
                .collect()
        }

        /// The same of the peer's search.
        fn peer(self, file: &[u8], limits: &[[u64; 2]]) -> Vec<u64> {
            let rules = rules_of(file);
            let verdict = |&[lo, hi]: &[u64; 2]| match search::verdict(&rules, lo, hi) {
                Verdict::Above => [1, 0, 0],
                Verdict::Below => [2, 0, 0],
                Verdict::Within(value) => [0, value, 0],
            };
            let answers = match self {
                Question::Figure => vec![[search::value(&rules), rules.whole() as u64, 0]],
                Question::Verdicts => limits.iter().map(verdict).collect(),
                Question::Cut(level) => vec![search::cut(&rules, level)],
                Question::Cuts => search::cuts(&rules),
            };
            answers.concat()
        }
    }

    /// Limits at a value, under it and over it.
    fn limits(value: u64, whole: u64) -> Vec<[u64; 2]> {
        let mut limits = vec![[value, value]];
        if value > 0 {
            limits.push([0, value - 1 - value / 10]);
        }
        if value < whole {
            limits.push([value + 1 + (value / 10).min(whole - value - 1), whole]);
        }
        limits
    }

    /// How long the proved solver took, how much stack, and what it answered.
    struct Proved {
        seconds: f64,
        stack: usize,
        numbers: Vec<u64>,
    }

    /// The process that `proved` starts: the file comes on standard input.
    pub fn process(question: &str, n: &str, limits: &[String]) {
        let question = Question::of(question);
        let n = n.parse().unwrap();
        let limits: Vec<u64> = limits.iter().map(|limit| limit.parse().unwrap()).collect();
        let limits: Vec<[u64; 2]> = limits
            .chunks_exact(2)
            .map(|pair| [pair[0], pair[1]])
            .collect();
        let mut file = Vec::new();
        std::io::stdin().read_to_end(&mut file).unwrap();
        let mut numbers = Vec::new();
        let mut run = || numbers = question.proved(black_box(&file), n, &limits);
        let (least, stack) = seconds_on_stack(&mut run);
        println!("{least} {stack}");
        numbers.iter().for_each(|number| println!("{number}"));
    }

    /// Asks the proved solver in a process of its own; none if that takes longer than `most`.
    fn proved(
        file: &[u8],
        question: Question,
        n: usize,
        limits: &[[u64; 2]],
        most: Duration,
    ) -> Option<Proved> {
        let mut process = Command::new(env::current_exe().unwrap())
            .args(["process", &question.name(), &n.to_string()])
            .args(limits.iter().flatten().map(u64::to_string))
            .stdin(Stdio::piped())
            .stdout(Stdio::piped())
            .spawn()
            .unwrap();
        process.stdin.take().unwrap().write_all(file).unwrap();
        let begin = Instant::now();
        while process.try_wait().unwrap().is_none() {
            if begin.elapsed() > most {
                process.kill().unwrap();
                process.wait().unwrap();
                return None;
            }
            sleep(Duration::from_millis(2));
        }
        let mut text = String::new();
        process.stdout.unwrap().read_to_string(&mut text).unwrap();
        let (times, numbers) = text.split_once('\n').expect("an answer");
        let (seconds, stack) = times.split_once(' ').unwrap();
        Some(Proved {
            seconds: seconds.parse().unwrap(),
            stack: stack.parse().unwrap(),
            numbers: numbers
                .lines()
                .map(|number| number.parse().unwrap())
                .collect(),
        })
    }

    /// The ratios of one kind of question.
    #[derive(Default)]
    struct Ratios {
        found: Vec<(f64, String)>,
        /// How many runs took too long.
        ended: usize,
    }

    impl Ratios {
        /// The geometric mean, and the largest with its row.
        fn print(&self, kind: &str) {
            let Ratios { found, ended } = self;
            let Some((mean, worst, row)) = self.mean_and_worst() else {
                println!("{kind}: no ratio, {ended} runs ended");
                return;
            };
            println!(
                "{kind}: geometric mean {mean:.2} of {} ratios, the worst {worst:.2} ({row}); {ended} runs ended",
                found.len(),
            );
        }

        /// The geometric mean, and the largest with its row, if there is one.
        fn mean_and_worst(&self) -> Option<(f64, f64, &str)> {
            let found = &self.found;
            let (worst, row) = found.iter().max_by(|a, b| a.0.total_cmp(&b.0))?;
            let mean = found.iter().map(|(ratio, _)| ratio.ln()).sum::<f64>() / found.len() as f64;
            Some((mean.exp(), *worst, row))
        }
    }

    /// The file of a hard family, the same in every run.
    fn hard_rule(shape: Shape, n: usize, k: usize, per_variable: usize) -> RuleDraft {
        let mut random = Random::new((n * 10_000 + k * 100 + per_variable) as u64);
        let family = Family {
            shape,
            n,
            k,
            per_variable,
        };
        generate::hard_rule(&mut random, family)
    }

    /// Figure, verdicts and cuts of the hard families, and the ratios as a whole.
    fn hard() {
        let most = env::var("BENCH_SECONDS").map_or(60.0, |text| text.parse().unwrap());
        let most = Duration::from_secs_f64(most);
        println!("| quantifiers | literals a clause | n | m | operation | proved, ms | peer, ms | proved / peer | stack, bytes |");
        println!("|---|--:|--:|--:|---|--:|--:|--:|--:|");
        let [mut values, mut cuts] = [Ratios::default(), Ratios::default()];
        for (name, shape, families) in HARD {
            for [n, k, per_variable] in families {
                let rule = hard_rule(shape, n, k, per_variable);
                let (file, m) = (rule.bytes(), rule.clauses.len());
                let rules = rules_of(&file);
                let limits = limits(search::value(&rules), rules.whole() as u64);
                let mut questions = vec![
                    Question::Figure,
                    Question::Verdicts,
                    Question::Cut(n / 2),
                    Question::Cut(3 * n / 4),
                ];
                if n <= 28 {
                    questions.push(Question::Cuts);
                }
                for question in questions {
                    let ratios = match question {
                        Question::Figure | Question::Verdicts => &mut values,
                        Question::Cut(_) | Question::Cuts => &mut cuts,
                    };
                    let mut numbers = Vec::new();
                    let peer = seconds(|| numbers = question.peer(black_box(&file), &limits));
                    let row = format!("{name} | {k} | {n} | {m} | {}", question.name());
                    let Some(proved) = proved(&file, question, n, &limits, most) else {
                        ratios.ended += 1;
                        println!("| {row} | - | {} | - | - |", ms(peer));
                        continue;
                    };
                    assert_eq!(proved.numbers, numbers, "{row}");
                    ratios
                        .found
                        .push((proved.seconds / peer, row.replace(" | ", ", ")));
                    println!(
                        "| {row} | {} | {} | {} | {} |",
                        ms(proved.seconds),
                        ms(peer),
                        ratio(proved.seconds, peer),
                        proved.stack
                    );
                }
            }
        }
        println!();
        values.print("figure and verdicts");
        println!();
        cuts.print("cuts");
    }

    // -----------------------------------------------------------------------------------------
    // Whole programs
    // -----------------------------------------------------------------------------------------

    /// Literals a clause, and clauses a variable.
    const KINDS: [[usize; 2]; 10] = [
        [3, 2],
        [3, 3],
        [4, 3],
        [4, 6],
        [4, 8],
        [5, 4],
        [5, 12],
        [6, 8],
        [6, 16],
        [7, 16],
    ];

    /// The program that the peer is compared by: it prints what `ssat` prints for an accepted file.
    pub fn report() {
        let mut file = Vec::new();
        std::io::stdin().read_to_end(&mut file).unwrap();
        let rules = rules_of(&file);
        let cuts = search::cuts(&rules);
        let n = rules.n();
        let mut text = format!(
            "vars {n}\nclauses {}\nwhole {}\nvalue {}\n",
            rules.clauses.len(),
            rules.whole(),
            cuts[n][0]
        );
        for (level, [lower, upper, open]) in cuts.iter().enumerate() {
            text += &format!("cut {level} {lower} {upper} {open}\n");
        }
        std::io::stdout().write_all(text.as_bytes()).unwrap();
    }

    /// Seconds for one run of a program on a file, and what it prints: the least of several runs.
    fn program(command: &mut Command, file: &[u8]) -> (f64, Vec<u8>) {
        let mut text = Vec::new();
        let least = seconds(|| {
            let mut process = command
                .stdin(Stdio::piped())
                .stdout(Stdio::piped())
                .spawn()
                .unwrap();
            process.stdin.take().unwrap().write_all(file).unwrap();
            text = process.wait_with_output().unwrap().stdout;
        });
        (least, text)
    }

    /// Ten files for each order of the quantifiers and each number of variables, by whole programs.
    fn programs() {
        let directory = env::var("SSAT_BIN_DIR").unwrap_or_else(|_| {
            concat!(env!("CARGO_MANIFEST_DIR"), "/../../crates/ssat/out").to_string()
        });
        let mut ssat = Command::new(format!("{directory}/ssat"));
        let mut peer = Command::new(env::current_exe().unwrap());
        peer.arg("report");
        println!("| quantifiers | n | files | proved, ms, the longest | proved / peer, geometric mean | the worst |");
        println!("|---|--:|--:|--:|--:|---|");
        let mut sums = Vec::new();
        for n in [24, 32] {
            let mut all = Ratios::default();
            for (name, shape, _) in HARD {
                let mut ratios = Ratios::default();
                let mut longest: f64 = 0.0;
                for [k, per_variable] in KINDS {
                    let rule = hard_rule(shape, n, k, per_variable);
                    let (file, m) = (rule.bytes(), rule.clauses.len());
                    let (time, text) = program(&mut ssat, &file);
                    let (peer_time, peer_text) = program(&mut peer, &file);
                    let row = format!("{k} literals, m = {m}");
                    assert!(text == peer_text, "{name}, n = {n}, {row}");
                    longest = longest.max(time);
                    ratios.found.push((time / peer_time, row));
                }
                let (mean, worst, row) = ratios.mean_and_worst().unwrap();
                let files = ratios.found.len();
                println!(
                    "| {name} | {n} | {files} | {} | {mean:.2} | {worst:.2}: {row} |",
                    ms(longest)
                );
                all.found.append(&mut ratios.found);
            }
            sums.push((n, all));
        }
        println!();
        for (n, all) in sums {
            all.print(&format!("whole programs, n = {n}"));
            println!();
        }
    }

    // -----------------------------------------------------------------------------------------
    // Trees
    // -----------------------------------------------------------------------------------------

    /// Random clauses of three literals, three times as many as variables.
    fn three_clauses(seed: u64, n: usize, randomized: impl Fn(usize) -> bool) -> RuleDraft {
        let mut random = Random::new(seed + n as u64);
        let clauses = distinct(3 * n, || generate::clause(&mut random, n, 3));
        let pair = |v| {
            if randomized(v) {
                random.pick(&[[1, 1], [1, 2], [2, 1]])
            } else {
                [0, 0]
            }
        };
        RuleDraft {
            clauses,
            prefix: (0..n).map(pair).collect(),
        }
    }

    /// Places that hold or fail, randomized, come first; then for each of three things and each
    /// place an existential variable "the thing is there". A thing is somewhere, in one place
    /// only, in a place that holds, and shares it with no other.
    fn placement(n: usize) -> RuleDraft {
        const THINGS: usize = 3;
        let places = n / (THINGS + 1);
        let is_at = |thing: usize, place: usize| 2 * (places + thing * places + place) as u32;
        let mut clauses = Vec::new();
        for thing in 0..THINGS {
            clauses.push((0..places).map(|place| is_at(thing, place)).collect());
            for place in 0..places {
                clauses.push(vec![2 * place as u32, is_at(thing, place) + 1]);
                for other in 0..place {
                    clauses.push(vec![is_at(thing, other) + 1, is_at(thing, place) + 1]);
                }
                for other in 0..thing {
                    clauses.push(vec![is_at(other, place) + 1, is_at(thing, place) + 1]);
                }
            }
        }
        let mut prefix = vec![[0, 0]; n];
        for (place, pair) in prefix.iter_mut().take(places).enumerate() {
            *pair = [20 + place as u32, 1 + place as u32 % 3];
        }
        RuleDraft { clauses, prefix }
    }

    /// One clause of one literal, on the last variable: it decides no node before level n.
    fn last_clause(n: usize) -> RuleDraft {
        RuleDraft {
            clauses: vec![vec![2 * (n as u32 - 1)]],
            prefix: vec![[0, 0]; n],
        }
    }

    type Tree = (&'static str, fn(usize) -> RuleDraft);

    const TREES: [Tree; 6] = [
        ("3-clauses, alternating", |n| {
            three_clauses(1_000, n, |v| v % 2 == 1)
        }),
        ("3-clauses, blocks of 8", |n| {
            three_clauses(2_000, n, |v| v / 8 % 2 == 1)
        }),
        ("all randomized", |n| three_clauses(3_000, n, |_| true)),
        ("all existential", |n| three_clauses(4_000, n, |_| false)),
        ("placement", placement),
        ("one clause, on the last", last_clause),
    ];

    fn trees() {
        println!("| family | n | m | operation | nodes | proved, ms | ns a node | walk, ms | proved / walk | tables, ms | proved / tables | stack, bytes |");
        println!("|---|--:|--:|---|--:|--:|--:|--:|--:|--:|--:|--:|");
        for (name, make) in TREES {
            for n in [16, 24, 32] {
                let file = make(n).bytes();
                let rules = rules_of(&file);
                let tables = Tables::new(&rules);
                for level in [None, Some(n / 2)] {
                    let nodes = tables.nodes(level.unwrap_or(n));
                    let operation =
                        level.map_or("figure".to_string(), |level| format!("cut {level}"));
                    let run = tree(&file, level, nodes <= MOST_WALKED);
                    let walk = run.walk.map_or("- | -".to_string(), |walk| {
                        [ms(walk), ratio(run.proved, walk)].join(" | ")
                    });
                    println!(
                        "| {name} | {n} | {} | {operation} | {nodes} | {} | {:.0} | {walk} | {} | {} | {} |",
                        rules.clauses.len(),
                        ms(run.proved),
                        run.proved * 1e9 / nodes as f64,
                        ms(run.tables),
                        ratio(run.proved, run.tables),
                        run.stack
                    );
                }
            }
        }
    }

    struct Run {
        proved: f64,
        /// None if the tree is not walked.
        walk: Option<f64>,
        tables: f64,
        stack: usize,
    }

    /// Times the figure, or the cut at a level, and compares the answers.
    fn tree(file: &[u8], level: Option<usize>, walked: bool) -> Run {
        let mut got = (0, [0; 4]);
        let mut call = || {
            got = match level {
                None => direct::figure(black_box(file)),
                Some(level) => direct::cut(black_box(file), level as u64),
            }
        };
        let (proved, stack) = seconds_on_stack(&mut call);
        let walk = || {
            let rules = rules_of(black_box(file));
            let numbers = match level {
                None => [walk::value(&rules).0, rules.whole() as u64, 0],
                Some(level) => walk::cut(&rules, level).0,
            };
            assert_eq!(got, (0, [numbers[0], numbers[1], numbers[2], 0]));
        };
        let walk = walked.then(|| seconds(walk));
        let tables = seconds(|| {
            let rules = rules_of(black_box(file));
            let numbers = match level {
                None => [Tables::new(&rules).value(), rules.whole(), 0],
                Some(level) => Tables::down_to(&rules, level).cut(level),
            };
            let numbers = numbers.map(|number| number as u64);
            assert_eq!(got, (0, [numbers[0], numbers[1], numbers[2], 0]));
        });
        Run {
            proved,
            walk,
            tables,
            stack,
        }
    }

    // -----------------------------------------------------------------------------------------
    // Derivations
    // -----------------------------------------------------------------------------------------

    /// A derivation of 950 to 1,024 lines that the writer writes.
    fn walked() -> (RuleDraft, DerivationDraft) {
        let mut random = Random::new(5_000);
        loop {
            let n = random.within(11, 13);
            let m = random.within(2 * n, 4 * n);
            let clauses = distinct(m, || generate::clause(&mut random, n, 3));
            let prefix = (0..n)
                .map(|v| if v % 2 == 0 { [0, 0] } else { [2, 1] })
                .collect();
            let rule = RuleDraft { clauses, prefix };
            let limits = Limits::for_buffer(65_536);
            let draft = writer::derivation(&rules_of(&rule.bytes()), limits);
            if let Some(draft) = draft.filter(|draft| draft.lines.len() >= 950) {
                return (rule, draft);
            }
        }
    }

    /// 1,000 resolvents of parents taken at random from 1,000 clauses and the lines before; one
    /// more closes.
    fn wandered() -> (RuleDraft, DerivationDraft) {
        let mut random = Random::new(6_000);
        let n = 16;
        let mut clauses = distinct(998, || generate::clause(&mut random, n, 3));
        clauses.extend([vec![0], vec![1]]);
        let rule = RuleDraft {
            clauses,
            prefix: vec![[1, 1]; n],
        };
        let rules = rules_of(&rule.bytes());
        let limits = Limits {
            bytes: 65_536,
            lines: 1_000,
        };
        let mut writer = Writer::new(&rules, limits);
        Freedom::default().wander(&mut random, &mut writer, 1_000_000);
        writer.limits.lines = 1_024;
        let closing = writer
            .write_resolvent(2 * 999, 2 * 998)
            .expect("clauses {1} and {0}");
        (rule, writer.finish(closing))
    }

    /// 1,000 times the same line of kind 1, of ten literals, over 1,000 clauses; ten more close. Ten
    /// clauses are the opposites of these literals, and each other one has one of them.
    fn blocked() -> (RuleDraft, DerivationDraft) {
        let mut random = Random::new(7_000);
        let n = 20;
        let mut clauses: Vec<Vec<u32>> = (0..10).map(|v| vec![2 * v + 1]).collect();
        clauses.extend(distinct(990, || {
            let mut clause = vec![2 * random.within(0, 9) as u32 + 1];
            clause.extend(generate::clause(&mut random, 10, 2).iter().map(|l| l + 20));
            clause
        }));
        let rule = RuleDraft {
            clauses,
            prefix: vec![[1, 1]; n],
        };
        let rules = rules_of(&rule.bytes());
        let mut writer = Writer::new(&rules, Limits::for_buffer(65_536));
        let line = (0..10).map(|v| 1 << (2 * v)).sum();
        let mut closing = 0;
        for _ in 0..1_000 {
            closing = writer.write_blocking(line).expect("room for the line");
        }
        for v in (0..10).rev() {
            closing = writer
                .write_resolvent(2 * v, closing)
                .expect("room for the resolvent");
        }
        (rule, writer.finish(closing))
    }

    fn derivations() {
        println!(
            "| derivation | n | m | lines | bytes | proved, ms | ns a line | peer, ms | proved / peer | stack, bytes |"
        );
        println!("|---|--:|--:|--:|--:|--:|--:|--:|--:|--:|");
        for (name, (rule, draft)) in [
            ("plain walk", walked()),
            ("random resolvents", wandered()),
            ("kind 1 lines", blocked()),
            ("the sample", generate::sample()),
        ] {
            let (file, steps) = (rule.bytes(), draft.bytes());
            let mut got = (0, [0; 4]);
            let (proved, stack) =
                seconds_on_stack(&mut || got = direct::check(black_box(&file), black_box(&steps)));
            let peer = seconds(|| {
                let rules = rules_of(black_box(&file));
                let value =
                    derivation::check(&rules, black_box(&steps)).expect("an accepted derivation");
                assert_eq!(got, (0, [value as u64, rules.whole() as u64, 0, 0]));
            });
            let lines = draft.lines.len();
            println!(
                "| {name} | {} | {} | {lines} | {} | {} | {:.0} | {} | {} | {stack} |",
                rule.prefix.len(),
                rule.clauses.len(),
                steps.len(),
                ms(proved),
                proved * 1e9 / lines as f64,
                ms(peer),
                ratio(proved, peer),
            );
        }
    }

    /// Document 01's sample, rule files whose derivations have about 1,000 lines, and one whose derivation has over
    /// 2^32.
    fn written() -> [(&'static str, RuleDraft); 5] {
        let literals = |signs: u32| (0..10).map(|v| 2 * v + (signs >> v & 1)).collect();
        let ten = RuleDraft {
            clauses: (0..1_024).map(literals).collect(),
            prefix: vec![[1, 1]; 10],
        };
        [
            ("the sample", generate::sample().0),
            ("3-clauses", walked().0),
            (
                "two variables fixed",
                RuleDraft::new(&[&[16], &[18]], &[[1, 1]; 10]),
            ),
            ("all clauses of ten literals", ten),
            ("refused by 22", last_clause(32)),
        ]
    }

    /// The writer; and the check of what it writes.
    fn writing() {
        println!("| rule file | n | m | lines | bytes | proved, ms | ns a line | peer, ms | proved / peer | check, ms | write / check | stack, bytes |");
        println!("|---|--:|--:|--:|--:|--:|--:|--:|--:|--:|--:|--:|");
        for (name, rule) in written() {
            let file = rule.bytes();
            let mut buffer = vec![0; 65_536];
            let mut got = (0, [0; 4]);
            let (proved, stack) = seconds_on_stack(&mut || {
                got = direct::derive(black_box(&file), black_box(&mut buffer))
            });
            let mut expected = None;
            let peer = seconds(|| expected = writer::derive(&rules_of(black_box(&file)), 65_536));
            let begin = format!(
                "| {name} | {} | {} |",
                rule.prefix.len(),
                rule.clauses.len()
            );
            let times = [ms(peer), ratio(proved, peer)].join(" | ");
            let Some(expected) = expected else {
                assert_eq!(got.0, 22);
                println!("{begin} | | {} | | {times} | | | {stack} |", ms(proved));
                continue;
            };
            let steps = &buffer[..got.1[0] as usize];
            assert!(got.0 == 0 && *steps == expected);
            let check = seconds_on_stack(&mut || got = direct::check(&file, black_box(steps))).0;
            let lines = peer::to_words(&expected)[expected.len() / 4 - 3];
            println!(
                "{begin} {lines} | {} | {} | {:.0} | {times} | {} | {} | {stack} |",
                steps.len(),
                ms(proved),
                proved * 1e9 / f64::from(lines),
                ms(check),
                ratio(proved, check),
            );
        }
    }

    // -----------------------------------------------------------------------------------------
    // The two readers
    // -----------------------------------------------------------------------------------------

    /// So many calls are timed as one run: a call alone may take less than the clock.
    const CALLS: usize = 100;

    fn many<T>(mut call: impl FnMut() -> T) -> impl FnMut() {
        move || {
            for _ in 0..CALLS {
                black_box(call());
            }
        }
    }

    /// Nanoseconds a call.
    fn ns(seconds: f64) -> String {
        format!("{:.0}", seconds * 1e9 / CALLS as f64)
    }

    /// As much as the small reader takes: 16 variables and 4,096 bytes. The clauses have `k` literals,
    /// the last perhaps fewer.
    fn full_rule(k: usize) -> RuleDraft {
        const N: usize = 16;
        let mut random = Random::new(8_000 + k as u64);
        let words = 1_024 - 4 - 2 * N;
        let mut clauses = distinct(words / (1 + k), || generate::clause(&mut random, N, k));
        if let Some(last) = (words % (1 + k)).checked_sub(1) {
            clauses.push(generate::clause(&mut random, N, last));
        }
        RuleDraft {
            clauses,
            prefix: vec![[1, 2]; N],
        }
    }

    /// As many clauses as 4,096 bytes hold over 16 variables: the empty one, all of one literal, and
    /// of two as many as there is room for.
    fn most_clauses() -> RuleDraft {
        const N: u32 = 16;
        let pairs = (0..2 * N).flat_map(|a| (a / 2 * 2 + 2..2 * N).map(move |b| vec![a, b]));
        let mut clauses = vec![Vec::new()];
        clauses.extend((0..2 * N).map(|literal| vec![literal]));
        let left = 1_024 - 4 - 2 * N as usize - 1 - 2 * clauses.len() + 2;
        clauses.extend(pairs.take(left / 3));
        RuleDraft {
            clauses,
            prefix: vec![[1, 2]; N as usize],
        }
    }

    /// The chain in which the proved reader looks for a clause, by the set of its literals: bit `l`
    /// for literal `l`.
    fn hash(mask: u64) -> usize {
        let mixed = (mask & 0xFFFF_FFFF) * 1_000_000_007 + (mask >> 32) * 1_999_999_973;
        (((mixed >> 20) + (mixed >> 40)) % 4_096) as usize
    }

    /// As many clauses as there may be, all of them in one chain: each is compared with all before
    /// it.
    fn one_chain() -> RuleDraft {
        let mut random = Random::new(8_100);
        let draw = || loop {
            let clause = generate::clause(&mut random, 32, 14);
            if hash(clause.iter().map(|literal| 1 << literal).sum()) == 0 {
                return clause;
            }
        };
        RuleDraft {
            clauses: distinct(1_024, draw),
            prefix: vec![[1, 2]; 32],
        }
    }

    /// The longest file with its first clause in the place of the last too: 26 at clause 1,023.
    fn last_copied() -> RuleDraft {
        let mut rule = generate::longest_rule([1, 2]);
        rule.clauses[1_023] = rule.clauses[0].clone();
        rule
    }

    /// Both readers on files within the small limits, and the bench's on its longest and on those
    /// that take it longest to look for copies. The stack is that of the call alone.
    fn readers() {
        println!("| rule file | n | m | bytes | read answers | read, ns | read_small, ns | peer, ns | read / peer | read_small / read | stack of read_small, bytes |");
        println!("|---|--:|--:|--:|--:|--:|--:|--:|--:|--:|--:|");
        for (name, rule) in [
            ("the sample", generate::sample().0),
            ("as many clauses as there may be", most_clauses()),
            ("3 literals a clause", full_rule(3)),
            ("15 literals a clause", full_rule(15)),
            ("the longest", generate::longest_rule([1, 2])),
            ("the longest, its last clause a copy", last_copied()),
            ("1,024 clauses in one chain", one_chain()),
        ] {
            let file = rule.bytes();
            let expected = answer::reading(&rules::read(&file));
            let refusal = expected.code;
            assert_eq!(direct::read(&file), (refusal, expected.out([0; 4])));
            let expected = answer::read_small(&file);
            assert_eq!(
                direct::read_small(&file),
                (expected.code, expected.out([0; 4]))
            );
            let read = seconds_on_stack(&mut many(|| direct::read(black_box(&file)))).0;
            let peer = seconds(many(|| rules::read(black_box(&file))));
            let [mut time, mut to_read, mut stack] = ["-"; 3].map(str::to_string);
            if expected.code == 0 {
                let small = seconds_on_stack(&mut many(|| direct::read_small(black_box(&file)))).0;
                (time, to_read) = (ns(small), ratio(small, read));
                stack = read_small_on_stack(&file).1.to_string();
            }
            println!(
                "| {name} | {} | {} | {} | {refusal} | {} | {time} | {} | {} | {to_read} | {stack} |",
                rule.prefix.len(),
                rule.clauses.len(),
                file.len(),
                ns(read),
                ns(peer),
                ratio(read, peer),
            );
        }
    }

    // -----------------------------------------------------------------------------------------
    // The repair
    // -----------------------------------------------------------------------------------------

    /// 1,000 clauses of 15 literals, in 64,272 bytes.
    fn in_order() -> RuleDraft {
        let mut random = Random::new(9_000);
        RuleDraft {
            clauses: distinct(1_000, || generate::clause(&mut random, 32, 15)),
            prefix: vec![[1, 2]; 32],
        }
    }

    /// The same with copies of the first half in the place of the second, in any order if they are
    /// shuffled.
    fn half_copied(shuffled: bool) -> RuleDraft {
        let mut random = Random::new(9_002);
        let mut rule = in_order();
        rule.clauses.truncate(500);
        rule.clauses.extend_from_within(..);
        if shuffled {
            rule.clauses
                .iter_mut()
                .for_each(|clause| random.shuffle(clause));
        }
        rule
    }

    /// The same with clauses changed one by one, by their number.
    fn changed(change: impl Fn(&mut Random, usize, &mut Vec<u32>)) -> RuleDraft {
        let mut random = Random::new(9_001);
        let mut rule = in_order();
        for (at, clause) in rule.clauses.iter_mut().enumerate() {
            change(&mut random, at, clause);
        }
        rule
    }

    /// The repair against the full reader on the same file and a copy of it: it is to take at most
    /// twice the reader's time, and a copy. The reader refuses the file with repeats by 7 at clause 3,
    /// and the one whose second half are copies, in order, by 26 at clause 500.
    fn repairs() {
        println!("| clauses | bytes | new bytes | read answers | read, ns | copy, ns | repair, ns | repair / (2 read + copy) | peer, ns | repair / peer | stack, bytes |");
        println!("|---|--:|--:|--:|--:|--:|--:|--:|--:|--:|--:|");
        for (name, rule) in [
            ("in order", in_order()),
            (
                "only the last falls",
                changed(|_, at, clause| {
                    if at == 999 {
                        clause.reverse();
                    }
                }),
            ),
            (
                "the second half falls",
                changed(|_, at, clause| {
                    if at >= 500 {
                        clause.reverse();
                    }
                }),
            ),
            ("all fall", changed(|_, _, clause| clause.reverse())),
            (
                "in any order",
                changed(|random, _, clause| random.shuffle(clause)),
            ),
            (
                "all fall, each fifth has a repeat, each fifth an opposite",
                changed(|_, at, clause| {
                    clause.reverse();
                    match at % 5 {
                        3 => clause[1] = clause[0],
                        4 => clause[1] = clause[0] ^ 1,
                        _ => {}
                    }
                }),
            ),
            ("the second half are copies", half_copied(false)),
            (
                "the second half are copies, in any order",
                half_copied(true),
            ),
            ("1,024 clauses in one chain", one_chain()),
        ] {
            let file = rule.bytes();
            let mut buffer = vec![0; file.len()];
            let expected = answer::repair(&file, file.len());
            assert_eq!(
                direct::repair(&file, &mut buffer),
                (0, expected.out([0; 4]))
            );
            assert!(buffer.starts_with(&expected.written));
            let refusal = direct::read(&file).0;
            let (time, stack) = seconds_on_stack(&mut many(|| {
                direct::repair(black_box(&file), black_box(&mut buffer))
            }));
            let read = seconds_on_stack(&mut many(|| direct::read(black_box(&file)))).0;
            let copy = seconds_on_stack(&mut many(|| {
                black_box(&mut buffer).copy_from_slice(black_box(&file))
            }))
            .0;
            let peer = seconds(many(|| answer::repair(black_box(&file), file.len())));
            println!(
                "| {name} | {} | {} | {refusal} | {} | {} | {} | {} | {} | {} | {stack} |",
                file.len(),
                expected.written.len(),
                ns(read),
                ns(copy),
                ns(time),
                ratio(time, 2.0 * read + copy),
                ns(peer),
                ratio(time, peer),
            );
        }
    }

    // -----------------------------------------------------------------------------------------
    // Points
    // -----------------------------------------------------------------------------------------

    /// The point against the cut of the same file at the same level: it is the cut and at most three
    /// divisions. The last file has a whole of 2^60, which is not plotted. The peer's point comes from
    /// its search.
    fn points() {
        println!("| rule file | n | m | level | point answers | cut, ns | point, ns | point / cut | peer, ns | point / peer | stack, bytes |");
        println!("|---|--:|--:|--:|--:|--:|--:|--:|--:|--:|--:|");
        let mut ratios = Ratios::default();
        for (name, rule, level) in [
            ("the sample", generate::sample().0, 0),
            ("the sample", generate::sample().0, 3),
            ("one clause, on the last", last_clause(32), 16),
            ("3-clauses, alternating", TREES[0].1(32), 16),
            ("3-clauses, all randomized", TREES[2].1(32), 16),
            ("placement", placement(32), 16),
            ("placement", placement(32), 32),
            (
                "4-clauses, all randomized",
                hard_rule(Shape::Randomized, 20, 4, 4),
                10,
            ),
            (
                "4-clauses, all randomized",
                hard_rule(Shape::Randomized, 20, 4, 4),
                20,
            ),
            ("the longest", generate::longest_rule([1, 2]), 16),
            (
                "refused by 27",
                RuleDraft {
                    prefix: vec![[1, 3]; 30],
                    ..TREES[2].1(30)
                },
                15,
            ),
        ] {
            let file = rule.bytes();
            let rules = rules::read(&file);
            let expected = Solver::by_search(&rules).point(level);
            let refusal = expected.code;
            let (got, doubles) = direct::point(&file, level);
            assert_eq!(got, (refusal, expected.out([0; 4])), "{name}");
            assert_eq!(doubles.map(f64::to_bits), expected.point([0; 3]), "{name}");
            let cut = seconds_on_stack(&mut many(|| direct::cut(black_box(&file), level))).0;
            let (point, stack) =
                seconds_on_stack(&mut many(|| direct::point(black_box(&file), level)));
            let peer = seconds(many(|| {
                let rules = rules::read(black_box(&file));
                Solver::by_search(&rules).point(level)
            }));
            if refusal == 0 {
                ratios
                    .found
                    .push((point / cut, format!("{name}, level {level}")));
            }
            println!(
                "| {name} | {} | {} | {level} | {refusal} | {} | {} | {} | {} | {} | {stack} |",
                rule.prefix.len(),
                rule.clauses.len(),
                ns(cut),
                ns(point),
                ratio(point, cut),
                ns(peer),
                ratio(point, peer),
            );
        }
        let (mean, worst, row) = ratios.mean_and_worst().unwrap();
        println!();
        println!("point / cut: geometric mean {mean:.2}, the worst {worst:.2} ({row})");
    }

    /// Prints the named tables, or all of them. Cargo adds `--bench`, which names none.
    pub fn main(names: &[String]) {
        let tables: [(&str, fn()); 8] = [
            ("programs", programs),
            ("hard", hard),
            ("trees", trees),
            ("derivations", derivations),
            ("writing", writing),
            ("readers", readers),
            ("repairs", repairs),
            ("points", points),
        ];
        let named = |name: &str| names.iter().any(|other| other == name);
        let all = !tables.iter().any(|(name, _)| named(name));
        for (name, table) in tables {
            if all || named(name) {
                table();
                println!();
            }
        }
    }
}
