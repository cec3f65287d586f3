//! The run samples against their stored answers: the peer and the proved solver.

#[cfg(not(feature = "no-ffi"))]
#[allow(dead_code)]
mod common;

use peer::samples;
use std::collections::BTreeSet;
use std::ffi::OsString;
use std::fs::{read, read_dir, read_to_string};
use std::path::Path;

/// The peer gives the answers that were derived by hand.
#[test]
fn peer() {
    for case in samples::cases() {
        assert_eq!(case.solve(), case.expected, "{}", case.name);
    }
}

/// The program `run_samples` is run on these cases, and held to these answers.
#[test]
fn program() {
    let (cases, _) = samples::stored_and_others();
    let records: Vec<u8> = cases.iter().flat_map(|case| case.record()).collect();
    let lines: String = cases.iter().map(|case| case.line()).collect();
    assert!(records == include_bytes!("../../../crates/run_samples/stdin"), "stdin is not as made");
    assert!(lines == include_str!("../../../crates/run_samples/stdout"), "stdout is not as made");
}

/// The program `run_samples` on the other cases.
#[cfg(not(feature = "no-ffi"))]
#[test]
fn program_on_others() {
    use std::io::Write;
    use std::process::{Command, Stdio};
    use std::thread;
    let (_, cases) = samples::stored_and_others();
    let records: Vec<u8> = cases.iter().flat_map(|case| case.record()).collect();
    let mut command = Command::new(common::program("run_samples"));
    let mut child = command.stdin(Stdio::piped()).stdout(Stdio::piped()).stderr(Stdio::piped()).spawn().unwrap();
    let mut pipe = child.stdin.take().unwrap();
    let writer = thread::spawn(move || pipe.write_all(&records));
    let output = child.wait_with_output().unwrap();
    writer.join().unwrap().unwrap();
    assert!(output.status.success() && output.stderr.is_empty(), "{output:?}");
    let text = String::from_utf8(output.stdout).unwrap();
    let lines: Vec<&str> = text.split_inclusive('\n').collect();
    for (case, line) in cases.iter().zip(&lines) {
        assert_eq!(*line, case.line(), "{}", case.name);
    }
    assert_eq!(lines.len(), cases.len());
}

/// The program `ssat_tally` is run on this list and these files, and held to this sheet.
#[test]
fn tally_program() {
    let run = samples::run();
    assert_eq!(run.solve(), run.sheet);
    let folder = Path::new(env!("CARGO_MANIFEST_DIR")).join("../../crates/ssat_tally");
    assert!(read(folder.join("stdin")).unwrap() == run.list, "stdin is not as made");
    assert!(read_to_string(folder.join("stdout")).unwrap() == run.sheet, "stdout is not as made");
    let names: BTreeSet<OsString> =
        read_dir(folder.join("data")).unwrap().map(|file| file.unwrap().file_name()).collect();
    assert_eq!(names, run.files.iter().map(|(name, _)| name.into()).collect(), "data has other files");
    for (name, bytes) in &run.files {
        assert!(read(folder.join("data").join(name)).unwrap() == *bytes, "{name} is not as made");
    }
}

/// Every number from 0 to 27 is among the answers.
#[test]
fn every_number() {
    let cases = samples::cases();
    for code in 0..=27 {
        assert!(cases.iter().any(|case| case.expected.code == code), "no case for {code}");
    }
}

/// The proved solver through its C interface, which has no clause reader and no reader of job lists: the program
/// `run_samples` alone runs those. Nor has it a function for the marks, but they follow from the point.
#[cfg(not(feature = "no-ffi"))]
#[test]
fn library() {
    use peer::cases::Operation;
    use peer::ffi::{buffer_before, marks, Library, Place, Returned, BEFORE, POINT_BEFORE};
    use peer::list::Tally;
    let mut library = Library::new();
    for case in samples::cases() {
        let written = |capacity: usize, (got, buffer): (Returned, Vec<u8>)| {
            assert!(buffer == case.expected.buffer(&buffer_before(capacity)), "{}: another buffer", case.name);
            got
        };
        for place in [Place::AtEnd, Place::AtStart] {
            library.lend_rule(&case.rule, place);
            let got = match &case.operation {
                Operation::Read => library.read(),
                Operation::ReadSmall => library.read_small(),
                Operation::Figure => library.figure(),
                Operation::Verdict(lo, hi) => library.verdict(*lo, *hi),
                Operation::Cut(level) => library.cut(*level),
                Operation::Check(derivation) => {
                    library.lend_derivation(derivation, place);
                    library.check()
                }
                Operation::Derive(capacity) => written(*capacity, library.derive(*capacity, place)),
                Operation::Repair(capacity) => written(*capacity, library.repair(*capacity, place)),
                Operation::Tally(lo, hi, counts) => {
                    let (got, counts) = library.tally(*lo, *hi, counts.map(u64::from), place);
                    assert_eq!(Some(Tally(counts)), case.expected.tally, "{}", case.name);
                    got
                }
                Operation::Marks(level) => {
                    let got = library.point(*level, place);
                    assert_eq!(marks(got), case.expected.doubles, "{}", case.name);
                    got.0
                }
                Operation::Point(level) => {
                    let (got, point) = library.point(*level, place);
                    assert_eq!(point, case.expected.point(POINT_BEFORE), "{}", case.name);
                    got
                }
                Operation::Clauses | Operation::Jobs => continue,
            };
            assert_eq!(got, (case.expected.code, case.expected.out(BEFORE)), "{}", case.name);
        }
    }
}
