//! Writes the stored run samples as records and as lines to `stdin` and `stdout` of `run_samples`, and the run of
//! `ssat_tally` to its `stdin`, `stdout` and `data`, all in the folder that is named. From this package's folder:
//!
//!     cargo run --release --features no-ffi --bin make_samples ../../crates
//!
//! Fails if the peer's answer to one of them is another than the one derived by hand. The proved code has no part in
//! it.

use peer::samples;
use std::env::args_os;
use std::fs::{create_dir_all, write};
use std::path::{Path, PathBuf};
use std::process::exit;

fn main() {
    let Some(folder) = args_os().nth(1).map(PathBuf::from) else {
        eprintln!("usage: make_samples FOLDER");
        exit(2);
    };
    let (stored, others) = samples::stored_and_others();
    let mut wrong = 0;
    for case in stored.iter().chain(&others) {
        let answer = case.solve();
        if answer != case.expected {
            eprintln!("{}: peer {answer:?}, by hand {:?}", case.name, case.expected);
            wrong += 1;
        }
    }
    let records: Vec<u8> = stored.iter().flat_map(|case| case.record()).collect();
    let lines: String = stored.iter().map(|case| case.line()).collect();
    let run = samples::run();
    if run.solve() != run.sheet {
        eprintln!("ssat_tally: peer {:?}, by hand {:?}", run.solve(), run.sheet);
        wrong += 1;
    }
    if wrong > 0 {
        exit(1);
    }
    put(&folder.join("run_samples/stdin"), &records);
    put(&folder.join("run_samples/stdout"), lines.as_bytes());
    let folder = folder.join("ssat_tally");
    put(&folder.join("stdin"), &run.list);
    put(&folder.join("stdout"), run.sheet.as_bytes());
    for (name, bytes) in &run.files {
        put(&folder.join("data").join(name), bytes);
    }
}

/// Writes a file, and makes its folder if there is none.
fn put(path: &Path, bytes: &[u8]) {
    let done = path.parent().map_or(Ok(()), create_dir_all).and_then(|()| write(path, bytes));
    done.unwrap_or_else(|error| panic!("{} is not written: {error}", path.display()));
}
