//! The program `ssat_tally` against the peer: its sheets for job lists over a folder of rule files.

#![cfg(not(feature = "no-ffi"))]

#[allow(dead_code)]
mod common;

use common::{program, random, rounds};
use peer::generate::{self, Folder, Seen};
use peer::list::{self, Tally};
use peer::near::lists::Told;
use peer::random::Random;
use std::env;
use std::ffi::OsStr;
use std::fs::{create_dir_all, remove_dir_all, write, File};
use std::io::{ErrorKind, Write};
use std::os::unix::ffi::OsStrExt;
use std::path::PathBuf;
use std::process::{self, Command, Stdio};

/// The program and a folder to run it in, which stands as long as this does.
struct Room {
    program: PathBuf,
    /// A new folder, in which `run` is the one to run in.
    base: PathBuf,
    folder: Folder,
}

impl Room {
    fn new(random: &mut Random, test: &str) -> Room {
        let program = program("ssat_tally");
        let base = env::temp_dir().join(format!("ssat-{test}-{}", process::id()));
        let mut room = Room { program, base, folder: Folder::new(random) };
        let run = room.run();
        room.folder.stand_at(run.as_os_str().as_bytes());
        create_dir_all(&run).unwrap();
        for file in &room.folder.files {
            let path = run.join(OsStr::from_bytes(&file.path));
            create_dir_all(path.parent().unwrap()).unwrap();
            write(path, &file.bytes).unwrap();
        }
        room
    }

    fn run(&self) -> PathBuf {
        self.base.join("run")
    }

    /// Compares what the program prints with the peer's sheet, and gives that. The list comes from a file, or through a
    /// pipe in parts of so many bytes.
    fn compare(&self, list: &[u8], parts: Option<usize>) -> String {
        // It cannot have many files open at once.
        let mut command = Command::new("sh");
        command.args(["-c", "ulimit -n 16 && exec \"$0\""]).arg(&self.program).current_dir(self.run());
        command.stdout(Stdio::piped()).stderr(Stdio::piped());
        let child = match parts {
            None => {
                let path = self.base.join("list");
                write(&path, list).unwrap();
                command.stdin(File::open(path).unwrap()).spawn().unwrap()
            }
            Some(length) => {
                let mut child = command.stdin(Stdio::piped()).spawn().unwrap();
                let mut pipe = child.stdin.take().unwrap();
                match list.chunks(length).try_for_each(|part| pipe.write_all(part)) {
                    // It need not read all of a list that is too long.
                    Err(error) if error.kind() == ErrorKind::BrokenPipe && list.len() > list::MOST_BYTES => {}
                    done => done.unwrap(),
                }
                child
            }
        };
        let output = child.wait_with_output().unwrap();
        let expected = list::sheet(list, |job| self.folder.kind(job));
        let same = output.status.success() && output.stderr.is_empty() && output.stdout == expected.as_bytes();
        assert!(same, "program {output:?}, peer {expected:?}\nlist {}", list.escape_ascii());
        expected
    }
}

impl Drop for Room {
    fn drop(&mut self) {
        // What is left does no harm.
        let _ = remove_dir_all(&self.base);
    }
}

/// Lists as long as they may be, and longer. All lines name files that are there, with limits that any of them allows.
#[test]
fn long_lists() {
    let room = Room::new(&mut random(301), "long-lists");
    let lines = |count: usize, limits: &str| -> Vec<u8> {
        (0..count).flat_map(|at| format!("{} {limits}\n", char::from(b'a' + at as u8 % 16)).into_bytes()).collect()
    };
    let taken = |list: &[u8], files: u64| {
        for parts in [None, Some(4_096), Some(1_000)] {
            let sheet = room.compare(list, parts);
            assert!(sheet.starts_with(&format!("files {files}\nrefused 0\n")), "{sheet}");
        }
    };
    let refused = |list: &[u8]| {
        for parts in [None, Some(4_096), Some(1_000)] {
            assert_eq!(room.compare(list, parts), "refused 24\n");
        }
    };
    let (less, more) = (lines(4_096, "0 0"), lines(4_097, "0 0"));
    taken(&less, 4_096);
    taken(&less[..less.len() - 1], 4_096);
    refused(&[&less[..], b"a"].concat());
    refused(&more);
    refused(&more[..more.len() - 1]);

    let full = lines(4_096, "00000000000 0");
    assert_eq!(full.len(), 65_536);
    taken(&full, 4_096);
    refused(&[b"a", &full[..]].concat());
    let one = |length: usize| format!("a {} 0", "0".repeat(length - 4)).into_bytes();
    taken(&one(65_536), 1);
    taken(&[one(65_535), b"\n".to_vec()].concat(), 1);
    refused(&one(65_537));
    refused(&[one(65_536), b"\n".to_vec()].concat());
    refused(&lines(200_000, "0 0"));
    refused(&one(1_000_000));
    assert_eq!(room.compare(b"", None), Tally::default().sheet());
}

/// Random lists over random files: enough of them tell document 02's reading from what is nearly it.
#[test]
fn random_lists() {
    let mut random = random(302);
    let room = Room::new(&mut random, "random-lists");
    let (mut seen, mut told) = (Seen::default(), Told::default());
    for _ in 0..rounds(1_500) {
        let draft = generate::list(&mut random, &room.folder);
        let bytes = draft.bytes();
        seen.take(&draft, &room.folder);
        told.take(&bytes, |job| room.folder.kind(job));
        let parts = random.within(1, 5_000);
        room.compare(&bytes, random.once_in(2).then_some(parts));
    }
    println!("random_lists:");
    seen.reached(15, 5_000, 50);
    told.reached(20);
}
