//! Runs the program `cabinet`: ../crates/cabinet/out/cabinet, or the file that CABINET names.

use std::fs::File;
use std::io::Write;
use std::path::PathBuf;
use std::process::{Command, Stdio};
use std::thread;
use std::time::Duration;

pub fn path() -> PathBuf {
    match std::env::var_os("CABINET") {
        Some(path) => PathBuf::from(path),
        None => PathBuf::from(concat!(env!("CARGO_MANIFEST_DIR"), "/../crates/cabinet/out/cabinet")),
    }
}

/// How the input is written: in pieces of these lengths in turn, with a pause after each, or all at once.
#[derive(Clone)]
pub struct Pieces {
    pub lengths: Vec<usize>,
    pub pause: Duration,
}

impl Pieces {
    pub fn whole() -> Pieces {
        Pieces { lengths: vec![usize::MAX], pause: Duration::ZERO }
    }

    /// The program may end before it has read all: what it did not read is not an error.
    fn write(&self, mut input: &[u8], mut pipe: impl Write) {
        for length in self.lengths.iter().cycle() {
            if input.is_empty() {
                return;
            }
            let (piece, rest) = input.split_at((*length).min(input.len()));
            if pipe.write_all(piece).and_then(|()| pipe.flush()).is_err() {
                return;
            }
            input = rest;
            if !self.pause.is_zero() {
                thread::sleep(self.pause);
            }
        }
    }
}

/// What the program prints for an input; it must end by itself and write nothing else.
pub fn printed(input: &[u8], pieces: &Pieces) -> String {
    let path = path();
    let mut child = Command::new(&path)
        .stdin(Stdio::piped())
        .stdout(Stdio::piped())
        .stderr(Stdio::piped())
        .spawn()
        .unwrap_or_else(|fault| panic!("{}: {fault}", path.display()));
    let pipe = child.stdin.take();
    let (input, pieces) = (input.to_vec(), pieces.clone());
    let writer = thread::spawn(move || pipe.map(|pipe| pieces.write(&input, pipe)));
    let output = child.wait_with_output().unwrap_or_else(|fault| panic!("cabinet: {fault}"));
    assert!(writer.join().is_ok());
    assert!(output.status.code().is_some(), "cabinet was ended by a signal: {}", output.status);
    assert!(output.stderr.is_empty(), "{}", String::from_utf8_lossy(&output.stderr));
    String::from_utf8(output.stdout).unwrap_or_else(|_| panic!("cabinet printed what is no text"))
}

/// Whether the program ends by itself where its text cannot be written, though its input goes on.
pub fn ends_where_nothing_can_be_written(input: &[u8]) -> bool {
    let full = File::options().write(true).open("/dev/full");
    let full = full.unwrap_or_else(|fault| panic!("/dev/full: {fault}"));
    let mut child = Command::new(path())
        .stdin(Stdio::piped())
        .stdout(full)
        .spawn()
        .unwrap_or_else(|fault| panic!("{}: {fault}", path().display()));
    let mut pipe = child.stdin.take();
    assert!(pipe.as_mut().is_some_and(|pipe| pipe.write_all(input).is_ok()));
    let ended = (0..1_000).any(|_| {
        thread::sleep(Duration::from_millis(10));
        matches!(child.try_wait(), Ok(Some(_)))
    });
    drop(pipe);
    assert!(child.wait().is_ok());
    ended
}

/// What the program prints where its input cannot be read: a folder.
pub fn printed_of_a_folder() -> String {
    let folder = File::open(env!("CARGO_MANIFEST_DIR")).unwrap_or_else(|fault| panic!("{fault}"));
    let output = Command::new(path()).stdin(folder).output();
    let output = output.unwrap_or_else(|fault| panic!("{}: {fault}", path().display()));
    assert!(output.status.code().is_some(), "cabinet was ended by a signal: {}", output.status);
    String::from_utf8_lossy(&output.stdout).into_owned()
}
