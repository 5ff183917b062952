//! Running a proved program, and telling where it differs from the rules.

use std::io::{self, Read, Write};
use std::path::{Path, PathBuf};
use std::process::{Command, Stdio};

/// Where a program lies: the word given, else the variable's value, else where the repository's build leaves it.
pub fn place(given: Option<String>, variable: &str, name: &str) -> PathBuf {
    let set = given.or_else(|| std::env::var(variable).ok());
    set.map_or_else(|| Path::new(env!("CARGO_MANIFEST_DIR")).join("../crates").join(name).join("out").join(name), PathBuf::from)
}

/// What a program printed, and the status with which it ended; none if a signal ended it.
#[derive(Clone, PartialEq, Eq, Debug)]
pub struct Printed {
    pub bytes: Vec<u8>,
    pub errors: Vec<u8>,
    pub status: Option<i32>,
}

/// Runs a program on an input, which it need not read to the end.
pub fn run(program: &Path, args: &[&Path], input: &[u8]) -> io::Result<Printed> {
    let piped = || Stdio::piped();
    let mut child = Command::new(program).args(args).stdin(piped()).stdout(piped()).stderr(piped()).spawn()?;
    let mut stdin = child.stdin.take().expect("a pipe");
    let mut stdout = child.stdout.take().expect("a pipe");
    let mut bytes = Vec::new();
    std::thread::scope(|scope| {
        scope.spawn(move || match stdin.write_all(input) {
            // It has stopped reading.
            Err(error) if error.kind() == io::ErrorKind::BrokenPipe => Ok(()),
            other => other,
        });
        stdout.read_to_end(&mut bytes)
    })?;
    let ended = child.wait_with_output()?;
    Ok(Printed { bytes, errors: ended.stderr, status: ended.status.code() })
}

/// The first line, counted from 1, in which two outputs differ, with both lines.
pub fn first_difference(rules: &[u8], proved: &[u8]) -> Option<String> {
    if rules == proved {
        return None;
    }
    let split = |bytes: &[u8]| -> Vec<String> { bytes.split_inclusive(|b| *b == b'\n').map(|l| l.escape_ascii().to_string()).collect() };
    let (rules, proved) = (split(rules), split(proved));
    let line = rules.iter().zip(&proved).take_while(|(r, p)| r == p).count();
    let of = |lines: &[String]| lines.get(line).cloned().unwrap_or_else(|| "(no line)".to_string());
    Some(format!("line {}\n  rules  {}\n  proved {}", line + 1, of(&rules), of(&proved)))
}

/// A part of the lines that still has the fault, from which no single line can be taken.
pub fn shrink(bytes: &[u8], faulty: impl Fn(&[u8]) -> bool) -> Vec<u8> {
    let mut lines: Vec<&[u8]> = bytes.split_inclusive(|b| *b == b'\n').collect();
    let mut step = lines.len().div_ceil(2);
    while step > 0 {
        let mut at = 0;
        while at < lines.len() {
            let mut fewer = lines.clone();
            fewer.drain(at..lines.len().min(at + step));
            if faulty(&fewer.concat()) {
                lines = fewer;
            } else {
                at += step;
            }
        }
        step /= 2;
    }
    lines.concat()
}

/// Keeps an input that shows a difference.
pub fn keep(name: &str, bytes: &[u8]) -> io::Result<PathBuf> {
    let folder = Path::new(env!("CARGO_MANIFEST_DIR")).join("target");
    std::fs::create_dir_all(&folder)?;
    let file = folder.join(name);
    std::fs::write(&file, bytes)?;
    Ok(file)
}
