//! The processor's time for a run of a program, from its start to its end.

use std::fs::File;
use std::path::{Path, PathBuf};
use std::process::{Command, Stdio};
use std::time::Duration;

/// C's `struct rusage`: times in seconds and microseconds, of the program and of the system for it, then what is not read here.
#[repr(C)]
struct Usage {
    times: [[i64; 2]; 2],
    _rest: [i64; 14],
}

extern "C" {
    fn getrusage(who: i32, usage: *mut Usage) -> i32;
}

/// On Linux: of all programs that were waited for.
const CHILDREN: i32 = -1;

fn spent() -> Duration {
    let mut usage = Usage { times: [[0; 2]; 2], _rest: [0; 14] };
    // SAFETY: C's own call, on a structure of its layout.
    let status = unsafe { getrusage(CHILDREN, &mut usage) };
    assert_eq!(status, 0, "no times");
    usage.times.iter().map(|&[seconds, micros]| Duration::new(seconds as u64, micros as u32 * 1000)).sum()
}

/// A program of the repository, if it is built.
pub fn find(name: &str) -> Option<PathBuf> {
    let path = Path::new(env!("CARGO_MANIFEST_DIR")).join("../crates").join(name).join("out").join(name);
    path.is_file().then_some(path)
}

/// A file for the programs to read.
pub fn file(name: &str, bytes: &[u8]) -> PathBuf {
    let path = Path::new(env!("CARGO_TARGET_TMPDIR")).join(name);
    std::fs::write(&path, bytes).expect("a file");
    path
}

fn command(program: &Path, input: &Path, arguments: &[&Path]) -> Command {
    let mut command = Command::new(program);
    command.args(arguments).stdin(File::open(input).expect("a file"));
    command
}

/// What it prints.
pub fn output(program: &Path, input: &Path, arguments: &[&Path]) -> Vec<u8> {
    let done = command(program, input, arguments).output().expect("a program");
    assert!(done.status.success(), "{}", program.display());
    done.stdout
}

pub fn time(program: &Path, input: &Path, arguments: &[&Path]) -> Duration {
    let before = spent();
    let status = command(program, input, arguments).stdout(Stdio::null()).status().expect("a program");
    assert!(status.success(), "{}", program.display());
    spent() - before
}
