//! The command line run as a process.

use std::ffi::OsStr;
use std::fs;
use std::io::Write;
use std::path::{Path, PathBuf};
use std::process::{Command, Stdio};

/// What a run left behind.
#[derive(Debug, Clone, PartialEq, Eq)]
pub struct Ran {
    pub status: i32,
    pub output: Vec<u8>,
    pub error: String,
}

impl Ran {
    /// Standard output as text.
    pub fn text(&self) -> &str {
        std::str::from_utf8(&self.output).expect("text")
    }
}

pub fn intake<S: AsRef<OsStr>>(arguments: &[S]) -> Ran {
    intake_with(arguments, &[])
}

/// With these bytes as standard input.
pub fn intake_with<S: AsRef<OsStr>>(arguments: &[S], input: &[u8]) -> Ran {
    let mut child = Command::new(env!("CARGO_BIN_EXE_intake"))
        .args(arguments)
        .stdin(Stdio::piped())
        .stdout(Stdio::piped())
        .stderr(Stdio::piped())
        .spawn()
        .expect("started");
    let mut stdin = child.stdin.take().expect("piped");
    let input = input.to_vec();
    // A run that does not read its input closes it, so a failure to write is no fault.
    let writer = std::thread::spawn(move || drop(stdin.write_all(&input)));
    let ran = child.wait_with_output().expect("ended");
    writer.join().expect("written");
    Ran {
        status: ran.status.code().expect("an exit status"),
        output: ran.stdout,
        error: String::from_utf8(ran.stderr).expect("text"),
    }
}

/// A file of this name for the tests, which must differ from test to test.
pub fn file(name: &str, bytes: &[u8]) -> String {
    let path = place(name);
    fs::write(&path, bytes).expect("written");
    path
}

/// The place of a file that is not there yet.
pub fn place(name: &str) -> String {
    let path = PathBuf::from(env!("CARGO_TARGET_TMPDIR")).join(name);
    if path.exists() {
        fs::remove_file(&path).expect("removed");
    }
    path.into_os_string().into_string().expect("text")
}

/// A file of the listing program's crate, which holds the sample section and its listing.
pub fn sample(name: &str) -> Vec<u8> {
    let crates = Path::new(env!("CARGO_MANIFEST_DIR")).join("../../crates/listing");
    fs::read(crates.join(name)).expect("read")
}
