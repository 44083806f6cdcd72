//! Reports that cannot be printed.

use std::io::Read;
use std::process::{Command, Stdio};

use crate::command::file;
use crate::list::one_track;

/// A reader that closes the pipe before the end, of a report longer than the pipe holds.
#[test]
fn closed_pipe() {
    let path = file("printed closed pipe", &one_track(20_000));
    let strip = file("printed closed pipe strip", &limdroven::strip(&one_track(20_000), 0).expect("built").bytes);
    for (arguments, front) in [
        (&["list", &path][..], "model"),
        (&["list", &path, "--json"], "{\"result"),
        (&["list", "--strip", &strip], "strip"),
    ] {
        let mut child = Command::new(env!("CARGO_BIN_EXE_intake"))
            .args(arguments)
            .stdout(Stdio::piped())
            .stderr(Stdio::piped())
            .spawn()
            .expect("started");
        let mut read = vec![0; front.len()];
        child.stdout.take().expect("piped").read_exact(&mut read).expect("read");
        assert_eq!(read, front.as_bytes());
        let ran = child.wait_with_output().expect("ended");
        assert_eq!((ran.status.code(), String::from_utf8_lossy(&ran.stderr).as_ref()), (Some(4), ""));
    }
}

/// Any other error is told.
#[test]
#[cfg(target_os = "linux")]
fn full_device() {
    let full = std::fs::OpenOptions::new().write(true).open("/dev/full").expect("opened");
    let ran = Command::new(env!("CARGO_BIN_EXE_intake")).arg("--help").stdout(full).output().expect("ended");
    assert_eq!(ran.status.code(), Some(4));
    let error = String::from_utf8(ran.stderr).expect("text");
    assert!(error.starts_with("intake: what is printed cannot be written: "), "{error}");
}
