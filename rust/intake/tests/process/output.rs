//! Where `intake strip` writes: links, failures, and standard output by other names.

use std::fs::{self, File, OpenOptions, Permissions};
use std::os::unix::fs::{PermissionsExt, symlink};
use std::process::Command;

use crate::command::{Ran, file, intake, intake_with, place, sample};
use crate::json;

/// By its name, by links and by what standard input is: the section's own file is left as it was.
#[test]
fn not_over_the_section() {
    let section = file("output section", &sample("stdin"));
    let [soft, hard] = ["output section link", "output section hard link"].map(place);
    symlink(&section, &soft).expect("linked");
    fs::hard_link(&section, &hard).expect("linked");
    let (folder, name) = section.rsplit_once('/').expect("a folder");
    let longer = format!("{folder}/./{name}");
    let error = "intake: strip: FILE and OUT are the same file; `intake --help` tells what is asked for\n";
    for [input, output] in [[&section; 2], [&section, &longer], [&section, &soft], [&soft, &section], [&section, &hard]]
    {
        let ran = intake(&["strip", input, "-o", output]);
        assert_eq!(ran, Ran { status: 2, output: vec![], error: error.into() }, "{input} {output}");
        let told = intake(&["strip", input, "-o", output, "--json"]);
        assert_eq!((told.status, json::line(told.text()).text("result")), (2, "usage"));
    }
    let mut redirected = Command::new(env!("CARGO_BIN_EXE_intake"));
    redirected.args(["strip", "-", "-o", &hard]).stdin(File::open(&section).expect("opened"));
    assert_eq!(redirected.output().expect("ended").status.code(), Some(2));
    for output in ["-", "/dev/stdout"] {
        let mut redirected = Command::new(env!("CARGO_BIN_EXE_intake"));
        let stream = OpenOptions::new().append(true).open(&section).expect("opened");
        redirected.args(["strip", &section, "-o", output]).stdout(stream);
        assert_eq!(redirected.output().expect("ended").status.code(), Some(2), "{output}");
    }
    assert_eq!(fs::read(&section).expect("read"), sample("stdin"));
    assert!(fs::symlink_metadata(&soft).expect("there").is_symlink());
}

/// The strip alone is on standard output, under that name too.
#[test]
fn standard_output_by_name() {
    let strip = intake_with(&["strip", "-", "-o", "-"], &sample("stdin"));
    assert_eq!(intake_with(&["strip", "-", "-o", "/dev/stdout"], &sample("stdin")), strip);
    let path = place("output redirected");
    let mut redirected = Command::new(env!("CARGO_BIN_EXE_intake"));
    redirected.args(["strip", &file("output sample", &sample("stdin")), "-o", "/dev/stdout"]);
    let ran = redirected.stdout(File::create(&path).expect("created")).output().expect("ended");
    assert_eq!((ran.status.code(), ran.stderr), (Some(0), strip.error.into_bytes()));
    assert_eq!(fs::read(&path).expect("read"), strip.output);
}

/// The names in a folder.
fn names(folder: &str) -> Vec<String> {
    let names = fs::read_dir(folder).expect("read").map(|entry| entry.expect("read").file_name());
    let mut names: Vec<String> = names.map(|name| name.into_string().expect("text")).collect();
    names.sort();
    names
}

/// A folder of this name with nothing in it.
fn empty_folder(name: &str) -> String {
    let path = format!("{}/{name}", env!("CARGO_TARGET_TMPDIR"));
    if fs::exists(&path).expect("known") {
        fs::remove_dir_all(&path).expect("removed");
    }
    fs::create_dir(&path).expect("created");
    path
}

/// The sample's strip written under a limit of so many blocks for every file, and the signal of the limit ignored.
fn limited(blocks: u32, output: &str) -> Ran {
    let script = format!("trap '' XFSZ; ulimit -f {blocks}; exec \"$@\"");
    let section = file(&format!("output limited {blocks}"), &sample("stdin"));
    let ran = Command::new("sh")
        .args(["-c", &script, "sh", env!("CARGO_BIN_EXE_intake"), "strip", &section, "-o", output])
        .output()
        .expect("ended");
    let error = String::from_utf8(ran.stderr).expect("text");
    Ran { status: ran.status.code().expect("an exit status"), output: ran.stdout, error }
}

/// A file that cannot be written whole is not left behind, and the earlier one is as it was.
#[test]
fn failed_write() {
    let folder = empty_folder("output failed write");
    let [old, link, new, nowhere] = ["old", "link", "new", "nowhere"].map(|name| format!("{folder}/{name}"));
    fs::write(&old, b"as it was").expect("written");
    symlink("old", &link).expect("linked");
    symlink("new", &nowhere).expect("linked");
    for output in [&old, &link, &new, &nowhere] {
        let ran = limited(0, output);
        assert_eq!((ran.status, ran.output.len()), (4, 0), "{output}");
        assert!(ran.error.starts_with(&format!("intake: {output}: File too large")), "{}", ran.error);
        assert_eq!(fs::read(&old).expect("read"), b"as it was");
        assert_eq!(names(&folder), ["link", "nowhere", "old"]);
    }
    let ran = limited(1, &old);
    assert_eq!((ran.status, ran.error.as_str()), (0, ""));
    assert_ne!(fs::read(&old).expect("read"), b"as it was");
}

/// A link stays one, its file keeps its permissions, and nothing else is left.
#[test]
fn replaced() {
    let folder = empty_folder("output replaced");
    let (old, link, new) = (format!("{folder}/old"), format!("{folder}/link"), format!("{folder}/new"));
    let strip = intake_with(&["strip", "-", "-o", "-"], &sample("stdin")).output;
    fs::write(&old, [7; 1000]).expect("written");
    fs::set_permissions(&old, Permissions::from_mode(0o640)).expect("set");
    symlink("old", &link).expect("linked");
    for output in [&old, &link, &new] {
        assert_eq!(intake_with(&["strip", "-", "-o", output], &sample("stdin")).status, 0, "{output}");
        assert_eq!(fs::read(output).expect("read"), strip, "{output}");
    }
    assert_eq!(fs::metadata(&old).expect("there").permissions().mode() & 0o777, 0o640);
    assert!(fs::symlink_metadata(&link).expect("there").is_symlink());
    // A link to nothing yet.
    fs::remove_file(&old).expect("removed");
    assert_eq!(intake_with(&["strip", "-", "-o", &link], &sample("stdin")).status, 0);
    assert_eq!(fs::read(&old).expect("read"), strip);
    // And by two links, one of them absolute.
    fs::remove_file(&old).expect("removed");
    let further = format!("{folder}/further");
    symlink(&link, &further).expect("linked");
    assert_eq!(intake_with(&["strip", "-", "-o", &further], &sample("stdin")).status, 0);
    assert_eq!(fs::read(&old).expect("read"), strip);
    assert_eq!(names(&folder), ["further", "link", "new", "old"]);
}

/// A link that leads to itself is an error, and stays one.
#[test]
fn link_to_itself() {
    let folder = empty_folder("output link to itself");
    let link = format!("{folder}/link");
    symlink("link", &link).expect("linked");
    let ran = intake_with(&["strip", "-", "-o", &link], &sample("stdin"));
    assert_eq!((ran.status, names(&folder)), (4, vec!["link".into()]));
}

/// What is no regular file is written directly.
#[test]
fn no_regular_file() {
    let section = file("output no regular file", &sample("stdin"));
    assert_eq!(intake(&["strip", &section, "-o", "/dev/null"]).status, 0);
    assert!(!fs::metadata("/dev/null").expect("there").is_file());
    let folder = empty_folder("output folder");
    let ran = intake(&["strip", &section, "-o", &folder]);
    assert_eq!((ran.status, names(&folder).len()), (4, 0));
    assert!(ran.error.starts_with(&format!("intake: {folder}: ")), "{}", ran.error);
}
