//! Arguments, help, files and exit statuses.

use crate::command::{Ran, file, intake, place};
use crate::json;

fn not_understood(arguments: &[&str], words: &str) {
    let error = format!("intake: {words}; `intake --help` tells what is asked for\n");
    assert_eq!(intake(arguments), Ran { status: 2, output: vec![], error }, "{arguments:?}");
    let ran = intake(&[arguments, &["--json"]].concat());
    let told = json::line(ran.text());
    assert_eq!((ran.status, told.text("result"), told.number("status")), (2, "usage", 2), "{arguments:?}");
}

#[test]
fn arguments() {
    assert_eq!(intake::<&str>(&[]).status, 2);
    not_understood(&["lists", "a"], "no subcommand is called lists");
    not_understood(&["list"], "list takes one file, not 0");
    not_understood(&["list", "a", "b"], "list takes one file, not 2");
    not_understood(&["list", "a", "-o", "b"], "list takes no -o");
    not_understood(&["list", "a", "--end", "1"], "no option is called --end");
    not_understood(&["list", "a", "--start", "1", "--model", "1"], "--start and --model exclude each other");
    not_understood(&["list", "a", "--start", "1", "--start", "1"], "--start is given twice");
    let unread = ["-1", "+1", "1.0", "0x1", ""].map(|number| (number, "no number from 0 on"));
    let large = ["18446744073709551616", "100000000000000000000000"].map(|number| (number, "too large"));
    for (number, what) in unread.into_iter().chain(large) {
        not_understood(&["list", "a", "--start", number], &format!("--start {number} is {what}"));
        not_understood(&["strip", "a", "-o", "b", "--model", number], &format!("--model {number} is {what}"));
    }
    not_understood(&["list", "--strip"], "list takes one file, not 0");
    not_understood(&["list", "--strip", "a", "b"], "list takes one file, not 2");
    not_understood(&["list", "--strip", "a", "--start", "0"], "--strip and --start exclude each other");
    not_understood(&["list", "--model", "0", "a", "--strip"], "--strip and --model exclude each other");
    for arguments in [&["strip", "a", "-o", "b"][..], &["compare", "a", "b"], &["reference", "a", "b"]] {
        let words = format!("{} takes no --strip", arguments[0]);
        not_understood(&[arguments, &["--strip"]].concat(), &words);
    }
    not_understood(&["strip", "a"], "strip: -o OUT is missing");
    not_understood(&["strip", "-o", "b"], "strip takes one file, not 0");
    not_understood(&["compare", "a"], "compare takes two strips, not 1");
    not_understood(&["compare", "a", "b", "c"], "compare takes two strips, not 3");
    for (option, arguments) in
        [("--start", &["--start", "1"][..]), ("--model", &["--model", "1"]), ("-o", &["-o", "c"])]
    {
        not_understood(&[&["compare", "a", "b"], arguments].concat(), &format!("compare takes no {option}"));
    }
    not_understood(&["compare", "-", "-"], "only one of the two strips can be standard input");
    for arguments in [&["list", "a"][..], &["strip", "a", "-o", "b"], &["compare", "a", "b"]] {
        let words = format!("{} takes no --lines", arguments[0]);
        not_understood(&[arguments, &["--lines"]].concat(), &words);
    }
    not_understood(&["reference"], "reference takes two files, not 0");
    not_understood(&["reference", "a", "--lines"], "reference takes two files, not 1");
    not_understood(&["reference", "a", "b", "c"], "reference takes two files, not 3");
    not_understood(&["reference", "a", "b", "-o", "c"], "reference takes no -o");
    not_understood(&["reference", "a", "b", "--start", "x"], "--start x is no number from 0 on");
    not_understood(&["reference", "a", "b", "--start", "1", "--model", "1"], "--start and --model exclude each other");
    not_understood(&["reference", "-", "-"], "only one of the section and the list can be standard input");
    for arguments in [&["strip", "a", "-o"][..], &["strip", "a", "-o", "--"], &["strip", "-o", "-h", "a"]] {
        let last = intake(arguments);
        assert_eq!((last.status, last.output.len()), (2, 0), "{arguments:?}");
        assert!(last.error.starts_with("intake: -o lacks what follows it"), "{}", last.error);
    }
}

/// Where standard output is to take the strip, nothing else goes there.
#[test]
fn beside_the_strip() {
    for arguments in [
        &["strip", "a", "b", "-o", "-", "--json"][..],
        &["strip", "--output", "-", "--json"],
        &["strip", "--json", "a", "-o", "-", "--start", "x"],
        &["strip", "a", "--json", "-o", "-", "-o", "b"],
        &["--json", "strip", "a", "-o", "-"],
    ] {
        let ran = intake(arguments);
        assert_eq!((ran.status, ran.output.len()), (2, 0), "{arguments:?}");
        assert_eq!(json::line(&ran.error).keys(), ["result", "status", "words"]);
    }
    for arguments in [&["strip", "a", "--json", "-o"][..], &["strip", "--json", "-o", "b", "--", "-o", "-"]] {
        let ran = intake(arguments);
        assert_eq!((ran.status, ran.error.len()), (2, 0), "{arguments:?}");
        assert_eq!(json::line(ran.text()).text("result"), "usage");
    }
}

/// Behind `--` every argument is a file.
#[test]
fn after_two_dashes() {
    let ran = intake(&["list", "--", "--json"]);
    assert_eq!((ran.status, ran.output.len()), (4, 0));
    assert!(ran.error.starts_with("intake: --json: "), "{}", ran.error);
}

#[test]
fn help() {
    let asked =
        [&["--help"][..], &["list", "--help"], &["strip", "-h"], &["compare", "a", "--help"], &["reference", "--help"]];
    let texts = asked.map(|arguments| {
        let ran = intake(arguments);
        assert_eq!((ran.status, ran.error.as_str()), (0, ""));
        ran.text().to_owned()
    });
    let [program, list, strip, compare, reference] = &texts;
    for subcommand in ["list FILE", "strip FILE", "compare A B", "reference FILE LIST"] {
        assert!(program.contains(&format!("\n  intake {subcommand} ")), "{subcommand}");
    }
    for status in [
        "0  done",
        "1  the strips differ; the list does not",
        "2  ",
        "3  ",
        "4  ",
        "5  a strip to be compared is malformed",
        "6  ",
    ] {
        assert!(program.contains(&format!("\n  {status}")), "{status}");
    }
    for result in ["usage", "file", "project"] {
        assert!(program.contains(&format!("result \"{result}\"")), "{result}");
    }
    assert!(list.starts_with("intake list FILE [--start N | --model N] [--json]"));
    assert!(list.contains("\nintake list --strip FILE [--json]"));
    assert!(strip.starts_with("intake strip FILE -o OUT [--start N | --model N] [--json]"));
    assert!(compare.starts_with("intake compare A B [--json]"));
    assert!(reference.starts_with("intake reference FILE LIST [--lines] [--start N | --model N] [--json]"));
    assert!(texts.iter().flat_map(|text| text.lines()).all(|line| line.len() <= 120));
}

/// Control characters are told as Rust writes them, all others as they are.
#[test]
fn control_characters() {
    let (name, told) = ("usage \u{1b}[31m\n\t\u{9b}\u{7f}é'\\\"", "usage \\u{1b}[31m\\n\\t\\u{9b}\\u{7f}é'\\\"");
    let path = place(name);
    let ran = intake(&["list", &path]);
    assert_eq!((ran.status, ran.output.len()), (4, 0));
    assert!(ran.error.starts_with(&format!("intake: {}: ", path.replace(name, told))), "{:?}", ran.error);
    let ran = intake(&["list", "--json", &path]);
    assert!(!ran.text().trim_end().contains(char::is_control), "{:?}", ran.text());
    assert_eq!(json::line(ran.text()).text("file"), path);
    let error = "intake: no option is called -\\u{1b}; `intake --help` tells what is asked for\n";
    assert_eq!(intake(&["list", "-\u{1b}"]).error, error);
}

#[test]
fn files() {
    let absent = place("usage absent");
    let cannot = |arguments: &[&str], path: &str| {
        let ran = intake(arguments);
        assert_eq!((ran.status, ran.output.len()), (4, 0), "{arguments:?}");
        assert!(ran.error.starts_with(&format!("intake: {path}: ")), "{}", ran.error);
        let told = intake(&[arguments, &["--json"]].concat());
        let told = json::line(told.text());
        assert_eq!((told.keys(), told.text("result")), (vec!["result", "status", "file", "words"], "file"));
        assert_eq!(told.text("file"), path);
    };
    cannot(&["list", &absent], &absent);
    cannot(&["list", &absent, "--model", "0"], &absent);
    cannot(&["list", "--strip", &absent], &absent);
    cannot(&["strip", &absent, "-o", &place("usage unwritten")], &absent);
    let zeros = file("usage zeros", &[0; 340]);
    let unwritable = format!("{absent}/strip");
    cannot(&["strip", &zeros, "-o", &unwritable], &unwritable);
    let strip = file("usage strip", &[0; 4]);
    cannot(&["compare", &strip, &absent], &absent);
    cannot(&["compare", &absent, &strip], &absent);
}
