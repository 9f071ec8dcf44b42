//! The program itself, run as a process.

use std::fs::{self, File};
use std::path::PathBuf;
use std::process::{Command, Output, Stdio};

fn run(arguments: &[&str], standard_input: Stdio) -> Output {
    Command::new(env!("CARGO_BIN_EXE_second"))
        .args(arguments)
        .stdin(standard_input)
        .output()
        .unwrap()
}

fn case_file(name: &str) -> PathBuf {
    PathBuf::from(env!("CARGO_MANIFEST_DIR"))
        .join("../cases")
        .join(name)
}

#[test]
fn the_response_or_the_refusal_is_printed_and_nothing_else() {
    for (program, name) in [
        ("ack", "worked-exchange"),
        ("ack", "refusal-06-line-break-at-the-end"),
        ("ta1", "ta1/worked-exchange"),
        ("ta1", "ta1/refusal-15-isa14-zero"),
    ] {
        let input = File::open(case_file(&format!("{name}.in"))).unwrap();
        let output = run(&[program], input.into());
        let expected = fs::read(case_file(&format!("{name}.out"))).unwrap();
        assert_eq!(output.stdout, expected, "{name}");
        assert!(output.stderr.is_empty(), "{name}");
        assert!(output.status.success(), "{name}");
    }
}

#[test]
fn a_read_error_goes_to_standard_error_only() {
    // A folder can be opened but not read.
    let folder = File::open(env!("CARGO_MANIFEST_DIR")).unwrap();
    let output = run(&["ack"], folder.into());
    assert!(output.stdout.is_empty());
    assert!(output.stderr.starts_with(b"second: "));
    assert!(output.stderr.ends_with(b"\n"));
    assert!(!output.status.success());
}

#[test]
fn generate_prints_what_it_covered() {
    let arguments = ["generate", "--seed", "7", "--count", "500"];
    let output = run(&arguments, Stdio::null());
    let report = String::from_utf8(output.stdout).unwrap();
    let lines: Vec<&str> = report.lines().map(str::trim_start).collect();
    assert_eq!(lines[0], "500 cases");
    for numbered in [" ack number ", " ta1 number "] {
        let numbers = lines.iter().filter(|line| line.contains(numbered));
        let counts = numbers.map(|line| line.split_once(' ').unwrap().0);
        let sum: u32 = counts.map(|count| count.parse::<u32>().unwrap()).sum();
        assert_eq!(sum, 500);
    }
}

#[test]
fn unknown_commands_are_told_the_usage() {
    let strange: [&[&str]; 5] = [
        &[],
        &["answer"],
        &["ack", "now"],
        &["ack", "ta1"],
        &["generate", "--seed", "x", "--count", "1"],
    ];
    for arguments in strange {
        let output = run(arguments, Stdio::null());
        assert!(output.stdout.is_empty(), "{arguments:?}");
        assert!(output.stderr.starts_with(b"usage: "), "{arguments:?}");
        assert_eq!(output.status.code(), Some(2), "{arguments:?}");
    }
}
