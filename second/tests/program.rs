//! The program itself: its arguments, what it writes, and its exit status.

mod common;

use std::io::Write;
use std::path::PathBuf;
use std::process::{Command, Output, Stdio};

use common::{BENCH_DOMAIN, BENCH_PROBLEM};

const PLAN: &str = "0: (dose a) [5]\n5: (note a)\n";

fn run(arguments: &[&str], input: &[u8]) -> Output {
    let mut child = Command::new(env!("CARGO_BIN_EXE_second"))
        .args(arguments)
        .stdin(Stdio::piped())
        .stdout(Stdio::piped())
        .stderr(Stdio::piped())
        .spawn()
        .expect("the program starts");
    let mut stdin = child.stdin.take().expect("its input is a pipe");
    // A run that ends without reading its input closes the pipe; that is no failure here.
    let _ = stdin.write_all(input);
    drop(stdin);
    child.wait_with_output().expect("the program ends")
}

/// Writes a text to a file of its own for one test.
fn file(name: &str, text: &str) -> String {
    let path = PathBuf::from(env!("CARGO_TARGET_TMPDIR")).join(name);
    std::fs::write(&path, text).expect("the file can be written");
    path.to_string_lossy().into_owned()
}

fn written(output: &Output) -> String {
    String::from_utf8(output.stdout.clone()).expect("what is written is text")
}

#[test]
fn one_check() {
    let domain = file("one_check_domain", BENCH_DOMAIN);
    let problem = file("one_check_problem", BENCH_PROBLEM);
    let plan = file("one_check_plan", PLAN);
    let refused = file("one_check_refused", "0: (zz)");

    let output = run(&[&domain, &problem, &plan], b"");
    assert_eq!(written(&output), "valid 5.000 0 0\n");
    assert_eq!(output.status.code(), Some(0));

    let output = run(&["--state", &domain, &problem, &plan], b"");
    let state = "valid 5.000 0 0\n1111\n5000 5000 2000 0\n";
    assert_eq!(written(&output), state);
    assert_eq!(output.status.code(), Some(0));

    let output = run(&["--state", &domain, &problem, &refused], b"");
    assert_eq!(written(&output), "refused plan 8 1 5\n");
    assert_eq!(output.status.code(), Some(0));
}

/// Either line of the state may be empty, but is written.
#[test]
fn empty_state() {
    let domain = file("empty_state_domain", "(define (domain d))");
    let problem = file(
        "empty_state_problem",
        "(define (problem p) (:domain d) (:goal (and)))",
    );
    let plan = file("empty_state_plan", "");
    let output = run(&["--state", &domain, &problem, &plan], b"");
    assert_eq!(written(&output), "valid 0.000 0 0\n\n\n");
}

#[test]
fn wrong_usage() {
    let missing = file("wrong_usage", "") + ".missing";
    let wrong: [&[&str]; 9] = [
        &[],
        &["--state"],
        &["a", "b"],
        &["--generate", "1"],
        &["--generate", "one", "2"],
        &["--batch", "a", "b"],
        &["--texts", "1", "a"],
        &["--texts", "one", "a", "b"],
        &[&missing, &missing, &missing],
    ];
    for arguments in wrong {
        let output = run(arguments, b"");
        assert_eq!(output.status.code(), Some(2), "{arguments:?}");
        assert_eq!(written(&output), "", "{arguments:?}");
        let message = String::from_utf8_lossy(&output.stderr).into_owned();
        assert_eq!(message.matches('\n').count(), 1, "{message}");
    }
}

fn record(header_end: &str, domain: &str, problem: &str, plan: &str) -> String {
    let (d, p, q) = (domain.len(), problem.len(), plan.len());
    format!("{d} {p} {q}{header_end}\n{domain}{problem}{plan}")
}

#[test]
fn batch() {
    let input = [
        record("", BENCH_DOMAIN, BENCH_PROBLEM, PLAN),
        record(" 7", BENCH_DOMAIN, BENCH_PROBLEM, ""),
        record("", "", "", ""),
        record(
            " 1",
            BENCH_DOMAIN,
            BENCH_PROBLEM,
            "1: (note a)\n0: (note a)",
        ),
    ]
    .concat();
    let output = run(&["--batch"], input.as_bytes());
    let expected = "valid 5.000 0 0\n1111\n5000 5000 2000 0\n--\n\
                    goal 0.000 0 0\n1111\n5000 5000 0 0\n--\n\
                    refused domain 4 0 0\n--\n\
                    refused plan 16 2 1\n--\n";
    assert_eq!(written(&output), expected);
    assert_eq!(output.status.code(), Some(0));
    let output = run(&["--batch"], b"");
    assert_eq!(
        (written(&output), output.status.code()),
        (String::new(), Some(0))
    );
}

#[test]
fn malformed_records() {
    for input in [
        "\n",
        "0 0\n",
        "0 0 0",
        "0 0 0 0 0\n",
        "0  0 0\n",
        "a 0 0\n",
        "-1 0 0\n",
        "+1 0 0\n",
        "0 0 99999999999999999999999\n",
        "1 0 0\n",
        "0 0 5\n1234",
    ] {
        let output = run(&["--batch"], input.as_bytes());
        assert_ne!(output.status.code(), Some(0), "{input:?}");
        assert!(!output.stderr.is_empty(), "{input:?}");
        assert_eq!(written(&output), "", "{input:?}");
    }
    let before = record("", "", "", "");
    let output = run(&["--batch"], format!("{before}x\n").as_bytes());
    assert_eq!(output.status.code(), Some(2));
    assert_eq!(written(&output), "refused domain 4 0 0\n--\n");
}
