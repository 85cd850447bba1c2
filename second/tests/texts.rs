//! Domains and problems: every size at its limit, the greatest texts, and the stored cases.

mod common;

use std::collections::BTreeMap;
use std::path::PathBuf;

use common::{BENCH_DOMAIN, BENCH_PROBLEM};
use second::batch::answer_records;
use second::generate::{large, limits::limits, texts};
use second::{answer, written};

/// The line, the facts and the numbers of two texts with an empty plan.
fn loaded(domain: &[u8], problem: &[u8]) -> String {
    written(&answer(domain, problem, b""))
}

#[test]
fn first_states() {
    let bench = "goal 0.000 0 0\n1111\n5000 5000 0 0\n";
    assert_eq!(
        loaded(BENCH_DOMAIN.as_bytes(), BENCH_PROBLEM.as_bytes()),
        bench
    );
    let empty = b"(define (problem p) (:domain d) (:goal (and)))";
    let nothing = "valid 0.000 0 0\n\n\n";
    assert_eq!(loaded(b"(define (domain d))", empty), nothing);
    let other = "refused problem 13 29 0\n";
    assert_eq!(loaded(b"(define (domain e))", empty), other);
    assert_eq!(loaded(b"", empty), "refused domain 4 0 0\n");
    let domain = b"(define (domain d) (:constants a) (:predicates (p ?x) (q)) (:functions (f ?x)))";
    let init = b"(define (problem p) (:domain d) (:objects b) \
                 (:init (q) (= (f b) -0.5) (p b) (q)) (:goal (and)))";
    let some = "valid 0.000 0 0\n011\n-1000000000001 -500\n";
    assert_eq!(loaded(domain, init), some);
}

#[test]
fn sizes_at_their_limits() {
    let all = limits();
    for limit in &all {
        let answer = loaded(&limit.domain(), &limit.problem());
        let due = limit.due();
        let text = String::from_utf8_lossy(&limit.domain()).into_owned();
        let as_due = match due.is_empty() {
            true => !answer.starts_with("refused"),
            false => answer == due,
        };
        assert!(as_due, "{}: {answer} {due} {text:.900}", limit.what);
    }
    let loaded = all.iter().filter(|limit| limit.refused == 0).count();
    assert!(loaded > 60 && all.len() - loaded > 100);
}

/// Both have 32,768 bytes, few of them spaces at the end, and as much as they may of most things.
#[test]
fn the_large_pair_loads() {
    let (domain, problem) = large::pair();
    for text in [&domain, &problem] {
        assert_eq!(text.len(), 32_768);
        assert!(text.trim_ascii_end().len() > 32_500);
    }
    let answer = answer(&domain, &problem, b"");
    let (facts, numbers) = answer.state.expect("the pair loads");
    assert_eq!(facts.len(), 29 * 64 + 3 * 64 * 64);
    assert_eq!(numbers.len(), 16 * 64);
}

/// How many answers each refusal's number has, and 0 for no refusal.
fn counts(answers: &str) -> BTreeMap<u32, usize> {
    let mut counts = BTreeMap::new();
    for answer in answers.split_terminator("--\n") {
        let fields: Vec<&str> = answer.split([' ', '\n']).collect();
        let number = match fields[0] {
            "refused" => fields[2],
            _ => "0",
        };
        *counts.entry(number.parse().expect("a number")).or_insert(0) += 1;
    }
    counts
}

fn answered(records: &[u8]) -> String {
    let mut out = Vec::new();
    answer_records(&mut &records[..], &mut out).expect("whole records");
    String::from_utf8(out).expect("answers are text")
}

/// The cases without a plan have every refusal of a domain and of a problem.
#[test]
fn cases_without_a_plan() {
    let given = (BENCH_DOMAIN.into(), BENCH_PROBLEM.into());
    let mut records = Vec::new();
    texts::write(1, &given, &mut records).expect("writing to memory");
    let counts = counts(&answered(&records));
    let least = (0..=13).map(|number| counts.get(&number).copied().unwrap_or(0));
    assert!(least.min() >= Some(7), "{counts:?}");
}

fn stored(name: &str) -> Vec<u8> {
    let root = PathBuf::from(env!("CARGO_MANIFEST_DIR"));
    let path = root.join("../crates/program_batch").join(name);
    std::fs::read(&path).expect("a stored file")
}

/// What is stored for the first program is what this one answers, and has every refusal but 1 and
/// 15, which only texts have that are too long to be stored (tests/long-texts).
#[test]
fn stored_cases() {
    let answers = answered(&stored("stdin"));
    assert!(answers.as_bytes() == stored("stdout"));
    let counts = counts(&answers);
    let wanted = (0..=18).filter(|number| ![1, 15].contains(number));
    let least = wanted.map(|number| counts.get(&number).copied().unwrap_or(0));
    assert!(least.min() >= Some(5), "{counts:?}");
}
