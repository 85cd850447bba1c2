//! What the tests share: texts to put small parts into, and rows that say what must be answered.
//! In a row, `^` marks the refused place and is taken out before the text is handed in.

// Every test file is a program of its own and uses only a part of this.
#![allow(dead_code)]

pub mod world;

use std::fs::OpenOptions;
use std::io::Write;

pub const BENCH_DOMAIN: &str = "\
(define (domain bench)
  (:types pump)
  (:predicates (ready ?p - pump) (on ?p - pump))
  (:functions (lock ?p - pump) (doses ?p - pump))
  (:durative-action dose
    :parameters (?p - pump)
    :duration (= ?duration (lock ?p))
    :condition (and (at start (ready ?p)) (over all (on ?p)))
    :effect (and (at start (not (ready ?p))) (at end (ready ?p))
                 (at end (increase (doses ?p) 1))))
  (:action off :parameters (?p - pump) :precondition (on ?p) :effect (not (on ?p)))
  (:action note :parameters (?p - pump) :effect (increase (doses ?p) 1))
  (:action zero :parameters (?p - pump) :effect (assign (doses ?p) 0)))
";

pub const BENCH_PROBLEM: &str = "\
(define (problem two-pumps) (:domain bench)
  (:objects a b - pump)
  (:init (ready a) (ready b) (on a) (on b)
         (= (lock a) 5) (= (lock b) 5) (= (doses a) 0) (= (doses b) 0))
  (:goal (>= (doses a) 2)))
";

/// Names for the small parts: s is below t; f, g, h and p, q, r take 0, 1 and 2 arguments.
const VOCABULARY: &str = "\
(:types t u - object s - t) (:constants ct - t cu - u cs - s) \
(:predicates (p) (q ?x - t) (r ?x ?y) (at ?x)) (:functions (f) (g ?x - t) (h ?x ?y)) ";

/// A refusal's number and the text with `^` at the refused place; 0 and no mark if the text is
/// accepted. The sentence that decides goes with a list of rows.
pub type Row<Text> = (u32, Text);

pub fn line(domain: &str, problem: &str, plan: &str) -> String {
    keep(domain, problem, plan);
    second::answer(domain.as_bytes(), problem.as_bytes(), plan.as_bytes()).line
}

/// The line, the facts and the numbers.
pub fn written(domain: &str, problem: &str, plan: &str) -> String {
    keep(domain, problem, plan);
    let answer = second::answer(domain.as_bytes(), problem.as_bytes(), plan.as_bytes());
    second::written(&answer)
}

pub fn check_domains<Text: AsRef<str>>(sentence: &str, rows: &[Row<Text>]) {
    for row in rows {
        // A domain accepted, the empty problem is refused: it ends in the middle.
        let answer = |text: &str| line(text, "", "");
        check(sentence, row, answer, "domain", "refused problem 4 0 0\n");
    }
}

/// Problems of a domain that has the vocabulary alone.
pub fn check_problems<Text: AsRef<str>>(sentence: &str, rows: &[Row<Text>]) {
    check_problems_of(&domain(VOCABULARY), sentence, rows);
}

pub fn check_problems_of<Text: AsRef<str>>(domain: &str, sentence: &str, rows: &[Row<Text>]) {
    for row in rows {
        check(sentence, row, |text| line(domain, text, ""), "problem", "");
    }
}

/// Plans of the bench.
pub fn check_plans<Text: AsRef<str>>(sentence: &str, rows: &[Row<Text>]) {
    for row in rows {
        let answer = |text: &str| line(BENCH_DOMAIN, BENCH_PROBLEM, text);
        check(sentence, row, answer, "plan", "");
    }
}

/// Holds one row against the answer for its text; `accepted` is the whole line then, or empty for
/// any line that is no refusal.
fn check<Text: AsRef<str>>(
    sentence: &str,
    (number, marked): &Row<Text>,
    answer: impl Fn(&str) -> String,
    what: &str,
    accepted: &str,
) {
    let marked = marked.as_ref();
    let text = marked.replacen('^', "", 1);
    let line = answer(&text);
    let Some(place) = marked.find('^') else {
        assert_eq!(*number, 0, "a row without its mark: {marked}");
        let as_due = line == accepted || (accepted.is_empty() && !line.starts_with("refused"));
        assert!(as_due, "{line}{marked}\n{sentence}");
        return;
    };
    let place = if what == "plan" {
        line_and_column(&text[..place])
    } else {
        format!("{place} 0")
    };
    let expected = format!("refused {what} {number} {place}\n");
    assert_eq!(line, expected, "{marked}\n{sentence}");
}

/// The line and column, from 1, of what follows this part of a plan.
fn line_and_column(before: &str) -> String {
    let line = before.matches('\n').count() + 1;
    let column = before.len() - before.rfind('\n').map_or(0, |lf| lf + 1) + 1;
    format!("{line} {column}")
}

/// A domain with these sections alone.
pub fn domain(sections: &str) -> String {
    format!("(define (domain d) {sections})")
}

/// A domain with the vocabulary and this section after it.
pub fn section(section: &str) -> String {
    domain(&format!("{VOCABULARY}{section}"))
}

/// A simple action with this after its parameters.
pub fn action(rest: &str) -> String {
    section(&format!(
        "(:action x :parameters (?t - t ?u - u ?o) {rest})"
    ))
}

pub fn precondition(condition: &str) -> String {
    action(&format!(":precondition {condition}"))
}

pub fn effect(effect: &str) -> String {
    action(&format!(":effect {effect}"))
}

/// A durative action with this after its parameters.
pub fn durative(rest: &str) -> String {
    section(&format!(
        "(:durative-action x :parameters (?t - t ?u - u ?o) {rest})"
    ))
}

/// A durative action with this after its duration.
pub fn lasting(rest: &str) -> String {
    durative(&format!(":duration (= ?duration 5) {rest}"))
}

/// A problem with these sections after its domain.
pub fn problem(sections: &str) -> String {
    format!("(define (problem x) (:domain d) {sections})")
}

/// A problem with objects ot, ou, os and oo of the types t, u, s and object.
pub fn init(entries: &str) -> String {
    problem(&format!(
        "(:objects ot - t ou - u os - s oo) (:init {entries}) (:goal (and))"
    ))
}

pub fn goal(condition: &str) -> String {
    problem(&format!(
        "(:objects ot - t ou - u os - s oo) (:goal {condition})"
    ))
}

/// The text `part` so many times, with the number (from 1) for `#`.
pub fn times(count: usize, part: &str) -> String {
    (1..=count)
        .map(|number| part.replace('#', &number.to_string()))
        .collect()
}

/// A name of so many bytes.
pub fn letters(count: usize) -> String {
    "a".repeat(count)
}

/// Adds the three texts as a record to the file that CASES names, if it is set: so the stored cases
/// of program_batch get the rows of these tests (tests/stored-cases).
fn keep(domain: &str, problem: &str, plan: &str) {
    let Some(path) = std::env::var_os("CASES") else {
        return;
    };
    let lengths = format!("{} {} {}\n", domain.len(), problem.len(), plan.len());
    let record = [&lengths, domain, problem, plan].concat();
    let file = OpenOptions::new().create(true).append(true).open(path);
    let written = file.and_then(|mut file| file.write_all(record.as_bytes()));
    written.expect("the file can be written");
}
