//! The generated cases: the same for the same seed, well-formed as records, every answer among
//! them, and many points and lines under way.

use second::generate::generate;
use second::survey::survey;
use std::collections::BTreeSet;

struct Record<'b> {
    domain: &'b [u8],
    problem: &'b [u8],
    plan: &'b [u8],
    part: usize,
}

fn made(seed: u64, count: u64) -> Vec<u8> {
    let mut out = Vec::new();
    generate(seed, count, &mut out).expect("writing to memory");
    out
}

/// The records of an output; panics if their lengths don't add up to it.
fn records(bytes: &[u8]) -> Vec<Record<'_>> {
    let mut rest = bytes;
    let mut list = Vec::new();
    while !rest.is_empty() {
        let end = rest.iter().position(|byte| *byte == b'\n');
        let (header, texts) = rest.split_at(end.expect("a header") + 1);
        let header = std::str::from_utf8(&header[..header.len() - 1]).expect("digits");
        let fields: Vec<usize> = header
            .split(' ')
            .map(|field| field.parse().expect("a number"))
            .collect();
        let [domain, problem, plan, part] = fields[..] else {
            panic!("header {header}");
        };
        let (domain, texts) = texts.split_at(domain);
        let (problem, texts) = texts.split_at(problem);
        let (plan, texts) = texts.split_at(plan);
        list.push(Record {
            domain,
            problem,
            plan,
            part,
        });
        rest = texts;
    }
    list
}

#[test]
fn the_same_seed_gives_the_same_bytes() {
    assert!(made(5, 300) == made(5, 300));
    assert!(made(5, 300) != made(6, 300));
}

#[test]
fn a_case_depends_on_seed_and_index_only() {
    assert!(made(7, 200).starts_with(&made(7, 120)));
}

#[test]
fn records_add_up() {
    let bytes = made(8, 400);
    let list = records(&bytes);
    assert_eq!(list.len(), 400);
    for Record { plan, part, .. } in list {
        let whole = plan.len().max(1);
        let allowed = [1, 7, 64, 4096, whole].contains(&part);
        assert!(allowed && (plan.len() <= 100_000 || part >= 4096));
    }
}

/// All but 15, which needs a plan of a million lines and is left to longer runs.
#[test]
fn every_answer_occurs() {
    let bytes = made(9, 3000);
    let mut answers = BTreeSet::new();
    for record in records(&bytes) {
        let line = second::answer(record.domain, record.problem, record.plan).line;
        let fields: Vec<&str> = line.split(' ').collect();
        answers.insert(match fields[0] {
            "refused" => fields[2].to_string(),
            word => word.to_string(),
        });
    }
    let words = "valid duration condition undefined range itself conflict invariant goal";
    let mut expected: BTreeSet<String> = words.split(' ').map(String::from).collect();
    expected.extend((1..=18).map(|number| number.to_string()));
    expected.remove("15");
    let missing: Vec<&String> = expected.difference(&answers).collect();
    assert!(missing.is_empty(), "no case for {missing:?}");
}

/// How many cases of a row of the survey have a verdict.
fn reached(survey: &str, row: &str, word: &str) -> usize {
    let line = survey.lines().find(|line| line.starts_with(row));
    let (_, words) = line.expect("the row").split_once('(').expect("words");
    let mut counts = words.trim_end_matches(')').split(", ");
    let count = counts.find_map(|count| count.strip_prefix(word));
    count.map_or(0, |count| count.trim().parse().expect("a number"))
}

/// Happenings of many points that nearly meet and that meet, over all conditions that are touched
/// and that are broken: each among so many cases of 3,000 at least.
#[test]
fn many_points_and_touched_conditions_occur() {
    let mut out = Vec::new();
    survey(&mut &made(10, 3000)[..], &mut out).expect("whole records");
    let survey = String::from_utf8(out).expect("text");
    let rows = [
        ("a happening of 8 points", "valid", 120),
        ("a happening of 8 points", "conflict", 50),
        ("a happening of 16 points", "valid", 40),
        ("a happening of 16 points", "conflict", 20),
        ("the first pair is not the first met", "conflict", 8),
        ("16 lines under way", "valid", 30),
        ("31 lines under way", "valid", 4),
        ("over all touched, not broken", "valid", 150),
        ("over all touched, not broken", "invariant", 15),
        ("over all touched at the own start", "valid", 120),
        ("over all touched where another line ends", "valid", 80),
        ("a part ends while lines are under way", "valid", 200),
    ];
    for (row, word, least) in rows {
        assert!(
            reached(&survey, row, word) >= least,
            "{row}, {word}: {survey}"
        );
    }
}
