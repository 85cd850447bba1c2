//! Domains and problems with an empty plan: every size at its limit and past it, texts of the
//! greatest length, damaged texts for every refusal, and texts with much in init.

use std::collections::BTreeMap;
use std::io::{self, Write};

use super::invent::{self, Shape, TYPED};
use super::layout;
use super::limits::limits;
use super::random::Random;
use super::{damage, damaged, grown, large, misfitting, summed, write, Case, Text};
use crate::load;

/// A domain and a problem.
pub type Pair = (Vec<u8>, Vec<u8>);

/// Writes the cases as records: three lengths, then the texts.
pub fn write(seed: u64, given: &Pair, out: &mut dyn Write) -> io::Result<()> {
    let limits = limits();
    let limits = limits.iter().map(|limit| (limit.domain(), limit.problem()));
    let mut list: Vec<Pair> = limits.collect();
    list.push(large::pair());
    list.extend(refused(seed, given));
    list.extend(rich(seed));
    for (domain, problem) in list {
        writeln!(out, "{} {} 0", domain.len(), problem.len())?;
        out.write_all(&domain)?;
        out.write_all(&problem)?;
    }
    Ok(())
}

/// How many candidates are made, how many bytes both texts of one may have, and how many are kept
/// at most for one number of one text, and of those after one keyword.
const CANDIDATES: u64 = 40_000;
const SHORT: usize = 1_600;
const EACH: usize = 24;
const ALIKE: usize = 1;

/// Damaged texts: those kept differ in text, number, or the keyword before the refused place.
fn refused(seed: u64, given: &Pair) -> Vec<Pair> {
    let mut kept = Vec::new();
    let mut each = BTreeMap::new();
    let mut alike = BTreeMap::new();
    for index in 0..CANDIDATES {
        let pair = candidate(given, &mut Random::new(seed, index));
        if pair.0.len() + pair.1.len() > SHORT {
            continue;
        }
        let Err((text, refusal)) = load(&pair.0, &pair.1) else {
            continue;
        };
        let bytes = if text == "domain" { &pair.0 } else { &pair.1 };
        let place = (text, refusal.number, keyword(&bytes[..refusal.place]));
        let of_number = each.entry((text, refusal.number)).or_insert(0);
        let of_place = alike.entry(place).or_insert(0);
        // 13 has one place only.
        if *of_number < EACH && (*of_place < ALIKE || refusal.number == 13) {
            *of_number += 1;
            *of_place += 1;
            kept.push(pair);
        }
    }
    kept
}

/// The last word with a colon, in small letters.
fn keyword(text: &[u8]) -> Vec<u8> {
    let colon = text.iter().rposition(|byte| *byte == b':');
    let word = colon.map_or(&text[..0], |colon| &text[colon + 1..]);
    let end = word.iter().position(|byte| !byte.is_ascii_alphabetic());
    word[..end.unwrap_or(word.len())].to_ascii_lowercase()
}

fn candidate(given: &Pair, random: &mut Random) -> Pair {
    let case = match random.weighted(&[30, 30, 15, 3, 2, 20]) {
        0 => damaged(Text::Domain, random),
        1 => damaged(Text::Problem, random),
        2 => misfitting(random),
        3 => grown(random),
        4 => summed(random),
        _ => return spoiled(given, random),
    };
    pair_of(case)
}

fn pair_of(case: Case) -> Pair {
    (case.domain, case.problem)
}

/// The given texts with one byte changed, put in or taken out, or cut short.
fn spoiled(given: &Pair, random: &mut Random) -> Pair {
    let (mut domain, mut problem) = given.clone();
    let text = *random.pick(&[Text::Domain, Text::Problem]);
    match text {
        Text::Domain => damage::bytes(&mut domain, random),
        _ => damage::bytes(&mut problem, random),
    }
    (domain, problem)
}

/// Much of everything that init can hold.
const RICH: Shape = Shape {
    types: 6,
    objects: 12,
    predicates: 9,
    functions: 7,
    ..TYPED
};

/// Texts that load, with many facts and numbers at first.
fn rich(seed: u64) -> Vec<Pair> {
    const WANTED: usize = 44;
    const FACTS: usize = 12;
    const NUMBERS: usize = 6;
    let mut kept = Vec::new();
    for index in 2 * CANDIDATES.. {
        let random = &mut Random::new(seed, index);
        let world = invent::world(&RICH, random);
        if world.facts.len() >= FACTS && world.numbers.len() >= NUMBERS {
            let (domain, problem) = (
                write::domain(&world, random),
                write::problem(&world, random),
            );
            let pair = (
                layout::text(&domain, random),
                layout::text(&problem, random),
            );
            if load(&pair.0, &pair.1).is_ok() {
                kept.push(pair);
            }
        }
        if kept.len() == WANTED {
            break;
        }
    }
    kept
}
