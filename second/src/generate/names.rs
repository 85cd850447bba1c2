//! Names and numbers as they may be written: plain ones, legal ones that look like something else,
//! and those at the limits of length and size.

use super::random::Random;
use super::world::{Called, Named, LARGEST};

const PLAIN: &str = "a b c d aa ab a- a_ a-b a-b-c pump pump2 valve line-7 x y z9 Lock READY on q";

/// Names that are legal although the language, or a reader of it, uses the word elsewhere.
const ODD: &str = "\
    object at over start all end define domain problem number metric minimize duration parameters \
    effect condition types init goal total-time either-or or- t e3 andy no notx assigned o_r scale \
    x0- strips valid refused";

const LETTERS: &[u8] = b"abcdefghijklmnopqrstuvwxyz";
const FURTHER: &[u8] = b"abcdefghijklmnopqrstuvwxyz0123456789-_";

/// A name of exactly this many bytes.
pub fn long(random: &mut Random, length: usize) -> String {
    let mut name = String::from(*random.pick(LETTERS) as char);
    while name.len() < length {
        name.push(*random.pick(FURTHER) as char);
    }
    name
}

/// A name that none of `taken` has in any case of its letters.
pub fn fresh<T: Called>(random: &mut Random, taken: &[T]) -> String {
    let mut name = match random.weighted(&[72, 20, 1, 7]) {
        0 => random.word(PLAIN).to_string(),
        1 => random.word(ODD).to_string(),
        2 => long(random, 32),
        _ => {
            let length = random.between(5, 12);
            long(random, length)
        }
    };
    while taken
        .iter()
        .any(|other| other.called().eq_ignore_ascii_case(&name))
    {
        if name.len() >= 31 {
            name.truncate(12);
        }
        name.push((b'0' + random.below(10) as u8) as char);
    }
    name
}

/// A name for a variable: any but `duration`, which is not free after a `?`.
pub fn fresh_variable(random: &mut Random, taken: &[Named]) -> String {
    loop {
        let name = fresh(random, taken);
        if name != "duration" {
            return name;
        }
    }
}

/// An amount of thousandths: everyday ones, or if `edge` those near the ends of the range.
pub fn amount(random: &mut Random, edge: bool) -> i64 {
    const EVERYDAY: &[i64] = &[
        0, 1, 500, 1000, 1000, 1500, 2000, 2000, 3000, 5000, 5001, 10_000, 100_000,
    ];
    const EDGE: &[i64] = &[
        0,
        1,
        1,
        2,
        1000,
        500_000_000_000,
        500_000_000_001,
        499_999_999_999,
        LARGEST - 1,
        LARGEST,
        LARGEST,
        LARGEST,
    ];
    let (list, negative) = if edge && random.chance(75) {
        (EDGE, 45)
    } else {
        (EVERYDAY, 15)
    };
    let amount = *random.pick(list);
    if random.chance(negative) {
        -amount
    } else {
        amount
    }
}

/// The amount written with more or fewer zeros on either side; if `signed` a zero may have a minus.
pub fn written(random: &mut Random, amount: i64, signed: bool) -> String {
    let size = amount.unsigned_abs();
    let mut whole = (size / 1000).to_string();
    if random.chance(12) {
        let width = random.between(whole.len(), 9);
        whole = format!("{whole:0>width$}");
    }
    let mut decimals = format!("{:03}", size % 1000);
    let fewest = decimals.trim_end_matches('0').len();
    let kept = if random.chance(75) {
        fewest
    } else {
        random.between(fewest, 3)
    };
    decimals.truncate(kept);
    let minus = amount < 0 || (signed && amount == 0 && random.chance(8));
    let sign = if minus { "-" } else { "" };
    let point = if decimals.is_empty() { "" } else { "." };
    format!("{sign}{whole}{point}{decimals}")
}
