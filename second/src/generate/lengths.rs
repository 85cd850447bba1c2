//! Texts near their greatest length, and plan lines near theirs.

use super::damage;
use super::layout::{idle_line, plain, remark, stands_alone, LINE};
use super::names::long;
use super::pool;
use super::random::Random;

/// The most bytes of a domain or problem.
const TEXT: usize = 32_768;

/// White space or comments of exactly so many bytes; a comment is closed.
fn filler(length: usize, random: &mut Random) -> Vec<u8> {
    let white = *random.pick(b" \n\t\r");
    let mut out = vec![white; length];
    match random.below(4) {
        0 if length >= 2 => {
            out.fill(b'x');
            out[0] = b';';
            out[length - 1] = b'\n';
        }
        1 => {
            let width = random.between(2, 90);
            for line in out.chunks_exact_mut(width) {
                let mut comment = vec![b';'];
                remark(width, random, &mut comment);
                comment.resize(width - 1, b'-');
                comment.push(b'\n');
                line.copy_from_slice(&comment);
            }
        }
        _ => {}
    }
    out
}

/// A domain or problem near or past its greatest length, often spoiled where the limit falls.
pub fn long_text(tokens: &[String], random: &mut Random) -> Vec<u8> {
    let mut tokens = tokens.to_vec();
    if random.chance(20) {
        damage::text(&mut tokens, random);
    }
    let place = spoiled_place(&mut tokens, random);
    let mut out = plain(&tokens[..place]);
    let behind = match random.chance(10) {
        true => Vec::new(),
        false => plain(&tokens[place..]),
    };
    let token = tokens.get(place).map_or(0, String::len);
    let fill = match random.below(3) {
        0 => (TEXT + random.below(5)).saturating_sub(2 + out.len() + behind.len()),
        1 => (TEXT + random.below(3)).saturating_sub(1 + out.len() + token),
        _ => (TEXT + random.below(4)).saturating_sub(2 + out.len()),
    };
    out.extend(filler(fill.max(1), random));
    out.extend(behind);
    out
}

/// The place of the token that is to stand where the limit falls, often a treacherous one.
fn spoiled_place(tokens: &mut Vec<String>, random: &mut Random) -> usize {
    let place = random.below(tokens.len() + 1);
    match random.weighted(&[12, 8, 40, 40]) {
        0 => either(tokens).map_or(place, |open| open + random.below(2)),
        1 => number_twice(tokens).unwrap_or(place),
        2 if place < tokens.len() => {
            tokens[place] = treacherous(random);
            place
        }
        _ => place,
    }
}

/// Puts `(either` in a type's place and gives that place.
fn either(tokens: &mut Vec<String>) -> Option<usize> {
    let minus = tokens.iter().position(|token| token == "-")?;
    tokens.splice(minus + 1..minus + 1, ["(", "either"].map(String::from));
    Some(minus + 1)
}

/// Repeats a number of the init and gives the place of the bracket by which that is known.
fn number_twice(tokens: &mut Vec<String>) -> Option<usize> {
    let init = tokens.iter().position(|token| token == ":init")?;
    let equal = (init..tokens.len()).find(|place| tokens[*place] == "=")?;
    let end = damage::behind(tokens, equal - 1);
    let copy = tokens[equal - 1..end].to_vec();
    let closing = copy.iter().position(|token| token == ")")?;
    tokens.splice(end..end, copy);
    Some(end + closing)
}

/// A token for the place where the limit falls; now and then a very long one.
fn treacherous(random: &mut Random) -> String {
    if random.chance(8) {
        let length = random.between(TEXT - 3000, TEXT + 10);
        let mark = random.phrase("; ?; :; 5; _");
        return format!("{mark}{}", long(random, length));
    }
    random.phrase(pool::TEXT).replace(' ', "")
}

/// A plan one of whose lines is about as long as a line may be.
pub fn long_line(lines: &[Vec<String>], random: &mut Random) -> Vec<u8> {
    let mut texts: Vec<Vec<u8>> = lines.iter().map(|tokens| plain(tokens)).collect();
    let index = random.below(lines.len() + 1);
    let length = random.between(LINE - 2, LINE + 3);
    match lines.get(index) {
        Some(tokens) if random.chance(75) => texts[index] = stretched(tokens, length, random),
        _ => texts.insert(index, stretched_idle(length, random)),
    }
    if random.chance(15) {
        let column = random.between(LINE - 3, LINE + 1).min(texts[index].len());
        texts[index].insert(column, *random.pick(b"\x00\x7f\xff;):?a5 \r"));
    }
    let mut out = texts.join(&b'\n');
    if random.chance(60) {
        out.push(b'\n');
    }
    out
}

/// The tokens in one line so that one of them, or the line itself, ends at `length`.
fn stretched(tokens: &[String], length: usize, random: &mut Random) -> Vec<u8> {
    let mut tokens = tokens.to_vec();
    if random.chance(15) {
        damage::token(&mut tokens, pool::PLAN, random);
    }
    let place = random.below(tokens.len() + 1);
    if random.chance(35) && place < tokens.len() {
        tokens[place] = random.phrase(pool::PLAN).replace(' ', "");
    }
    let mut out = plain(&tokens[..place]);
    let token = tokens.get(place).map_or("", |token| token);
    let fill = length.saturating_sub(out.len() + token.len());
    let comment = place == tokens.len() && fill > 0 && random.chance(40);
    out.push(if comment {
        b';'
    } else {
        *random.pick(b" \t\r")
    });
    out.extend(vec![*random.pick(b" \t\r"); fill.saturating_sub(1)]);
    out.extend(token.bytes());
    for pair in tokens.get(place..).unwrap_or_default().windows(2) {
        let apart = pair.iter().all(|token| !stands_alone(token, b":"));
        if apart || random.chance(50) {
            out.push(b' ');
        }
        out.extend(pair[1].bytes());
    }
    if random.chance(20) {
        out.push(b'\r');
    }
    out
}

fn stretched_idle(length: usize, random: &mut Random) -> Vec<u8> {
    let mut out = idle_line(random);
    let last = *random.pick(b" \t\rx");
    let byte = if out.contains(&b';') { last } else { b' ' };
    out.resize(length, byte);
    out
}
