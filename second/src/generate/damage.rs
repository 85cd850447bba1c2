//! Damage to well-formed texts: by token, by bracketed group, by known weak place and by byte.

use super::layout::plain;
use super::names::long;
use super::pool::{LISTED, NUMERALS, RECIPES, TAILS, TEXT};
use super::random::Random;
use super::Draft;

/// One change to a domain's or problem's tokens.
pub fn text(tokens: &mut Vec<String>, random: &mut Random) {
    match random.weighted(&[10, 8, 7, 12, 41, 7, 7, 2, 4, 2]) {
        0 => token(tokens, TEXT, random),
        1 => group(tokens, random),
        2 => alike(tokens, random),
        3 => worsened(tokens, random),
        4 => recipe(tokens, random),
        5 => listed(tokens, random),
        6 => numeral(tokens, random),
        7 => echo(tokens, random),
        8 => tail(tokens, random),
        _ => tokens.truncate(random.below(tokens.len() + 1)),
    }
}

/// One change where the checker refuses the draft's domain or problem as it stands, so that more
/// than one rule meets there.
pub fn at_refusal(draft: &mut Draft, random: &mut Random) {
    let line = crate::answer(&plain(&draft.domain), &plain(&draft.problem), b"").line;
    let fields: Vec<&str> = line.split(' ').collect();
    let (tokens, place) = match fields[..] {
        ["refused", "domain", _, place, _] => (&mut draft.domain, place),
        ["refused", "problem", _, place, _] => (&mut draft.problem, place),
        _ => return,
    };
    let place: usize = place.parse().unwrap_or(0);
    let mut begin = 0;
    for index in 0..tokens.len() {
        if begin == place {
            let (index, taken) = (index + random.below(2), random.below(2));
            return put(tokens, index, taken, random.phrase(TEXT));
        }
        begin += tokens[index].len() + 1;
    }
}

/// Puts the words of a phrase in the place of `taken` tokens.
fn put(tokens: &mut Vec<String>, place: usize, taken: usize, phrase: &str) {
    let end = (place + taken).min(tokens.len());
    let words: Vec<String> = phrase.split_whitespace().map(String::from).collect();
    tokens.splice(place.min(end)..end, words);
}

/// One token deleted, doubled, moved, or replaced or preceded by a treacherous one.
pub fn token(tokens: &mut Vec<String>, pool: &str, random: &mut Random) {
    if tokens.is_empty() {
        return;
    }
    let place = random.below(tokens.len());
    match random.weighted(&[16, 14, 10, 6, 36, 18]) {
        0 => {
            tokens.remove(place);
        }
        1 => tokens.insert(place, tokens[place].clone()),
        2 => {
            let next = (place + 1) % tokens.len();
            tokens.swap(place, next);
        }
        3 => {
            let other = random.below(tokens.len());
            tokens.swap(place, other);
        }
        4 => put(tokens, place, 1, random.phrase(pool)),
        _ => put(tokens, place, 0, random.phrase(pool)),
    }
}

/// The place after the bracket that closes the one at `open`.
pub fn behind(tokens: &[String], open: usize) -> usize {
    let mut depth = 0;
    for (index, token) in tokens.iter().enumerate().skip(open) {
        match &token[..] {
            "(" => depth += 1,
            ")" => depth -= 1,
            _ => {}
        }
        if depth == 0 {
            return index + 1;
        }
    }
    tokens.len()
}

/// A random bracketed group as its first token and the place after its last.
fn any_group(tokens: &[String], random: &mut Random) -> Option<(usize, usize)> {
    let open = any_place(tokens, |token| token == "(", random)?;
    Some((open, behind(tokens, open)))
}

/// A bracketed group deleted, doubled, emptied, wrapped, moved, or replaced by another.
fn group(tokens: &mut Vec<String>, random: &mut Random) {
    let (Some((open, end)), Some((other, other_end))) =
        (any_group(tokens, random), any_group(tokens, random))
    else {
        return;
    };
    let copy: Vec<String> = tokens[open..end].to_vec();
    match random.weighted(&[15, 20, 8, 22, 15, 20]) {
        0 => {
            tokens.drain(open..end);
        }
        1 => {
            tokens.splice(end..end, copy);
        }
        2 => put(tokens, open, end - open, "( )"),
        3 => {
            tokens.insert(end, ")".to_string());
            let outer = "( not; ( and; ( at start; ( over all; ( at end; ( -; (";
            put(tokens, open, 0, random.phrase(outer));
        }
        4 => {
            tokens.splice(other..other_end, copy);
        }
        _ => {
            tokens.splice(other..other, copy);
        }
    }
}

/// The problem's init or goal before the section that is due first.
pub fn early(tokens: &mut Vec<String>, random: &mut Random) {
    let section = *random.pick(&[":init", ":goal"]);
    let place = |word: &str| tokens.iter().position(|token| token == word);
    let (Some(first), Some(word)) = (place(":domain"), place(section)) else {
        return;
    };
    let (open, end) = (word - 1, behind(tokens, word - 1));
    let moved: Vec<String> = tokens.drain(open..end).collect();
    tokens.splice(first - 1..first - 1, moved);
}

#[derive(Clone, Copy, PartialEq)]
enum Sort {
    Variable,
    Keyword,
    Number,
    Name,
    Other,
}

fn sort_of(token: &str) -> Sort {
    match token.as_bytes() {
        [b'?', ..] => Sort::Variable,
        [b':', _, ..] => Sort::Keyword,
        [b'0'..=b'9', ..] | [b'-', b'0'..=b'9', ..] => Sort::Number,
        [b'a'..=b'z' | b'A'..=b'Z', ..] => Sort::Name,
        _ => Sort::Other,
    }
}

fn is_number(token: &str) -> bool {
    sort_of(token) == Sort::Number
}

fn is_word(token: &str) -> bool {
    sort_of(token) != Sort::Other
}

/// One token replaced by another of its sort: undeclared, misplaced or ill-typed names come of it.
pub fn alike(tokens: &mut [String], random: &mut Random) {
    let Some(place) = any_place(tokens, is_word, random) else {
        return;
    };
    let sort = sort_of(&tokens[place]);
    let others: Vec<&String> = tokens
        .iter()
        .filter(|token| sort_of(token) == sort)
        .collect();
    tokens[place] = random.pick(&others).to_string();
}

/// One token made a worse one of its sort: malformed, too long, unknown or just another name.
pub fn worsened(tokens: &mut [String], random: &mut Random) {
    const NUMBERS: &str = "\
        5. 1..2 5-3 1e3 5a 0x1 1234567890 1.2345 0.0000 5.a 5.1.1 -1234567890 -0.0001 000000000 \
        0000000000 999999999.999 -5 5? 5:";
    let wanted = if random.chance(35) {
        is_number
    } else {
        is_word
    };
    let Some(place) = any_place(tokens, wanted, random) else {
        return;
    };
    let token = &mut tokens[place];
    let mark = match sort_of(token) {
        Sort::Number => {
            *token = random.word(NUMBERS).to_string();
            return;
        }
        Sort::Variable => "?",
        Sort::Keyword => ":",
        _ => "",
    };
    match random.below(5) {
        0 => token.push('x'),
        1 => token.truncate(token.len() - 1),
        _ => {
            let length = *random.pick(&[31, 32, 33, 33, 33, 34]);
            *token = format!("{mark}{}", long(random, length));
        }
    }
}

/// A weak place of the language, found by its word, given one of the replacements known for it.
fn recipe(tokens: &mut Vec<String>, random: &mut Random) {
    let parts = |line: &'static str| {
        let (word, rest) = line.split_once(' ')?;
        let (distance, phrases) = rest.split_once(' ')?;
        Some((word, distance.parse::<usize>().ok()?, phrases))
    };
    let mut known: Vec<_> = RECIPES.lines().filter_map(parts).collect();
    known.retain(|(word, _, _)| tokens.iter().any(|token| token == word));
    let Some((word, distance, phrases)) = known.get(random.below(known.len())) else {
        return;
    };
    if let Some(place) = any_place(tokens, |token| token == *word, random) {
        put(tokens, place + distance, 1, random.phrase(phrases));
    }
}

/// The place of one of the tokens that are wanted.
fn any_place(
    tokens: &[String],
    wanted: impl Fn(&str) -> bool,
    random: &mut Random,
) -> Option<usize> {
    let is_wanted = |place: &usize| wanted(&tokens[*place]);
    let places: Vec<usize> = (0..tokens.len()).filter(is_wanted).collect();
    places.get(random.below(places.len())).copied()
}

/// A word that is refused wherever it stands put in a token's place or before it.
fn listed(tokens: &mut Vec<String>, random: &mut Random) {
    let place = random.below(tokens.len());
    let taken = random.below(2);
    put(tokens, place, taken, random.word(LISTED));
}

/// Something else where a number was.
fn numeral(tokens: &mut Vec<String>, random: &mut Random) {
    if let Some(place) = any_place(tokens, is_number, random) {
        put(tokens, place, 1, random.phrase(NUMERALS));
    }
}

/// The equation around a number once more after it, with something else for the number.
fn echo(tokens: &mut Vec<String>, random: &mut Random) {
    let Some(number) = any_place(tokens, is_number, random) else {
        return;
    };
    let equation = (0..number).rev().find(|place| tokens[*place] == "=");
    let Some(open) = equation.and_then(|place| place.checked_sub(1)) else {
        return;
    };
    let end = behind(tokens, open);
    let mut copy = tokens[open..end].to_vec();
    put(&mut copy, number - open, 1, random.phrase(NUMERALS));
    tokens.splice(end..end, copy);
}

/// Something more before or after the last bracket.
fn tail(tokens: &mut Vec<String>, random: &mut Random) {
    let place = tokens.len().saturating_sub(random.below(2));
    put(tokens, place, 0, random.phrase(TAILS));
}

/// One change to a text's bytes.
pub fn bytes(text: &mut Vec<u8>, random: &mut Random) {
    let place = random.below(text.len());
    match random.weighted(&[25, 40, 20, 15]) {
        _ if text.is_empty() => text.push(random.below(256) as u8),
        0 => text[place] ^= 1 << random.below(8),
        1 => {
            let byte = match random.below(3) {
                0 => random.below(256) as u8,
                1 => *random.pick(b"\x00\x0b\x0c\x1f\x7f\x80\xa0\xff"),
                _ => *random.pick(b";:?-()[]\t\r\n 09.aA_#~!"),
            };
            text.insert(place, byte);
        }
        2 => {
            text.remove(place);
        }
        _ => text.truncate(place),
    }
}
