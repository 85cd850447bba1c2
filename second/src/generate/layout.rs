//! Tokens laid out as text: white space, comments and the case of letters as chance has it.

use super::random::Random;

/// The longest plan line without its LF.
pub const LINE: usize = 256;

/// Single spaces between all tokens, for asking the checker.
pub fn plain(tokens: &[String]) -> Vec<u8> {
    tokens.join(" ").into_bytes()
}

/// How one text is laid out.
struct Style {
    /// Weights of: as little as needed, space, LF, tab, CR LF, a run of white, a comment.
    gaps: &'static [usize],
    /// How many letters in a hundred change their case.
    flips: usize,
}

const STYLES: &[&[usize]] = &[
    &[100, 0, 0, 0, 0, 0, 0],
    &[70, 20, 10, 0, 0, 0, 0],
    &[0, 80, 20, 0, 0, 0, 0],
    &[60, 20, 6, 4, 4, 4, 2],
    &[20, 20, 20, 12, 12, 12, 4],
];

impl Style {
    fn any(random: &mut Random) -> Self {
        Style {
            gaps: STYLES[random.below(STYLES.len())],
            flips: *random.pick(&[0, 0, 0, 10, 50, 100]),
        }
    }
}

/// Domain or problem as text.
pub fn text(tokens: &[String], random: &mut Random) -> Vec<u8> {
    let style = Style::any(random);
    let mut out = Vec::new();
    if random.chance(20) {
        gap(&style, false, random, &mut out);
    }
    for (index, token) in tokens.iter().enumerate() {
        if index > 0 {
            let needed = !stands_alone(&tokens[index - 1], b"") && !stands_alone(token, b"");
            gap(&style, needed, random, &mut out);
        }
        word(token, style.flips, random, &mut out);
    }
    match random.below(10) {
        0..=4 => out.push(b'\n'),
        5 => {
            out.push(b';');
            remark(20, random, &mut out);
        }
        6 => gap(&style, true, random, &mut out),
        _ => {}
    }
    out
}

/// Whether the token is a bracket, or one of `marks`, and so needs no white space around it.
pub fn stands_alone(token: &str, marks: &[u8]) -> bool {
    match token.as_bytes() {
        [single] => b"()[]".contains(single) || marks.contains(single),
        _ => false,
    }
}

fn word(token: &str, flips: usize, random: &mut Random, out: &mut Vec<u8>) {
    for byte in token.bytes() {
        let flipped = byte.is_ascii_alphabetic() && flips > 0 && random.chance(flips);
        out.push(if flipped { byte ^ 32 } else { byte });
    }
}

fn gap(style: &Style, needed: bool, random: &mut Random, out: &mut Vec<u8>) {
    match random.weighted(style.gaps) {
        1 => out.push(b' '),
        2 => out.push(b'\n'),
        3 => out.push(b'\t'),
        4 => out.extend(b"\r\n"),
        5 => {
            for _ in 0..random.between(2, 5) {
                out.push(*random.pick(b"  \t\r\n"));
            }
        }
        6 => {
            out.push(b';');
            remark(30, random, out);
            out.push(b'\n');
        }
        _ if needed => out.push(b' '),
        _ => {}
    }
}

/// A comment's bytes, at most so many: all that are allowed but LF.
pub fn remark(most: usize, random: &mut Random, out: &mut Vec<u8>) {
    for _ in 0..random.below(most + 1) {
        out.push(match random.below(12) {
            0 => *random.pick(b" \t\r"),
            1 => *random.pick(b"();:[]?-"),
            _ => 33 + random.below(94) as u8,
        });
    }
}

/// The lines of a plan, with blank lines and comments between them.
pub fn plan(lines: &[Vec<String>], random: &mut Random) -> Vec<u8> {
    let style = Style::any(random);
    let (idle, carriage) = (
        *random.pick(&[0, 0, 10, 40]),
        *random.pick(&[0, 0, 0, 30, 100]),
    );
    let mut out = Vec::new();
    for tokens in lines {
        while random.chance(idle) {
            out.extend(idle_line(random));
            out.push(b'\n');
        }
        let mut text = line(tokens, &style, random);
        if text.len() < LINE && random.chance(carriage) {
            text.push(b'\r');
        }
        out.extend(text);
        out.push(b'\n');
    }
    match random.below(10) {
        0 | 1 => {
            out.pop();
        }
        2 => out.extend(idle_line(random)),
        3 => out.extend(b"\n\r\n\t \n"),
        _ => {}
    }
    out
}

/// A blank line or a comment.
pub fn idle_line(random: &mut Random) -> Vec<u8> {
    let mut out = vec![*random.pick(b"  \t\r"); random.below(4)];
    if random.chance(50) {
        out.push(b';');
        remark(30, random, &mut out);
    }
    out
}

/// One plan line without its LF, within the longest length if the tokens allow.
fn line(tokens: &[String], style: &Style, random: &mut Random) -> Vec<u8> {
    let mut out = Vec::new();
    if random.chance(10) {
        out.push(*random.pick(b" \t\r"));
    }
    for (index, token) in tokens.iter().enumerate() {
        let needed =
            index > 0 && !stands_alone(&tokens[index - 1], b":") && !stands_alone(token, b":");
        match random.weighted(style.gaps) {
            1 | 2 => out.push(b' '),
            3 => out.push(b'\t'),
            4 => out.push(b'\r'),
            5 => out.extend(b" \t "),
            _ if needed => out.push(b' '),
            _ => {}
        }
        word(token, style.flips, random, &mut out);
    }
    if out.len() < LINE && random.chance(8) {
        let room = LINE - 1 - out.len();
        out.push(b';');
        remark(room.min(40), random, &mut out);
    }
    if out.len() <= LINE {
        out
    } else {
        plain(tokens)
    }
}
