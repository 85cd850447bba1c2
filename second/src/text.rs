//! Bytes and words of the rules: cuts a text into tokens, left to right.
//! One reader serves domain, problem and single plan lines, which differ in their limit and a few tokens.

/// A row of the refusal table and its place, a byte offset from 0 in the text (or plan line) read.
#[derive(Clone, Copy, Debug, PartialEq, Eq)]
pub struct Refusal {
    pub number: u32,
    pub place: usize,
}

#[derive(Clone, Copy, Debug, PartialEq, Eq)]
pub enum Kind {
    Open,
    Close,
    SquareOpen,
    SquareClose,
    Colon,
    Name,
    Variable,
    Keyword,
    Operator,
    Number(i64),
}

/// One token; the word of a variable or keyword begins with its mark, as its place does.
#[derive(Clone, Copy, Debug)]
pub struct Token<'t> {
    pub kind: Kind,
    pub word: &'t [u8],
    pub place: usize,
}

impl Token<'_> {
    /// "Letters compare without case."
    pub fn is(&self, word: &str) -> bool {
        self.word.eq_ignore_ascii_case(word.as_bytes())
    }

    pub fn is_one_of(&self, words: &[&str]) -> bool {
        words.iter().any(|word| self.is(word))
    }

    pub fn refused(&self, number: u32) -> Refusal {
        Refusal {
            number,
            place: self.place,
        }
    }

    /// "3: token not allowed here", unless the token is of the kind due.
    pub fn due(self, kind: Kind) -> Result<Self, Refusal> {
        if self.kind == kind {
            Ok(self)
        } else {
            Err(self.refused(3))
        }
    }

    pub fn due_number(&self) -> Result<i64, Refusal> {
        match self.kind {
            Kind::Number(thousandths) => Ok(thousandths),
            _ => Err(self.refused(3)),
        }
    }
}

const LONGEST_TEXT: usize = 32_768;
const LONGEST_LINE: usize = 256;
const LONGEST_NAME: usize = 32;
const DEEPEST_BRACKET: usize = 16;

/// "In domain and problem all these are 11, whatever else applies there." `?duration` stands
/// here too: the one place that wants it reads with `loose_token`.
const NOT_CARRIED: [&str; 16] = [
    "or",
    "imply",
    "forall",
    "exists",
    "when",
    "either",
    "*",
    "/",
    "#t",
    "scale-up",
    "scale-down",
    "change",
    ":metric",
    ":axiom",
    ":derived",
    "?duration",
];

pub struct Reader<'t> {
    text: &'t [u8],
    at: usize,
    depth: usize,
    plan: bool,
}

impl<'t> Reader<'t> {
    pub fn domain_or_problem(text: &'t [u8]) -> Self {
        Reader {
            text,
            at: 0,
            depth: 0,
            plan: false,
        }
    }

    pub fn plan_line(line: &'t [u8]) -> Self {
        Reader {
            text: line,
            at: 0,
            depth: 0,
            plan: true,
        }
    }

    /// The place of rows 4, 17 (missing) and 18.
    pub fn end_refused(&self, number: u32) -> Refusal {
        Refusal {
            number,
            place: self.text.len(),
        }
    }

    /// The next token; "text, or plan line, ends in the middle" is 4.
    pub fn token(&mut self) -> Result<Token<'t>, Refusal> {
        self.token_or_end()?.ok_or_else(|| self.end_refused(4))
    }

    /// The next token, or none where the text may end.
    pub fn token_or_end(&mut self) -> Result<Option<Token<'t>>, Refusal> {
        let token = self.loose_token_or_end()?;
        token.map(|token| self.strict(token)).transpose()
    }

    /// The next token without the rows 5 and 11, for the three places where 11 reads differently.
    pub fn loose_token(&mut self) -> Result<Token<'t>, Refusal> {
        self.loose_token_or_end()?
            .ok_or_else(|| self.end_refused(4))
    }

    /// Adds rows 11 and 5, which hold wherever the token stands, to a token read loosely.
    pub fn strict(&self, token: Token<'t>) -> Result<Token<'t>, Refusal> {
        if !self.plan && token.is_one_of(&NOT_CARRIED) {
            return Err(token.refused(11));
        }
        // "the mark isn't counted"
        let name_length = match token.kind {
            Kind::Name => token.word.len(),
            Kind::Variable | Kind::Keyword => token.word.len() - 1,
            _ => 0,
        };
        if name_length > LONGEST_NAME {
            return Err(token.refused(5));
        }
        Ok(token)
    }

    pub fn due(&mut self, kind: Kind) -> Result<Token<'t>, Refusal> {
        self.token()?.due(kind)
    }

    pub fn due_word(&mut self, word: &str) -> Result<(), Refusal> {
        let token = self.token()?;
        if token.is(word) {
            Ok(())
        } else {
            Err(token.refused(3))
        }
    }

    /// Inside a list of brackets: whether one more opens (true) or the list closes (false).
    pub fn another(&mut self) -> Result<bool, Refusal> {
        let token = self.token()?;
        match token.kind {
            Kind::Open => Ok(true),
            Kind::Close => Ok(false),
            _ => Err(token.refused(3)),
        }
    }

    /// After the last bracket only white space and comments may stand.
    pub fn due_end(&mut self) -> Result<(), Refusal> {
        match self.token_or_end()? {
            Some(token) => Err(token.refused(3)),
            None => Ok(()),
        }
    }

    fn loose_token_or_end(&mut self) -> Result<Option<Token<'t>>, Refusal> {
        self.skip_white_and_comments()?;
        if self.at == self.text.len() {
            return Ok(None);
        }
        let place = self.at;
        let end = self.run_end();
        if self.plan && end > LONGEST_LINE {
            // "of one too long, only what ends before column 257 is judged"
            return Err(self.too_long());
        }
        self.at = end;
        let word = &self.text[place..end];
        let kind = self
            .kind(word)
            .map_err(|number| Refusal { number, place })?;
        self.count_depth(kind, place)?;
        Ok(Some(Token { kind, word, place }))
    }

    fn skip_white_and_comments(&mut self) -> Result<(), Refusal> {
        let mut comment = false;
        while let Some(byte) = self.byte()? {
            match byte {
                b'\n' => comment = false,
                b';' => comment = true,
                _ if comment || is_white(byte) => {}
                _ => break,
            }
            self.at += 1;
        }
        Ok(())
    }

    /// The byte at hand, none at the text's end; what begins at or past the limit is 1 (14 in
    /// plans), whatever it is, so that is asked before row 2.
    fn byte(&self) -> Result<Option<u8>, Refusal> {
        if self.at >= self.limit() && self.text.len() > self.limit() {
            return Err(self.too_long());
        }
        match self.text.get(self.at) {
            Some(&byte) if !is_allowed(byte) => Err(Refusal {
                number: 2,
                place: self.at,
            }),
            byte => Ok(byte.copied()),
        }
    }

    fn limit(&self) -> usize {
        if self.plan {
            LONGEST_LINE
        } else {
            LONGEST_TEXT
        }
    }

    fn too_long(&self) -> Refusal {
        Refusal {
            number: if self.plan { 14 } else { 1 },
            place: self.limit(),
        }
    }

    /// "A token ends at white space, a round or square bracket, `;`, a byte not allowed, the
    /// text's end, and in plans `:`, which is a token there, as are square brackets."
    fn run_end(&self) -> usize {
        let stands_alone = |byte| is_bracket(byte) || (self.plan && byte == b':');
        let ends =
            |&byte: &u8| stands_alone(byte) || is_white(byte) || byte == b';' || !is_allowed(byte);
        if stands_alone(self.text[self.at]) {
            return self.at + 1;
        }
        let run = &self.text[self.at..];
        self.at + run.iter().position(ends).unwrap_or(run.len())
    }

    /// The kind of a run, or the number of its refusal.
    fn kind(&self, word: &[u8]) -> Result<Kind, u32> {
        match word {
            b"(" => Ok(Kind::Open),
            b")" => Ok(Kind::Close),
            b"[" => Ok(Kind::SquareOpen),
            b"]" => Ok(Kind::SquareClose),
            b":" if self.plan => Ok(Kind::Colon),
            [b'0'..=b'9', ..] | [b'-', b'0'..=b'9', ..] => {
                thousandths(word, !self.plan).map(Kind::Number).ok_or(6)
            }
            b"=" | b"<" | b"<=" | b">" | b">=" | b"+" | b"-" | b"*" | b"/" => Ok(Kind::Operator),
            b"#t" | b"#T" => Ok(Kind::Operator),
            [b'?', name @ ..] if is_name(name) => Ok(Kind::Variable),
            [b':', name @ ..] if is_name(name) => Ok(Kind::Keyword),
            name if is_name(name) => Ok(Kind::Name),
            _ => Err(3),
        }
    }

    /// "brackets 16 deep", counted from the text's first bracket.
    fn count_depth(&mut self, kind: Kind, place: usize) -> Result<(), Refusal> {
        match kind {
            Kind::Open => self.depth += 1,
            Kind::Close => self.depth = self.depth.saturating_sub(1),
            _ => {}
        }
        if self.depth > DEEPEST_BRACKET {
            return Err(Refusal { number: 12, place });
        }
        Ok(())
    }
}

/// "Tab, LF, CR and space are white"
fn is_white(byte: u8) -> bool {
    matches!(byte, b'\t' | b'\n' | b'\r' | b' ')
}

/// "only they and 33 to 126 are allowed, comments included"
fn is_allowed(byte: u8) -> bool {
    is_white(byte) || (33..=126).contains(&byte)
}

fn is_bracket(byte: u8) -> bool {
    matches!(byte, b'(' | b')' | b'[' | b']')
}

/// "A name is a letter, then letters, digits, `-` and `_`."
fn is_name(word: &[u8]) -> bool {
    let inner = |byte: &u8| byte.is_ascii_alphanumeric() || matches!(byte, b'-' | b'_');
    word.first().is_some_and(u8::is_ascii_alphabetic) && word.iter().all(inner)
}

/// "A number is 1 to 9 digits, perhaps a point and 1 to 3 digits, and outside plans perhaps a
/// leading minus. It counts thousandths." None if the run is no such number.
fn thousandths(word: &[u8], minus_allowed: bool) -> Option<i64> {
    let (minus, unsigned) = match word {
        [b'-', rest @ ..] => (true, rest),
        _ => (false, word),
    };
    let (whole, fraction) = match unsigned.iter().position(|&byte| byte == b'.') {
        Some(point) => (&unsigned[..point], Some(&unsigned[point + 1..])),
        None => (unsigned, None),
    };
    let whole = digits(whole, 9)? * 1000;
    let fraction = match fraction {
        Some(decimals) => digits(decimals, 3)? * 10i64.pow(3 - decimals.len() as u32),
        None => 0,
    };
    match (minus, minus_allowed) {
        (false, _) => Some(whole + fraction),
        (true, true) => Some(-(whole + fraction)),
        (true, false) => None,
    }
}

/// The value of 1 to `most` digits, none if there are fewer or more or other bytes.
fn digits(bytes: &[u8], most: usize) -> Option<i64> {
    if bytes.is_empty() || bytes.len() > most || !bytes.iter().all(u8::is_ascii_digit) {
        return None;
    }
    let value = bytes
        .iter()
        .fold(0, |value, &byte| value * 10 + i64::from(byte - b'0'));
    Some(value)
}
