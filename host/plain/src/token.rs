//! Tokens with their byte places, longest first.
//!
//! word    = letter (letter | digit)*       `let` and `in` are no names or members
//! number  = digit+ or `-` digit+           nothing between the `-` and the digit
//! others  = `\`  `->`  `=`  `.`  `,`  `(`  `)`
//! blanks  = space, tab, CR, LF             between tokens
//!
//! Any other byte is a token of its own. This includes a `-` that neither a digit
//! nor `>` follows.

/// What a token is.
#[derive(Clone, PartialEq, Eq, Debug)]
pub enum Kind {
    Let,
    In,
    /// Any other word, of any length.
    Word(String),
    /// A number, or none if it is outside signed 32 bits.
    Number(Option<i32>),
    Backslash,
    Arrow,
    Equals,
    Dot,
    Comma,
    Open,
    Close,
    /// A byte that starts no token.
    Stray(u8),
    /// The end of the text.
    End,
}

/// A token and the place of its first byte. The place of the end is the text's length.
#[derive(Clone, PartialEq, Eq, Debug)]
pub struct Token {
    pub kind: Kind,
    pub place: usize,
}

/// The tokens of a text in order; the last is the end.
pub fn tokens(text: &[u8]) -> Vec<Token> {
    let mut list = Vec::new();
    let mut place = 0;
    while place < text.len() {
        let rest = &text[place..];
        if is_blank(rest[0]) {
            place += 1;
        } else {
            let (kind, length) = first(rest);
            list.push(Token { kind, place });
            place += length;
        }
    }
    list.push(Token { kind: Kind::End, place });
    list
}

fn is_blank(byte: u8) -> bool {
    matches!(byte, b' ' | b'\t' | b'\r' | b'\n')
}

/// The longest token at the start of `rest`, and its length in bytes.
fn first(rest: &[u8]) -> (Kind, usize) {
    match (rest[0], rest.get(1)) {
        (letter, _) if letter.is_ascii_alphabetic() => word(rest),
        (digit, _) if digit.is_ascii_digit() => number(rest, 0),
        (b'-', Some(digit)) if digit.is_ascii_digit() => number(rest, 1),
        (b'-', Some(b'>')) => (Kind::Arrow, 2),
        (b'\\', _) => (Kind::Backslash, 1),
        (b'=', _) => (Kind::Equals, 1),
        (b'.', _) => (Kind::Dot, 1),
        (b',', _) => (Kind::Comma, 1),
        (b'(', _) => (Kind::Open, 1),
        (b')', _) => (Kind::Close, 1),
        (stray, _) => (Kind::Stray(stray), 1),
    }
}

fn word(rest: &[u8]) -> (Kind, usize) {
    let letters = rest.iter().take_while(|byte| byte.is_ascii_alphanumeric());
    let word: String = letters.map(|byte| char::from(*byte)).collect();
    let length = word.len();
    match word.as_str() {
        "let" => (Kind::Let, length),
        "in" => (Kind::In, length),
        _ => (Kind::Word(word), length),
    }
}

/// A number whose digits follow `signs` bytes, no `-` or one.
fn number(rest: &[u8], signs: usize) -> (Kind, usize) {
    let mut size: i64 = 0;
    let mut length = signs;
    while length < rest.len() && rest[length].is_ascii_digit() {
        // A number of very many digits stays far outside 32 bits.
        size = size.saturating_mul(10).saturating_add(i64::from(rest[length] - b'0'));
        length += 1;
    }
    let value = if signs == 1 { -size } else { size };
    (Kind::Number(i32::try_from(value).ok()), length)
}
