//! A reader as one would write it in Rust: recursive descent with one token of lookahead, which gives the same refusals as the proved one.
//! It builds the same records and places, or a tree.

use crate::member::{self, Member};

const PARTS: usize = 128;
const MARKS: usize = 16;
const LAMBDAS: usize = 2;
const NAME_BYTES: usize = 8;
const DATA: &[u8] = b"data";

const VARIABLE: u64 = 1;
const UNBOUND: u64 = 2;
const RECORDING: u64 = 3;
const FUNCTION: u64 = 4;

#[derive(Clone, Copy, PartialEq, Debug)]
pub struct Refusal {
    pub number: u8,
    pub place: u16,
}

#[derive(Clone, Copy, PartialEq, Debug)]
pub struct Counts {
    pub parts: usize,
    pub records: usize,
}

/// What the parts of a text are read into.
pub trait Builder {
    type Part;
    /// What a let's name stands for in the let's body.
    type Bound: Copy;
    /// The part at a place: its kind, its key, and what it depends on.
    fn part(&mut self, place: usize, node: Node<Self::Part>) -> Self::Part;
    fn bound(&self, value: &Self::Part) -> Self::Bound;
    /// A use of a let's name.
    fn used(&mut self, place: usize, name: u64, bound: Self::Bound) -> Self::Part;
    fn let_in(
        &mut self,
        place: usize,
        name: u64,
        value: Self::Part,
        body: Self::Part,
    ) -> Self::Part;
}

/// A number, a variable with its name and level, an unbound name, the recording, a function with its name, level and body, or a member with
/// its receiver and argument.
pub enum Node<P> {
    Number(i32),
    Variable(u64, usize),
    Unbound(u64),
    Data,
    Function(u64, usize, P),
    Member(Member, P, Option<P>),
}

/// Two words a record, and the record of each part.
pub struct Output {
    pub records: [u64; 256],
    pub places: [u16; 128],
    count: usize,
}

impl Output {
    pub fn new() -> Output {
        Output { records: [0; 256], places: [0; 128], count: 0 }
    }
}

impl Builder for Output {
    /// The record's number.
    type Part = usize;
    type Bound = usize;

    /// A link is one more than a record, 0 for none.
    fn part(&mut self, place: usize, node: Node<usize>) -> usize {
        let (kind, key, first, second, level) = match node {
            Node::Number(value) => (0, (i64::from(value) + (1 << 31)) as u64, 0, 0, 0),
            Node::Variable(name, level) => (VARIABLE, name, 0, 0, level),
            Node::Unbound(name) => (UNBOUND, name, 0, 0, 0),
            Node::Data => (RECORDING, 0, 0, 0, 0),
            Node::Function(name, level, body) => (FUNCTION, name, body + 1, 0, level),
            Node::Member(member, receiver, argument) => {
                let second = argument.map_or(0, |record| record + 1);
                (member.kind().into(), 0, receiver + 1, second, 0)
            }
        };
        let n = self.count;
        self.records[2 * n] =
            kind | (first as u64) << 5 | (second as u64) << 13 | (level as u64) << 21;
        self.records[2 * n + 1] = key;
        self.places[place] = n as u16;
        self.count += 1;
        n
    }

    fn bound(&self, value: &usize) -> usize {
        *value
    }

    fn used(&mut self, place: usize, _name: u64, bound: usize) -> usize {
        self.places[place] = bound as u16;
        bound
    }

    fn let_in(&mut self, place: usize, _name: u64, _value: usize, body: usize) -> usize {
        self.places[place] = body as u16;
        body
    }
}

#[derive(Clone, Copy, PartialEq)]
enum Kind {
    End,
    Let,
    In,
    Equals,
    Lambda,
    Arrow,
    Dot,
    Open,
    Shut,
    Comma,
    Word,
    Number,
    Other,
}

#[derive(Clone, Copy)]
struct Token {
    kind: Kind,
    start: usize,
    end: usize,
}

/// What a name stands for: a lambda's variable, with its level, or a let's value.
#[derive(Clone, Copy)]
enum Binder<B> {
    Variable(usize),
    Value(B),
}

struct Reader<'a, B: Builder> {
    text: &'a [u8],
    token: Token,
    parts: usize,
    marks: usize,
    lambdas: usize,
    scope: Vec<(u64, Binder<B::Bound>)>,
    builder: &'a mut B,
}

/// Reads a whole text into records.
pub fn read(text: &[u8], output: &mut Output) -> Result<Counts, Refusal> {
    output.count = 0;
    let (_, parts) = read_into(text, output)?;
    Ok(Counts { parts, records: output.count })
}

/// Reads a whole text: what is built for it, and how many parts it has.
pub fn read_into<B: Builder>(text: &[u8], builder: &mut B) -> Result<(B::Part, usize), Refusal> {
    let mut reader = Reader {
        text,
        token: token_at(text, 0),
        parts: 0,
        marks: 0,
        lambdas: 0,
        scope: Vec::with_capacity(MARKS),
        builder,
    };
    let whole = reader.expression(false)?;
    reader.expect(Kind::End)?;
    Ok((whole, reader.parts))
}

/// What a byte can be in a token.
const BLANK: u8 = 1;
const LETTER: u8 = 2;
const DIGIT: u8 = 4;

const CLASSES: [u8; 256] = {
    let mut classes = [0; 256];
    let mut b = 0;
    while b < 256 {
        classes[b] = match b as u8 {
            b' ' | b'\t' | b'\r' | b'\n' => BLANK,
            b'A'..=b'Z' | b'a'..=b'z' => LETTER,
            b'0'..=b'9' => DIGIT,
            _ => 0,
        };
        b += 1;
    }
    classes
};

/// The place behind the bytes of these classes from a place on.
#[inline]
fn end_of(text: &[u8], mut at: usize, classes: u8) -> usize {
    while at < text.len() && CLASSES[usize::from(text[at])] & classes != 0 {
        at += 1;
    }
    at
}

fn token_at(text: &[u8], at: usize) -> Token {
    let start = end_of(text, at, BLANK);
    let Some(&first) = text.get(start) else {
        return Token { kind: Kind::End, start, end: start };
    };
    let one = |kind| Token { kind, start, end: start + 1 };
    match first {
        b'A'..=b'Z' | b'a'..=b'z' => {
            let end = end_of(text, start + 1, LETTER | DIGIT);
            let kind = match &text[start..end] {
                b"let" => Kind::Let,
                b"in" => Kind::In,
                _ => Kind::Word,
            };
            Token { kind, start, end }
        }
        b'0'..=b'9' => Token { kind: Kind::Number, start, end: end_of(text, start + 1, DIGIT) },
        b'-' => match text.get(start + 1) {
            Some(b'0'..=b'9') => {
                Token { kind: Kind::Number, start, end: end_of(text, start + 2, DIGIT) }
            }
            Some(b'>') => Token { kind: Kind::Arrow, start, end: start + 2 },
            _ => one(Kind::Other),
        },
        b'=' => one(Kind::Equals),
        b'\\' => one(Kind::Lambda),
        b'.' => one(Kind::Dot),
        b'(' => one(Kind::Open),
        b')' => one(Kind::Shut),
        b',' => one(Kind::Comma),
        _ => one(Kind::Other),
    }
}

fn packed(word: &[u8]) -> u64 {
    word.iter().fold(0, |key, &b| key << 8 | u64::from(b))
}

/// The value of a number token, if it is within 32 bits.
fn value_of(digits: &[u8]) -> Option<i32> {
    let (sign, digits) = match digits {
        [b'-', rest @ ..] => (-1, rest),
        _ => (1, digits),
    };
    let mut size: i64 = 0;
    for &b in digits {
        size = (size * 10 + i64::from(b - b'0')).min(1 << 32);
    }
    i32::try_from(sign * size).ok()
}

type Step<T> = Result<T, Refusal>;

impl<B: Builder> Reader<'_, B> {
    fn refuse<T>(&self, number: u8) -> Step<T> {
        Err(Refusal { number, place: self.token.start as u16 })
    }

    fn advance(&mut self) {
        self.token = token_at(self.text, self.token.end);
    }

    fn word(&self) -> &[u8] {
        &self.text[self.token.start..self.token.end]
    }

    fn expect(&mut self, kind: Kind) -> Step<()> {
        if self.token.kind != kind {
            return self.refuse(5);
        }
        self.advance();
        Ok(())
    }

    /// The place of the part that the token makes.
    fn part(&mut self) -> Step<usize> {
        if self.parts == PARTS {
            return self.refuse(12);
        }
        self.parts += 1;
        Ok(self.parts - 1)
    }

    fn open_mark(&mut self) -> Step<()> {
        if self.marks == MARKS {
            return self.refuse(12);
        }
        self.marks += 1;
        Ok(())
    }

    /// `w`: one stands where a member takes no argument.
    fn expression(&mut self, w: bool) -> Step<B::Part> {
        match self.token.kind {
            Kind::Let if w => self.refuse(9),
            Kind::Let => self.let_in(),
            Kind::Lambda if w => self.refuse(9),
            Kind::Lambda => self.lambda(),
            Kind::Open if w => self.refuse(9),
            Kind::Open => {
                let inner = self.bracket()?;
                self.calls(inner)
            }
            Kind::Word => {
                let name = self.name(w)?;
                self.calls(name)
            }
            Kind::Number => {
                let number = self.number(w)?;
                self.calls(number)
            }
            _ => self.refuse(5),
        }
    }

    /// A name that is bound.
    fn binder(&mut self) -> Step<u64> {
        if self.token.kind != Kind::Word {
            return self.refuse(5);
        }
        let word = self.word();
        if word.len() > NAME_BYTES {
            return self.refuse(7);
        }
        if word == DATA {
            return self.refuse(8);
        }
        let key = packed(word);
        self.advance();
        Ok(key)
    }

    fn let_in(&mut self) -> Step<B::Part> {
        self.open_mark()?;
        let place = self.part()?;
        self.advance();
        let name = self.binder()?;
        self.expect(Kind::Equals)?;
        let value = self.expression(false)?;
        self.expect(Kind::In)?;
        self.scope.push((name, Binder::Value(self.builder.bound(&value))));
        let body = self.expression(false)?;
        self.scope.pop();
        self.marks -= 1;
        Ok(self.builder.let_in(place, name, value, body))
    }

    fn lambda(&mut self) -> Step<B::Part> {
        if self.lambdas == LAMBDAS {
            return self.refuse(10);
        }
        self.open_mark()?;
        let place = self.part()?;
        let level = self.lambdas;
        self.lambdas += 1;
        self.advance();
        let name = self.binder()?;
        self.expect(Kind::Arrow)?;
        self.scope.push((name, Binder::Variable(level)));
        let body = self.expression(false)?;
        self.scope.pop();
        self.lambdas -= 1;
        self.marks -= 1;
        Ok(self.builder.part(place, Node::Function(name, level, body)))
    }

    fn bracket(&mut self) -> Step<B::Part> {
        self.open_mark()?;
        self.advance();
        let inner = self.expression(false)?;
        self.expect(Kind::Shut)?;
        self.marks -= 1;
        Ok(inner)
    }

    fn name(&mut self, w: bool) -> Step<B::Part> {
        let word = self.word();
        if word.len() > NAME_BYTES {
            return self.refuse(7);
        }
        if w {
            return self.refuse(9);
        }
        let (is_data, key) = (word == DATA, packed(word));
        let place = self.part()?;
        self.advance();
        if is_data {
            return Ok(self.builder.part(place, Node::Data));
        }
        Ok(match self.scope.iter().rev().find(|(name, _)| *name == key) {
            Some((_, Binder::Value(bound))) => self.builder.used(place, key, *bound),
            Some((_, Binder::Variable(level))) => {
                self.builder.part(place, Node::Variable(key, *level))
            }
            None => self.builder.part(place, Node::Unbound(key)),
        })
    }

    fn number(&mut self, w: bool) -> Step<B::Part> {
        let Some(value) = value_of(self.word()) else {
            return self.refuse(6);
        };
        if w {
            return self.refuse(9);
        }
        let place = self.part()?;
        self.advance();
        Ok(self.builder.part(place, Node::Number(value)))
    }

    fn calls(&mut self, mut receiver: B::Part) -> Step<B::Part> {
        while self.token.kind == Kind::Dot {
            receiver = self.call(receiver)?;
        }
        Ok(receiver)
    }

    fn call(&mut self, receiver: B::Part) -> Step<B::Part> {
        let place = self.part()?;
        self.advance();
        if self.token.kind != Kind::Word {
            return self.refuse(5);
        }
        let Some((member, takes)) = member::named(self.word()) else {
            return self.refuse(9);
        };
        self.advance();
        if self.token.kind != Kind::Open {
            return self.refuse(5);
        }
        self.open_mark()?;
        self.advance();
        let argument = self.arguments(takes)?;
        self.marks -= 1;
        Ok(self.builder.part(place, Node::Member(member, receiver, argument)))
    }

    /// The argument, if one is given, and the bracket behind it.
    fn arguments(&mut self, takes: usize) -> Step<Option<B::Part>> {
        let given = match self.token.kind {
            Kind::Shut => None,
            _ => Some(self.expression(takes == 0)?),
        };
        match self.token.kind {
            Kind::Shut if given.is_none() && takes > 0 => self.refuse(9),
            Kind::Shut => {
                self.advance();
                Ok(given)
            }
            // every member takes one argument at most
            Kind::Comma => self.refuse(9),
            _ => self.refuse(5),
        }
    }
}
