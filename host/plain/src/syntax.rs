//! The parser: from tokens to a tree, or to the first refusal of 5 to 12.
//!
//! expression = `let` name `=` expression `in` expression
//!            | `\` name `->` expression
//!            | chain
//! chain      = atom ( `.` member `(` ( expression ( `,` expression )* )? `)` )*
//! atom       = name | number | `(` expression `)`
//!
//! The parser goes from token to token and never back. At each token it tests the
//! numbers 5 to 12 in order, so the refusal it gives has the lowest byte place, and
//! at that place the lowest number.

use crate::limits::{NAME_BYTES, OPEN_LAMBDAS, OPEN_MARKS, TEXT_PARTS};
use crate::member::Member;
use crate::name::Name;
use crate::position::{Follow, Position, is_wrong_call, makes_part, opens_mark};
use crate::refusal::*;
use crate::token::{Kind, Token, tokens};

/// The word for the recording.
pub const DATA: &str = "data";

/// A text as a tree. Each part has its number in the order of marks.
#[derive(Clone, PartialEq, Eq, Debug)]
pub enum Expression {
    Let {
        part: usize,
        name: Name,
        value: Box<Expression>,
        body: Box<Expression>,
    },
    Lambda {
        part: usize,
        name: Name,
        body: Box<Expression>,
    },
    /// The part of a call is its dot. The receiver stands first among the operands.
    Call {
        part: usize,
        member: Member,
        operands: Vec<Expression>,
    },
    /// A name in use.
    Name {
        part: usize,
        name: Name,
    },
    Number {
        part: usize,
        value: i32,
    },
    /// An expression in brackets, which are no part.
    Brackets(Box<Expression>),
}

/// A text that was read: its tree and the number of its parts.
#[derive(Clone, PartialEq, Eq, Debug)]
pub struct Text {
    pub tree: Expression,
    pub parts: usize,
}

/// Reads a text, or gives its refusal under 5 to 12.
pub fn parse(text: &[u8]) -> Result<Text, Refusal> {
    let mut parser = Parser { tokens: tokens(text), next: 0, parts: 0, open: 0, lambdas: 0 };
    let tree = parser.expression(Position::Expression, Follow::End)?;
    Ok(Text { tree, parts: parser.parts })
}

struct Parser {
    tokens: Vec<Token>,
    /// The index of the next token.
    next: usize,
    /// The parts so far.
    parts: usize,
    /// The open marks: `let`, `\` and `(`.
    open: usize,
    /// The open lambdas.
    lambdas: usize,
}

impl Parser {
    /// Whether the refusal of this number applies to a token at a position.
    fn applies(&self, number: u8, position: Position, kind: &Kind) -> bool {
        let word = match kind {
            Kind::Word(word) => word.as_str(),
            _ => "",
        };
        let is_member = position == Position::MemberName;
        let is_bound = matches!(position, Position::LetName | Position::LambdaName);
        match number {
            UNGRAMMATICAL => !position.allows(kind),
            NUMBER_OUTSIDE => *kind == Kind::Number(None),
            NAME_TOO_LONG => !is_member && word.len() > NAME_BYTES,
            DATA_BOUND => is_bound && word == DATA,
            WRONG_CALL => is_wrong_call(position, kind),
            THIRD_LAMBDA => *kind == Kind::Backslash && self.lambdas == OPEN_LAMBDAS,
            TEXT_LIMIT => {
                opens_mark(kind) && self.open == OPEN_MARKS
                    || makes_part(position, kind) && self.parts == TEXT_PARTS
            }
            _ => false,
        }
    }

    /// Tests the next token without taking it, and gives its kind.
    fn test(&self, position: Position) -> Result<Kind, Refusal> {
        let token = &self.tokens[self.next];
        let applies = |number: &u8| self.applies(*number, position, &token.kind);
        match (UNGRAMMATICAL..=TEXT_LIMIT).find(applies) {
            Some(number) => Err(Refusal { number, place: token.place }),
            None => Ok(token.kind.clone()),
        }
    }

    /// Tests the next token and takes it.
    fn take(&mut self, position: Position) -> Result<Kind, Refusal> {
        let kind = self.test(position)?;
        self.next += 1;
        Ok(kind)
    }

    /// Takes a name that a let or lambda binds.
    fn take_bound_name(&mut self, position: Position) -> Result<Name, Refusal> {
        let kind = self.take(position)?;
        Ok(name_of(&kind).expect("a bound name that passed the tests is a name"))
    }

    /// The number of the part that the token just taken makes.
    fn new_part(&mut self) -> usize {
        self.parts += 1;
        self.parts - 1
    }

    /// Reads an expression up to, and not including, the token that ends it. That
    /// token has passed the tests.
    fn expression(&mut self, at: Position, follow: Follow) -> Result<Expression, Refusal> {
        match self.test(at)? {
            Kind::Let => self.let_expression(at, follow),
            Kind::Backslash => self.lambda(at, follow),
            _ => self.chain(at, follow),
        }
    }

    fn let_expression(&mut self, at: Position, follow: Follow) -> Result<Expression, Refusal> {
        self.take(at)?;
        let part = self.new_part();
        self.open += 1;
        let name = self.take_bound_name(Position::LetName)?;
        self.take(Position::Equals)?;
        let value = Box::new(self.expression(Position::Expression, Follow::In)?);
        self.take(Position::Chain(Follow::In))?;
        let body = Box::new(self.expression(Position::Expression, follow)?);
        self.open -= 1;
        Ok(Expression::Let { part, name, value, body })
    }

    fn lambda(&mut self, at: Position, follow: Follow) -> Result<Expression, Refusal> {
        self.take(at)?;
        let part = self.new_part();
        self.open += 1;
        let name = self.take_bound_name(Position::LambdaName)?;
        self.lambdas += 1;
        self.take(Position::Arrow)?;
        let body = Box::new(self.expression(Position::Expression, follow)?);
        self.lambdas -= 1;
        self.open -= 1;
        Ok(Expression::Lambda { part, name, body })
    }

    fn chain(&mut self, at: Position, follow: Follow) -> Result<Expression, Refusal> {
        let mut chain = self.atom(at)?;
        while self.test(Position::Chain(follow))? == Kind::Dot {
            chain = self.call(chain, follow)?;
        }
        Ok(chain)
    }

    fn atom(&mut self, at: Position) -> Result<Expression, Refusal> {
        match self.take(at)? {
            Kind::Open => self.rest_of_brackets(),
            Kind::Number(value) => {
                let value = value.expect("a number that passed the tests has 32 bits");
                Ok(Expression::Number { part: self.new_part(), value })
            }
            kind => {
                let name = name_of(&kind).expect("an atom that passed the tests is a name");
                Ok(Expression::Name { part: self.new_part(), name })
            }
        }
    }

    /// The expression and the `)` after a `(` that was taken.
    fn rest_of_brackets(&mut self) -> Result<Expression, Refusal> {
        self.open += 1;
        let inner = Box::new(self.expression(Position::Expression, Follow::Bracket)?);
        self.take(Position::Chain(Follow::Bracket))?;
        self.open -= 1;
        Ok(Expression::Brackets(inner))
    }

    /// A call on `receiver`, from its dot to its `)`.
    fn call(&mut self, receiver: Expression, follow: Follow) -> Result<Expression, Refusal> {
        self.take(Position::Chain(follow))?;
        let part = self.new_part();
        let member = self.take_member()?;
        self.take(Position::CallBracket)?;
        self.open += 1;
        let mut operands = vec![receiver];
        self.arguments(member, &mut operands)?;
        self.open -= 1;
        Ok(Expression::Call { part, member, operands })
    }

    fn take_member(&mut self) -> Result<Member, Refusal> {
        match self.take(Position::MemberName)? {
            Kind::Word(word) => Ok(Member::named(&word).expect("a member that passed the tests")),
            _ => unreachable!("a member that passed the tests is a word"),
        }
    }

    /// Reads the arguments of a call and its `)`, and adds them to the operands.
    fn arguments(&mut self, member: Member, operands: &mut Vec<Expression>) -> Result<(), Refusal> {
        let mut at = Position::FirstArgument(member);
        if self.test(at)? == Kind::Close {
            self.take(at)?;
            return Ok(());
        }
        loop {
            // The receiver is among the operands: their count is this argument's count.
            let follow = Follow::Argument { member, given: operands.len() };
            operands.push(self.expression(at, follow)?);
            if self.take(Position::Chain(follow))? == Kind::Close {
                return Ok(());
            }
            at = Position::Expression;
        }
    }
}

/// The name that a word token spells, if it is not too long.
fn name_of(kind: &Kind) -> Option<Name> {
    match kind {
        Kind::Word(word) => Name::new(word),
        _ => None,
    }
}
