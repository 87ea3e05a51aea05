//! Positions of the grammar: what the parser knows about a token before it takes it.

use crate::member::Member;
use crate::token::Kind;

/// What the grammar allows at a token.
#[derive(Clone, Copy, PartialEq, Eq)]
pub enum Position {
    /// An expression begins here.
    Expression,
    /// Directly after the `(` of a call of this member.
    FirstArgument(Member),
    /// After an atom or a call: the chain goes on or the expression ends.
    Chain(Follow),
    LetName,
    Equals,
    LambdaName,
    Arrow,
    MemberName,
    CallBracket,
}

/// What ends an expression. The body of a let or lambda ends with what ends the
/// let or lambda itself, since both reach as far right as they can.
#[derive(Clone, Copy, PartialEq, Eq)]
pub enum Follow {
    /// The whole text: its end.
    End,
    /// The value of a let: `in`.
    In,
    /// An expression in brackets: `)`.
    Bracket,
    /// An argument of a call, the last of `given` arguments so far: `,` or `)`.
    Argument { member: Member, given: usize },
}

impl Position {
    /// Whether some grammatical text has this token here, after the tokens before it.
    /// Argument counts, known members and limits are no matter of grammar.
    pub fn allows(self, kind: &Kind) -> bool {
        match self {
            Position::Expression => starts_expression(kind),
            Position::FirstArgument(_) => starts_expression(kind) || *kind == Kind::Close,
            Position::Chain(follow) => *kind == Kind::Dot || follow.allows(kind),
            Position::LetName | Position::LambdaName | Position::MemberName => {
                matches!(kind, Kind::Word(_))
            }
            Position::Equals => *kind == Kind::Equals,
            Position::Arrow => *kind == Kind::Arrow,
            Position::CallBracket => *kind == Kind::Open,
        }
    }

    /// Whether a word here is a name in use.
    fn is_expression_start(self) -> bool {
        matches!(self, Position::Expression | Position::FirstArgument(_))
    }
}

impl Follow {
    fn allows(self, kind: &Kind) -> bool {
        match self {
            Follow::End => *kind == Kind::End,
            Follow::In => *kind == Kind::In,
            Follow::Bracket => *kind == Kind::Close,
            Follow::Argument { .. } => matches!(kind, Kind::Comma | Kind::Close),
        }
    }
}

fn starts_expression(kind: &Kind) -> bool {
    matches!(kind, Kind::Let | Kind::Backslash | Kind::Open | Kind::Word(_) | Kind::Number(_))
}

/// Refusal 9: an unknown member, a `)` before the arguments are complete, a comma
/// after the last argument, or any token but `)` where the member takes none.
pub fn is_wrong_call(position: Position, kind: &Kind) -> bool {
    match (position, kind) {
        (Position::MemberName, Kind::Word(word)) => Member::named(word).is_none(),
        (Position::FirstArgument(member), Kind::Close) => member.arguments() > 0,
        (Position::FirstArgument(member), _) => member.arguments() == 0,
        (Position::Chain(Follow::Argument { member, given }), Kind::Close) => {
            given < member.arguments()
        }
        (Position::Chain(Follow::Argument { member, given }), Kind::Comma) => {
            given == member.arguments()
        }
        _ => false,
    }
}

/// Whether a token taken at this position makes a part.
pub fn makes_part(position: Position, kind: &Kind) -> bool {
    match kind {
        Kind::Let | Kind::Backslash | Kind::Dot | Kind::Number(_) => true,
        Kind::Word(_) => position.is_expression_start(),
        _ => false,
    }
}

/// Whether a token opens a mark that 01 counts among the open ones.
pub fn opens_mark(kind: &Kind) -> bool {
    matches!(kind, Kind::Let | Kind::Backslash | Kind::Open)
}
