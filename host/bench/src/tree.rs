//! A plain tree interpreter: boxed nodes, an environment of names, and nothing kept from one evaluation to the next. A let is evaluated
//! once, where it stands.

use crate::member::Member::{self, *};
use crate::reader::{self, Builder, Node, Refusal};
use crate::stretches;

pub enum Tree {
    Number(i32),
    Name(u64),
    Data,
    Let(u64, Box<Tree>, Box<Tree>),
    Function(u64, Box<Tree>),
    Member(Member, Box<Tree>, Option<Box<Tree>>),
}

struct Trees;

impl Builder for Trees {
    type Part = Box<Tree>;
    type Bound = ();

    fn part(&mut self, _place: usize, node: Node<Box<Tree>>) -> Box<Tree> {
        Box::new(match node {
            Node::Number(value) => Tree::Number(value),
            Node::Variable(name, _) | Node::Unbound(name) => Tree::Name(name),
            Node::Data => Tree::Data,
            Node::Function(name, _, body) => Tree::Function(name, body),
            Node::Member(member, receiver, argument) => Tree::Member(member, receiver, argument),
        })
    }

    fn bound(&self, _value: &Box<Tree>) {}

    fn used(&mut self, _place: usize, name: u64, _bound: ()) -> Box<Tree> {
        Box::new(Tree::Name(name))
    }

    fn let_in(&mut self, _place: usize, name: u64, value: Box<Tree>, body: Box<Tree>) -> Box<Tree> {
        Box::new(Tree::Let(name, value, body))
    }
}

pub fn read(text: &[u8]) -> Result<Box<Tree>, Refusal> {
    reader::read_into(text, &mut Trees).map(|(tree, _)| tree)
}

/// Reads a text and evaluates it from nothing.
pub fn recomputed(text: &[u8], readings: &[i32]) -> Result<Shown, Refusal> {
    read(text).map(|tree| evaluated(&tree, readings))
}

/// What a whole text comes to.
#[derive(Clone, Copy, PartialEq, Debug)]
pub enum Shown {
    Number(i32),
    Window(u32, u32),
    Function(u64),
    Missing(u8),
}

pub fn evaluated(tree: &Tree, readings: &[i32]) -> Shown {
    match Interpreter::new(readings).value(tree, 0) {
        Value::Number(z) => Shown::Number(z),
        Value::Window(start, length) => Shown::Window(start, length),
        Value::Function(name, _, _) => Shown::Function(*name),
        Value::Missing(reason) => Shown::Missing(reason),
        Value::Delayed(_) => unreachable!("no variable is free in a whole text"),
    }
}

#[derive(Clone, Copy)]
enum Value<'a> {
    Number(i32),
    Window(u32, u32),
    /// Its name, its body, and the environment in which it stands.
    Function(&'a u64, &'a Tree, u32),
    /// It awaits variables, in bodies that are not run. The lowest place of their frames, which is the outermost's.
    Delayed(u32),
    Missing(u8),
}

/// A name, what it stands for, and the place of the name around it. Places are counted from 1, so that 0 is none.
struct Frame<'a> {
    name: u64,
    value: Value<'a>,
    outer: u32,
}

struct Interpreter<'a> {
    readings: &'a [i32],
    frames: Vec<Frame<'a>>,
}

fn ranged<'a>(z: i64) -> Value<'a> {
    i32::try_from(z).map_or(Value::Missing(4), Value::Number)
}

/// A count from either end of so many readings, counted from the start.
fn from_start(n: i32, length: u32) -> i64 {
    i64::from(n) + if n < 0 { i64::from(length) } else { 0 }
}

/// How many of them lie before it.
fn clip(n: i32, length: u32) -> u32 {
    from_start(n, length).clamp(0, length.into()) as u32
}

impl<'a> Interpreter<'a> {
    fn new(readings: &'a [i32]) -> Interpreter<'a> {
        Interpreter { readings, frames: Vec::new() }
    }

    /// The value of a tree in the environment whose innermost name is at a place.
    fn value(&mut self, tree: &'a Tree, scope: u32) -> Value<'a> {
        match tree {
            Tree::Number(z) => Value::Number(*z),
            Tree::Name(name) => self.look_up(*name, scope),
            Tree::Data => Value::Window(0, self.readings.len() as u32),
            Tree::Let(name, value, body) => {
                let value = self.value(value, scope);
                let inner = self.bind(*name, value, scope);
                self.value(body, inner)
            }
            Tree::Function(name, body) => self.function(name, body, scope),
            Tree::Member(member, receiver, argument) => {
                let a = self.value(receiver, scope);
                if let Value::Missing(_) = a {
                    return a;
                }
                match argument {
                    None => self.ask(*member, a),
                    Some(argument) => {
                        let b = self.value(argument, scope);
                        self.call(*member, a, b)
                    }
                }
            }
        }
    }

    fn bind(&mut self, name: u64, value: Value<'a>, outer: u32) -> u32 {
        self.frames.push(Frame { name, value, outer });
        self.frames.len() as u32
    }

    fn look_up(&self, name: u64, mut scope: u32) -> Value<'a> {
        while scope > 0 {
            let frame = &self.frames[scope as usize - 1];
            if frame.name == name {
                return frame.value;
            }
            scope = frame.outer;
        }
        Value::Missing(1)
    }

    /// A function with a missing body is missing. One that awaits a variable around it is delayed.
    fn function(&mut self, name: &'a u64, body: &'a Tree, scope: u32) -> Value<'a> {
        let own = self.frames.len() as u32 + 1;
        match self.with(*name, Value::Delayed(own), body, scope) {
            Value::Missing(reason) => Value::Missing(reason),
            Value::Delayed(place) if place < own => Value::Delayed(place),
            _ => Value::Function(name, body, scope),
        }
    }

    /// A body's value with its variable set. Its frames are dropped: of a run only a number is used, and otherwise only whether it is one.
    fn with(&mut self, name: u64, value: Value<'a>, body: &'a Tree, scope: u32) -> Value<'a> {
        let held = self.frames.len();
        let inner = self.bind(name, value, scope);
        let result = self.value(body, inner);
        self.frames.truncate(held);
        result
    }

    fn readings(&self, start: u32, length: u32) -> &'a [i32] {
        &self.readings[start as usize..(start + length) as usize]
    }

    fn ask(&self, member: Member, a: Value<'a>) -> Value<'a> {
        let (start, length) = match a {
            Value::Window(start, length) => (start, length),
            Value::Delayed(_) => return a,
            _ => return Value::Missing(2),
        };
        let readings = self.readings(start, length);
        let found = |best: Option<&i32>| best.map_or(Value::Missing(5), |z| Value::Number(*z));
        match member {
            Count => Value::Number(length as i32),
            Sum => ranged(readings.iter().map(|z| i64::from(*z)).sum()),
            Min => found(readings.iter().min()),
            _ => found(readings.iter().max()),
        }
    }

    fn call(&mut self, member: Member, a: Value<'a>, b: Value<'a>) -> Value<'a> {
        match (a, b) {
            (_, Value::Missing(_)) => b,
            (Value::Delayed(i), Value::Delayed(j)) => Value::Delayed(i.min(j)),
            (Value::Delayed(_), _) => a,
            (_, Value::Delayed(_)) => b,
            (Value::Number(x), Value::Number(y)) => of_numbers(member, x.into(), y.into()),
            (Value::Window(start, length), Value::Number(n)) => match member {
                Skip => Value::Window(start + clip(n, length), length - clip(n, length)),
                Take => Value::Window(start, clip(n, length)),
                At => match from_start(n, length) {
                    i if (0..i64::from(length)).contains(&i) => {
                        Value::Number(self.readings[start as usize + i as usize])
                    }
                    _ => Value::Missing(5),
                },
                BestSum => {
                    let best = stretches::best(self.readings(start, length), n);
                    best.map_or(Value::Missing(5), |(sum, _)| ranged(sum))
                }
                BestAt => {
                    let best = stretches::best(self.readings(start, length), n);
                    best.map_or(Value::Missing(5), |(_, at)| Value::Number(at as i32))
                }
                _ => Value::Missing(2),
            },
            (Value::Window(start, length), Value::Function(name, body, scope))
                if matches!(member, CountWhere | LongestRun | SumBy) =>
            {
                self.runs(member, self.readings(start, length), (*name, body, scope))
            }
            _ => Value::Missing(2),
        }
    }

    fn runs(
        &mut self,
        member: Member,
        readings: &'a [i32],
        (name, body, scope): (u64, &'a Tree, u32),
    ) -> Value<'a> {
        let (mut total, mut stretch): (i64, i64) = (0, 0);
        for &reading in readings {
            let z = match self.with(name, Value::Number(reading), body, scope) {
                Value::Number(z) => z,
                Value::Missing(reason) => return Value::Missing(reason),
                _ => return Value::Missing(2),
            };
            match member {
                SumBy => total += i64::from(z),
                CountWhere => total += i64::from(z != 0),
                _ => {
                    stretch = if z != 0 { stretch + 1 } else { 0 };
                    total = total.max(stretch);
                }
            }
        }
        ranged(total)
    }
}

fn of_numbers<'a>(member: Member, x: i64, y: i64) -> Value<'a> {
    match member {
        Add => ranged(x + y),
        Sub => ranged(x - y),
        Mul => ranged(x * y),
        Div if y == 0 => Value::Missing(3),
        Div => ranged(x / y - i64::from(x % y != 0 && (x < 0) != (y < 0))),
        Gt => Value::Number(i32::from(x > y)),
        Eq => Value::Number(i32::from(x == y)),
        _ => Value::Missing(2),
    }
}
