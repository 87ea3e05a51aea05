//! Samples as data: calls with the answers that 01 and 02 ask for, worked out by hand.
//! Tests of the model use them, and tests of the engine can use them as well.

pub mod calls;
pub mod evaluated;
pub mod printed;
pub mod refused;
pub mod taken;

use crate::model::{Answer, Call};
use crate::name::Name;
use crate::shown::{Shown, Window};

/// A call and the answer it must get.
pub type Step = (Call, Answer);

/// The recording of the sample previews.
pub const RECORDING: [i32; 5] = [140, 152, 160, 148, 155];

/// An allowance that covers every entry of a full table.
pub const ALL: u32 = 512;

/// What the bytes of a sample's print hold before: no byte of a printed text.
const OLD_BYTE: u8 = 0xe7;

/// A sample preview.
pub struct Sample {
    /// Whether 01 stars it.
    pub starred: bool,
    /// Whether it goes on with the cache that the sample before it left. Otherwise it
    /// begins with an opening.
    pub follows: bool,
    pub text: &'static str,
    pub new: u32,
    pub whole: u32,
    pub places: &'static [u32],
    pub worked: u32,
    pub shown: Shown,
}

impl Sample {
    /// The sample as calls: the opening, if any, the edit, and one preview of the
    /// whole text that covers all entries.
    pub fn steps(&self) -> Vec<Step> {
        let mut steps = Vec::new();
        if !self.follows {
            steps.push((open(&RECORDING), Answer::Opened));
        }
        let edited = Answer::Edited {
            whole: self.whole,
            parts: self.places.len() as u32,
            new: self.new,
            places: self.places.to_vec(),
        };
        steps.push((edit(self.text), edited));
        let finished = Answer::Finished { worked: self.worked, shown: self.shown.clone() };
        steps.push((preview(self.whole, ALL), finished));
        steps
    }
}

/// An open with the cache lent whole.
pub fn open(readings: &[i32]) -> Call {
    Call::Open { readings: readings.to_vec(), enough: true }
}

/// An edit with the cache lent whole and 128 places.
pub fn edit(text: impl AsRef<[u8]>) -> Call {
    Call::Edit { text: text.as_ref().to_vec(), places: 128, enough: true }
}

/// A preview with the cache lent whole.
pub fn preview(entry: u32, allowance: u32) -> Call {
    Call::Preview { entry, allowance, enough: true }
}

/// A print with the cache lent whole and so many bytes for the text.
pub fn print(entry: u32, room: usize) -> Call {
    Call::Print { entry, bytes: vec![OLD_BYTE; room], enough: true }
}

/// The figures of an edit: new entries, the whole text's entry, and the places.
type Figures = (u32, u32, &'static [u32]);

/// A sample that begins with an opening and has no star.
fn sample(text: &'static str, figures: Figures, worked: u32, shown: Shown) -> Sample {
    let (new, whole, places) = figures;
    Sample { starred: false, follows: false, text, new, whole, places, worked, shown }
}

impl Sample {
    fn starred(self) -> Sample {
        Sample { starred: true, ..self }
    }

    fn following(self) -> Sample {
        Sample { follows: true, ..self }
    }
}

fn number(value: i32) -> Shown {
    Shown::Number(value)
}

fn window(start: usize, length: usize) -> Shown {
    Shown::Window(Window { start, length })
}

fn missing(reason: u8) -> Shown {
    Shown::Missing(reason)
}

fn named(word: &str) -> Name {
    Name::new(word).expect("a name has at most 8 bytes")
}

/// All sample previews: those of 01, then those that 02 adds.
pub fn previews() -> Vec<Sample> {
    let added = [stretch_previews(), division_previews(), level_previews(), end_previews()];
    scope_previews().into_iter().chain(added.into_iter().flatten()).collect()
}

/// The sample previews of 01, in its order, the division as 02, T-02 amends it. Where 01
/// gives only what is shown, the other figures follow from 'Binding' and 'Working out'.
pub fn scope_previews() -> Vec<Sample> {
    let first: Figures = (5, 4, &[4, 0, 1, 3, 2, 4, 0]);
    let second: Figures = (2, 6, &[6, 5, 1, 3, 2, 6, 5]);
    let runs: Figures = (6, 5, &[0, 5, 4, 1, 3, 2]);
    let nested: Figures = (8, 7, &[0, 7, 6, 0, 5, 4, 1, 3, 2]);
    let one_call: Figures = (3, 2, &[0, 2, 1]);
    let unused: Figures = (4, 3, &[3, 0, 2, 1, 3]);
    let unbound: Figures = (2, 1, &[1, 0, 1, 0]);
    let empty: Figures = (7, 6, &[0, 2, 1, 6, 5, 3, 4, 1]);
    vec![
        sample("let x = 2 in data.skip(1).take(x)", first, 2, window(1, 2)).starred(),
        sample("let x = 3 in data.skip(1).take(x)", second, 1, window(1, 3)).following().starred(),
        sample("data.countWhere(\\b -> b.gt(150))", runs, 3, number(3)).starred(),
        sample("data.sum()", (2, 1, &[0, 1]), 1, number(755)).starred(),
        sample("data.longestRun(\\b -> b.gt(145))", runs, 3, number(4)),
        sample("data.sumBy(\\p -> data.countWhere(\\q -> q.gt(p)))", nested, 5, number(10))
            .starred(),
        sample("-7.div(2)", one_call, 1, number(-4)).starred(),
        sample("-2147483648.div(-1)", one_call, 1, missing(4)).starred(),
        sample("7.div(0)", one_call, 1, missing(3)),
        sample("let u = 1.div(0) in 6", unused, 0, number(6)).starred(),
        sample("let y = b in \\b -> y", unbound, 1, missing(1)).starred(),
        sample("data.take(0).countWhere(\\b -> b.div(0))", empty, 4, number(0)).starred(),
        sample("data.take(0).countWhere(\\b -> 1.div(0))", empty, 4, missing(3)).starred(),
        sample("data.skip(9)", one_call, 1, window(5, 0)),
        sample("data.skip(9).min()", (1, 3, &[0, 2, 1, 3]), 1, missing(5)).following(),
        sample("1.add(data)", one_call, 1, missing(2)),
    ]
}

/// Best stretches (02, T-01). The last two are one stretch: it begins with the reading
/// 152, at 1 in the recording and at 0 in the window.
fn stretch_previews() -> Vec<Sample> {
    let one_call: Figures = (3, 2, &[0, 2, 1]);
    let other_member: Figures = (1, 3, &[0, 3, 1]);
    let of_part: Figures = (5, 8, &[0, 5, 4, 7, 6, 8, 1]);
    vec![
        sample("data.bestSum(5)", one_call, 1, number(755)),
        sample("data.bestAt(5)", other_member, 1, number(0)).following(),
        sample("data.bestSum(6)", one_call, 1, missing(5)),
        sample("data.bestAt(6)", other_member, 1, missing(5)).following(),
        sample("data.bestSum(2)", one_call, 1, number(312)),
        sample("data.bestAt(2)", other_member, 1, number(1)).following(),
        sample("data.skip(1).take(3).bestAt(2)", of_part, 3, number(0)).following(),
    ]
}

/// Division goes down (02, T-02), whatever the signs.
fn division_previews() -> Vec<Sample> {
    let one_call: Figures = (3, 2, &[0, 2, 1]);
    vec![
        sample("7.div(-2)", one_call, 1, number(-4)),
        sample("-7.div(-2)", one_call, 1, number(3)),
        sample("-6.div(3)", one_call, 1, number(-2)),
    ]
}

/// Counts from the end (02, T-06): within the window, and past its first reading.
fn end_previews() -> Vec<Sample> {
    let one_call: Figures = (3, 2, &[0, 2, 1]);
    let second: Figures = (1, 3, &[0, 3, 1]);
    let third: Figures = (1, 4, &[0, 4, 1]);
    let in_turn: Figures = (7, 6, &[0, 2, 1, 4, 3, 6, 5]);
    vec![
        sample("data.skip(-2)", one_call, 1, window(3, 2)),
        sample("data.take(-2)", second, 1, window(0, 3)).following(),
        sample("data.at(-2)", third, 1, number(148)).following(),
        sample("data.skip(-6)", one_call, 1, window(0, 5)),
        sample("data.take(-6)", second, 1, window(0, 0)).following(),
        sample("data.at(-6)", third, 1, missing(5)).following(),
        sample("data.skip(1).take(-1).at(-3)", in_turn, 3, number(152)),
    ]
}

/// Lambdas and their levels (02, T-05): the inner function of the second text is not the
/// entry of its twin in the first, and an inner lambda hides an outer one of its name.
fn level_previews() -> Vec<Sample> {
    let outer: Figures = (4, 3, &[0, 3, 2, 1]);
    let inner: Figures = (4, 7, &[7, 0, 6, 5, 4]);
    let hidden: Figures = (3, 2, &[2, 1, 0]);
    let between: Figures = (5, 4, &[4, 3, 0, 3, 0, 2, 1]);
    let runs: Figures = (10, 9, &[0, 9, 8, 7, 1, 0, 7, 6, 1, 3, 2, 5, 4]);
    let function = |word: &str| Shown::Function(named(word));
    vec![
        sample("data.sumBy(\\a -> a)", outer, 2, number(755)),
        sample("\\b -> data.sumBy(\\a -> a)", inner, 3, function("b")).following(),
        sample("\\a -> \\a -> a", hidden, 2, function("a")),
        sample("\\a -> let x = a in \\a -> x.add(a)", between, 3, function("a")),
        sample(
            "data.sumBy(\\a -> let x = a in data.sumBy(\\a -> x.mul(2).sub(a)))",
            runs,
            6,
            number(3775),
        ),
    ]
}
