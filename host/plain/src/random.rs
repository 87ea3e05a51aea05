//! Random sessions: lists of calls made from a seed, for comparing an engine with
//! the model call by call. The same seed always gives the same calls.

pub mod body;
pub mod damage;
pub mod formula;
pub mod limit;
pub mod nested;
pub mod pasted;
pub mod rng;
pub mod single;

use crate::bind::bind;
use crate::form::{Form, Forms};
use crate::limits::TEXT_BYTES;
use crate::member::Kind;
use crate::model::{Answer, Call, Model};
use crate::print::written;
use crate::syntax::parse;
use damage::{damaged, token_soup};
use formula::{formula, join};
use limit::{deep, grown, wide};
use nested::nested;
use pasted::pasted;
use rng::Rng;
use single::single;

/// Bound on the runs that one entry of a random text may need, so that a session
/// takes little time.
const MOST_RUNS: usize = 5_000;

/// A session of `calls` calls. The first is an open that is accepted.
pub fn session(seed: u64, calls: usize) -> Vec<Call> {
    let mut generator = Generator::new(seed);
    let readings = short_recording(&mut generator.rng);
    let mut list = Vec::new();
    let mut call = Call::Open { readings, enough: true };
    while list.len() < calls {
        generator.follow(&call);
        list.push(call);
        call = generator.next_call();
    }
    list
}

struct Generator {
    rng: Rng,
    /// Follows the session, so that calls can use its numbers.
    model: Model,
    /// The texts accepted so far.
    texts: Vec<Vec<u8>>,
    /// The last whole text's entry, and those of its parts.
    last_whole: u32,
    last_places: Vec<u32>,
    /// Whether the session fills the table: it opens no other recording and has many
    /// long texts.
    is_filling: bool,
}

impl Generator {
    fn new(seed: u64) -> Generator {
        let mut rng = Rng::new(seed);
        let is_filling = rng.one_in(4);
        let (model, texts, last_places) = (Model::new(), Vec::new(), vec![0]);
        Generator { rng, model, texts, last_whole: 0, last_places, is_filling }
    }

    fn follow(&mut self, call: &Call) {
        let answer = self.model.call(call);
        if let (Call::Edit { text, .. }, Answer::Edited { whole, places, .. }) = (call, answer) {
            self.last_whole = whole;
            self.last_places = places;
            self.texts.push(text.clone());
        }
    }

    fn next_call(&mut self) -> Call {
        let is_empty = self.model.forms().list.is_empty();
        match self.rng.below(50) {
            0 if !self.is_filling => self.open(),
            1..=22 => self.edit(),
            23..=48 if is_empty => self.edit(),
            23..=30 => self.print(),
            _ => self.preview(),
        }
    }

    fn open(&mut self) -> Call {
        let readings = match self.rng.below(8) {
            0 => vec![self.rng.reading(); 1025],
            1 => (0..1024).map(|_| self.rng.reading()).collect(),
            _ => short_recording(&mut self.rng),
        };
        Call::Open { readings, enough: self.is_enough() }
    }

    fn edit(&mut self) -> Call {
        let text = self.text();
        let is_usual = !self.rng.one_in(30);
        let places = if is_usual { 128 } else { self.rng.pick(&[0, 1, 127, 129, 1000]) };
        Call::Edit { text, places, enough: self.is_enough() }
    }

    fn preview(&mut self) -> Call {
        let allowance = self.rng.pick(&[0, 1, 1, 2, 3, 5, 8, 64, 512, 512, 65_536, u32::MAX]);
        Call::Preview { entry: self.entry(), allowance, enough: self.is_enough() }
    }

    fn print(&mut self) -> Call {
        let entry = self.entry();
        let bytes = bytes_to_lend(&mut self.rng, self.model.forms(), entry as usize);
        Call::Print { entry, bytes, enough: self.is_enough() }
    }

    /// Whether the cache is lent whole.
    fn is_enough(&mut self) -> bool {
        !self.rng.one_in(40)
    }

    /// Mostly an entry held, sometimes a number near or far above.
    fn entry(&mut self) -> u32 {
        let held = self.model.forms().list.len() as u32;
        match self.rng.below(16) {
            0 => self.rng.pick(&[held, held + 1, 511, 512, 65_535, 65_536, u32::MAX]),
            1..=4 if held > 0 => self.rng.below(u64::from(held)) as u32,
            5..=8 => self.rng.pick(&self.last_places),
            _ => self.last_whole,
        }
    }

    /// A text that takes few runs over the recording.
    fn text(&mut self) -> Vec<u8> {
        let text = self.any_text();
        if is_affordable(&text, self.model.recording().len()) { text } else { b"data".to_vec() }
    }

    fn any_text(&mut self) -> Vec<u8> {
        if self.is_filling && self.rng.one_in(3) {
            return wide(&mut self.rng);
        }
        match self.rng.below(40) {
            0..=7 => {
                let tokens = formula(&mut self.rng);
                join(&mut self.rng, &tokens)
            }
            8..=11 => {
                let tokens = nested(&mut self.rng);
                join(&mut self.rng, &tokens)
            }
            12..=17 => {
                let tokens = formula(&mut self.rng);
                damaged(&mut self.rng, tokens)
            }
            18 => wide(&mut self.rng),
            19 => deep(&mut self.rng),
            20 => token_soup(&mut self.rng),
            21 => self.padded_text(),
            22..=27 => {
                let tokens = single(&mut self.rng);
                join(&mut self.rng, &tokens)
            }
            28 | 29 => grown(&mut self.rng),
            30 => body::run(&mut self.rng),
            31..=37 => pasted(&mut self.rng),
            _ => self.changed_text(),
        }
    }

    /// A text accepted before, or a first one.
    fn old_text(&mut self) -> Vec<u8> {
        if self.texts.is_empty() { b"data.take(3)".to_vec() } else { self.rng.pick(&self.texts) }
    }

    /// A text with blanks up to about the greatest length.
    fn padded_text(&mut self) -> Vec<u8> {
        let mut text = self.old_text();
        text.resize(1022 + self.rng.below(5) as usize, b' ');
        text
    }

    /// A text with one digit changed, or none.
    fn changed_text(&mut self) -> Vec<u8> {
        let mut text = self.old_text();
        let place = self.rng.below(text.len() as u64) as usize;
        if text[place].is_ascii_digit() {
            text[place] = b'0' + self.rng.below(10) as u8;
        }
        text
    }
}

/// Short, since runs within runs multiply a recording's length.
pub fn short_recording(rng: &mut Rng) -> Vec<i32> {
    let length = rng.pick(&[0, 1, 2, 3, 4, 5, 6, 7, 8, 12, 30]);
    (0..length).map(|_| rng.reading()).collect()
}

/// A text of any sort: mostly a formula, some of them damaged or near a limit, and now and
/// then any bytes.
pub fn any_text(rng: &mut Rng) -> Vec<u8> {
    match rng.below(24) {
        0 | 1 => wide(rng),
        2 | 3 => deep(rng),
        4 | 5 => grown(rng),
        6 => token_soup(rng),
        7 => (0..rng.below(20)).map(|_| rng.draw() as u8).collect(),
        8..=12 => pasted(rng),
        kind => {
            let tokens = match kind {
                13..=15 => nested(rng),
                16 | 17 => single(rng),
                _ => formula(rng),
            };
            if kind >= 20 { damaged(rng, tokens) } else { join(rng, &tokens) }
        }
    }
}

/// Bytes of any contents for the text of a form: none, one, as many as it has, one fewer or
/// one more, about as many as a text may have, or more.
pub fn bytes_to_lend(rng: &mut Rng, forms: &Forms, number: usize) -> Vec<u8> {
    let text = forms.list.get(number).and_then(|_| written(forms, number, TEXT_BYTES));
    let length = text.map_or(TEXT_BYTES, |text| text.len());
    let rooms = [0, 1, length - 1, length, length, length + 1, 1023, 1024, 1024, 1025, 2000];
    let room = rng.pick(&rooms);
    (0..room).map(|_| rng.draw() as u8).collect()
}

/// Whether each entry of a text needs at most `MOST_RUNS` runs. Texts that are
/// refused need none.
pub fn is_affordable(text: &[u8], readings: usize) -> bool {
    let Ok(text) = parse(text) else {
        return true;
    };
    let mut forms = Forms::default();
    bind(&text, &mut forms);
    are_affordable(&forms, readings)
}

/// Whether each of these forms needs at most `MOST_RUNS` runs.
pub fn are_affordable(forms: &Forms, readings: usize) -> bool {
    let depth = run_depths(forms).into_iter().max().unwrap_or(0);
    readings.checked_pow(depth).is_some_and(|runs| runs <= MOST_RUNS)
}

/// For each form, a bound on how deep runs stand within runs when it is evaluated: all
/// runs on a way down its dependencies. These have lower numbers, so theirs are known.
fn run_depths(forms: &Forms) -> Vec<u32> {
    let mut depths: Vec<u32> = Vec::new();
    for form in &forms.list {
        let below = form.dependencies().into_iter().map(|number| depths[number]).max();
        let depth = below.unwrap_or(0);
        depths.push(if runs_function(form) { depth + 1 } else { depth });
    }
    depths
}

fn runs_function(form: &Form) -> bool {
    matches!(form, Form::Member(member, _) if member.argument() == Some(Kind::Function))
}
