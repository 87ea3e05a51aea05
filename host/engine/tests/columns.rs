//! Runs of functions, each of which the engine works out in one of two ways. Where a run works
//! out again members alone, none of which takes a function, it goes by columns: a chunk of
//! readings at a time, member by member. All others go reading by reading. No answer tells
//! which. Here both are compared with the reference model: over recordings about as long as
//! chunks, for bodies of any size, and with missing results at each reading.
//!
//! FORMULA_SEED and FORMULA_CALLS set another first seed and number of calls:
//!     FORMULA_SEED=77 FORMULA_CALLS=500000 cargo test --release -p engine --test columns

mod previews;

use engine::compare::{Pair, setting};
use engine::evaluate::evaluate;
use plain::bind::{Bound, bind};
use plain::evaluate::Evaluated;
use plain::form::Forms;
use plain::model::Answer;
use plain::nesting::{Again, again};
use plain::random::body::{RUNS, body};
use plain::random::rng::Rng;
use plain::refusal::TEXT_LIMIT;
use plain::samples::open;
use plain::shown::{BEYOND_32_BITS, DIVISION_BY_ZERO, OUTSIDE_WINDOW, Reason, Shown, WRONG_KIND};
use plain::syntax::{Text, parse};
use plain::tally::Tally;
use previews::show;

/// Most members of a random body that a text has room for, with lets among them.
const MOST_MEMBERS: usize = 58;

const TEXTS_OF_SESSION: u64 = 6;

/// An edit, two previews or more, and an evaluation without a cache.
const CALLS_OF_TEXT: u64 = 5;

/// How many readings a chunk has: a column for the readings and one for each member take 510
/// cells at most.
fn chunk(members: usize) -> usize {
    510 / (members + 1)
}

/// Lengths of recordings: none and few, about one and two chunks, and the most.
fn lengths(members: usize) -> Vec<usize> {
    let borders = [1, chunk(members), 2 * chunk(members), 512, 1023];
    let about = borders.into_iter().flat_map(|border| [border - 1, border, border + 1]);
    about.filter(|length| *length <= 1024).collect()
}

/// Readings of one sort: of any size, like heart rates, or small ones that are indices too.
fn readings(rng: &mut Rng, length: usize) -> Vec<i32> {
    let sort = rng.below(4);
    let reading = |rng: &mut Rng| match sort {
        0 => rng.reading(),
        1 => 90 + rng.below(101) as i32,
        _ => rng.below(9) as i32 - 2,
    };
    (0..length).map(|_| reading(rng)).collect()
}

/// Both over one recording, in memory of any contents.
struct Session {
    pair: Pair,
    recording: Vec<i32>,
    rng: Rng,
}

impl Session {
    fn new(rng: &mut Rng, recording: Vec<i32>) -> Session {
        let mut pair = Pair::new(rng.draw());
        pair.call(&open(&recording));
        Session { pair, recording, rng: Rng::new(rng.draw()) }
    }

    /// What a text shows, which is read: by previews with one allowance, and without a cache.
    fn show(&mut self, text: &str) -> Shown {
        let allowance = self.rng.pick(&[1, 2, 7, 512, u32::MAX]);
        let answer = show(&mut self.pair, &self.recording, text.as_bytes(), allowance);
        let Answer::Finished { shown, .. } = answer else { panic!("{answer:?}: {text}") };
        let (read, bound, _) = bound(text).expect("a text that was read");
        let place = bound.places.iter().position(|part| *part == bound.whole);
        let place = place.expect("the whole is a part") as u32;
        let expected = Evaluated { parts: read.parts, shown: shown.clone() };
        assert_eq!(evaluate(text.as_bytes(), &self.recording, place), Ok(expected), "{text}");
        shown
    }

    /// Compares the states, and counts what the runs came to.
    fn end(self, tally: &mut Tally) {
        self.pair.check_state();
        tally.count_rules(&self.pair.model);
    }
}

/// A text by itself, and its forms, if it is read.
fn bound(text: &str) -> Option<(Text, Bound, Forms)> {
    let read = parse(text.as_bytes()).ok()?;
    let mut forms = Forms::default();
    let bound = bind(&read, &mut forms);
    Some((read, bound, forms))
}

/// How many members the run of a function with this body works out again, if it is read and
/// works out members alone.
fn members_of(body: &str) -> Option<usize> {
    let (_, bound, forms) = bound(&format!(r"data.sumBy(\b -> {body})"))?;
    match again(&forms)[bound.whole] {
        Some(Again::Members(members)) => Some(members),
        _ => None,
    }
}

/// A body of exactly so many members.
fn body_of(rng: &mut Rng, members: usize) -> String {
    loop {
        let body = body(rng, "b", &[], members);
        if members_of(&body) == Some(members) {
            return body;
        }
    }
}

/// Each member that runs a function, over a recording of this length, with bodies of so many
/// members.
fn check_runs(rng: &mut Rng, tally: &mut Tally, members: usize, length: usize) {
    let recording = readings(rng, length);
    let mut session = Session::new(rng, recording);
    for run in RUNS {
        session.show(&format!(r"data.{run}(\b -> {})", body_of(rng, members)));
    }
    session.end(tally);
}

#[test]
fn recordings_about_as_long_as_chunks() {
    let mut rng = Rng::new(setting("FORMULA_SEED", 0));
    let mut tally = Tally::default();
    for members in 0..=6 {
        for length in lengths(members) {
            (0..3).for_each(|_| check_runs(&mut rng, &mut tally, members, length));
        }
        for _ in 0..10 {
            let length = rng.below(1025) as usize;
            check_runs(&mut rng, &mut tally, members, length);
        }
    }
    RUNS.iter().for_each(|run| tally.check_rules(&[(run, "number")], 200));
}

#[test]
fn bodies_of_each_size() {
    let mut rng = Rng::new(setting("FORMULA_SEED", 0));
    let mut tally = Tally::default();
    for members in 0..=MOST_MEMBERS {
        for _ in 0..3 {
            let length = rng.pick(&lengths(members));
            check_runs(&mut rng, &mut tally, members, length);
        }
    }
    RUNS.iter().for_each(|run| tally.check_rules(&[(run, "number")], 40));
}

/// As many members as a text has parts for: on two numbers, and on one of the wrong kind.
#[test]
fn longest_bodies() {
    let full = format!("b{}", ".add(1)".repeat(62));
    assert_eq!((members_of(&full), chunk(62)), (Some(62), 8));
    for length in [0, 1, 7, 8, 9, 16, 17, 1024] {
        let mut session = Session::new(&mut Rng::new(length as u64), vec![1; length]);
        let expected = Shown::Number(63 * length as i32);
        assert_eq!(session.show(&format!(r"data.sumBy(\b -> {full})")), expected);
        for members in 60..=124 {
            let body = format!("b{}", ".sum()".repeat(members));
            assert_eq!(members_of(&body), Some(members));
            let expected = if length > 0 { Shown::Missing(WRONG_KIND) } else { Shown::Number(0) };
            assert_eq!(session.show(&format!(r"data.sumBy(\b -> {body})")), expected);
        }
        session.end(&mut Tally::default());
    }
}

/// A part that is missing at one reading, for a reason.
struct Fault {
    part: &'static str,
    reading: i32,
    reason: Reason,
}

/// At each other's readings, and at those from 10 to 60, they are numbers.
const FAULTS: [Fault; 4] = [
    Fault { part: "1.div(b.sub(7))", reading: 7, reason: DIVISION_BY_ZERO },
    Fault { part: "b.mul(2000000)", reading: 2000, reason: BEYOND_32_BITS },
    Fault { part: "data.at(b.eq(9).mul(5000))", reading: 9, reason: OUTSIDE_WINDOW },
    Fault { part: "data.skip(b.eq(8).mul(5000)).min()", reading: 8, reason: OUTSIDE_WINDOW },
];

/// A body with faults, over recordings of two chunks and two readings.
struct Faulty {
    faults: Vec<&'static Fault>,
    body: String,
    length: usize,
}

impl Faulty {
    /// One to four faults in any order, and so many other members here and there. The first
    /// fault is innermost.
    fn new(rng: &mut Rng, others: usize) -> Faulty {
        let mut left: Vec<&Fault> = FAULTS.iter().collect();
        let count = 1 + rng.below(4);
        let mut any = || left.swap_remove(rng.below(left.len() as u64) as usize);
        let faults: Vec<&Fault> = (0..count).map(|_| any()).collect();
        let members = ["add(1)", "sub(3)", "gt(4)", "eq(1)", "add(b)", "div(2)"];
        let mut calls: Vec<String> = (0..others).map(|_| rng.pick(&members).into()).collect();
        for fault in &faults[1..] {
            let call = format!("{}({})", rng.pick(&["add", "sub", "gt", "eq"]), fault.part);
            calls.insert(rng.below(calls.len() as u64 + 1) as usize, call);
        }
        let body = calls.iter().fold(faults[0].part.into(), |body, call| format!("{body}.{call}"));
        let members = members_of(&body).expect("members alone");
        Faulty { faults, body, length: 2 * chunk(members) + 2 }
    }

    /// Readings with one fault at this place and another at any place, and the reason of the
    /// first of them.
    fn recording(&self, rng: &mut Rng, place: usize) -> (Vec<i32>, Reason) {
        let mut recording: Vec<i32> = (0..self.length).map(|_| 10 + rng.below(51) as i32).collect();
        let number = rng.below(self.faults.len() as u64) as usize;
        let (here, there) = (self.faults[number], self.faults[(number + 1) % self.faults.len()]);
        let other = rng.below(self.length as u64) as usize;
        recording[other] = there.reading;
        recording[place] = here.reading;
        (recording, if place <= other { here.reason } else { there.reason })
    }

    /// The first reading with a fault decides, in a run by itself and in one within another.
    fn check(&self, rng: &mut Rng, place: usize) {
        let (recording, reason) = self.recording(rng, place);
        let (body, missing) = (&self.body, Shown::Missing(reason));
        let mut session = Session::new(rng, recording);
        for run in RUNS {
            assert_eq!(session.show(&format!(r"data.{run}(\b -> {body})")), missing);
            let within = format!(r"data.take(2).sumBy(\p -> data.{run}(\b -> {body}.add(p)))");
            assert_eq!(session.show(&within), missing);
        }
        session.end(&mut Tally::default());
    }
}

/// With many other members a chunk has from 8 to 20 readings.
#[test]
fn missing_results_at_each_reading_of_small_chunks() {
    let mut rng = Rng::new(setting("FORMULA_SEED", 0));
    for others in [24, 28, 32, 36, 40, 44, 46] {
        let faulty = Faulty::new(&mut rng, others);
        (0..faulty.length).for_each(|place| faulty.check(&mut rng, place));
    }
}

#[test]
fn missing_results_in_large_chunks() {
    let mut rng = Rng::new(setting("FORMULA_SEED", 0));
    for others in [0, 0, 0, 0, 1, 1, 2, 2, 3, 4, 6, 8, 10] {
        let faulty = Faulty::new(&mut rng, others);
        let middle = faulty.length / 2 - 1;
        for place in [0, middle - 1, middle, middle + 1, 2 * middle - 1, 2 * middle] {
            faulty.check(&mut rng, place);
        }
        for _ in 0..6 {
            let place = rng.below(faulty.length as u64) as usize;
            faulty.check(&mut rng, place);
        }
    }
}

/// Formulas with runs of both ways. Q and R are members that run a function, V a short window;
/// F is a body on b, G one that has p as a constant, and H one on p.
const FORMULAS: [&str; 17] = [
    r"data.R(\b -> F)",
    r"data.R(\b -> F).add(data.Q(\b -> F))",
    r"data.take(-9).R(\b -> F)",
    r"let f = \b -> F in V.R(f).add(data.skip(1).Q(f))",
    r"let m = data.sum().div(data.count()) in data.R(\b -> let p = m in G)",
    r"data.R(\b -> let p = data.Q(\b -> F) in G)",
    r"V.R(\p -> data.Q(\b -> G))",
    r"V.R(\p -> data.skip(p).Q(\b -> F))",
    r"V.R(\p -> data.take(p).Q(\b -> G).sub(p))",
    r"V.R(\p -> data.Q(\b -> G).add(H))",
    r"V.R(\p -> data.R(\b -> p).add(data.Q(\b -> b.gt(p))))",
    r"let f = \b -> F in V.R(\p -> data.skip(p).Q(f).add(H))",
    r"data.R(\b -> F).add(V.Q(\p -> data.R(\b -> G)))",
    r"V.R(\p -> H).sub(V.Q(\p -> data.R(\b -> G)))",
    r"data.R(\b -> b.eq(\p -> b))",
    r"data.R(\b -> data.Q(b))",
    r"data.R(\b -> data.take(0).Q(\p -> p.add(b)))",
];

const WINDOWS: [&str; 4] =
    ["data.take(3)", "data.skip(-2)", "data.skip(1).take(4)", "data.take(1)"];

/// One of them that is read, with bodies of about so many members.
fn formula(rng: &mut Rng, members: usize) -> String {
    loop {
        let text = with_bodies(rng, members);
        match parse(text.as_bytes()) {
            Ok(_) => return text,
            Err(refusal) => assert_eq!(refusal.number, TEXT_LIMIT, "{text}"),
        }
    }
}

/// One of them. No member has a capital letter that stands for something, but for `longestRun`.
fn with_bodies(rng: &mut Rng, members: usize) -> String {
    let formula = rng.pick(&FORMULAS).replace('F', &body_of(rng, members));
    let formula = formula.replace('G', &body(rng, "b", &["p"], members));
    let formula = formula.replace('H', &body(rng, "p", &[], members));
    let formula = formula.replace('V', rng.pick(&WINDOWS)).replace('Q', rng.pick(&RUNS));
    formula.replace(".R(", &format!(".{}(", rng.pick(&RUNS)))
}

/// A recording, and some texts over it.
fn run_session(seed: u64, tally: &mut Tally) {
    let mut rng = Rng::new(seed);
    let members = rng.pick(&[0, 1, 1, 2, 2, 3, 4, 5, 6, 8, 13, 25]);
    let length = match rng.below(3) {
        0 => rng.pick(&lengths(members)),
        1 => rng.below(1025) as usize,
        _ => rng.below(40) as usize,
    };
    let recording = readings(&mut rng, length);
    let mut session = Session::new(&mut rng, recording);
    for _ in 0..TEXTS_OF_SESSION {
        session.show(&formula(&mut rng, members));
    }
    session.end(tally);
}

#[test]
fn random_runs() {
    let (first, calls) = (setting("FORMULA_SEED", 0), setting("FORMULA_CALLS", 15_000));
    let mut tally = Tally::default();
    for seed in 0..calls.div_ceil(TEXTS_OF_SESSION * CALLS_OF_TEXT) {
        run_session(first.wrapping_add(seed), &mut tally);
    }
    if calls >= 15_000 {
        tally.check_runs(200);
        for run in RUNS {
            tally.check_rules(&[(run, "number")], 200);
            tally.check_rules(&[(run, "missing 2"), (run, "missing 4"), (run, "missing 5")], 25);
            tally.check_rules(&[(run, "missing 3")], 3);
        }
    }
}
