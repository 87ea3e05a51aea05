//! The deepest nest of runs that a text can reach: docs/NESTING.md's count of parts
//! is met by a text for each depth, and undercut by none that is tried. And what runs work
//! out again.

use plain::bind::bind;
use plain::form::Forms;
use plain::limits::{OPEN_LAMBDAS, TEXT_PARTS};
use plain::nesting::{Again, again, nesting};
use plain::random::formula::{formula, join};
use plain::random::nested::nested;
use plain::random::rng::Rng;
use plain::refusal::TEXT_LIMIT;
use plain::samples::taken::nested_runs;
use plain::syntax::{Text, parse};

/// Texts of up to so many parts are all tried.
const SMALL: usize = 10;

/// The least parts of a text whose runs stand `depth` deep in one another.
fn least_parts(depth: usize) -> usize {
    match depth {
        0 => 1,
        1 => 4,
        _ => 5 * depth - 3 + 2 * ((depth - 1) / 2),
    }
}

/// How deep runs stand in one another in a text that was read.
fn depth(text: &Text) -> usize {
    let mut forms = Forms::default();
    bind(text, &mut forms);
    nesting(&forms).into_iter().max().expect("a text has a form") as usize
}

#[test]
fn each_depth_up_to_22_is_reached() {
    for wanted in 2..=22 {
        let text = parse(nested_runs(wanted).as_bytes()).expect("a text within the limits");
        assert_eq!((depth(&text), text.parts), (wanted, least_parts(wanted)));
    }
}

#[test]
fn depth_23_needs_more_parts_than_a_text_has() {
    assert!(least_parts(22) <= TEXT_PARTS && TEXT_PARTS < least_parts(23));
    let refusal = parse(nested_runs(23).as_bytes()).expect_err("a text with too many parts");
    assert_eq!(refusal.number, TEXT_LIMIT);
}

/// What the run of a whole text works out again.
#[test]
fn members_and_functions_that_a_run_works_out_again() {
    for (text, expected) in [
        (r"data.sumBy(\b -> b)", Some(Again::Members(0))),
        (r"data.sumBy(\b -> 1.add(2))", Some(Again::Members(0))),
        (r"data.sumBy(\b -> b.add(1).mul(b.add(1)))", Some(Again::Members(2))),
        (r"data.sumBy(\b -> let x = b.add(1) in data.take(x).sum())", Some(Again::Members(3))),
        // what stands in the other run does not depend on p
        (r"data.sumBy(\p -> p.add(data.sumBy(\q -> q.add(1))))", Some(Again::Members(1))),
        (r"data.sumBy(\p -> data.sumBy(\q -> q.add(p)))", Some(Again::Functions)),
        (r"let f = \q -> q in data.sumBy(\p -> data.take(p).sumBy(f))", Some(Again::Functions)),
        (r"data.sumBy(\p -> p.eq(\q -> p))", Some(Again::Functions)),
        (r"data.sumBy(\p -> data.sumBy(p))", Some(Again::Functions)),
        (r"data.sumBy(1)", None),
        (r"data.sum()", None),
    ] {
        let read = parse(text.as_bytes()).expect("a text within the limits");
        let mut forms = Forms::default();
        let whole = bind(&read, &mut forms).whole;
        assert_eq!(again(&forms)[whole], expected, "{text}");
    }
}

#[derive(Clone, Copy, PartialEq)]
enum Kind {
    Number,
    Window,
    Function,
}

const KINDS: [Kind; 3] = [Kind::Number, Kind::Window, Kind::Function];

/// The names bound at a point, with their kinds, and the open lambdas.
#[derive(Clone, Default)]
struct Scope {
    names: Vec<(char, Kind)>,
    lambdas: usize,
}

impl Scope {
    /// With one more name, which no other in the scope has.
    fn with(&self, kind: Kind) -> (char, Scope) {
        let name = char::from(b'f' + self.names.len() as u8);
        let mut scope = self.clone();
        scope.names.push((name, kind));
        (name, scope)
    }
}

/// Every expression of a kind with so many parts that is made of lets, `add`, `take`,
/// `sumBy` and functions giving numbers, up to the choice of names and numbers.
fn expressions(kind: Kind, parts: usize, scope: &Scope) -> Vec<String> {
    let mut all = Vec::new();
    if parts == 1 {
        all.extend(match kind {
            Kind::Number => Some("1".to_string()),
            Kind::Window => Some("data".to_string()),
            Kind::Function => None,
        });
        let known = scope.names.iter().filter(|(_, known)| *known == kind);
        all.extend(known.map(|(name, _)| name.to_string()));
        return all;
    }
    if kind == Kind::Function && scope.lambdas < OPEN_LAMBDAS {
        let (name, mut inner) = scope.with(Kind::Number);
        inner.lambdas += 1;
        let bodies = expressions(Kind::Number, parts - 1, &inner);
        all.extend(bodies.iter().map(|body| format!("(\\{name} -> {body})")));
    }
    for first in 1..parts - 1 {
        let second = parts - 1 - first;
        for value in KINDS {
            let (name, inner) = scope.with(value);
            let bodies = expressions(kind, second, &inner);
            let values = expressions(value, first, scope);
            all.extend(pairs(&values, &bodies, &format!("(let {name} = "), " in "));
        }
        for (result, receiver, member, argument) in [
            (Kind::Number, Kind::Number, "add", Kind::Number),
            (Kind::Number, Kind::Window, "sumBy", Kind::Function),
            (Kind::Window, Kind::Window, "take", Kind::Number),
        ] {
            if result == kind {
                let receivers = expressions(receiver, first, scope);
                let arguments = expressions(argument, second, scope);
                all.extend(pairs(&receivers, &arguments, "", &format!(".{member}(")));
            }
        }
    }
    all
}

/// Each of the first before each of the second, with a bracket to close.
fn pairs<'a>(
    first: &'a [String],
    second: &'a [String],
    before: &'a str,
    between: &'a str,
) -> impl Iterator<Item = String> + 'a {
    first.iter().flat_map(move |left| {
        second.iter().map(move |right| format!("{before}{left}{between}{right})"))
    })
}

/// Tests the count of parts for each text; gives the deepest nest among them.
fn deepest_of(texts: impl IntoIterator<Item = Vec<u8>>) -> usize {
    let mut most = 0;
    for text in texts {
        let Ok(text) = parse(&text) else { continue };
        let depth = depth(&text);
        assert!(least_parts(depth) <= text.parts, "{depth} deep in {} parts", text.parts);
        most = most.max(depth);
    }
    most
}

#[test]
fn every_small_text_has_the_parts_for_its_depth() {
    let texts = |parts| expressions(Kind::Number, parts, &Scope::default());
    let all = (1..=SMALL).flat_map(texts).map(String::into_bytes);
    assert_eq!(deepest_of(all), 2);
}

#[test]
fn random_texts_have_the_parts_for_their_depth() {
    let mut rng = Rng::new(6);
    let texts = (0..20_000).map(|_| {
        let tokens = if rng.one_in(4) { formula(&mut rng) } else { nested(&mut rng) };
        join(&mut rng, &tokens)
    });
    assert!(deepest_of(texts) >= 3);
}
