//! Printing (02, T-04): the exact texts, the room they need, and the forms that are turned
//! away.

mod common;

use common::{edited, opened};
use plain::form::{Form, Forms};
use plain::limits::{TABLE_ENTRIES, TEXT_BYTES};
use plain::member::Member;
use plain::model::{Answer, Call, Model};
use plain::name::Variable;
use plain::print::{Fault, print, written};
use plain::random::formula::{formula, join};
use plain::random::limit::grown;
use plain::random::pasted::pasted;
use plain::random::rng::Rng;
use plain::random::session;
use plain::refusal::{NO_SUCH_ENTRY, OTHER_FORM, TEXT_UNFIT};
use plain::samples::printed::{PARTS, declined, printed_at_limits, wholes};
use plain::samples::taken::doubled;
use plain::samples::{self, RECORDING};

/// More bytes than any text has.
const ROOM: usize = 5000;

fn refused(number: u8) -> Answer {
    Answer::Refused { number, place: 0 }
}

fn printed(text: &str) -> Answer {
    Answer::Printed { text: text.into() }
}

/// A model with one text, and the whole's entry.
fn model_of(text: &str) -> (Model, u32) {
    let mut model = opened(&RECORDING);
    let (whole, _, _) = edited(&mut model, text);
    (model, whole)
}

/// What the whole of a text prints as.
fn print_of(text: &str, room: usize) -> Result<String, Fault> {
    let (model, whole) = model_of(text);
    print(model.forms(), whole as usize, room)
}

#[test]
fn whole_texts() {
    for (text, expected) in wholes() {
        assert_eq!(print_of(text, ROOM).as_deref(), Ok(expected), "{text}");
    }
}

#[test]
fn each_part_by_itself() {
    for sample in PARTS {
        let mut model = opened(&RECORDING);
        let (_, _, places) = edited(&mut model, sample.text);
        let found: Vec<Answer> =
            places.iter().map(|entry| model.print(*entry, ROOM, true)).collect();
        let expected = sample.parts.iter().map(|part| match part {
            Ok(text) => printed(text),
            Err(number) => refused(*number),
        });
        assert_eq!(found, expected.collect::<Vec<_>>(), "{}", sample.text);
    }
}

#[test]
fn each_member_by_its_name() {
    for member in Member::all() {
        let argument = ["", "-1"][member.arguments()];
        let text = format!("data.{member:?}({argument})");
        assert_eq!(print_of(&text, ROOM).as_deref(), Ok(text.as_str()));
    }
}

/// The same text with exactly as many bytes as it has, and with any more. With fewer it is
/// turned away.
#[test]
fn room_for_the_text() {
    for (text, expected) in wholes() {
        let length = expected.len();
        for room in [length, length + 1, TEXT_BYTES, TEXT_BYTES + 1] {
            assert_eq!(print_of(text, room).as_deref(), Ok(expected), "{text}: {room}");
        }
        for room in [length - 1, length / 2, 0] {
            assert_eq!(print_of(text, room), Err(Fault::Room), "{text}: {room}");
        }
    }
}

#[test]
fn texts_at_the_limits() {
    for (text, length) in printed_at_limits() {
        let whole = print_of(&text, length).unwrap_or_else(|fault| panic!("{text}: {fault:?}"));
        assert_eq!(whole.len(), length, "{text}");
        assert_eq!(print_of(&text, length - 1), Err(Fault::Room), "{text}");
        assert_eq!(print_of(&whole, length), Ok(whole));
    }
}

/// However many bytes are lent, what no reader would take is turned away.
#[test]
fn texts_that_the_reader_would_decline() {
    for (text, number) in declined() {
        assert_eq!(print_of(&text, ROOM), Err(Fault::Declined(number)), "{text}");
        let (model, whole) = model_of(&text);
        for room in [0, 1, TEXT_BYTES - 1, TEXT_BYTES, TEXT_BYTES + 1, ROOM] {
            assert_eq!(model.print(whole, room, true), refused(TEXT_UNFIT), "{text}: {room}");
        }
    }
}

/// The text of a part that awaits a variable: too long for the lent bytes, or declined by
/// the reader, before it is read as another form.
#[test]
fn number_15_before_16() {
    let text = "\\abcdefgh -> abcdefgh.add(1)";
    let mut model = opened(&RECORDING);
    let (_, _, places) = edited(&mut model, text);
    for (entry, length) in [(places[1], 8), (places[2], 15)] {
        for room in [0, 1, length - 1] {
            assert_eq!(model.print(entry, room, true), refused(TEXT_UNFIT), "{room}");
        }
        for room in [length, length + 1, ROOM] {
            assert_eq!(model.print(entry, room, true), refused(OTHER_FORM), "{room}");
        }
    }
    for (times, number) in [(6, OTHER_FORM), (7, TEXT_UNFIT), (13, TEXT_UNFIT)] {
        let mut model = opened(&RECORDING);
        let (_, _, places) = edited(&mut model, &format!("\\x -> {}", doubled("x", times, "LAST")));
        assert_eq!(model.print(places[1], ROOM, true), refused(number), "{times}");
    }
}

#[test]
fn numbers_3_and_14_come_first() {
    let (model, whole) = model_of("\\a -> a");
    for room in [0, 1, ROOM] {
        assert_eq!(model.print(whole, room, false), refused(3));
        assert_eq!(model.print(whole + 1, room, false), refused(3));
        assert_eq!(model.print(whole + 1, room, true), refused(NO_SUCH_ENTRY));
        assert_eq!(model.print(u32::MAX, room, true), refused(NO_SUCH_ENTRY));
        assert_eq!(Model::new().print(0, room, true), refused(NO_SUCH_ENTRY));
    }
}

/// A table of 512 forms that each have the one before them twice: a text of more bytes than
/// can be counted is given up after as many as there is room for.
#[test]
fn forms_too_large_to_be_written() {
    let add = Member::named("add").expect("a member");
    let doubled = |number: usize| Form::Member(add, vec![number - 1, number - 1]);
    let forms = [Form::Data].into_iter().chain((1..TABLE_ENTRIES).map(doubled));
    let forms = Forms { list: forms.collect() };
    for number in [8, 30, 31, 64, 511] {
        assert_eq!(written(&forms, number, TEXT_BYTES), None);
        assert_eq!(print(&forms, number, TEXT_BYTES - 1), Err(Fault::Room));
        assert_eq!(print(&forms, number, usize::MAX), Err(Fault::Declined(1)));
    }
    assert_eq!(print(&forms, 1, ROOM).as_deref(), Ok("data.add(data)"));
}

/// Whether a form's text means another form by itself: a function whose level is not the
/// count of those around it, a lambda variable that is not that of the innermost function
/// around it with its name, or an unbound name that a function around it has.
fn is_other_by_itself(forms: &Forms, number: usize, around: &mut Vec<Variable>) -> bool {
    let innermost = |name| around.iter().rev().find(|variable| variable.name == name);
    match &forms.list[number] {
        Form::Number(_) | Form::Data => false,
        Form::Variable(variable) => innermost(variable.name) != Some(variable),
        Form::Unbound(name) => innermost(*name).is_some(),
        Form::Function(variable, _) if variable.level != around.len() => true,
        Form::Function(variable, body) => {
            around.push(*variable);
            let is_other = is_other_by_itself(forms, *body, around);
            around.pop();
            is_other
        }
        Form::Member(_, operands) => {
            operands.iter().any(|operand| is_other_by_itself(forms, *operand, around))
        }
    }
}

/// Reading a printed text yields that very entry, and printing what was read gives back the
/// printed text. The model itself stays as it is.
fn check_round_trip(model: &mut Model, entry: u32) {
    let before = model.clone();
    let is_other = || is_other_by_itself(before.forms(), entry as usize, &mut Vec::new());
    match print(before.forms(), entry as usize, ROOM) {
        Ok(text) => {
            assert!(!is_other(), "{text}");
            assert_eq!(model.call(&samples::print(entry, text.len())), printed(&text));
            let (whole, new, _) = edited(model, &text);
            assert_eq!((whole, new), (entry, 0), "{text}");
            assert_eq!(model.call(&samples::print(whole, ROOM)), printed(&text));
            assert_eq!(print_of(&text, ROOM), Ok(text));
        }
        Err(fault) => {
            assert!(fault != Fault::OtherForm || is_other());
            assert_eq!(model.call(&samples::print(entry, ROOM)), refused(fault.number()));
        }
    }
    assert_eq!(*model, before);
}

#[test]
fn round_trips_of_samples() {
    let parts = PARTS.iter().map(|sample| sample.text.to_string());
    let wholes = wholes().into_iter().map(|(text, _)| text.to_string());
    let limits = printed_at_limits().into_iter().map(|(text, _)| text);
    for text in parts.chain(wholes).chain(limits) {
        let (mut model, _) = model_of(&text);
        (0..model.forms().list.len() as u32).for_each(|entry| check_round_trip(&mut model, entry));
    }
}

/// All entries after random calls, and of texts that grow when their lets are replaced.
#[test]
fn round_trips_of_random_texts() {
    for seed in 400..440 {
        let mut model = Model::new();
        session(seed, 40).iter().for_each(|call| drop(model.call(call)));
        let mut rng = Rng::new(seed);
        for _ in 0..10 {
            let tokens = formula(&mut rng);
            for text in [join(&mut rng, &tokens), grown(&mut rng), pasted(&mut rng)] {
                model.call(&samples::edit(text));
            }
        }
        for entry in 0..model.forms().list.len() as u32 {
            check_round_trip(&mut model, entry);
        }
    }
}

/// Number 16 judges by levels too (02, T-05), where the names alone would be read as the form.
#[test]
fn levels_of_printed_functions() {
    for (text, place, expected) in [
        ("\\a -> a", 0, Ok("\\a -> a")),
        ("\\b -> \\a -> a", 0, Ok("\\b -> \\a -> a")),
        ("\\b -> \\a -> a", 1, Err(OTHER_FORM)),
        ("\\b -> \\a -> 1", 1, Err(OTHER_FORM)),
        ("\\b -> data.sumBy(\\a -> a)", 2, Err(OTHER_FORM)),
        ("let f = \\a -> a in \\b -> f", 3, Err(OTHER_FORM)),
        ("let f = \\a -> 1 in \\a -> f", 3, Err(OTHER_FORM)),
        ("let f = \\a -> a in data.sumBy(f)", 4, Ok("data.sumBy(\\a -> a)")),
        ("\\a -> let x = a in \\b -> x.add(b)", 0, Ok("\\a -> \\b -> a.add(b)")),
        ("\\a -> let x = a in \\a -> x.add(a)", 0, Err(OTHER_FORM)),
        ("\\a -> let x = a in \\a -> x", 0, Err(OTHER_FORM)),
        ("\\a -> let x = a in \\a -> a", 0, Ok("\\a -> \\a -> a")),
    ] {
        let mut model = opened(&RECORDING);
        let (_, _, places) = edited(&mut model, text);
        let expected = expected.map_or_else(refused, printed);
        assert_eq!(model.print(places[place], ROOM, true), expected, "{text} at {place}");
    }
}

/// What the lent bytes hold is no matter.
#[test]
fn contents_of_the_lent_bytes() {
    let (mut model, whole) = model_of("let x = 1 in x.add(x)");
    for byte in [0, b'1', b' ', 0xff] {
        let call =
            |room: usize| Call::Print { entry: whole, bytes: vec![byte; room], enough: true };
        assert_eq!(model.call(&call(8)), printed("1.add(1)"));
        assert_eq!(model.call(&call(7)), refused(TEXT_UNFIT));
        assert_eq!(model.call(&call(1024)), printed("1.add(1)"));
    }
}
