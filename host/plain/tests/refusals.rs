//! Refusals 5 to 12 with their places, and texts close to them that are taken.

mod common;

use common::opened;
use plain::model::Answer;
use plain::name::Name;
use plain::random::any_text;
use plain::random::rng::Rng;
use plain::refusal::{LAMBDA_NAME_REPEATED, Refusal};
use plain::samples::refused::{RefusedText, refused_texts, table};
use plain::samples::taken::taken_texts;
use plain::samples::{RECORDING, edit};
use plain::syntax::{Expression, parse};
use plain::token::tokens;
use std::collections::BTreeSet;

fn check(refused: &RefusedText) {
    let mut model = opened(&RECORDING);
    common::edited(&mut model, "data.sum()");
    let before = model.clone();
    let expected = Answer::Refused { number: refused.number, place: refused.place };
    let text = String::from_utf8_lossy(&refused.text).into_owned();
    assert_eq!(model.call(&edit(&refused.text)), expected, "{text}");
    assert_eq!(model, before, "{text}");
}

#[test]
fn examples_of_the_table() {
    let numbers: Vec<u8> = table().iter().map(|refused| refused.number).collect();
    assert_eq!(numbers, [5, 6, 7, 8, 9, 10, 12]);
    table().iter().for_each(check);
}

#[test]
fn hard_refusals() {
    refused_texts().iter().for_each(check);
}

#[test]
fn the_list_of_refusals_has_each_text_once() {
    let texts: BTreeSet<Vec<u8>> = refused_texts().into_iter().map(|row| row.text).collect();
    assert_eq!(texts.len(), refused_texts().len());
    assert!(texts.len() > 200, "{}", texts.len());
}

/// A refusal at a token depends on nothing behind the token. A blank keeps the token
/// apart from what is added.
#[test]
fn what_follows_the_refused_token_changes_nothing() {
    for refused in refused_texts() {
        let place = refused.place as usize;
        let behind = tokens(&refused.text).into_iter().find(|token| token.place > place);
        let Some(behind) = behind else {
            continue;
        };
        let expected = Refusal { number: refused.number, place };
        for rest in [" ", " #", " 2147483648", " heartrate (", " data.count()"] {
            let text = [&refused.text[..behind.place], rest.as_bytes()].concat();
            assert_eq!(parse(&text), Err(expected), "{}", String::from_utf8_lossy(&text));
        }
    }
}

#[test]
fn texts_at_the_limits_are_taken() {
    for taken in taken_texts() {
        let mut model = opened(&RECORDING);
        let text = String::from_utf8(taken.text).expect("the texts are ASCII");
        let (_, _, places) = common::edited(&mut model, &text);
        assert_eq!(places.len() as u32, taken.parts, "{text}");
    }
}

/// Whether a lambda stands within another of its name; `around` has those around.
fn has_hidden(expression: &Expression, around: &[Name]) -> bool {
    match expression {
        Expression::Lambda { name, body, .. } => {
            around.contains(name) || has_hidden(body, &[around, &[*name]].concat())
        }
        Expression::Let { value, body, .. } => {
            has_hidden(value, around) || has_hidden(body, around)
        }
        Expression::Call { operands, .. } => {
            operands.iter().any(|operand| has_hidden(operand, around))
        }
        Expression::Brackets(inner) => has_hidden(inner, around),
        Expression::Name { .. } | Expression::Number { .. } => false,
    }
}

/// Number 11 (02, T-05): no text is refused with it, though many have a lambda within another
/// of its name.
#[test]
fn number_11_never_occurs() {
    let mut rng = Rng::new(11);
    let mut hidden = 0;
    for _ in 0..40_000 {
        let text = any_text(&mut rng);
        match parse(&text) {
            Ok(text) => hidden += usize::from(has_hidden(&text.tree, &[])),
            Err(refusal) => assert_ne!(refusal.number, LAMBDA_NAME_REPEATED),
        }
    }
    assert!(hidden > 4000, "{hidden}");
    assert!(refused_texts().iter().all(|refused| refused.number != LAMBDA_NAME_REPEATED));
}
