//! Entries and their numbers: equal forms, hiding, unbound names, order of new entries.

mod common;

use common::{edited, name, opened, variable};
use plain::form::Form;
use plain::member::Member;
use plain::model::Model;
use plain::name::Name;
use plain::samples::RECORDING;

fn member(word: &str, operands: &[usize]) -> Form {
    Form::Member(Member::named(word).expect("a member"), operands.to_vec())
}

fn check_places(text: &str, new: u32, places: &[u32]) {
    let mut model = opened(&RECORDING);
    let (whole, found_new, found) = edited(&mut model, text);
    assert_eq!((found_new, found.as_slice()), (new, places), "{text}");
    assert!(places.contains(&whole), "{text}");
}

/// The whole text's entry in a model that keeps its entries.
fn whole(model: &mut Model, text: &str) -> u32 {
    edited(model, text).0
}

#[test]
fn forms_are_numbered_in_the_order_of_binding() {
    let mut model = opened(&RECORDING);
    edited(&mut model, "let x = 2 in data.sumBy(\\b -> y.sub(b).add(x))");
    let expected = [
        Form::Number(2),
        Form::Data,
        Form::Unbound(name("y")),
        Form::Variable(variable("b", 0)),
        member("sub", &[2, 3]),
        member("add", &[4, 0]),
        Form::Function(variable("b", 0), 5),
        member("sumBy", &[1, 6]),
    ];
    assert_eq!(model.forms().list, expected);
}

#[test]
fn places_are_in_the_order_of_marks() {
    check_places("7", 1, &[0]);
    check_places("((7))", 1, &[0]);
    check_places("1.add(1)", 2, &[0, 1, 0]);
    check_places("1.sub(2).add(2.sub(1))", 5, &[0, 2, 1, 4, 1, 3, 0]);
    check_places("\\a -> \\b -> b.sub(a)", 5, &[4, 3, 0, 2, 1]);
    check_places("\\a -> 1", 2, &[1, 0]);
    check_places("let a = 1 in let b = 2 in b.sub(a)", 3, &[2, 0, 2, 1, 1, 2, 0]);
    check_places("let a = let b = 1 in b in a", 1, &[0, 0, 0, 0, 0]);
    check_places("let u = 8 in 9", 2, &[1, 0, 1]);
    check_places("(let a = 1 in a).add(a)", 3, &[0, 0, 0, 2, 1]);
}

#[test]
fn equal_forms_have_one_entry_whatever_their_lets_and_blanks() {
    let mut model = opened(&RECORDING);
    let plain = whole(&mut model, "data.skip(1).take(2)");
    let before = model.forms().list.len();
    for text in [
        "let x = 1 in data.skip(x).take(2)",
        "let w = data.skip(1) in w.take(2)",
        "let t = 2 in let w = (data) in (w.skip(01)).take((t))",
        "let data1 = data in data1 . skip ( 1 ) . take ( 2 )",
        "let x = data.skip(1).take(2) in let y = x in y",
        "let x = 1 in let x = data.skip(x) in x.take(2)",
    ] {
        assert_eq!(whole(&mut model, text), plain, "{text}");
    }
    assert_eq!(model.forms().list.len(), before);
}

#[test]
fn unequal_forms_have_two_entries() {
    let texts = [
        "1.sub(2)",
        "2.sub(1)",
        "2.add(1)",
        "1.add(2)",
        "\\a -> a",
        "\\b -> b",
        "\\a -> b",
        "\\b -> a",
        "\\a -> \\b -> a",
        "\\a -> \\b -> b",
        "data.take(1).skip(2)",
        "data.skip(2).take(1)",
        "a",
        "A",
        "a1",
        "abcdefgh",
        "abcdefgi",
        "abcdefg",
        "bbcdefgh",
        "data",
        "data.count()",
        "data.sum()",
        "0",
        "-1",
    ];
    let mut model = opened(&RECORDING);
    let mut entries: Vec<u32> = texts.iter().map(|text| whole(&mut model, text)).collect();
    entries.sort();
    entries.dedup();
    assert_eq!(entries.len(), texts.len());
}

#[test]
fn names_keep_their_spelling() {
    for word in ["a", "x1", "abcdefg", "abcdefgh", "ABCDEFG8"] {
        assert_eq!(name(word).word(), word);
    }
    assert_eq!(Name::new("abcdefgh9"), None);
}

#[test]
fn numbers_are_equal_by_value() {
    let mut model = opened(&RECORDING);
    assert_eq!(edited(&mut model, "0.add(-0).add(000).add(-00)").2, [0, 1, 0, 2, 0, 3, 0]);
}

#[test]
fn an_unbound_name_is_no_lambda_variable() {
    let mut model = opened(&RECORDING);
    assert_eq!(edited(&mut model, "let y = b in \\b -> y.add(b)").2, [3, 0, 3, 0, 2, 1]);
    assert_eq!(model.forms().list[0], Form::Unbound(name("b")));
    assert_eq!(model.forms().list[1], Form::Variable(variable("b", 0)));
    assert_eq!(edited(&mut model, "b").2, [0]);
    assert_eq!(edited(&mut model, "(\\b -> 1).add(b)").2[3], 0);
}

#[test]
fn let_is_not_recursive() {
    let mut model = opened(&RECORDING);
    edited(&mut model, "let a = a in a");
    assert_eq!(model.forms().list, [Form::Unbound(name("a"))]);
    edited(&mut model, "let a = 1 in let a = a.add(a) in a");
    assert_eq!(model.forms().list[2], member("add", &[1, 1]));
}

#[test]
fn the_inner_binding_hides_the_outer_one() {
    let mut model = opened(&RECORDING);
    let three = whole(&mut model, "3");
    assert_eq!(whole(&mut model, "let a = 1 in let a = 3 in a"), three);
    assert_eq!(
        whole(&mut model, "let a = 3 in (let a = 1 in a).eq(a)"),
        whole(&mut model, "1.eq(3)")
    );
    let constant = whole(&mut model, "\\a -> 3");
    assert_eq!(whole(&mut model, "\\a -> let a = 3 in a"), constant);
    let identity = whole(&mut model, "\\a -> a");
    assert_eq!(whole(&mut model, "let a = 3 in \\a -> a"), identity);
    assert_eq!(whole(&mut model, "let a = \\a -> a in a"), identity);
}

/// A lambda that a let puts under another lambda of its name keeps its own variable.
#[test]
fn lets_may_put_a_lambda_under_its_twin() {
    let mut model = opened(&RECORDING);
    edited(&mut model, "let f = \\a -> a in \\a -> f");
    let own = variable("a", 0);
    let expected = [Form::Variable(own), Form::Function(own, 0), Form::Function(own, 1)];
    assert_eq!(model.forms().list, expected);
}

/// A level is the count of lambdas written around a lambda (02, T-05), so a function inside
/// another is not the entry of its twin outside of any.
#[test]
fn a_function_inside_another_is_not_its_twin() {
    let mut model = opened(&RECORDING);
    edited(&mut model, "data.sumBy(\\a -> a)");
    edited(&mut model, "\\b -> data.sumBy(\\a -> a)");
    let expected = [
        Form::Data,
        Form::Variable(variable("a", 0)),
        Form::Function(variable("a", 0), 1),
        member("sumBy", &[0, 2]),
        Form::Variable(variable("a", 1)),
        Form::Function(variable("a", 1), 4),
        member("sumBy", &[0, 5]),
        Form::Function(variable("b", 0), 6),
    ];
    assert_eq!(model.forms().list, expected);
    let inner = whole(&mut model, "\\b -> \\a -> a");
    assert_eq!(model.form(inner), Some(&Form::Function(variable("b", 0), 5)));
    let mut entries = |text: &str, place: usize| edited(&mut model, text).2[place];
    for text in ["\\c -> \\a -> a", "\\a -> \\a -> a", "\\c -> (\\a -> a).add(1)"] {
        assert_eq!(entries(text, 1), 5, "{text}");
    }
    for text in ["\\a -> a", "(\\a -> a).add(1)", "let x = \\a -> a in x"] {
        assert!(edited(&mut model, text).2.contains(&2), "{text}");
    }
}

/// Brackets, calls and lets around a lambda do not count.
#[test]
fn only_lambdas_around_a_lambda_count() {
    let mut model = opened(&RECORDING);
    let outer = whole(&mut model, "\\a -> a");
    for (text, place) in [
        ("((\\a -> a))", 0),
        ("let x = 1 in let y = 2 in \\a -> a", 4),
        ("data.sumBy(data.sumBy(\\a -> a))", 4),
        ("(\\b -> 1).add(\\a -> a)", 3),
        ("let f = \\b -> 1 in \\a -> a", 3),
    ] {
        assert_eq!(edited(&mut model, text).2[place], outer, "{text}");
    }
}

/// A let's value has the levels of the place where it is written, wherever its name is used.
#[test]
fn a_value_has_the_levels_of_where_it_is_written() {
    let mut model = opened(&RECORDING);
    let outer = whole(&mut model, "\\a -> a");
    let inner = edited(&mut model, "\\b -> \\a -> a").2[1];
    assert_ne!(outer, inner);
    assert_eq!(edited(&mut model, "let f = \\a -> a in \\b -> f").2[4], outer);
    assert_eq!(edited(&mut model, "let f = \\a -> a in \\b -> let g = f in g").2[6], outer);
    assert_eq!(edited(&mut model, "\\b -> let f = \\a -> a in f").2[4], inner);
    let both = edited(&mut model, "let f = \\a -> a in \\b -> f.eq(\\a -> a)").2;
    assert_eq!((both[4], both[6]), (outer, inner));
}

/// Each name in use is the innermost lambda's of that name, or what a let between them means.
#[test]
fn an_inner_lambda_hides_an_outer_one() {
    let mut model = opened(&RECORDING);
    edited(&mut model, "\\a -> let x = a in \\a -> x.add(a)");
    let (outer, inner) = (variable("a", 0), variable("a", 1));
    let expected = [
        Form::Variable(outer),
        Form::Variable(inner),
        member("add", &[0, 1]),
        Form::Function(inner, 2),
        Form::Function(outer, 3),
    ];
    assert_eq!(model.forms().list, expected);
    assert_eq!(edited(&mut model, "\\a -> (\\a -> a).add(a)").2[2..], [1, 6, 0]);
    assert_eq!(edited(&mut model, "\\a -> let a = a in \\b -> a").2[4], 0);
    assert_eq!(edited(&mut model, "\\a -> let a = 1 in \\a -> a").2[4], 1);
    assert_eq!(edited(&mut model, "\\a -> \\a -> let a = a in a").2[4], 1);
}
