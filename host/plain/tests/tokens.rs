//! Tokens and their places.

use plain::token::{Kind, tokens};

fn check(text: &str, expected: &[(Kind, usize)]) {
    let found: Vec<(Kind, usize)> =
        tokens(text.as_bytes()).into_iter().map(|token| (token.kind, token.place)).collect();
    assert_eq!(found, expected, "{text}");
}

fn word(letters: &str) -> Kind {
    Kind::Word(letters.into())
}

fn number(value: i32) -> Kind {
    Kind::Number(Some(value))
}

#[test]
fn words_are_longest_first() {
    check(
        "let letx xlet",
        &[(Kind::Let, 0), (word("letx"), 4), (word("xlet"), 9), (Kind::End, 13)],
    );
    check("in inn", &[(Kind::In, 0), (word("inn"), 3), (Kind::End, 6)]);
    check("Let a1B2", &[(word("Let"), 0), (word("a1B2"), 4), (Kind::End, 8)]);
    check("1in 2", &[(number(1), 0), (Kind::In, 1), (number(2), 4), (Kind::End, 5)]);
}

#[test]
fn numbers_have_a_sign_directly_before_them_or_none() {
    check("-0", &[(number(0), 0), (Kind::End, 2)]);
    check("00-012", &[(number(0), 0), (number(-12), 2), (Kind::End, 6)]);
    check("- 1", &[(Kind::Stray(b'-'), 0), (number(1), 2), (Kind::End, 3)]);
    check("-2147483648", &[(number(i32::MIN), 0), (Kind::End, 11)]);
    check("-2147483649", &[(Kind::Number(None), 0), (Kind::End, 11)]);
    check("2147483647", &[(number(i32::MAX), 0), (Kind::End, 10)]);
    check("2147483648", &[(Kind::Number(None), 0), (Kind::End, 10)]);
    check("18446744073709551617", &[(Kind::Number(None), 0), (Kind::End, 20)]);
}

#[test]
fn arrows_and_lone_minus_signs() {
    check("->-1", &[(Kind::Arrow, 0), (number(-1), 2), (Kind::End, 4)]);
    check("-->", &[(Kind::Stray(b'-'), 0), (Kind::Arrow, 1), (Kind::End, 3)]);
    check("->>", &[(Kind::Arrow, 0), (Kind::Stray(b'>'), 2), (Kind::End, 3)]);
}

#[test]
fn blanks_are_space_tab_cr_lf() {
    check(" \t\r\n=\r\n", &[(Kind::Equals, 4), (Kind::End, 7)]);
    check("\u{b}", &[(Kind::Stray(11), 0), (Kind::End, 1)]);
    check("\u{a0}", &[(Kind::Stray(0xc2), 0), (Kind::Stray(0xa0), 1), (Kind::End, 2)]);
}
