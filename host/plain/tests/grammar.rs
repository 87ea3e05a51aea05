//! Number 5 against the grammar itself: an Earley recogniser, which knows nothing of
//! the parser, says at each token whether some grammatical text goes on with it.

use plain::random::formula::{formula, join};
use plain::random::{damage, rng::Rng};
use plain::refusal::UNGRAMMATICAL;
use plain::samples::refused::refused_texts;
use plain::samples::taken::taken_texts;
use plain::syntax::parse;
use plain::token::{Kind, Token, tokens};

/// The grammar of 01. Capitals are expression, chain, atom, list of arguments; `w` is
/// a word, `n` a number, `>` an arrow, `i` the word `in`, `$` the end.
const GRAMMAR: [(char, &str); 12] = [
    ('S', "E$"),
    ('E', "lw=EiE"),
    ('E', "\\w>E"),
    ('E', "C"),
    ('C', "A"),
    ('C', "C.w()"),
    ('C', "C.w(L)"),
    ('L', "E"),
    ('L', "L,E"),
    ('A', "w"),
    ('A', "n"),
    ('A', "(E)"),
];

/// A rule, how much of it has been seen, and the token index where it began.
type Item = (usize, usize, usize);

fn letter(kind: &Kind) -> char {
    match kind {
        Kind::Let => 'l',
        Kind::In => 'i',
        Kind::Word(_) => 'w',
        Kind::Number(_) => 'n',
        Kind::Backslash => '\\',
        Kind::Arrow => '>',
        Kind::Equals => '=',
        Kind::Dot => '.',
        Kind::Comma => ',',
        Kind::Open => '(',
        Kind::Close => ')',
        Kind::Stray(_) => '?',
        Kind::End => '$',
    }
}

fn awaited((rule, seen, _): Item) -> Option<char> {
    GRAMMAR[rule].1.chars().nth(seen)
}

/// Adds all items that follow from those in the last set. No rule is empty, so an
/// item that is complete began in an earlier set.
fn close(sets: &mut [Vec<Item>]) {
    let last = sets.len() - 1;
    let mut index = 0;
    while index < sets[last].len() {
        let item = sets[last][index];
        for found in consequences(sets, item) {
            if !sets[last].contains(&found) {
                sets[last].push(found);
            }
        }
        index += 1;
    }
}

fn consequences(sets: &[Vec<Item>], item: Item) -> Vec<Item> {
    let last = sets.len() - 1;
    match awaited(item) {
        Some(symbol) => {
            let rules = (0..GRAMMAR.len()).filter(|rule| GRAMMAR[*rule].0 == symbol);
            rules.map(|rule| (rule, 0, last)).collect()
        }
        None => {
            let symbol = GRAMMAR[item.0].0;
            let waiting = sets[item.2].iter().filter(|other| awaited(**other) == Some(symbol));
            waiting.map(|(rule, seen, begun)| (*rule, seen + 1, *begun)).collect()
        }
    }
}

/// The place of the first token with which no grammatical text goes on.
fn first_ungrammatical(tokens: &[Token]) -> Option<usize> {
    let mut sets: Vec<Vec<Item>> = vec![vec![(0, 0, 0)]];
    close(&mut sets);
    for token in tokens {
        let wanted = Some(letter(&token.kind));
        let last = &sets[sets.len() - 1];
        let moved = last.iter().filter(|item| awaited(**item) == wanted);
        let next: Vec<Item> = moved.map(|(rule, seen, begun)| (*rule, seen + 1, *begun)).collect();
        if next.is_empty() {
            return Some(token.place);
        }
        sets.push(next);
        close(&mut sets);
    }
    None
}

/// Number 5 stands where the grammar ends, and any other refusal not behind it.
fn check(text: &[u8]) {
    let expected = first_ungrammatical(&tokens(text));
    let shown = String::from_utf8_lossy(text);
    match parse(text) {
        Ok(_) => assert_eq!(expected, None, "{shown}"),
        Err(refusal) if refusal.number == UNGRAMMATICAL => {
            assert_eq!(expected, Some(refusal.place), "{shown}")
        }
        Err(refusal) => assert!(expected.is_none_or(|place| refusal.place < place), "{shown}"),
    }
}

#[test]
fn listed_texts_follow_the_grammar() {
    refused_texts().iter().for_each(|refused| check(&refused.text));
    taken_texts().iter().for_each(|taken| check(&taken.text));
}

#[test]
fn random_texts_follow_the_grammar() {
    let mut rng = Rng::new(5);
    for _ in 0..1500 {
        let tokens = formula(&mut rng);
        check(&join(&mut rng, &tokens));
        check(&damage::damaged(&mut rng, tokens));
        check(&damage::token_soup(&mut rng));
    }
}
