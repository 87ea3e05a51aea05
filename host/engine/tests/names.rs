//! Words that are spelled nearly alike, in use, bound and as members: two are one name exactly if their bytes are the same.

use engine::compare::Pair;
use engine::program::root;
use plain::member::Member;
use plain::model::Answer;
use plain::refusal::{DATA_BOUND, NAME_TOO_LONG, UNGRAMMATICAL, WRONG_CALL};
use plain::samples::{edit, open, print};
use std::collections::{BTreeMap, BTreeSet};

/// Bytes to put into words: each kind that a word may have, at both ends of its range.
const BYTES: &[u8] = b"AZaz09";

/// Words that have a meaning, and names about as long as a name, two of them packed, and two and a byte.
fn words() -> Vec<String> {
    let lengths = [1, 2, 3, 4, 7, 8, 9, 10, 15, 16, 17, 24];
    let names = lengths.map(|length| "abcdefghijklmnopqrstuvwxyz"[..length].to_string());
    let known = ["let", "in", "data"].map(String::from);
    let members = Member::all().map(|member| member.name().to_string());
    known.into_iter().chain(names).chain(members).collect()
}

/// The word with a byte changed, added or left out at each place, with other cases, and twice in a row.
fn near(word: &str) -> BTreeSet<String> {
    let mut list = BTreeSet::from([word.to_string(), word.repeat(2)]);
    list.extend([word.to_lowercase(), word.to_uppercase()]);
    for place in 0..=word.len() {
        let (before, after) = word.split_at(place);
        for byte in BYTES {
            let byte = char::from(*byte);
            list.insert(format!("{before}{byte}{after}"));
            if let Some(rest) = after.get(1..) {
                list.insert(format!("{before}{byte}{rest}"));
            }
        }
        if let Some(rest) = after.get(1..) {
            list.insert(format!("{before}{rest}"));
        }
    }
    list.retain(|word| word.starts_with(|first: char| first.is_ascii_alphabetic()));
    list
}

/// Texts in which the word stands alone, is bound, is bound beside the other one, and is a member.
fn texts(word: &str, other: &str) -> Vec<String> {
    vec![
        word.to_string(),
        format!("let {word} = 1 in {word}"),
        format!("\\{word} -> {word}"),
        format!("let {other} = 1 in {word}"),
        format!("\\{other} -> {word}"),
        format!("\\{other} -> \\{word} -> {other}.add({word})"),
        format!("data.{word}()"),
        format!("data.{word}(1)"),
    ]
}

#[test]
fn words_nearly_alike() {
    let mut refused = BTreeMap::new();
    let mut taken = 0;
    for (seed, word) in words().into_iter().enumerate() {
        let mut pair = Pair::new(seed as u64);
        for near in near(&word) {
            for text in texts(&near, &word) {
                pair.call(&open(&[1, 2, 3]));
                match pair.call_in(&edit(&text), || text.clone()) {
                    Answer::Edited { whole, .. } => {
                        pair.call_in(&print(whole, text.len()), || text.clone());
                        taken += 1;
                    }
                    Answer::Refused { number, .. } => *refused.entry(number).or_insert(0) += 1,
                    other => panic!("{text}: {other:?}"),
                }
                pair.check_state();
            }
        }
    }
    for number in [UNGRAMMATICAL, NAME_TOO_LONG, DATA_BOUND, WRONG_CALL] {
        assert!(refused.get(&number).is_some_and(|count| *count > 100), "{number}: {refused:?}");
    }
    assert!(taken > 1000, "{taken}");
}

/// Each member is found under its own name, and only there.
#[test]
fn members_by_their_bytes() {
    let mut found = BTreeSet::new();
    let all: BTreeSet<String> = words().iter().flat_map(|word| near(word)).collect();
    for word in &all {
        let mut pair = Pair::new(0);
        pair.call(&open(&[1]));
        for arguments in ["", "1"] {
            if let Answer::Edited { .. } = pair.call(&edit(format!("data.{word}({arguments})"))) {
                found.insert(word.as_str());
            }
        }
    }
    assert_eq!(found, Member::all().map(|member| member.name()).collect());
}

/// The crates that read a text declare no array of bytes and write none out: a word is read where it stands.
#[test]
fn no_array_of_bytes() {
    let mut sources = 0;
    for name in ["language", "members", "lexer", "steps", "reader"] {
        let folder = root().join("crates").join(name).join("src");
        for entry in std::fs::read_dir(&folder).expect("the crate has sources") {
            let path = entry.expect("a file").path();
            let text = std::fs::read_to_string(&path).expect("the source is text");
            let code: String =
                text.lines().map(|line| line.split("//").next().unwrap_or("")).collect();
            for array in ["u8;", "b\"", "[b'"] {
                assert!(!code.contains(array), "{}: {array}", path.display());
            }
            sources += 1;
        }
    }
    assert!(sources > 10, "{sources}");
}
