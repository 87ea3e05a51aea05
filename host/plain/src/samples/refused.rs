//! Texts refused under 5 to 12, each with its number and byte place.

use super::taken::{calls_on_one, nest, parts_127};

/// A refused text.
pub struct RefusedText {
    pub text: Vec<u8>,
    pub number: u8,
    pub place: u32,
}

fn refused(text: impl AsRef<[u8]>, number: u8, place: usize) -> RefusedText {
    RefusedText { text: text.as_ref().to_vec(), number, place: place as u32 }
}

fn list(rows: &[(&str, u8, usize)]) -> Vec<RefusedText> {
    rows.iter().map(|(text, number, place)| refused(text, *number, *place)).collect()
}

/// All refused texts.
pub fn refused_texts() -> Vec<RefusedText> {
    let lists = [
        table(),
        ends(),
        stray_bytes(),
        numbers(),
        words(),
        calls(),
        brackets(),
        names(),
        lambdas(),
        open_marks(),
        parts(),
        proved(),
    ];
    lists.into_iter().flatten().collect()
}

/// The small examples of 01's table, but for that of 11, which never occurs (02, T-05).
pub fn table() -> Vec<RefusedText> {
    let mut examples = list(&[
        ("data.", 5, 5),
        ("2147483648", 6, 0),
        ("heartrate", 7, 0),
        ("let data = 1 in 2", 8, 4),
        ("data.skip()", 9, 10),
        ("\\a -> \\b -> \\c -> 1", 10, 12),
    ]);
    examples.push(refused("(".repeat(17), 12, 16));
    examples
}

/// The end comes too early. Its place is the text's length, blanks included.
fn ends() -> Vec<RefusedText> {
    let mut early = list(&[
        ("", 5, 0),
        ("   ", 5, 3),
        ("\t\r\n", 5, 3),
        ("let", 5, 3),
        ("let x", 5, 5),
        ("let x =", 5, 7),
        ("let x = 1", 5, 9),
        ("let x = 1 ", 5, 10),
        ("let x = 1 in", 5, 12),
        ("let x = \\a -> a", 5, 15),
        ("\\", 5, 1),
        ("\\a", 5, 2),
        ("\\a ->", 5, 5),
        ("(", 5, 1),
        ("(1", 5, 2),
        ("(1).", 5, 4),
        ("data. ", 5, 6),
        ("data.count", 5, 10),
        ("data.count(", 5, 11),
        ("data.skip(", 5, 10),
        ("data.skip(1", 5, 11),
        ("data.skip(1\n", 5, 12),
    ]);
    early.push(refused(" ".repeat(1024), 5, 1024));
    early
}

/// Bytes that start no token, and tokens that are cut apart.
fn stray_bytes() -> Vec<RefusedText> {
    let mut stray = list(&[
        ("#", 5, 0),
        ("1#", 5, 1),
        ("a_b", 5, 1),
        ("-", 5, 0),
        ("- 1", 5, 0),
        ("--1", 5, 0),
        ("-a", 5, 0),
        ("1 - 2", 5, 2),
        ("\\a - > 1", 5, 3),
        ("\\a -\n> 1", 5, 3),
        ("\\a > 1", 5, 3),
        ("\\a -1", 5, 3),
        ("\\a --> 1", 5, 3),
        ("\\a ->> 1", 5, 5),
        ("->", 5, 0),
        ("1 -> 2", 5, 2),
        ("1\u{b}", 5, 1),
        ("1\u{c}", 5, 1),
        ("data.#", 5, 5),
        ("data.skip(#", 5, 10),
        ("data.count(#", 5, 11),
        ("let x = 1 in \"x\"", 5, 13),
        ("dat\u{e9}", 5, 3),
    ]);
    stray.push(refused(b"\0", 5, 0));
    stray.push(refused(b"1\0", 5, 1));
    stray.push(refused(b"1 \0 2", 5, 2));
    stray.push(refused(b"\xff", 5, 0));
    stray.push(refused(b"data\x80", 5, 4));
    stray.push(refused(b"data.\xe9()", 5, 5));
    stray.push(refused(b"\xc2\xa01", 5, 0));
    stray
}

/// Numbers out of range, and numbers where none can stand.
fn numbers() -> Vec<RefusedText> {
    let mut outside = list(&[
        ("-2147483649", 6, 0),
        ("02147483648", 6, 0),
        ("99999999999999999999999999999999", 6, 0),
        ("-99999999999999999999999999999999", 6, 0),
        (" 2147483648", 6, 1),
        ("let x = 2147483648 in heartrate", 6, 8),
        ("data.skip(2147483648)", 6, 10),
        ("data.count(2147483648)", 6, 11),
        ("data.count(-2147483649)", 6, 11),
        ("1 2", 5, 2),
        ("1 2147483648", 5, 2),
        ("1-2", 5, 1),
        ("x-1", 5, 1),
        ("12ab", 5, 2),
        ("0x10", 5, 1),
        (".5", 5, 0),
        ("1.5", 5, 2),
        ("1.2147483648", 5, 2),
        ("let 5 = 1 in 2", 5, 4),
        ("\\2147483648 -> 1", 5, 1),
    ]);
    outside.push(refused("9".repeat(1024), 6, 0));
    outside
}

/// `let` and `in` are never names or members; other words in wrong positions.
fn words() -> Vec<RefusedText> {
    list(&[
        ("in", 5, 0),
        ("1 in 2", 5, 2),
        ("data.let", 5, 5),
        ("data.let()", 5, 5),
        ("data.in()", 5, 5),
        ("let let = 1 in 2", 5, 4),
        ("let in = 1 in 2", 5, 4),
        ("\\in -> 1", 5, 1),
        ("\\let -> 1", 5, 1),
        ("let x y", 5, 6),
        ("let x -> 1", 5, 6),
        ("let x = in 1", 5, 8),
        ("let x = 1 in in", 5, 13),
        ("let x = 1 inx", 5, 10),
        ("let x = 1in2", 5, 9),
        ("\\x = 1", 5, 3),
        ("\\x y -> 1", 5, 3),
        ("\\ -> 1", 5, 2),
        ("a b", 5, 2),
        ("1 heartrate", 5, 2),
        ("let x heartrate", 5, 6),
        ("data let x = 1 in x", 5, 5),
        ("1.add(2) \\a -> a", 5, 9),
        ("let x = 1 in x in x", 5, 15),
        ("= 1", 5, 0),
    ])
}

/// Members, their arguments, and the commas and brackets around them.
fn calls() -> Vec<RefusedText> {
    list(&[
        ("data.data", 9, 5),
        ("data.foo()", 9, 5),
        ("data.foo", 9, 5),
        ("data.Count()", 9, 5),
        ("data.coun()", 9, 5),
        ("data.counts()", 9, 5),
        ("data.countwhere(1)", 9, 5),
        ("data.best(1)", 9, 5),
        ("data.bestsum(1)", 9, 5),
        ("data.bestSumm(1)", 9, 5),
        ("data.bestSu(1)", 9, 5),
        ("data.BestAt(1)", 9, 5),
        ("data.heartrates()", 9, 5),
        ("data.abcdefghijklmnopqrstuvwxyz", 9, 5),
        ("data. foo()", 9, 6),
        ("data..count()", 5, 5),
        ("data.(1)", 5, 5),
        ("data.count)", 5, 10),
        ("data.count.sum()", 5, 10),
        ("data.skip 1", 5, 10),
        ("data(1)", 5, 4),
        ("data.count()(1)", 5, 12),
        ("data.count())", 5, 12),
        ("data.count(1)", 9, 11),
        ("data.count(-1)", 9, 11),
        ("data.count(data)", 9, 11),
        ("data.count( x)", 9, 12),
        ("data.count(let", 9, 11),
        ("data.count(\\a", 9, 11),
        ("data.count((", 9, 11),
        ("data.count(heartrate)", 7, 11),
        ("data.count(,", 5, 11),
        ("data.count(=)", 5, 11),
        ("data.count(in", 5, 11),
        ("data.count(.", 5, 11),
        ("data.count(->", 5, 11),
        ("data.skip( )", 9, 11),
        ("data.skip(,1)", 5, 10),
        ("data.skip(1,2)", 9, 11),
        ("data.skip(1,)", 9, 11),
        ("data.skip(1,", 9, 11),
        ("data.skip(1.add(2),3)", 9, 18),
        ("data.skip(\\a -> 1, 2)", 9, 17),
        ("data.skip(let x = 1 in x, 2)", 9, 24),
        ("data.skip(let x = 1, 2)", 5, 19),
        ("data.skip(let x = 1)", 5, 19),
        ("data.skip(1 2)", 5, 12),
        ("data.skip(1 in", 5, 12),
        ("data.skip(data.count(),1)", 9, 22),
        ("1.add().foo()", 9, 6),
        ("data.bestSum", 5, 12),
        ("data.bestSum()", 9, 13),
        ("data.bestAt( )", 9, 13),
        ("data.bestAt(1,2)", 9, 13),
        ("data.bestSum(data.bestAt(1),2)", 9, 27),
    ])
}

/// Brackets and commas that do not match.
fn brackets() -> Vec<RefusedText> {
    list(&[
        ("()", 5, 1),
        (")", 5, 0),
        (",", 5, 0),
        ("1)", 5, 1),
        ("1,", 5, 1),
        ("1,2", 5, 1),
        ("(1,2)", 5, 2),
        ("((1)", 5, 4),
        ("((1)))", 5, 5),
        ("(1)(2)", 5, 3),
        ("(1)2", 5, 3),
        ("(let x = 1) in x", 5, 10),
        ("(\\a -> a", 5, 8),
        ("let x = (1 in x", 5, 11),
        ("let x = 1) in x", 5, 9),
        ("let x = 1, 2 in x", 5, 9),
        ("data.skip((1)", 5, 13),
        ("data.skip((1,2))", 5, 12),
        ("data.skip(())", 5, 11),
        ("data.skip((\\a -> 1, 2))", 5, 18),
    ])
}

/// Names that are too long, and `data` bound.
fn names() -> Vec<RefusedText> {
    list(&[
        ("let heartrate = 1 in 2", 7, 4),
        ("\\heartrate -> 1", 7, 1),
        ("abcdefgh1", 7, 0),
        ("1.add(heartrate)", 7, 6),
        ("heartrate.foo()", 7, 0),
        ("let x = heartrate in #", 7, 8),
        ("let x = 1 in heartrate", 7, 13),
        ("let let1 = 1 in letinletin", 7, 16),
        ("let data", 8, 4),
        ("\\data -> 1", 8, 1),
        ("\\a -> \\data -> 1", 8, 7),
        ("let x = 1 in let data = 2 in x", 8, 17),
        ("let datadatad = 1 in 2", 7, 4),
    ])
}

/// The third open lambda. A lambda of an outer one's name is none of these.
fn lambdas() -> Vec<RefusedText> {
    list(&[
        ("\\a -> \\b -> \\a -> 1", 10, 12),
        ("\\a -> \\b -> \\", 10, 12),
        ("\\a -> \\b -> data.sumBy(\\c -> 1)", 10, 23),
        ("\\a -> \\b -> data.count(\\c -> 1)", 9, 23),
        ("\\a -> let f = \\b -> \\c -> 1 in 2", 10, 20),
        ("\\a -> \\a -> \\a -> 1", 10, 12),
        ("\\a -> let f = \\a -> \\a -> a in 1", 10, 20),
        ("\\a -> \\a -> data.sumBy(\\a -> a)", 10, 23),
        ("\\a -> data.sumBy(\\a -> let a = \\a -> a in a)", 10, 31),
        ("\\a -> \\a 1", 5, 9),
        ("\\a -> \\a -> ", 5, 12),
        ("\\a -> (\\b -> b).add(\\b -> \\c -> 1)", 10, 26),
        ("\\abcdefgh -> \\abcdefgh -> heartrate", 7, 26),
        ("\\a -> \\heartrate -> 1", 7, 7),
    ])
}

/// The 17th open mark, alone and with other numbers at the same place.
fn open_marks() -> Vec<RefusedText> {
    let nest_14 = nest(14);
    let nest_15 = nest(15);
    let nest_16 = nest(16);
    vec![
        refused(format!("{nest_16}\\a -> 1"), 12, 16),
        refused(format!("{nest_16}let x = 1 in x"), 12, 16),
        refused(format!("{nest_16}data.count()"), 12, 26),
        refused(format!("{nest_16}data.skip(1)"), 12, 25),
        refused(format!("{nest_16}data.foo("), 9, 21),
        refused(format!("{nest_16})"), 5, 16),
        refused(format!("{nest_16}heartrate"), 7, 16),
        refused(format!("{nest_16}2147483648"), 6, 16),
        refused(format!("{nest_15}data.count(let x"), 9, 26),
        refused(format!("{nest_15}data.skip(let x"), 12, 25),
        refused(format!("{nest_15}data.skip((1))"), 12, 25),
        refused(format!("{nest_15}let x = (1) in x"), 12, 23),
        refused(format!("{nest_15}let x = 1 in (x)"), 12, 28),
        refused(format!("{nest_15}\\a -> (1)"), 12, 21),
        refused(format!("{nest_15}\\a -> \\a -> 1"), 12, 21),
        refused(format!("{nest_14}\\a -> \\b -> \\c -> 1"), 10, 26),
        refused(format!("{nest_14}\\a -> \\b -> (1)"), 12, 26),
        refused("let x = 1 in ".repeat(17), 12, 16 * 13),
        refused("let x = ".repeat(17), 12, 16 * 8),
        refused("1.add(".repeat(17), 12, 16 * 6 + 5),
        refused(format!("\\a -> let b = \\c -> a in {nest_14}("), 12, 39),
    ]
}

/// The 129th part, alone and with other numbers at the same place.
fn parts() -> Vec<RefusedText> {
    let calls_63 = parts_127();
    let end = calls_63.len();
    let lambdas = "\\a -> \\b -> ";
    // A call's dot and its number are two parts: 2 lambdas, 1 number, 62 calls are 127.
    let under_lambdas = format!("{lambdas}{}", calls_on_one(62));
    let deep = under_lambdas.len();
    vec![
        refused(format!("{calls_63}.add(1)"), 12, end + 5),
        refused(format!("{calls_63}.add(x)"), 12, end + 5),
        refused(format!("{calls_63}.add(data)"), 12, end + 5),
        refused(format!("{calls_63}.add(let x = 1 in x)"), 12, end + 5),
        refused(format!("{calls_63}.add(\\a -> a)"), 12, end + 5),
        refused(format!("{calls_63}.add((1))"), 12, end + 6),
        refused(format!("{calls_63}.add(heartrate)"), 7, end + 5),
        refused(format!("{calls_63}.add(2147483648)"), 6, end + 5),
        refused(format!("{calls_63}.add(in"), 5, end + 5),
        refused(format!("{calls_63}.add()"), 9, end + 5),
        refused(format!("{calls_63}.count(1)"), 9, end + 7),
        refused(format!("{calls_63}.count().count()"), 12, end + 8),
        refused(format!("{calls_63}.count()#"), 5, end + 8),
        refused(format!("\\a -> {calls_63}.count()"), 12, end + 6),
        refused(format!("{under_lambdas}.add(\\c -> c)"), 10, deep + 5),
        refused(format!("let x = {calls_63} in 1"), 12, end + 12),
        refused(format!("let x = {calls_63} in heartrate"), 7, end + 12),
        refused(format!("let x = {calls_63} in let data = 1 in 1"), 12, end + 12),
    ]
}

/// What `crates/grammar/proofs/Refusals.antt` and `crates/formulas/specs/Refusals.antt` proves of the definitions and no list above has.
fn proved() -> Vec<RefusedText> {
    let mut texts = list(&[
        ("data.count(=", 5, 11),
        ("data.count(2147483648", 6, 11),
        ("data.count(heartrate", 7, 11),
        ("data.count(\\a -> 1)", 9, 11),
        ("data.count((1))", 9, 11),
        ("data.count(let x = 1 in x)", 9, 11),
        ("data.skip(,", 5, 10),
        ("data.pace()", 9, 5),
        ("data.heartrate()", 9, 5),
        ("data.data()", 9, 5),
        ("let x 1 in 2", 5, 6),
        ("x -1", 5, 2),
        ("data.sum().", 5, 11),
        ("1.add(2))", 5, 8),
    ]);
    let fourteen = format!("\\a -> \\b -> {}", "(".repeat(14));
    texts.push(refused(format!("{fourteen}\\c -> 1"), 10, 26));
    texts.push(refused(format!("{fourteen}let c = 1 in 2"), 12, 26));
    texts.push(refused(format!("\\a -> 1{}.sum()", ".add(1)".repeat(63)), 12, 448));
    texts.push(refused(b"data\xc8", 5, 4));
    texts
}
