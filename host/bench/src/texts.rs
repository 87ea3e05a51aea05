//! Texts of 1,024 bytes and 128 parts, put together from tokens.

const BYTES: usize = 1024;

/// The tokens of a formula of 128 parts: ten lets, and a chain of calls over them.
fn formula(name: &dyn Fn(usize) -> String, number: &dyn Fn(usize) -> i64) -> Vec<String> {
    let mut text = String::new();
    for i in 0..10 {
        let (x, a, b) = (name(i), number(i), number(i + 1));
        text += &format!("let {x} = data . skip ( {a} ) . take ( {b} ) . ");
        text += &match i {
            0 => format!("countWhere ( \\ b -> b . gt ( {a} ) ) in "),
            _ => "sum ( ) in ".to_string(),
        };
    }
    text += &name(0);
    for i in 0..12 {
        let member = ["add", "sub", "mul", "div"][i % 4];
        text += &format!(" . {member} ( {} . add ( {} ) )", name(i % 10), number(i));
    }
    text += " . add ( data . count ( ) ) . add ( 5 )";
    text.split(' ').map(String::from).collect()
}

/// As one writes it: a blank beside a word, an `=` and an arrow.
pub fn dense() -> Vec<u8> {
    let tokens = formula(&|i| format!("speed{i:03}"), &|i| 100_000 + 7 * i as i64);
    let mut text = String::new();
    for token in tokens {
        let spaced = matches!(token.as_str(), "=" | "->" | "in");
        if spaced {
            text.push(' ');
        }
        text += &token;
        if spaced || token == "let" {
            text.push(' ');
        }
    }
    padded(text)
}

/// Short names and numbers, with a line break or blanks between all tokens.
pub fn spaced() -> Vec<u8> {
    let tokens = formula(&|i| format!("v{i}"), &|i| 7 * i as i64);
    let mut text = String::new();
    for token in tokens {
        text += &token;
        text += if token == "in" { "\r\n\t" } else { " " };
    }
    padded(text)
}

/// Names of eight bytes: 15 that are bound, each to another, and 43 in use as arguments.
pub fn names() -> Vec<u8> {
    let name = |i: usize| format!("speed{i:03}");
    let lets = (0..15).map(|i| format!("let {} = {} in ", name(i), name(i + 15)));
    let calls = (0..43).map(|i| format!(".add({})", name(i % 30)));
    padded(lets.collect::<String>() + &name(0) + &calls.collect::<String>())
}

/// Blanks behind, up to the most that a text may have.
fn padded(text: String) -> Vec<u8> {
    assert!(text.len() <= BYTES, "{} bytes", text.len());
    let mut bytes = text.into_bytes();
    bytes.resize(BYTES, b' ');
    bytes
}

/// Functions that hide one another, with a let between them.
pub fn hidden() -> Vec<u8> {
    br"data.sumBy(\a -> let x = a in data.sumBy(\a -> x.add(a)).add((\b -> b).sum()))".to_vec()
}

/// 16 open marks, each a call's bracket.
pub fn nested_calls() -> Vec<u8> {
    ("data.skip(".repeat(16) + "1" + &")".repeat(16)).into_bytes()
}

/// 16 open marks, each a call's bracket behind a receiver in brackets.
pub fn bracketed_receivers() -> Vec<u8> {
    ("(1).add(".repeat(16) + "1" + &")".repeat(16)).into_bytes()
}

/// The same with a 17th mark, which is refused.
pub fn one_mark_too_many() -> Vec<u8> {
    ("(1).add(".repeat(16) + "1.count(").into_bytes()
}

/// 16 open marks, each a let in the value of the one around it.
pub fn nested_lets() -> Vec<u8> {
    ("let x = ".repeat(16) + "1" + &" in x".repeat(16)).into_bytes()
}

/// 16 open marks, each a let in the body of the one around it.
pub fn lets_in_bodies() -> Vec<u8> {
    ("let x = 1 in ".repeat(16) + "x").into_bytes()
}

/// 16 open marks, each a bracket.
pub fn nested_brackets() -> Vec<u8> {
    ("(".repeat(16) + "1" + &")".repeat(16)).into_bytes()
}

/// A chain of as many calls as a text may have parts for.
pub fn long_chain() -> Vec<u8> {
    ("data".to_string() + &".sum()".repeat(127)).into_bytes()
}

/// The same, with 63 arguments.
pub fn long_chain_with_arguments() -> Vec<u8> {
    ("data".to_string() + &".skip(1)".repeat(63)).into_bytes()
}

/// 15 open marks around a chain of all the calls that are left, each with a 16th.
pub fn chain_in_calls() -> Vec<u8> {
    ("data.skip(".repeat(15) + "data" + &".sum()".repeat(97) + &")".repeat(15)).into_bytes()
}

/// 1,012 bytes: a chain of 63 calls with arguments of nine digits.
pub fn printed_chain() -> Vec<u8> {
    let calls: String = (0..63).map(|i| format!(".skip({})", 100_000_000 + i)).collect();
    format!("data{calls}").into_bytes()
}

/// 1,012 bytes without a digit to work out: a chain of 48 calls with the longest member, whose arguments are names of eight bytes.
pub fn printed_names() -> Vec<u8> {
    let calls: String = (0..48).map(|i| format!(".countWhere(speed{i:03})")).collect();
    format!("data{calls}").into_bytes()
}

/// 972 bytes: four arguments, each of 14 calls in one another's arguments, with numbers of ten digits.
pub fn printed_arguments() -> Vec<u8> {
    let nest = |i: usize| {
        let calls: String =
            (0..14).map(|k| format!("{}.sub(", 1_000_000_000 + 14 * i + k)).collect();
        format!(".add({calls}2000000000{})", ")".repeat(14))
    };
    ("data.count()".to_string() + &(0..4).map(nest).collect::<String>()).into_bytes()
}

/// 16 open marks, two of them functions and two the brackets around these.
pub fn bracketed_functions() -> Vec<u8> {
    let calls = "1.add(".repeat(11);
    format!(r"{calls}(\a -> (\b -> b.add(a)).sum()).sum(){}", ")".repeat(11)).into_bytes()
}

/// Lets that each double the one before, so often: in full the whole has two to this power of numbers.
pub fn doubled(times: usize) -> Vec<u8> {
    let mut text = "let d0 = 1 in ".to_string();
    for i in 1..=times {
        let last = i - 1;
        text += &format!("let d{i} = d{last}.add(d{last}) in ");
    }
    format!("{text}d{times}").into_bytes()
}

/// A chain of windows and figures over them, as it is typed.
pub fn windows_and_sums() -> String {
    let mut text = "data.skip(20).take(900).sum()".to_string();
    for i in 1..9 {
        let (start, length) = (100 * i, 7 * i + 50);
        text += &format!("\n.add(data.skip({start}).take({length}).sum().div({length}))");
    }
    text
}

/// A costly part first, and then more behind it.
pub fn with_nested() -> String {
    let text = r"data.sumBy(\p -> data.countWhere(\q -> q.gt(p))).div(data.count())
.add(data.countWhere(\b -> b.gt(150)).mul(3))
.sub(data.skip(100).take(500).sum().div(500))
.add(data.longestRun(\b -> b.gt(145)))
.mul(100).div(data.max().sub(data.min()))";
    text.to_string()
}

/// A run of a body with as many members of numbers as a text has parts for.
pub fn numbers_in_body() -> String {
    format!(r"data.sumBy(\b -> b{})", ".sub(1)".repeat(62))
}

/// A run of a body with 27 sums, least and greatest readings of windows that depend on the variable: the whole recording, all but one reading
/// and so on.
pub fn sums_in_body() -> String {
    let mut windows = "let w0 = data.take(b.mul(1024)) in ".to_string();
    let mut sums = "b".to_string();
    for i in 0..9 {
        if i > 0 {
            windows += &format!("let w{i} = w{}.skip(1) in ", i - 1);
        }
        sums += &format!(".sub(w{i}.sum()).sub(w{i}.min()).sub(w{i}.max())");
    }
    format!(r"data.sumBy(\b -> {windows}{sums})")
}

/// A run of a body with 29 best sums, as many as a text has parts for, of the whole recording by a window that depends on the variable. Their
/// lengths differ, so that they are 29 entries.
pub fn stretches_in_body() -> String {
    let sums: String = (1..=29).map(|w| format!(".sub(w.bestSum({w}))")).collect();
    format!(r"data.sumBy(\b -> let w = data.take(b.mul(1024)) in b{sums})")
}
