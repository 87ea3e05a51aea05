//! Texts at the limits of 01 that are taken, and the pieces they are made of.

/// A text that is taken, and its number of parts.
pub struct TakenText {
    pub text: Vec<u8>,
    pub parts: u32,
}

/// `count` opening brackets.
pub fn nest(count: usize) -> String {
    "(".repeat(count)
}

/// An atom in `count` pairs of brackets.
pub fn in_brackets(atom: &str, count: usize) -> String {
    format!("{}{atom}{}", nest(count), ")".repeat(count))
}

/// `calls` calls on the number 1: a chain of twice as many parts and one.
pub fn calls_on_one(calls: usize) -> String {
    format!("1{}", ".add(1)".repeat(calls))
}

/// A chain of 127 parts.
pub fn parts_127() -> String {
    calls_on_one(63)
}

/// A text of 128 parts and 128 forms. The forms of texts whose first numbers differ
/// by 64 or more are all different.
pub fn forms_128(first: usize) -> String {
    let calls: String = (first + 1..first + 64).map(|n| format!(".add({n})")).collect();
    format!("\\x -> {first}{calls}")
}

/// Lets that double a value so many times, and what stands behind them, with LAST for the
/// last let's name.
pub fn doubled(value: &str, times: usize, body: &str) -> String {
    let mut text = String::new();
    let mut last = value.to_string();
    for time in 0..times {
        let name = format!("d{time}");
        text += &format!("let {name} = {last}.add({last}) in ");
        last = name;
    }
    text + &body.replace("LAST", &last)
}

/// Runs `depth` deep in one another, from 2 on: each let's function runs the one before it, over
/// a window that depends on its own variable. docs/NESTING.md has the parts that it takes.
pub fn nested_runs(depth: usize) -> String {
    if depth == 2 {
        return r"data.sumBy(\a -> data.sumBy(\b -> a))".to_string();
    }
    let two = r"\a -> data.take(a).sumBy(\b -> data.take(b).sumBy(f))";
    let one = r"\a -> data.take(a).sumBy(f)";
    let mut text = r"let f = \a -> data.sumBy(\b -> a) in ".to_string();
    text += &format!("let f = {two} in ").repeat((depth - 3) / 2);
    text + &format!("data.sumBy({})", if depth.is_multiple_of(2) { two } else { one })
}

/// A value doubled so many times, each time by a let of four parts: 31 times in 125 parts, if
/// the value is one part. The lets stand in one another's values, ten of them at most; then the
/// text goes on in the body of a let around these.
pub fn doubled_deep(value: &str, times: usize) -> String {
    let in_values = |value: &str, times: usize| {
        (0..times).fold(value.to_string(), |text, _| format!("let x = {text} in x.add(x)"))
    };
    match times {
        ..=10 => in_values(value, times),
        _ => {
            let rest = doubled_deep("x.add(x)", times - 11);
            format!("let x = {} in {rest}", in_values(value, 10))
        }
    }
}

fn taken(text: impl AsRef<[u8]>, parts: u32) -> TakenText {
    TakenText { text: text.as_ref().to_vec(), parts }
}

/// Texts at or near a limit, or close to a refused one, that are taken.
pub fn taken_texts() -> Vec<TakenText> {
    let lists = [sizes(), open_marks(), names_and_scopes(), tokens()];
    lists.into_iter().flatten().collect()
}

fn sizes() -> Vec<TakenText> {
    vec![
        taken(format!("1{}", " ".repeat(1023)), 1),
        taken(format!("{}1", " ".repeat(1023)), 1),
        taken(format!("{}7", "0".repeat(1023)), 1),
        taken(parts_127(), 127),
        taken(format!("{}.count()", parts_127()), 128),
        taken(format!("\\a -> {}", parts_127()), 128),
        taken(format!("let x = {}.count() in x", calls_on_one(62)), 128),
        taken(forms_128(0), 128),
        taken("2147483647", 1),
        taken("-2147483648", 1),
        taken("-0", 1),
        taken("00000000000000000000000002147483647", 1),
    ]
}

/// Sixteen open marks, and marks that were closed before the next one opened.
fn open_marks() -> Vec<TakenText> {
    let deep = in_brackets("a", 15);
    vec![
        taken(in_brackets("1", 16), 1),
        taken(in_brackets("data.count()", 15), 2),
        taken(format!("{}1", "let x = 1 in ".repeat(16)), 33),
        taken(format!("{}1{}", "let x = ".repeat(16), " in x".repeat(16)), 33),
        taken(format!("{}1{}", "1.add(".repeat(16), ")".repeat(16)), 33),
        taken(format!("let a = {deep} in {deep}"), 3),
        taken(format!("{0}.add({0})", in_brackets("1", 15)), 3),
        taken(format!("(\\a -> {}).add({})", in_brackets("1", 14), in_brackets("1", 15)), 4),
        taken("\\a -> \\b -> ((((((((((((((1))))))))))))))", 3),
        taken(format!("let f = \\a -> \\b -> 1 in \\c -> {}", in_brackets("f", 14)), 6),
    ]
}

fn names_and_scopes() -> Vec<TakenText> {
    vec![
        taken("heartrat", 1),
        taken("let abcdefgh = 1 in abcdefgh", 3),
        taken("\\abcdefgh -> abcdefgh", 2),
        taken("let data5 = 1 in data5", 3),
        taken("let dat = 1 in Data", 3),
        taken("let count = data.count() in count", 4),
        taken("let bestSum = data.bestSum(1) in \\bestAt -> bestSum.add(bestAt)", 8),
        taken("let lets = 1 in inn", 3),
        taken("(\\a -> a).add(\\a -> a)", 5),
        taken("(\\a -> \\b -> a).add(\\b -> \\a -> b)", 7),
        taken("let f = \\a -> a in \\a -> f", 5),
        taken("let f = \\a -> \\b -> a in \\c -> \\d -> f", 7),
        taken("\\a -> let a = 1 in a", 4),
        taken("\\a -> let b = \\b -> a in \\b -> b", 6),
        taken("let a = \\a -> a in \\a -> a", 5),
        taken("data.sumBy(\\a -> 1).add(data.sumBy(\\a -> 2))", 9),
        taken("let a = a in a", 3),
        taken("\\a -> \\a -> 1", 3),
        taken("\\a -> let a = 1 in \\a -> a", 5),
        taken("\\a -> let f = \\a -> a in 1", 5),
        taken("\\a -> let x = a in \\a -> x.add(a)", 7),
        taken("\\a -> data.sumBy(\\a -> a)", 5),
        taken("\\a -> data.sumBy((\\a -> a))", 5),
        taken("\\abcdefgh -> \\abcdefgh -> 1", 3),
    ]
}

fn tokens() -> Vec<TakenText> {
    vec![
        taken("\t1\r\n", 1),
        taken("data . count ( )", 2),
        taken("data\n.\nskip\n(\n1\n)", 3),
        taken("1.add(-1)", 3),
        taken("-1.add(1)", 3),
        taken("let x=-1in-2", 3),
        taken("let x = 1in x", 3),
        taken("\\x->-1", 2),
        taken("\\x->x", 2),
        taken("(((1).add((2))).sub(3))", 5),
        taken("let a = let b = 1 in b in a", 5),
        taken("data.sumBy(let f = \\a -> a in f)", 6),
        taken("data.skip(\\a -> 1)", 4),
    ]
}
