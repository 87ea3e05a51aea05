//! Texts with what their parts print as (02, T-04), worked out by hand.

use super::taken::doubled;

/// What each part of a text prints as, or the number that it is turned away with, by place.
pub struct Prints {
    pub text: &'static str,
    pub parts: &'static [Result<&'static str, u8>],
}

/// Texts with what the whole prints as.
pub fn wholes() -> Vec<(&'static str, &'static str)> {
    [NUMBERS, CHAINS, FUNCTIONS, LETS].concat()
}

const NUMBERS: &[(&str, &str)] = &[
    ("7", "7"),
    ("0", "0"),
    ("-0", "0"),
    ("000", "0"),
    ("007", "7"),
    ("-007", "-7"),
    ("10", "10"),
    ("-100", "-100"),
    ("0123456789", "123456789"),
    ("999999999", "999999999"),
    ("1000000000", "1000000000"),
    ("2147483647", "2147483647"),
    ("-2147483647", "-2147483647"),
    ("-2147483648", "-2147483648"),
    ("-00000000000000002147483648", "-2147483648"),
];

/// Members on names, numbers and other members: no brackets, whatever the text has.
const CHAINS: &[(&str, &str)] = &[
    ("data", "data"),
    ("(heartrat)", "heartrat"),
    ("-7.div(2)", "-7.div(2)"),
    ("1.add(-1)", "1.add(-1)"),
    (" -0007 . div\t(\r\n-02 ) ", "-7.div(-2)"),
    ("((7)).add(((-0)))", "7.add(0)"),
    ("(((1).add((2))).sub(3))", "1.add(2).sub(3)"),
    ("1.add((2.sub((3.mul(4)))))", "1.add(2.sub(3.mul(4)))"),
    ("1.add(2).sub(3.add(4)).mul(5)", "1.add(2).sub(3.add(4)).mul(5)"),
    ("data.skip(1).take(2).count()", "data.skip(1).take(2).count()"),
    ("data.sum().div(data.count())", "data.sum().div(data.count())"),
    ("data.bestSum(3).sub(data.bestAt(3))", "data.bestSum(3).sub(data.bestAt(3))"),
    ("a.add(b).eq(abcdefgh)", "a.add(b).eq(abcdefgh)"),
];

/// Functions: in brackets where a member is asked of them, and nowhere else.
const FUNCTIONS: &[(&str, &str)] = &[
    ("\\a->a", "\\a -> a"),
    ("\\\ta\n->\r\n(a)", "\\a -> a"),
    ("\\a->-1", "\\a -> -1"),
    ("\\a -> \\b -> b.sub(a)", "\\a -> \\b -> b.sub(a)"),
    ("\\a -> (\\b -> (b.sub(a)))", "\\a -> \\b -> b.sub(a)"),
    ("\\a -> a.count()", "\\a -> a.count()"),
    ("(\\a -> a).count()", "(\\a -> a).count()"),
    ("((\\a -> (a))).count()", "(\\a -> a).count()"),
    ("(\\a -> a).count().add(1)", "(\\a -> a).count().add(1)"),
    ("(\\a -> a.count()).count()", "(\\a -> a.count()).count()"),
    ("(\\a -> a).add((\\a -> a))", "(\\a -> a).add(\\a -> a)"),
    ("(\\a -> (\\b -> b.add(a)).sum()).max()", "(\\a -> (\\b -> b.add(a)).sum()).max()"),
    ("(\\a -> \\b -> a).add(\\b -> \\a -> b)", "(\\a -> \\b -> a).add(\\b -> \\a -> b)"),
    ("\\a->\\a->a", "\\a -> \\a -> a"),
    ("\\a -> (\\a -> a).add(a)", "\\a -> (\\a -> a).add(a)"),
    ("data.sumBy(\\a -> data.sumBy(\\a -> a))", "data.sumBy(\\a -> data.sumBy(\\a -> a))"),
    ("data.sumBy((\\b -> b))", "data.sumBy(\\b -> b)"),
    (
        "data.sumBy(\\p -> data.countWhere(\\q -> q.gt(p)))",
        "data.sumBy(\\p -> data.countWhere(\\q -> q.gt(p)))",
    ),
    ("data.skip(\\a -> 1).longestRun(\\x1 -> y)", "data.skip(\\a -> 1).longestRun(\\x1 -> y)"),
    ("(\\b -> 1).add(b)", "(\\b -> 1).add(b)"),
];

/// What a let's name means stands in its place.
const LETS: &[(&str, &str)] = &[
    ("let x = 2 in data.skip(1).take(x)", "data.skip(1).take(2)"),
    ("let x = 0003 in data.skip(1).take(x)", "data.skip(1).take(3)"),
    ("let u = 1.div(0) in 6", "6"),
    ("let a = 1 in let b = 2 in b.sub(a)", "2.sub(1)"),
    ("let a = a in a.add(a)", "a.add(a)"),
    ("let a = let b = 1 in b.add(b) in a.mul(a)", "1.add(1).mul(1.add(1))"),
    ("let w = data.skip(1) in let w = w.take(2) in w.sum()", "data.skip(1).take(2).sum()"),
    ("(let x = 1 in x).add(let x = 2 in x)", "1.add(2)"),
    ("data.sumBy(let f = \\a -> a in f)", "data.sumBy(\\a -> a)"),
    ("let f = \\a -> a in f.count()", "(\\a -> a).count()"),
    ("let f = \\a -> a in f.add(f)", "(\\a -> a).add(\\a -> a)"),
    ("\\b -> let f = \\a -> a in f", "\\b -> \\a -> a"),
    ("\\a -> let f = \\a -> a in data.sumBy(f)", "\\a -> data.sumBy(\\a -> a)"),
    ("\\a -> let a = 1 in \\a -> a", "\\a -> \\a -> a"),
    ("\\a -> let x = a in \\b -> x.add(b)", "\\a -> \\b -> a.add(b)"),
    ("let f = \\a -> \\a -> a in f.add(f)", "(\\a -> \\a -> a).add(\\a -> \\a -> a)"),
    ("\\a -> let a = 3 in a", "\\a -> 3"),
    ("let y = b in \\a -> y", "\\a -> b"),
    (
        "let f = \\b -> b.gt(170) in data.take(60).countWhere(f).add(data.skip(180).countWhere(f))",
        "data.take(60).countWhere(\\b -> b.gt(170)).add(data.skip(180).countWhere(\\b -> b.gt(170)))",
    ),
    (
        "let mean = data.sum().div(data.count()) in data.countWhere(\\b -> b.gt(mean))",
        "data.countWhere(\\b -> b.gt(data.sum().div(data.count())))",
    ),
];

/// Parts of texts. One with a variable of a lambda around it is turned away with 16: by
/// itself the variable would be an unbound name. So is an unbound name under a lambda of
/// its spelling, which would be that lambda's variable. And so is a function that would be
/// read at another level than it was written at (02, T-05).
pub const PARTS: &[Prints] = &[
    Prints {
        text: "let x = 2 in data.skip(1).take(x)",
        parts: &[
            Ok("data.skip(1).take(2)"),
            Ok("2"),
            Ok("data"),
            Ok("data.skip(1)"),
            Ok("1"),
            Ok("data.skip(1).take(2)"),
            Ok("2"),
        ],
    },
    Prints { text: "\\a -> a.add(1)", parts: &[Ok("\\a -> a.add(1)"), Err(16), Err(16), Ok("1")] },
    // `a.add(1.div(0))` is missing rather than delayed. Its form decides, not what it shows.
    Prints {
        text: "\\a -> a.add(1.div(0))",
        parts: &[Ok("\\a -> a.add(1.div(0))"), Err(16), Err(16), Ok("1"), Ok("1.div(0)"), Ok("0")],
    },
    Prints {
        text: "data.sumBy(\\p -> data.countWhere(\\q -> q.gt(p)))",
        parts: &[
            Ok("data"),
            Ok("data.sumBy(\\p -> data.countWhere(\\q -> q.gt(p)))"),
            Ok("\\p -> data.countWhere(\\q -> q.gt(p))"),
            Ok("data"),
            Err(16),
            Err(16),
            Err(16),
            Err(16),
            Err(16),
        ],
    },
    Prints {
        text: "\\a -> data.countWhere(\\b -> b)",
        parts: &[Ok("\\a -> data.countWhere(\\b -> b)"), Ok("data"), Err(16), Err(16), Err(16)],
    },
    // The twin outside of any lambda is printed, and the one inside another is not.
    Prints {
        text: "data.sumBy(\\a -> a).add(data.sumBy(\\b -> data.sumBy(\\a -> a)))",
        parts: &[
            Ok("data"),
            Ok("data.sumBy(\\a -> a)"),
            Ok("\\a -> a"),
            Err(16),
            Ok("data.sumBy(\\a -> a).add(data.sumBy(\\b -> data.sumBy(\\a -> a)))"),
            Ok("data"),
            Ok("data.sumBy(\\b -> data.sumBy(\\a -> a))"),
            Ok("\\b -> data.sumBy(\\a -> a)"),
            Ok("data"),
            Err(16),
            Err(16),
            Err(16),
        ],
    },
    Prints { text: "\\a -> \\a -> a", parts: &[Ok("\\a -> \\a -> a"), Err(16), Err(16)] },
    Prints { text: "\\a -> \\a -> 1", parts: &[Ok("\\a -> \\a -> 1"), Err(16), Ok("1")] },
    // By itself the whole would be `\a -> \a -> a.add(a)`, which adds the inner a to itself.
    Prints {
        text: "\\a -> let x = a in \\a -> x.add(a)",
        parts: &[Err(16), Err(16), Err(16), Err(16), Err(16), Err(16), Err(16)],
    },
    // A function that was written outside of the lambda in which it is used, and one inside.
    Prints {
        text: "let f = \\a -> a in \\b -> f",
        parts: &[Err(16), Ok("\\a -> a"), Err(16), Err(16), Ok("\\a -> a")],
    },
    Prints {
        text: "\\b -> let f = \\a -> a in f",
        parts: &[Ok("\\b -> \\a -> a"), Err(16), Err(16), Err(16), Err(16)],
    },
    Prints {
        text: "let f = \\a -> a in \\b -> data.sumBy(f).add(data.sumBy(\\a -> a))",
        parts: &[
            Err(16),
            Ok("\\a -> a"),
            Err(16),
            Err(16),
            Ok("data"),
            Ok("data.sumBy(\\a -> a)"),
            Ok("\\a -> a"),
            Err(16),
            Ok("data"),
            Err(16),
            Err(16),
            Err(16),
        ],
    },
    Prints { text: "let y = x in \\x -> y", parts: &[Err(16), Ok("x"), Err(16), Ok("x")] },
    Prints {
        text: "let y = x in \\x -> y.add(x)",
        parts: &[Err(16), Ok("x"), Err(16), Ok("x"), Err(16), Err(16)],
    },
    Prints {
        text: "let y = x in (\\x -> y).add(\\z -> y)",
        parts: &[Err(16), Ok("x"), Err(16), Ok("x"), Err(16), Ok("\\z -> x"), Ok("x")],
    },
    // The function is printed as it stands in no other. In the one of its name it would be
    // read at another level.
    Prints {
        text: "let f = \\a -> a in \\a -> data.sumBy(f)",
        parts: &[
            Err(16),
            Ok("\\a -> a"),
            Err(16),
            Err(16),
            Ok("data"),
            Ok("data.sumBy(\\a -> a)"),
            Ok("\\a -> a"),
        ],
    },
    // The whole would have three lambdas open, and 15 comes before 16.
    Prints {
        text: "\\c -> let f = \\a -> c in data.take(c).sumBy(\\a -> data.sumBy(f))",
        parts: &[
            Err(15),
            Err(16),
            Err(16),
            Err(16),
            Ok("data"),
            Err(16),
            Err(16),
            Err(16),
            Err(16),
            Ok("data"),
            Err(16),
            Err(16),
        ],
    },
];

/// A text that prints with 1,018 bytes and `more` more, at most 8, in 127 parts: 64
/// numbers of ten digits, so many of them with a sign, and 63 calls.
pub fn of_bytes(more: usize) -> String {
    let (plus, minus) = (".add(p)".repeat(8 - more), ".add(m)".repeat(more));
    let sum = doubled("p", 5, &format!("LAST.add(d3).add(d2){plus}{minus}"));
    format!("let p = 1000000000 in let m = -1000000000 in {sum}")
}

/// A text that prints as a function's call within so many calls' brackets: two marks more
/// are open in it.
pub fn of_marks(calls: usize) -> String {
    format!("let f = (\\a -> a).count() in {}f{}", "1.add(".repeat(calls), ")".repeat(calls))
}

/// Texts whose whole is at a limit of a text when it is printed, each with its bytes.
pub fn printed_at_limits() -> Vec<(String, usize)> {
    vec![
        (of_bytes(5), 1023),
        (of_bytes(6), 1024),
        (doubled("1", 6, "LAST"), 64 + 63 * 6),
        (doubled("1", 6, "LAST.count()"), 64 + 63 * 6 + 8),
        (doubled("1", 6, "\\a -> LAST"), 64 + 63 * 6 + 6),
        (of_marks(13), 17 + 13 * 7),
        (of_marks(14), 17 + 14 * 7),
        ("let f = \\a -> \\b -> a in f.add(f)".into(), 34),
    ]
}

/// Texts whose whole is turned away with 15 however many bytes are lent, each with the
/// number with which the reader would decline what is printed.
pub fn declined() -> Vec<(String, u8)> {
    let sizes = [
        (of_bytes(7), 1),
        (doubled("-2147483648", 6, "LAST"), 1),
        (doubled("1", 15, "LAST"), 1),
        (doubled("1", 7, "LAST"), 12),
        (doubled("1", 6, "LAST.add(1)"), 12),
        (doubled("1", 6, "LAST.count().count()"), 12),
        (doubled("1", 6, "\\a -> \\b -> LAST"), 12),
        (of_marks(15), 12),
    ];
    let functions = [
        ("let f = \\a -> \\b -> a in \\a -> f", 10),
        ("let f = \\a -> \\a -> a in \\a -> f", 10),
        ("let f = \\a -> \\b -> a in \\b -> f", 10),
        ("let f = \\a -> \\b -> a in \\c -> f", 10),
        ("let f = \\a -> \\b -> a in (\\c -> f).count()", 10),
        ("let f = \\a -> 1 in \\b -> data.sumBy(\\a -> f)", 10),
    ];
    let functions = functions.map(|(text, number)| (text.to_string(), number));
    sizes.into_iter().chain(functions).collect()
}
