//! Texts with what each of their parts shows over the recording of the samples, by place
//! (02, T-07), worked out by hand.

use crate::shown::Shown;

/// What is shown, in short: `780` is a number, `1+4` a window from 1 of length 4, `\x` a
/// function, `x` or `x&a` what waits for these names, and `!3` missing for reason 3.
pub fn short(shown: &Shown) -> String {
    match shown {
        Shown::Number(value) => value.to_string(),
        Shown::Window(window) => format!("{}+{}", window.start, window.length),
        Shown::Function(name) => format!("\\{name:?}"),
        Shown::Delayed(names) => names.iter().map(|name| name.word()).collect::<Vec<_>>().join("&"),
        Shown::Missing(reason) => format!("!{reason}"),
    }
}

/// All texts, each with what its parts show, in short.
pub fn evaluated() -> Vec<(&'static str, &'static str)> {
    [WINDOWS, AWAITED, BODIES, OWN, LEVELS, HANDED_OUT, UNUSED].concat()
}

const WINDOWS: &[(&str, &str)] = &[
    ("data", "0+5"),
    ("let w = data.skip(1) in w.take(w.count().sub(2))", "1+2 0+5 1+4 1 1+4 1+2 1+4 4 2 2"),
];

/// Names by first occurrence in the let-free form. A missing dependency comes before a delay.
const AWAITED: &[(&str, &str)] = &[
    (r"\a -> \b -> b.sub(a)", r"\a a b b&a a"),
    (r"\a -> \b -> let x = b in let y = a in y.sub(x)", r"\a a a&b b a&b a a a&b b"),
    (
        r"let f = \c -> c in \a -> \b -> data.skip(b).take(a).sumBy(f)",
        r"\a \c c \a a 0+5 b b b&a a b&a \c",
    ),
    (r"\a -> a.add(y)", "!1 a !1 !1"),
    (r"\a -> a.add(1.div(0)).add(y)", "!3 a !3 1 !3 0 !3 !1"),
];

/// A function with a missing body is missing, even if never run. If its body only gives no
/// number, the run is missing.
const BODIES: &[(&str, &str)] = &[
    (r"data.take(0).countWhere(\b -> 1.div(0))", "0+5 0+0 0 !3 !3 1 !3 0"),
    (r"data.take(0).countWhere(\b -> b.div(0))", r"0+5 0+0 0 0 \b b b 0"),
    (r"let f = \a -> y in data.countWhere(f)", "!1 !1 !1 0+5 !1 !1"),
    (r"data.countWhere(\b -> data)", r"0+5 !2 \b 0+5"),
    (r"data.take(0).sumBy(\b -> data)", r"0+5 0+0 0 0 \b 0+5"),
    (r"data.sumBy(\b -> 1.div(b.sub(160)))", r"0+5 !3 \b 1 b b b 160"),
];

/// A run puts nothing for a function's own variable inside it, also where a let puts the
/// function there and both variables have one name and level.
const OWN: &[(&str, &str)] = &[
    (r"data.sumBy(\a -> data.sumBy(\a -> a).add(a))", r"0+5 4530 \a 0+5 755 \a a a a"),
    (
        r"let f = \a -> a in data.sumBy(\a -> data.take(2).sumBy(f).add(a))",
        r"2215 \a a 0+5 2215 \a 0+5 0+2 2 292 \a a a",
    ),
    (
        r"let f = \a -> data.countWhere(\b -> b.gt(a)) in
          data.sumBy(\a -> data.take(a.eq(152).add(1)).sumBy(f))",
        r"22 \a 0+5 a a b b&a a 0+5 22 \a 0+5 a a a 152 a 1 a \a",
    ),
    (
        r"let f = \a -> a.mul(2) in
          data.sumBy(\a -> data.sumBy(\b -> data.take(b.eq(0).add(1)).sumBy(f).add(a).add(b.mul(2))))",
        r"18325 \a a a 2 0+5 18325 \a 0+5 a a 0+5 b b b 0 b 1 b \a b&a a b&a b b 2",
    ),
];

/// Two variables of one name (02, T-05).
const LEVELS: &[(&str, &str)] = &[
    (r"\a -> let x = a in \a -> x.add(a)", r"\a a a a a a&a a"),
    (
        r"data.sumBy(\a -> let x = a in data.sumBy(\a -> x.mul(2).sub(a)))",
        r"0+5 3775 \a a a 0+5 a a a a 2 a&a a",
    ),
    (r"\b -> data.sumBy(\a -> a)", r"\b 0+5 755 \a a"),
];

/// Functions that a let hands out of its scope, and a name that no scope takes in.
const HANDED_OUT: &[(&str, &str)] = &[
    (r"data.sumBy(let a = 5 in \x -> x.add(a))", r"0+5 780 \x 5 \x x x 5"),
    (
        r"let f = (let a = 5 in \x -> x.add(a)) in let a = 7 in data.sumBy(f).add(a)",
        r"787 \x 5 \x x x 5 787 7 0+5 780 \x 787 7",
    ),
    (
        r"data.sumBy(\a -> data.take(1).sumBy(let k = a in \x -> x.sub(k)))",
        r"0+5 -55 \a 0+5 0+1 1 a a a a x x&a a",
    ),
    (r"let y = b in \b -> y.add(b)", "!1 !1 !1 !1 !1 b"),
];

/// What an unused let stands for may be missing or delayed: nothing else is by that.
const UNUSED: &[(&str, &str)] = &[
    ("let u = 1.div(0) in 6", "6 1 !3 0 6"),
    (r"data.sumBy(\x -> let u = 1.div(0) in x)", r"0+5 755 \x x 1 !3 0 x"),
    (r"let u = nobody in data.countWhere(\x -> let v = u in 1)", r"5 !1 0+5 5 \x 1 !1 1"),
    (r"\x -> let u = x in 7", r"\x 7 x 7"),
    (r"let u = 1.div(0) in data.take(0).sumBy(\x -> u)", "!3 1 !3 0 0+5 0+0 0 !3 !3 !3"),
];
