//! Random texts near the limits of parts and open marks, and such as grow beyond them when
//! their lets are replaced.

use super::rng::Rng;

/// A long chain of calls with numbers that are seldom used elsewhere, near 128 parts.
/// A few of these fill the table.
pub fn wide(rng: &mut Rng) -> Vec<u8> {
    let calls = rng.pick(&[20, 40, 60, 62, 63, 64]);
    let mut text = String::from(rng.pick(&["", "\\x -> ", "\\x -> \\y -> "]));
    text += &rng.below(3000).to_string();
    for _ in 0..calls {
        let member = rng.pick(&["add", "sub", "gt", "eq"]);
        text += &format!(".{member}({})", rng.below(3000));
    }
    text += rng.pick(&["", "", ".count()"]);
    text.into_bytes()
}

/// Marks opened within each other, near 16 of them.
pub fn deep(rng: &mut Rng) -> Vec<u8> {
    let count = 13 + rng.below(6);
    let mut text = String::new();
    let mut ends = String::new();
    for _ in 0..count {
        let pairs = [("(", ")"), ("1.add(", ")"), ("let x = 1 in ", ""), ("let x = ", " in x")];
        let (start, end) = rng.pick(&pairs);
        text += start;
        ends.insert_str(0, end);
    }
    text += rng.pick(&["1", "x", "(1)", "\\a -> a", "data.count()"]);
    (text + &ends).into_bytes()
}

/// Values for a let that uses the one before it: twice or three times, deeper in calls, or
/// within a function.
const GROWTHS: [&str; 8] = [
    "LAST.add(LAST)",
    "LAST.add(LAST)",
    "LAST.sub(LAST).mul(LAST)",
    "LAST.add(-2147483648)",
    "1.add(2.sub(3.mul(LAST)))",
    "data.skip(LAST.at(1.add(LAST)))",
    "(\\a -> LAST).count()",
    "\\b -> LAST",
];

/// Lets that each use the one before them, so that the let-free form may have more bytes,
/// parts, open marks or open lambdas than a text.
pub fn grown(rng: &mut Rng) -> Vec<u8> {
    let is_even = rng.one_in(2);
    let count = 1 + rng.below(8);
    let mut text = String::from(rng.pick(&["", "", "\\x -> "]));
    let mut last = String::from(rng.pick(&["1", "x", "data.sum()", "-2147483648"]));
    for step in 0..count {
        let growth = if is_even { GROWTHS[0] } else { rng.pick(&GROWTHS) };
        text += &format!("let g{step} = {} in ", growth.replace("LAST", &last));
        last = format!("g{step}");
    }
    let body = rng.pick(&["LAST", "LAST", "LAST.count()", "LAST.add(1)", "\\a -> LAST"]);
    (text + &body.replace("LAST", &last)).into_bytes()
}
