//! The formulas that are measured, in the engine's language and as one would write them in Lua by hand.

use crate::stretches::WIDTHS;
use crate::texts;

pub struct Formula {
    pub name: String,
    pub text: String,
    pub lua: String,
}

fn formula(name: &str, text: &str, lua: &str) -> Formula {
    let [name, text, lua] = [name, text, lua].map(String::from);
    Formula { name, text, lua }
}

pub fn windows(x: i32) -> Formula {
    formula(
        "two windows",
        &format!("let x = {x} in data.skip(1).take(x)"),
        &format!("local x = {x} return take(skip(data, 1), x)"),
    )
}

pub fn sum() -> Formula {
    formula("sum", "data.sum()", "return sum(data)")
}

/// The best stretch of so many readings.
pub fn best_sum(w: i32) -> Formula {
    formula(
        &format!("bestSum of {w}"),
        &format!("data.bestSum({w})"),
        &format!("return bestSum(data, {w})"),
    )
}

pub fn count_where() -> Formula {
    formula(
        "countWhere",
        r"data.countWhere(\b -> b.gt(150))",
        "return countWhere(data, function(b) return b > 150 end)",
    )
}

pub fn longest_run() -> Formula {
    formula(
        "longestRun",
        r"data.longestRun(\b -> b.gt(145))",
        "return longestRun(data, function(b) return b > 145 end)",
    )
}

pub fn nested_sum() -> Formula {
    formula(
        "nested sum",
        r"data.sumBy(\p -> data.countWhere(\q -> q.gt(p)))",
        "return sumBy(data, function(p) return countWhere(data, function(q) return q > p end) end)",
    )
}

/// The mean square of the distance from the mean.
pub fn variance() -> Formula {
    formula(
        "variance",
        r"let m = data.sum().div(data.count()) in
data.sumBy(\b -> b.sub(m).mul(b.sub(m))).div(data.count())",
        "local m = div(sum(data), count(data))
return div(sumBy(data, function(b) return (b - m) * (b - m) end), count(data))",
    )
}

/// An effort by zones of the heart rate. Twenty members of the body depend on its variable.
pub fn twenty_members() -> Formula {
    formula(
        "twenty members",
        r"data.sumBy(\b -> b.sub(90).mul(b.gt(110))
    .add(b.sub(130).mul(b.gt(130)).mul(2))
    .add(b.sub(150).mul(b.gt(150)).mul(3))
    .sub(b.eq(190).mul(50)).mul(b).div(180).add(b.gt(170)))",
        "return sumBy(data, function(b)
  local effort = b > 110 and b - 90 or 0
  if b > 130 then effort = effort + (b - 130) * 2 end
  if b > 150 then effort = effort + (b - 150) * 3 end
  if b == 190 then effort = effort - 50 end
  return div(effort * b, 180) + (b > 170 and 1 or 0)
end)",
    )
}

/// Forty windows of windows, and the sum of the last.
pub fn chain() -> Formula {
    let (mut text, mut lua) = ("data".to_string(), "data".to_string());
    for i in 0..20 {
        let length = 1_000 - 10 * i;
        let blank = if i % 5 == 4 { "\n    " } else { "" };
        text += &format!("{blank}.skip(1).take({length})");
        lua = format!("take(skip({lua}, 1), {length})");
    }
    formula("chain of windows", &(text + ".sum()"), &format!("return sum({lua})"))
}

/// Twelve lets, most of them used more than once. The first constant changes nearly all of them, the last one none.
pub fn shared(first: i32, last: i32) -> Formula {
    let text = r"let w = data.skip(FIRST).take(900) in
let n = w.count() in
let mean = w.sum().div(n) in
let top = w.max() in
let low = w.min() in
let span = top.sub(low) in
let edge = low.add(span.mul(3).div(4)) in
let over = w.countWhere(\b -> b.gt(edge)) in
let hard = w.sumBy(\b -> b.sub(mean).mul(b.gt(mean))) in
let run = w.longestRun(\b -> b.gt(mean)) in
let effort = hard.div(n).add(over).add(run) in
let scaled = effort.mul(100).div(span.add(1)) in
scaled.add(mean.sub(low)).add(top.sub(mean)).add(over.mul(n).div(run.add(1))).add(LAST)";
    let lua = "local w = take(skip(data, FIRST), 900)
local n = count(w)
local mean = div(sum(w), n)
local top = greatest(w)
local low = least(w)
local span = top - low
local edge = low + div(span * 3, 4)
local over = countWhere(w, function(b) return b > edge end)
local hard = sumBy(w, function(b) return b > mean and b - mean or 0 end)
local run = longestRun(w, function(b) return b > mean end)
local effort = div(hard, n) + over + run
local scaled = div(effort * 100, span + 1)
return scaled + (mean - low) + (top - mean) + div(over * n, run + 1) + LAST";
    let put =
        |text: &str| text.replace("FIRST", &first.to_string()).replace("LAST", &last.to_string());
    formula("shared lets", &put(text), &put(lua))
}

/// The edited constant is added to the nested sum.
pub fn beside_nested(x: i32) -> Formula {
    formula(
        "beside a nested sum",
        &format!(r"let x = {x} in data.sumBy(\p -> data.countWhere(\q -> q.gt(p))).add(x)"),
        &format!(
            "local x = {x} \
             return sumBy(data, function(p) return countWhere(data, function(q) return q > p end) end) + x"
        ),
    )
}

/// The edited constant stands in the innermost function.
pub fn within_nested(x: i32) -> Formula {
    formula(
        "within a nested sum",
        &format!(r"let x = {x} in data.sumBy(\p -> data.countWhere(\q -> q.gt(p.add(x))))"),
        &format!(
            "local x = {x} \
             return sumBy(data, function(p) return countWhere(data, function(q) return q > p + x end) end)"
        ),
    )
}

pub fn limit(x: i32) -> Formula {
    formula(
        "limit of a countWhere",
        &format!(r"let x = {x} in data.countWhere(\b -> b.gt(x))"),
        &format!("local x = {x} return countWhere(data, function(b) return b > x end)"),
    )
}

/// Each formula, with its constants as they are before an edit.
pub fn all() -> Vec<Formula> {
    let formulas = [
        windows(2),
        sum(),
        count_where(),
        longest_run(),
        nested_sum(),
        variance(),
        twenty_members(),
        chain(),
        shared(100, 1),
        limit(150),
        beside_nested(2),
        within_nested(2),
    ];
    formulas.into_iter().chain(WIDTHS.map(best_sum)).collect()
}

/// Each formula behind its name, and those that are typed.
pub fn list() -> String {
    let typed = [
        ("typed, windows and sums", texts::windows_and_sums()),
        ("typed, with a nested sum", texts::with_nested()),
    ];
    let typed = typed.map(|(name, text)| (name.to_string(), text));
    let formulas = all().into_iter().map(|Formula { name, text, .. }| (name, text));
    let all = formulas.chain(typed);
    let indented = |text: String| text.replace('\n', "\n    ");
    let lines: String =
        all.map(|(name, text)| format!("{name}:\n    {}\n", indented(text))).collect();
    format!("```\n{lines}```\n")
}
