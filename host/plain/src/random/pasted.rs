//! Random texts of formulas that are pasted inside one another: lambdas that hide one
//! another, lets between them, and one function both outside of any lambda and inside
//! another. They have so few names that the same function comes again and again.

use super::rng::Rng;

/// Functions to paste. X is a lambda's name.
const FUNCTIONS: [&str; 10] = [
    r"\X -> X",
    r"\X -> X",
    r"\X -> 1",
    r"\X -> X.gt(2)",
    r"\X -> X.add(1)",
    r"\X -> X.add(a)",
    r"\X -> a",
    r"\X -> data.take(X).count()",
    r"\X -> let x = X in x.mul(x)",
    r"\X -> data.sumBy(\Y -> X.sub(Y))",
];

/// Formulas with functions pasted into them: F is one, and G the same or another. X and Y are
/// lambdas' names, and R is a member that runs a function.
const FORMULAS: [&str; 18] = [
    r"data.R(F)",
    r"\X -> data.R(F)",
    r"data.R(\X -> data.R(F))",
    r"data.R(\X -> data.take(X).R(F))",
    r"data.R(F).add(data.R(\X -> data.R(F).add(X)))",
    r"data.R(\X -> data.R(F).add(X)).add(data.R(F))",
    r"(F).eq(\X -> F)",
    r"\X -> (F).eq(G)",
    r"let f = F in \X -> data.R(f).add(data.R(F))",
    r"let f = F in data.R(\X -> data.take(X).R(f))",
    r"let f = F in data.R(\X -> let f = G in data.R(f).sub(X))",
    r"\X -> let f = F in data.R(f).add(X)",
    r"\X -> let x = X in \Y -> x.add(Y)",
    r"\X -> let x = X in \Y -> Y.sub(x).add(Y)",
    r"data.R(\X -> let x = X in data.R(\Y -> x.add(Y)))",
    r"data.R(\X -> let x = X.add(1) in data.take(x).R(\Y -> Y.mul(x)))",
    r"\X -> (let x = X in F).add(\Y -> X)",
    r"let x = a in \X -> x.add(X)",
];

const RUNS: [&str; 3] = ["sumBy", "countWhere", "longestRun"];

/// A lambda's name, mostly the same one.
fn name(rng: &mut Rng) -> &'static str {
    rng.pick(&["a", "a", "a", "a", "b", "x"])
}

/// A function, or now and then a formula that has functions in it, which may be one too many.
fn function(rng: &mut Rng) -> String {
    let function = if rng.one_in(40) { rng.pick(&FORMULAS) } else { rng.pick(&FUNCTIONS) };
    let function = function.replace(['F', 'G'], r"\a -> a");
    with_names(rng, &function)
}

/// Lambdas' names and members put in.
fn with_names(rng: &mut Rng, text: &str) -> String {
    let text = text.replace('X', name(rng)).replace('Y', name(rng));
    text.replace('R', rng.pick(&RUNS))
}

/// A formula with functions pasted into it.
pub fn pasted(rng: &mut Rng) -> Vec<u8> {
    let formula = rng.pick(&FORMULAS);
    let first = function(rng);
    let second = if rng.one_in(2) { first.clone() } else { function(rng) };
    let text = with_names(rng, formula);
    text.replace('F', &first).replace('G', &second).into_bytes()
}
