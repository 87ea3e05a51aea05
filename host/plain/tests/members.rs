//! What members, functions and names show.

mod common;

use common::{check_shown, delayed, function, missing, number, shown, window};
use plain::model::Answer;
use plain::samples::RECORDING;
use plain::shown::Shown;

#[test]
fn numbers() {
    check_shown(&[
        ("2.add(3)", number(5)),
        ("2.sub(3)", number(-1)),
        ("-4.mul(3)", number(-12)),
        ("7.div(2)", number(3)),
        ("-7.div(2)", number(-4)),
        ("7.div(-2)", number(-4)),
        ("-7.div(-2)", number(3)),
        ("-6.div(3)", number(-2)),
        ("6.div(-3)", number(-2)),
        ("-7.div(3)", number(-3)),
        ("-1.div(2)", number(-1)),
        ("1.div(-2147483648)", number(-1)),
        ("0.div(5)", number(0)),
        ("0.div(-5)", number(0)),
        ("-2147483648.div(1)", number(i32::MIN)),
        ("-2147483648.div(2147483647)", number(-2)),
        ("-2147483648.div(-2147483648)", number(1)),
        ("3.gt(2)", number(1)),
        ("2.gt(2)", number(0)),
        ("-2147483648.gt(2147483647)", number(0)),
        ("2.eq(2)", number(1)),
        ("2.eq(-2)", number(0)),
        ("2147483647.add(-2147483648)", number(-1)),
        ("46340.mul(46340)", number(2_147_395_600)),
        ("-65536.mul(32768)", number(i32::MIN)),
    ]);
}

#[test]
fn results_beyond_32_bits() {
    check_shown(&[
        ("2147483647.add(1)", missing(4)),
        ("-2147483648.sub(1)", missing(4)),
        ("46341.mul(46341)", missing(4)),
        ("-2147483648.mul(-2147483648)", missing(4)),
        ("65536.mul(32768)", missing(4)),
        ("0.sub(-2147483648)", missing(4)),
    ]);
}

#[test]
fn windows() {
    check_shown(&[
        ("data", window(0, 5)),
        ("data.skip(0)", window(0, 5)),
        ("data.skip(5)", window(5, 0)),
        ("data.skip(2147483647)", window(5, 0)),
        ("data.take(0)", window(0, 0)),
        ("data.take(5)", window(0, 5)),
        ("data.take(6)", window(0, 5)),
        ("data.skip(2).take(0)", window(2, 0)),
        ("data.take(2).skip(9)", window(2, 0)),
        ("data.skip(1).skip(2)", window(3, 2)),
        ("data.skip(9).skip(1)", window(5, 0)),
        ("data.skip(9).take(1)", window(5, 0)),
        ("data.count()", number(5)),
        ("data.skip(4).count()", number(1)),
        ("data.min()", number(140)),
        ("data.max()", number(160)),
        ("data.skip(3).max()", number(155)),
        ("data.take(0).max()", missing(5)),
        ("data.take(0).sum()", number(0)),
        ("data.at(0)", number(140)),
        ("data.at(4)", number(155)),
        ("data.at(5)", missing(5)),
        ("data.skip(3).at(1)", number(155)),
        ("data.take(2).at(2)", missing(5)),
    ]);
}

/// Over 140, 152, 160, 148, 155, and over the three in the middle of them.
#[test]
fn counts_from_the_end() {
    check_shown(&[
        ("data.skip(-1)", window(4, 1)),
        ("data.skip(-2)", window(3, 2)),
        ("data.skip(-5)", window(0, 5)),
        ("data.skip(-6)", window(0, 5)),
        ("data.skip(-2147483648)", window(0, 5)),
        ("data.take(-1)", window(0, 4)),
        ("data.take(-2)", window(0, 3)),
        ("data.take(-5)", window(0, 0)),
        ("data.take(-6)", window(0, 0)),
        ("data.take(-2147483648)", window(0, 0)),
        ("data.at(-1)", number(155)),
        ("data.at(-5)", number(140)),
        ("data.at(-6)", missing(5)),
        ("data.at(-2147483648)", missing(5)),
        ("data.skip(1).take(3).skip(-1)", window(3, 1)),
        ("data.skip(1).take(3).skip(-3)", window(1, 3)),
        ("data.skip(1).take(3).skip(-4)", window(1, 3)),
        ("data.skip(1).take(3).take(-1)", window(1, 2)),
        ("data.skip(1).take(3).take(-4)", window(1, 0)),
        ("data.skip(1).take(3).at(-1)", number(148)),
        ("data.skip(1).take(3).at(-3)", number(152)),
        ("data.skip(1).take(3).at(-4)", missing(5)),
        ("data.take(0).skip(-1)", window(0, 0)),
        ("data.take(0).take(-1)", window(0, 0)),
        ("data.take(0).at(-1)", missing(5)),
        ("data.skip(-2).take(-1).at(-1)", number(148)),
        ("data.skip(9).skip(-2147483648)", window(5, 0)),
        ("data.sumBy(\\b -> data.at(b.sub(141)))", missing(5)),
        ("data.take(1).sumBy(\\b -> data.at(b.sub(141)))", number(155)),
    ]);
}

#[test]
fn sums_are_exact_up_to_the_final_total() {
    let recording = [i32::MAX, i32::MAX, i32::MIN, i32::MIN, 5];
    assert_eq!(shown(&recording, "data.sum()"), number(3));
    assert_eq!(shown(&recording, "data.take(2).sum()"), missing(4));
    assert_eq!(shown(&recording, "data.take(4).sum()"), number(-2));
    assert_eq!(shown(&recording, "data.sumBy(\\a -> a)"), number(3));
    assert_eq!(shown(&recording, "data.skip(2).sumBy(\\a -> a)"), missing(4));
    assert_eq!(shown(&[i32::MIN; 1024], "data.sum()"), missing(4));
}

#[test]
fn runs() {
    check_shown(&[
        ("data.countWhere(\\b -> 1)", number(5)),
        ("data.countWhere(\\b -> 0)", number(0)),
        ("data.countWhere(\\b -> -1)", number(5)),
        ("data.longestRun(\\b -> b.gt(150))", number(2)),
        ("data.longestRun(\\b -> 0)", number(0)),
        ("data.longestRun(\\b -> b)", number(5)),
        ("data.take(0).longestRun(\\b -> b)", number(0)),
        ("data.sumBy(\\b -> b.sub(150))", number(5)),
        ("data.skip(3).sumBy(\\b -> b)", number(303)),
        ("data.sumBy(\\b -> data.at(b.sub(b)))", number(700)),
        ("data.sumBy(\\b -> data)", missing(2)),
        ("data.sumBy(\\b -> \\c -> 1)", missing(2)),
        ("data.sumBy(\\b -> \\c -> b)", missing(2)),
        ("data.take(0).sumBy(\\b -> data)", number(0)),
        ("data.sumBy(\\b -> 1.div(b.sub(160)))", missing(3)),
        ("data.take(2).sumBy(\\b -> 1.div(b.sub(160)))", number(-2)),
    ]);
}

#[test]
fn the_first_run_without_a_number_decides() {
    let text = "data.sumBy(\\b -> 1.div(b).add(data.at(b)))";
    assert_eq!(shown(&[1, 1, 0, 9], text), missing(3));
    assert_eq!(shown(&[1, 1, 9, 0], text), missing(5));
    assert_eq!(shown(&[1, 1], text), number(4));
    let no_number = "data.sumBy(\\b -> data.skip(data.at(b)))";
    assert_eq!(shown(&[1, -3], no_number), missing(2));
    assert_eq!(shown(&[-3, 1], no_number), missing(5));
    let wide = "data.sumBy(\\b -> b.mul(b))";
    assert_eq!(shown(&[40000, 40000], wide), missing(4));
    assert_eq!(shown(&[30000, 30000], wide), number(1_800_000_000));
}

/// Over 140, 152, 160, 148, 155: the greatest sum of so many readings next to each
/// other, and where the first such stretch begins.
#[test]
fn best_stretches() {
    check_shown(&[
        ("data.bestSum(1)", number(160)),
        ("data.bestAt(1)", number(2)),
        ("data.bestSum(2)", number(312)),
        ("data.bestAt(2)", number(1)),
        ("data.bestSum(3)", number(463)),
        ("data.bestAt(3)", number(2)),
        ("data.bestSum(4)", number(615)),
        ("data.bestAt(4)", number(1)),
        ("data.bestSum(5)", number(755)),
        ("data.bestAt(5)", number(0)),
        ("data.bestSum(2).eq(data.skip(data.bestAt(2)).take(2).sum())", number(1)),
    ]);
}

/// The index is counted in the window, not in the recording.
#[test]
fn best_stretches_of_a_part() {
    check_shown(&[
        ("data.skip(1).take(3).bestSum(2)", number(312)),
        ("data.skip(1).take(3).bestAt(2)", number(0)),
        ("data.skip(1).bestAt(1)", number(1)),
        ("data.skip(2).bestSum(2)", number(308)),
        ("data.skip(2).bestAt(2)", number(0)),
        ("data.skip(3).bestSum(2)", number(303)),
        ("data.take(2).bestAt(1)", number(1)),
        ("data.skip(4).bestSum(1)", number(155)),
        ("data.skip(4).bestAt(1)", number(0)),
    ]);
}

/// No stretch has fewer than one reading, or more than the window.
#[test]
fn stretches_outside_the_window() {
    for member in ["bestSum", "bestAt"] {
        for w in ["0", "-1", "6", "7", "2147483647", "-2147483648"] {
            let text = format!("data.{member}({w})");
            assert_eq!(shown(&RECORDING, &text), missing(5), "{text}");
        }
        for part in ["data.take(0)", "data.skip(5)", "data.skip(9)"] {
            for w in ["0", "1", "5"] {
                let text = format!("{part}.{member}({w})");
                assert_eq!(shown(&RECORDING, &text), missing(5), "{text}");
            }
        }
        let past = format!("data.skip(1).take(3).{member}(4)");
        assert_eq!(shown(&RECORDING, &past), missing(5), "{past}");
        assert_eq!(shown(&[], &format!("data.{member}(1)")), missing(5));
    }
}

/// What `bestSum(w)` and `bestAt(w)` show.
fn best(recording: &[i32], w: usize) -> (Shown, Shown) {
    let show = |member: &str| shown(recording, &format!("data.{member}({w})"));
    (show("bestSum"), show("bestAt"))
}

#[test]
fn of_equal_stretches_the_first_is_the_best() {
    assert_eq!(best(&[5, 5, 5, 5], 2), (number(10), number(0)));
    assert_eq!(best(&[0; 1024], 512), (number(0), number(0)));
    assert_eq!(best(&[1, 3, 2, 3, 2], 1), (number(3), number(1)));
    assert_eq!(best(&[1, 3, 2, 3, 2], 2), (number(5), number(1)));
    assert_eq!(best(&[9, 0, 1, 8, 2, 7], 2), (number(10), number(3)));
    assert_eq!(best(&[2, 7, 0, 7, 2, 0, 9], 2), (number(9), number(0)));
}

#[test]
fn best_stretches_of_negative_readings() {
    let recording = [-5, -1, -7, -2, -2];
    assert_eq!(best(&recording, 1), (number(-1), number(1)));
    assert_eq!(best(&recording, 2), (number(-4), number(3)));
    assert_eq!(best(&recording, 3), (number(-10), number(1)));
    assert_eq!(best(&recording, 5), (number(-17), number(0)));
    assert_eq!(best(&[-1, 0, -1], 2), (number(-1), number(0)));
    assert_eq!(best(&[i32::MIN, i32::MIN], 1), (number(i32::MIN), number(0)));
}

/// Reason 4 is for the greatest sum alone, and `bestAt` has none: not at 2147483648, nor
/// where every stretch is beyond the least number.
#[test]
fn greatest_sums_beyond_32_bits() {
    let half = 1 << 30;
    assert_eq!(best(&[0, half, half - 1], 2), (number(i32::MAX), number(1)));
    assert_eq!(best(&[0, half, half], 2), (missing(4), number(1)));
    assert_eq!(best(&[1, i32::MAX, 0, i32::MAX, 2], 2), (missing(4), number(3)));
    assert_eq!(best(&[i32::MAX; 1024], 1024), (missing(4), number(0)));
    assert_eq!(best(&[i32::MIN, 0, i32::MIN], 2), (number(i32::MIN), number(0)));
    assert_eq!(best(&[i32::MIN, -2, i32::MIN, -1, i32::MIN], 2), (missing(4), number(2)));
    assert_eq!(best(&[i32::MIN; 1024], 1023), (missing(4), number(0)));
}

/// A stretch beyond 32 bits that is not the greatest is no reason.
#[test]
fn other_sums_beyond_32_bits() {
    assert_eq!(best(&[i32::MIN, i32::MIN, 3, 4, i32::MIN], 2), (number(7), number(2)));
    assert_eq!(best(&[i32::MIN, -1, -1, i32::MIN, -1], 2), (number(-2), number(1)));
    let far = [i32::MIN, i32::MIN, i32::MAX, i32::MAX, i32::MIN];
    assert_eq!(best(&far, 4), (number(-2), number(0)));
    assert_eq!(best(&far, 5), (missing(4), number(0)));
}

#[test]
fn best_stretches_take_a_window_and_a_number() {
    check_shown(&[
        ("data.bestSum(data)", missing(2)),
        ("data.bestAt(\\a -> a)", missing(2)),
        ("1.bestSum(2)", missing(2)),
        ("1.bestAt(2)", missing(2)),
        ("1.bestAt(0)", missing(2)),
        ("(\\a -> a).bestSum(1)", missing(2)),
        ("data.bestSum(1.div(0))", missing(3)),
        ("data.bestAt(y)", missing(1)),
        ("y.bestSum(1.div(0))", missing(1)),
        ("data.skip(data.at(5)).bestAt(data)", missing(5)),
    ]);
}

/// A length that awaits a variable, and lengths that runs put for it.
#[test]
fn best_stretches_in_functions() {
    for (text, place, worked) in
        [("\\a -> data.bestSum(a)", 2, 1), ("\\a -> data.take(a).bestAt(9)", 4, 2)]
    {
        let mut model = common::opened(&RECORDING);
        let (_, _, places) = common::edited(&mut model, text);
        let answer = model.call(&plain::samples::preview(places[place], 512));
        assert_eq!(answer, Answer::Finished { worked, shown: delayed(&["a"]) }, "{text}");
        assert_eq!(shown(&RECORDING, text), function("a"), "{text}");
    }
    let lengths = [2, 1, 3, 1];
    assert_eq!(shown(&lengths, "data.sumBy(\\w -> data.bestSum(w))"), number(4 + 3 + 6 + 3));
    assert_eq!(shown(&lengths, "data.sumBy(\\w -> data.bestAt(w))"), number(1 + 2 + 2));
    assert_eq!(shown(&lengths, "data.countWhere(\\w -> data.bestAt(w).eq(2))"), number(2));
    assert_eq!(shown(&lengths, "data.sumBy(\\w -> data.take(2).bestSum(w))"), missing(5));
    assert_eq!(
        shown(&lengths, "data.sumBy(\\w -> data.skip(w).bestSum(1))"),
        number(3 + 3 + 1 + 3)
    );
}

/// Each run's result is tested for 32 bits by the member inside; the total is exact.
#[test]
fn totals_of_runs_are_exact() {
    let recording = [2_000_000_000, 2_000_000_000, -2_000_000_000];
    assert_eq!(shown(&recording, "data.sumBy(\\b -> b)"), number(2_000_000_000));
}

#[test]
fn missing_comes_before_delayed_and_the_first_missing_decides() {
    check_shown(&[
        ("y", missing(1)),
        ("y.add(1.div(0))", missing(1)),
        ("1.div(0).add(y)", missing(3)),
        ("data.skip(data.at(5)).skip(y)", missing(5)),
        ("\\a -> a.add(y)", missing(1)),
        ("\\a -> y.add(a)", missing(1)),
        ("\\a -> 1.div(0)", missing(3)),
        ("\\a -> a.add(1.div(0).add(y))", missing(3)),
        ("data.sumBy(\\a -> y)", missing(1)),
        ("y.sumBy(\\a -> 1.div(0))", missing(1)),
    ]);
}

#[test]
fn delay_comes_before_kinds() {
    let mut model = common::opened(&[1, 2]);
    let (_, _, places) = common::edited(&mut model, "\\a -> data.add(a)");
    let call = plain::samples::preview(places[2], 512);
    let expected = plain::model::Answer::Finished { worked: 1, shown: delayed(&["a"]) };
    assert_eq!(model.call(&call), expected);
    check_shown(&[
        ("\\a -> data.add(a)", function("a")),
        ("data.sumBy(\\a -> data.add(a))", missing(2)),
        ("data.take(0).sumBy(\\a -> data.add(a))", number(0)),
    ]);
}

#[test]
fn kinds() {
    check_shown(&[
        ("data.add(1)", missing(2)),
        ("(\\a -> a).add(1)", missing(2)),
        ("1.add(\\a -> a)", missing(2)),
        ("1.sum()", missing(2)),
        ("1.count()", missing(2)),
        ("1.skip(1)", missing(2)),
        ("data.skip(data)", missing(2)),
        ("data.take(\\a -> a)", missing(2)),
        ("data.at(data)", missing(2)),
        ("data.sumBy(1)", missing(2)),
        ("data.sumBy(data)", missing(2)),
        ("data.take(0).sumBy(1)", missing(2)),
        ("1.sumBy(\\a -> a)", missing(2)),
        ("data.gt(0)", missing(2)),
        ("data.eq(data)", missing(2)),
        ("data.div(0)", missing(2)),
        ("data.add(1).div(0)", missing(2)),
    ]);
}

#[test]
fn functions_show_their_names() {
    check_shown(&[
        ("\\a -> a", function("a")),
        ("\\abcdefgh -> 1", function("abcdefgh")),
        ("\\a -> \\b -> a", function("a")),
        ("let f = \\a -> a in \\b -> f", function("b")),
        ("\\a -> data", function("a")),
    ]);
}

/// The places of a text show their own parts.
#[test]
fn delayed_names_stand_by_first_occurrence() {
    let rows: [(&str, usize, &[&str]); 14] = [
        ("\\a -> a", 1, &["a"]),
        ("\\a -> \\b -> a.add(b)", 3, &["a", "b"]),
        ("\\a -> \\b -> b.add(a)", 3, &["b", "a"]),
        ("\\a -> \\b -> b.add(a)", 1, &["a"]),
        ("\\a -> \\b -> b.add(a).add(b)", 5, &["b", "a"]),
        ("\\a -> \\b -> 1.add(b).add(b.add(a))", 6, &["b"]),
        ("\\a -> \\b -> 1.add(b).add(a.add(b))", 5, &["b", "a"]),
        ("\\a -> data.sumBy(\\b -> b.add(a)).add(a)", 2, &["a"]),
        // two variables of one spelling are two (02, T-05)
        ("\\a -> let x = a in \\a -> x.add(a)", 5, &["a", "a"]),
        ("\\a -> let x = a in \\a -> x.add(a)", 3, &["a"]),
        ("\\a -> let x = a in \\a -> x.add(a).add(x)", 7, &["a", "a"]),
        ("\\a -> let x = a in \\a -> a.add(a)", 5, &["a"]),
        ("\\a -> \\a -> a", 2, &["a"]),
        ("\\a -> data.sumBy(\\a -> a).add(a)", 5, &["a"]),
    ];
    for (text, place, names) in rows {
        let mut model = common::opened(&[1, 2]);
        let (_, _, places) = common::edited(&mut model, text);
        let answer = model.call(&plain::samples::preview(places[place], 512));
        match answer {
            plain::model::Answer::Finished { shown, .. } => {
                assert_eq!(shown, delayed(names), "{text} at {place}")
            }
            other => panic!("{text}: {other:?}"),
        }
    }
}

/// A function with a missing body is missing, even if never run. In a run the number
/// stands in the body, so an inner function may become missing.
#[test]
fn missing_bodies() {
    let text = "data.sumBy(\\p -> data.take(0).countWhere(\\q -> 1.div(p)))";
    assert_eq!(shown(&[1, 2], text), number(0));
    assert_eq!(shown(&[1, 0], text), missing(3));
    assert_eq!(shown(&[], text), number(0));
    check_shown(&[
        ("data.take(0).sumBy(\\a -> y)", missing(1)),
        ("data.take(0).sumBy(\\a -> a.add(data.at(9)))", missing(5)),
        ("data.take(0).sumBy(\\a -> 1.add(data))", missing(2)),
    ]);
}

/// The inner `x` is the inner lambda's own while the outer `x` has a number.
#[test]
fn a_function_keeps_its_own_variable_under_a_run_of_its_twin() {
    let text = "let h = \\y -> data.skip(1).sumBy(\\x -> y.div(x)) in \
                data.sumBy(\\x -> data.skip(x).sumBy(h))";
    assert_eq!(shown(&[0, 2, 3], text), number(5));
    let twin = "let f = \\a -> a.mul(10) in data.sumBy(\\a -> data.take(a).sumBy(f))";
    assert_eq!(shown(&[1, 2], twin), number(10 + 30));
}

/// A run puts its number for its own variable, by name and level.
#[test]
fn an_inner_lambda_hides_an_outer_one_in_runs() {
    for (text, expected) in [
        ("data.sumBy(\\a -> data.sumBy(\\a -> a))", number(6)),
        ("data.sumBy(\\a -> data.sumBy(\\a -> a).mul(a))", number(9)),
        ("data.sumBy(\\a -> a.mul(10).add(data.sumBy(\\a -> a)))", number(36)),
        ("data.sumBy(\\a -> let x = a in data.sumBy(\\a -> x.mul(10).add(a)))", number(66)),
        ("data.sumBy(\\a -> let x = a in data.take(x).sumBy(\\a -> x.mul(10).add(a)))", number(54)),
        ("data.sumBy(\\a -> let a = 5 in data.sumBy(\\a -> a))", number(6)),
        ("data.sumBy(\\a -> let f = \\a -> a in data.take(a).sumBy(f))", number(4)),
        ("\\a -> let x = a in \\a -> x.add(a)", function("a")),
        ("\\a -> \\a -> y", missing(1)),
    ] {
        assert_eq!(shown(&[1, 2], text), expected, "{text}");
    }
}

#[test]
fn lets_are_not_evaluated_strictly() {
    check_shown(&[
        ("let u = y in 1", number(1)),
        ("let u = data.at(9) in data.count()", number(5)),
        ("let u = \\a -> y in let v = u in 2", number(2)),
    ]);
}
