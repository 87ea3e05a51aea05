//! The rules of the members, for dependencies that are neither missing nor delayed
//! and have the right kinds.
//!
//! Numbers are computed exactly in 64 bits: 1,024 readings or one product of 32-bit
//! numbers never leave them. Only the final result is tested for reason 4, by `fit`.

use crate::shown::{BEYOND_32_BITS, DIVISION_BY_ZERO, OUTSIDE_WINDOW, Reason, Window};

/// A rule, by the kinds it takes, the receiver first.
#[derive(Clone, Copy)]
pub enum Rule {
    /// A number and a number give a number.
    Numbers(fn(i64, i64) -> Result<i64, Reason>),
    /// A window and a number give a window.
    Cut(fn(Window, i32) -> Window),
    /// A window, given by its readings, gives a number.
    Readings(fn(&[i32]) -> Result<i64, Reason>),
    /// A window, given by its readings, and a number give a number.
    ReadingsAndNumber(fn(&[i32], i32) -> Result<i64, Reason>),
    /// A window and a function give a number. The rule is fed what the function
    /// gives for each reading, in order.
    Runs(fn(&[i32]) -> Result<i64, Reason>),
}

/// The result as a signed 32-bit number, or reason 4.
pub fn fit(exact: i64) -> Result<i32, Reason> {
    i32::try_from(exact).map_err(|_| BEYOND_32_BITS)
}

pub fn add(left: i64, right: i64) -> Result<i64, Reason> {
    Ok(left + right)
}

pub fn sub(left: i64, right: i64) -> Result<i64, Reason> {
    Ok(left - right)
}

pub fn mul(left: i64, right: i64) -> Result<i64, Reason> {
    Ok(left * right)
}

/// The division rule (02, T-02): the greatest whole number not above the quotient.
pub fn div(left: i64, right: i64) -> Result<i64, Reason> {
    if right == 0 {
        return Err(DIVISION_BY_ZERO);
    }
    let is_not_above = |whole: &i64| match right > 0 {
        true => whole * right <= left,
        false => whole * right >= left,
    };
    let near = left / right;
    Ok((near - 1..=near + 1).rev().find(is_not_above).expect("one lies within 1 of the quotient"))
}

pub fn gt(left: i64, right: i64) -> Result<i64, Reason> {
    Ok(i64::from(left > right))
}

pub fn eq(left: i64, right: i64) -> Result<i64, Reason> {
    Ok(i64::from(left == right))
}

/// The clipping rule (02, T-06): how many of `length` readings come before the count `n`,
/// which is from the end where it is negative. Past either end it counts to that end.
fn clip(n: i32, length: usize) -> usize {
    let count = (n.unsigned_abs() as usize).min(length);
    if n < 0 { length - count } else { count }
}

/// `skip` moves the start on by what it skips.
pub fn skip(window: Window, n: i32) -> Window {
    let skipped = clip(n, window.length);
    Window { start: window.start + skipped, length: window.length - skipped }
}

/// `take` keeps the start.
pub fn take(window: Window, n: i32) -> Window {
    Window { start: window.start, length: clip(n, window.length) }
}

pub fn count(readings: &[i32]) -> Result<i64, Reason> {
    Ok(readings.len() as i64)
}

pub fn sum(readings: &[i32]) -> Result<i64, Reason> {
    Ok(readings.iter().map(|reading| i64::from(*reading)).sum())
}

pub fn min(readings: &[i32]) -> Result<i64, Reason> {
    readings.iter().min().map(|least| i64::from(*least)).ok_or(OUTSIDE_WINDOW)
}

pub fn max(readings: &[i32]) -> Result<i64, Reason> {
    readings.iter().max().map(|greatest| i64::from(*greatest)).ok_or(OUTSIDE_WINDOW)
}

/// The reading at an index from 0, or, where it is negative, from the end: -1 is the last.
pub fn at(readings: &[i32], index: i32) -> Result<i64, Reason> {
    let distance = index.unsigned_abs() as usize;
    let found = match index < 0 {
        true => readings.iter().nth_back(distance - 1),
        false => readings.get(distance),
    };
    found.map(|reading| i64::from(*reading)).ok_or(OUTSIDE_WINDOW)
}

/// How many results are other than 0.
pub fn count_where(results: &[i32]) -> Result<i64, Reason> {
    Ok(results.iter().filter(|result| **result != 0).count() as i64)
}

/// The length of the longest stretch of results other than 0.
pub fn longest_run(results: &[i32]) -> Result<i64, Reason> {
    let stretches = results.split(|result| *result == 0);
    Ok(stretches.map(|stretch| stretch.len() as i64).max().unwrap_or(0))
}

/// The total of the results.
pub fn sum_by(results: &[i32]) -> Result<i64, Reason> {
    sum(results)
}

/// The sums of all stretches of `w` readings next to each other, by where they begin. No
/// stretch has fewer than one reading or more than there are.
fn stretch_sums(readings: &[i32], w: i32) -> Result<Vec<i64>, Reason> {
    match usize::try_from(w) {
        Ok(w) if (1..=readings.len()).contains(&w) => readings.windows(w).map(sum).collect(),
        _ => Err(OUTSIDE_WINDOW),
    }
}

/// The greatest sum of a stretch.
pub fn best_sum(readings: &[i32], w: i32) -> Result<i64, Reason> {
    stretch_sums(readings, w)?.into_iter().max().ok_or(OUTSIDE_WINDOW)
}

/// Where the first stretch of the greatest sum begins, counted in the window. The sum
/// itself may be beyond 32 bits.
pub fn best_at(readings: &[i32], w: i32) -> Result<i64, Reason> {
    let greatest = best_sum(readings, w)?;
    let sums = stretch_sums(readings, w)?.into_iter();
    Ok(sums.take_while(|sum| *sum != greatest).count() as i64)
}
