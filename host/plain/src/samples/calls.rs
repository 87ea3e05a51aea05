//! Lists of calls about the refusals that no text decides alone: 1, 2, 3, 13 to 16.

use super::taken::forms_128;
use super::{ALL, RECORDING, Step, edit, named, open, preview, print};
use crate::model::{Answer, Call};
use crate::shown::Shown;

fn refused(number: u8) -> Answer {
    Answer::Refused { number, place: 0 }
}

fn edited(whole: u32, new: u32, places: &[u32]) -> Answer {
    Answer::Edited { whole, parts: places.len() as u32, new, places: places.to_vec() }
}

fn finished(worked: u32, value: i32) -> Answer {
    Answer::Finished { worked, shown: Shown::Number(value) }
}

fn printed(text: &str) -> Answer {
    Answer::Printed { text: text.into() }
}

fn short_print(entry: u32, room: usize) -> Call {
    Call::Print { entry, bytes: vec![0; room], enough: false }
}

fn short_open(readings: usize) -> Call {
    Call::Open { readings: vec![0; readings], enough: false }
}

fn edit_with(text: &str, places: usize, enough: bool) -> Call {
    Call::Edit { text: text.into(), places, enough }
}

/// All lists of calls, each with a name for messages.
pub fn sessions() -> Vec<(&'static str, Vec<Step>)> {
    vec![
        ("sizes of lent memory", memory()),
        ("sizes of recordings", recordings()),
        ("sizes of texts", texts()),
        ("entry numbers", entries()),
        ("bytes for a printed text", prints()),
        ("levels of lambdas", levels()),
        ("a full table", full_table()),
        ("prints from a full table", full_table_prints()),
        ("an open clears", clearing()),
    ]
}

/// Number 3, and that a refused call changes nothing.
fn memory() -> Vec<Step> {
    vec![
        (open(&RECORDING), Answer::Opened),
        (edit_with("data.sum()", 127, true), refused(3)),
        (edit_with("data.sum()", 0, true), refused(3)),
        (edit_with("data.sum()", 128, false), refused(3)),
        (edit_with("data.", 127, true), refused(3)),
        (edit_with("data.", 128, false), refused(3)),
        (preview(0, ALL), refused(14)),
        (Call::Preview { entry: 0, allowance: ALL, enough: false }, refused(3)),
        (edit_with("data.sum()", 128, true), edited(1, 2, &[0, 1])),
        (edit_with("data.sum()", 1000, true), edited(1, 0, &[0, 1])),
        (Call::Preview { entry: 1, allowance: ALL, enough: false }, refused(3)),
        (short_print(1, 1024), refused(3)),
        (short_open(3), refused(3)),
        (preview(1, ALL), finished(1, 755)),
    ]
}

/// Numbers 2 and 3 of an open.
fn recordings() -> Vec<Step> {
    vec![
        (open(&[0; 1024]), Answer::Opened),
        (edit("data.count()"), edited(1, 2, &[0, 1])),
        (open(&[0; 1025]), refused(2)),
        (short_open(1025), refused(2)),
        (short_open(1024), refused(3)),
        (preview(1, ALL), finished(1, 1024)),
        (open(&[]), Answer::Opened),
        (edit("data.count()"), edited(1, 2, &[0, 1])),
        (preview(1, ALL), finished(1, 0)),
    ]
}

/// Number 1 comes before 3 and before all that is wrong in the text.
fn texts() -> Vec<Step> {
    let bad = format!("#{}", " ".repeat(1024));
    vec![
        (open(&RECORDING), Answer::Opened),
        (edit(" ".repeat(1025)), refused(1)),
        (edit(" ".repeat(1024)), Answer::Refused { number: 5, place: 1024 }),
        (edit_with(&bad, 128, true), refused(1)),
        (edit_with(&bad, 127, true), refused(1)),
        (edit_with(&bad, 128, false), refused(1)),
        (edit_with(&bad[..1024], 127, true), refused(3)),
        (edit_with(&bad[..1024], 128, true), Answer::Refused { number: 5, place: 0 }),
    ]
}

/// Number 14.
fn entries() -> Vec<Step> {
    vec![
        (open(&RECORDING), Answer::Opened),
        (edit("1.add(2).add(3)"), edited(4, 5, &[0, 2, 1, 4, 3])),
        (preview(5, ALL), refused(14)),
        (preview(5, 0), refused(14)),
        (preview(u32::MAX, u32::MAX), refused(14)),
        (Call::Preview { entry: 5, allowance: 1, enough: false }, refused(3)),
        (preview(4, ALL), finished(2, 6)),
    ]
}

/// Numbers 15 and 16, with 3 and 14 before them. A print works nothing out and adds no
/// entry.
fn prints() -> Vec<Step> {
    vec![
        (open(&RECORDING), Answer::Opened),
        (print(0, 1024), refused(14)),
        (edit("let x = 2 in data.skip(1).take(x)"), edited(4, 5, &[4, 0, 1, 3, 2, 4, 0])),
        (print(4, 20), printed("data.skip(1).take(2)")),
        (print(4, 1025), printed("data.skip(1).take(2)")),
        (print(4, 19), refused(15)),
        (print(4, 0), refused(15)),
        (print(5, 0), refused(14)),
        (print(5, 1024), refused(14)),
        (print(u32::MAX, 1024), refused(14)),
        (short_print(5, 0), refused(3)),
        (short_print(4, 20), refused(3)),
        (preview(4, 1), Answer::NotYet { worked: 1 }),
        (print(3, 12), printed("data.skip(1)")),
        (edit("data.skip(1).take(2)"), edited(4, 0, &[1, 3, 2, 4, 0])),
        (edit("\\a -> a.add(1)"), edited(7, 3, &[7, 5, 6, 2])),
        (print(7, 14), printed("\\a -> a.add(1)")),
        (print(5, 1), refused(16)),
        (print(5, 0), refused(15)),
        (print(6, 8), refused(16)),
        (print(6, 7), refused(15)),
        (print(7, 13), refused(15)),
    ]
}

/// One function outside of any lambda and inside another: two entries, which are both worked
/// out, and of which one is printed. A part that awaits two variables of one name.
fn levels() -> Vec<Step> {
    let shown = |worked: u32, shown: Shown| Answer::Finished { worked, shown };
    let delayed = |words: &[&str]| Shown::Delayed(words.iter().map(|word| named(word)).collect());
    vec![
        (open(&RECORDING), Answer::Opened),
        (edit("data.sumBy(\\a -> a)"), edited(3, 4, &[0, 3, 2, 1])),
        (edit("\\b -> data.sumBy(\\a -> a)"), edited(7, 4, &[7, 0, 6, 5, 4])),
        (preview(1, 0), shown(0, delayed(&["a"]))),
        (preview(4, 0), shown(0, delayed(&["a"]))),
        (preview(3, ALL), finished(2, 755)),
        (preview(6, 0), Answer::NotYet { worked: 0 }),
        (preview(6, ALL), finished(2, 755)),
        (print(2, 7), printed("\\a -> a")),
        (print(3, 19), printed("data.sumBy(\\a -> a)")),
        (print(5, 7), refused(16)),
        (print(5, 6), refused(15)),
        (print(6, 1024), refused(16)),
        (print(7, 25), printed("\\b -> data.sumBy(\\a -> a)")),
        (edit("\\a -> let x = a in \\a -> x.add(a)"), edited(10, 3, &[10, 9, 1, 9, 1, 8, 4])),
        (preview(8, ALL), shown(1, delayed(&["a", "a"]))),
        (preview(9, ALL), shown(1, delayed(&["a"]))),
        (preview(10, ALL), shown(1, Shown::Function(named("a")))),
        (print(8, 1024), refused(16)),
        (print(9, 1024), refused(16)),
        (print(10, 1024), refused(16)),
        (edit("\\a -> \\a -> a.add(a)"), edited(13, 3, &[13, 12, 4, 11, 4])),
        (preview(11, ALL), shown(1, delayed(&["a"]))),
        (print(13, 20), printed("\\a -> \\a -> a.add(a)")),
    ]
}

/// Number 13: 512 forms are held, and then one more is too many. Old forms, and
/// texts refused under 5 to 12, get the same answers as before.
fn full_table() -> Vec<Step> {
    let mut steps = vec![(open(&RECORDING), Answer::Opened)];
    for round in 0..3 {
        steps.push((edit(forms_128(round * 64)), edited_128(round as u32, 128)));
    }
    let last = forms_128(3 * 64);
    let almost = last.trim_start_matches("\\x -> ");
    let places: Vec<u32> = edited_places(3)[1..].to_vec();
    steps.push((edit(almost), edited(510, 127, &places)));
    steps.push((edit("900.add(901)"), refused(13)));
    steps.push((edit("\\y -> y"), refused(13)));
    steps.push((edit(&last), edited_128(3, 1)));
    steps.push((edit(&last), edited_128(3, 0)));
    steps.push((edit("1000"), refused(13)));
    steps.push((edit("let u = 1000 in 0"), refused(13)));
    steps.push((edit("1000."), Answer::Refused { number: 5, place: 5 }));
    steps.push((edit("0"), edited(0, 0, &[0])));
    steps.push((preview(511, 0), Answer::NotYet { worked: 0 }));
    steps.push((preview(512, 0), refused(14)));
    steps.push((print(511, last.len()), printed(&last)));
    steps.push((print(512, last.len()), refused(14)));
    steps.push((preview(510, ALL), finished(63, 64 * 192 + 63 * 32)));
    steps
}

/// A print needs no room in the table, even where its text would be a new form.
fn full_table_prints() -> Vec<Step> {
    let mut steps = vec![(open(&RECORDING), Answer::Opened)];
    for round in 0..3 {
        steps.push((edit(forms_128(round * 64)), edited_128(round as u32, 128)));
    }
    let awaiting = forms_128(3 * 64).replace("\\x -> 192", "\\x -> x");
    steps.push((edit(&awaiting), edited_128(3, 128)));
    steps.push((edit("x"), refused(13)));
    steps.push((print(384, 1), refused(16)));
    steps.push((print(384, 0), refused(15)));
    steps.push((print(386, 10), refused(16)));
    steps.push((print(386, 9), refused(15)));
    steps.push((print(510, 1024), refused(16)));
    steps.push((print(511, awaiting.len()), printed(&awaiting)));
    steps.push((print(511, awaiting.len() - 1), refused(15)));
    steps.push((print(255, 1024), printed(&forms_128(64))));
    steps
}

/// The answer to the text `forms_128(64 * round)` after the rounds before it.
fn edited_128(round: u32, new: u32) -> Answer {
    edited(128 * round + 127, new, &edited_places(round))
}

/// Places of `forms_128(64 * round)`: the function, the first number, then for each
/// call its member and its number, which has the number just below.
fn edited_places(round: u32) -> Vec<u32> {
    let base = 128 * round;
    let calls = (1..64).flat_map(|call| [base + 2 * call, base + 2 * call - 1]);
    [base + 127, base].into_iter().chain(calls).collect()
}

/// An open clears entries and results.
fn clearing() -> Vec<Step> {
    vec![
        (open(&[1, 2, 3]), Answer::Opened),
        (edit("data.sum()"), edited(1, 2, &[0, 1])),
        (preview(1, ALL), finished(1, 6)),
        (preview(1, ALL), finished(0, 6)),
        (open(&[4, 5]), Answer::Opened),
        (preview(1, ALL), refused(14)),
        (preview(0, ALL), refused(14)),
        (edit("data.sum()"), edited(1, 2, &[0, 1])),
        (preview(1, 0), Answer::NotYet { worked: 0 }),
        (preview(1, ALL), finished(1, 9)),
    ]
}
