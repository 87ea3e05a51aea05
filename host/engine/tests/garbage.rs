//! Memory of any contents. `judge` says which is refused under 4. In the rest an edit is
//! answered as binding over the decoded entries says, and a preview works out the entries
//! that it must; where all kept results are those of their forms, so are the new ones. A
//! print gives the text of the decoded form. That a refused call changes nothing, and that
//! no other cell or byte is written, is tested by `Cache` at each call.

use engine::cache::Cache;
use engine::compare::Pair;
use engine::damage::{damage, made_up, with_spare};
use engine::judge::is_well_formed;
use engine::memory::{FUNCTION, MEMBERS, Memory, VARIABLE, first_unknown, name};
use plain::bind::bind;
use plain::eval::Evaluation;
use plain::form::{Form, Forms};
use plain::member::Member;
use plain::model::{Answer, Call};
use plain::print;
use plain::random::formula::{formula, join};
use plain::random::limit::wide;
use plain::random::pasted::pasted;
use plain::random::rng::Rng;
use plain::random::{are_affordable, bytes_to_lend, session};
use plain::refusal::{NO_SUCH_ENTRY, OTHER_FORM, TABLE_FULL};
use plain::samples::{ALL, RECORDING, edit, open, preview};
use plain::shown::Shown;
use plain::syntax::parse;
use plain::tally::{DELAYED_TWICE, FROM_THE_END, PAST_THE_FIRST, ROUNDED_BELOW_0, Tally};

const ILL_FORMED: Answer = Answer::Refused { number: 4, place: 0 };

/// What an edit of a well-formed cache gives, and the forms that it then holds.
fn edited(memory: &Memory, text: &[u8]) -> (Answer, Forms) {
    let held = memory.forms();
    let parsed = match parse(text) {
        Ok(parsed) => parsed,
        Err(refusal) => {
            let place = refusal.place as u32;
            return (Answer::Refused { number: refusal.number, place }, held);
        }
    };
    let mut forms = held.clone();
    let bound = bind(&parsed, &mut forms);
    if forms.list.len() > 512 {
        return (Answer::Refused { number: TABLE_FULL, place: 0 }, held);
    }
    let answer = Answer::Edited {
        whole: bound.whole as u32,
        parts: parsed.parts as u32,
        new: (forms.list.len() - held.list.len()) as u32,
        places: bound.places.iter().map(|place| *place as u32).collect(),
    };
    (answer, forms)
}

fn check_edit(memory: &Memory, text: &[u8]) -> Answer {
    let mut cache = Cache::new(memory);
    let answer = cache.call(&edit(text));
    if !is_well_formed(memory) {
        assert_eq!(answer, ILL_FORMED);
        return answer;
    }
    let (expected, forms) = edited(memory, text);
    assert_eq!(answer, expected, "{}", String::from_utf8_lossy(text));
    let after = cache.memory();
    assert!(is_well_formed(&after));
    assert_eq!(after.forms(), forms);
    answer
}

/// The entries that a preview works out, and whether some are left.
fn to_work_out(memory: &Memory, entry: usize, allowance: u32) -> (Vec<usize>, bool) {
    let below = memory.forms().at_or_below(entry).into_iter();
    let mut unworked: Vec<usize> =
        below.filter(|below| memory.needs_work(*below) && memory.kept(*below) == 0).collect();
    let is_left = unworked.len() > allowance as usize;
    unworked.truncate(allowance as usize);
    (unworked, is_left)
}

/// What the forms show, if all kept results agree with it.
fn shown_by_forms(memory: &Memory) -> Option<Vec<Shown>> {
    let forms = memory.forms();
    let mut evaluation = Evaluation::new(&forms, memory.recording());
    let shown: Vec<Shown> = (0..forms.list.len()).map(|form| evaluation.show(form)).collect();
    let is_right = |entry: &usize| memory.shown(*entry).is_none_or(|kept| kept == shown[*entry]);
    (0..forms.list.len()).all(|entry| is_right(&entry)).then_some(shown)
}

fn check_preview(memory: &Memory, entry: u32, allowance: u32) -> Answer {
    count_preview(memory, entry, allowance, &mut Tally::default())
}

/// Checks a preview, and counts the results of rules that it worked out.
fn count_preview(memory: &Memory, entry: u32, allowance: u32, tally: &mut Tally) -> Answer {
    let mut cache = Cache::new(memory);
    let answer = cache.call(&preview(entry, allowance));
    if !is_well_formed(memory) {
        assert_eq!(answer, ILL_FORMED);
        return answer;
    }
    if entry as usize >= memory.entries() {
        assert_eq!(answer, Answer::Refused { number: NO_SUCH_ENTRY, place: 0 });
        return answer;
    }
    let entry = entry as usize;
    let after = cache.memory();
    let (unworked, is_left) = to_work_out(memory, entry, allowance);
    assert!(unworked.iter().all(|number| after.kept(*number) != 0), "{unworked:?}");
    let worked = unworked.len() as u32;
    if is_left {
        assert_eq!(answer, Answer::NotYet { worked });
    } else {
        let leaf = || Evaluation::new(&memory.forms(), memory.recording()).show(entry);
        let shown = after.shown(entry).unwrap_or_else(leaf);
        assert_eq!(answer, Answer::Finished { worked, shown });
    }
    assert!(is_well_formed(&after));
    if let Some(shown) = shown_by_forms(memory) {
        for number in unworked {
            assert_eq!(after.shown(number).as_ref(), Some(&shown[number]), "entry {number}");
            if let Form::Member(member, operands) = &memory.forms().list[number] {
                let operands: Vec<Shown> =
                    operands.iter().map(|operand| shown[*operand].clone()).collect();
                tally.count_rule(*member, &operands, &shown[number]);
            }
        }
    }
    answer
}

/// Checks a print into bytes of these contents.
fn check_print(memory: &Memory, entry: u32, bytes: Vec<u8>) -> Answer {
    let room = bytes.len();
    let answer = Cache::new(memory).call(&Call::Print { entry, bytes, enough: true });
    let refused = |number: u8| Answer::Refused { number, place: 0 };
    let expected = if !is_well_formed(memory) {
        ILL_FORMED
    } else if entry as usize >= memory.entries() {
        refused(NO_SUCH_ENTRY)
    } else {
        let printed = print::print(&memory.forms(), entry as usize, room);
        printed.map_or_else(|fault| refused(fault.number()), |text| Answer::Printed { text })
    };
    assert_eq!(answer, expected, "entry {entry}, {room} bytes");
    answer
}

/// An edit, a print and a preview of one memory, sometimes with longer slices.
fn check(rng: &mut Rng, memory: &Memory, tally: &mut Tally) {
    let memory = &if rng.one_in(4) { with_spare(rng, memory) } else { memory.clone() };
    let tokens = formula(rng);
    let text = match rng.below(4) {
        0 => wide(rng),
        1 => pasted(rng),
        _ => join(rng, &tokens),
    };
    tally.count(&check_edit(memory, &text));
    let held = memory.heads[0];
    let entry = match rng.below(8) {
        1..=3 if held > 0 => held - 1,
        4.. if held > 0 => rng.below(held.into()) as u32,
        _ => held,
    };
    let forms = if is_well_formed(memory) { memory.forms() } else { Forms::default() };
    let bytes = bytes_to_lend(rng, &forms, entry as usize);
    tally.count(&check_print(memory, entry, bytes));
    if are_affordable(&forms, memory.heads[1] as usize) {
        let allowance = rng.pick(&[0, 1, 2, 3, 512, u32::MAX]);
        let answer = count_preview(memory, entry, allowance, tally);
        tally.count(&answer);
    }
}

#[test]
fn damaged_caches() {
    let mut tally = Tally::default();
    for seed in 0..150 {
        let mut rng = Rng::new(seed);
        let memory = Pair::after(seed, &session(2_000_000 + seed, 60)).cache.memory();
        check(&mut rng, &memory, &mut tally);
        for _ in 0..120 {
            let mut damaged = memory.clone();
            damage(&mut rng, &mut damaged);
            check(&mut rng, &damaged, &mut tally);
        }
    }
    tally.check(&["refused 4", "refused 14", "edited", "not yet", "number", "window"], 100);
    tally.check(&["refused 5", "refused 13", "function", "delayed 1", "missing 1"], 5);
    tally.check(&["printed", "refused 15", "refused 16"], 100);
}

/// Each level that a session leaves, changed to the other one and to one too high, and a level
/// where there is none.
#[test]
fn changed_levels() {
    let mut tally = Tally::default();
    for seed in 0..40 {
        let mut rng = Rng::new(seed);
        let memory = Pair::after(seed, &session(4_000_000 + seed, 40)).cache.memory();
        for entry in 0..memory.entries() {
            let has_level = [VARIABLE, FUNCTION].contains(&memory.kind(entry));
            let mut changed = memory.clone();
            changed.links[4 * entry + 3] ^= 1;
            if has_level {
                check(&mut rng, &changed, &mut tally);
                changed.links[4 * entry + 3] = 2 + rng.below(65_534) as u16;
            }
            assert_eq!(check_edit(&changed, b"data"), ILL_FORMED);
        }
    }
    tally.check(&["refused 4", "edited", "printed"], 100);
    tally.check(&["refused 16", "delayed 1"], 30);
}

#[test]
fn made_up_caches() {
    let mut tally = Tally::default();
    let mut rng = Rng::new(21);
    for _ in 0..30_000 {
        let memory = made_up(&mut rng);
        check(&mut rng, &memory, &mut tally);
    }
    tally.check(&["refused 4", "refused 14", "edited", "not yet", "number", "window"], 100);
    tally.check(&["function", "delayed 1", "delayed 2", "missing 1", "missing 2"], 5);
    tally.check(&[DELAYED_TWICE], 5);
    tally.check(&["printed", "refused 15", "refused 16"], 100);
    tally.check_rules(&[("bestSum", "number"), ("bestAt", "number")], 5);
    tally.check_rules(&[("bestSum", "missing 4"), ("bestSum", "missing 5")], 5);
    tally.check_rules(&[("bestAt", "missing 5")], 5);
    tally.check_rules(&[("div", "missing 3"), ("div", ROUNDED_BELOW_0)], 5);
    for member in ["skip", "take", "at"] {
        tally.check_rules(&[(member, FROM_THE_END), (member, PAST_THE_FIRST)], 5);
    }
}

#[test]
fn memory_of_any_contents() {
    let mut rng = Rng::new(22);
    let mut tally = Tally::default();
    for fill in [0, 1, u64::MAX, 0x5555_5555_5555_5555, 1 << 63] {
        check(&mut rng, &Memory::filled(|| fill), &mut tally);
    }
    for _ in 0..300 {
        let mut memory = Memory::filled(|| rng.draw());
        check(&mut rng, &memory, &mut tally);
        memory.heads = vec![rng.below(600) as u32, rng.below(1100) as u32];
        check(&mut rng, &memory, &mut tally);
    }
    tally.check(&["refused 4"], 500);
    tally.check(&["edited"], 1);
}

/// Counts over the limits, on an otherwise good cache.
#[test]
fn counts_beyond_the_limits() {
    let mut memory = used().memory();
    for count in [513, 514, 1024, 65_536 + 3, u32::MAX] {
        memory.heads[0] = count;
        assert_eq!(check_edit(&memory, b"1"), ILL_FORMED);
        assert_eq!(check_preview(&memory, 0, 1), ILL_FORMED);
        assert_eq!(check_preview(&memory, count - 1, 1), ILL_FORMED);
        assert_eq!(check_print(&memory, 0, vec![0; 9]), ILL_FORMED);
        assert_eq!(check_print(&memory, count - 1, vec![0; 9]), ILL_FORMED);
    }
    let mut memory = used().memory();
    for count in [1025, 65_536 + 5, u32::MAX] {
        memory.heads[1] = count;
        assert_eq!(check_edit(&memory, b"1"), ILL_FORMED);
        assert_eq!(check_preview(&memory, 0, 1), ILL_FORMED);
        assert_eq!(check_print(&memory, 0, vec![0; 9]), ILL_FORMED);
    }
}

/// Entries 0 data, 1 number, 2 `data.skip(1)`, 3 and 4 variables b of level 0 and 1, which
/// differ in that alone, 5 `b.add(x)` of the two, 6 and 7 the functions around it, 8
/// `data.sumBy(7)`, 9 an unbound name. All are worked out, and behind them stands the entry
/// 10, `data.count()`, which is not.
fn used() -> Cache {
    let mut cache = Cache::new(&Memory::filled(|| 0));
    cache.call(&open(&RECORDING));
    cache.call(&edit("data.skip(1)"));
    cache.call(&edit("data.sumBy(\\b -> let x = b in \\b -> b.add(x))"));
    cache.call(&preview(8, ALL));
    cache.call(&edit("nobody"));
    cache.call(&edit("data.count()"));
    cache
}

/// A change of one cell: in `links` or in `cells`, at 4 x entry + at.
#[derive(Clone, Copy)]
enum Change {
    Link(usize, usize, u16),
    Cell(usize, usize, u64),
}

fn changed(change: Change) -> Memory {
    let mut memory = used().memory();
    match change {
        Change::Link(entry, at, value) => memory.links[4 * entry + at] = value,
        Change::Cell(entry, at, value) => memory.cells[4 * entry + at] = value,
    }
    memory
}

/// Each clause of refusal 4 by itself.
#[test]
fn clauses_of_refusal_4() {
    use Change::{Cell, Link};
    let clauses = [
        ("unknown kind", Link(9, 0, first_unknown())),
        ("unknown kind", Link(2, 0, u16::MAX)),
        ("a name that is none: empty", Cell(9, 0, 0)),
        ("a name that is none: a digit first", Cell(9, 0, 0x3161)),
        ("a name that is none: another byte", Cell(9, 0, 0x61_5f)),
        ("a name that is none: a zero byte", Cell(9, 0, 0x61_00_61)),
        ("a name that is none: let", Cell(9, 0, 0x6c6574)),
        ("a name that is none: in", Cell(9, 0, 0x696e)),
        ("a name that is none: data", Cell(9, 0, 0x64617461)),
        ("a function's name that is none", Cell(7, 0, 0x31)),
        ("a number beyond 32 bits", Cell(1, 0, 1 << 32)),
        ("a key where the kind has none", Cell(0, 0, 1)),
        ("a member with a key", Cell(10, 0, 1)),
        ("too few dependencies: none", Link(10, 1, 0)),
        ("too few dependencies: one", Link(2, 2, 0)),
        ("too few dependencies: only the second", Link(2, 1, 0)),
        ("too many dependencies", Link(10, 2, 1)),
        ("a number with a dependency", Link(1, 1, 1)),
        ("a function with two dependencies", Link(7, 2, 1)),
        ("depends on itself", Link(10, 1, 11)),
        ("depends on a higher entry", Link(2, 1, 9)),
        ("depends on no entry", Link(10, 1, u16::MAX)),
        ("equal entries twice, of level 0", Link(4, 3, 0)),
        ("equal entries twice, of level 1", Link(3, 3, 1)),
        ("a variable of level 2", Link(4, 3, 2)),
        ("a variable far over level 1", Link(3, 3, u16::MAX)),
        ("a function of level 2", Link(6, 3, 2)),
        ("a function far over level 1", Link(7, 3, 256)),
        ("a number with a level", Link(1, 3, 1)),
        ("an unbound name with a level", Link(9, 3, 1)),
        ("the recording with a level", Link(0, 3, 1)),
        ("a member with a level", Link(2, 3, 1)),
        ("a member with a level over 1", Link(10, 3, 2)),
        ("a kept number beyond 32 bits", Cell(2, 1, (1 << 32) + 1)),
        ("a kept window beyond the recording", Cell(2, 1, (1 << 33) + 65_536 + 5)),
        ("a kept window from beyond the recording", Cell(2, 1, (1 << 33) + 6 * 65_536)),
        ("a kept function with another cell", Cell(7, 1, (1 << 34) + 1)),
        ("a kept delay with another cell", Cell(6, 1, (3 << 33) + 1)),
        ("reason 0", Cell(2, 1, 1 << 35)),
        ("reason 6", Cell(2, 1, (1 << 35) + 6)),
        ("a kept cell beyond all kinds", Cell(2, 1, u64::MAX)),
        ("a name beside a window", Cell(2, 2, 0x61)),
        ("a second name beside a window", Cell(2, 3, 0x61)),
        ("a second name beside a function", Cell(7, 3, 0x61)),
        ("a function without a name", Cell(7, 2, 0)),
        ("a delay with a second name alone", Cell(5, 2, 0)),
        ("a delay with a name that is none", Cell(5, 3, 0x31)),
        ("a name without a result", Cell(10, 2, 0x61)),
        ("a number that keeps a result", Cell(1, 1, 1)),
        ("a variable that keeps a result", Cell(3, 1, 3 << 33)),
        ("worked out over an unworked receiver", Cell(6, 1, 0)),
    ];
    for (clause, change) in clauses {
        let memory = changed(change);
        assert!(!is_well_formed(&memory), "{clause}");
        assert_eq!(check_edit(&memory, b"data"), ILL_FORMED, "{clause}");
        assert_eq!(check_preview(&memory, 0, 1), ILL_FORMED, "{clause}");
        for entry in [0, 11] {
            assert_eq!(check_print(&memory, entry, vec![1; 4]), ILL_FORMED, "{clause}");
        }
    }
}

/// Each member by its kind, on as many dependencies as it takes: entry 2 has a receiver
/// and an argument, entry 10 a receiver alone. With any other number of them, and for the
/// kind behind the last, the cache is ill-formed.
#[test]
fn kinds_of_members() {
    let mut unknown = MEMBERS;
    for member in Member::all() {
        let (right, wrong) = if member.arguments() == 1 { (2, 10) } else { (10, 2) };
        let mut memory = changed(Change::Link(right, 0, unknown));
        memory.cells[4 * right + 1] = 0;
        assert!(is_well_formed(&memory), "{member:?}");
        let answer = check_preview(&memory, right as u32, ALL);
        assert!(matches!(answer, Answer::Finished { worked: 1, .. }), "{member:?}: {answer:?}");
        let text = format!("data.{member:?}({})", ["", "1"][member.arguments()]);
        let room = text.len();
        let answer = check_print(&memory, right as u32, vec![0; room]);
        assert_eq!(answer, Answer::Printed { text });
        let memory = changed(Change::Link(wrong, 0, unknown));
        assert_eq!(check_edit(&memory, b"data"), ILL_FORMED, "{member:?}");
        unknown += 1;
    }
    for entry in [2, 10] {
        assert_eq!(check_edit(&changed(Change::Link(entry, 0, unknown)), b"data"), ILL_FORMED);
    }
}

/// An entry that awaits three names, by a third variable that is added to two others. Names
/// are counted with their levels: the first two have one spelling.
#[test]
fn three_awaited_names_are_refused() {
    let mut memory = used().memory();
    memory.heads[0] = 13;
    memory.links[44..52].copy_from_slice(&[VARIABLE, 0, 0, 0, MEMBERS, 6, 12, 0]);
    memory.cells[44..52].copy_from_slice(&[0x63, 0, 0, 0, 0, 0, 0, 0]);
    for level in [0, 1] {
        memory.links[47] = level;
        assert!(!is_well_formed(&memory));
        assert_eq!(check_edit(&memory, b"data"), ILL_FORMED);
        assert_eq!(check_print(&memory, 0, vec![0; 4]), ILL_FORMED);
    }
    memory.links[49] = 4;
    assert!(is_well_formed(&memory));
    check_print(&memory, 12, vec![0; 100]);
    assert!(matches!(check_edit(&memory, b"data"), Answer::Edited { whole: 0, new: 0, .. }));
}

/// Contents at the limits that are not refused.
#[test]
fn good_contents_at_the_limits() {
    use Change::{Cell, Link};
    let contents = [
        Cell(0, 0, 0),
        Cell(1, 0, (1 << 32) - 1),
        Cell(9, 0, 0x61_62_63_64_65_66_67_68),
        Cell(9, 0, 0x5a),
        Cell(9, 0, 0x6c6573),
        Cell(2, 1, 1),
        Cell(2, 1, 1 << 32),
        Cell(2, 1, 1 << 33),
        Cell(2, 1, (1 << 33) + 65_536 + 4),
        Cell(2, 1, (1 << 33) + 5 * 65_536),
        Cell(2, 1, (1 << 35) + 1),
        Cell(2, 1, (1 << 35) + 5),
        Cell(6, 2, 0),
        Cell(6, 2, 0x7a),
        Cell(6, 3, 0x7a),
        Cell(8, 1, 0),
        Link(6, 3, 0),
        Link(7, 3, 1),
        Cell(3, 0, 0x61),
        Cell(4, 0, 0x61),
    ];
    for change in contents {
        let memory = changed(change);
        assert!(is_well_formed(&memory));
        let answer = check_edit(&memory, b"data");
        assert!(matches!(answer, Answer::Edited { whole: 0, new: 0, .. }), "{answer:?}");
        for entry in 0..11 {
            let answer = check_preview(&memory, entry, ALL);
            assert!(matches!(answer, Answer::Finished { .. }), "{answer:?}");
            check_print(&memory, entry, vec![0; 1024]);
        }
    }
}

/// A full table over one entry, the number 1: each further entry depends on the one before
/// it, by as many of its links as there are here.
fn tower(kind: u16, key: u64, links: usize) -> Memory {
    let mut memory = Memory::filled(|| 0);
    memory.heads[0] = 512;
    memory.cells[0] = (1 << 31) + 1;
    for entry in 1..512 {
        memory.links[4 * entry] = kind;
        memory.links[4 * entry + 1..4 * entry + 1 + links].fill(entry as u16);
        memory.cells[4 * entry] = key;
    }
    assert!(is_well_formed(&memory));
    memory
}

/// Forms far larger than a text, and such as are just small enough: each doubled, in a
/// chain of calls, or functions in one another.
#[test]
fn prints_of_towers() {
    let kind = |name: &str| {
        let at = Member::all().position(|member| member.name() == name).expect("a member");
        MEMBERS + at as u16
    };
    let (doubles, calls, functions) =
        (tower(kind("add"), 0, 2), tower(kind("count"), 0, 1), tower(FUNCTION, 0x61, 1));
    for (memory, most) in [(doubles, 6), (calls, 127), (functions, 1)] {
        for entry in (0..140).chain([200, 510, 511]) {
            for room in [0, 1, 441, 442, 1016, 1017, 1018, 1023, 1024, 1025, 4096] {
                let answer = check_print(&memory, entry, vec![0xff; room]);
                let is_printed = matches!(answer, Answer::Printed { .. });
                assert!(is_printed == (entry <= most) || room < 1017, "{entry}: {answer:?}");
            }
        }
        check_print(&memory, 512, vec![0; 4096]);
    }
}

/// Two entries that differ in level only are two: a function of level 0 around one of level 1
/// is printed, and one of level 0 around one of level 0, or 1 around 1, is not.
#[test]
fn levels_of_functions_in_one_another() {
    for (inner, outer) in [(0, 0), (0, 1), (1, 0), (1, 1)] {
        let mut memory = tower(FUNCTION, 0x61, 1);
        memory.heads[0] = 3;
        memory.links[7] = inner;
        memory.links[11] = outer;
        assert!(is_well_formed(&memory));
        let printed = |text: &str| Answer::Printed { text: text.into() };
        let other = Answer::Refused { number: OTHER_FORM, place: 0 };
        let alone = if inner == 0 { printed("\\a -> 1") } else { other.clone() };
        assert_eq!(check_print(&memory, 1, vec![0; 100]), alone);
        let both = if (inner, outer) == (1, 0) { printed("\\a -> \\a -> 1") } else { other };
        assert_eq!(check_print(&memory, 2, vec![0; 100]), both);
        let (new, whole) = if (inner, outer) == (1, 0) { (0, 2) } else { (2 - inner, 4 - inner) };
        let answer = check_edit(&memory, b"\\a -> \\a -> 1");
        let expected = (u32::from(new), u32::from(whole));
        assert!(
            matches!(answer, Answer::Edited { new, whole, .. } if (new, whole) == expected),
            "{answer:?}"
        );
    }
}

/// A function awaits all variables of its body but its own, by name and level: entry 6 is that
/// of one of the two, and entry 7 that of the other or of the same.
#[test]
fn a_function_puts_its_own_variable_alone() {
    for (level, is_own) in [(0, false), (1, true)] {
        let mut memory = used().memory();
        memory.links[27] = level;
        memory.cells[25..28].fill(0);
        (7..9).for_each(|entry| memory.cells[4 * entry + 1..4 * entry + 4].fill(0));
        assert!(is_well_formed(&memory));
        let delayed = Shown::Delayed(vec![name(0x62)]);
        let expected = Answer::Finished { worked: 1, shown: delayed.clone() };
        assert_eq!(check_preview(&memory, 6, ALL), expected);
        let shown = if is_own { Shown::Function(name(0x62)) } else { delayed };
        assert_eq!(check_preview(&memory, 7, ALL), Answer::Finished { worked: 2, shown });
    }
}
