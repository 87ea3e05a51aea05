//! Bytes of stack that the calls and parts of the engine use: a call runs on a painted buffer, and what is no longer paint was used.

use crate::cache::{self, Cache, ENTRIES};
use crate::evaluating::{NESTED, SINGLE, THREE_DEEP, formula};
use crate::figures::{ENGINE, Figures};
use crate::member::Member::{Add, SumBy, Take};
use crate::{proved, tables, texts};
use plain::samples::taken::{doubled_deep, nested_runs};
use std::arch::asm;

const BYTES: usize = 1 << 23;
const PAINTS: [u8; 2] = [0xa5, 0x5a];

/// Functions that are judged while others are judged or run: these take a frame as runs do.
const FUNCTIONS: &str = r"\a -> \b -> a.add(b)";
const RUN_AND_FUNCTION: &str = r"data.sumBy(\p -> (\q -> q.add(p)).add(1))";
const RUNS_AND_FUNCTION: &str =
    r"let f = \q -> (\s -> s.add(q)).add(1) in data.sumBy(\p -> data.take(p).sumBy(f))";

/// The recording of runs in one another: each window is one reading, so that they come to an end.
const FEW: [i32; 1] = [1];

/// Bodies whose members are used on windows that depend on the variable.
const RUN_AND_WINDOWS: &str =
    r"data.sumBy(\b -> data.skip(b).bestSum(1).add(data.take(b).sum()))";
const RUNS_AND_WINDOWS: &str =
    r"data.sumBy(\p -> data.sumBy(\q -> data.skip(q).bestAt(p).add(data.at(q))))";

/// Runs a closure at the bottom of the new stack.
extern "C" fn enter<F: FnMut()>(run: *mut F) {
    // SAFETY: `on_painted` passes a live closure that nothing else uses.
    unsafe { (*run)() }
}

/// How much of a painted stack the call uses.
fn on_painted<F: FnMut()>(paint: u8, run: &mut F) -> usize {
    let mut memory = vec![paint; BYTES];
    let top = memory.as_mut_ptr_range().end as usize & !15;
    // SAFETY: the new stack is a live buffer, aligned as a call asks for, and large enough for what is measured; the old stack pointer is
    // kept in a register that a callee preserves, and put back.
    unsafe {
        asm!(
            "mov r12, rsp",
            "mov rsp, {top}",
            "call {enter}",
            "mov rsp, r12",
            top = in(reg) top,
            enter = in(reg) enter::<F> as extern "C" fn(*mut F),
            in("rdi") run,
            out("r12") _,
            clobber_abi("C"),
        );
    }
    let kept = memory.iter().take_while(|&&byte| byte == paint).count();
    assert!(kept > 0, "the painted stack is too small");
    BYTES - kept
}

/// What the call uses beyond a call that does nothing. That one writes little more than a return address, whose last byte may be one of the
/// paints by chance.
fn used(mut run: impl FnMut()) -> f64 {
    let [one, other] = PAINTS.map(|paint| on_painted(paint, &mut || ()));
    (on_painted(PAINTS[0], &mut run) - one.max(other)) as f64
}

/// The deepest texts.
fn texts() -> [(&'static str, Vec<u8>); 9] {
    [
        ("16 open marks: calls in arguments", texts::nested_calls()),
        ("16 open marks: calls in arguments, on brackets", texts::bracketed_receivers()),
        ("16 open marks: lets in values", texts::nested_lets()),
        ("16 open marks: lets in bodies", texts::lets_in_bodies()),
        ("16 open marks: brackets", texts::nested_brackets()),
        ("a chain of 127 calls", texts::long_chain()),
        ("a chain of 63 calls with arguments", texts::long_chain_with_arguments()),
        ("a chain of 97 calls behind 15 open marks", texts::chain_in_calls()),
        ("1,024 bytes and 128 parts", texts::dense()),
    ]
}

/// A cache that no text makes, whose last entry has so many runs in one another: each function runs the one before it over a window that
/// depends on its own variable.
fn deepest(recording: &[i32]) -> (Cache, u32) {
    let mut cache = Cache::new(recording);
    let (data, a) = (cache.data(), cache.variable("a"));
    let window = cache.member(Take, data, a);
    let sum = cache.member(Add, a, a);
    let mut function = cache.function("a", sum);
    let mut runs = 1;
    while cache.heads[0] as usize + 3 <= ENTRIES {
        let sum = cache.member(SumBy, window, function);
        function = cache.function("a", sum);
        runs += 1;
    }
    cache.member(SumBy, data, function);
    (cache, runs)
}

/// A cache that no text makes: each entry depends on the one before it, in one of these ways, over the number in entry 0.
fn towers() -> [(&'static str, Cache); 4] {
    let tower = |add: fn(&mut Cache, u16) -> u16| {
        let mut cache = Cache::new(&[]);
        let mut last = cache.number(1);
        while (cache.heads[0] as usize) < ENTRIES {
            last = add(&mut cache, last);
        }
        cache
    };
    [
        ("511 calls in one another's arguments", tower(|cache, last| cache.member(Add, 0, last))),
        ("a chain of 511 calls", tower(|cache, last| cache.member(Add, last, 0))),
        ("511 calls that each double", tower(|cache, last| cache.member(Add, last, last))),
        ("511 functions in one another", tower(|cache, last| cache.function("a", last))),
    ]
}

/// A cache that no text makes, without a run: each function stands in the body of the next and awaits its variable, so that all are judged in
/// one another.
fn deepest_functions(recording: &[i32]) -> (Cache, u32) {
    let mut cache = Cache::new(recording);
    let names = ["a", "b"];
    let variables = names.map(|name| cache.variable(name));
    let mut body = cache.member(Add, variables[0], variables[1]);
    let mut functions = 0;
    loop {
        let function = cache.function(names[functions % 2], body);
        functions += 1;
        if cache.heads[0] as usize + 2 > ENTRIES {
            return (cache, functions as u32);
        }
        body = cache.member(Add, function, variables[(functions + 1) % 2]);
    }
}

pub fn measure(readings: &[i32], figures: &mut Figures) {
    let mut cache = Cache::new(&[]);
    bytes("open: 1,024 readings", used(|| cache.open(readings)), figures);
    edits(readings, figures);
    let full = tables::worked(tables::full(readings));
    preview("nothing to work out and 512 entries held", full.clone(), figures);
    previews(figures);
    prints(figures);
    evaluations(figures);
    parts(&full, figures);
}

fn bytes(case: &str, used: f64, figures: &mut Figures) {
    figures.row("stack", case, 0, &[(ENGINE, used)]);
}

fn edits(readings: &[i32], figures: &mut Figures) {
    let mut edit = |name: &str, mut cache: Cache, text: &[u8], refusal: u32| {
        let edit = used(|| assert_eq!(cache.edit(text).refusal, refusal));
        bytes(&format!("edit: {name}"), edit, figures);
    };
    for (name, text) in texts() {
        edit(name, Cache::new(readings), &text, 0);
    }
    let refused = texts::one_mark_too_many();
    edit(
        "17 open marks: calls in arguments, on brackets; refused",
        Cache::new(readings),
        &refused,
        12,
    );
    edit("512 entries held, no new one", tables::full(readings), b"data", 0);
}

/// A preview of the last entry.
fn preview(name: &str, mut cache: Cache, figures: &mut Figures) {
    let last = cache.heads[0] - 1;
    let preview = used(|| assert_eq!(cache.preview(last).finished, 1));
    bytes(&format!("preview: {name}"), preview, figures);
}

/// Runs and functions in one another.
fn runs() -> [(&'static str, String); 10] {
    [
        ("no run", "data.skip(1).sum()"),
        ("no run, a function in a function", FUNCTIONS),
        ("1 run", SINGLE),
        ("1 run, windows in its body", RUN_AND_WINDOWS),
        ("1 run, a function in its body", RUN_AND_FUNCTION),
        ("2 runs in one another", NESTED),
        ("2 runs in one another, windows in the inner body", RUNS_AND_WINDOWS),
        ("2 runs in one another, a function in the inner body", RUNS_AND_FUNCTION),
        ("3 runs in one another", THREE_DEEP),
        ("22 runs in one another: the most in 128 parts", &nested_runs(22)),
    ]
    .map(|(name, text)| (name, text.to_string()))
}

fn previews(figures: &mut Figures) {
    for (name, text) in runs() {
        preview(name, formula(&text, &FEW).cache, figures);
    }
    let (cache, runs) = deepest(&FEW);
    preview(&format!("{runs} runs in one another: a cache that no text makes"), cache, figures);
    let (cache, functions) = deepest_functions(&FEW);
    let name = format!("no run, {functions} functions in one another: a cache that no text makes");
    preview(&name, cache, figures);
}

/// Texts that are printed, and the refusal of their print.
fn printed() -> [(&'static str, Vec<u8>, u32); 7] {
    [
        ("a small formula", b"data.skip(1).sum()".to_vec(), 0),
        ("a chain of 127 calls", texts::long_chain(), 0),
        ("16 open marks: calls in arguments", texts::nested_calls(), 0),
        ("16 open marks: functions in brackets", texts::bracketed_functions(), 0),
        ("calls in arguments, 972 bytes", texts::printed_arguments(), 0),
        ("lets that double 6 times", texts::doubled(6), 0),
        ("lets that double 14 times; refused", texts::doubled(14), 15),
    ]
}

/// Prints of the whole of a text, and of the last entry of a cache.
fn prints(figures: &mut Figures) {
    let mut print = |name: &str, cache: &Cache, entry: u32, refusal: u32| {
        let mut text = [0; 1024];
        let print = used(|| assert_eq!(cache.print(entry, &mut text).refusal, refusal));
        bytes(&format!("print: {name}"), print, figures);
    };
    for (name, text, refusal) in printed() {
        let mut cache = Cache::new(&[]);
        let whole = cache.edit(&text).whole;
        print(name, &cache, whole, refusal);
    }
    for (name, cache) in towers() {
        let name = format!("{name}: a cache that no text makes; refused");
        print(&name, &cache, ENTRIES as u32 - 1, 15);
    }
}

/// Evaluations of the whole of a text: the deepest texts, runs in one another, and lets that each use the one before them.
fn evaluations(figures: &mut Figures) {
    let runs = runs().map(|(name, text)| (name, text.into_bytes()));
    let lets = [
        ("lets in bodies that double 14 times", texts::doubled(14)),
        ("lets in values that double 31 times", doubled_deep("1", 31).into_bytes()),
        (
            "1 run, lets in values that double 31 times",
            format!(r"data.sumBy(\x -> {})", doubled_deep("x", 31)).into_bytes(),
        ),
    ];
    for (name, text) in texts().into_iter().chain(runs).chain(lets) {
        let place = cache::place_of_whole(&text);
        let evaluate = used(|| assert_eq!(cache::evaluate(&text, &FEW, place).refusal, 0));
        bytes(&format!("evaluate: {name}"), evaluate, figures);
    }
}

/// The parts of the engine by themselves.
fn parts(full: &Cache, figures: &mut Figures) {
    for (name, text) in texts() {
        let (mut records, mut places) = ([0; 256], [0; 128]);
        let read = used(|| assert!(proved::read(&text, &mut records, &mut places) >> 32 == 0));
        bytes(&format!("part: reading {name}"), read, figures);
    }
    for (name, text, refusal) in printed() {
        let mut cache = Cache::new(&[]);
        let entry = cache.edit(&text).whole;
        let mut text = [0; 1024];
        let print = used(|| {
            let length = proved::print(entry, &mut text, &cache.links, &cache.cells);
            assert_eq!(length > 0, refusal == 0);
        });
        bytes(&format!("part: printing {name}"), print, figures);
    }
    let well_formed = used(|| {
        assert!(proved::is_well_formed(&full.heads, &full.links, &full.cells));
    });
    bytes("part: well-formedness of 512 entries", well_formed, figures);
    let records = tables::records();
    let bind = used(|| {
        proved::bind(&full.links, &full.cells, 384, &records, 128);
    });
    bytes("part: binding 128 records to 384 entries", bind, figures);
    let mut own = full.clone();
    let work = used(|| assert!(!own.work(511).1));
    bytes("part: working out nothing with 512 entries", work, figures);
    for (name, text) in [("1 run", SINGLE), ("2 runs", NESTED), ("3 runs", THREE_DEEP)] {
        let mut formula = formula(text, &[3, 1, 2]);
        let work = used(|| assert!(!formula.cache.work(formula.entry).1));
        bytes(&format!("part: working out {name}"), work, figures);
    }
}
