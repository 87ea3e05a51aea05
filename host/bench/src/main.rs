//! Benchmarks: the engine's calls against a plain recomputation and Lua, parts of the engine against plain Rust, evaluations without a cache
//! against those through one, stack and code size.
//!
//! With no words all groups run; the figures go to docs/benchmarks/figures.csv, and the tables of docs/BENCHMARKS.md and the plots are made
//! from them. The name of a group runs it alone and writes nothing. Behind some of them the word `keep` puts what was measured in place of
//! what was kept, and makes the tables anew. The word `report` makes tables and plots anew from the kept figures.

mod bodies;
mod cache;
mod cacheless;
mod compare;
mod edits;
mod entries;
mod evaluating;
mod figures;
mod first;
mod formulas;
mod lua;
mod machine;
mod member;
mod plot;
mod printing;
mod proved;
mod reader;
mod reading;
mod report;
mod size;
mod stack;
mod stretches;
mod table;
mod tables;
mod texts;
mod timing;
mod tree;
mod typing;
mod windows;

use figures::Figures;
use std::path::Path;
use std::{fs, io};

type Measure = fn(&[i32], &mut Figures);

const GROUPS: &[(&str, Measure)] = &[
    ("first", first::measure),
    ("edits", edits::measure),
    ("typing", typing::measure),
    ("entries", entries::measure),
    ("readings", first::against_readings),
    ("calls", entries::calls),
    ("windows", windows::measure),
    ("stretches", stretches::measure),
    ("evaluating", evaluating::measure),
    ("bodies", bodies::measure),
    ("reading", |_, figures| reading::measure(figures)),
    ("printing", |_, figures| printing::measure(figures)),
    ("plain", cacheless::measure),
    ("tables", tables::measure),
    ("stack", stack::measure),
    ("size", |_, figures| size::measure(figures)),
];

/// The groups that can be kept by themselves: bytes, which don't depend on what else the machine does, and times of which no other table or
/// plot is made.
const KEPT: [&str; 6] = ["stack", "size", "stretches", "reading", "printing", "plain"];

/// All groups run so often, so that other work on the machine for a while does not decide a figure.
const PASSES: u32 = 3;

/// Whether figures are kept, by the words of the command; or what is wrong with them.
fn is_kept(words: &[String]) -> Result<bool, String> {
    let words: Vec<&str> = words.iter().map(String::as_str).collect();
    match words[..] {
        [] => Ok(true),
        [group] if GROUPS.iter().any(|(name, _)| *name == group) => Ok(false),
        [group, "keep"] if KEPT.contains(&group) => Ok(true),
        _ => {
            let names = GROUPS.iter().map(|(name, _)| *name).collect::<Vec<_>>().join(", ");
            let kept = KEPT.join(" or ");
            Err(format!("the words are one of {names}; report; or {kept} and then keep"))
        }
    }
}

fn main() -> io::Result<()> {
    // synthetic readings of a run, between 90 and 190
    let readings: Vec<i32> = (0..1024).map(|i| 140 + (i * 37 % 101) - 50).collect();
    let docs = Path::new(env!("CARGO_MANIFEST_DIR")).join("../../docs");
    let file = docs.join("benchmarks/figures.csv");
    let words: Vec<String> = std::env::args().skip(1).collect();
    let only = words.first().cloned();
    if only.as_deref() == Some("report") {
        return report::write(&Figures::read(&file)?, &docs);
    }
    let is_kept = is_kept(&words).map_err(io::Error::other)?;
    let mut figures = Figures::default();
    figures.notes = machine::notes();
    for pass in 1..=PASSES {
        for (name, measure) in GROUPS {
            if only.as_deref().is_none_or(|word| word == *name) {
                eprintln!("pass {pass} of {PASSES}: {name}");
                measure(&readings, &mut figures);
            }
        }
    }
    figures.print();
    fs::create_dir_all(docs.join("benchmarks"))?;
    if !is_kept {
        return Ok(());
    }
    if only.is_none() {
        figures.write(&file)?;
        return report::write(&figures, &docs);
    }
    let groups = figures.groups();
    let kept = Figures::read(&file)?.with_groups(figures);
    kept.write(&file)?;
    report::write_tables(&kept, &docs, |name| groups.contains(name))
}
