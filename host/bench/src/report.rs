//! The tables of docs/BENCHMARKS.md and the plots beside it, from the figures. A table stands between the lines `<!-- NAME -->` and
//! `<!-- end -->`; all else on the page stays.

use crate::figures::{ENGINE, Figures, PLAIN, name};
use crate::plot::{self, Panel};
use crate::{cacheless, formulas, lua};
use std::path::Path;
use std::{fs, io};

type Sides<'a> = &'a [&'a str];

/// The sides that the engine is compared with.
fn others() -> Vec<&'static str> {
    [PLAIN].into_iter().chain(lua::SIDES.map(|side| side.name)).collect()
}

/// The tables by their names; those of figures have the name of their group.
fn tables(figures: &Figures) -> Vec<(&'static str, String)> {
    let others = others();
    vec![
        ("machine", figures.notes.join(". ") + ".\n"),
        ("summary", summary(figures, &others)),
        ("formulas", formulas::list()),
        ("first", ratios(figures, "first", &others)),
        ("edit", ratios(figures, "edit", &others)),
        ("typing", ratios(figures, "typing", &[PLAIN])),
        ("entries", values(figures, "entries", &HELD, microseconds)),
        ("readings", ratios(figures, "readings", &others)),
        ("calls", values(figures, "calls", &[ENGINE], microseconds)),
        ("parts", ratios(figures, "parts", &[PLAIN])),
        ("reading", ratios(figures, "reading", &[PLAIN])),
        ("printing", ratios(figures, "printing", &[PLAIN])),
        ("printer", ratios(figures, "printer", &[PLAIN])),
        ("plain", values(figures, "plain", &cacheless::SIDES, microseconds)),
        ("stretches", ratios(figures, "stretches", &others)),
        ("stretch", ratios(figures, "stretch", &[PLAIN])),
        ("stack", values(figures, "stack", &[ENGINE], plot::number)),
        ("size", values(figures, "size", &[ENGINE], plot::number)),
    ]
}

/// All tables and plots.
pub fn write(figures: &Figures, docs: &Path) -> io::Result<()> {
    write_tables(figures, docs, |_| true)?;
    let others = others();
    let all = [&[ENGINE], &others[..]].concat();
    let plot = |file: &str, svg: String| fs::write(docs.join(file), svg);
    plot("bench-first.svg", dots(figures, "first", &others))?;
    plot("bench-edit.svg", dots(figures, "edit", &others))?;
    let keys = so_far(panels(figures, "keys", &[ENGINE, PLAIN]));
    let axes = ("keystroke", "milliseconds so far");
    plot("bench-typing.svg", plot::lines(&keys, &[ENGINE, PLAIN], axes, false))?;
    let held = panels(figures, "entries", &HELD);
    plot("bench-entries.svg", plot::lines(&held, &HELD, ("entries held", "ns"), true))?;
    let readings = panels(figures, "readings", &all);
    plot("bench-readings.svg", plot::lines(&readings, &all, ("readings", "ns"), true))
}

/// The tables whose names are wanted. The others stay as they are: those of a whole run were made before its figures were rounded.
pub fn write_tables(
    figures: &Figures,
    docs: &Path,
    is_wanted: impl Fn(&str) -> bool,
) -> io::Result<()> {
    let page = docs.join("BENCHMARKS.md");
    let mut text = fs::read_to_string(&page)?;
    for (name, table) in tables(figures).into_iter().filter(|(name, _)| is_wanted(name)) {
        text = filled(&text, name, &table);
    }
    fs::write(page, text)
}

/// The sides of the group that counts entries.
const HELD: [&str; 3] = ["edit", "refused edit", "preview"];

fn filled(page: &str, name: &str, block: &str) -> String {
    let begin = format!("<!-- {name} -->\n");
    let parted = page
        .split_once(&begin)
        .and_then(|(before, rest)| Some((before, rest.split_once("<!-- end -->")?.1)));
    let (before, after) = parted.unwrap_or_else(|| panic!("the page has no place for {name}"));
    format!("{before}{begin}{block}<!-- end -->{after}")
}

/// Two digits that count.
fn two_digits(value: f64) -> String {
    let digits = (1 - value.log10().floor() as i32).clamp(0, 9) as usize;
    format!("{value:.digits$}")
}

/// Three digits that count.
fn microseconds(nanoseconds: f64) -> String {
    let value = nanoseconds / 1_000.0;
    let digits = (2 - value.log10().floor() as i32).clamp(0, 9) as usize;
    if value < 1_000.0 { format!("{value:.digits$}") } else { plot::number(value) }
}

fn table(heading: Vec<String>, rows: impl Iterator<Item = Vec<String>>) -> String {
    let mut text = format!("| {} |\n|{}\n", heading.join(" | "), "---|".repeat(heading.len()));
    for row in rows {
        text += &format!("| {} |\n", row.join(" | "));
    }
    text
}

/// The engine's time over another side's.
fn ratio(figures: &Figures, group: &str, case: (&str, u32), side: &str) -> Option<f64> {
    Some(figures.value(group, case, ENGINE)? / figures.value(group, case, side)?)
}

/// The engine's time, and its ratio to each side.
fn ratios(figures: &Figures, group: &str, sides: Sides) -> String {
    let mut heading = vec!["case".to_string(), "engine, µs".to_string()];
    heading.extend(sides.iter().map(|side| format!("to {side}")));
    let rows = figures.cases(group).into_iter().map(|case| {
        let time = figures.value(group, case, ENGINE).map_or(String::new(), microseconds);
        let cell = |side: &&str| {
            ratio(figures, group, case, side).map_or("not installed".to_string(), two_digits)
        };
        [name(case), time].into_iter().chain(sides.iter().map(cell)).collect()
    });
    table(heading, rows)
}

/// The figures of each side as they are, by a way to write them.
fn values(figures: &Figures, group: &str, sides: Sides, write: fn(f64) -> String) -> String {
    let heading = ["case"].iter().chain(sides).map(|word| word.to_string()).collect();
    let rows = figures.cases(group).into_iter().map(|case| {
        let cell = |side: &&str| figures.value(group, case, side).map_or(String::new(), write);
        [name(case)].into_iter().chain(sides.iter().map(cell)).collect()
    });
    table(heading, rows)
}

/// For each side and group the least and the greatest ratio, and how often the engine is slower.
fn summary(figures: &Figures, sides: Sides) -> String {
    let groups = [
        ("first evaluation", "first"),
        ("after an edit", "edit"),
        ("typing", "typing"),
        ("1 to 1,024 readings", "readings"),
    ];
    let heading = ["side"].into_iter().chain(groups.map(|group| group.0)).map(String::from);
    let rows = sides.iter().map(|side| {
        let cell = |(_, group): (&str, &str)| {
            let cases = figures.cases(group).into_iter();
            let ratios: Vec<f64> =
                cases.filter_map(|case| ratio(figures, group, case, side)).collect();
            extremes(&ratios)
        };
        [side.to_string()].into_iter().chain(groups.map(cell)).collect()
    });
    table(heading.collect(), rows)
}

fn extremes(ratios: &[f64]) -> String {
    let least = ratios.iter().copied().fold(f64::INFINITY, f64::min);
    let most = ratios.iter().copied().fold(0.0, f64::max);
    let slower = ratios.iter().filter(|ratio| **ratio > 1.0).count();
    match ratios.len() {
        0 => "not taken".to_string(),
        all => {
            format!("{} to {}, slower in {slower} of {all}", two_digits(least), two_digits(most))
        }
    }
}

fn dots(figures: &Figures, group: &str, sides: Sides) -> String {
    let title = "the engine's time to that of the side; left of 1 the engine is faster";
    let row =
        |case| (name(case), sides.iter().map(|side| ratio(figures, group, case, side)).collect());
    plot::dots(&figures.cases(group).into_iter().map(row).collect::<Vec<_>>(), sides, title)
}

/// A panel for each case of a group, with a point for each size.
fn panels(figures: &Figures, group: &str, sides: Sides) -> Vec<Panel> {
    let mut cases: Vec<&str> = figures.cases(group).into_iter().map(|case| case.0).collect();
    cases.dedup();
    let panel = |case: &&str| {
        let points = |side: &&str| figures.points(group, case, side);
        Panel { title: case.to_string(), sides: sides.iter().map(points).collect() }
    };
    cases.iter().map(panel).collect()
}

/// Sums from the first point on, in milliseconds.
fn so_far(mut panels: Vec<Panel>) -> Vec<Panel> {
    for points in panels.iter_mut().flat_map(|panel| &mut panel.sides) {
        let mut total = 0.0;
        for point in points {
            total += point.1 / 1e6;
            point.1 = total;
        }
    }
    panels
}
