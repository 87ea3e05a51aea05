//! The figures of a run, kept in one file, from which the tables and plots are made.

use crate::plot;
use std::collections::BTreeSet;
use std::path::Path;
use std::{fs, io};

pub const ENGINE: &str = "engine";
pub const PLAIN: &str = "plain Rust";

/// What a side of a case takes, in nanoseconds or bytes; `at` is the size at which it was taken, 0 where there is one only.
pub struct Figure {
    pub group: String,
    pub case: String,
    pub at: u32,
    pub side: String,
    pub value: f64,
}

impl Figure {
    fn is(&self, group: &str, case: (&str, u32), side: &str) -> bool {
        self.group == group && (self.case.as_str(), self.at) == case && self.side == side
    }
}

#[derive(Default)]
pub struct Figures {
    pub list: Vec<Figure>,
    /// What the figures were taken on and with.
    pub notes: Vec<String>,
    /// The ratios to plain Rust that parts of the engine aim at, each with its group and case.
    aims: Vec<(String, String, f64)>,
}

impl Figures {
    /// Keeps a figure; of one that is taken again, the better. A case has no quotes, and the other words have no commas.
    pub fn put(&mut self, group: &str, case: &str, at: u32, side: &str, value: f64) {
        if let Some(figure) = self.list.iter_mut().find(|figure| figure.is(group, (case, at), side))
        {
            figure.value = figure.value.min(value);
            return;
        }
        let [group, case, side] = [group, case, side].map(String::from);
        self.list.push(Figure { group, case, at, side, value });
    }

    /// Keeps the figures of a case.
    pub fn row(&mut self, group: &str, case: &str, at: u32, sides: &[(&str, f64)]) {
        for (side, value) in sides {
            self.put(group, case, at, side, *value);
        }
    }

    /// Part of the engine against plain Rust, and the ratio that is aimed at, if there is one.
    pub fn part(&mut self, case: &str, times: (f64, f64), aim: Option<f64>) {
        self.part_of("parts", case, times, aim);
    }

    /// The same in a group of its own.
    pub fn part_of(
        &mut self,
        group: &str,
        case: &str,
        (ours, theirs): (f64, f64),
        aim: Option<f64>,
    ) {
        self.row(group, case, 0, &[(ENGINE, ours), (PLAIN, theirs)]);
        let aim = aim.map(|aim| (group.to_string(), case.to_string(), aim));
        self.aims.extend(aim.filter(|aim| !self.aims.contains(aim)));
    }

    /// Prints all figures but those of single keys, with the ratio of the first side to each other one.
    pub fn print(&self) {
        let mut last: Option<&Figure> = None;
        for figure in self.list.iter().filter(|figure| figure.group != "keys") {
            let Figure { group, case, at, side, value } = figure;
            match last.filter(|first| first.is(group, (case, *at), &first.side)) {
                Some(first) => print!("  {side} {value:.1} ({:.3})", first.value / value),
                None => {
                    print!("\n{group:<9} {:<72} {side} {value:.1}", name((case, *at)));
                    last = Some(figure);
                }
            }
        }
        println!();
        for (group, case, aim) in &self.aims {
            let [ours, theirs] = [ENGINE, PLAIN].map(|side| self.value(group, (case, 0), side));
            if let (Some(ours), Some(theirs)) = (ours, theirs)
                && ours / theirs > *aim
            {
                println!("above the aim of {aim:.1}: {case}");
            }
        }
    }

    /// The cases of a group and their sizes, in the order in which they were taken.
    pub fn cases(&self, group: &str) -> Vec<(&str, u32)> {
        let mut cases = Vec::new();
        for figure in self.list.iter().filter(|figure| figure.group == group) {
            let case = (figure.case.as_str(), figure.at);
            if !cases.contains(&case) {
                cases.push(case);
            }
        }
        cases
    }

    pub fn value(&self, group: &str, case: (&str, u32), side: &str) -> Option<f64> {
        self.list.iter().find(|figure| figure.is(group, case, side)).map(|figure| figure.value)
    }

    /// What a side of a case takes at each size.
    pub fn points(&self, group: &str, case: &str, side: &str) -> Vec<(f64, f64)> {
        let is_one =
            |figure: &&Figure| figure.group == group && figure.case == case && figure.side == side;
        self.list.iter().filter(is_one).map(|figure| (figure.at.into(), figure.value)).collect()
    }

    /// The groups that have figures.
    pub fn groups(&self) -> BTreeSet<String> {
        self.list.iter().map(|figure| figure.group.clone()).collect()
    }

    /// With another run's figures in place of its own of the same groups.
    pub fn with_groups(mut self, other: Figures) -> Figures {
        let groups = other.groups();
        let is_taken = |figure: &Figure| groups.contains(&figure.group);
        let at = self.list.iter().position(is_taken).unwrap_or(self.list.len());
        self.list.retain(|figure| !is_taken(figure));
        self.list.splice(at..at, other.list);
        self
    }

    pub fn write(&self, file: &Path) -> io::Result<()> {
        let mut text = String::new();
        for note in &self.notes {
            text += &format!("# {note}\n");
        }
        text += "group,case,at,side,value\n";
        for Figure { group, case, at, side, value } in &self.list {
            text += &format!("{group},\"{case}\",{at},{side},{value:.1}\n");
        }
        fs::write(file, text)
    }

    pub fn read(file: &Path) -> io::Result<Figures> {
        let mut figures = Figures::default();
        for line in fs::read_to_string(file)?.lines() {
            if let Some(note) = line.strip_prefix("# ") {
                figures.notes.push(note.to_string());
            }
            if let Some((group, case, rest)) = parted(line)
                && let [at, side, value] = rest.split(',').collect::<Vec<_>>()[..]
                && let (Ok(at), Ok(value)) = (at.parse(), value.parse())
            {
                figures.put(group, case, at, side, value);
            }
        }
        Ok(figures)
    }
}

/// The group, the case between quotes, and the rest of a line.
fn parted(line: &str) -> Option<(&str, &str, &str)> {
    let (group, rest) = line.split_once(",\"")?;
    let (case, rest) = rest.split_once("\",")?;
    Some((group, case, rest))
}

/// A case with its size.
pub fn name((case, at): (&str, u32)) -> String {
    if at == 0 { case.to_string() } else { format!("{case}, {}", plot::number(at.into())) }
}
