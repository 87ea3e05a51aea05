//! What the figures were taken on and with.

use crate::lua;
use std::process::Command;
use std::{fs, thread};

fn first_line(program: &str, argument: &str) -> Option<String> {
    let output = Command::new(program).arg(argument).output().ok()?;
    String::from_utf8(output.stdout).ok()?.lines().next().map(String::from)
}

/// The processor's name, where the system tells it.
fn processor() -> Option<String> {
    let text = fs::read_to_string("/proc/cpuinfo").ok()?;
    let line = text.lines().find(|line| line.starts_with("model name"))?;
    Some(line.split_once(':')?.1.trim().to_string())
}

/// How many tasks wanted to run in the minute before.
fn load() -> Option<String> {
    let text = fs::read_to_string("/proc/loadavg").ok()?;
    text.split_whitespace().next().map(String::from)
}

pub fn notes() -> Vec<String> {
    let unknown = || "unknown".to_string();
    let cores = thread::available_parallelism().map_or_else(|_| unknown(), |n| n.to_string());
    let mut notes = vec![
        format!("Cores: {cores}, shared with other work"),
        format!("Processor: {}", processor().unwrap_or_else(unknown)),
        format!("Load in the minute before: {}", load().unwrap_or_else(unknown)),
        format!("Rust: {}", first_line("rustc", "--version").unwrap_or_else(unknown)),
    ];
    for program in ["lua5.4", "luajit"] {
        let version = lua::version(program).unwrap_or_else(|| "not installed".to_string());
        notes.push(format!("{program}: {version}"));
    }
    notes
}
