//! The same formulas in Lua 5.4 and LuaJIT, where these are installed: `lua/measure.lua` runs and times them.

use std::process::{Command, Stdio};

const SCRIPT: &str = concat!(env!("CARGO_MANIFEST_DIR"), "/lua/measure.lua");

/// A program, and whether a formula is loaded once before it is evaluated. Otherwise its text is loaded each time, as an edit reads it.
pub struct Side {
    pub name: &'static str,
    program: &'static str,
    is_loaded: bool,
}

pub const SIDES: [Side; 4] = [
    Side { name: "Lua 5.4", program: "lua5.4", is_loaded: false },
    Side { name: "Lua 5.4 loaded", program: "lua5.4", is_loaded: true },
    Side { name: "LuaJIT", program: "luajit", is_loaded: false },
    Side { name: "LuaJIT loaded", program: "luajit", is_loaded: true },
];

/// The program's version, if it is installed.
pub fn version(program: &str) -> Option<String> {
    let output = Command::new(program).arg("-v").stderr(Stdio::null()).output().ok()?;
    let text = String::from_utf8(output.stdout).ok()?;
    Some(text.split_whitespace().take(2).collect::<Vec<_>>().join(" "))
}

impl Side {
    pub fn is_installed(&self) -> bool {
        version(self.program).is_some()
    }

    /// The nanoseconds of an evaluation, and what it gives. Fewer calls fill a batch where the text is loaded.
    pub fn run(&self, calls: u32, readings: &str, text: &str) -> (f64, String) {
        let (mode, calls) =
            if self.is_loaded { ("loaded", calls) } else { ("text", calls.div_ceil(8)) };
        let output = Command::new(self.program)
            .args([SCRIPT, mode, &calls.to_string(), readings, text])
            .output()
            .expect("it is installed");
        let output = String::from_utf8(output.stdout).expect("it writes text");
        let (nanoseconds, value) = output.trim().split_once(' ').expect("it writes two words");
        (nanoseconds.parse().expect("the first is a number"), value.to_string())
    }
}
