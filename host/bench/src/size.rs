//! Bytes of code and data in the engine's static library, by binutils' `size`, where it is installed.

use crate::figures::{ENGINE, Figures};
use std::process::Command;

const LIBRARY: &str = concat!(env!("CARGO_MANIFEST_DIR"), "/../../target/staticlib/libengine.a");

pub fn measure(figures: &mut Figures) {
    let Ok(output) = Command::new("size").arg(LIBRARY).output() else {
        println!("size is not installed");
        return;
    };
    // A heading, and a line for each object: text, data, bss, their sum twice, and the object's name.
    for line in String::from_utf8_lossy(&output.stdout).lines().skip(1) {
        let words: Vec<&str> = line.split_whitespace().collect();
        if let [text, data, bss, _, _, object, ..] = words[..] {
            for (section, bytes) in [("text", text), ("data", data), ("bss", bss)] {
                let bytes = bytes.parse().expect("size writes numbers");
                figures.row("size", &format!("{object} {section}"), 0, &[(ENGINE, bytes)]);
            }
        }
    }
}
