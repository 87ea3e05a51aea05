//! Runs the sample previews through the reference model and writes what each text shows, or formulas read from the command line.

use plain::model::{Answer, Model};
use plain::samples::{ALL, RECORDING, previews};

/// One text, edited and previewed.
fn line(model: &mut Model, text: &str) -> String {
    match model.edit(text.as_bytes(), 128, true) {
        Answer::Edited { whole, parts, new, .. } => {
            let shown = model.preview(whole, ALL, true);
            format!("{text}\n    {parts} parts, {new} new, entry {whole}: {shown:?}")
        }
        declined => format!("{text}\n    {declined:?}"),
    }
}

fn main() {
    let mut model = Model::new();
    let given: Vec<String> = std::env::args().skip(1).collect();
    println!("recording {RECORDING:?}");
    model.open(&RECORDING, true);
    for text in &given {
        println!("{}", line(&mut model, text));
    }
    if given.is_empty() {
        for sample in previews() {
            if !sample.follows {
                model.open(&RECORDING, true);
            }
            println!("{}", line(&mut model, sample.text));
        }
    }
}
