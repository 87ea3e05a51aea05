//! The samples of the reference model, which were worked out by hand, call by call.

use engine::cache::Cache;
use engine::compare::{Pair, follow};
use engine::memory::Memory;
use plain::model::Answer;
use plain::samples::calls::sessions;
use plain::samples::printed::{PARTS, wholes};
use plain::samples::refused::refused_texts;
use plain::samples::taken::taken_texts;
use plain::samples::{ALL, RECORDING, edit, open, preview, previews, print};

fn cache() -> Cache {
    Cache::new(&Memory::filled(|| 0))
}

#[test]
fn sample_previews() {
    let mut cache = cache();
    for sample in previews() {
        follow(&mut cache, &sample.steps());
    }
}

#[test]
fn a_repeated_sample_needs_no_work_and_no_entry() {
    for sample in previews() {
        let mut cache = cache();
        cache.call(&open(&RECORDING));
        let Answer::Edited { whole, parts, places, .. } = cache.call(&edit(sample.text)) else {
            panic!("{}", sample.text);
        };
        cache.call(&preview(whole, ALL));
        let again = Answer::Finished { worked: 0, shown: sample.shown };
        let edited = Answer::Edited { whole, parts, new: 0, places };
        follow(&mut cache, &[(edit(sample.text), edited), (preview(whole, 0), again)]);
    }
}

#[test]
fn lists_of_calls() {
    for (title, steps) in sessions() {
        println!("{title}");
        follow(&mut cache(), &steps);
    }
}

/// The places are compared with the model's.
#[test]
fn texts_that_are_taken() {
    for taken in taken_texts() {
        let mut pair = Pair::new(0);
        pair.call(&open(&RECORDING));
        match pair.call(&edit(&taken.text)) {
            Answer::Edited { parts, .. } => assert_eq!(parts, taken.parts),
            other => panic!("{other:?}: {}", String::from_utf8_lossy(&taken.text)),
        }
        pair.check_state();
    }
}

#[test]
fn texts_that_are_refused() {
    let mut cache = cache();
    cache.call(&open(&RECORDING));
    cache.call(&edit("data.sum()"));
    for refused in refused_texts() {
        let answer = Answer::Refused { number: refused.number, place: refused.place };
        follow(&mut cache, &[(edit(&refused.text), answer)]);
    }
}

/// The bytes and, where a part is not printed, the number.
#[test]
fn printed_parts() {
    for sample in PARTS {
        let mut pair = Pair::new(0);
        pair.call(&open(&RECORDING));
        let Answer::Edited { places, .. } = pair.call(&edit(sample.text)) else {
            panic!("{}", sample.text);
        };
        assert_eq!(places.len(), sample.parts.len(), "{}", sample.text);
        for (place, part) in places.iter().zip(sample.parts) {
            let expected = match *part {
                Ok(text) => Answer::Printed { text: text.into() },
                Err(number) => Answer::Refused { number, place: 0 },
            };
            assert_eq!(pair.call(&print(*place, 1024)), expected, "{}", sample.text);
        }
    }
}

#[test]
fn printed_texts() {
    for (text, whole_text) in wholes() {
        let mut pair = Pair::new(0);
        pair.call(&open(&RECORDING));
        let Answer::Edited { whole, .. } = pair.call(&edit(text)) else { panic!("{text}") };
        let printed = Answer::Printed { text: whole_text.into() };
        for more in [0, 1, 1024] {
            assert_eq!(pair.call(&print(whole, whole_text.len() + more)), printed, "{text}");
        }
        let unfit = Answer::Refused { number: 15, place: 0 };
        assert_eq!(pair.call(&print(whole, whole_text.len() - 1)), unfit, "{text}");
    }
}
