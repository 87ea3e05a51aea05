//! The sample previews of 01, and the lists of calls about refusals.

mod common;

use common::{edited, follow, opened};
use plain::model::{Answer, Model};
use plain::samples::calls::sessions;
use plain::samples::{ALL, RECORDING, Sample, preview, previews, scope_previews};

#[test]
fn sample_previews_give_all_their_figures() {
    let mut model = Model::new();
    for sample in previews() {
        follow(&mut model, &sample.steps());
    }
}

#[test]
fn eleven_samples_of_01_are_starred_and_five_are_not() {
    let starred = |samples: &[Sample]| samples.iter().filter(|sample| sample.starred).count();
    assert_eq!((starred(&scope_previews()), scope_previews().len()), (11, 16));
    assert_eq!(starred(&previews()), 11);
}

#[test]
fn a_repeated_sample_needs_no_work_and_no_entry() {
    for sample in previews() {
        let mut model = opened(&RECORDING);
        let (whole, _, places) = edited(&mut model, sample.text);
        model.call(&preview(whole, ALL));
        let before = model.clone();
        assert_eq!(edited(&mut model, sample.text), (whole, 0, places));
        let again = Answer::Finished { worked: 0, shown: sample.shown };
        assert_eq!(model.call(&preview(whole, 0)), again, "{}", sample.text);
        assert_eq!(model, before);
    }
}

#[test]
fn lists_of_calls_get_their_answers() {
    for (title, steps) in sessions() {
        println!("{title}");
        follow(&mut Model::new(), &steps);
    }
}
