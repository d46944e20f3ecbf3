//! Random netlists, ticks and lists. Seeds are fixed; what they hold is asserted, so that no refusal goes untried.

use std::collections::BTreeMap;

use compare_bindings::{damaged, lowering, one_by_one, simulation, tick};
use generate::Rng;
use reamerpoppy::Refusal;
use simulate::Case;

/// How often each refusal came; 0 is accepted.
#[derive(Debug, Default)]
struct Tally(BTreeMap<u32, u32>);

impl Tally {
    fn add<T>(&mut self, outcome: &Result<T, Refusal>) {
        *self.0.entry(outcome.as_ref().err().map_or(0, |refusal| refusal.number)).or_default() += 1;
    }

    fn has(&self, numbers: impl IntoIterator<Item = u32>) {
        println!("{self:?}");
        for number in numbers {
            assert!(self.0.contains_key(&number), "{number} is untried: {self:?}");
        }
    }
}

#[test]
fn models_of_lowering() {
    let mut tally = Tally::default();
    for index in 0..4_000 {
        let words = generate::sample(7, index);
        let outcome = lowering(&words, 1 << 22);
        tally.add(&outcome);
        // Lists that just hold the model, or are a word short.
        if let Ok((_, recording)) = outcome {
            let most = recording.words.iter().map(Vec::len).max().expect("three lists");
            tally.add(&lowering(&words, most));
            tally.add(&lowering(&words, most - 1));
        } else {
            tally.add(&lowering(&words, Rng::new(8, index).below(1_000)));
        }
    }
    tally.has([0].into_iter().chain(2..=11));
}

#[test]
fn lists_of_ticks_and_single_ticks() {
    let (mut tally, mut ticked) = (Tally::default(), Tally::default());
    for index in 0..2_500 {
        let mut case = Case::draw(9, index, 12);
        // The safe Rust writes the heads: none asks for bits that are not there.
        for tick in &mut case.ticks {
            tick.asked = tick.bits.len() as u32;
        }
        if !case.fits() {
            continue;
        }
        let shown = simulation(&case);
        tally.add(&shown);
        let Ok((model, _)) = lowering(&case.netlist, 1 << 22) else { continue };
        let ticks = case.ticks.iter().map(tick).collect::<Vec<_>>();
        for (at, (outcome, outputs)) in one_by_one(&model, &ticks).into_iter().enumerate() {
            ticked.add(&outcome);
            if let Ok(shown) = &shown {
                assert_eq!(shown.model, model);
                assert_eq!(outcome, shown.tick(at).map(|_| ()));
                assert_eq!(outputs, shown.outputs(at));
            }
        }
    }
    tally.has([0, 3, 4, 5, 7, 8, 9, 11]);
    ticked.has([0, 13, 14]);
}

#[test]
fn lists_that_may_be_no_model() {
    let mut tally = Tally::default();
    for index in 0..3_000 {
        let case = Case::draw(10, index % 500, 3);
        let mut rng = Rng::new(11, index);
        let Ok((model, _)) = lowering(&case.netlist, 1 << 14) else { continue };
        let ticks = case.ticks.iter().map(tick).collect::<Vec<_>>();
        for (outcome, _) in one_by_one(&damaged(&model, &mut rng), &ticks) {
            tally.add(&outcome);
        }
    }
    tally.has([0, 12, 13, 14]);
}
