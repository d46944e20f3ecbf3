//! The proved library, through its safe Rust, beside the oracle on the same netlists and ticks. Each function panics at a difference.

use celox::recorder::Recording;
use generate::Rng;
use netlist::Limits;
use reamerpoppy::{Fired, List, Model, Refusal, Shown, Tick};
use simulate::Case;

/// The answer of lowering in lists of at most so many words.
pub fn lowering(words: &[u32], longest: usize) -> Result<(Model, Recording), Refusal> {
    let proved = reamerpoppy::lower_within(words, longest);
    let rust = lower::lower(words, &Limits::BASE, [longest; 3]);
    match (proved, rust) {
        (Ok(model), Ok(recording)) => {
            assert_eq!(words_of(&model), recording.words);
            let counts = lists_of(&model).map(|list| list.count() as u32);
            assert_eq!(counts, recording.count);
            for list in lists_of(&model) {
                assert_eq!(&List::from(list.words().to_vec()), list);
            }
            Ok((model, recording))
        }
        (Err(proved), Err(netlist::Refusal { number, place })) => {
            assert_eq!(proved, Refusal { number, place: place.into() });
            Err(proved)
        }
        (proved, rust) => panic!("one accepts: {proved:?}, {rust:?}"),
    }
}

/// The whole list of ticks by one call, as the lines that `simulate` prints.
pub fn simulation(case: &Case) -> Result<Shown, Refusal> {
    let ticks = case.ticks.iter().map(tick).collect::<Vec<_>>();
    let shown = reamerpoppy::simulate(&case.netlist, &ticks);
    let refused = |refusal: Refusal| simulate::refused(refusal.number, refusal.place as u32);
    let lines = match &shown {
        Err(refusal) => refused(*refusal),
        Ok(shown) => {
            assert_eq!(shown.len(), ticks.len());
            let netlist = netlist::read(&case.netlist, &Limits::BASE).expect("accepted");
            let line = |bits: &[u8]| simulate::shown(&netlist, bits);
            shown.ticks().map(|tick| tick.map_or_else(refused, line)).collect()
        }
    };
    assert_eq!(lines, case.answer());
    shown
}

/// The ticks one by one on the lists of a model, or of none: answers and signals after each.
/// Gives the answers, and what the output ports show.
pub fn one_by_one(model: &Model, ticks: &[Tick]) -> Vec<(Result<(), Refusal>, Vec<u8>)> {
    let by_oracle = model::Model::new(lists_of(model).map(List::words));
    let mut state = model.start();
    let mut bytes = state.bytes.clone();
    let mut all = Vec::new();
    for Tick { bits, fired } in ticks {
        let expected = by_oracle.as_ref().map_err(|refusal| *refusal).and_then(|by_oracle| {
            let fired = match *fired {
                Fired::Nothing => None,
                Fired::Edge(signal, edge) => Some((signal, edge)),
            };
            by_oracle.run(&mut bytes, by_oracle.works(), bits, fired)
        });
        let outcome = model.run(&mut state, bits, *fired);
        assert_eq!(
            outcome,
            expected.map_err(|model::Refusal { number, place }| Refusal {
                number,
                place: place.into()
            })
        );
        assert_eq!(state.bytes, bytes);
        let outputs = model.outputs(&state);
        if let Ok(by_oracle) = &by_oracle {
            assert_eq!(outputs, by_oracle.shown(&bytes));
        }
        all.push((outcome, outputs));
    }
    all
}

/// A few words of a model's lists changed, dropped or put in.
pub fn damaged(model: &Model, rng: &mut Rng) -> Model {
    let mut lists = words_of(model);
    for _ in 0..rng.range(1, 3) {
        let list = rng.below(3);
        let words = &mut lists[list];
        let at = rng.below(words.len());
        match rng.below(8) {
            0 => words.truncate(at),
            1 => drop(words.remove(at)),
            2 => words.insert(at, rng.below(5) as u32),
            3 => words[at] = u32::MAX,
            4 => words[at] = words[at].wrapping_add(1),
            5 => words[at] = words[at].wrapping_sub(1),
            _ => words[at] = rng.below(20) as u32,
        }
        if words.is_empty() {
            break;
        }
    }
    let [signals, exprs, stmts] = lists.map(List::from);
    Model { signals, exprs, stmts }
}

/// A tick as the safe Rust takes it.
pub fn tick(tick: &simulate::Tick) -> Tick {
    let fired = match tick.fires {
        0 => Fired::Nothing,
        fires => Fired::Edge(tick.signal, fires - 1),
    };
    Tick { bits: tick.bits.clone(), fired }
}

fn lists_of(model: &Model) -> [&List; 3] {
    [&model.signals, &model.exprs, &model.stmts]
}

fn words_of(model: &Model) -> [Vec<u32>; 3] {
    lists_of(model).map(|list| list.words().to_vec())
}
