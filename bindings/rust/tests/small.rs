//! Small netlists by hand. bindings/compare has random ones.

use reamerpoppy::{Buffers, Fired, List, Model, Refusal, Tick, calls, lower, lower_within, simulate};

/// Two input bits, one output bit, a LUT4 between them: and.
const AND: [u32; 18] = [0, 2, 2, 3, 1, 1, 4, 0, 2, 3, 0, 0, 2, 8, 0, 2, 7, 1];

/// A clock, an output, a LUT4 that inverts the output, a flip-flop behind it.
const TOGGLE: [u32; 30] =
    [0, 1, 2, 1, 1, 3, 0, 3, 0, 0, 0, 2, 1, 5, 4, 1, 2, 0, 0, 0, 0, 0, 0, 0, 0, 0, 0, 2, 6, 2];

const EMPTY: [u32; 4] = [0; 4];

/// A block RAM of this depth, one bit wide, all pins at 0.
fn ram(depth: u32) -> Vec<u32> {
    [&[6, depth, 1, 1][..], &[0; 41], &[0, 0, 0, 1]].concat()
}

fn refusal(number: u32, place: u64) -> Refusal {
    Refusal { number, place }
}

fn tick(bits: &[u8], fired: Fired) -> Tick {
    Tick { bits: bits.to_vec(), fired }
}

#[test]
fn an_and() {
    let model = lower(&AND).unwrap();
    assert_eq!([&model.signals, &model.exprs, &model.stmts].map(List::count), [5, 6, 4]);
    assert_eq!(model.signals.words()[..8], [4, 0, 2, 0, 4, 1, 1, 1]);
    assert_eq!(model.signals.records().count(), 5);
    assert_eq!(List::from(model.exprs.words().to_vec()), model.exprs);

    let inputs = [[0, 0], [1, 0], [0, 1], [1, 1]];
    let mut ticks = inputs.map(|bits| tick(&bits, Fired::Nothing)).to_vec();
    ticks.push(tick(&[0], Fired::Nothing));
    ticks.push(tick(&[0, 2], Fired::Nothing));
    ticks.push(tick(&[0, 0], Fired::rising(5)));
    ticks.push(tick(&[0, 0], Fired::Edge(0, u32::MAX)));
    let shown = simulate(&AND, &ticks).unwrap();
    assert_eq!(shown.model, model);
    let by_list: Vec<_> = shown.ticks().collect();
    let expected: [Result<&[u8], Refusal>; 8] = [
        Ok(&[0]),
        Ok(&[0]),
        Ok(&[0]),
        Ok(&[1]),
        Err(refusal(14, 2)),
        Err(refusal(14, 1)),
        Err(refusal(14, 0)),
        Err(refusal(14, 0)),
    ];
    assert_eq!(by_list, expected);
    assert_eq!(shown.outputs(7), [1]);

    let mut state = model.start();
    for (at, Tick { bits, fired }) in ticks.iter().enumerate() {
        let outcome = model.run(&mut state, bits, *fired);
        assert_eq!(outcome, shown.tick(at).map(|_| ()));
        assert_eq!(model.outputs(&state), shown.outputs(at));
    }
}

#[test]
fn a_clock() {
    let ticks = [Fired::rising(0), Fired::falling(0), Fired::Nothing, Fired::rising(0)];
    let shown = simulate(&TOGGLE, &ticks.map(|fired| tick(&[0], fired))).unwrap();
    assert_eq!(shown.ticks().map(|bits| bits.unwrap()[0]).collect::<Vec<_>>(), [1, 1, 1, 0]);
}

#[test]
fn no_ticks_and_no_outputs() {
    assert!(simulate(&AND, &[]).unwrap().is_empty());
    let shown = simulate(&EMPTY, &[Tick::default(), tick(&[0], Fired::Nothing)]).unwrap();
    assert_eq!(shown.ticks().collect::<Vec<_>>(), [Ok(&[][..]), Err(refusal(14, 0))]);
    assert_eq!(shown.len(), 2);
}

#[test]
fn lists_grow() {
    let words = ram(1_024);
    let model = lower(&words).unwrap();
    let used = [&model.signals, &model.exprs, &model.stmts].map(|list| list.words().len());
    assert!(used[1] > 2 * 16_384, "{used:?}");
    let most = used.into_iter().max().unwrap();
    assert_eq!(lower_within(&words, most), Ok(model));
    assert_eq!(lower_within(&words, most - 1), Err(refusal(2, 1)));
    assert_eq!(lower_within(&words, 0), Err(refusal(2, 0)));
}

#[test]
fn refusals() {
    assert_eq!(lower(&[]), Err(refusal(3, 0)));
    let missing = [1, 1, 9, 0, 1, 3, 0];
    assert_eq!(lower(&missing), Err(refusal(8, 7)));
    assert_eq!(simulate(&missing, &[Tick::default()]), Err(refusal(8, 7)));
    assert_eq!(refusal(8, 7).to_string(), "refused 8 7: nothing drives the wire");
    let around = [1, 1, 2, 0, 2, 2, 2, 2, 0, 21_845, 0, 1, 3, 1];
    let looped = lower(&around).unwrap();
    assert_eq!(looped.run(&mut looped.start(), &[], Fired::Nothing), Err(refusal(13, 1)));
    // In a list too each tick has its own answer: its faults first, then the loop.
    let faulty = Tick { bits: vec![1], ..Tick::default() };
    let shown = simulate(&around, &[Tick::default(), faulty, Tick::default()]).unwrap();
    let answers = shown.ticks().map(|tick| tick.map(|_| ())).collect::<Vec<_>>();
    assert_eq!(answers, [Err(refusal(13, 1)), Err(refusal(14, 0)), Err(refusal(13, 1))]);
    // A head that asks for two bits where one is left, though the netlist has one input.
    let copy = [0, 1, 2, 1, 1, 2, 0, 2, 6, 0];
    let mut buffers = Buffers::new(&lower(&copy).unwrap(), 1);
    buffers.simulate(&copy, &[2, 0, 0], &[1]).unwrap();
    assert_eq!(buffers.answers, [14, 1]);

    // What the library is not lent, and a state that is none.
    let mut answer = [1; 8];
    let mut short = [(); 5].map(|()| vec![0; 16_384]);
    short[4].pop();
    let lists = [&mut [][..], &mut [], &mut []];
    let works = short.each_mut().map(Vec::as_mut_slice);
    assert_eq!(calls::lower(&EMPTY, lists, works, &mut answer), 1);
    assert_eq!(answer, [1, 16_384, 0, 0, 0, 0, 0, 0]);
    let model = lower(&EMPTY).unwrap();
    let mut state = model.start();
    state.bytes = vec![0, 2];
    assert_eq!(model.run(&mut state, &[], Fired::Nothing), Err(refusal(14, 1)));
    state.bytes = vec![0];
    assert_eq!(model.run(&mut state, &[], Fired::Nothing), Err(refusal(1, 2)));
}

/// An `answer` of seven numbers is a short buffer: after the works and before the words are
/// looked at, and in a run after the other buffers and before the tick is.
#[test]
fn short_answers() {
    let mut answer = [7; 7];
    let mut lists = [(); 3].map(|()| vec![7; 4]);
    let mut works = [(); 5].map(|()| vec![7; 16_384]);
    let lent = lists.each_mut().map(Vec::as_mut_slice);
    let lowered = calls::lower(&[], lent, works.each_mut().map(Vec::as_mut_slice), &mut answer);
    assert_eq!((lowered, answer), (1, [1, 8, 0, 0, 0, 0, 0]));
    assert!(lists.iter().chain(&works).flatten().all(|&word| word == 0));

    works[4].pop();
    let lent = lists.each_mut().map(Vec::as_mut_slice);
    let lowered = calls::lower(&EMPTY, lent, works.each_mut().map(Vec::as_mut_slice), &mut answer);
    assert_eq!((lowered, answer), (1, [1, 16_384, 0, 0, 0, 0, 0]));

    let mut works = [(); 5].map(|()| vec![7; 16_384]);
    let mut run = [(); 5].map(|()| vec![7; 4]);
    let [bytes, bits, exprs, signals, shown] = run.each_mut().map(Vec::as_mut_slice);
    let mut answers = vec![7; 4];
    let lent = calls::Lent {
        lists: lists.each_mut().map(Vec::as_mut_slice),
        tables: works.each_mut().map(Vec::as_mut_slice),
        bytes,
        works: [bits, exprs, signals],
        answers: &mut answers,
        shown,
    };
    let mut one = [7; 1];
    assert_eq!((calls::simulate(&EMPTY, &[0, 0, 0], &[], lent, &mut one), one), (1, [1]));
    assert!(lists.iter().chain(&works).flatten().all(|&word| word == 0));
    assert!(run.iter().flatten().all(|&byte| byte == 0));
    assert_eq!(answers, [0; 4]);

    let model = lower(&EMPTY).unwrap();
    let run = |signals: &[u32], bytes: &mut [u8], length: usize| {
        let lists = [signals, model.exprs.words(), model.stmts.words()];
        let mut works = [(); 3].map(|()| vec![7; 2]);
        let mut answer = vec![7; length];
        let lent = works.each_mut().map(Vec::as_mut_slice);
        let ran = calls::run(lists, bytes, &[0], (1, 9), lent, &mut answer);
        assert!(works.iter().flatten().all(|&byte| byte == 0));
        (ran, answer)
    };
    let mut bytes = [2, 0, 7];
    assert_eq!(run(model.signals.words(), &mut bytes, 2), (1, vec![1, 8]));
    assert_eq!(run(model.signals.words(), &mut bytes, 0), (1, vec![]));
    assert_eq!(run(model.signals.words(), &mut bytes[..1], 2), (1, vec![1, 2]));
    assert_eq!(run(&[0], &mut bytes, 2), (12, vec![12, 0]));
    assert_eq!(run(model.signals.words(), &mut bytes, 8).1[..2], [14, 0]);
    assert_eq!(bytes, [2, 0, 7]);
}

#[test]
fn lists_that_are_no_model() {
    let run = |signals: &[u32]| {
        let signals = List::from(signals.to_vec());
        let model = Model { signals, exprs: List::from(vec![]), stmts: List::from(vec![]) };
        model.run(&mut model.start(), &[1], Fired::Nothing)
    };
    assert_eq!(run(&[4, 0, 1, 0]), Ok(()));
    for words in [&[0][..], &[4, 2, 1, 0], &[9, 0], &[4, 0, u32::MAX, 0], &[2, 0]] {
        assert_eq!(run(words), Err(refusal(12, 0)), "{words:?}");
    }
}
