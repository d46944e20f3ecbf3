//! The refusals of a run, each from a small model with one thing wrong.

use model::{Model, Refusal, Works};

type Lists = [Vec<Vec<u32>>; 3];

/// An input of two bits, an output, a one-bit register, zero and one.
fn good() -> Lists {
    [
        vec![vec![0, 2, 0], vec![1, 1, 1], vec![7, 1, 0], vec![14, 1, 0], vec![15, 1, 0]],
        vec![
            vec![0, 1, 0],    // e0
            vec![0, 1, 1],    // e1
            vec![1, 1, 0, 1], // e2: bit 1 of s0
            vec![1, 1, 2, 0], // e3: s2
            vec![6, 1, 2, 3], // e4: e2 xor e3
            vec![1, 2, 0, 0], // e5: s0
            vec![2, 3, 5, 4], // e6: three bits
            vec![0, 36, 7],   // e7
        ],
        vec![vec![0, 3, 0], vec![0, 4, 1], vec![1, 2, 4, 3, 0, 1, 4, 0, 1, 1, 3, 1], vec![0, 1, 3]],
    ]
}

fn words(records: &[Vec<u32>]) -> Vec<u32> {
    let with_length = |record: &Vec<u32>| [&[record.len() as u32 + 1], &record[..]].concat();
    records.iter().flat_map(with_length).collect()
}

fn read(lists: &Lists) -> Result<Model, Refusal> {
    let [signals, expressions, statements] = lists.each_ref().map(|list| words(list));
    Model::new([&signals, &expressions, &statements])
}

const S: u32 = 5;
const E: u32 = 8;

#[test]
fn good_model() {
    read(&good()).expect("a model");
    Model::new([&[], &[], &[]]).expect("an empty model");
}

/// Replaces one record and expects the fault at a place.
fn faulty(list: usize, record: usize, fields: &[u32], place: u32) {
    let mut lists = good();
    lists[list][record] = fields.to_vec();
    let found = read(&lists).expect_err("a fault");
    assert_eq!((found.number, found.place), (12, place), "list {list} record {record} {fields:?}");
}

#[test]
fn signals() {
    for fields in [
        &[16, 1, 0][..],
        &[7, 0, 0],
        &[7, 4_097, 0],
        &[7, 1],
        &[7, 1, 0, 0],
        &[],
        &[0, 1, 0], // an input with a statement
    ] {
        faulty(0, 2, fields, 2);
    }
    // Owners are not judged.
    let mut lists = good();
    lists[0][2][2] = u32::MAX;
    read(&lists).expect("a model");
    // No statement, two statements; the signal is the place.
    let mut lists = good();
    lists[2].pop();
    assert_eq!(read(&lists).expect_err("a fault").place, 1);
    let mut lists = good();
    lists[2].push(vec![0, 4, 1]);
    assert_eq!(read(&lists).expect_err("a fault").place, 4);
    // A statement counts for its target whatever else is wrong with it.
    faulty(2, 3, &[1, 1], S + E + 3);
    faulty(2, 3, &[0, 1, 99], S + E + 3);
    faulty(2, 3, &[2, 1, 3], 1);
    faulty(2, 3, &[0], 1);
}

#[test]
fn expressions() {
    for fields in [
        &[0, 1, 2][..],       // does not fit
        &[0, 0, 0],           // width
        &[0, 4_097, 0],       // width
        &[10, 1, 2],          // kind
        &[0, 1],              // length
        &[0, 1, 1, 1],        // length
        &[1, 1, 5, 0],        // signal
        &[1, 1, 0, 2],        // past the signal's end
        &[1, 2, 0, 1],        // past the signal's end
        &[1, 1, 0, u32::MAX], // past the signal's end
        &[2, 1],              // no part
        &[2, 2, 2],           // not the sum
        &[2, 1, 6],           // not earlier
        &[3, 1, 5],           // two bits
        &[3, 2, 5],
        &[3, 1, 6], // itself
        &[4, 1, 2, 5],
        &[4, 1, 2],
        &[5, 1, 7, 2],    // not earlier
        &[6, 2, 5, 5],    // two bits
        &[7, 1, 5, 2, 2], // select
        &[7, 1, 2, 2, 5], // arms
        &[7, 2, 2, 3, 3], // width of the arms
        &[7, 1, 2, 3],
        &[8, 1, 2, 5], // sides
        &[8, 2, 5, 5], // width
        &[8, 1],
        &[9, 36, 2, 2], // sides of 36 bits
        &[9, 1, 2, 2],
    ] {
        faulty(1, 6, fields, S + 6);
    }
    for fields in
        [&[9, 36, 7, 7][..], &[8, 1, 7, 7], &[7, 36, 2, 7, 7], &[2, 36, 7], &[0, 36, u32::MAX]]
    {
        let mut lists = good();
        lists[1].push(fields.to_vec());
        read(&lists).expect("a model");
    }
}

#[test]
fn statements() {
    for fields in [
        &[0, 2, 5][..], // width
        &[0, 2, 8],     // no such expression
        &[0, 2],
        &[0, 2, 4, 0],
        &[1, 2, 5, 3, 0, 0, 0],          // width
        &[1, 2, 4, 0, 0, 0, 0],          // clock of two bits
        &[1, 2, 4, 5, 0, 0, 0],          // no such clock
        &[1, 2, 4, 3, 2, 0, 0],          // edge
        &[1, 2, 4, 3, 0, 2, 0],          // flag
        &[1, 2, 4, 3, 0, 0, 2],          // flag
        &[1, 2, 4, 3, 0, 0],             // too short
        &[1, 2, 4, 3, 0, 0, 0, 0],       // too long
        &[1, 2, 4, 3, 0, 1, 0, 0, 1, 0], // reset of two bits
        &[1, 2, 4, 3, 0, 1, 4, 2, 1, 0], // active level
        &[1, 2, 4, 3, 0, 1, 4, 0, 5, 0], // reset value of two bits
        &[1, 2, 4, 3, 0, 0, 1, 0, 1],    // enable of two bits
        &[1, 2, 4, 3, 0, 0, 1, 3, 2],    // active level
    ] {
        faulty(2, 2, fields, S + E + 2);
    }
    // A target that does not exist leaves another signal without a statement.
    faulty(2, 2, &[0, 5, 4], 2);
    let mut lists = good();
    lists[2].push(vec![0, 5, 4]);
    assert_eq!(read(&lists).expect_err("a fault").place, S + E + 4);
    let mut lists = good();
    lists[2].push(vec![2, 2, 4]);
    assert_eq!(read(&lists).expect_err("a fault").place, S + E + 4);
}

#[test]
fn lists_that_do_not_split() {
    let lists = good().map(|list| words(&list));
    let place = |lists: &[Vec<u32>; 3]| {
        let refusal = Model::new(lists.each_ref().map(Vec::as_slice)).expect_err("a fault");
        assert_eq!(refusal.number, 12);
        refusal.place
    };
    for (list, before, count) in [(0, 0, S), (1, S, E), (2, S + E, 4)] {
        for length in [0, 2, u32::MAX] {
            let mut lists = lists.clone();
            lists[list].push(length);
            assert_eq!(place(&lists), before + count, "list {list}");
            // Splitting comes before every other fault.
            lists[0][1] = 99;
            assert_eq!(place(&lists), before + count, "list {list}");
        }
        let mut lists = lists.clone();
        lists[list][0] = 0;
        assert_eq!(place(&lists), before);
    }
    // A bare length word splits, but is no record of any kind.
    let mut lists = lists.clone();
    lists[2].push(1);
    assert_eq!(place(&lists), S + E + 4);
}

#[test]
fn lengths_and_bits() {
    let model = read(&good()).expect("a model");
    let works = model.works();
    let run = |bytes: &[u8], works: Works, bits: &[u8], fired| {
        let mut after = bytes.to_vec();
        let outcome = model.run(&mut after, works, bits, fired);
        if outcome.is_err() {
            assert_eq!(after, bytes);
        }
        outcome.map_err(|refusal| (refusal.number, refusal.place)).map(|()| after)
    };
    let bytes = [0; 6];
    // Six signal bits; 5 one-bit expressions, 2, 3 and 36 bits.
    assert_eq!(run(&[0; 5], works, &[], None), Err((1, 6)));
    let short = Works { expression_bits: 45, expressions: 0, signals: 0 };
    assert_eq!(run(&bytes, short, &[], None), Err((1, 46)));
    let short = Works { expressions: 7, signals: 0, ..works };
    assert_eq!(run(&bytes, short, &[], None), Err((1, 8)));
    let short = Works { signals: 4, ..works };
    assert_eq!(run(&bytes, short, &[], None), Err((1, 5)));

    assert_eq!(run(&[0, 0, 0, 2, 0, 3], works, &[2], Some((9, 9))), Err((14, 3)));
    assert_eq!(run(&bytes, works, &[2], Some((9, 9))), Err((14, 2)));
    assert_eq!(run(&bytes, works, &[0, 1, 0], None), Err((14, 2)));
    assert_eq!(run(&bytes, works, &[0, 2], Some((9, 9))), Err((14, 1)));
    assert_eq!(run(&bytes, works, &[0, 1], Some((5, 0))), Err((14, 0)));
    assert_eq!(run(&bytes, works, &[0, 1], Some((3, 2))), Err((14, 0)));
    assert_eq!(run(&bytes, works, &[0, 1], Some((4, 1))), Ok(vec![0, 1, 0, 0, 0, 1]));
    // Bytes behind those needed are neither judged nor changed. The register's
    // enable is its clock, zero, so it keeps.
    let longer = [0, 0, 1, 1, 0, 0, 7];
    assert_eq!(run(&longer, works, &[1, 1], Some((3, 0))), Ok(vec![1, 1, 1, 1, 0, 1, 7]));
}

#[test]
fn loops() {
    let one_bit = |count: u32| (0..count).map(|_| vec![2, 1, 0]).collect::<Vec<_>>();
    let read_all = |count: u32| (0..count).map(|s| vec![1, 1, s, 0]).collect::<Vec<_>>();
    let lowest = |statements: Vec<Vec<u32>>| {
        let count = statements.len() as u32;
        let mut expressions = read_all(count);
        expressions.push(vec![4, 1, 0, count - 1]); // the first and the last signal
        let lists = [one_bit(count), expressions, statements];
        read(&lists).expect("a model").on_loop()
    };
    assert_eq!(lowest(vec![vec![0, 0, 0]]), Some(0));
    // s0 waits for the loop of s1 and s2 but is not on it.
    assert_eq!(lowest(vec![vec![0, 0, 1], vec![0, 1, 2], vec![0, 2, 1]]), Some(1));
    assert_eq!(lowest(vec![vec![0, 0, 2], vec![0, 1, 0], vec![0, 2, 1]]), Some(0));
    // A register takes part in no loop.
    assert_eq!(lowest(vec![vec![0, 0, 1], vec![1, 1, 0, 0, 0, 0, 0]]), None);
    // e2 reads both signals and closes a loop, but only if something reaches it.
    assert_eq!(lowest(vec![vec![0, 0, 2], vec![1, 1, 0, 0, 0, 0, 0]]), Some(0));

    let lists = [one_bit(1), read_all(1), vec![vec![0, 0, 0]]];
    let model = read(&lists).expect("a model");
    let refusal = model.run(&mut [0], model.works(), &[], Some((0, 2))).expect_err("14 first");
    assert_eq!((refusal.number, refusal.place), (14, 0));
    let refusal = model.run(&mut [1], model.works(), &[], None).expect_err("a loop");
    assert_eq!((refusal.number, refusal.place), (13, 0));
}
