//! The tick rule on small netlists, with the values written down by hand. Both
//! simulators must show them.

use cells::Circuit;
use compare::{Outcome, ROOMY, Tally, compare, shrink, wrong};
use generate::Rng;
use model::Model;
use netlist::{Bit, BlockRam, Cell, Control, Direction, Edge, Netlist, Port, Reset, SecondPort};

const CLOCK: Bit = Bit::Wire(0);
/// The clock is port 0, so its signal is 0.
const RISE: Option<(u32, u32)> = Some((0, 0));
const FALL: Option<(u32, u32)> = Some((0, 1));

fn wire(number: u32) -> Bit {
    Bit::Wire(number)
}

fn high(signal: Bit) -> Control {
    Control { signal, active_high: true }
}

fn input(wires: &[u32]) -> Port {
    Port { direction: Direction::Input, bits: wires.iter().copied().map(Bit::Wire).collect() }
}

fn output(bits: &[Bit]) -> Port {
    Port { direction: Direction::Output, bits: bits.to_vec() }
}

/// Ticks as fired edge, tick bits as digits, shown bits as digits.
fn check(netlist: &Netlist, ticks: &[(Option<(u32, u32)>, &str, &str)]) {
    let digits = |text: &str| text.bytes().map(|digit| digit - b'0').collect::<Vec<_>>();
    let recording = lower::lower_netlist(netlist, ROOMY).expect("accepted");
    let model = Model::new(recording.words.each_ref().map(Vec::as_slice)).expect("well formed");
    let mut bytes = vec![0; model.signal_bits()];
    let mut circuit = Circuit::new(netlist);
    assert!(!circuit.has_loop());
    for (number, (fired, bits, shown)) in ticks.iter().enumerate() {
        let bits = digits(bits);
        assert!(circuit.tick(&bits, *fired));
        model.run(&mut bytes, model.works(), &bits, *fired).expect("a tick");
        assert_eq!(circuit.shown(), digits(shown), "cells, tick {number}");
        assert_eq!(model.shown(&bytes), digits(shown), "model, tick {number}");
    }
}

fn flip_flop(enable: Option<Control>, reset: Option<Reset>) -> Netlist {
    // Inputs: clock, data 1, enable 2, reset 3.
    Netlist {
        ports: vec![input(&[0]), input(&[1]), input(&[2]), input(&[3]), output(&[wire(4)])],
        cells: vec![Cell::FlipFlop {
            data: wire(1),
            output: 4,
            clock: CLOCK,
            edge: Edge::Rising,
            enable,
            reset,
        }],
    }
}

#[test]
fn a_flip_flop_loads_on_its_clock_and_edge_only() {
    check(
        &flip_flop(None, None),
        &[
            (RISE, "0100", "1"),
            (FALL, "0000", "1"),
            (None, "0000", "1"),
            (Some((1, 0)), "0000", "1"),
            (Some((4, 0)), "0000", "1"),
            (RISE, "0000", "0"),
        ],
    );
}

#[test]
fn a_synchronous_reset_beats_an_enable() {
    let reset = Reset { signal: wire(3), active_high: true, asynchronous: false, value: true };
    check(
        &flip_flop(Some(high(wire(2))), Some(reset)),
        &[
            (None, "0001", "0"),
            (RISE, "0001", "1"),
            (RISE, "0000", "1"),
            (RISE, "0010", "0"),
            (RISE, "0011", "1"),
        ],
    );
}

#[test]
fn an_asynchronous_reset_needs_no_edge() {
    let reset = Reset { signal: wire(3), active_high: false, asynchronous: true, value: true };
    check(
        &flip_flop(None, Some(reset)),
        &[
            (None, "0001", "0"),
            (None, "0000", "1"),
            (RISE, "0000", "1"),
            (RISE, "0001", "0"),
            (FALL, "0000", "1"),
        ],
    );
}

fn address(low: &[Bit]) -> [Bit; 14] {
    std::array::from_fn(|at| low.get(at).copied().unwrap_or(Bit::Zero))
}

fn ram(depth: u32, physical_width: u32, low: &[Bit], second: bool) -> Netlist {
    // Inputs: clock, address 1 2, write 3, data 4, second write 5, second data 6.
    let address = address(low);
    let second = second.then(|| SecondPort {
        address,
        write: high(wire(5)),
        read_enable: None,
        clock_enable: None,
        clock: CLOCK,
        edge: Edge::Rising,
        data: vec![wire(6)],
        read: vec![8],
    });
    let shown = if second.is_some() { vec![wire(7), wire(8)] } else { vec![wire(7)] };
    Netlist {
        ports: vec![input(&[0]), input(&[1, 2, 3, 4, 5, 6]), output(&shown)],
        cells: vec![Cell::BlockRam(Box::new(BlockRam {
            depth,
            word_width: 1,
            physical_width,
            write_address: address,
            write: high(wire(3)),
            read_address: address,
            read_enable: None,
            clock_enable: None,
            clock: CLOCK,
            edge: Edge::Rising,
            data: vec![wire(4)],
            read: vec![7],
            second,
        }))],
    }
}

#[test]
fn a_block_ram_of_one_word() {
    // Bits: clock, address, 0, write, data, 0 0.
    check(
        &ram(1, 1, &[wire(1)], false),
        &[
            (RISE, "0001100", "0"), // writes word 0, reads it as it was
            (RISE, "0000000", "1"), // reads word 0
            (RISE, "0100000", "0"), // address 1 lies beyond
            (RISE, "0101000", "0"), // a write there is lost
            (RISE, "0000000", "1"),
            (FALL, "0001000", "1"),
            (RISE, "0000000", "1"),
        ],
    );
}

#[test]
fn the_address_starts_at_the_shift() {
    // Physical width 4: the two lowest address bits are not looked at.
    check(
        &ram(3, 4, &[wire(6), wire(5), wire(1), wire(2)], false),
        &[
            (RISE, "0101100", "0"), // word 1
            (RISE, "0100011", "1"),
            (RISE, "0000011", "0"),
            (RISE, "0111100", "0"), // word 3 lies beyond
            (RISE, "0110000", "0"),
            (RISE, "0100000", "1"),
        ],
    );
}

#[test]
fn if_both_ports_write_b_stays() {
    check(
        &ram(2, 1, &[wire(1)], true),
        &[
            (RISE, "0001110", "00"), // A writes 1, B writes 0
            (RISE, "0000000", "00"),
            (RISE, "0001011", "00"), // A writes 0, B writes 1
            (RISE, "0000000", "11"),
            (RISE, "0000010", "11"), // B alone writes 0
            (RISE, "0001100", "00"), // A alone writes 1
            (RISE, "0000000", "11"),
        ],
    );
}

#[test]
fn a_read_enable_keeps_the_old_word() {
    let mut netlist = ram(2, 1, &[wire(1)], false);
    netlist.ports.insert(1, input(&[9]));
    let Cell::BlockRam(ram) = &mut netlist.cells[0] else { unreachable!() };
    ram.read_enable = Some(high(wire(9)));
    check(
        &netlist,
        &[
            (RISE, "00001100", "0"),
            (RISE, "01000000", "1"),
            (RISE, "00100000", "1"),
            (RISE, "01100000", "0"),
        ],
    );
}

fn low(signal: Bit) -> Control {
    Control { signal, active_high: false }
}

/// Two words, two ports that both use address bit 1, and their clock enables.
fn enabled(first: Option<Control>, second: Option<Control>) -> Netlist {
    let mut netlist = ram(2, 1, &[wire(1)], true);
    // A second enable, as a port of its own; the first is address bit 2, which
    // two words leave unused: part of a wider signal.
    netlist.ports.insert(2, input(&[9]));
    let Cell::BlockRam(ram) = &mut netlist.cells[0] else { unreachable!() };
    ram.clock_enable = first;
    ram.second.as_mut().expect("a second port").clock_enable = second;
    netlist
}

#[test]
fn each_port_has_a_clock_enable_of_its_own() {
    // Bits: clock, address, A's enable, A's write and data, B's; B's enable.
    check(
        &enabled(Some(high(wire(2))), Some(high(wire(9)))),
        &[
            (RISE, "00011001", "00"), // A is off: its write is lost
            (RISE, "00100000", "00"), // word 0 is still 0
            (RISE, "00000111", "00"), // A off, B on: B writes 1 and reads 0
            (RISE, "00000001", "01"), // A keeps its old word, B reads 1
            (RISE, "00100000", "11"), // now A reads it
            (RISE, "00111110", "11"), // both write word 0, B is off: A's 1 stays
            (RISE, "00110010", "11"), // A writes 0; B, off, neither writes nor reads
            (RISE, "00100000", "01"),
            (RISE, "00000001", "00"),
            (RISE, "00111101", "00"), // both on: B's 0 stays
            (RISE, "00100001", "00"),
            (FALL, "00111001", "00"), // the other edge
            (RISE, "00100001", "00"),
        ],
    );
}

#[test]
fn a_clock_enable_may_be_active_low() {
    check(
        &enabled(Some(low(wire(2))), Some(high(wire(9)))),
        &[
            (RISE, "00111000", "00"), // A is off
            (RISE, "00000000", "00"),
            (RISE, "00011000", "00"), // A is on and writes 1
            (RISE, "00100001", "01"), // only B reads
            (RISE, "00000000", "11"),
        ],
    );
    check(
        &enabled(None, Some(low(wire(9)))),
        &[
            (RISE, "00011001", "00"), // A, without one, writes 1; B is off
            (RISE, "00000001", "10"),
            (RISE, "00000100", "11"), // B reads 1 and writes 0
            (RISE, "00000001", "01"),
            (RISE, "00000000", "00"),
        ],
    );
}

#[test]
fn a_constant_clock_enable() {
    // Off for ever, by either level.
    for never in [high(Bit::Zero), low(Bit::One)] {
        check(
            &enabled(Some(never), None),
            &[(RISE, "00011000", "00"), (RISE, "00000110", "00"), (RISE, "00000000", "01")],
        );
    }
    for always in [high(Bit::One), low(Bit::Zero)] {
        check(
            &enabled(Some(always), Some(always)),
            &[(RISE, "00011000", "00"), (RISE, "00000100", "11"), (RISE, "00000000", "00")],
        );
    }
}

#[test]
fn a_read_needs_both_enables() {
    let mut netlist = enabled(Some(high(wire(2))), None);
    let Cell::BlockRam(ram) = &mut netlist.cells[0] else { unreachable!() };
    ram.read_enable = Some(high(wire(9)));
    check(
        &netlist,
        &[
            (RISE, "00111000", "00"), // writes 1; the read enable is off
            (RISE, "00000001", "01"), // the clock enable is off
            (RISE, "00100000", "01"), // the read enable is off
            (RISE, "00100001", "11"),
            (RISE, "00010001", "11"), // the write waits for the clock enable only
            (RISE, "00110000", "11"),
            (RISE, "00100001", "00"),
        ],
    );
}

#[test]
fn a_carry_row() {
    // L is a xor b, M is a (the table's bits with the last two inputs 0).
    let row = |a, b| [wire(a), wire(b), Bit::Zero, Bit::Zero];
    let adder = |inject| Netlist {
        ports: vec![input(&[1, 2, 3, 4, 5]), output(&[wire(6), wire(7), wire(8)])],
        cells: vec![Cell::Ccu2c {
            inputs: [row(1, 2), row(3, 4)],
            carry_in: wire(5),
            sums: [6, 7],
            carry_out: 8,
            init: [0x0006; 2],
            inject,
        }],
    };
    check(
        &adder([false; 2]),
        &[
            (None, "00000", "000"),
            (None, "10000", "100"),
            (None, "10001", "010"), // L passes the carry on
            (None, "10101", "001"),
            (None, "11001", "100"), // L is 0, so M, which is L here
        ],
    );
    check(&adder([true, false]), &[(None, "10001", "100"), (None, "10101", "110")]);
    // M reads the table with the last two inputs 0, L with what they are.
    let mut netlist = adder([false; 2]);
    let Cell::Ccu2c { inputs, init, .. } = &mut netlist.cells[0] else { unreachable!() };
    inputs[0] = [wire(1), wire(2), wire(3), Bit::Zero];
    inputs[1] = [Bit::Zero; 4];
    *init = [0x0008, 0x0001];
    // a b c = 1 1 1: L is bit 7, 0, and M bit 3, 1. The second row passes it on.
    check(&netlist, &[(None, "11100", "001"), (None, "11000", "110")]);
}

#[test]
fn jtagg_pll_and_io_outputs() {
    let netlist = Netlist {
        ports: vec![
            input(&[1]),
            Port { direction: Direction::Inout, bits: vec![wire(2)] },
            input(&[3, 4]),
            output(&[wire(20), wire(26), wire(30), wire(31), wire(32), wire(40)]),
        ],
        cells: vec![
            Cell::Jtagg { wires: std::array::from_fn(|at| 20 + at as u32) },
            Cell::Pll {
                reference: wire(1),
                feedback: 30,
                output: 30,
                locked: 31,
                further: vec![30, 32],
            },
            Cell::Io { pad: 2, fabric_output: wire(3), fabric_input: 40, tristate: wire(4) },
        ],
    };
    check(
        &netlist,
        &[
            (None, "0000", "010100"),
            (None, "1000", "011110"),
            (None, "0100", "010100"),
            (None, "0101", "010101"),
            (None, "0010", "010101"),
            (None, "0011", "010100"),
        ],
    );
}

#[test]
fn the_clock_is_the_signal_of_the_wire() {
    // A PLL's copy of the clock, and an output port that shows it, do not fire
    // what runs on the clock itself.
    let flip_flop = |clock, output| Cell::FlipFlop {
        data: Bit::One,
        output,
        clock,
        edge: Edge::Rising,
        enable: None,
        reset: None,
    };
    let netlist = Netlist {
        ports: vec![input(&[0]), output(&[CLOCK]), output(&[wire(10), wire(11), wire(12)])],
        cells: vec![
            Cell::Pll { reference: CLOCK, feedback: 1, output: 1, locked: 2, further: vec![] },
            flip_flop(CLOCK, 10),
            flip_flop(wire(1), 11),
            flip_flop(Bit::One, 12),
        ],
    };
    // Signals: clock 0, outputs 1 2, PLL 3 4, banks 5 6 7, zero 8, one 9.
    check(
        &netlist,
        &[
            (Some((1, 0)), "1", "1000"),
            (Some((8, 0)), "1", "1000"),
            (Some((3, 0)), "1", "1010"),
            (Some((9, 0)), "0", "0011"),
            (Some((0, 0)), "0", "0111"),
        ],
    );
}

#[test]
fn registers_change_together() {
    // Two flip-flops in different banks trade their values through a LUT4.
    let flip_flop = |data, output, clock| Cell::FlipFlop {
        data,
        output,
        clock,
        edge: Edge::Rising,
        enable: None,
        reset: (output == 2).then_some(Reset {
            signal: wire(9),
            active_high: true,
            asynchronous: true,
            value: true,
        }),
    };
    let netlist = Netlist {
        ports: vec![input(&[0]), input(&[9]), output(&[wire(2), wire(3), wire(4)])],
        cells: vec![
            Cell::Lut4 {
                inputs: [wire(2), Bit::Zero, Bit::Zero, Bit::Zero],
                output: 4,
                init: 0xAAAA,
            },
            flip_flop(wire(3), 2, CLOCK),
            flip_flop(wire(4), 3, CLOCK),
        ],
    };
    check(
        &netlist,
        &[(None, "01", "101"), (RISE, "00", "010"), (RISE, "00", "101"), (RISE, "01", "111")],
    );
}

#[test]
fn a_wrong_reading_is_found_and_made_small() {
    let spoil = |netlist: &Netlist| wrong::spoiled(netlist, wrong::READINGS[0].1);
    let differs = |left: &Netlist, right: &Netlist| {
        let outcome = compare(left, right, &mut Rng::new(1, 1), 200, &mut Tally::default());
        matches!(outcome, Outcome::Different(_))
    };
    let found = (0..)
        .map(|index| generate::runnable(3, index))
        .find(|netlist| netlist.cells.len() > 8 && differs(netlist, &spoil(netlist)))
        .expect("endless");
    let smallest = shrink(&found, &spoil, &differs);
    assert!(differs(&smallest, &spoil(&smallest)));
    assert!(smallest.cells.len() <= 4, "{smallest:#?}");
}
