//! What the generator is meant to draw turns up among a few thousand netlists.

use std::collections::{BTreeMap, HashMap};

use generate::Focus;
use netlist::{Bit, BlockRam, Cell, Control, Direction, Limits, Netlist};

#[derive(Clone, Copy, PartialEq, Eq)]
enum Driver {
    Port,
    FlipFlop,
    Cell(usize),
    Pll(usize),
}

fn drivers(netlist: &Netlist) -> HashMap<u32, Vec<Driver>> {
    let mut drivers = HashMap::<u32, Vec<Driver>>::new();
    for port in netlist.ports.iter().filter(|port| port.direction != Direction::Output) {
        for bit in &port.bits {
            if let Bit::Wire(wire) = bit {
                drivers.entry(*wire).or_default().push(Driver::Port);
            }
        }
    }
    for (index, cell) in netlist.cells.iter().enumerate() {
        let driver = match cell {
            Cell::FlipFlop { .. } => Driver::FlipFlop,
            Cell::Pll { .. } => Driver::Pll(index),
            _ => Driver::Cell(index),
        };
        for wire in cell.outputs() {
            drivers.entry(wire).or_default().push(driver);
        }
    }
    drivers
}

#[test]
fn pll_pins_are_shared_in_every_way() {
    let mut seen = BTreeMap::<&str, u32>::new();
    for index in 0..4_000 {
        let Ok(netlist) = netlist::read(&generate::sample(5, index), &Limits::BASE) else {
            continue;
        };
        let drivers = drivers(&netlist);
        for (place, cell) in netlist.cells.iter().enumerate() {
            let Cell::Pll { feedback, output, locked, further, .. } = cell else { continue };
            let mut note = |way, found: bool| {
                *seen.entry(way).or_default() += u32::from(found);
            };
            note("output = feedback", output == feedback);
            note("further = feedback", further.contains(feedback));
            note("further = output", output != feedback && further.contains(output));
            let twice = |wire: &&u32| further.iter().filter(|other| other == wire).count() > 1;
            let own = |wire: &&u32| *wire != feedback && *wire != output;
            note("further twice", further.iter().filter(own).any(|wire| twice(&wire)));
            note("locked = feedback", locked == feedback);
            note("locked = output", locked == output);
            note("locked = further", further.contains(locked));
            for wire in cell.outputs() {
                for driver in &drivers[&wire] {
                    match *driver {
                        Driver::Port => note("with an input", true),
                        Driver::FlipFlop => note("with a flip-flop", true),
                        Driver::Cell(other) => {
                            note("with an earlier cell", other < place);
                            note("with a later cell", other > place);
                        }
                        Driver::Pll(other) => {
                            note("with another PLL", other != place);
                        }
                    }
                }
            }
        }
    }
    println!("{seen:?}");
    assert!(seen.len() == 12 && seen.values().all(|&count| count > 0), "{seen:?}");
}

/// Widths of the signals that hold the wires; of flip-flops nothing is said.
fn widths(netlist: &Netlist) -> HashMap<u32, usize> {
    let mut widths = HashMap::new();
    for port in netlist.ports.iter().filter(|port| port.direction != Direction::Output) {
        for bit in &port.bits {
            if let Bit::Wire(wire) = bit {
                widths.insert(*wire, port.bits.len());
            }
        }
    }
    for cell in &netlist.cells {
        let width = match cell {
            Cell::FlipFlop { .. } => continue,
            Cell::BlockRam(ram) => ram.word_width as usize,
            Cell::Multiplier { .. } | Cell::DistributedRam { .. } => cell.outputs().len(),
            _ => 1,
        };
        widths.extend(cell.outputs().into_iter().map(|wire| (wire, width)));
    }
    widths
}

#[test]
fn clock_enables_come_in_every_way() {
    for focus in [Focus::All, Focus::ClockEnables] {
        let mut seen = BTreeMap::<&str, u32>::new();
        for index in 0..6_000 {
            let Ok(netlist) = netlist::read(&focus.sample(5, index), &Limits::BASE) else {
                continue;
            };
            assert!(focus == Focus::All || netlist.has_clock_enable());
            let mut note = |way, found: bool| *seen.entry(way).or_default() += u32::from(found);
            note("none, with block RAM", {
                !netlist.has_clock_enable() && netlist.block_rams().next().is_some()
            });
            let driven = drivers(&netlist);
            let widths = widths(&netlist);
            for ram in netlist.block_rams() {
                for Control { signal, active_high } in ram.clock_enables().into_iter().flatten() {
                    note("high", active_high);
                    note("low", !active_high);
                    note("Zero", signal == Bit::Zero);
                    note("One", signal == Bit::One);
                    if let Bit::Wire(wire) = signal {
                        let width = widths.get(&wire);
                        note("a signal of its own", width == Some(&1));
                        note("part of a wider one", width.is_some_and(|&width| width > 1));
                        note("missing", !driven.contains_key(&wire));
                        note("the clock", ram.clock == signal);
                        note("read by the RAM", ram.read.contains(&wire));
                    }
                }
                let enables = ram.clock_enables();
                let [first, second] = enables.as_slice() else { continue };
                note("only A's", first.is_some() && second.is_none());
                note("only B's", first.is_none() && second.is_some());
                let (Some(first), Some(second)) = (first, second) else { continue };
                note("both, alike", first == second);
                note("both, one wire, two levels", {
                    first.signal == second.signal && first.active_high != second.active_high
                });
                note("both, few words, one address", {
                    ram.depth <= 4
                        && ram.second.as_ref().is_some_and(|port| port.address == ram.write_address)
                });
            }
        }
        println!("{focus:?} {seen:?}");
        if focus == Focus::ClockEnables {
            assert_eq!(seen.remove("none, with block RAM"), Some(0));
        }
        assert!(seen.values().all(|&count| count > 0), "{seen:?}");
    }
}

/// Ways seen, by name.
#[derive(Default)]
struct Seen(BTreeMap<&'static str, u32>);

impl Seen {
    fn note(&mut self, way: &'static str, found: bool) {
        *self.0.entry(way).or_default() += u32::from(found);
    }
}

fn wire(bit: Bit) -> Option<u32> {
    match bit {
        Bit::Wire(wire) => Some(wire),
        Bit::Zero | Bit::One => None,
    }
}

/// Whether both are one wire.
fn same(a: Bit, b: Bit) -> bool {
    a == b && wire(a).is_some()
}

/// Whether a wire stands twice among the bits.
fn twice(bits: &[Bit]) -> bool {
    bits.iter().enumerate().any(|(at, &bit)| bits[..at].iter().any(|&before| same(before, bit)))
}

/// Whether the two have a wire in common.
fn common(some: &[Bit], others: &[Bit]) -> bool {
    some.iter().any(|&bit| others.iter().any(|&other| same(bit, other)))
}

/// How often the most frequent wire stands among the bits.
fn most(bits: &[Bit]) -> usize {
    let times = |bit: &Bit| bits.iter().filter(|&&other| same(*bit, other)).count();
    bits.iter().map(times).max().unwrap_or(0)
}

fn note_block_ram(seen: &mut Seen, ram: &BlockRam) {
    let window = ram.window();
    let write_address = &ram.write_address[window.clone()];
    let read_address = &ram.read_address[window.clone()];
    let write = ram.write.signal;
    let bits = ram.read_bits();
    seen.note("RAM: in an address", twice(write_address));
    seen.note("RAM: addresses of a port", {
        write_address == read_address && write_address.iter().any(|&bit| wire(bit).is_some())
    });
    seen.note("RAM: in the data", twice(&ram.data));
    seen.note("RAM: write control and data", common(&ram.data, &[write]));
    seen.note("RAM: write control and address", common(write_address, &[write]));
    seen.note("RAM: address and data", common(read_address, &ram.data));
    let enable = ram.clock_enable.map(|enable| enable.signal);
    seen.note("RAM: clock enable and write control", enable.is_some_and(|on| same(on, write)));
    seen.note("RAM: clock enable and data", enable.is_some_and(|on| common(&ram.data, &[on])));
    if let Some(second) = &ram.second {
        let address = &second.address[window.clone()];
        seen.note("RAM: across ports, addresses", {
            address == write_address && address.iter().any(|&bit| wire(bit).is_some())
        });
        seen.note("RAM: across ports, data", {
            second.data == ram.data && ram.data.iter().any(|&bit| wire(bit).is_some())
        });
        seen.note("RAM: across ports, write controls", same(second.write.signal, write));
        let pair = enable.zip(second.clock_enable.map(|enable| enable.signal));
        seen.note("RAM: across ports, clock enables", pair.is_some_and(|(a, b)| same(a, b)));
        seen.note("RAM: across ports, other", common(&second.data, &[write]));
    }
    // What is not read as a bit.
    let outside = |at: &usize| !window.contains(at);
    let outside = (0..14).filter(outside).map(|at| ram.read_address[at]).collect::<Vec<_>>();
    seen.note("RAM: outside of the window", common(&outside, &bits));
    seen.note("RAM: the clock read as a bit", common(&bits, &[ram.clock]));
    let enable = ram.read_enable.map(|enable| enable.signal);
    seen.note("RAM: a read enable read as a bit", enable.is_some_and(|on| common(&bits, &[on])));
    // The registers' own reads.
    let own = ram.own_reads();
    let has = |place: &[Bit]| own.iter().any(|own| place.contains(&Bit::Wire(own[0])));
    let narrow = ram.word_width == 1;
    seen.note("own read: data", narrow && has(&ram.data));
    seen.note("own read: address", narrow && has(write_address));
    seen.note("own read: write control", narrow && has(&[write]));
    let enable = ram.clock_enable.map(|enable| enable.signal);
    seen.note("own read: clock enable", narrow && enable.is_some_and(|on| has(&[on])));
    seen.note("own read: B's", {
        let second = ram.second.as_ref().filter(|port| narrow && port.clock_enable.is_some());
        second.is_some_and(|port| bits.contains(&Bit::Wire(port.read[0])))
    });
    seen.note("own read: of A, read by B", {
        let own = narrow && ram.clock_enable.is_some();
        ram.second.as_ref().is_some_and(|port| own && port.data == [Bit::Wire(ram.read[0])])
    });
    seen.note("own read: shared by no bit", narrow && !own.is_empty() && !ram.shares_own_read());
    seen.note("own read: wider than the bit", !narrow && has(&bits));
}

fn note_cell(seen: &mut Seen, cell: &Cell) {
    match cell {
        Cell::Lut4 { inputs, .. } => {
            let [a, b, c, d] = *inputs;
            let pairs = [[a, b, c, d], [a, c, b, d], [a, d, b, c]];
            let two = pairs.iter().any(|&[a, b, c, d]| same(a, b) && same(c, d) && a != c);
            seen.note("LUT4: two pairs", two);
            seen.note("LUT4: two", most(inputs) == 2);
            seen.note("LUT4: three", most(inputs) == 3);
            seen.note("LUT4: four", most(inputs) == 4);
        }
        Cell::PfuMux { lut_true, lut_false, select, .. } => {
            seen.note("PFUMX: arms", same(*lut_true, *lut_false) && lut_true != select);
            seen.note("PFUMX: select and true", same(*lut_true, *select));
            seen.note("PFUMX: select and false", same(*lut_false, *select));
            seen.note("PFUMX: all", most(&[*lut_true, *lut_false, *select]) == 3);
        }
        Cell::L6Mux21 { data_zero, data_one, select, .. } => {
            seen.note("L6MUX21: arms", same(*data_zero, *data_one) && data_one != select);
            seen.note("L6MUX21: select and zero", same(*data_zero, *select));
            seen.note("L6MUX21: select and one", same(*data_one, *select));
            seen.note("L6MUX21: all", most(&[*data_zero, *data_one, *select]) == 3);
        }
        Cell::Ccu2c { inputs: [first, second], carry_in, .. } => {
            seen.note("CCU2C: in a row", twice(first) || twice(second));
            seen.note("CCU2C: in both rows", common(first, second));
            seen.note("CCU2C: rows alike", most(first) > 0 && first == second);
            seen.note("CCU2C: carry and first row", common(first, &[*carry_in]));
            seen.note("CCU2C: carry and second row", common(second, &[*carry_in]));
        }
        Cell::Multiplier { lhs, rhs, .. } => {
            seen.note("multiplier: squared", most(lhs) > 0 && lhs == rhs);
            seen.note("multiplier: in a side", twice(lhs) && !common(lhs, rhs));
            seen.note("multiplier: in both sides", common(lhs, rhs) && lhs != rhs);
        }
        Cell::FlipFlop { data, output, enable, reset, .. } => {
            let enable = enable.map(|enable| enable.signal);
            let reset = reset.filter(|reset| !reset.asynchronous).map(|reset| reset.signal);
            seen.note("flip-flop: data and enable", enable.is_some_and(|on| same(on, *data)));
            seen.note("flip-flop: data and reset", reset.is_some_and(|by| same(by, *data)));
            seen.note("flip-flop: output and enable, its own read", {
                enable.is_some() && *data == Bit::Wire(*output)
            });
        }
        Cell::BlockRam(ram) => note_block_ram(seen, ram),
        Cell::DistributedRam { write_address, data, write, read_address, read, .. } => {
            seen.note("distributed RAM: in an address", twice(write_address));
            seen.note("distributed RAM: addresses alike", write_address == read_address);
            seen.note("distributed RAM: in the data", twice(data));
            seen.note("distributed RAM: address and data", common(read_address, data));
            seen.note("distributed RAM: write control", common(data, &[write.signal]));
            let read = read.map(Bit::Wire);
            seen.note("distributed RAM: its own output", common(&read, data));
        }
        Cell::Io { pad, fabric_output, tristate, .. } => {
            let pad = Bit::Wire(*pad);
            seen.note("IO: pad and output", pad == *fabric_output);
            seen.note("IO: pad and tristate", pad == *tristate);
            seen.note("IO: output and tristate", same(*fabric_output, *tristate));
            seen.note("IO: all", pad == *fabric_output && pad == *tristate);
        }
        Cell::Jtagg { .. } | Cell::Pll { .. } => {}
    }
}

#[test]
fn repeats_come_in_every_way() {
    for focus in [Focus::All, Focus::Repeats] {
        let mut seen = Seen::default();
        for index in 0..8_000 {
            let Ok(netlist) = netlist::read(&focus.sample(5, index), &Limits::BASE) else {
                continue;
            };
            seen.note("none", !netlist.has_repeat());
            for port in &netlist.ports {
                let shows = port.direction == Direction::Output;
                seen.note("an output port", shows && twice(&port.bits));
            }
            let driven = drivers(&netlist);
            let mut before = Vec::new();
            let mut data = BTreeMap::new();
            for cell in &netlist.cells {
                note_cell(&mut seen, cell);
                let reads = cell.reads();
                let missing = reads.iter().filter(|wire| !driven.contains_key(wire));
                let missing = missing.copied().map(Bit::Wire).collect::<Vec<_>>();
                seen.note("a missing wire", twice(&missing));
                seen.note("in two cells, once in each", {
                    !cell.has_repeat() && reads.iter().any(|wire| before.contains(wire))
                });
                if !cell.has_repeat() {
                    before.extend(reads);
                }
                if let Cell::FlipFlop { data: bit, clock, edge, reset: None, .. } = cell {
                    let with = data.entry((*clock, *edge as u8)).or_insert_with(Vec::new);
                    seen.note("flip-flops of a bank", common(with, &[*bit]));
                    with.push(*bit);
                }
            }
        }
        println!("{focus:?} {:?}", seen.0);
        if focus == Focus::Repeats {
            // Only where the words are changed afterwards.
            let none = seen.0.remove("none");
            assert!(none.is_some_and(|none| none < 40), "{none:?}");
        }
        assert!(seen.0.values().all(|&count| count > 0), "{:?}", seen.0);
    }
}
