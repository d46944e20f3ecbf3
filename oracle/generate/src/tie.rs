//! Spare inputs tied to used ones, so that a cell reads a wire twice, and the
//! contrary.

use std::collections::HashSet;

use netlist::{Bit, BlockRam, Cell, Control, Direction, Netlist, Port};

use crate::Rng;

/// No cell reads a wire twice any more: further ones are those of a new port.
pub fn untie(netlist: &mut Netlist) {
    let further = netlist.cells.iter().map(|cell| {
        let reads = cell.reads();
        reads.len() - reads.iter().collect::<HashSet<_>>().len()
    });
    let spares = further.max().unwrap_or(0);
    if spares == 0 {
        return;
    }
    let named = netlist.cells.iter_mut().flat_map(|cell| {
        let mut wires = cell.outputs();
        wires.extend(cell.other_reads());
        wires.extend(cell.inputs_mut().into_iter().filter_map(|bit| wire(*bit)));
        wires
    });
    let mut named = named.collect::<HashSet<_>>();
    named.extend(netlist.ports.iter().flat_map(|port| &port.bits).filter_map(|bit| wire(*bit)));
    let spares = (0..).filter(|wire| !named.contains(wire)).take(spares).collect::<Vec<_>>();
    for cell in &mut netlist.cells {
        let mut seen = cell.other_reads().into_iter().collect::<HashSet<_>>();
        let mut left = spares.iter();
        for bit in cell.read_bits_mut() {
            if let Bit::Wire(wire) = bit
                && !seen.insert(*wire)
            {
                *wire = *left.next().expect("spare wires enough");
            }
        }
    }
    let bits = spares.into_iter().map(Bit::Wire).collect();
    netlist.ports.push(Port { direction: Direction::Input, bits });
}

fn wire(bit: Bit) -> Option<u32> {
    match bit {
        Bit::Wire(wire) => Some(wire),
        Bit::Zero | Bit::One => None,
    }
}

/// Ties inputs of the cell. One without a wire among them stays as it is. It gets no
/// wire that it did not read, so no loop closes; only what waits for an edge may get
/// the cell's own outputs.
pub fn tie(rng: &mut Rng, cell: &mut Cell) {
    match cell {
        Cell::Lut4 { inputs: [a, b, c, d], .. } => {
            if rng.chance(15) {
                some(rng, &mut [a, b]);
                some(rng, &mut [c, d]);
            } else {
                some(rng, &mut [a, b, c, d]);
            }
        }
        Cell::PfuMux { lut_true: one, lut_false: zero, select, .. }
        | Cell::L6Mux21 { data_one: one, data_zero: zero, select, .. } => {
            some(rng, &mut [one, zero, select]);
        }
        Cell::Ccu2c { inputs: [first, second], carry_in, .. } => {
            carry_chain(rng, first, second, carry_in);
        }
        Cell::Multiplier { lhs, rhs, .. } => multiplier(rng, lhs, rhs),
        Cell::FlipFlop { data, output, enable, reset, .. } => {
            let reset = reset.as_mut().filter(|reset| !reset.asynchronous);
            let mut bits = vec![data];
            bits.extend(enable.as_mut().map(|enable| &mut enable.signal));
            bits.extend(reset.map(|reset| &mut reset.signal));
            if rng.chance(30) {
                let at = rng.below(bits.len());
                *bits[at] = Bit::Wire(*output);
            }
            some(rng, &mut bits);
        }
        Cell::BlockRam(ram) => block_ram(rng, ram),
        Cell::DistributedRam { write_address, data, write, read_address, read, .. } => {
            // The read address does not wait for the edge.
            match rng.below(5) {
                0 | 1 => *write_address = *read_address,
                2 => some(rng, &mut read_address.each_mut()),
                3 => data[rng.below(4)] = Bit::Wire(rng.pick(read)),
                _ => {}
            }
            let waiting = write_address.iter_mut().chain(data).chain([&mut write.signal]);
            let mut waiting = waiting.collect::<Vec<_>>();
            if rng.flag() {
                *waiting[rng.below(9)] = rng.pick(read_address);
            }
            if rng.flag() {
                some(rng, &mut waiting);
            }
        }
        Cell::Io { pad, fabric_output, tristate, .. } => {
            let pad = Bit::Wire(*pad);
            match rng.below(4) {
                0 => *fabric_output = pad,
                1 => *tristate = pad,
                2 => some(rng, &mut [fabric_output, tristate]),
                _ => (*fabric_output, *tristate) = (pad, pad),
            }
        }
        Cell::Jtagg { .. } | Cell::Pll { .. } => {}
    }
}

/// Some of the bits, or all, become one of them that is a wire.
pub fn some(rng: &mut Rng, bits: &mut [&mut Bit]) {
    let wires = (0..bits.len()).filter(|&at| matches!(bits[at], Bit::Wire(_)));
    let wires = wires.collect::<Vec<_>>();
    if wires.is_empty() || bits.len() < 2 {
        return;
    }
    bits.swap(0, rng.pick(&wires));
    rng.shuffle(&mut bits[1..]);
    let wire = *bits[0];
    let count = rng.range(2, bits.len());
    bits[1..count].iter_mut().for_each(|bit| **bit = wire);
}

fn carry_chain(rng: &mut Rng, first: &mut [Bit; 4], second: &mut [Bit; 4], carry_in: &mut Bit) {
    match rng.below(5) {
        0 => *second = *first,
        1 => {
            let at = rng.below(4);
            second[at] = first[at];
        }
        2 => some(rng, &mut first.each_mut()),
        3 => some(rng, &mut second.each_mut()),
        _ => {
            let all = first.iter_mut().chain(second).chain([carry_in]);
            some(rng, &mut all.collect::<Vec<_>>());
        }
    }
}

fn multiplier(rng: &mut Rng, lhs: &mut [Bit; 18], rhs: &mut [Bit; 18]) {
    match rng.below(4) {
        0 | 1 => *rhs = *lhs,
        2 => {
            // The upper bits as the sign has them.
            let top = rng.below(17);
            let sign = lhs[top];
            lhs[top..].fill(sign);
        }
        _ => some(rng, &mut lhs.iter_mut().chain(rhs).collect::<Vec<_>>()),
    }
}

fn block_ram(rng: &mut Rng, ram: &mut BlockRam) {
    for _ in 0..rng.range(1, 4) {
        once(rng, ram);
    }
    if ram.word_width == 1 && rng.flag() {
        own_read(rng, ram);
    }
}

fn once(rng: &mut Rng, ram: &mut BlockRam) {
    let window = ram.window();
    let read = rng.pick(&ram.read_bits());
    match rng.below(15) {
        0 => ram.read_address = ram.write_address,
        1 => {
            let address = &mut ram.write_address[window];
            let bit = rng.pick(address);
            address.fill(bit);
        }
        2 => some(rng, &mut ram.data.iter_mut().collect::<Vec<_>>()),
        3 => ram.write.signal = read,
        4 => clock_enable(rng, &mut ram.clock_enable, ram.write.signal),
        5 => clock_enable(rng, &mut ram.clock_enable, read),
        // What is not read as a bit: an address outside of its window, the clock,
        // a read enable.
        6 => {
            let outside = (0..14).filter(|at| !window.contains(at)).collect::<Vec<_>>();
            if !outside.is_empty() {
                ram.read_address[rng.pick(&outside)] = read;
            }
        }
        7 => ram.data[0] = ram.clock,
        8 => {
            if let Some(enable) = ram.read_enable {
                ram.write.signal = enable.signal;
            }
        }
        9 => {
            let at = rng.below(ram.data.len());
            ram.data[at] = Bit::Wire(ram.read[at]);
        }
        way => {
            let (address, data) = (ram.write_address, ram.data.clone());
            let Some(second) = &mut ram.second else { return };
            match way {
                10 => second.address = address,
                11 => second.data = data,
                12 => second.write.signal = ram.write.signal,
                13 => {
                    let signal = ram.clock_enable.map_or(read, |enable| enable.signal);
                    clock_enable(rng, &mut ram.clock_enable, signal);
                    clock_enable(rng, &mut second.clock_enable, signal);
                }
                _ => clock_enable(rng, &mut second.clock_enable, second.write.signal),
            }
        }
    }
}

fn clock_enable(rng: &mut Rng, enable: &mut Option<Control>, signal: Bit) {
    let active_high = enable.map_or_else(|| rng.flag(), |enable| enable.active_high);
    *enable = Some(Control { signal, active_high });
}

/// A RAM of one bit reads, as a bit, the register that a port with a clock enable
/// reads itself.
fn own_read(rng: &mut Rng, ram: &mut BlockRam) {
    let low = ram.window().start;
    let first = rng.flag() || ram.second.is_none();
    let read = rng.pick(&ram.read_bits());
    let (enable, own) = match &mut ram.second {
        Some(second) if !first => (&mut second.clock_enable, second.read[0]),
        _ => (&mut ram.clock_enable, ram.read[0]),
    };
    if enable.is_none() {
        clock_enable(rng, enable, read);
    }
    let own = Bit::Wire(own);
    match (rng.below(8), &mut ram.second) {
        (0, _) => ram.write_address[low] = own,
        (1, _) => ram.write.signal = own,
        (2, _) => clock_enable(rng, &mut ram.clock_enable, own),
        (3 | 4, Some(second)) => second.data[0] = own,
        (5, Some(second)) => second.write.signal = own,
        _ => ram.data[0] = own,
    }
}
