//! Netlist to words. Nothing is checked, so a netlist that the reader turns
//! down can be written too.

use crate::{Bit, Cell, Control, Direction, Edge, Netlist, Port, Reset};

#[must_use]
pub fn write(netlist: &Netlist) -> Vec<u32> {
    let mut words = Vec::new();
    for port in &netlist.ports {
        put_port(&mut words, port);
    }
    let start_of_cells = words.len() as u32;
    for cell in &netlist.cells {
        put_cell(&mut words, cell);
    }
    words.extend([0, netlist.ports.len() as u32, start_of_cells, netlist.cells.len() as u32]);
    words
}

#[must_use]
pub fn bit_word(bit: Bit) -> u32 {
    match bit {
        Bit::Zero => 0,
        Bit::One => 1,
        Bit::Wire(wire) => wire + 2,
    }
}

fn put_bits(words: &mut Vec<u32>, bits: &[Bit]) {
    words.extend(bits.iter().copied().map(bit_word));
}

fn put_control(words: &mut Vec<u32>, control: Control) {
    words.extend([bit_word(control.signal), u32::from(control.active_high)]);
}

fn put_optional_control(words: &mut Vec<u32>, control: Option<Control>) {
    match control {
        Some(control) => {
            words.push(1);
            put_control(words, control);
        }
        None => words.extend([0, 0, 0]),
    }
}

fn put_optional_reset(words: &mut Vec<u32>, reset: Option<Reset>) {
    match reset {
        Some(reset) => words.extend([
            1,
            bit_word(reset.signal),
            u32::from(reset.active_high),
            u32::from(reset.asynchronous),
            u32::from(reset.value),
        ]),
        None => words.extend([0; 5]),
    }
}

fn put_clock(words: &mut Vec<u32>, clock: Bit, edge: Edge) {
    words.extend([bit_word(clock), u32::from(edge == Edge::Falling)]);
}

fn put_port(words: &mut Vec<u32>, port: &Port) {
    words.push(match port.direction {
        Direction::Input => 0,
        Direction::Output => 1,
        Direction::Inout => 2,
    });
    words.push(port.bits.len() as u32);
    put_bits(words, &port.bits);
}

fn put_cell(words: &mut Vec<u32>, cell: &Cell) {
    match cell {
        Cell::Lut4 { inputs, output, init } => {
            words.push(0);
            put_bits(words, inputs);
            words.extend([*output, u32::from(*init)]);
        }
        Cell::PfuMux { lut_true, lut_false, select, output } => {
            words.push(1);
            put_bits(words, &[*lut_true, *lut_false, *select]);
            words.push(*output);
        }
        Cell::L6Mux21 { data_zero, data_one, select, output } => {
            words.push(2);
            put_bits(words, &[*data_zero, *data_one, *select]);
            words.push(*output);
        }
        Cell::Ccu2c { inputs, carry_in, sums, carry_out, init, inject } => {
            words.push(3);
            put_bits(words, inputs.as_flattened());
            words.push(bit_word(*carry_in));
            words.extend(sums);
            words.push(*carry_out);
            words.extend(init.map(u32::from));
            words.extend(inject.map(u32::from));
        }
        Cell::Multiplier { lhs, rhs, product } => {
            words.push(4);
            put_bits(words, lhs);
            put_bits(words, rhs);
            words.extend(product);
        }
        Cell::FlipFlop { data, output, clock, edge, enable, reset } => {
            words.extend([5, bit_word(*data), *output]);
            put_clock(words, *clock, *edge);
            put_optional_control(words, *enable);
            put_optional_reset(words, *reset);
        }
        Cell::BlockRam(ram) => {
            words.extend([6, ram.depth, ram.word_width, ram.physical_width]);
            put_bits(words, &ram.write_address);
            put_control(words, ram.write);
            put_bits(words, &ram.read_address);
            put_optional_control(words, ram.read_enable);
            put_optional_control(words, ram.clock_enable);
            put_clock(words, ram.clock, ram.edge);
            words.push(u32::from(ram.second.is_some()));
            put_bits(words, &ram.data);
            words.extend(&ram.read);
            if let Some(second) = &ram.second {
                put_bits(words, &second.address);
                put_control(words, second.write);
                put_optional_control(words, second.read_enable);
                put_optional_control(words, second.clock_enable);
                put_clock(words, second.clock, second.edge);
                put_bits(words, &second.data);
                words.extend(&second.read);
            }
        }
        Cell::DistributedRam {
            write_address,
            data,
            write,
            read_address,
            read,
            clock,
            edge,
            second,
        } => {
            words.push(7);
            put_bits(words, write_address);
            put_bits(words, data);
            put_control(words, *write);
            put_bits(words, read_address);
            words.extend(read);
            put_clock(words, *clock, *edge);
            words.push(u32::from(*second));
        }
        Cell::Io { pad, fabric_output, fabric_input, tristate } => {
            words.extend([8, *pad, bit_word(*fabric_output), *fabric_input, bit_word(*tristate)]);
        }
        Cell::Jtagg { wires } => {
            words.push(9);
            words.extend(wires);
        }
        Cell::Pll { reference, feedback, output, locked, further } => {
            words.extend([10, bit_word(*reference), *feedback, *output, *locked]);
            words.push(further.len() as u32);
            words.extend(further);
        }
    }
}
