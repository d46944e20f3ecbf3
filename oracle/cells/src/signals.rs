//! Signal numbers of the wires, which name the clock that a tick fires. They
//! follow from the netlist: ports, cells, banks, the two constants, RAM words.

use std::collections::HashMap;

use netlist::{Bit, Cell, Direction, Netlist};

pub struct Signals {
    by_wire: HashMap<u32, u32>,
    zero: u32,
    pub count: u32,
}

impl Signals {
    pub fn new(netlist: &Netlist) -> Self {
        let mut by_wire = HashMap::new();
        let mut count = 0;
        let mut signal = |wires: &[u32], by_wire: &mut HashMap<u32, u32>| {
            by_wire.extend(wires.iter().map(|&wire| (wire, count)));
            count += 1;
        };
        for port in &netlist.ports {
            let wires = port.bits.iter().filter_map(|bit| match bit {
                Bit::Wire(wire) if port.direction != Direction::Output => Some(*wire),
                _ => None,
            });
            signal(&wires.collect::<Vec<_>>(), &mut by_wire);
        }
        let mut banks: Vec<(_, Vec<u32>)> = Vec::new();
        let mut words = 0;
        for cell in &netlist.cells {
            match cell {
                Cell::FlipFlop { output, clock, edge, reset, .. } => {
                    let control = reset.filter(|reset| reset.asynchronous);
                    let control = control.map(|reset| (reset.signal, reset.active_high));
                    let key = (*clock, *edge, control);
                    match banks.iter_mut().find(|(other, _)| *other == key) {
                        Some((_, wires)) => wires.push(*output),
                        None => banks.push((key, vec![*output])),
                    }
                }
                Cell::BlockRam(ram) => {
                    signal(&ram.read, &mut by_wire);
                    if let Some(second) = &ram.second {
                        signal(&second.read, &mut by_wire);
                    }
                    words += ram.depth;
                }
                Cell::DistributedRam { read, .. } => {
                    signal(read, &mut by_wire);
                    words += 16;
                }
                Cell::Multiplier { product, .. } => signal(product, &mut by_wire),
                Cell::Pll { .. } => {
                    for wire in cell.outputs() {
                        if !by_wire.contains_key(&wire) {
                            signal(&[wire], &mut by_wire);
                        }
                    }
                }
                _ => {
                    for wire in cell.outputs() {
                        signal(&[wire], &mut by_wire);
                    }
                }
            }
        }
        for (_, wires) in &banks {
            signal(wires, &mut by_wire);
        }
        Self { by_wire, zero: count, count: count + 2 + words }
    }

    /// The signal that stands for a clock bit.
    pub fn of_bit(&self, bit: Bit) -> u32 {
        match bit {
            Bit::Zero => self.zero,
            Bit::One => self.zero + 1,
            Bit::Wire(wire) => self.by_wire[&wire],
        }
    }
}
