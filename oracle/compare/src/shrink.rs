//! A smaller netlist that still differs. Cells, ports and port bits are taken
//! away, and input bits tied to Zero, as long as a difference remains.

use netlist::{Bit, Cell, Direction, Netlist};

pub fn shrink(
    netlist: &Netlist,
    spoil: &dyn Fn(&Netlist) -> Netlist,
    differs: &dyn Fn(&Netlist, &Netlist) -> bool,
) -> Netlist {
    let mut smallest = netlist.clone();
    while let Some(smaller) =
        candidates(&smallest).into_iter().find(|smaller| differs(smaller, &spoil(smaller)))
    {
        smallest = smaller;
    }
    smallest
}

fn candidates(netlist: &Netlist) -> Vec<Netlist> {
    let mut candidates = Vec::new();
    for at in 0..netlist.cells.len() {
        let mut smaller = netlist.clone();
        let cell = smaller.cells.remove(at);
        tie(&mut smaller, &cell.outputs());
        candidates.push(smaller);
    }
    for (at, port) in netlist.ports.iter().enumerate() {
        let mut smaller = netlist.clone();
        smaller.ports.remove(at);
        tie(&mut smaller, &driven(port.direction, &port.bits));
        candidates.push(smaller);
        for bit in 0..port.bits.len() {
            if port.bits.len() > 1 {
                let mut smaller = netlist.clone();
                let bit = smaller.ports[at].bits.remove(bit);
                tie(&mut smaller, &driven(port.direction, &[bit]));
                candidates.push(smaller);
            }
        }
    }
    let bits = inputs(&mut netlist.clone()).len();
    for at in 0..bits {
        let mut smaller = netlist.clone();
        let bit = &mut *inputs(&mut smaller)[at];
        if *bit != Bit::Zero {
            *bit = Bit::Zero;
            candidates.push(smaller);
        }
    }
    candidates
}

fn driven(direction: Direction, bits: &[Bit]) -> Vec<u32> {
    let wires = bits.iter().filter_map(|bit| match bit {
        Bit::Wire(wire) if direction != Direction::Output => Some(*wire),
        _ => None,
    });
    wires.collect()
}

/// All bits that something reads.
fn inputs(netlist: &mut Netlist) -> Vec<&mut Bit> {
    let outputs = netlist.ports.iter_mut().filter(|port| port.direction == Direction::Output);
    let mut bits = outputs.flat_map(|port| port.bits.iter_mut()).collect::<Vec<_>>();
    bits.extend(netlist.cells.iter_mut().flat_map(Cell::inputs_mut));
    bits
}

/// Ties every reader of these wires to Zero; a pad cannot be tied.
fn tie(netlist: &mut Netlist, wires: &[u32]) {
    for bit in inputs(netlist) {
        if let Bit::Wire(wire) = bit
            && wires.contains(wire)
        {
            *bit = Bit::Zero;
        }
    }
}
