//! The tick rule on the netlist's own cells. Written from the scope document;
//! neither the recorded model nor the Rust is looked at. A netlist is taken to
//! be one that lowering accepts.

use std::collections::HashMap;

use netlist::{
    Bit, BlockRam, Cell, Control, Direction, Edge, Netlist, SecondPort, address_shift,
    address_width,
};

mod signals;

use signals::Signals;

/// What drives a wire.
#[derive(Clone, Copy, Debug)]
enum Driver {
    /// Bit of a tick.
    Input(usize),
    /// Cell, and which of its outputs.
    Cell(usize, usize),
}

/// What a cell remembers.
#[derive(Clone, Debug)]
enum State {
    Nothing,
    FlipFlop(bool),
    /// Words, and the read registers of the ports.
    Ram {
        words: Vec<u32>,
        read: [u32; 2],
    },
}

pub struct Circuit<'a> {
    netlist: &'a Netlist,
    drivers: HashMap<u32, Driver>,
    signals: Signals,
    input_bits: usize,
    states: Vec<State>,
    inputs: Vec<bool>,
    /// Settled values of the wires asked for so far.
    settled: HashMap<u32, bool>,
    ticked: bool,
}

impl<'a> Circuit<'a> {
    #[must_use]
    pub fn new(netlist: &'a Netlist) -> Self {
        let mut drivers = HashMap::new();
        let mut input_bits = 0;
        for port in &netlist.ports {
            if port.direction != Direction::Output {
                for bit in &port.bits {
                    if let Bit::Wire(wire) = bit {
                        drivers.insert(*wire, Driver::Input(input_bits));
                    }
                    input_bits += 1;
                }
            }
        }
        for (index, cell) in netlist.cells.iter().enumerate() {
            for (pin, wire) in cell.outputs().into_iter().enumerate() {
                // Only pins of one PLL can share a wire here; the first has it.
                drivers.entry(wire).or_insert(Driver::Cell(index, pin));
            }
        }
        let states = netlist.cells.iter().map(|cell| match cell {
            Cell::FlipFlop { .. } => State::FlipFlop(false),
            Cell::BlockRam(ram) => State::Ram { words: vec![0; ram.depth as usize], read: [0; 2] },
            Cell::DistributedRam { .. } => State::Ram { words: vec![0; 16], read: [0; 2] },
            _ => State::Nothing,
        });
        Self {
            netlist,
            drivers,
            signals: Signals::new(netlist),
            input_bits,
            states: states.collect(),
            inputs: vec![false; input_bits],
            settled: HashMap::new(),
            ticked: false,
        }
    }

    /// How many bits a tick has.
    #[must_use]
    pub fn input_bits(&self) -> usize {
        self.input_bits
    }

    /// How many signals a model of this netlist has.
    #[must_use]
    pub fn signal_count(&self) -> u32 {
        self.signals.count
    }

    /// The signals that some register is clocked by.
    #[must_use]
    pub fn clocks(&self) -> Vec<u32> {
        let mut clocks = self.netlist.cells.iter().filter_map(clock_of).collect::<Vec<_>>();
        clocks.dedup();
        clocks.into_iter().map(|(clock, _)| self.signals.of_bit(clock)).collect()
    }

    /// Makes a tick. False, and nothing changes, when it cannot be made: bits
    /// of a wrong number or value, a fired signal that does not exist, an edge
    /// that is neither.
    pub fn tick(&mut self, bits: &[u8], fired: Option<(u32, u32)>) -> bool {
        let wrong_bits = bits.len() != self.input_bits || bits.iter().any(|&bit| bit > 1);
        let wrong_fired =
            fired.is_some_and(|(signal, edge)| signal >= self.signals.count || edge > 1);
        if wrong_bits || wrong_fired {
            return false;
        }
        for (input, bit) in self.inputs.iter_mut().zip(bits) {
            *input = *bit == 1;
        }
        self.settled.clear();
        let next = (0..self.states.len()).map(|cell| self.next_state(cell, fired));
        self.states = next.collect::<Vec<_>>();
        self.settled.clear();
        self.ticked = true;
        true
    }

    /// The output ports' bits, in port order, lowest first.
    pub fn shown(&mut self) -> Vec<u8> {
        let netlist = self.netlist;
        let outputs = netlist.ports.iter().filter(|port| port.direction == Direction::Output);
        let bits = outputs.flat_map(|port| port.bits.iter().copied());
        bits.map(|bit| u8::from(self.ticked && self.bit(bit))).collect()
    }

    /// Whether wires depend on themselves, by the form of the cells.
    #[must_use]
    pub fn has_loop(&self) -> bool {
        // 1: being looked at, 2: found to be without loop.
        let mut marks = HashMap::<u32, u8>::new();
        self.drivers.keys().any(|&wire| self.on_loop(wire, &mut marks))
    }

    fn on_loop(&self, wire: u32, marks: &mut HashMap<u32, u8>) -> bool {
        match marks.get(&wire) {
            Some(1) => return true,
            Some(_) => return false,
            None => {}
        }
        marks.insert(wire, 1);
        let found = self.depends_on(wire).into_iter().any(|bit| match bit {
            Bit::Wire(other) => self.on_loop(other, marks),
            _ => false,
        });
        marks.insert(wire, 2);
        found
    }

    fn depends_on(&self, wire: u32) -> Vec<Bit> {
        let Some(&Driver::Cell(cell, pin)) = self.drivers.get(&wire) else {
            return Vec::new();
        };
        match &self.netlist.cells[cell] {
            Cell::Lut4 { inputs, .. } => inputs.to_vec(),
            Cell::PfuMux { lut_true, lut_false, select, .. } => {
                vec![*lut_true, *lut_false, *select]
            }
            Cell::L6Mux21 { data_zero, data_one, select, .. } => {
                vec![*data_zero, *data_one, *select]
            }
            Cell::Ccu2c { inputs, carry_in, .. } => [inputs.as_flattened(), &[*carry_in]].concat(),
            Cell::Multiplier { lhs, rhs, .. } => [*lhs, *rhs].concat(),
            Cell::DistributedRam { read_address, .. } => read_address.to_vec(),
            Cell::Io { pad, fabric_output, tristate, .. } => {
                vec![Bit::Wire(*pad), *fabric_output, *tristate]
            }
            Cell::Pll { reference, .. } if pin != LOCKED => vec![*reference],
            Cell::Pll { .. } | Cell::Jtagg { .. } => Vec::new(),
            Cell::FlipFlop { .. } | Cell::BlockRam(_) => Vec::new(),
        }
    }

    fn bit(&mut self, bit: Bit) -> bool {
        match bit {
            Bit::Zero => false,
            Bit::One => true,
            Bit::Wire(wire) => self.wire(wire),
        }
    }

    fn wire(&mut self, wire: u32) -> bool {
        if let Some(&value) = self.settled.get(&wire) {
            return value;
        }
        let value = match self.drivers[&wire] {
            Driver::Input(at) => self.inputs[at],
            Driver::Cell(cell, pin) => self.output(cell, pin),
        };
        self.settled.insert(wire, value);
        value
    }

    /// Bits as a number, lowest first.
    fn number(&mut self, bits: &[Bit]) -> u64 {
        let bits = bits.iter().enumerate();
        bits.map(|(at, &bit)| u64::from(self.bit(bit)) << at).sum()
    }

    fn asserted(&mut self, control: Control) -> bool {
        self.bit(control.signal) == control.active_high
    }

    fn output(&mut self, cell: usize, pin: usize) -> bool {
        let netlist = self.netlist;
        match &netlist.cells[cell] {
            Cell::Lut4 { inputs, init, .. } => init >> self.number(inputs) & 1 == 1,
            Cell::PfuMux { lut_true, lut_false, select, .. } => {
                if self.bit(*select) {
                    self.bit(*lut_true)
                } else {
                    self.bit(*lut_false)
                }
            }
            Cell::L6Mux21 { data_zero, data_one, select, .. } => {
                if self.bit(*select) {
                    self.bit(*data_one)
                } else {
                    self.bit(*data_zero)
                }
            }
            Cell::Ccu2c { inputs, carry_in, init, inject, .. } => {
                let mut carry = self.bit(*carry_in);
                let mut sums = [false; 2];
                for row in 0..2 {
                    let address = self.number(&inputs[row]);
                    let l = init[row] >> address & 1 == 1;
                    let m = init[row] >> (address & 3) & 1 == 1;
                    let g = carry && !inject[row];
                    sums[row] = l != g;
                    carry = if l { g } else { m };
                }
                [sums[0], sums[1], carry][pin]
            }
            Cell::Multiplier { lhs, rhs, .. } => {
                (self.number(lhs) * self.number(rhs)) >> pin & 1 == 1
            }
            Cell::FlipFlop { .. } => {
                let State::FlipFlop(value) = self.states[cell] else { unreachable!() };
                value
            }
            Cell::BlockRam(ram) => {
                let State::Ram { read, .. } = &self.states[cell] else { unreachable!() };
                let width = ram.word_width as usize;
                read[pin / width] >> (pin % width) & 1 == 1
            }
            Cell::DistributedRam { read_address, .. } => {
                let address = self.number(read_address) as usize;
                let State::Ram { words, .. } = &self.states[cell] else { unreachable!() };
                words[address] >> pin & 1 == 1
            }
            Cell::Io { pad, fabric_output, tristate, .. } => {
                if self.bit(*tristate) {
                    self.wire(*pad)
                } else {
                    self.bit(*fabric_output)
                }
            }
            Cell::Jtagg { .. } => pin == RESET_N,
            Cell::Pll { reference, .. } => pin == LOCKED || self.bit(*reference),
        }
    }

    /// What a cell remembers after the commit, from the settled values.
    fn next_state(&mut self, cell: usize, fired: Option<(u32, u32)>) -> State {
        let netlist = self.netlist;
        let on_fired_clock = clock_of(&netlist.cells[cell]).is_some_and(|(clock, edge)| {
            let edge = u32::from(edge == Edge::Falling);
            fired == Some((self.signals.of_bit(clock), edge))
        });
        match &netlist.cells[cell] {
            Cell::FlipFlop { data, enable, reset, .. } => {
                let State::FlipFlop(old) = self.states[cell] else { unreachable!() };
                let resetting = reset.filter(|reset| {
                    self.bit(reset.signal) == reset.active_high
                        && (reset.asynchronous || on_fired_clock)
                });
                State::FlipFlop(if let Some(reset) = resetting {
                    reset.value
                } else if on_fired_clock && enable.is_none_or(|enable| self.asserted(enable)) {
                    self.bit(*data)
                } else {
                    old
                })
            }
            Cell::BlockRam(ram) if on_fired_clock => self.block_ram_edge(cell, ram),
            Cell::DistributedRam { write_address, data, write, .. } if on_fired_clock => {
                let State::Ram { mut words, read } = self.states[cell].clone() else {
                    unreachable!()
                };
                if self.asserted(*write) {
                    words[self.number(write_address) as usize] = self.number(data) as u32;
                }
                State::Ram { words, read }
            }
            _ => self.states[cell].clone(),
        }
    }

    fn block_ram_edge(&mut self, cell: usize, ram: &BlockRam) -> State {
        let State::Ram { words: old, mut read } = self.states[cell].clone() else { unreachable!() };
        let low = address_shift(ram.physical_width).expect("a physical width") as usize;
        let high = low + address_width(ram.depth) as usize;
        let mut words = old.clone();
        let mut ports = vec![(
            self.number(&ram.write_address[low..high]),
            ram.write,
            &ram.data,
            self.number(&ram.read_address[low..high]),
            ram.read_enable,
            ram.clock_enable,
        )];
        if let Some(second) = &ram.second {
            let address = self.number(&second.address[low..high]);
            let SecondPort { write, data, read_enable, clock_enable, .. } = second;
            ports.push((address, *write, data, address, *read_enable, *clock_enable));
        }
        for (port, (write_at, write, data, read_at, read_enable, clock_enable)) in
            ports.into_iter().enumerate()
        {
            // A port whose clock enable is off stands still; the other does not.
            if clock_enable.is_some_and(|enable| !self.asserted(enable)) {
                continue;
            }
            if self.asserted(write)
                && let Some(word) = words.get_mut(write_at as usize)
            {
                *word = self.number(data) as u32;
            }
            if read_enable.is_none_or(|enable| self.asserted(enable)) {
                read[port] = old.get(read_at as usize).copied().unwrap_or(0);
            }
        }
        State::Ram { words, read }
    }
}

/// The PLL's and JTAGG's special pins, counted in `Cell::outputs`.
const LOCKED: usize = 2;
const RESET_N: usize = 6;

fn clock_of(cell: &Cell) -> Option<(Bit, Edge)> {
    match cell {
        Cell::FlipFlop { clock, edge, .. } | Cell::DistributedRam { clock, edge, .. } => {
            Some((*clock, *edge))
        }
        Cell::BlockRam(ram) => Some((ram.clock, ram.edge)),
        _ => None,
    }
}
