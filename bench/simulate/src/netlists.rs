//! The netlists that are run: random, the same for the same size, and such that all of it reaches an output, since Verilator
//! drops what does not. Cells stand in random order, as no tool promises one.

use std::collections::VecDeque;

use generate::Rng;
use netlist::{Bit, BlockRam, Cell, Control, Direction, Edge, Netlist, Port, Reset};

use crate::ticks::DATA;

const CLOCK: Bit = Bit::Wire(0);
const RESET: Bit = Bit::Wire(1);
/// Wires of the inputs.
const INPUTS: std::ops::Range<u32> = 2..2 + DATA as u32;

/// Random wires are taken from what is at most so many cells behind a register or an input.
const DEPTH: usize = 8;

/// Only LUT4s.
pub fn luts(size: usize) -> Netlist {
    let mut build = Build::new(1, size);
    // The inputs are few: half of the cells spread them, the others draw all together again.
    let spreading = size / 2;
    for _ in 0..spreading {
        let inputs = std::array::from_fn(|_| build.shallow(4));
        build.lut(inputs);
    }
    build.combine(size - spreading, 0);
    build.finish(size)
}

/// LUT4s and their muxes; a quarter are flip-flops.
pub fn logic(size: usize) -> Netlist {
    let mut build = Build::new(2, size);
    let flip_flops = build.flip_flops(size / 4);
    build.combine(size - flip_flops.len(), size / 20);
    build.load(&flip_flops);
    build.finish(size)
}

/// Distributed RAMs (a tenth), one block RAM or two, flip-flops (a fifth), LUT4s.
pub fn rams(size: usize) -> Netlist {
    let mut build = Build::new(3, size);
    let flip_flops = build.flip_flops(size / 5);
    let depth = (size as u32 / 8).next_power_of_two().clamp(64, 512);
    let reads: Vec<u32> = (0..if size < 500 { 1 } else { 2 }).map(|_| build.wires(8)).collect();
    for &first in &reads {
        build.sources(first..first + 8);
    }
    let small = size / 10;
    build.wanted += reads.len() * 37 + small * 9;
    let mut left = size - flip_flops.len() - reads.len() - small;
    let mut drams = Vec::new();
    for _ in 0..small {
        let some = left / (small - drams.len());
        build.combine(some / 2, 0);
        drams.push(build.dram());
        build.combine(some - some / 2, 0);
        left -= some;
    }
    build.load(&flip_flops);
    for (inputs, wires) in drams {
        build.dram_cell(inputs, wires);
    }
    for (at, first) in reads.into_iter().enumerate() {
        build.block_ram(depth, first, at == 1);
    }
    build.finish(size)
}

/// One block RAM of this many words of eight bits, read and written where the inputs say.
pub fn deep(size: usize) -> Netlist {
    let mut build = Build::new(5, 1);
    let width = netlist::address_width(size as u32) as usize;
    let input = |at: usize| Bit::Wire(INPUTS.start + (at % DATA) as u32);
    let address = |from: usize| {
        std::array::from_fn(|at| if (3..3 + width).contains(&at) { input(from + at - 3) } else { Bit::Zero })
    };
    let read = build.wires(8);
    build.cells.push(Cell::BlockRam(Box::new(BlockRam {
        depth: size as u32,
        word_width: 8,
        physical_width: 9,
        write_address: address(0),
        write: Control { signal: input(31), active_high: true },
        read_address: address(4),
        read_enable: None,
        clock_enable: None,
        clock: CLOCK,
        edge: Edge::Rising,
        data: (0..8).map(|at| input(20 + at)).collect(),
        read: (read..read + 8).collect(),
        second: None,
    })));
    let shown = (read..read + 8).map(Bit::Wire);
    let outputs = shown.chain((8..DATA).map(input)).collect();
    build.ended(outputs)
}

/// Accumulators and counters of 16 bits: eight CCU2Cs and 16 flip-flops each. LUT4s fill up.
pub fn carry(size: usize) -> Netlist {
    let mut build = Build::new(4, size);
    build.unread.clear();
    let units = size / 24;
    let mut before: Option<(u32, Bit)> = None;
    for unit in 0..units {
        let state = build.wires(16);
        let own: Vec<Bit> = (state..state + 16).map(Bit::Wire).collect();
        let inputs = if unit % 2 == 0 { INPUTS.start } else { INPUTS.start + 16 };
        let last = before.map_or(Bit::Zero, |(_, carry)| carry);
        let (added, carry_in, enable) = match (unit % 3, before) {
            // adds what the inputs are, and the carry of the unit before
            (0, _) | (_, None) => ((inputs..inputs + 16).map(Bit::Wire).collect(), last, None),
            // counts where the unit before carries
            (1, _) => {
                (vec![Bit::Zero; 16], Bit::One, Some(Control { signal: last, active_high: true }))
            }
            // adds the counter
            (_, Some((state, _))) => {
                ((state..state + 16).map(Bit::Wire).collect(), Bit::Zero, None)
            }
        };
        let mut carry = carry_in;
        for pair in 0..8 {
            let at = build.wires(3);
            build.cells.push(Cell::Ccu2c {
                inputs: [0, 1]
                    .map(|row| [own[2 * pair + row], added[2 * pair + row], Bit::Zero, Bit::One]),
                carry_in: carry,
                sums: [at, at + 1],
                carry_out: at + 2,
                init: [0x96aa; 2],
                inject: [false; 2],
            });
            carry = Bit::Wire(at + 2);
            for row in 0..2 {
                build.cells.push(Cell::FlipFlop {
                    data: Bit::Wire(at + row),
                    output: state + 2 * pair as u32 + row,
                    clock: CLOCK,
                    edge: Edge::Rising,
                    enable,
                    reset: Some(Reset {
                        signal: RESET,
                        active_high: true,
                        asynchronous: unit % 2 == 0,
                        value: false,
                    }),
                });
            }
        }
        before = Some((state, carry));
        if unit + 2 >= units {
            build.sources(state..state + 16);
        }
    }
    let left = size - build.cells.len();
    build.combine(left, 0);
    build.finish(size)
}

/// One carry chain through all cells, listed from its end: each finds its carry only in the cell behind it.
pub fn chain(size: usize) -> Netlist {
    let mut build = Build::new(5, size);
    let mut carry = RESET;
    for _ in 0..size {
        let at = build.wires(3);
        let mut input = || Bit::Wire(INPUTS.start + build.rng.below(DATA) as u32);
        let inputs =
            [[input(), input(), Bit::Zero, Bit::One], [input(), input(), Bit::Zero, Bit::One]];
        build.cells.push(Cell::Ccu2c {
            inputs,
            carry_in: carry,
            sums: [at, at + 1],
            carry_out: at + 2,
            init: [0x96aa; 2],
            inject: [false; 2],
        });
        carry = Bit::Wire(at + 2);
        build.unread.extend([(at, 0), (at + 1, 0)]);
    }
    build.cells.reverse();
    build.ordered = true;
    // the outputs show the end of the chain
    while build.unread.len() > DATA {
        build.unread.pop_front();
    }
    build.finish(size)
}

struct Build {
    rng: Rng,
    next: u32,
    cells: Vec<Cell>,
    ordered: bool,
    /// Wires with the number of cells behind a register or an input.
    driven: Vec<(u32, usize)>,
    /// Those that nothing reads yet.
    unread: VecDeque<(u32, usize)>,
    /// How many inputs of registers and outputs are still to be connected.
    wanted: usize,
}

impl Build {
    fn new(sort: u64, size: usize) -> Self {
        let mut build = Self {
            rng: Rng::new(sort, size as u64),
            next: INPUTS.end,
            cells: Vec::new(),
            ordered: false,
            driven: Vec::new(),
            unread: VecDeque::new(),
            wanted: DATA,
        };
        build.sources(INPUTS);
        build
    }

    fn wires(&mut self, count: u32) -> u32 {
        self.next += count;
        self.next - count
    }

    /// Wires of registers or inputs.
    fn sources(&mut self, wires: std::ops::Range<u32>) {
        for wire in wires {
            self.drive(wire, 0);
        }
    }

    fn drive(&mut self, wire: u32, depth: usize) {
        self.driven.push((wire, depth));
        self.unread.push_back((wire, depth));
    }

    /// Any wire that is not deep.
    fn shallow(&mut self, depth: usize) -> (Bit, usize) {
        loop {
            let (wire, at) = self.rng.pick(&self.driven);
            if at < depth {
                return (Bit::Wire(wire), at);
            }
        }
    }

    /// The wire that has been waiting for a reader longest, or any.
    fn waiting(&mut self) -> (Bit, usize) {
        match self.unread.pop_front() {
            Some((wire, depth)) => (Bit::Wire(wire), depth),
            None => self.shallow(DEPTH),
        }
    }

    fn any(&mut self) -> Bit {
        self.waiting().0
    }

    /// Inputs of a cell, so many of them waiting ones, in random places.
    fn inputs<const N: usize>(&mut self, waiting: usize) -> [(Bit, usize); N] {
        let mut inputs =
            std::array::from_fn(
                |at| if at < waiting { self.waiting() } else { self.shallow(DEPTH) },
            );
        self.rng.shuffle(&mut inputs);
        inputs
    }

    fn lut(&mut self, inputs: [(Bit, usize); 4]) {
        let output = self.wires(1);
        let init = self.rng.next() as u16;
        self.cells.push(Cell::Lut4 { inputs: inputs.map(|(bit, _)| bit), output, init });
        self.drive(output, deepest(&inputs) + 1);
    }

    fn mux(&mut self, inputs: [(Bit, usize); 3], sixth: bool) {
        let output = self.wires(1);
        let [a, b, select] = inputs.map(|(bit, _)| bit);
        self.cells.push(if sixth {
            Cell::L6Mux21 { data_zero: a, data_one: b, select, output }
        } else {
            Cell::PfuMux { lut_true: a, lut_false: b, select, output }
        });
        self.drive(output, deepest(&inputs) + 1);
    }

    /// Cells without a state, some of them muxes. In the end no more wires are unread than are wanted.
    fn combine(&mut self, cells: usize, muxes: usize) {
        let mut muxes_left = muxes;
        for done in 0..cells {
            let left = cells - done;
            let surplus = self.unread.len().saturating_sub(self.wanted);
            let waiting = (1 + surplus.div_ceil(left)).min(4);
            if self.rng.below(left) < muxes_left {
                let inputs = self.inputs(waiting.min(3));
                self.mux(inputs, muxes_left % 3 == 0);
                muxes_left -= 1;
            } else {
                let inputs = self.inputs(waiting);
                self.lut(inputs);
            }
        }
    }

    /// Flip-flops' outputs; their cells come with `load`.
    fn flip_flops(&mut self, count: usize) -> std::ops::Range<u32> {
        let first = self.wires(count as u32);
        self.sources(first..first + count as u32);
        self.wanted += count;
        first..first + count as u32
    }

    /// The flip-flops' cells: a third with an enable, half with a reset, in eight sets of controls.
    fn load(&mut self, flip_flops: &std::ops::Range<u32>) {
        let sets: Vec<_> = (0..8)
            .map(|at| {
                let signal = self.shallow(DEPTH).0;
                let enable = (at % 3 == 0).then_some(Control { signal, active_high: at % 2 == 0 });
                let reset = (at % 2 == 1).then_some(at % 4 == 1);
                (enable, reset)
            })
            .collect();
        for output in flip_flops.clone() {
            let (enable, reset) = self.rng.pick(&sets);
            let value = self.rng.flag();
            let reset = reset.map(|asynchronous| Reset {
                signal: RESET,
                active_high: true,
                asynchronous,
                value,
            });
            let data = self.any();
            self.cells.push(Cell::FlipFlop {
                data,
                output,
                clock: CLOCK,
                edge: Edge::Rising,
                enable,
                reset,
            });
        }
    }

    /// A distributed RAM's read address and wires; the cell comes later.
    fn dram(&mut self) -> ([Bit; 4], u32) {
        let inputs = self.inputs::<4>(1);
        let read = self.wires(4);
        for wire in read..read + 4 {
            self.drive(wire, deepest(&inputs) + 1);
        }
        (inputs.map(|(bit, _)| bit), read)
    }

    fn dram_cell(&mut self, read_address: [Bit; 4], read: u32) {
        let cell = Cell::DistributedRam {
            write_address: std::array::from_fn(|_| self.any()),
            data: std::array::from_fn(|_| self.any()),
            write: Control { signal: self.any(), active_high: true },
            read_address,
            read: std::array::from_fn(|at| read + at as u32),
            clock: CLOCK,
            edge: Edge::Rising,
            second: false,
        };
        self.cells.push(cell);
    }

    /// A block RAM of eight bits a word.
    fn block_ram(&mut self, depth: u32, read: u32, with_enable: bool) {
        let width = netlist::address_width(depth) as usize;
        let mut address = || {
            std::array::from_fn(
                |at| if (3..3 + width).contains(&at) { self.any() } else { Bit::Zero },
            )
        };
        let (write_address, read_address) = (address(), address());
        let write = Control { signal: self.any(), active_high: true };
        let data = (0..8).map(|_| self.any()).collect();
        let read_enable = with_enable.then(|| Control { signal: self.scalar(), active_high: true });
        self.cells.push(Cell::BlockRam(Box::new(BlockRam {
            depth,
            word_width: 8,
            physical_width: 9,
            write_address,
            write,
            read_address,
            read_enable,
            clock_enable: None,
            clock: CLOCK,
            edge: Edge::Rising,
            data,
            read: (read..read + 8).collect(),
            second: None,
        })));
    }

    /// A read enable is a signal of its own: a LUT4's.
    fn scalar(&mut self) -> Bit {
        let luts = self.cells.iter().filter_map(|cell| match cell {
            Cell::Lut4 { output, .. } => Some(*output),
            _ => None,
        });
        let luts = luts.collect::<Vec<_>>();
        Bit::Wire(self.rng.pick(&luts))
    }

    fn finish(mut self, size: usize) -> Netlist {
        let outputs = (0..DATA).map(|_| self.any()).collect();
        assert_eq!(self.unread.len(), 0, "all is read");
        assert_eq!(self.cells.len(), size);
        if !self.ordered {
            self.rng.shuffle(&mut self.cells);
        }
        self.ended(outputs)
    }

    fn ended(self, outputs: Vec<Bit>) -> Netlist {
        let input = |bits| Port { direction: Direction::Input, bits };
        let ports = vec![
            input(vec![CLOCK]),
            input(vec![RESET]),
            input(INPUTS.map(Bit::Wire).collect()),
            Port { direction: Direction::Output, bits: outputs },
        ];
        Netlist { ports, cells: self.cells }
    }
}

fn deepest(inputs: &[(Bit, usize)]) -> usize {
    inputs.iter().map(|&(_, depth)| depth).max().unwrap_or(0)
}
