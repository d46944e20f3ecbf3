//! The netlists themselves. Output wires are handed out first, then inputs are
//! drawn from them; every combinational cell gets a rank of its own and reads
//! only what lies below, so no loop closes unless a fault asks for it.

use std::collections::HashSet;

use netlist::{
    Bit, BlockRam, Cell, Control, Direction, Edge, Netlist, Port, Reset, SecondPort, address_shift,
    address_width,
};

use crate::tie::{self, tie};
use crate::{Faults, Rng};

/// How large a netlist becomes and what goes wrong in it.
#[derive(Clone, Debug)]
pub struct Plan {
    pub faults: Faults,
    pub ports: usize,
    pub cells: usize,
    /// Weights by cell kind.
    pub kinds: [usize; 11],
    /// Block RAMs in a hundred that have more than a few words.
    pub deep: usize,
    /// Block RAMs in a hundred that have hundreds of words.
    pub very_deep: usize,
    /// Block RAMs in a hundred of at most four words.
    pub shallow: usize,
    /// Block RAM ports in a hundred that have a clock enable.
    pub clock_enables: usize,
    /// Cells, and output ports, in a hundred of which inputs are tied together.
    pub ties: usize,
}

impl Plan {
    #[must_use]
    pub fn draw(rng: &mut Rng, faults: Faults) -> Self {
        let cells = match rng.below(20) {
            0 => 0,
            1..8 => rng.range(1, 4),
            8..16 => rng.range(3, 15),
            16..19 => rng.range(10, 40),
            _ => rng.range(40, 120),
        };
        // Flip-flops and LUTs are common; half of the netlists have a
        // favourite kind besides.
        let mut kinds = [5, 2, 2, 2, 1, 7, 2, 2, 2, 1, 2];
        if rng.flag() {
            kinds[rng.below(11)] += 12;
        }
        if faults.pll > 0 {
            kinds[10] += 8;
        }
        if faults.flagged > 0 {
            kinds[7] += 4;
        }
        if faults.clocking > 0 {
            kinds[6] += 6;
        }
        let deep = if rng.chance(3) { 50 } else { 3 };
        Self {
            faults,
            ports: rng.below(8),
            cells,
            kinds,
            deep,
            very_deep: 0,
            shallow: 0,
            clock_enables: 30,
            ties: 0,
        }
    }

    /// Block RAMs whose ports mostly have clock enables, and meet in few words.
    pub fn favour_clock_enables(&mut self) {
        self.cells = self.cells.clamp(1, 40);
        self.kinds[6] += 12;
        self.shallow = 60;
        self.clock_enables = 85;
    }

    /// Fewer flip-flops, which share nothing, and inputs of half of the cells tied
    /// together.
    pub fn favour_ties(&mut self) {
        self.cells = self.cells.clamp(1, 40);
        for kind in [0, 1, 2, 3, 4, 6, 7, 8] {
            self.kinds[kind] += 2;
        }
        self.shallow = 40;
        self.clock_enables = 50;
        self.ties = 50;
    }
}

/// A wire that something drives.
#[derive(Clone, Copy)]
struct Source {
    wire: u32,
    /// 0 for ports and what does not depend on the settled values.
    rank: usize,
    /// A whole one-bit signal.
    scalar: bool,
}

struct Builder<'a> {
    rng: &'a mut Rng,
    plan: &'a Plan,
    /// Wire numbers not used yet; the last is next.
    fresh: Vec<u32>,
    driven: HashSet<u32>,
    /// What ports drive stands first.
    sources: Vec<Source>,
    port_sources: usize,
    /// The few clocks of a netlist, so that flip-flops share banks.
    clocks: Vec<Bit>,
    resets: Vec<Control>,
}

/// The outputs that a cell was given, in the order of its words.
type Outputs = Vec<u32>;

#[must_use]
pub fn netlist(rng: &mut Rng, plan: &Plan) -> Netlist {
    let fresh = wire_numbers(rng);
    let mut builder = Builder {
        rng,
        plan,
        fresh,
        driven: HashSet::new(),
        sources: Vec::new(),
        port_sources: 0,
        clocks: Vec::new(),
        resets: Vec::new(),
    };
    builder.build()
}

/// All wire numbers in the order of use: small ones, scattered ones, or the
/// highest first.
fn wire_numbers(rng: &mut Rng) -> Vec<u32> {
    let mut wires = (0..16_384).rev().collect::<Vec<u32>>();
    match rng.below(4) {
        0 => {}
        1 => rng.shuffle(&mut wires),
        2 => {
            let low = wires.len() - 300;
            rng.shuffle(&mut wires[low..]);
        }
        _ => wires.reverse(),
    }
    wires
}

impl Builder<'_> {
    fn build(&mut self) -> Netlist {
        let mut ports = (0..self.plan.ports).map(|_| self.port()).collect::<Vec<_>>();
        if self.rng.chance(80) {
            // A scalar input, the usual clock.
            let wire = self.drive(0, true);
            let at = self.rng.below(ports.len() + 1);
            ports.insert(at, Port { direction: Direction::Input, bits: vec![Bit::Wire(wire)] });
            self.clocks.push(Bit::Wire(wire));
        }
        self.port_sources = self.sources.len();
        let mut kinds = (0..self.plan.cells).map(|_| self.kind()).collect::<Vec<_>>();
        self.rng.shuffle(&mut kinds);
        let mut ranks = (1..=kinds.len()).collect::<Vec<_>>();
        self.rng.shuffle(&mut ranks);
        let shells = kinds.iter().zip(&ranks).map(|(&kind, &rank)| self.shell(kind, rank));
        let shells = shells.collect::<Vec<_>>();
        self.choose_controls();
        let cells = shells.into_iter().zip(&ranks);
        let cells = cells.map(|((kind, size, wires), &rank)| {
            let mut cell = self.cell(kind, size, wires, rank);
            if self.ties() {
                tie(self.rng, &mut cell);
            }
            cell
        });
        let cells = cells.collect();
        for port in &mut ports {
            if port.direction == Direction::Output {
                let width = port.bits.len();
                port.bits = (0..width).map(|_| self.bit(usize::MAX)).collect();
                if self.ties() {
                    tie::some(self.rng, &mut port.bits.iter_mut().collect::<Vec<_>>());
                }
            }
        }
        Netlist { ports, cells }
    }

    fn ties(&mut self) -> bool {
        self.plan.ties > 0 && self.rng.chance(self.plan.ties)
    }

    fn kind(&mut self) -> usize {
        let total = self.plan.kinds.iter().sum();
        let mut left = self.rng.below(total);
        for (kind, &weight) in self.plan.kinds.iter().enumerate() {
            if left < weight {
                return kind;
            }
            left -= weight;
        }
        0
    }

    fn port(&mut self) -> Port {
        let direction = match self.rng.below(5) {
            0 | 1 => Direction::Input,
            2 | 3 => Direction::Output,
            _ => Direction::Inout,
        };
        let width = match self.rng.below(20) {
            0..9 => 1,
            9..19 => self.rng.range(2, 9),
            _ => self.rng.pick(&[31, 32, 33, 64, 255, 256]),
        };
        let bits = (0..width).map(|_| {
            if direction == Direction::Output {
                Bit::Zero // drawn when all sources are known
            } else if self.rng.chance(4) {
                self.rng.pick(&[Bit::Zero, Bit::One])
            } else {
                Bit::Wire(self.drive(0, width == 1))
            }
        });
        Port { direction, bits: bits.collect() }
    }

    /// A wire for an output.
    fn drive(&mut self, rank: usize, scalar: bool) -> u32 {
        if self.rng.chance(self.plan.faults.duplicate) && !self.sources.is_empty() {
            return self.rng.pick(&self.sources).wire;
        }
        let wire = self.fresh.pop().expect("wires enough");
        self.driven.insert(wire);
        self.sources.push(Source { wire, rank, scalar });
        wire
    }

    /// Kind, size and output wires of a cell. Only a block RAM has a size: its
    /// word width and 100 times the number of its ports.
    fn shell(&mut self, kind: usize, rank: usize) -> (usize, usize, Outputs) {
        let mut size = 0;
        let wires = match kind {
            0 | 1 | 2 | 8 => vec![self.drive(rank, true)],
            3 => (0..3).map(|_| self.drive(rank, true)).collect(),
            4 => (0..36).map(|_| self.drive(rank, false)).collect(),
            5 => vec![self.drive(0, false)],
            6 => {
                let width = match self.rng.below(4) {
                    0 => 1,
                    1 | 2 => self.rng.range(2, 5),
                    _ => self.rng.range(1, 18),
                };
                let ports = self.rng.range(1, 2);
                size = 100 * ports + width;
                (0..width * ports).map(|_| self.drive(0, width == 1)).collect()
            }
            7 => (0..4).map(|_| self.drive(rank, false)).collect(),
            9 => (0..9).map(|_| self.drive(0, true)).collect(),
            _ => self.pll_wires(rank),
        };
        (kind, size, wires)
    }

    /// Feedback, output, locked and further wires. Sharing among the clocks is
    /// common, the rest only by fault.
    fn pll_wires(&mut self, rank: usize) -> Outputs {
        let feedback = self.pll_wire(rank, &[]);
        let output = if self.rng.chance(40) { feedback } else { self.pll_wire(rank, &[feedback]) };
        let mut wires = vec![feedback, output];
        wires.push(self.pll_wire(0, &wires.clone()));
        for _ in 0..self.rng.below(5) {
            let wire = match self.rng.below(4) {
                0 => feedback,
                1 => output,
                _ => self.pll_wire(rank, &wires.clone()),
            };
            wires.push(wire);
        }
        wires
    }

    fn pll_wire(&mut self, rank: usize, own: &[u32]) -> u32 {
        if self.rng.chance(self.plan.faults.pll) {
            if self.rng.flag() && !own.is_empty() {
                return self.rng.pick(own);
            }
            if self.rng.flag() && !self.sources.is_empty() {
                return self.rng.pick(&self.sources).wire;
            }
            // A wire that a later cell will take: it is next but a few.
            let next = self.fresh.len() - 1 - self.rng.below(12);
            return self.fresh[next];
        }
        self.drive(rank, true)
    }

    fn choose_controls(&mut self) {
        for _ in 0..self.rng.below(3) {
            let clock = self.scalar();
            self.clocks.push(clock);
        }
        if self.clocks.is_empty() || self.rng.chance(6) {
            self.clocks.push(self.rng.pick(&[Bit::Zero, Bit::One]));
        }
        for _ in 0..self.rng.range(1, 2) {
            let signal = self.scalar();
            let active_high = self.rng.flag();
            self.resets.push(Control { signal, active_high });
        }
    }

    /// A bit that can be a clock, an asynchronous reset or a read enable.
    fn scalar(&mut self) -> Bit {
        if self.rng.chance(self.plan.faults.missing) {
            return self.undriven();
        }
        if self.rng.chance(self.plan.faults.non_scalar) {
            return self.any();
        }
        let scalars = self.sources.iter().filter(|source| source.scalar);
        let scalars = scalars.map(|source| source.wire).collect::<Vec<_>>();
        if scalars.is_empty() || self.rng.chance(5) {
            return self.rng.pick(&[Bit::Zero, Bit::One]);
        }
        // Ports stand first among the sources and make the liveliest clocks.
        let from = if self.rng.chance(60) { scalars.len().min(4) } else { scalars.len() };
        Bit::Wire(self.rng.pick(&scalars[..from]))
    }

    fn undriven(&mut self) -> Bit {
        loop {
            let wire = if self.rng.flag() { self.rng.below(40) } else { self.rng.below(16_384) };
            if !self.driven.contains(&(wire as u32)) {
                return Bit::Wire(wire as u32);
            }
        }
    }

    fn any(&mut self) -> Bit {
        if self.sources.is_empty() {
            return self.rng.pick(&[Bit::Zero, Bit::One]);
        }
        Bit::Wire(self.rng.pick(&self.sources).wire)
    }

    /// An input bit of something of this rank.
    fn bit(&mut self, rank: usize) -> Bit {
        if self.rng.chance(self.plan.faults.missing) {
            return self.undriven();
        }
        if self.rng.chance(self.plan.faults.any_rank) {
            return self.any();
        }
        if self.rng.chance(12) {
            return self.rng.pick(&[Bit::Zero, Bit::One]);
        }
        for _ in 0..20 {
            let Some(last) = self.sources.len().checked_sub(1) else { break };
            // Later sources are cells: they and the ports should both be used.
            let at = if self.rng.chance(25) {
                self.rng.below(self.sources.len().min(8))
            } else {
                self.rng.range(0, last)
            };
            if self.sources[at].rank < rank {
                return Bit::Wire(self.sources[at].wire);
            }
        }
        self.rng.pick(&[Bit::Zero, Bit::One])
    }

    fn bits<const N: usize>(&mut self, rank: usize) -> [Bit; N] {
        std::array::from_fn(|_| self.bit(rank))
    }

    fn control(&mut self, rank: usize) -> Control {
        Control { signal: self.bit(rank), active_high: self.rng.flag() }
    }

    /// A control that is mostly asserted, so that RAMs fill.
    fn write_control(&mut self) -> Control {
        if self.rng.chance(25) {
            return Control { signal: Bit::One, active_high: true };
        }
        self.control(usize::MAX)
    }

    fn clock(&mut self) -> (Bit, Edge) {
        let clock = if self.rng.chance(self.plan.faults.non_scalar) {
            self.any()
        } else {
            self.rng.pick(&self.clocks)
        };
        (clock, if self.rng.chance(30) { Edge::Falling } else { Edge::Rising })
    }

    fn table(&mut self) -> u16 {
        match self.rng.below(6) {
            0 => self.rng.pick(&[0, 0xFFFF, 0xAAAA, 0xCCCC, 0xF0F0, 0xFF00]),
            1 => self.rng.pick(&[0x8000, 0xFFFE, 0x6996, 0x9669, 0x6666, 0x8888, 0xE4E4]),
            _ => self.rng.next() as u16,
        }
    }

    fn cell(&mut self, kind: usize, size: usize, wires: Outputs, rank: usize) -> Cell {
        let output = wires[0];
        match kind {
            0 => Cell::Lut4 { inputs: self.bits(rank), output, init: self.table() },
            1 => {
                let [lut_true, lut_false, select] = self.bits(rank);
                Cell::PfuMux { lut_true, lut_false, select, output }
            }
            2 => {
                let [data_zero, data_one, select] = self.bits(rank);
                Cell::L6Mux21 { data_zero, data_one, select, output }
            }
            3 => Cell::Ccu2c {
                inputs: [self.bits(rank), self.bits(rank)],
                carry_in: self.bit(rank),
                sums: [wires[0], wires[1]],
                carry_out: wires[2],
                init: [self.table(), self.table()],
                inject: [self.rng.flag(), self.rng.flag()],
            },
            4 => Cell::Multiplier {
                lhs: self.bits(rank),
                rhs: self.bits(rank),
                product: std::array::from_fn(|at| wires[at]),
            },
            5 => self.flip_flop(output),
            6 => Cell::BlockRam(Box::new(self.block_ram(size, &wires))),
            7 => {
                let (clock, edge) = self.clock();
                Cell::DistributedRam {
                    write_address: self.bits(usize::MAX),
                    data: self.bits(usize::MAX),
                    write: self.write_control(),
                    read_address: self.bits(rank),
                    read: std::array::from_fn(|at| wires[at]),
                    clock,
                    edge,
                    second: self.rng.chance(self.plan.faults.flagged),
                }
            }
            8 => {
                let pad = (0..20).find_map(|_| match self.bit(rank) {
                    Bit::Wire(wire) => Some(wire),
                    _ => None,
                });
                // Without any wire the pad has to be missing.
                let pad = pad.unwrap_or_else(|| self.sources.first().map_or(0, |first| first.wire));
                Cell::Io {
                    pad,
                    fabric_output: self.bit(rank),
                    fabric_input: output,
                    tristate: self.bit(rank),
                }
            }
            9 => Cell::Jtagg { wires: std::array::from_fn(|at| wires[at]) },
            _ => Cell::Pll {
                reference: self.bit(rank),
                feedback: wires[0],
                output: wires[1],
                locked: wires[2],
                further: wires[3..].to_vec(),
            },
        }
    }

    fn flip_flop(&mut self, output: u32) -> Cell {
        let (clock, edge) = self.clock();
        let enable = self.rng.chance(40).then(|| self.control(usize::MAX));
        let reset = self.rng.chance(50).then(|| {
            let asynchronous = self.rng.flag();
            let Control { signal, active_high } = if asynchronous {
                if self.rng.chance(self.plan.faults.non_scalar) {
                    Control { signal: self.any(), active_high: self.rng.flag() }
                } else {
                    self.rng.pick(&self.resets)
                }
            } else {
                self.control(usize::MAX)
            };
            Reset { signal, active_high, asynchronous, value: self.rng.flag() }
        });
        Cell::FlipFlop { data: self.bit(usize::MAX), output, clock, edge, enable, reset }
    }

    fn depth(&mut self) -> u32 {
        if self.plan.shallow > 0 && self.rng.chance(self.plan.shallow) {
            return self.rng.range(1, 4) as u32;
        }
        if self.rng.chance(self.plan.very_deep) {
            return self.rng.pick(&[512, 513, 1_000, 1_024, 1_025, 2_048, 2_049, 4_096, 16_384]);
        }
        if self.rng.chance(self.plan.deep) {
            return self.rng.pick(&[16, 17, 31, 32, 33, 40, 64, 100, 150, 256, 300]);
        }
        match self.rng.below(5) {
            0 => 1,
            1 => self.rng.pick(&[3, 5, 6, 7, 9]),
            _ => self.rng.range(1, 12) as u32,
        }
    }

    /// Address bits; those outside of what is used are often nonsense that
    /// nobody may read, even an undriven wire.
    fn address(&mut self, shift: usize, width: usize) -> [Bit; 14] {
        let junk = self.rng.chance(30);
        std::array::from_fn(|at| {
            if (shift..shift + width).contains(&at) {
                self.bit(usize::MAX)
            } else if junk {
                self.undriven()
            } else {
                Bit::Zero
            }
        })
    }

    fn read_enable(&mut self) -> Option<Control> {
        self.rng.chance(40).then(|| {
            if self.rng.flag() {
                return self.rng.pick(&self.resets);
            }
            Control { signal: self.scalar(), active_high: self.rng.flag() }
        })
    }

    /// Read as a bit, so it may be part of a wider signal. Mostly a port drives
    /// it: such a bit moves, and the RAM is on and off by turns.
    fn clock_enable(&mut self) -> Option<Control> {
        self.rng.chance(self.plan.clock_enables).then(|| {
            let signal = if self.rng.chance(self.plan.faults.missing_enable) {
                self.undriven()
            } else {
                match self.rng.below(10) {
                    0 => self.rng.pick(&[Bit::Zero, Bit::One]),
                    1 => self.rng.pick(&self.resets).signal,
                    2..7 if self.port_sources > 0 => {
                        Bit::Wire(self.sources[self.rng.below(self.port_sources)].wire)
                    }
                    _ => self.bit(usize::MAX),
                }
            };
            Control { signal, active_high: self.rng.flag() }
        })
    }

    fn block_ram(&mut self, size: usize, wires: &[u32]) -> BlockRam {
        let (ports, word_width) = (size / 100, size % 100);
        let depth = self.depth();
        let width = address_width(depth);
        let fitting = [1u32, 2, 4, 9, 18]
            .into_iter()
            .filter(|&physical| address_shift(physical).is_some_and(|shift| shift + width <= 14))
            .collect::<Vec<_>>();
        let physical_width = self.rng.pick(&fitting);
        let shift = address_shift(physical_width).unwrap_or(0) as usize;
        let width = width as usize;
        let (clock, edge) = self.clock();
        let write_address = self.address(shift, width);
        // Reading where one writes shows what the edge does.
        let read_address =
            if self.rng.chance(40) { write_address } else { self.address(shift, width) };
        let second = (ports == 2).then(|| {
            let (mut clock, mut edge) = (clock, edge);
            if self.rng.chance(self.plan.faults.clocking) {
                (clock, edge) = self.clock();
            }
            SecondPort {
                address: if self.rng.chance(40) {
                    write_address
                } else {
                    self.address(shift, width)
                },
                write: self.write_control(),
                read_enable: self.read_enable(),
                clock_enable: self.clock_enable(),
                clock,
                edge,
                data: (0..word_width).map(|_| self.bit(usize::MAX)).collect(),
                read: wires[word_width..].to_vec(),
            }
        });
        BlockRam {
            depth,
            word_width: word_width as u32,
            physical_width,
            write_address,
            write: self.write_control(),
            read_address,
            read_enable: self.read_enable(),
            clock_enable: self.clock_enable(),
            clock,
            edge,
            data: (0..word_width).map(|_| self.bit(usize::MAX)).collect(),
            read: wires[..word_width].to_vec(),
            second,
        }
    }
}
