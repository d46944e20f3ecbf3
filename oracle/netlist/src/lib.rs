//! A netlist in words and as a structure, and the way from one to the other.
//! Written from the scope document alone; nothing of the lowering is used.

mod read;
mod write;

use std::ops::Range;

pub use read::{read, read_words};
pub use write::{bit_word, write};

/// Why something was turned down, and where.
#[derive(Clone, Copy, Debug, PartialEq, Eq)]
pub struct Refusal {
    pub number: u32,
    pub place: u32,
}

/// The four limits of a netlist.
#[derive(Clone, Copy, Debug, PartialEq, Eq)]
pub struct Limits {
    /// Wire numbers lie below this.
    pub wires: u32,
    /// Most ports.
    pub ports: u32,
    /// Widest port.
    pub width: u32,
    /// Most cells.
    pub cells: u32,
}

impl Limits {
    pub const BASE: Self = Self { wires: 16_384, ports: 256, width: 256, cells: 4_096 };
}

#[derive(Clone, Copy, Debug, PartialEq, Eq, Hash, PartialOrd, Ord)]
pub enum Bit {
    Zero,
    One,
    Wire(u32),
}

#[derive(Clone, Copy, Debug, PartialEq, Eq)]
pub enum Edge {
    Rising,
    Falling,
}

#[derive(Clone, Copy, Debug, PartialEq, Eq)]
pub struct Control {
    pub signal: Bit,
    pub active_high: bool,
}

#[derive(Clone, Copy, Debug, PartialEq, Eq)]
pub struct Reset {
    pub signal: Bit,
    pub active_high: bool,
    pub asynchronous: bool,
    pub value: bool,
}

#[derive(Clone, Copy, Debug, PartialEq, Eq)]
pub enum Direction {
    Input,
    Output,
    Inout,
}

#[derive(Clone, Debug, PartialEq, Eq)]
pub struct Port {
    pub direction: Direction,
    /// Lowest bit first.
    pub bits: Vec<Bit>,
}

#[derive(Clone, Debug, PartialEq, Eq)]
pub struct BlockRam {
    pub depth: u32,
    pub word_width: u32,
    pub physical_width: u32,
    pub write_address: [Bit; 14],
    pub write: Control,
    pub read_address: [Bit; 14],
    pub read_enable: Option<Control>,
    pub clock_enable: Option<Control>,
    pub clock: Bit,
    pub edge: Edge,
    pub data: Vec<Bit>,
    pub read: Vec<u32>,
    pub second: Option<SecondPort>,
}

#[derive(Clone, Debug, PartialEq, Eq)]
pub struct SecondPort {
    pub address: [Bit; 14],
    pub write: Control,
    pub read_enable: Option<Control>,
    pub clock_enable: Option<Control>,
    pub clock: Bit,
    pub edge: Edge,
    pub data: Vec<Bit>,
    pub read: Vec<u32>,
}

#[derive(Clone, Debug, PartialEq, Eq)]
pub enum Cell {
    Lut4 {
        inputs: [Bit; 4],
        output: u32,
        init: u16,
    },
    PfuMux {
        lut_true: Bit,
        lut_false: Bit,
        select: Bit,
        output: u32,
    },
    L6Mux21 {
        data_zero: Bit,
        data_one: Bit,
        select: Bit,
        output: u32,
    },
    Ccu2c {
        inputs: [[Bit; 4]; 2],
        carry_in: Bit,
        sums: [u32; 2],
        carry_out: u32,
        init: [u16; 2],
        inject: [bool; 2],
    },
    Multiplier {
        lhs: [Bit; 18],
        rhs: [Bit; 18],
        product: [u32; 36],
    },
    FlipFlop {
        data: Bit,
        output: u32,
        clock: Bit,
        edge: Edge,
        enable: Option<Control>,
        reset: Option<Reset>,
    },
    BlockRam(Box<BlockRam>),
    DistributedRam {
        write_address: [Bit; 4],
        data: [Bit; 4],
        write: Control,
        read_address: [Bit; 4],
        read: [u32; 4],
        clock: Bit,
        edge: Edge,
        second: bool,
    },
    Io {
        pad: u32,
        fabric_output: Bit,
        fabric_input: u32,
        tristate: Bit,
    },
    /// tdi, clock, rti1, rti2, shift, update, reset_n, ce1, ce2.
    Jtagg {
        wires: [u32; 9],
    },
    Pll {
        reference: Bit,
        feedback: u32,
        output: u32,
        locked: u32,
        further: Vec<u32>,
    },
}

#[derive(Clone, Debug, Default, PartialEq, Eq)]
pub struct Netlist {
    pub ports: Vec<Port>,
    pub cells: Vec<Cell>,
}

impl BlockRam {
    /// The clock enable of each port.
    #[must_use]
    pub fn clock_enables(&self) -> Vec<Option<Control>> {
        let second = self.second.as_ref().map(|second| second.clock_enable);
        [self.clock_enable].into_iter().chain(second).collect()
    }

    /// The bits of an address that are read.
    #[must_use]
    pub fn window(&self) -> Range<usize> {
        let low = address_shift(self.physical_width).unwrap_or(0) as usize;
        low..low + address_width(self.depth) as usize
    }

    /// The bits that lowering reads, in its order.
    pub fn read_bits_mut(&mut self) -> Vec<&mut Bit> {
        let window = self.window();
        let mut bits = self.write_address[window.clone()].iter_mut().collect::<Vec<_>>();
        bits.extend(&mut self.read_address[window.clone()]);
        bits.extend(&mut self.data);
        bits.push(&mut self.write.signal);
        bits.extend(self.clock_enable.as_mut().map(|enable| &mut enable.signal));
        if let Some(second) = &mut self.second {
            bits.extend(&mut second.address[window]);
            bits.extend(&mut second.data);
            bits.push(&mut second.write.signal);
            bits.extend(second.clock_enable.as_mut().map(|enable| &mut enable.signal));
        }
        bits
    }

    #[must_use]
    pub fn read_bits(&self) -> Vec<Bit> {
        self.clone().read_bits_mut().into_iter().map(|bit| *bit).collect()
    }

    /// Per port with a clock enable, the wires of the register that it reads itself.
    #[must_use]
    pub fn own_reads(&self) -> Vec<&[u32]> {
        let first = self.clock_enable.map(|_| &self.read[..]);
        let second = self.second.as_ref();
        let second = second.and_then(|port| port.clock_enable.map(|_| &port.read[..]));
        first.into_iter().chain(second).collect()
    }

    /// Whether a port's own read is a bit that the RAM read before.
    #[must_use]
    pub fn shares_own_read(&self) -> bool {
        let bits = self.read_bits();
        self.own_reads().iter().any(|own| own.len() == 1 && bits.contains(&Bit::Wire(own[0])))
    }
}

/// Whether a wire stands twice.
fn has_repeat(wires: &[u32]) -> bool {
    let mut wires = wires.to_vec();
    wires.sort_unstable();
    wires.windows(2).any(|pair| pair[0] == pair[1])
}

impl Netlist {
    pub fn block_rams(&self) -> impl Iterator<Item = &BlockRam> {
        self.cells.iter().filter_map(|cell| match cell {
            Cell::BlockRam(ram) => Some(&**ram),
            _ => None,
        })
    }

    /// Whether some port of a block RAM has a clock enable.
    #[must_use]
    pub fn has_clock_enable(&self) -> bool {
        self.block_rams().any(|ram| ram.clock_enables().iter().any(Option::is_some))
    }

    /// Whether some block RAM has two ports, each with a clock enable.
    #[must_use]
    pub fn has_two_clock_enables(&self) -> bool {
        self.block_rams().any(|ram| ram.clock_enables().iter().flatten().count() == 2)
    }

    /// Whether some cell reads a wire twice. The netlist is one that the reader takes.
    #[must_use]
    pub fn has_repeat(&self) -> bool {
        self.cells.iter().any(Cell::has_repeat)
    }
}

impl Cell {
    /// The wires that the cell drives, in the order of its words.
    #[must_use]
    pub fn outputs(&self) -> Vec<u32> {
        match self {
            Self::Lut4 { output, .. }
            | Self::PfuMux { output, .. }
            | Self::L6Mux21 { output, .. }
            | Self::FlipFlop { output, .. } => vec![*output],
            Self::Ccu2c { sums, carry_out, .. } => vec![sums[0], sums[1], *carry_out],
            Self::Multiplier { product, .. } => product.to_vec(),
            Self::BlockRam(ram) => match &ram.second {
                Some(second) => [&ram.read[..], &second.read].concat(),
                None => ram.read.clone(),
            },
            Self::DistributedRam { read, .. } => read.to_vec(),
            Self::Io { fabric_input, .. } => vec![*fabric_input],
            Self::Jtagg { wires } => wires.to_vec(),
            Self::Pll { feedback, output, locked, further, .. } => {
                [&[*feedback, *output, *locked], &further[..]].concat()
            }
        }
    }

    /// The bits that lowering the cell reads, in its order; none of a flip-flop,
    /// whose bits its bank reads. An IO's pad, which is read before them, is a wire
    /// and not among them, and neither is what is named as a signal: a clock, a read
    /// enable.
    pub fn read_bits_mut(&mut self) -> Vec<&mut Bit> {
        match self {
            Self::Lut4 { inputs, .. } => inputs.iter_mut().collect(),
            Self::PfuMux { lut_true, lut_false, select, .. } => {
                vec![select, lut_true, lut_false]
            }
            Self::L6Mux21 { data_zero, data_one, select, .. } => {
                vec![select, data_zero, data_one]
            }
            Self::Ccu2c { inputs, carry_in, .. } => {
                [carry_in].into_iter().chain(inputs.as_flattened_mut()).collect()
            }
            Self::Multiplier { lhs, rhs, .. } => lhs.iter_mut().chain(rhs).collect(),
            Self::BlockRam(ram) => ram.read_bits_mut(),
            Self::DistributedRam { write_address, data, write, read_address, .. } => {
                let bits = write_address.iter_mut().chain(read_address).chain(data);
                bits.chain([&mut write.signal]).collect()
            }
            Self::Io { fabric_output, tristate, .. } => vec![fabric_output, tristate],
            Self::Pll { reference, .. } => vec![reference],
            Self::FlipFlop { .. } | Self::Jtagg { .. } => Vec::new(),
        }
    }

    /// The wires that the cell reads beside these bits: an IO's pad, and where a block
    /// RAM's port has a clock enable and one bit the register that it reads itself.
    #[must_use]
    pub fn other_reads(&self) -> Vec<u32> {
        match self {
            Self::Io { pad, .. } => vec![*pad],
            Self::BlockRam(ram) => {
                let own = ram.own_reads().into_iter().filter(|own| own.len() == 1);
                own.map(|own| own[0]).collect()
            }
            _ => Vec::new(),
        }
    }

    /// The wires that the cell reads as bits, each as often as it asks for it.
    #[must_use]
    pub fn reads(&self) -> Vec<u32> {
        let mut cell = self.clone();
        let wires = cell.read_bits_mut().into_iter().filter_map(|bit| match bit {
            Bit::Wire(wire) => Some(*wire),
            Bit::Zero | Bit::One => None,
        });
        wires.chain(self.other_reads()).collect()
    }

    /// Whether the cell reads a wire twice.
    #[must_use]
    pub fn has_repeat(&self) -> bool {
        has_repeat(&self.reads())
    }

    /// The bits that the cell reads, clocks and controls included; an IO's pad
    /// is a wire and not among them.
    pub fn inputs_mut(&mut self) -> Vec<&mut Bit> {
        let mut bits: Vec<&mut Bit> = Vec::new();
        match self {
            Self::Lut4 { inputs, .. } => bits.extend(inputs),
            Self::PfuMux { lut_true, lut_false, select, .. } => {
                bits.extend([lut_true, lut_false, select]);
            }
            Self::L6Mux21 { data_zero, data_one, select, .. } => {
                bits.extend([data_zero, data_one, select]);
            }
            Self::Ccu2c { inputs, carry_in, .. } => {
                bits.extend(inputs.as_flattened_mut());
                bits.push(carry_in);
            }
            Self::Multiplier { lhs, rhs, .. } => bits.extend(lhs.iter_mut().chain(rhs)),
            Self::FlipFlop { data, clock, enable, reset, .. } => {
                bits.extend([data, clock]);
                bits.extend(enable.as_mut().map(|enable| &mut enable.signal));
                bits.extend(reset.as_mut().map(|reset| &mut reset.signal));
            }
            Self::BlockRam(ram) => {
                let ram = &mut **ram;
                bits.extend(&mut ram.write_address);
                bits.extend(&mut ram.read_address);
                bits.extend(&mut ram.data);
                bits.extend([&mut ram.write.signal, &mut ram.clock]);
                bits.extend(ram.read_enable.as_mut().map(|enable| &mut enable.signal));
                bits.extend(ram.clock_enable.as_mut().map(|enable| &mut enable.signal));
                if let Some(second) = &mut ram.second {
                    bits.extend(&mut second.address);
                    bits.extend(&mut second.data);
                    bits.extend([&mut second.write.signal, &mut second.clock]);
                    bits.extend(second.read_enable.as_mut().map(|enable| &mut enable.signal));
                    bits.extend(second.clock_enable.as_mut().map(|enable| &mut enable.signal));
                }
            }
            Self::DistributedRam { write_address, data, write, read_address, clock, .. } => {
                bits.extend(write_address);
                bits.extend(data);
                bits.extend(read_address);
                bits.extend([&mut write.signal, clock]);
            }
            Self::Io { fabric_output, tristate, .. } => bits.extend([fabric_output, tristate]),
            Self::Jtagg { .. } => {}
            Self::Pll { reference, .. } => bits.push(reference),
        }
        bits
    }
}

/// The lowest address bit that a block RAM of this physical width uses.
#[must_use]
pub fn address_shift(physical_width: u32) -> Option<u32> {
    match physical_width {
        1 => Some(0),
        2 => Some(1),
        4 => Some(2),
        9 => Some(3),
        18 => Some(4),
        _ => None,
    }
}

/// How many address bits a block RAM of this depth uses.
#[must_use]
pub fn address_width(depth: u32) -> u32 {
    let mut width = 1;
    while (depth - 1) >> width != 0 {
        width += 1;
    }
    width
}
