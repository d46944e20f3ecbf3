//! Words to netlist, or the refusals 3 to 6.

use crate::{
    Bit, BlockRam, Cell, Control, Direction, Edge, Limits, Netlist, Port, Refusal, Reset,
    SecondPort, address_shift, address_width,
};

/// Reads a netlist. The order of the refusals is the order of the steps: the
/// trailer, both sections word by word, then the second ports.
pub fn read(words: &[u32], limits: &Limits) -> Result<Netlist, Refusal> {
    let netlist = read_words(words, limits)?;
    for (place, cell) in netlist.cells.iter().enumerate() {
        if let Cell::BlockRam(ram) = cell
            && let Some(second) = &ram.second
            && (second.clock != ram.clock || second.edge != ram.edge)
        {
            return Err(Refusal { number: 6, place: place as u32 });
        }
    }
    Ok(netlist)
}

/// Reads a netlist without looking at second ports: refusals 3 to 5.
pub fn read_words(words: &[u32], limits: &Limits) -> Result<Netlist, Refusal> {
    let bad_trailer = Refusal { number: 3, place: 0 };
    let Some(end) = words.len().checked_sub(4) else {
        return Err(bad_trailer);
    };
    let (start_of_ports, port_count) = (words[end], words[end + 1]);
    let (start_of_cells, cell_count) = (words[end + 2], words[end + 3]);
    if start_of_ports != 0
        || port_count > limits.ports
        || cell_count > limits.cells
        || start_of_cells as usize > end
    {
        return Err(bad_trailer);
    }

    let mut section = Section { words, at: 0, end: start_of_cells as usize, limits };
    let mut ports = Vec::new();
    for _ in 0..port_count {
        ports.push(section.port()?);
    }
    section.nothing_left()?;

    let mut section = Section { words, at: start_of_cells as usize, end, limits };
    let mut cells = Vec::new();
    for _ in 0..cell_count {
        cells.push(section.cell()?);
    }
    section.nothing_left()?;
    Ok(Netlist { ports, cells })
}

struct Section<'a> {
    words: &'a [u32],
    at: usize,
    end: usize,
    limits: &'a Limits,
}

impl Section<'_> {
    fn nothing_left(&self) -> Result<(), Refusal> {
        if self.at == self.end { Ok(()) } else { Err(self.cut_short()) }
    }

    fn cut_short(&self) -> Refusal {
        Refusal { number: 4, place: self.at as u32 }
    }

    /// The next word, which must be one of the allowed.
    fn word(&mut self, allowed: impl FnOnce(u32) -> bool) -> Result<u32, Refusal> {
        if self.at == self.end {
            return Err(self.cut_short());
        }
        let word = self.words[self.at];
        if !allowed(word) {
            return Err(Refusal { number: 5, place: self.at as u32 });
        }
        self.at += 1;
        Ok(word)
    }

    fn wire(&mut self) -> Result<u32, Refusal> {
        let wires = self.limits.wires;
        self.word(|word| word < wires)
    }

    fn wires<const N: usize>(&mut self) -> Result<[u32; N], Refusal> {
        let mut wires = [0; N];
        for wire in &mut wires {
            *wire = self.wire()?;
        }
        Ok(wires)
    }

    fn wire_vec(&mut self, count: u32) -> Result<Vec<u32>, Refusal> {
        (0..count).map(|_| self.wire()).collect()
    }

    fn bit(&mut self) -> Result<Bit, Refusal> {
        let wires = self.limits.wires;
        Ok(match self.word(|word| word < wires + 2)? {
            0 => Bit::Zero,
            1 => Bit::One,
            word => Bit::Wire(word - 2),
        })
    }

    fn bits<const N: usize>(&mut self) -> Result<[Bit; N], Refusal> {
        let mut bits = [Bit::Zero; N];
        for bit in &mut bits {
            *bit = self.bit()?;
        }
        Ok(bits)
    }

    fn bit_vec(&mut self, count: u32) -> Result<Vec<Bit>, Refusal> {
        (0..count).map(|_| self.bit()).collect()
    }

    fn flag(&mut self) -> Result<bool, Refusal> {
        Ok(self.word(|word| word <= 1)? == 1)
    }

    fn edge(&mut self) -> Result<Edge, Refusal> {
        Ok(if self.flag()? { Edge::Falling } else { Edge::Rising })
    }

    fn init(&mut self) -> Result<u16, Refusal> {
        Ok(self.word(|word| word < 65_536)? as u16)
    }

    fn zero(&mut self) -> Result<(), Refusal> {
        self.word(|word| word == 0)?;
        Ok(())
    }

    fn control(&mut self) -> Result<Control, Refusal> {
        Ok(Control { signal: self.bit()?, active_high: self.flag()? })
    }

    fn optional_control(&mut self) -> Result<Option<Control>, Refusal> {
        if self.flag()? {
            Ok(Some(self.control()?))
        } else {
            self.zero()?;
            self.zero()?;
            Ok(None)
        }
    }

    fn optional_reset(&mut self) -> Result<Option<Reset>, Refusal> {
        if self.flag()? {
            Ok(Some(Reset {
                signal: self.bit()?,
                active_high: self.flag()?,
                asynchronous: self.flag()?,
                value: self.flag()?,
            }))
        } else {
            for _ in 0..4 {
                self.zero()?;
            }
            Ok(None)
        }
    }

    fn port(&mut self) -> Result<Port, Refusal> {
        let direction = match self.word(|word| word <= 2)? {
            0 => Direction::Input,
            1 => Direction::Output,
            _ => Direction::Inout,
        };
        let widest = self.limits.width;
        let width = self.word(|word| (1..=widest).contains(&word))?;
        Ok(Port { direction, bits: self.bit_vec(width)? })
    }

    fn cell(&mut self) -> Result<Cell, Refusal> {
        Ok(match self.word(|word| word <= 10)? {
            0 => Cell::Lut4 { inputs: self.bits()?, output: self.wire()?, init: self.init()? },
            1 => Cell::PfuMux {
                lut_true: self.bit()?,
                lut_false: self.bit()?,
                select: self.bit()?,
                output: self.wire()?,
            },
            2 => Cell::L6Mux21 {
                data_zero: self.bit()?,
                data_one: self.bit()?,
                select: self.bit()?,
                output: self.wire()?,
            },
            3 => Cell::Ccu2c {
                inputs: [self.bits()?, self.bits()?],
                carry_in: self.bit()?,
                sums: self.wires()?,
                carry_out: self.wire()?,
                init: [self.init()?, self.init()?],
                inject: [self.flag()?, self.flag()?],
            },
            4 => Cell::Multiplier { lhs: self.bits()?, rhs: self.bits()?, product: self.wires()? },
            5 => Cell::FlipFlop {
                data: self.bit()?,
                output: self.wire()?,
                clock: self.bit()?,
                edge: self.edge()?,
                enable: self.optional_control()?,
                reset: self.optional_reset()?,
            },
            6 => Cell::BlockRam(Box::new(self.block_ram()?)),
            7 => Cell::DistributedRam {
                write_address: self.bits()?,
                data: self.bits()?,
                write: self.control()?,
                read_address: self.bits()?,
                read: self.wires()?,
                clock: self.bit()?,
                edge: self.edge()?,
                second: self.flag()?,
            },
            8 => Cell::Io {
                pad: self.wire()?,
                fabric_output: self.bit()?,
                fabric_input: self.wire()?,
                tristate: self.bit()?,
            },
            9 => Cell::Jtagg { wires: self.wires()? },
            _ => Cell::Pll {
                reference: self.bit()?,
                feedback: self.wire()?,
                output: self.wire()?,
                locked: self.wire()?,
                further: {
                    let count = self.word(|word| word <= 4)?;
                    self.wire_vec(count)?
                },
            },
        })
    }

    fn block_ram(&mut self) -> Result<BlockRam, Refusal> {
        let depth = self.word(|word| (1..=16_384).contains(&word))?;
        let word_width = self.word(|word| (1..=18).contains(&word))?;
        let physical_width = self.word(|word| {
            address_shift(word).is_some_and(|shift| shift + address_width(depth) <= 14)
        })?;
        let write_address = self.bits()?;
        let write = self.control()?;
        let read_address = self.bits()?;
        let read_enable = self.optional_control()?;
        let clock_enable = self.optional_control()?;
        let clock = self.bit()?;
        let edge = self.edge()?;
        let flagged = self.flag()?;
        let data = self.bit_vec(word_width)?;
        let read = self.wire_vec(word_width)?;
        let second = if flagged {
            Some(SecondPort {
                address: self.bits()?,
                write: self.control()?,
                read_enable: self.optional_control()?,
                clock_enable: self.optional_control()?,
                clock: self.bit()?,
                edge: self.edge()?,
                data: self.bit_vec(word_width)?,
                read: self.wire_vec(word_width)?,
            })
        } else {
            None
        };
        Ok(BlockRam {
            depth,
            word_width,
            physical_width,
            write_address,
            write,
            read_address,
            read_enable,
            clock_enable,
            clock,
            edge,
            data,
            read,
            second,
        })
    }
}
