//! The input and output of the program `simulate`, answered by the independent
//! simulators: outputs by the netlist's own cells, refusals by the model. Where
//! the cells form no loop, both must say the same.

mod draw;

use cells::Circuit;
use model::{Model, Refusal};
use netlist::{Direction, Limits, Netlist};

/// Words of the signal, expression and statement lists. The proved programs lend
/// at least these.
pub const LISTS: [usize; 3] = [16_384, 262_144, 65_536];
/// The most words of a netlist, ticks, and bits of all ticks together.
pub const NETLIST: usize = 65_536;
pub const TICKS: usize = 4_096;
pub const BITS: usize = 262_144;
/// The most bits of all signals, of all expressions, and of all outputs over all
/// ticks. Works here are as long as they must be; this is for those who draw cases.
pub const WORKS: [usize; 3] = [65_536, 262_144, 262_144];

/// One tick as it is written: `asked` bits are asked for, of which `bits` are
/// there; `fires` is 0 for nothing, else an edge and 1.
#[derive(Clone, Debug, PartialEq, Eq)]
pub struct Tick {
    pub asked: u32,
    pub bits: Vec<u8>,
    pub fires: u32,
    pub signal: u32,
}

#[derive(Clone, Debug, Default, PartialEq, Eq)]
pub struct Case {
    pub ticks: Vec<Tick>,
    pub netlist: Vec<u32>,
}

impl Case {
    /// None where leading words are missing or there are too many.
    #[must_use]
    pub fn read(words: &[u32]) -> Option<Self> {
        let (&[count, bits], rest) = words.split_first_chunk()?;
        let (count, bits) = (count as usize, bits as usize);
        if count > TICKS || bits > BITS {
            return None;
        }
        let (heads, rest) = rest.split_at_checked(3 * count)?;
        let (packed, netlist) = rest.split_at_checked(bits.div_ceil(4))?;
        if netlist.len() > NETLIST {
            return None;
        }
        let bytes = packed.iter().flat_map(|word| word.to_le_bytes()).collect::<Vec<_>>();
        let mut left = &bytes[..bits];
        let ticks = heads.chunks_exact(3).map(|head| {
            let (bits, behind) = left.split_at(left.len().min(head[0] as usize));
            left = behind;
            Tick { asked: head[0], bits: bits.to_vec(), fires: head[1], signal: head[2] }
        });
        Some(Self { ticks: ticks.collect(), netlist: netlist.to_vec() })
    }

    #[must_use]
    pub fn write(&self) -> Vec<u32> {
        let mut bits = self.ticks.iter().flat_map(|tick| tick.bits.clone()).collect::<Vec<_>>();
        let mut words = vec![self.ticks.len() as u32, bits.len() as u32];
        for tick in &self.ticks {
            words.extend([tick.asked, tick.fires, tick.signal]);
        }
        bits.resize(bits.len().next_multiple_of(4), 0);
        let packed = bits.chunks_exact(4).map(|bytes| bytes.try_into().expect("four bytes"));
        words.extend(packed.map(u32::from_le_bytes));
        words.extend(&self.netlist);
        words
    }

    /// Whether lists and works are long enough, so that the answer does not hang
    /// on their lengths.
    #[must_use]
    pub fn fits(&self) -> bool {
        let recording = match lower::lower(&self.netlist, &Limits::BASE, LISTS) {
            Ok(recording) => recording,
            Err(refusal) => return refusal.number != 2,
        };
        let lists = recording.words.each_ref().map(Vec::as_slice);
        let model = Model::new(lists).expect("a model of the Rust is well formed");
        let shown = model.shown(&vec![0; model.signal_bits()]).len() * self.ticks.len();
        let needed = [model.signal_bits(), model.works().expression_bits, shown];
        needed.iter().zip(WORKS).all(|(needed, lent)| *needed <= lent)
    }

    /// The lines that `simulate` prints.
    #[must_use]
    pub fn answer(&self) -> String {
        let recording = match lower::lower(&self.netlist, &Limits::BASE, LISTS) {
            Ok(recording) => recording,
            Err(refusal) => return refused(refusal.number, refusal.place),
        };
        let lists = recording.words.each_ref().map(Vec::as_slice);
        let model = Model::new(lists).expect("a model of the Rust is well formed");
        let netlist = netlist::read(&self.netlist, &Limits::BASE).expect("lowering accepts it");
        let mut circuit = Circuit::new(&netlist);
        let by_cells = !circuit.has_loop();
        let mut bytes = vec![0; model.signal_bits()];
        let mut lines = String::new();
        for tick in &self.ticks {
            let fired = (tick.fires > 0).then(|| (tick.signal, tick.fires - 1));
            if tick.asked as usize > tick.bits.len() {
                lines += &refused(14, model.input_bits() as u32);
                continue;
            }
            let outcome = model.run(&mut bytes, model.works(), &tick.bits, fired);
            if by_cells {
                assert_eq!(circuit.tick(&tick.bits, fired), outcome.is_ok(), "{tick:?}");
                assert_eq!(circuit.shown(), model.shown(&bytes), "{tick:?}");
            }
            match outcome {
                Err(Refusal { number, place }) => lines += &refused(number, place),
                Ok(()) => {
                    let bits = if by_cells { circuit.shown() } else { model.shown(&bytes) };
                    lines += &shown(&netlist, &bits);
                }
            }
        }
        lines
    }
}

#[must_use]
pub fn refused(number: u32, place: u32) -> String {
    format!("refused {number} {place}\n")
}

/// The output ports in order, the highest bit of each first.
#[must_use]
pub fn shown(netlist: &Netlist, bits: &[u8]) -> String {
    let outputs = netlist.ports.iter().filter(|port| port.direction == Direction::Output);
    let mut left = bits;
    let ports = outputs.map(|port| {
        let (bits, behind) = left.split_at(port.bits.len());
        left = behind;
        bits.iter().rev().map(|bit| char::from(b'0' + bit)).collect::<String>()
    });
    ports.collect::<Vec<_>>().join(" ") + "\n"
}
