//! Lowers a netlist in words with the Rust, and judges the result: refusals 2
//! to 11 in their order, or the recorded model.

use celox::recorder::{self, LABELS, OWNER_MARK, Recording, SIGNALS, STATEMENTS};
use netlist::{Bit, Cell, Control, Direction, Edge, Limits, Netlist, Refusal, Reset};
use struo_ir::{ActiveLevel, ClockEdge};
use struo_target_ecp5 as ecp5;

mod listing;

pub use listing::{answer, listing};

/// No list may grow past this, however long it is.
const LONGEST_LIST: usize = 2_147_483_648;

/// Words of the signal, expression and statement lists that `lower` lends.
pub const DEFAULT_LENGTHS: [usize; 3] = [16_384; 3];

/// Which Rust lowers.
#[derive(Clone, Copy, Debug, PartialEq, Eq)]
pub enum Rust {
    /// The five files as published.
    Unchanged,
    /// With the requests that change records applied.
    Amended,
}

/// Whether a request that changes records speaks of something in the netlist: of a
/// clock enable, or of a cell that reads a wire twice. Without, both Rusts record
/// the same. The netlist is one that the reader takes.
#[must_use]
pub fn spoken_of(netlist: &Netlist) -> bool {
    netlist.has_clock_enable() || netlist.has_repeat()
}

/// By the amended Rust.
pub fn lower(words: &[u32], limits: &Limits, lengths: [usize; 3]) -> Result<Recording, Refusal> {
    lower_by(Rust::Amended, words, limits, lengths)
}

pub fn lower_by(
    rust: Rust,
    words: &[u32],
    limits: &Limits,
    lengths: [usize; 3],
) -> Result<Recording, Refusal> {
    let outcome = lower_netlist_by(rust, &netlist::read_words(words, limits)?, lengths);
    // The reader and the Rust judge second ports apart from each other.
    let by_reader = netlist::read(words, limits).err();
    let by_rust = outcome.as_ref().err().copied().filter(|refusal| refusal.number == 6);
    assert_eq!(by_reader, by_rust, "refusal 6");
    outcome
}

/// Lowers a netlist whose words are in order, by the amended Rust.
pub fn lower_netlist(netlist: &Netlist, lengths: [usize; 3]) -> Result<Recording, Refusal> {
    lower_netlist_by(Rust::Amended, netlist, lengths)
}

pub fn lower_netlist_by(
    rust: Rust,
    netlist: &Netlist,
    lengths: [usize; 3],
) -> Result<Recording, Refusal> {
    let lengths = lengths.map(|length| length.min(LONGEST_LIST));
    recorder::keep(lengths.into_iter().max().unwrap_or(0));
    let mapped = mapped_netlist(netlist);
    let outcome = match rust {
        Rust::Unchanged => unchanged(&mapped),
        Rust::Amended => amended(&mapped),
    };
    let recording = recorder::take().unwrap_or_default();
    // All recorded events came before a refusal of the Rust, so a list that
    // they fill comes first.
    if let Some(list) = recording.first_full(lengths) {
        return Err(Refusal { number: 2, place: list });
    }
    outcome?;
    match doubly_driven(&recording) {
        Some(signal) => Err(Refusal { number: 11, place: signal }),
        None => Ok(recording),
    }
}

/// The lowest signal with two statements, or with one though it is an input.
fn doubly_driven(recording: &Recording) -> Option<u32> {
    let mut statements = vec![0u32; recording.count[SIGNALS] as usize];
    for statement in recording.records(STATEMENTS) {
        statements[statement[1] as usize] += 1;
    }
    let most = recording.records(SIGNALS).map(|signal| u32::from(signal[0] != 0));
    let found = statements.iter().zip(most).position(|(&count, most)| count > most);
    found.map(|signal| signal as u32)
}

/// Each Rust has an error type of its own.
macro_rules! rust {
    ($name:ident, $adapter:ident) => {
        fn $name(netlist: &ecp5::Ecp5Netlist) -> Result<(), Refusal> {
            use $adapter::CeloxAdapterError as Error;
            let Err(error) = $adapter::ecp5_frontend_artifact(netlist) else { return Ok(()) };
            let (number, place) = match error {
                Error::Build(_) => unreachable!("the stand-in refuses nothing"),
                Error::UnsupportedTrueDualPortMemoryClocking(name) => (6, cell_index(&name)),
                Error::DuplicateWire(wire) => (7, wire),
                Error::MissingWire(wire) => (8, wire),
                Error::NonScalarControl(wire) => (9, wire),
                Error::UnsupportedTrueDualPortMemory(name) => (10, cell_index(&name)),
            };
            Err(Refusal { number, place })
        }
    };
}

rust!(unchanged, struo_celox);
rust!(amended, struo_celox_amended);

fn cell_index(name: &str) -> u32 {
    let (_, index) = name.split_once(OWNER_MARK).expect("a marked cell name");
    index.parse().expect("a cell index")
}

/// The netlist in the lowering's own types, with names that tell label and
/// index.
#[must_use]
pub fn mapped_netlist(netlist: &Netlist) -> ecp5::Ecp5Netlist {
    let ports = netlist.ports.iter().enumerate().map(|(index, port)| ecp5::MappedPort {
        name: format!("port{OWNER_MARK}{index}"),
        direction: match port.direction {
            Direction::Input => ecp5::MappedPortDirection::Input,
            Direction::Output => ecp5::MappedPortDirection::Output,
            Direction::Inout => ecp5::MappedPortDirection::Inout,
        },
        bits: bits(&port.bits),
    });
    let cells = netlist.cells.iter().enumerate().map(|(index, cell)| mapped_cell(index, cell));
    ecp5::Ecp5Netlist::new("netlist", ports.collect(), cells.collect())
}

fn bit(bit: Bit) -> ecp5::Bit {
    match bit {
        Bit::Zero => ecp5::Bit::Zero,
        Bit::One => ecp5::Bit::One,
        Bit::Wire(wire) => ecp5::Bit::Wire(wire),
    }
}

fn bits(many: &[Bit]) -> Vec<ecp5::Bit> {
    many.iter().copied().map(bit).collect()
}

fn level(high: bool) -> ActiveLevel {
    if high { ActiveLevel::High } else { ActiveLevel::Low }
}

fn control(control: Control) -> ecp5::Control {
    ecp5::Control { signal: bit(control.signal), active: level(control.active_high) }
}

fn reset(reset: Reset) -> ecp5::Reset {
    ecp5::Reset {
        signal: bit(reset.signal),
        active: level(reset.active_high),
        asynchronous: reset.asynchronous,
        value: reset.value,
    }
}

fn edge(edge: Edge) -> ClockEdge {
    match edge {
        Edge::Rising => ClockEdge::Rising,
        Edge::Falling => ClockEdge::Falling,
    }
}

/// Four address bits in the lowering's field of fourteen; it reads only the
/// first four of a distributed RAM.
fn four_of_fourteen(address: [Bit; 4]) -> Box<[ecp5::Bit; 14]> {
    let mut wide = [ecp5::Bit::Zero; 14];
    wide[..4].copy_from_slice(&address.map(bit));
    Box::new(wide)
}

fn label_of(cell: &Cell) -> usize {
    match cell {
        Cell::Lut4 { .. } => 2,
        Cell::PfuMux { .. } => 3,
        Cell::L6Mux21 { .. } => 4,
        Cell::Ccu2c { .. } => 5,
        Cell::Multiplier { .. } => 6,
        Cell::FlipFlop { .. } => 7,
        Cell::BlockRam(_) => 8,
        Cell::DistributedRam { .. } => 9,
        Cell::Io { .. } => 10,
        Cell::Jtagg { .. } => 11,
        Cell::Pll { .. } => 12,
    }
}

fn mapped_cell(index: usize, cell: &Cell) -> ecp5::Ecp5Cell {
    use ecp5::Ecp5Cell as To;
    let name = format!("{}{OWNER_MARK}{index}", LABELS[label_of(cell)]);
    match cell {
        Cell::Lut4 { inputs, output, init } => {
            To::Lut4 { name, inputs: inputs.map(bit), output: *output, init: *init }
        }
        Cell::PfuMux { lut_true, lut_false, select, output } => To::PfuMux {
            name,
            lut_true: bit(*lut_true),
            lut_false: bit(*lut_false),
            select: bit(*select),
            output: *output,
        },
        Cell::L6Mux21 { data_zero, data_one, select, output } => To::L6Mux21 {
            name,
            data_zero: bit(*data_zero),
            data_one: bit(*data_one),
            select: bit(*select),
            output: *output,
        },
        Cell::Ccu2c { inputs, carry_in, sums, carry_out, init, inject } => To::Ccu2c {
            name,
            inputs: inputs.map(|row| row.map(bit)),
            carry_in: bit(*carry_in),
            sums: *sums,
            carry_out: *carry_out,
            init: *init,
            inject: *inject,
        },
        Cell::Multiplier { lhs, rhs, product } => To::Multiplier {
            name,
            lhs: Box::new(lhs.map(bit)),
            rhs: Box::new(rhs.map(bit)),
            product: Box::new(*product),
        },
        Cell::FlipFlop { data, output, clock, edge: on, enable, reset: by } => To::FlipFlop {
            name,
            data: bit(*data),
            output: *output,
            clock: bit(*clock),
            edge: edge(*on),
            enable: enable.map(control),
            reset: by.map(reset),
        },
        Cell::BlockRam(ram) => To::BlockRam {
            name,
            implementation: ecp5::Ecp5MemoryImplementation::Block,
            depth: ram.depth,
            word_width: ram.word_width as u8,
            physical_width: ram.physical_width as u8,
            write_address: Box::new(ram.write_address.map(bit)),
            write_data: bits(&ram.data),
            write_enable: control(ram.write),
            read_address: Box::new(ram.read_address.map(bit)),
            read_data: ram.read.clone(),
            read_enable: ram.read_enable.map(control),
            clock: bit(ram.clock),
            edge: edge(ram.edge),
            clock_enable: ram.clock_enable.map(control),
            second_port: ram.second.as_ref().map(|second| ecp5::Ecp5RamSecondPort {
                address: Box::new(second.address.map(bit)),
                write_data: bits(&second.data),
                write_enable: control(second.write),
                read_data: second.read.clone(),
                read_enable: second.read_enable.map(control),
                clock_enable: second.clock_enable.map(control),
                clock: bit(second.clock),
                edge: edge(second.edge),
            }),
        },
        Cell::DistributedRam {
            write_address,
            data,
            write,
            read_address,
            read,
            clock,
            edge: on,
            second,
        } => To::BlockRam {
            name,
            implementation: ecp5::Ecp5MemoryImplementation::Distributed,
            depth: 16,
            word_width: 4,
            physical_width: 4,
            write_address: four_of_fourteen(*write_address),
            write_data: bits(data),
            write_enable: control(*write),
            read_address: four_of_fourteen(*read_address),
            read_data: read.to_vec(),
            read_enable: None,
            clock: bit(*clock),
            edge: edge(*on),
            clock_enable: None,
            second_port: second.then(|| ecp5::Ecp5RamSecondPort {
                address: Box::new([ecp5::Bit::Zero; 14]),
                write_data: Vec::new(),
                write_enable: control(*write),
                read_data: Vec::new(),
                read_enable: None,
                clock_enable: None,
                clock: bit(*clock),
                edge: edge(*on),
            }),
        },
        Cell::Io { pad, fabric_output, fabric_input, tristate } => To::TrellisIo {
            name,
            pad: *pad,
            fabric_output: bit(*fabric_output),
            fabric_input: *fabric_input,
            tristate: bit(*tristate),
        },
        Cell::Jtagg { wires } => {
            let [tdi, clock, rti1, rti2, shift, update, reset_n, ce1, ce2] = *wires;
            To::Jtagg {
                name,
                tdi,
                clock,
                run_test_idle: [rti1, rti2],
                shift,
                update,
                reset_n,
                clock_enable: [ce1, ce2],
            }
        }
        Cell::Pll { reference, feedback, output, locked, further } => To::Pll {
            name,
            reference_clock: bit(*reference),
            feedback_clock: *feedback,
            output_clock: *output,
            additional_output_clocks: further
                .iter()
                .enumerate()
                .map(|(index, wire)| (ecp5::PllOutput(index), *wire))
                .collect(),
            locked: *locked,
        },
    }
}
