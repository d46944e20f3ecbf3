//! Stand-in: the mapped netlist's types, with just the fields that the
//! lowering names. The fields that it skips with `..` are left out.

use struo_ir::{ActiveLevel, ClockEdge};

#[derive(Clone, Copy, Debug, PartialEq, Eq, Hash)]
pub enum Bit {
    Zero,
    One,
    Wire(u32),
}

#[derive(Clone, Copy, Debug, PartialEq, Eq)]
pub struct Control {
    pub signal: Bit,
    pub active: ActiveLevel,
}

#[derive(Clone, Copy, Debug, PartialEq, Eq)]
pub struct Reset {
    pub signal: Bit,
    pub active: ActiveLevel,
    pub asynchronous: bool,
    pub value: bool,
}

#[derive(Clone, Copy, Debug, PartialEq, Eq)]
pub enum MappedPortDirection {
    Input,
    Output,
    Inout,
}

#[derive(Clone, Debug, PartialEq, Eq)]
pub struct MappedPort {
    pub name: String,
    pub direction: MappedPortDirection,
    pub bits: Vec<Bit>,
}

#[derive(Clone, Copy, Debug, PartialEq, Eq)]
pub enum Ecp5MemoryImplementation {
    Block,
    Distributed,
}

/// The lowering asks a further PLL output only for its port name, and that
/// only to name a signal.
#[derive(Clone, Copy, Debug, PartialEq, Eq)]
pub struct PllOutput(pub usize);

impl PllOutput {
    #[must_use]
    pub fn port(self) -> &'static str {
        ["clkos", "clkos2", "clkos3", "further"][self.0.min(3)]
    }
}

#[derive(Clone, Debug, PartialEq, Eq)]
pub struct Ecp5RamSecondPort {
    pub address: Box<[Bit; 14]>,
    pub write_data: Vec<Bit>,
    pub write_enable: Control,
    pub read_data: Vec<u32>,
    pub read_enable: Option<Control>,
    pub clock_enable: Option<Control>,
    pub clock: Bit,
    pub edge: ClockEdge,
}

#[derive(Clone, Debug, PartialEq, Eq)]
pub enum Ecp5Cell {
    Lut4 {
        name: String,
        inputs: [Bit; 4],
        output: u32,
        init: u16,
    },
    PfuMux {
        name: String,
        lut_true: Bit,
        lut_false: Bit,
        select: Bit,
        output: u32,
    },
    L6Mux21 {
        name: String,
        data_zero: Bit,
        data_one: Bit,
        select: Bit,
        output: u32,
    },
    Ccu2c {
        name: String,
        inputs: [[Bit; 4]; 2],
        carry_in: Bit,
        sums: [u32; 2],
        carry_out: u32,
        init: [u16; 2],
        inject: [bool; 2],
    },
    Multiplier {
        name: String,
        lhs: Box<[Bit; 18]>,
        rhs: Box<[Bit; 18]>,
        product: Box<[u32; 36]>,
    },
    FlipFlop {
        name: String,
        data: Bit,
        output: u32,
        clock: Bit,
        edge: ClockEdge,
        enable: Option<Control>,
        reset: Option<Reset>,
    },
    BlockRam {
        name: String,
        implementation: Ecp5MemoryImplementation,
        depth: u32,
        word_width: u8,
        physical_width: u8,
        write_address: Box<[Bit; 14]>,
        write_data: Vec<Bit>,
        write_enable: Control,
        read_address: Box<[Bit; 14]>,
        read_data: Vec<u32>,
        read_enable: Option<Control>,
        clock: Bit,
        edge: ClockEdge,
        clock_enable: Option<Control>,
        second_port: Option<Ecp5RamSecondPort>,
    },
    TrellisIo {
        name: String,
        pad: u32,
        fabric_output: Bit,
        fabric_input: u32,
        tristate: Bit,
    },
    Jtagg {
        name: String,
        tdi: u32,
        clock: u32,
        run_test_idle: [u32; 2],
        shift: u32,
        update: u32,
        reset_n: u32,
        clock_enable: [u32; 2],
    },
    Pll {
        name: String,
        reference_clock: Bit,
        feedback_clock: u32,
        output_clock: u32,
        additional_output_clocks: Vec<(PllOutput, u32)>,
        locked: u32,
    },
}

#[derive(Clone, Debug, Default, PartialEq, Eq)]
pub struct Ecp5Netlist {
    name: String,
    ports: Vec<MappedPort>,
    cells: Vec<Ecp5Cell>,
}

impl Ecp5Netlist {
    #[must_use]
    pub fn new(name: &str, ports: Vec<MappedPort>, cells: Vec<Ecp5Cell>) -> Self {
        Self { name: name.to_owned(), ports, cells }
    }

    #[must_use]
    pub fn name(&self) -> &str {
        &self.name
    }

    #[must_use]
    pub fn ports(&self) -> &[MappedPort] {
        &self.ports
    }

    #[must_use]
    pub fn cells(&self) -> &[Ecp5Cell] {
        &self.cells
    }
}
