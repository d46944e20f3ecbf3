//! Netlists written word by word, each word with what may stand in its place.
//! This is a second reading of the word layout, apart from the reader's.

#[derive(Clone, Copy, Debug, PartialEq, Eq)]
pub enum Class {
    Direction,
    Width,
    Bit,
    Wire,
    Init,
    Flag,
    Zero,
    Kind,
    Depth,
    WordWidth,
    PhysicalWidth,
    Count,
}

use Class::{
    Bit, Count, Depth, Direction, Flag, Init, Kind, PhysicalWidth, Width, Wire, WordWidth, Zero,
};

#[derive(Clone, Default)]
pub struct Sheet {
    pub words: Vec<u32>,
    pub classes: Vec<Class>,
    /// Where each record starts.
    pub records: Vec<usize>,
    pub port_count: usize,
    pub cell_count: usize,
    pub start_of_cells: usize,
}

/// Absent and present optional controls: the words of the latter.
type Optional<const N: usize> = Option<[u32; N]>;

impl Sheet {
    fn put(&mut self, class: Class, words: &[u32]) {
        self.words.extend(words);
        self.classes.extend(words.iter().map(|_| class));
    }

    fn cell(&mut self, kind: u32) {
        if self.cell_count == 0 {
            self.start_of_cells = self.words.len();
        }
        self.cell_count += 1;
        self.records.push(self.words.len());
        self.put(Kind, &[kind]);
    }

    fn control(&mut self, [signal, active]: [u32; 2]) {
        self.put(Bit, &[signal]);
        self.put(Flag, &[active]);
    }

    fn optional_control(&mut self, control: Optional<2>) {
        self.put(Flag, &[u32::from(control.is_some())]);
        match control {
            Some(control) => self.control(control),
            None => self.put(Zero, &[0, 0]),
        }
    }

    pub fn port(&mut self, direction: u32, bits: &[u32]) {
        self.port_count += 1;
        self.records.push(self.words.len());
        self.put(Direction, &[direction]);
        self.put(Width, &[bits.len() as u32]);
        self.put(Bit, bits);
    }

    pub fn cell_lut4(&mut self, inputs: &[u32; 4], output: u32, init: u32) {
        self.cell(0);
        self.put(Bit, inputs);
        self.put(Wire, &[output]);
        self.put(Init, &[init]);
    }

    fn mux(&mut self, kind: u32, bits: &[u32; 3], output: u32) {
        self.cell(kind);
        self.put(Bit, bits);
        self.put(Wire, &[output]);
    }

    fn ccu2c(&mut self, bits: &[u32; 9], outputs: &[u32; 3], inits: &[u32; 2], inject: &[u32; 2]) {
        self.cell(3);
        self.put(Bit, bits);
        self.put(Wire, outputs);
        self.put(Init, inits);
        self.put(Flag, inject);
    }

    fn multiplier(&mut self, factors: &[u32; 36], first_product: u32) {
        self.cell(4);
        self.put(Bit, factors);
        let product = (first_product..first_product + 36).collect::<Vec<_>>();
        self.put(Wire, &product);
    }

    fn flip_flop(
        &mut self,
        data: u32,
        output: u32,
        [clock, edge]: [u32; 2],
        enable: Optional<2>,
        reset: Optional<4>,
    ) {
        self.cell(5);
        self.put(Bit, &[data]);
        self.put(Wire, &[output]);
        self.control([clock, edge]);
        self.optional_control(enable);
        self.put(Flag, &[u32::from(reset.is_some())]);
        match reset {
            Some([signal, active, asynchronous, value]) => {
                self.control([signal, active]);
                self.put(Flag, &[asynchronous, value]);
            }
            None => self.put(Zero, &[0; 4]),
        }
    }

    /// A block RAM on wire 0, rising, whose read wires start at `read`. A
    /// second port is given by its clock and edge. Of port A the read enable is
    /// absent and the clock enable present, of port B the other way round.
    pub fn block_ram(
        &mut self,
        depth: u32,
        width: u32,
        physical: u32,
        read: u32,
        second: Option<(u32, u32)>,
    ) {
        let wires = |from: u32| (from..from + width).collect::<Vec<_>>();
        let data = vec![2; width as usize];
        self.cell(6);
        self.put(Depth, &[depth]);
        self.put(WordWidth, &[width]);
        self.put(PhysicalWidth, &[physical]);
        self.put(Bit, &[2, 0, 1, 2, 0, 1, 2, 0, 1, 2, 0, 1, 2, 0]);
        self.control([2, 1]);
        self.put(Bit, &[0, 2, 1, 0, 2, 1, 0, 2, 1, 0, 2, 1, 0, 2]);
        self.optional_control(None);
        self.optional_control(second.map(|_| [2, 1]));
        self.control([2, 0]);
        self.put(Flag, &[u32::from(second.is_some())]);
        self.put(Bit, &data);
        self.put(Wire, &wires(read));
        if let Some((clock, edge)) = second {
            self.put(Bit, &[1, 2, 0, 1, 2, 0, 1, 2, 0, 1, 2, 0, 1, 2]);
            self.control([1, 0]);
            self.optional_control(Some([2, 0]));
            self.optional_control(None);
            self.control([clock, edge]);
            self.put(Bit, &data);
            self.put(Wire, &wires(read + width));
        }
    }

    pub fn distributed_ram(&mut self, read: u32, second: u32) {
        self.cell(7);
        self.put(Bit, &[2, 0, 1, 2, 0, 2, 1, 2]);
        self.control([2, 0]);
        self.put(Bit, &[2, 2, 0, 1]);
        self.put(Wire, &[read, read + 1, read + 2, read + 3]);
        self.control([2, 1]);
        self.put(Flag, &[second]);
    }

    fn io(&mut self, pad: u32, fabric_output: u32, fabric_input: u32, tristate: u32) {
        self.cell(8);
        self.put(Wire, &[pad]);
        self.put(Bit, &[fabric_output]);
        self.put(Wire, &[fabric_input]);
        self.put(Bit, &[tristate]);
    }

    fn jtagg(&mut self, first: u32) {
        self.cell(9);
        self.put(Wire, &(first..first + 9).collect::<Vec<_>>());
    }

    fn pll(&mut self, reference: u32, outputs: &[u32; 3], further: &[u32]) {
        self.cell(10);
        self.put(Bit, &[reference]);
        self.put(Wire, outputs);
        self.put(Count, &[further.len() as u32]);
        self.put(Wire, further);
    }

    /// Adds the trailer.
    pub fn finish(mut self) -> Self {
        if self.cell_count == 0 {
            self.start_of_cells = self.words.len();
        }
        let numbers = [0, self.port_count, self.start_of_cells, self.cell_count];
        self.words.extend(numbers.map(|number| number as u32));
        self
    }
}

/// A netlist with every cell kind, optional controls absent and present, block
/// RAMs of one and two ports, PLLs with 0 and 4 further wires and ports of all
/// directions. Lowering accepts it.
pub fn all_kinds() -> Sheet {
    let mut sheet = Sheet::default();
    sheet.port(0, &[2]);
    sheet.port(0, &[3, 4, 5, 6]);
    sheet.port(2, &[7]);
    sheet.port(0, &[1, 8]);
    sheet.port(1, &[12, 0, 3, 62]);
    sheet.cell_lut4(&[3, 4, 5, 6], 10, 0x6996);
    sheet.mux(1, &[12, 1, 3], 11);
    sheet.mux(2, &[0, 13, 4], 12);
    sheet.ccu2c(&[3, 4, 0, 1, 5, 6, 12, 13, 14], &[13, 14, 15], &[0x96AA, 0x6688], &[0, 1]);
    let mut factors = [0; 36];
    factors[0] = 3;
    factors[2] = 4;
    factors[17] = 5;
    factors[18] = 6;
    factors[20] = 1;
    factors[35] = 8;
    sheet.multiplier(&factors, 20);
    sheet.flip_flop(15, 60, [2, 0], None, Some([7, 1, 1, 1]));
    sheet.flip_flop(16, 61, [2, 1], Some([3, 0]), None);
    sheet.block_ram(2, 1, 1, 64, None);
    sheet.block_ram(5, 2, 9, 65, Some((2, 0)));
    sheet.distributed_ram(90, 0);
    sheet.io(5, 62, 70, 63);
    sheet.jtagg(71);
    sheet.pll(2, &[80, 80, 81], &[]);
    sheet.pll(0, &[82, 83, 84], &[85, 83, 86, 82]);
    sheet.finish()
}

/// Each record of its own behind a port.
pub fn singles() -> Vec<Sheet> {
    let single = |put: &dyn Fn(&mut Sheet)| {
        let mut sheet = Sheet::default();
        sheet.port(0, &[2]);
        put(&mut sheet);
        sheet.finish()
    };
    vec![
        single(&|sheet| sheet.port(0, &[3, 0])),
        single(&|sheet| sheet.port(1, &[2])),
        single(&|sheet| sheet.port(2, &[3, 1, 4])),
        single(&|sheet| sheet.cell_lut4(&[2, 0, 1, 2], 1, 0x8000)),
        single(&|sheet| sheet.mux(1, &[2, 0, 1], 1)),
        single(&|sheet| sheet.mux(2, &[1, 0, 2], 1)),
        single(&|sheet| sheet.ccu2c(&[2, 0, 1, 2, 0, 1, 2, 0, 1], &[1, 2, 3], &[1, 2], &[0, 1])),
        single(&|sheet| sheet.multiplier(&[2; 36], 1)),
        single(&|sheet| sheet.flip_flop(2, 1, [2, 0], None, None)),
        single(&|sheet| sheet.flip_flop(2, 1, [2, 1], Some([2, 0]), None)),
        single(&|sheet| sheet.flip_flop(2, 1, [2, 0], None, Some([2, 0, 1, 0]))),
        single(&|sheet| sheet.flip_flop(2, 1, [1, 0], Some([0, 1]), Some([1, 1, 0, 1]))),
        single(&|sheet| sheet.block_ram(1, 1, 18, 1, None)),
        single(&|sheet| sheet.block_ram(3, 1, 4, 1, Some((2, 0)))),
        single(&|sheet| sheet.distributed_ram(1, 0)),
        single(&|sheet| sheet.io(0, 2, 1, 1)),
        single(&|sheet| sheet.jtagg(1)),
        single(&|sheet| sheet.pll(2, &[1, 2, 3], &[])),
        single(&|sheet| sheet.pll(1, &[1, 2, 3], &[4, 5, 6, 7])),
    ]
}
