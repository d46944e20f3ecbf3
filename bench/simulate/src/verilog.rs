//! A netlist as one flat module of plain Verilog, and a test bench for it.
//!
//! All registers rise with the one clock, which rises in every tick, so an asynchronous reset is written as one at the edge:
//! in the tick rule the other registers still read what was before it.

use std::collections::HashMap;
use std::fmt::Write;

use netlist::{Bit, Cell, Control, Direction, Netlist, address_shift, address_width};

/// The module `top`; its ports are p0, p1 and so on.
pub fn module(netlist: &Netlist) -> String {
    let mut text = String::from("module top(");
    let ports = netlist.ports.iter().enumerate().map(|(at, port)| {
        let direction = if port.direction == Direction::Output { "output" } else { "input" };
        let width = port.bits.len();
        if width == 1 {
            format!("{direction} p{at}")
        } else {
            format!("{direction} [{}:0] p{at}", width - 1)
        }
    });
    put(&mut text, format!("{});", ports.collect::<Vec<_>>().join(", ")));
    let names = Names::of(netlist);
    for (at, cell) in netlist.cells.iter().enumerate() {
        declare(&mut text, at, cell);
    }
    for (at, cell) in netlist.cells.iter().enumerate() {
        assign(&mut text, &names, at, cell);
    }
    put(&mut text, format!("always @(posedge {}) begin", names.clock(netlist)));
    for (at, cell) in netlist.cells.iter().enumerate() {
        load(&mut text, &names, at, cell);
    }
    put(&mut text, "end");
    for (at, port) in netlist.ports.iter().enumerate() {
        if port.direction == Direction::Output {
            put(&mut text, format!("assign p{at} = {};", names.all(&port.bits)));
        }
    }
    put(&mut text, "endmodule");
    text
}

/// Reads the ticks, and writes what the outputs show after each.
pub fn bench(ticks: usize) -> String {
    format!(
        "module bench;
reg p0 = 0;
reg p1 = 0;
reg [31:0] p2 = 0;
wire [31:0] p3;
top t(p0, p1, p2, p3);
reg [32:0] ticks [0:{last}];
reg [31:0] shown [0:{last}];
integer i;
integer n;
initial begin
  $readmemh(\"ticks.hex\", ticks);
  if (!$value$plusargs(\"ticks=%d\", n)) n = {ticks};
  for (i = 0; i < n; i = i + 1) begin
    p0 = 0; {{p1, p2}} = ticks[i]; #1;
    p0 = 1; #1;
    shown[i] = p3;
  end
  if (n > 0) $writememh(\"shown.hex\", shown, 0, n - 1);
  $finish;
end
endmodule
",
        last = ticks - 1
    )
}

fn put(text: &mut String, line: impl AsRef<str>) {
    text.push_str(line.as_ref());
    text.push('\n');
}

/// The expression of each wire.
struct Names(HashMap<u32, String>);

impl Names {
    fn of(netlist: &Netlist) -> Self {
        let mut names = HashMap::new();
        for (at, port) in netlist.ports.iter().enumerate() {
            for (index, &bit) in port.bits.iter().enumerate() {
                if let (Bit::Wire(wire), Direction::Input) = (bit, port.direction) {
                    let name = if port.bits.len() == 1 {
                        format!("p{at}")
                    } else {
                        format!("p{at}[{index}]")
                    };
                    names.insert(wire, name);
                }
            }
        }
        for (at, cell) in netlist.cells.iter().enumerate() {
            match cell {
                Cell::DistributedRam { .. } | Cell::BlockRam(_) => {
                    for (index, wire) in cell.outputs().into_iter().enumerate() {
                        names.insert(wire, format!("read{at}[{index}]"));
                    }
                }
                _ => {
                    names.extend(cell.outputs().into_iter().map(|wire| (wire, format!("w{wire}"))))
                }
            }
        }
        Self(names)
    }

    fn bit(&self, bit: Bit) -> &str {
        match bit {
            Bit::Zero => "1'b0",
            Bit::One => "1'b1",
            Bit::Wire(wire) => &self.0[&wire],
        }
    }

    /// A vector, given lowest first.
    fn all(&self, bits: &[Bit]) -> String {
        let bits = bits.iter().rev().map(|&bit| self.bit(bit)).collect::<Vec<_>>();
        if let [bit] = bits[..] { bit.to_owned() } else { format!("{{{}}}", bits.join(", ")) }
    }

    fn control(&self, control: Control) -> String {
        format!("{}{}", if control.active_high { "" } else { "!" }, self.bit(control.signal))
    }

    /// The clock of all registers.
    fn clock(&self, netlist: &Netlist) -> &str {
        let clock = netlist.cells.iter().find_map(|cell| match cell {
            Cell::FlipFlop { clock, .. } | Cell::DistributedRam { clock, .. } => Some(*clock),
            _ => None,
        });
        clock.map_or("p0", |clock| self.bit(clock))
    }
}

fn declare(text: &mut String, at: usize, cell: &Cell) {
    match cell {
        Cell::FlipFlop { output, .. } => put(text, format!("reg w{output} = 0;")),
        Cell::BlockRam(ram) => {
            let top = ram.word_width - 1;
            put(text, format!("reg [{top}:0] read{at} = 0;"));
            memory(text, at, top, ram.depth);
        }
        Cell::DistributedRam { .. } => {
            put(text, format!("wire [3:0] read{at};"));
            memory(text, at, 3, 16);
        }
        _ => {
            for wire in cell.outputs() {
                put(text, format!("wire w{wire};"));
            }
        }
    }
}

fn memory(text: &mut String, at: usize, top: u32, depth: u32) {
    put(text, format!("reg [{top}:0] words{at} [0:{}];", depth - 1));
    put(text, format!("integer i{at};"));
    put(
        text,
        format!(
            "initial for (i{at} = 0; i{at} < {depth}; i{at} = i{at} + 1) words{at}[i{at}] = 0;"
        ),
    );
}

fn assign(text: &mut String, names: &Names, at: usize, cell: &Cell) {
    match cell {
        Cell::Lut4 { inputs, output, init } => {
            put(text, format!("assign w{output} = 16'h{init:04x} >> {};", names.all(inputs)));
        }
        Cell::PfuMux { lut_true, lut_false, select, output } => {
            let [one, zero, select] = [*lut_true, *lut_false, *select].map(|bit| names.bit(bit));
            put(text, format!("assign w{output} = {select} ? {one} : {zero};"));
        }
        Cell::L6Mux21 { data_zero, data_one, select, output } => {
            let [one, zero, select] = [*data_one, *data_zero, *select].map(|bit| names.bit(bit));
            put(text, format!("assign w{output} = {select} ? {one} : {zero};"));
        }
        Cell::Ccu2c { inputs, carry_in, sums, carry_out, init, inject } => {
            let mut carry = names.bit(*carry_in).to_owned();
            for row in 0..2 {
                let table = format!("16'h{:04x}", init[row]);
                let gated = if inject[row] { "1'b0".to_owned() } else { carry };
                put(
                    text,
                    format!("wire whole{at}_{row} = {table} >> {};", names.all(&inputs[row])),
                );
                put(
                    text,
                    format!("wire part{at}_{row} = {table} >> {};", names.all(&inputs[row][..2])),
                );
                put(text, format!("assign w{} = whole{at}_{row} ^ {gated};", sums[row]));
                carry = if row == 0 { format!("carry{at}") } else { format!("w{carry_out}") };
                let start = if row == 0 { "wire" } else { "assign" };
                put(text, format!("{start} {carry} = whole{at}_{row} ? {gated} : part{at}_{row};"));
            }
        }
        Cell::DistributedRam { read_address, .. } => {
            put(text, format!("assign read{at} = words{at}[{}];", names.all(read_address)));
        }
        Cell::FlipFlop { .. } | Cell::BlockRam(_) => {}
        Cell::Multiplier { .. } | Cell::Io { .. } | Cell::Jtagg { .. } | Cell::Pll { .. } => {
            unimplemented!("no netlist here has such a cell")
        }
    }
}

fn load(text: &mut String, names: &Names, at: usize, cell: &Cell) {
    match cell {
        Cell::FlipFlop { data, output, enable, reset, .. } => {
            if let Some(reset) = reset {
                let control = Control { signal: reset.signal, active_high: reset.active_high };
                let _ = write!(
                    text,
                    "if ({}) w{output} <= 1'b{}; else ",
                    names.control(control),
                    u8::from(reset.value)
                );
            }
            if let Some(enable) = enable {
                let _ = write!(text, "if ({}) ", names.control(*enable));
            }
            put(text, format!("w{output} <= {};", names.bit(*data)));
        }
        Cell::BlockRam(ram) => {
            let shift = address_shift(ram.physical_width).expect("a width") as usize;
            let width = address_width(ram.depth) as usize;
            assert!(
                ram.depth == 1 << width && ram.second.is_none(),
                "all addresses within, one port"
            );
            let address = |bits: &[Bit; 14]| names.all(&bits[shift..shift + width]);
            for enable in ram.clock_enable.iter().chain(&ram.read_enable) {
                let _ = write!(text, "if ({}) ", names.control(*enable));
            }
            put(text, format!("read{at} <= words{at}[{}];", address(&ram.read_address)));
            for enable in &ram.clock_enable {
                let _ = write!(text, "if ({}) ", names.control(*enable));
            }
            let (data, write) = (names.all(&ram.data), names.control(ram.write));
            put(
                text,
                format!("if ({write}) words{at}[{}] <= {data};", address(&ram.write_address)),
            );
        }
        Cell::DistributedRam { write_address, data, write, .. } => {
            let (address, data, write) =
                (names.all(write_address), names.all(data), names.control(*write));
            put(text, format!("if ({write}) words{at}[{address}] <= {data};"));
        }
        _ => {}
    }
}
