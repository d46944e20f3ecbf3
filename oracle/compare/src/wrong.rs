//! Wrong readings, made by changing the netlist that the cells side runs. The
//! comparison must find each of them; if not, its ticks are too tame.

use netlist::{
    Bit, BlockRam, Cell, Control, Edge, Netlist, SecondPort, address_shift, address_width,
};

pub const READINGS: [(&str, fn(&mut Cell)); 27] = [
    ("LUT4 with d as lowest bit", |cell| {
        if let Cell::Lut4 { inputs, .. } = cell {
            inputs.reverse();
        }
    }),
    ("PFUMX arms swapped", |cell| {
        if let Cell::PfuMux { lut_true, lut_false, .. } = cell {
            std::mem::swap(lut_true, lut_false);
        }
    }),
    ("L6MUX21 arms swapped", |cell| {
        if let Cell::L6Mux21 { data_zero, data_one, .. } = cell {
            std::mem::swap(data_zero, data_one);
        }
    }),
    ("CCU2C without inject", |cell| {
        if let Cell::Ccu2c { inject, .. } = cell {
            *inject = [false; 2];
        }
    }),
    ("CCU2C with the rows' tables swapped", |cell| {
        if let Cell::Ccu2c { init, .. } = cell {
            init.swap(0, 1);
        }
    }),
    ("multiplier of 17 bits", |cell| {
        if let Cell::Multiplier { lhs, .. } = cell {
            lhs[17] = Bit::Zero;
        }
    }),
    ("flip-flop on the other edge", |cell| {
        if let Cell::FlipFlop { edge, .. } = cell {
            *edge = match edge {
                Edge::Rising => Edge::Falling,
                Edge::Falling => Edge::Rising,
            };
        }
    }),
    ("enable ignored", |cell| {
        if let Cell::FlipFlop { enable, .. } = cell {
            *enable = None;
        }
    }),
    ("enable's level turned", |cell| {
        if let Cell::FlipFlop { enable: Some(enable), .. } = cell {
            enable.active_high = !enable.active_high;
        }
    }),
    ("synchronous reset ignored where there is an enable", |cell| {
        if let Cell::FlipFlop { enable: Some(_), reset, .. } = cell
            && reset.is_some_and(|reset| !reset.asynchronous)
        {
            *reset = None;
        }
    }),
    ("asynchronous reset to the other value", |cell| {
        if let Cell::FlipFlop { reset: Some(reset), .. } = cell
            && reset.asynchronous
        {
            reset.value = !reset.value;
        }
    }),
    ("block RAM: read enable ignored", |cell| {
        if let Cell::BlockRam(ram) = cell {
            ram.read_enable = None;
        }
    }),
    ("block RAM: clock enables ignored", |cell| {
        each_port(cell, |port| *port.clock_enable = None);
    }),
    ("block RAM: A's clock enable for both ports", |cell| {
        if let Cell::BlockRam(ram) = cell
            && let Some(second) = &mut ram.second
        {
            second.clock_enable = ram.clock_enable;
        }
    }),
    ("block RAM: B's clock enable for both ports", |cell| {
        if let Cell::BlockRam(ram) = cell
            && let Some(second) = &ram.second
        {
            ram.clock_enable = second.clock_enable;
        }
    }),
    ("block RAM: a port that is off still reads", |cell| {
        // Where it always writes, the clock enable is all that its write has.
        each_port(cell, |port| {
            if port.write.signal == Bit::One
                && port.write.active_high
                && let Some(enable) = port.clock_enable.take()
            {
                *port.write = enable;
            }
        });
    }),
    ("block RAM: a port that is off still writes", |cell| {
        each_port(cell, |port| {
            if port.read_enable.is_none() {
                *port.read_enable = port.clock_enable.take();
            }
        });
    }),
    ("block RAM: clock enables all active high", |cell| {
        each_port(cell, |port| {
            if let Some(enable) = port.clock_enable {
                enable.active_high = true;
            }
        });
    }),
    ("block RAM: beside a read enable the clock enable is ignored", |cell| {
        each_port(cell, |port| {
            if port.read_enable.is_some() {
                *port.clock_enable = None;
            }
        });
    }),
    ("block RAM: beside a clock enable the read enable is ignored", |cell| {
        each_port(cell, |port| {
            if port.clock_enable.is_some() {
                *port.read_enable = None;
            }
        });
    }),
    ("block RAM: A's write wins", |cell| {
        // With one address for both ports, trading data and control is all.
        if let Cell::BlockRam(ram) = cell {
            let address = ram.write_address;
            if let Some(second) = &mut ram.second
                && second.address == address
            {
                std::mem::swap(&mut ram.data, &mut second.data);
                std::mem::swap(&mut ram.write, &mut second.write);
            }
        }
    }),
    ("block RAM: B never writes", |cell| {
        if let Cell::BlockRam(ram) = cell
            && let Some(second) = &mut ram.second
        {
            second.write = Control { signal: Bit::Zero, active_high: true };
        }
    }),
    ("block RAM: write address turned round", |cell| {
        if let Cell::BlockRam(ram) = cell
            && let Some(low) = address_shift(ram.physical_width)
        {
            let high = low + address_width(ram.depth);
            ram.write_address[low as usize..high as usize].reverse();
        }
    }),
    ("distributed RAM: write level turned", |cell| {
        if let Cell::DistributedRam { write, .. } = cell {
            write.active_high = !write.active_high;
        }
    }),
    ("distributed RAM: read address turned round", |cell| {
        if let Cell::DistributedRam { read_address, .. } = cell {
            read_address.reverse();
        }
    }),
    ("IO: tristate the other way", |cell| {
        if let Cell::Io { pad, fabric_output, .. } = cell
            && let Bit::Wire(wire) = fabric_output
        {
            std::mem::swap(pad, wire);
        }
    }),
    ("PLL: a constant reference", |cell| {
        if let Cell::Pll { reference, .. } = cell {
            *reference = Bit::Zero;
        }
    }),
];

/// The controls of a block RAM's port.
struct PortControls<'a> {
    write: &'a mut Control,
    read_enable: &'a mut Option<Control>,
    clock_enable: &'a mut Option<Control>,
}

fn each_port(cell: &mut Cell, change: fn(PortControls<'_>)) {
    if let Cell::BlockRam(ram) = cell {
        let BlockRam { write, read_enable, clock_enable, second, .. } = &mut **ram;
        change(PortControls { write, read_enable, clock_enable });
        if let Some(SecondPort { write, read_enable, clock_enable, .. }) = second {
            change(PortControls { write, read_enable, clock_enable });
        }
    }
}

#[must_use]
pub fn spoiled(netlist: &Netlist, reading: fn(&mut Cell)) -> Netlist {
    let mut netlist = netlist.clone();
    netlist.cells.iter_mut().for_each(reading);
    netlist
}
