//! The amended Rust beside the unchanged one.

use celox::recorder::{EXPRESSIONS, Recording, SIGNALS, STATEMENTS};
use generate::Focus;
use lower::{Rust, lower_netlist_by, spoken_of};
use netlist::{Bit, BlockRam, Cell, Direction, Limits, Netlist};

const ROOMY: [usize; 3] = [1 << 22; 3];
const READ: u32 = 1;

/// Netlists that the reader takes, of every focus.
fn netlists() -> impl Iterator<Item = Netlist> {
    let focuses = [Focus::All, Focus::ClockEnables, Focus::Repeats];
    let drawn = (0..1_500).flat_map(move |index| focuses.map(|focus| focus.sample(9, index)));
    drawn.filter_map(|words| netlist::read(&words, &Limits::BASE).ok())
}

/// Without a clock enable and a cell that reads a wire twice nothing changes. With a
/// clock enable alone, a port has its read, a Not if it is active low, an And, the
/// register's own read and a mux more.
#[test]
fn a_clock_enable_adds_its_records() {
    let (mut same, mut more) = (0, 0);
    for mut netlist in netlists() {
        generate::untie(&mut netlist);
        let [unchanged, amended] =
            [Rust::Unchanged, Rust::Amended].map(|rust| lower_netlist_by(rust, &netlist, ROOMY));
        if !spoken_of(&netlist) {
            assert_eq!(unchanged, amended, "{netlist:?}");
            same += 1;
        } else if let Ok(amended) = amended {
            let unchanged = unchanged.expect("accepted by the unchanged Rust too");
            let added = netlist.block_rams().flat_map(|ram| ram.clock_enables()).flatten();
            let added = added.map(|enable| {
                let read = matches!(enable.signal, Bit::Wire(_));
                u32::from(read) + u32::from(!enable.active_high) + 3
            });
            let mut expected = unchanged.count;
            expected[EXPRESSIONS] += added.sum::<u32>();
            assert_eq!(amended.count, expected, "{netlist:?}");
            more += 1;
        }
    }
    assert!(same > 1_000 && more > 1_000, "{same} {more}");
}

/// Signals and statements are the unchanged Rust's in number and length. Of the reads
/// that a cell asks for, those of one wire are one record; banks, ports and words of
/// memories have theirs as before.
#[test]
fn a_wire_is_read_once_in_a_cell() {
    let (mut fewer, mut own) = (0, 0);
    for netlist in netlists() {
        let [unchanged, amended] =
            [Rust::Unchanged, Rust::Amended].map(|rust| lower_netlist_by(rust, &netlist, ROOMY));
        let (Ok(unchanged), Ok(amended)) = (unchanged, amended) else { continue };
        assert_eq!(amended.words[SIGNALS], unchanged.words[SIGNALS], "{netlist:?}");
        let lengths = |recording: &Recording| {
            recording.records(STATEMENTS).map(<[u32]>::len).collect::<Vec<_>>()
        };
        assert_eq!(lengths(&amended), lengths(&unchanged), "{netlist:?}");
        let outside = netlist.cells.iter().map(reads_outside).sum::<usize>()
            + netlist.ports.iter().map(|port| shown(port.direction, &port.bits)).sum::<usize>();
        let once = netlist.cells.iter().map(|cell| {
            let mut wires = cell.reads();
            wires.sort_unstable();
            wires.dedup();
            wires.len() + wide_own_reads(cell)
        });
        assert_eq!(reads(&amended), outside + once.sum::<usize>(), "{netlist:?}");
        // The unchanged Rust knows no clock enables.
        let each = netlist.cells.iter().map(|cell| match cell {
            Cell::BlockRam(ram) => {
                let mut ram = ram.clone();
                ram.clock_enable = None;
                ram.second.iter_mut().for_each(|second| second.clock_enable = None);
                Cell::BlockRam(ram).reads().len()
            }
            _ => cell.reads().len(),
        });
        assert_eq!(reads(&unchanged), outside + each.sum::<usize>(), "{netlist:?}");
        fewer += u32::from(netlist.has_repeat());
        own += u32::from(netlist.block_rams().any(BlockRam::shares_own_read));
    }
    assert!(fewer > 1_000 && own > 50, "{fewer} {own}");
}

fn reads(recording: &Recording) -> usize {
    recording.records(EXPRESSIONS).filter(|fields| fields[0] == READ).count()
}

fn wires(bits: &[Bit]) -> usize {
    bits.iter().filter(|bit| matches!(bit, Bit::Wire(_))).count()
}

fn shown(direction: Direction, bits: &[Bit]) -> usize {
    if direction == Direction::Output { wires(bits) } else { 0 }
}

/// A bank's reads for a flip-flop of it, a memory's for its words.
fn reads_outside(cell: &Cell) -> usize {
    match cell {
        Cell::FlipFlop { data, enable, reset, .. } => {
            // With an enable also its own output.
            let enable = enable.map_or(0, |enable| 1 + wires(&[enable.signal]));
            let reset = reset.filter(|reset| !reset.asynchronous);
            wires(&[*data]) + enable + reset.map_or(0, |reset| wires(&[reset.signal]))
        }
        Cell::BlockRam(ram) => ram.depth as usize,
        Cell::DistributedRam { .. } => 16,
        _ => 0,
    }
}

/// Own reads that no read of a bit can be.
fn wide_own_reads(cell: &Cell) -> usize {
    match cell {
        Cell::BlockRam(ram) => ram.own_reads().iter().filter(|own| own.len() > 1).count(),
        _ => 0,
    }
}
