//! Icarus Verilog and Verilator on a netlist, in a folder of their own.

use std::fs;
use std::path::{Path, PathBuf};
use std::process::Command;

use netlist::Netlist;

use crate::ticks::Ticks;
use crate::{times, verilog};

/// Seconds of processor time.
pub struct Times {
    pub compile: f64,
    /// The run without a tick.
    pub start: f64,
    /// The run with all ticks.
    pub whole: f64,
}

pub struct Folder(PathBuf);

impl Folder {
    /// Writes the module, the test bench and the ticks.
    pub fn new(path: PathBuf, netlist: &Netlist, ticks: &Ticks) -> Self {
        let _ = fs::remove_dir_all(&path);
        fs::create_dir_all(&path).expect("a folder for the Verilog");
        let write = |name: &str, bytes: &[u8]| {
            fs::write(path.join(name), bytes).expect("a file for the Verilog")
        };
        write("top.v", verilog::module(netlist).as_bytes());
        write("bench.v", verilog::bench(ticks.len()).as_bytes());
        let hex = ticks
            .inputs
            .iter()
            .map(|&(reset, data)| format!("{:09x}\n", u64::from(reset) << 32 | u64::from(data)));
        write("ticks.hex", hex.collect::<String>().as_bytes());
        let words = ticks.inputs.iter().flat_map(|&(reset, data)| [u32::from(reset), data]);
        write("ticks.bin", &words.flat_map(u32::to_le_bytes).collect::<Vec<_>>());
        write("drive.cpp", include_bytes!("../drive.cpp"));
        write("simulate.bin", &ticks.session(&netlist::write(netlist)));
        Self(path)
    }

    /// The time of the program `simulate` on the same netlist and ticks.
    pub fn program(&self, simulate: &str) -> f64 {
        times::processes(3, || {
            self.run("sh", &["-c", &format!("'{simulate}' < simulate.bin > simulate.txt")]);
        })
    }

    /// What a program writes.
    fn run(&self, program: impl AsRef<Path>, arguments: &[&str]) -> String {
        let program = program.as_ref();
        let output = Command::new(program).args(arguments).current_dir(&self.0).output();
        let output = output
            .unwrap_or_else(|error| panic!("{}: {error}; see bench/install.sh", program.display()));
        let text = |bytes| String::from_utf8_lossy(bytes).into_owned();
        assert!(
            output.status.success(),
            "{}: {}{}",
            program.display(),
            text(&output.stdout),
            text(&output.stderr)
        );
        text(&output.stdout)
    }

    /// Times, and what the outputs showed.
    pub fn icarus(&self, ticks: usize) -> (Times, Vec<u32>) {
        let compile = times::process_once(|| {
            self.run("iverilog", &["-g2005", "-o", "icarus.vvp", "top.v", "bench.v"]);
        });
        let run = |count: usize, least| {
            times::processes(least, || {
                self.run("vvp", &["-n", "icarus.vvp", &format!("+ticks={count}")]);
            })
        };
        let (start, whole) = (run(0, 3), run(ticks, 3));
        let shown = fs::read_to_string(self.0.join("shown.hex")).expect("what vvp wrote");
        let words =
            shown.lines().filter(|line| !line.starts_with("//")).flat_map(str::split_whitespace);
        let words = words.map(|word| {
            u32::from_str_radix(word, 16).unwrap_or_else(|_| panic!("undefined: {word}"))
        });
        (Times { compile, start, whole }, words.collect())
    }

    /// Times, and what the outputs showed. One thread, and the options that its manual names for speed.
    pub fn verilator(&self, ticks: usize) -> (Times, Vec<u32>) {
        let compile = times::process_once(|| {
            let arguments = [
                "--cc",
                "--exe",
                "--build",
                "-j",
                "1",
                "-O3",
                "--x-assign",
                "fast",
                "--x-initial",
                "fast",
                "--noassert",
                "-Wno-fatal",
                "-Wno-lint",
                "-Wno-style",
                "--top-module",
                "top",
                "--prefix",
                "Vtop",
                "--Mdir",
                "verilated",
                "-CFLAGS",
                "-O3",
                "-MAKEFLAGS",
                "OPT_FAST=-O3 OPT_GLOBAL=-O3",
                "top.v",
                "drive.cpp",
            ];
            self.run("verilator", &arguments);
        });
        let program = self.0.join("verilated/Vtop");
        let run = |count: usize| {
            self.run(&program, &[&count.to_string()]).trim().parse().expect("seconds")
        };
        let (start, whole) = (run(0), run(ticks));
        let shown = fs::read(self.0.join("shown.bin")).expect("what the program wrote");
        let words = shown
            .chunks_exact(4)
            .map(|bytes| u32::from_le_bytes(bytes.try_into().expect("four bytes")));
        (Times { compile, start, whole }, words.collect())
    }
}
