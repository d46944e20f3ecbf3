//! Stored answers of the Rust optimizer, as hashes that a small program can
//! reproduce. The README gives the format.

#[path = "../../struo-celox/src/optimize/mod.rs"]
mod optimize;

use std::fmt::Write as _;

use celox::frontend_sdk::{BuildError, Constant, ExprId, ModuleBuilder};
use celox::recorder::EXPRESSIONS;
use optimize::{BitConstants, BitOptimizer};

/// Expressions that exist before a rule runs: the two constants, four inputs.
const FIRST: u32 = 6;

struct Hash(u32);

impl Hash {
    fn absorb(&mut self, word: u32) {
        self.0 = self.0.wrapping_mul(31).wrapping_add(word);
    }

    /// Runs a rule on an empty list and absorbs what it adds and gives.
    fn rule(&mut self, rule: impl FnOnce(&mut BitOptimizer) -> Result<ExprId, BuildError>) {
        let mut builder = ModuleBuilder::new("").unwrap();
        for value in 0..FIRST {
            builder.constant(Constant::two_state(value & 1, 1).unwrap());
        }
        let before = builder.recording().words[EXPRESSIONS].len();
        let constants = BitConstants { zero: ExprId(0), one: ExprId(1) };
        let result = rule(&mut BitOptimizer::new(&mut builder, constants)).unwrap();
        self.absorb(builder.recording().count[EXPRESSIONS] - FIRST);
        for &word in &builder.recording().words[EXPRESSIONS][before..] {
            self.absorb(word);
        }
        self.absorb(result.0);
    }

    fn lut(&mut self, inputs: [u32; 4], table: u32) {
        let inputs = inputs.map(ExprId);
        self.rule(|optimizer| optimizer.lut(&inputs, table as u16));
    }
}

fn main() {
    let mut text = String::new();
    for block in 0..256 {
        let mut hash = Hash(0);
        for table in 256 * block..256 * block + 256 {
            hash.lut([2, 3, 4, 5], table);
        }
        writeln!(text, "{block} {}", hash.0).unwrap();
    }
    for code in 0..6 * 6 * 6 * 6 {
        let inputs = [code / 216, code / 36 % 6, code / 6 % 6, code % 6];
        let mut hash = Hash(0);
        for draw in 0..16u32 {
            hash.lut(inputs, (draw * 40503 + 12345) % 65536);
        }
        let [a, b, c, d] = inputs;
        writeln!(text, "{a} {b} {c} {d} {}", hash.0).unwrap();
    }
    for select in 0..6 {
        let mut hash = Hash(0);
        for arms in 0..36 {
            let [select, high, low] = [select, arms / 6, arms % 6].map(ExprId);
            hash.rule(|optimizer| optimizer.mux(select, high, low));
        }
        writeln!(text, "mux {select} {}", hash.0).unwrap();
    }
    for lhs in 0..6 {
        let mut hash = Hash(0);
        for rhs in 0..6 {
            hash.rule(|optimizer| optimizer.xor(ExprId(lhs), ExprId(rhs)));
        }
        writeln!(text, "xor {lhs} {}", hash.0).unwrap();
    }
    print!("{text}");
}
