//! The text of a recorded model.

use std::fmt::Write;

use celox::recorder::{EXPRESSIONS, KINDS, LABELS, Recording, SIGNALS, STATEMENTS};
use netlist::Refusal;

/// What the program `lower` prints.
#[must_use]
pub fn answer(outcome: &Result<Recording, Refusal>) -> String {
    match outcome {
        Ok(recording) => listing(recording),
        Err(Refusal { number, place }) => format!("refused {number} {place}\n"),
    }
}

#[must_use]
pub fn listing(recording: &Recording) -> String {
    let mut text = String::new();
    put_all(&mut text, recording).expect("a string takes all");
    text
}

fn put_all(text: &mut String, recording: &Recording) -> std::fmt::Result {
    let [signals, expressions, statements] = recording.count;
    writeln!(text, "model {signals} {expressions} {statements}")?;
    for (number, fields) in recording.records(SIGNALS).enumerate() {
        let &[label, width, owner] = fields else { unreachable!("a signal record") };
        let label = LABELS[label as usize];
        write!(text, "s{number} {label} {width}")?;
        match label {
            "zero" | "one" => writeln!(text)?,
            "input" | "output" => writeln!(text, " p{owner}")?,
            "ff" => writeln!(text, " b{owner}")?,
            _ => writeln!(text, " c{owner}")?,
        }
    }
    for (number, fields) in recording.records(EXPRESSIONS).enumerate() {
        let kind = KINDS[fields[0] as usize];
        write!(text, "e{number} {kind} {}", fields[1])?;
        let operands = &fields[2..];
        match kind {
            "const" => write!(text, " {}", operands[0])?,
            "read" => write!(text, " s{} {}", operands[0], operands[1])?,
            _ => {
                for operand in operands {
                    write!(text, " e{operand}")?;
                }
            }
        }
        writeln!(text)?;
    }
    for (number, fields) in recording.records(STATEMENTS).enumerate() {
        put_statement(text, number, fields)?;
    }
    Ok(())
}

fn put_statement(text: &mut String, number: usize, fields: &[u32]) -> std::fmt::Result {
    if fields[0] == 0 {
        return writeln!(text, "t{number} assign s{} e{}", fields[1], fields[2]);
    }
    let [target, next, clock, edge] = [fields[1], fields[2], fields[3], fields[4]];
    write!(text, "t{number} reg s{target} e{next} s{clock} {edge}")?;
    let mut rest = &fields[5..];
    if rest[0] == 1 {
        write!(text, " 1 s{} {} e{}", rest[1], rest[2], rest[3])?;
        rest = &rest[4..];
    } else {
        write!(text, " 0")?;
        rest = &rest[1..];
    }
    if rest[0] == 1 { writeln!(text, " 1 s{} {}", rest[1], rest[2]) } else { writeln!(text, " 0") }
}
