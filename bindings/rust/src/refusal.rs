use std::fmt;

/// Why a call or a tick was turned down, and where. docs/REFUSALS.md says what a
/// number means, what its place is and what to do.
#[derive(Clone, Copy, Debug, PartialEq, Eq, Hash)]
pub struct Refusal {
    pub number: u32,
    pub place: u64,
}

impl Refusal {
    /// The cause in a few words.
    #[must_use]
    pub fn cause(&self) -> &'static str {
        match self.number {
            1 => "a lent buffer is shorter than this",
            2 => "a list is full (0 signals, 1 expressions, 2 statements)",
            3 => "no netlist",
            4 => "a section does not end where it should",
            5 => "this word may not stand there",
            6 => "the cell's ports are clocked differently",
            7 => "the wire has two drivers",
            8 => "nothing drives the wire",
            9 => "the wire controls, but is a bit of a wider signal",
            10 => "the cell is a distributed RAM with a second port",
            11 => "the signal is driven twice",
            12 => "the lists are no model from this record on",
            13 => "the signal is on a loop without a register",
            14 => "the tick cannot be made",
            _ => "no refusal",
        }
    }

    /// What the first two numbers of an answer say.
    pub(crate) fn check(numbers: &[u64]) -> Result<(), Self> {
        match numbers[0] {
            0 => Ok(()),
            number => Err(Self { number: number as u32, place: numbers[1] }),
        }
    }
}

/// As the programs print it, and the cause.
impl fmt::Display for Refusal {
    fn fmt(&self, to: &mut fmt::Formatter<'_>) -> fmt::Result {
        write!(to, "refused {} {}: {}", self.number, self.place, self.cause())
    }
}

impl std::error::Error for Refusal {}
