//! The run of a recorded model: three lists of words, a byte per signal bit.
//! Written from the scope document; it knows nothing of netlists.

mod check;

use check::{Expression, Statement};

/// Number and place.
#[derive(Clone, Copy, Debug, PartialEq, Eq)]
pub struct Refusal {
    pub number: u32,
    pub place: u32,
}

/// A model that has passed the check (12).
#[derive(Debug)]
pub struct Model {
    signals: Vec<Signal>,
    expressions: Vec<Expression>,
    statements: Vec<Statement>,
    /// Bits of all signals, of all expressions, of the inputs.
    signal_bits: usize,
    expression_bits: usize,
    input_bits: usize,
    /// The assignments in an order in which each finds its reads settled, or
    /// the lowest signal on a loop.
    order: Result<Vec<usize>, u32>,
}

#[derive(Clone, Debug)]
struct Signal {
    label: u32,
    width: usize,
    /// Its first byte among the signal bytes.
    at: usize,
}

const INPUT: u32 = 0;
const OUTPUT: u32 = 1;

/// What a run is lent besides the model: only lengths matter for the works.
#[derive(Clone, Copy, Debug)]
pub struct Works {
    pub expression_bits: usize,
    pub expressions: usize,
    pub signals: usize,
}

impl Model {
    /// The lists of signals, expressions and statements.
    pub fn new(lists: [&[u32]; 3]) -> Result<Self, Refusal> {
        check::model(lists)
    }

    #[must_use]
    pub fn signal_bits(&self) -> usize {
        self.signal_bits
    }

    #[must_use]
    pub fn input_bits(&self) -> usize {
        self.input_bits
    }

    #[must_use]
    pub fn signal_count(&self) -> usize {
        self.signals.len()
    }

    /// Works of just the needed length.
    #[must_use]
    pub fn works(&self) -> Works {
        Works {
            expression_bits: self.expression_bits,
            expressions: self.expressions.len(),
            signals: self.signals.len(),
        }
    }

    /// The lowest signal on a loop of assignments.
    #[must_use]
    pub fn on_loop(&self) -> Option<u32> {
        self.order.as_ref().err().copied()
    }

    /// The bytes of the output signals.
    #[must_use]
    pub fn shown(&self, bytes: &[u8]) -> Vec<u8> {
        let outputs = self.signals.iter().filter(|signal| signal.label == OUTPUT);
        outputs.flat_map(|signal| bytes[signal.at..signal.at + signal.width].to_vec()).collect()
    }

    /// One tick on the signal bytes. A refusal leaves them as they were.
    pub fn run(
        &self,
        bytes: &mut [u8],
        works: Works,
        bits: &[u8],
        fired: Option<(u32, u32)>,
    ) -> Result<(), Refusal> {
        let refuse = |number, place: usize| Err(Refusal { number, place: place as u32 });
        for (lent, needed) in [
            (bytes.len(), self.signal_bits),
            (works.expression_bits, self.expression_bits),
            (works.expressions, self.expressions.len()),
            (works.signals, self.signals.len()),
        ] {
            if lent < needed {
                return refuse(1, needed);
            }
        }
        if let Some(at) = bytes[..self.signal_bits].iter().position(|&byte| byte > 1) {
            return refuse(14, at);
        }
        if bits.len() != self.input_bits {
            return refuse(14, self.input_bits);
        }
        if let Some(at) = bits.iter().position(|&bit| bit > 1) {
            return refuse(14, at);
        }
        if let Some((signal, edge)) = fired
            && (signal as usize >= self.signals.len() || edge > 1)
        {
            return refuse(14, 0);
        }
        let order = match &self.order {
            Ok(order) => order,
            Err(signal) => return refuse(13, *signal as usize),
        };

        let mut bits = bits.iter();
        for signal in self.signals.iter().filter(|signal| signal.label == INPUT) {
            for byte in &mut bytes[signal.at..signal.at + signal.width] {
                *byte = *bits.next().expect("as many bits as inputs");
            }
        }
        self.settle(bytes, order);
        self.commit(bytes, fired);
        self.settle(bytes, order);
        Ok(())
    }

    fn settle(&self, bytes: &mut [u8], order: &[usize]) {
        let mut values = vec![None; self.expressions.len()];
        for &statement in order {
            let Statement::Assign { target, value } = self.statements[statement] else {
                unreachable!("only assignments are ordered")
            };
            let value = self.value(value, bytes, &mut values);
            self.store(bytes, target, &value);
        }
    }

    fn commit(&self, bytes: &mut [u8], fired: Option<(u32, u32)>) {
        let before = bytes.to_vec();
        let mut values = vec![None; self.expressions.len()];
        let level = |signal: usize| u32::from(before[self.signals[signal].at]);
        for statement in &self.statements {
            let Statement::Register { target, next, clock, edge, reset, enable } = *statement
            else {
                continue;
            };
            let loaded = match (reset, enable) {
                (Some((signal, active, value)), _) if level(signal) == active => Some(value),
                _ if fired != Some((clock as u32, edge)) => None,
                (_, Some((signal, active))) if level(signal) != active => None,
                _ => Some(next),
            };
            if let Some(expression) = loaded {
                let value = self.value(expression, &before, &mut values);
                self.store(bytes, target, &value);
            }
        }
    }

    fn store(&self, bytes: &mut [u8], target: usize, value: &[u8]) {
        let at = self.signals[target].at;
        bytes[at..at + value.len()].copy_from_slice(value);
    }

    /// The bits of an expression, lowest first. What was worked out once under
    /// the same bytes is kept.
    fn value(&self, number: usize, bytes: &[u8], values: &mut Vec<Option<Vec<u8>>>) -> Vec<u8> {
        if let Some(value) = &values[number] {
            return value.clone();
        }
        let mut one = |number: usize| self.value(number, bytes, values);
        let value = match &self.expressions[number] {
            Expression::Const { width, value } => {
                (0..*width).map(|at| if at < 32 { (value >> at & 1) as u8 } else { 0 }).collect()
            }
            Expression::Read { width, signal, low } => {
                let at = self.signals[*signal].at + low;
                bytes[at..at + width].to_vec()
            }
            Expression::Concat { parts, .. } => {
                parts.iter().rev().flat_map(|&part| one(part)).collect()
            }
            Expression::Not(value) => vec![1 - one(*value)[0]],
            Expression::And(lhs, rhs) => vec![one(*lhs)[0] & one(*rhs)[0]],
            Expression::Or(lhs, rhs) => vec![one(*lhs)[0] | one(*rhs)[0]],
            Expression::Xor(lhs, rhs) => vec![one(*lhs)[0] ^ one(*rhs)[0]],
            Expression::Mux { select, when_true, when_false, .. } => {
                if one(*select)[0] == 1 {
                    one(*when_true)
                } else {
                    one(*when_false)
                }
            }
            Expression::Eq(lhs, rhs) => vec![u8::from(one(*lhs) == one(*rhs))],
            Expression::Mul(lhs, rhs) => {
                let [lhs, rhs] = [one(*lhs), one(*rhs)].map(|bits| {
                    bits.iter().rev().fold(0u128, |number, &bit| 2 * number + u128::from(bit))
                });
                let product = lhs * rhs;
                (0..36).map(|at| (product >> at & 1) as u8).collect()
            }
        };
        values[number] = Some(value.clone());
        value
    }
}
