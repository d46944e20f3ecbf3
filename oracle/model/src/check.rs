//! Words to a model: splitting, the check of every record, the order of the
//! assignments.

use crate::{INPUT, Model, Refusal, Signal};

#[derive(Clone, Debug)]
pub enum Expression {
    Const {
        width: usize,
        value: u32,
    },
    Read {
        width: usize,
        signal: usize,
        low: usize,
    },
    /// Highest part first.
    Concat {
        width: usize,
        parts: Vec<usize>,
    },
    Not(usize),
    And(usize, usize),
    Or(usize, usize),
    Xor(usize, usize),
    Mux {
        width: usize,
        select: usize,
        when_true: usize,
        when_false: usize,
    },
    Eq(usize, usize),
    Mul(usize, usize),
}

impl Expression {
    fn width(&self) -> usize {
        match self {
            Self::Const { width, .. }
            | Self::Read { width, .. }
            | Self::Concat { width, .. }
            | Self::Mux { width, .. } => *width,
            Self::Not(_) | Self::And(..) | Self::Or(..) | Self::Xor(..) | Self::Eq(..) => 1,
            Self::Mul(..) => 36,
        }
    }

    fn operands(&self) -> Vec<usize> {
        match self {
            Self::Const { .. } | Self::Read { .. } => Vec::new(),
            Self::Concat { parts, .. } => parts.clone(),
            Self::Not(value) => vec![*value],
            Self::And(lhs, rhs)
            | Self::Or(lhs, rhs)
            | Self::Xor(lhs, rhs)
            | Self::Eq(lhs, rhs)
            | Self::Mul(lhs, rhs) => vec![*lhs, *rhs],
            Self::Mux { select, when_true, when_false, .. } => {
                vec![*select, *when_true, *when_false]
            }
        }
    }
}

#[derive(Clone, Copy, Debug)]
pub enum Statement {
    Assign {
        target: usize,
        value: usize,
    },
    Register {
        target: usize,
        next: usize,
        clock: usize,
        edge: u32,
        /// Signal, active level, value.
        reset: Option<(usize, u32, usize)>,
        /// Signal, active level.
        enable: Option<(usize, u32)>,
    },
}

const WIDEST: u32 = 4_096;
const LABELS: u32 = 16;

pub fn model(lists: [&[u32]; 3]) -> Result<Model, Refusal> {
    // All lists are split before any record is looked at.
    let mut place = 0;
    let mut split = Vec::new();
    for list in lists {
        let (records, whole) = records(list);
        place += records.len();
        if !whole {
            return Err(malformed(place));
        }
        split.push(records);
    }
    let [signal_records, expression_records, statement_records] = &split[..] else {
        unreachable!("three lists")
    };

    let mut driven = vec![0usize; signal_records.len()];
    for record in statement_records {
        if let [0 | 1, target, ..] = record
            && let Some(count) = driven.get_mut(*target as usize)
        {
            *count += 1;
        }
    }
    let mut signals = Vec::new();
    let mut signal_bits = 0;
    let mut input_bits = 0;
    for (number, record) in signal_records.iter().enumerate() {
        let &[label, width, _owner] = *record else { return Err(malformed(number)) };
        let statements = usize::from(label != INPUT);
        if label >= LABELS || !allowed_width(width) || driven[number] != statements {
            return Err(malformed(number));
        }
        let width = width as usize;
        signals.push(Signal { label, width, at: signal_bits });
        signal_bits += width;
        if label == INPUT {
            input_bits += width;
        }
    }

    let mut expressions = Vec::new();
    for (number, record) in expression_records.iter().enumerate() {
        match expression(record, &signals, &expressions) {
            Some(expression) => expressions.push(expression),
            None => return Err(malformed(signals.len() + number)),
        }
    }

    let mut statements = Vec::new();
    for (number, record) in statement_records.iter().enumerate() {
        match statement(record, &signals, &expressions) {
            Some(statement) => statements.push(statement),
            None => return Err(malformed(signals.len() + expressions.len() + number)),
        }
    }

    let expression_bits = expressions.iter().map(Expression::width).sum();
    let order = order(signals.len(), &expressions, &statements);
    Ok(Model { signals, expressions, statements, signal_bits, expression_bits, input_bits, order })
}

fn malformed(place: usize) -> Refusal {
    Refusal { number: 12, place: place as u32 }
}

fn allowed_width(width: u32) -> bool {
    (1..=WIDEST).contains(&width)
}

/// The records without their length words, as far as the list splits, and
/// whether it splits to its end.
fn records(mut list: &[u32]) -> (Vec<&[u32]>, bool) {
    let mut records = Vec::new();
    while let Some(&length) = list.first() {
        let length = length as usize;
        if length == 0 || length > list.len() {
            return (records, false);
        }
        records.push(&list[1..length]);
        list = &list[length..];
    }
    (records, true)
}

/// The expression of a record, if nothing is wrong with it.
fn expression(record: &[u32], signals: &[Signal], earlier: &[Expression]) -> Option<Expression> {
    let (&kind, rest) = record.split_first()?;
    let (&width, operands) = rest.split_first()?;
    if !allowed_width(width) {
        return None;
    }
    let width = width as usize;
    let of_width = |number: u32, width: usize| {
        let found = earlier.get(number as usize)?;
        (found.width() == width).then_some(number as usize)
    };
    let one_bit = |number: u32| of_width(number, 1);
    let pair = |width: usize| match operands {
        &[lhs, rhs] => Some((of_width(lhs, width)?, of_width(rhs, width)?)),
        _ => None,
    };
    let made = match kind {
        0 => match operands {
            &[value] if width >= 32 || value >> width == 0 => Expression::Const { width, value },
            _ => return None,
        },
        1 => match operands {
            &[signal, low] => {
                let found = signals.get(signal as usize)?;
                if low as usize + width > found.width {
                    return None;
                }
                Expression::Read { width, signal: signal as usize, low: low as usize }
            }
            _ => return None,
        },
        2 => {
            let parts = operands.iter().map(|&part| {
                earlier.get(part as usize).map(|found| (part as usize, found.width()))
            });
            let parts = parts.collect::<Option<Vec<_>>>()?;
            let sum: usize = parts.iter().map(|(_, width)| width).sum();
            if parts.is_empty() || sum != width {
                return None;
            }
            Expression::Concat { width, parts: parts.into_iter().map(|(part, _)| part).collect() }
        }
        3 => match operands {
            &[value] => Expression::Not(one_bit(value)?),
            _ => return None,
        },
        4 => pair(1).map(|(lhs, rhs)| Expression::And(lhs, rhs))?,
        5 => pair(1).map(|(lhs, rhs)| Expression::Or(lhs, rhs))?,
        6 => pair(1).map(|(lhs, rhs)| Expression::Xor(lhs, rhs))?,
        7 => match operands {
            &[select, when_true, when_false] => Expression::Mux {
                width,
                select: one_bit(select)?,
                when_true: of_width(when_true, width)?,
                when_false: of_width(when_false, width)?,
            },
            _ => return None,
        },
        8 => {
            let side = earlier.get(*operands.first()? as usize)?.width();
            pair(side).map(|(lhs, rhs)| Expression::Eq(lhs, rhs))?
        }
        9 => pair(36).map(|(lhs, rhs)| Expression::Mul(lhs, rhs))?,
        _ => return None,
    };
    (made.width() == width).then_some(made)
}

fn statement(record: &[u32], signals: &[Signal], expressions: &[Expression]) -> Option<Statement> {
    let mut fields = record.iter().copied();
    let kind = fields.next()?;
    let target = fields.next()? as usize;
    let width = signals.get(target)?.width;
    let value = |number: u32| {
        let found = expressions.get(number as usize)?;
        (found.width() == width).then_some(number as usize)
    };
    let control = |number: u32| {
        let found = signals.get(number as usize)?;
        (found.width == 1).then_some(number as usize)
    };
    let flag = |word: u32| (word <= 1).then_some(word);
    let made = match kind {
        0 => Statement::Assign { target, value: value(fields.next()?)? },
        1 => Statement::Register {
            target,
            next: value(fields.next()?)?,
            clock: control(fields.next()?)?,
            edge: flag(fields.next()?)?,
            reset: match flag(fields.next()?)? {
                0 => None,
                _ => {
                    Some((control(fields.next()?)?, flag(fields.next()?)?, value(fields.next()?)?))
                }
            },
            enable: match flag(fields.next()?)? {
                0 => None,
                _ => Some((control(fields.next()?)?, flag(fields.next()?)?)),
            },
        },
        _ => return None,
    };
    fields.next().is_none().then_some(made)
}

/// Sorts the assignments so that each stands behind those of the signals that
/// it reads; if they form a loop, gives the lowest signal on one.
fn order(
    signals: usize,
    expressions: &[Expression],
    statements: &[Statement],
) -> Result<Vec<usize>, u32> {
    let mut assigned = vec![None; signals];
    let mut reads = vec![Vec::new(); signals];
    for (number, statement) in statements.iter().enumerate() {
        if let Statement::Assign { target, value } = *statement {
            assigned[target] = Some(number);
            reads[target] = reads_of(value, expressions);
        }
    }
    // Take away what waits for nothing until nothing more can go; what is left
    // lies on a loop or behind one.
    let mut readers = vec![Vec::new(); signals];
    let mut waiting = vec![0usize; signals];
    for target in 0..signals {
        for &read in &reads[target] {
            if assigned[read].is_some() {
                readers[read].push(target);
                waiting[target] += 1;
            }
        }
    }
    let mut ready =
        (0..signals).filter(|&s| assigned[s].is_some() && waiting[s] == 0).collect::<Vec<_>>();
    let mut order = Vec::new();
    while let Some(signal) = ready.pop() {
        order.extend(assigned[signal]);
        for &reader in &readers[signal] {
            waiting[reader] -= 1;
            if waiting[reader] == 0 {
                ready.push(reader);
            }
        }
    }
    match (0..signals).find(|&signal| waiting[signal] > 0 && reaches_itself(signal, &reads)) {
        Some(signal) => Err(signal as u32),
        None => Ok(order),
    }
}

/// The signals that an expression reads, directly or through its operands.
fn reads_of(value: usize, expressions: &[Expression]) -> Vec<usize> {
    let mut seen = vec![false; value + 1];
    let mut open = vec![value];
    let mut reads = Vec::new();
    while let Some(number) = open.pop() {
        if !std::mem::replace(&mut seen[number], true) {
            if let Expression::Read { signal, .. } = expressions[number] {
                reads.push(signal);
            }
            open.extend(expressions[number].operands());
        }
    }
    reads.sort_unstable();
    reads.dedup();
    reads
}

fn reaches_itself(signal: usize, reads: &[Vec<usize>]) -> bool {
    let mut seen = vec![false; reads.len()];
    let mut open = reads[signal].clone();
    while let Some(next) = open.pop() {
        if next == signal {
            return true;
        }
        if !std::mem::replace(&mut seen[next], true) {
            open.extend(&reads[next]);
        }
    }
    false
}
