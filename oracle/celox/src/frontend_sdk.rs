//! The part of the frontend SDK that the lowering calls, as a recorder.

use std::collections::BTreeMap;
use std::error::Error;
use std::fmt::{self, Display, Formatter};

use crate::recorder::{
    self, EXPRESSIONS, Recording, SIGNALS, STATEMENTS, label, label_and_owner, port_number,
};

#[derive(Clone, Copy, Debug, PartialEq, Eq, PartialOrd, Ord, Hash)]
pub struct ExprId(pub u32);

#[derive(Clone, Copy, Debug, PartialEq, Eq, PartialOrd, Ord, Hash)]
pub struct SignalId(pub u32);

/// The number of a dropped signal of width 0. Nothing ever uses it.
const NO_SIGNAL: SignalId = SignalId(u32::MAX);

#[derive(Clone, Copy, Debug, PartialEq, Eq)]
pub struct ValueType {
    width: usize,
}

impl ValueType {
    pub fn bits(width: usize) -> Result<Self, BuildError> {
        Ok(Self { width })
    }
}

#[derive(Clone, Debug, PartialEq, Eq)]
pub struct Constant {
    value: u64,
    width: usize,
}

impl Constant {
    pub fn two_state(value: impl Into<u64>, width: usize) -> Result<Self, BuildError> {
        Ok(Self { value: value.into(), width })
    }
}

#[derive(Clone, Copy, Debug, PartialEq, Eq)]
pub enum Edge {
    Posedge,
    Negedge,
}

#[derive(Clone, Copy, Debug, PartialEq, Eq)]
pub enum ActiveLevel {
    High,
    Low,
}

#[derive(Clone, Copy, Debug, PartialEq, Eq)]
pub enum UnaryOp {
    LogicNot,
}

#[derive(Clone, Copy, Debug, PartialEq, Eq)]
pub enum BinaryOp {
    LogicAnd,
    LogicOr,
    Xor,
    Equal,
    Mul,
}

/// Never made: the stand-in refuses nothing.
#[derive(Clone, Copy, Debug, PartialEq, Eq)]
pub enum BuildError {}

impl Display for BuildError {
    fn fmt(&self, _formatter: &mut Formatter<'_>) -> fmt::Result {
        match *self {}
    }
}

impl Error for BuildError {}

#[derive(Clone, Copy, Debug)]
pub struct Slice {
    signal: SignalId,
    lsb: usize,
    width: usize,
}

#[derive(Clone, Copy, Debug)]
pub struct AsyncReset {
    signal: SignalId,
    active: ActiveLevel,
    value: ExprId,
}

#[derive(Clone, Copy, Debug)]
pub struct Enable {
    signal: SignalId,
    active: ActiveLevel,
}

/// Empty: the recording is fetched with `recorder::take`.
#[derive(Clone, Debug)]
pub struct FrontendArtifact;

impl FrontendArtifact {
    pub fn validate(&self) -> Result<(), BuildError> {
        Ok(())
    }
}

#[derive(Debug, Default)]
pub struct ModuleBuilder {
    recording: Recording,
    /// Widths by signal and by expression number: a read of a whole signal, a
    /// mux and a concat are asked for without a width.
    signal_widths: Vec<usize>,
    expression_widths: Vec<usize>,
    /// The reads of the cell that has begun, by signal, lowest bit and width.
    reads: Option<BTreeMap<[u32; 3], ExprId>>,
}

impl Drop for ModuleBuilder {
    fn drop(&mut self) {
        recorder::put(std::mem::take(&mut self.recording));
    }
}

impl ModuleBuilder {
    pub fn new(_name: &str) -> Result<Self, BuildError> {
        Ok(Self::default())
    }

    #[must_use]
    pub fn recording(&self) -> &Recording {
        &self.recording
    }

    /// A cell begins: until it ends, equal reads are one record.
    pub fn begin_cell(&mut self) {
        self.reads = Some(BTreeMap::new());
    }

    pub fn end_cell(&mut self) {
        self.reads = None;
    }

    pub fn input(
        &mut self,
        name: impl Into<String>,
        ty: ValueType,
    ) -> Result<SignalId, BuildError> {
        Ok(self.signal(label("input"), ty.width, port_number(&name.into())))
    }

    pub fn output(
        &mut self,
        name: impl Into<String>,
        ty: ValueType,
    ) -> Result<SignalId, BuildError> {
        Ok(self.signal(label("output"), ty.width, port_number(&name.into())))
    }

    pub fn internal(
        &mut self,
        name: impl Into<String>,
        ty: ValueType,
    ) -> Result<SignalId, BuildError> {
        if ty.width == 0 {
            return Ok(NO_SIGNAL);
        }
        let (label, owner) = label_and_owner(&name.into());
        Ok(self.signal(label, ty.width, owner))
    }

    pub fn set_initial(&mut self, _signal: SignalId, _value: Constant) -> Result<(), BuildError> {
        Ok(())
    }

    pub fn whole(&self, signal: SignalId) -> Result<Slice, BuildError> {
        let width = self.signal_widths[signal.0 as usize];
        self.slice(signal, 0, width)
    }

    pub fn slice(&self, signal: SignalId, lsb: usize, width: usize) -> Result<Slice, BuildError> {
        Ok(Slice { signal, lsb, width })
    }

    pub fn constant(&mut self, constant: Constant) -> ExprId {
        self.expression(0, constant.width, &[constant.value as u32])
    }

    pub fn read(&mut self, signal: SignalId) -> Result<ExprId, BuildError> {
        let whole = self.whole(signal)?;
        self.read_slice(whole)
    }

    /// Within a cell, a read that was there before is that read.
    pub fn read_slice(&mut self, slice: Slice) -> Result<ExprId, BuildError> {
        let [signal, lsb, width] = [slice.signal.0, slice.lsb as u32, slice.width as u32];
        let before = self.reads.as_ref().and_then(|reads| reads.get(&[signal, lsb, width]));
        if let Some(read) = before {
            return Ok(*read);
        }
        let read = self.expression(1, slice.width, &[signal, lsb]);
        if let Some(reads) = &mut self.reads {
            reads.insert([signal, lsb, width], read);
        }
        Ok(read)
    }

    pub fn concat(&mut self, parts: Vec<ExprId>) -> Result<ExprId, BuildError> {
        let width = parts.iter().map(|part| self.width(*part)).sum();
        let parts = parts.iter().map(|part| part.0).collect::<Vec<_>>();
        Ok(self.expression(2, width, &parts))
    }

    pub fn unary(
        &mut self,
        op: UnaryOp,
        value: ExprId,
        ty: ValueType,
    ) -> Result<ExprId, BuildError> {
        let UnaryOp::LogicNot = op;
        Ok(self.expression(3, ty.width, &[value.0]))
    }

    pub fn binary(
        &mut self,
        op: BinaryOp,
        lhs: ExprId,
        rhs: ExprId,
        ty: ValueType,
    ) -> Result<ExprId, BuildError> {
        let kind = match op {
            BinaryOp::LogicAnd => 4,
            BinaryOp::LogicOr => 5,
            BinaryOp::Xor => 6,
            BinaryOp::Equal => 8,
            BinaryOp::Mul => 9,
        };
        Ok(self.expression(kind, ty.width, &[lhs.0, rhs.0]))
    }

    pub fn mux(
        &mut self,
        select: ExprId,
        when_true: ExprId,
        when_false: ExprId,
    ) -> Result<ExprId, BuildError> {
        let width = self.width(when_true);
        Ok(self.expression(7, width, &[select.0, when_true.0, when_false.0]))
    }

    pub fn assign(&mut self, target: Slice, value: ExprId) -> Result<(), BuildError> {
        self.recording.add(STATEMENTS, &[0, target.signal.0, value.0]);
        Ok(())
    }

    pub fn async_reset(
        &self,
        signal: SignalId,
        active: ActiveLevel,
        value: ExprId,
    ) -> Result<AsyncReset, BuildError> {
        Ok(AsyncReset { signal, active, value })
    }

    pub fn enable(&self, signal: SignalId, active: ActiveLevel) -> Result<Enable, BuildError> {
        Ok(Enable { signal, active })
    }

    pub fn register(
        &mut self,
        target: Slice,
        next: ExprId,
        clock: SignalId,
        edge: Edge,
        reset: Option<AsyncReset>,
        enable: Option<Enable>,
    ) -> Result<(), BuildError> {
        let edge = match edge {
            Edge::Posedge => 0,
            Edge::Negedge => 1,
        };
        let active = |level| match level {
            ActiveLevel::High => 1,
            ActiveLevel::Low => 0,
        };
        let mut fields = vec![1, target.signal.0, next.0, clock.0, edge];
        match reset {
            Some(reset) => {
                fields.extend([1, reset.signal.0, active(reset.active), reset.value.0]);
            }
            None => fields.push(0),
        }
        match enable {
            Some(enable) => fields.extend([1, enable.signal.0, active(enable.active)]),
            None => fields.push(0),
        }
        self.recording.add(STATEMENTS, &fields);
        Ok(())
    }

    #[must_use]
    pub fn finish(self) -> FrontendArtifact {
        FrontendArtifact
    }

    fn signal(&mut self, label: u32, width: usize, owner: u32) -> SignalId {
        self.signal_widths.push(width);
        SignalId(self.recording.add(SIGNALS, &[label, width as u32, owner]))
    }

    fn expression(&mut self, kind: u32, width: usize, operands: &[u32]) -> ExprId {
        self.expression_widths.push(width);
        let mut fields = vec![kind, width as u32];
        fields.extend_from_slice(operands);
        ExprId(self.recording.add(EXPRESSIONS, &fields))
    }

    fn width(&self, expression: ExprId) -> usize {
        self.expression_widths[expression.0 as usize]
    }
}
