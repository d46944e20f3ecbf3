//! Stand-in: the two enums that the lowering takes from `struo_ir`.

#[derive(Clone, Copy, Debug, PartialEq, Eq, Hash)]
pub enum ActiveLevel {
    High,
    Low,
}

#[derive(Clone, Copy, Debug, PartialEq, Eq, Hash)]
pub enum ClockEdge {
    Rising,
    Falling,
}
