//! The four numbers of a fault or note, and an entry of the log.

/// Where something went wrong, what it was, at which place, and for which command.
#[derive(Clone, Copy, Debug, PartialEq, Eq)]
pub struct Report {
    pub layer: u8,
    pub code: u8,
    pub place: u16,
    pub opcode: u16,
}

impl Report {
    pub const fn new(layer: u8, code: u8, place: u16, opcode: u16) -> Self {
        Report { layer, code, place, opcode }
    }
}

/// A report with the head's time at the moment of logging.
#[derive(Clone, Copy, Debug, PartialEq, Eq)]
pub struct Entry {
    pub time: u32,
    pub report: Report,
}

impl Entry {
    /// What lent memory may be filled with before a log stands on it.
    pub const BLANK: Entry = Entry { time: 0, report: Report::new(0, 0, 0, 0) };
}
