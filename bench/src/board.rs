//! The ten outputs that the head switches: the trait, a board of four port bytes, and the crossing adapter.

use crate::report::Report;

/// The one refusal of a board.
#[derive(Clone, Copy, Debug, PartialEq, Eq)]
pub enum Fault {
    NamesNothing,
}

impl Fault {
    pub const fn report(self) -> Report {
        Report::new(6, 0x70, 0, 0)
    }
}

#[derive(Clone, Copy, Debug, PartialEq, Eq)]
pub enum LineState {
    Off,
    On,
}

impl LineState {
    pub fn is_on(self) -> bool {
        self == LineState::On
    }
}

pub const SUPPLIES: u8 = 2;
pub const HEATERS: u8 = 2;
pub const LINES: u8 = 6;

/// Two supplies, two heaters and six lines.
pub trait Board {
    fn set_supply(&mut self, which: u8, set_point: u8) -> Result<(), Fault>;
    fn set_heater(&mut self, which: u8, on: bool) -> Result<(), Fault>;
    fn set_line(&mut self, which: u8, state: LineState) -> Result<(), Fault>;
    fn supply(&self, which: u8) -> Result<u8, Fault>;
    fn heater(&self, which: u8) -> Result<bool, Fault>;
    fn line(&self, which: u8) -> Result<LineState, Fault>;
}

/// Sets each of the ten outputs off, once.
pub fn all_off<B: Board>(board: &mut B) -> Result<(), Fault> {
    for which in 0..SUPPLIES {
        board.set_supply(which, 0)?;
    }
    for which in 0..HEATERS {
        board.set_heater(which, false)?;
    }
    for which in 0..LINES {
        board.set_line(which, LineState::Off)?;
    }
    Ok(())
}

/// Four bytes: two set points, the heaters' bits, the lines' bits.
#[derive(Clone, Copy, Debug, PartialEq, Eq)]
pub struct PortBoard {
    supplies: [u8; 2],
    heaters: u8,
    lines: u8,
}

impl PortBoard {
    pub fn new(bytes: [u8; 4]) -> Self {
        let [supply0, supply1, heaters, lines] = bytes;
        PortBoard { supplies: [supply0, supply1], heaters, lines }
    }

    pub fn bytes(&self) -> [u8; 4] {
        let [supply0, supply1] = self.supplies;
        [supply0, supply1, self.heaters, self.lines]
    }
}

/// The bit of an output, if there are more outputs than `which`.
fn bit_of(which: u8, outputs: u8) -> Result<u8, Fault> {
    if which < outputs {
        Ok(1 << which)
    } else {
        Err(Fault::NamesNothing)
    }
}

fn with_bit(byte: u8, bit: u8, on: bool) -> u8 {
    if on {
        byte | bit
    } else {
        byte & !bit
    }
}

impl Board for PortBoard {
    fn set_supply(&mut self, which: u8, set_point: u8) -> Result<(), Fault> {
        let supply = self.supplies.get_mut(usize::from(which)).ok_or(Fault::NamesNothing)?;
        *supply = set_point;
        Ok(())
    }

    fn set_heater(&mut self, which: u8, on: bool) -> Result<(), Fault> {
        self.heaters = with_bit(self.heaters, bit_of(which, HEATERS)?, on);
        Ok(())
    }

    fn set_line(&mut self, which: u8, state: LineState) -> Result<(), Fault> {
        self.lines = with_bit(self.lines, bit_of(which, LINES)?, state.is_on());
        Ok(())
    }

    fn supply(&self, which: u8) -> Result<u8, Fault> {
        self.supplies.get(usize::from(which)).copied().ok_or(Fault::NamesNothing)
    }

    fn heater(&self, which: u8) -> Result<bool, Fault> {
        Ok(self.heaters & bit_of(which, HEATERS)? != 0)
    }

    fn line(&self, which: u8) -> Result<LineState, Fault> {
        let on = self.lines & bit_of(which, LINES)? != 0;
        Ok(if on { LineState::On } else { LineState::Off })
    }
}

/// Exchanges the outputs of the board below in pairs; the door's two lines go straight through.
#[derive(Clone, Copy, Debug, PartialEq, Eq)]
pub struct Crossed<B> {
    below: B,
}

impl<B: Board> Crossed<B> {
    pub fn new(below: B) -> Self {
        Crossed { below }
    }

    pub fn board(&self) -> &B {
        &self.below
    }

    pub fn into_board(self) -> B {
        self.below
    }
}

/// The partner in a pair, for the first `paired` numbers; any other number stays.
fn crossed(which: u8, paired: u8) -> u8 {
    if which < paired {
        which ^ 1
    } else {
        which
    }
}

const PAIRED_LINES: u8 = 4;

impl<B: Board> Board for Crossed<B> {
    fn set_supply(&mut self, which: u8, set_point: u8) -> Result<(), Fault> {
        self.below.set_supply(crossed(which, SUPPLIES), set_point)
    }

    fn set_heater(&mut self, which: u8, on: bool) -> Result<(), Fault> {
        self.below.set_heater(crossed(which, HEATERS), on)
    }

    fn set_line(&mut self, which: u8, state: LineState) -> Result<(), Fault> {
        self.below.set_line(crossed(which, PAIRED_LINES), state)
    }

    fn supply(&self, which: u8) -> Result<u8, Fault> {
        self.below.supply(crossed(which, SUPPLIES))
    }

    fn heater(&self, which: u8) -> Result<bool, Fault> {
        self.below.heater(crossed(which, HEATERS))
    }

    fn line(&self, which: u8) -> Result<LineState, Fault> {
        self.below.line(crossed(which, PAIRED_LINES))
    }
}

#[cfg(test)]
mod tests {
    use super::*;

    #[test]
    fn port_bytes_of_the_page() {
        let mut board = PortBoard::new([0; 4]);
        board.set_supply(1, 200).unwrap();
        assert_eq!(board.bytes(), [0x00, 0xC8, 0x00, 0x00]);
        board.set_heater(0, true).unwrap();
        assert_eq!(board.bytes(), [0x00, 0xC8, 0x01, 0x00]);
        board.set_line(5, LineState::On).unwrap();
        assert_eq!(board.bytes(), [0x00, 0xC8, 0x01, 0x20]);
        assert_eq!(board.set_line(6, LineState::On), Err(Fault::NamesNothing));
        assert_eq!(board.bytes(), [0x00, 0xC8, 0x01, 0x20]);
        board.set_line(5, LineState::Off).unwrap();
        assert_eq!(board.bytes(), [0x00, 0xC8, 0x01, 0x00]);
    }

    #[test]
    fn unused_bits_stay() {
        let mut board = PortBoard::new([0, 0, 0x80, 0xC0]);
        board.set_line(0, LineState::On).unwrap();
        assert_eq!(board.bytes(), [0, 0, 0x80, 0xC1]);
        all_off(&mut board).unwrap();
        assert_eq!(board.bytes(), [0, 0, 0x80, 0xC0]);
    }

    #[test]
    fn the_adapter_crosses() {
        let mut board = Crossed::new(PortBoard::new([0; 4]));
        board.set_line(0, LineState::On).unwrap();
        assert_eq!(board.board().bytes(), [0, 0, 0, 2]);
        assert_eq!(board.line(0), Ok(LineState::On));
        board.set_line(5, LineState::On).unwrap();
        board.set_line(3, LineState::On).unwrap();
        board.set_supply(0, 7).unwrap();
        board.set_heater(1, true).unwrap();
        assert_eq!(board.into_board().bytes(), [0, 7, 1, 0x26]);
    }

    #[test]
    fn numbers_that_name_nothing() {
        let mut board = Crossed::new(PortBoard::new([0; 4]));
        for which in [2, 3, 255] {
            assert_eq!(board.set_supply(which, 1), Err(Fault::NamesNothing));
            assert_eq!(board.supply(which), Err(Fault::NamesNothing));
            assert_eq!(board.set_heater(which, true), Err(Fault::NamesNothing));
            assert_eq!(board.heater(which), Err(Fault::NamesNothing));
        }
        assert_eq!(board.line(6), Err(Fault::NamesNothing));
        assert_eq!(Fault::NamesNothing.report(), Report::new(6, 0x70, 0, 0));
    }
}
