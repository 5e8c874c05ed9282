//! The controller: power-on, frames, ticks, high-voltage samples and second marks.

use crate::board::{all_off, Board, LineState};
use crate::packet::{self, Command, Order};
use crate::report::{Entry, Report};
use crate::ring::Ring;

pub type Log<'a> = Ring<'a, Entry>;
pub type Rates<'a> = Ring<'a, u16>;

#[derive(Clone, Copy, Debug, PartialEq, Eq)]
pub enum Mode {
    Safe,
    Checkout,
}

/// The lowest, highest and default value of a parameter.
#[derive(Clone, Copy, Debug)]
pub struct Range {
    pub lowest: u8,
    pub highest: u8,
    pub default: u8,
}

impl Range {
    pub const fn holds(&self, value: u8) -> bool {
        self.lowest <= value && value <= self.highest
    }
}

const fn range(lowest: u8, highest: u8, default: u8) -> Range {
    Range { lowest, highest, default }
}

pub const RANGES: [Range; 25] = [
    range(0, 255, 40),
    range(1, 255, 200),
    range(0, 255, 10),
    range(0, 255, 150),
    range(0, 255, 50),
    range(0, 255, 180),
    range(0, 255, 16),
    range(1, 255, 5),
    range(1, 255, 5),
    range(1, 255, 5),
    range(0, 255, 100),
    range(0, 255, 200),
    range(0, 255, 200),
    range(0, 255, 200),
    range(0, 255, 200),
    range(0, 255, 200),
    range(0, 255, 200),
    range(0, 255, 200),
    range(0, 255, 200),
    range(0, 255, 0),
    range(0, 31, 0),
    range(0, 1, 0),
    range(0, 255, 60),
    range(1, 255, 90),
    range(0, 1, 1),
];

/// The default of every parameter.
pub const DEFAULTS: [u8; 25] = {
    let mut values = [0; 25];
    let mut index = 0;
    while index < values.len() {
        values[index] = RANGES[index].default;
        index += 1;
    }
    values
};

/// The indexes of the parameters, by name.
pub mod parameter {
    pub const NOMINAL_LEVEL: usize = 0;
    pub const LARGEST_SET_POINT: usize = 1;
    pub const PLATE_TOLERANCE: usize = 2;
    pub const LARGEST_STRIP: usize = 3;
    pub const LEAST_ANODE: usize = 4;
    pub const LARGEST_ANODE: usize = 5;
    pub const FACTOR: usize = 6;
    pub const FAILURES: usize = 7;
    pub const COUNT_RATE: usize = 10;
    pub const TEMPERATURE: usize = 11;
    pub const SENSOR_MASK: usize = 19;
    pub const CHECK_MASK: usize = 20;
    pub const OVERRIDE: usize = 21;
    pub const SAFETY_SECONDS: usize = 22;
    pub const DOOR_PERIOD: usize = 23;
    pub const CLOSE_ON_SAFE: usize = 24;
}

pub const START_TIME: u32 = 1_000_000;
pub const TICKS_TO_CONFIRM: u16 = 2_000;
pub const TICKS_IN_SECOND: u8 = 200;
pub const TICKS_TO_SAMPLE: u8 = 20;
pub const LARGEST_RAW: u32 = 0xFF_FFFF;
pub const OPENS: u8 = 4;
pub const CLOSES: u8 = 5;
const RELEASES: u8 = 4;

/// A critical command that was accepted, and the ticks left to confirm it: at least 1.
#[derive(Clone, Copy, Debug, PartialEq, Eq)]
pub struct Waiting {
    pub order: Order,
    pub left: u16,
}

/// A line that is on, and the ticks left of it: at least 1.
#[derive(Clone, Copy, Debug, PartialEq, Eq)]
pub struct Drive {
    pub line: u8,
    pub left: u16,
}

/// What a tick says is due.
#[derive(Clone, Copy, Debug, PartialEq, Eq)]
pub struct Due {
    pub sample: bool,
    pub second: bool,
}

/// The read-back of both high-voltage supplies.
#[derive(Clone, Copy, Debug, PartialEq, Eq)]
pub struct Sample {
    pub plates: [u8; 2],
    pub strips: [u8; 2],
    pub anodes: [u8; 2],
}

/// What a second mark brings.
#[derive(Clone, Copy, Debug, PartialEq, Eq)]
pub struct Mark {
    pub raw: u32,
    pub temperatures: [u8; 8],
}

/// Why a command that was read is not accepted, as the head stands.
#[derive(Clone, Copy, Debug, PartialEq, Eq)]
enum Refusal {
    NotInSafe,
    Value(u16),
    TimerRuns,
    DriveRuns,
}

impl Refusal {
    const fn report(self, opcode: u16) -> Report {
        match self {
            Refusal::NotInSafe => Report::new(2, 0x23, 6, opcode),
            Refusal::Value(octet) => Report::new(2, 0x40, octet, opcode),
            Refusal::TimerRuns => Report::new(3, 0x30, 6, opcode),
            Refusal::DriveRuns => Report::new(3, 0x41, 6, opcode),
        }
    }
}

const BOTH_EMPTY: Report = Report::new(1, 0x11, 0, 0);
const RAW_TOO_LARGE: Report = Report::new(4, 0x50, 0, 0);
const CONFIRM: u16 = 0x6604;

pub struct Head<B: Board> {
    board: B,
    mode: Mode,
    time: u32,
    tick_number: u8,
    counts: [u8; 3],
    timer: u8,
    parameters: [u8; 25],
    waiting: Option<Waiting>,
    drive: Option<Drive>,
    previous_raw: Option<u32>,
}

/// What the head says of itself.
impl<B: Board> Head<B> {
    pub fn mode(&self) -> Mode {
        self.mode
    }

    pub fn parameters(&self) -> &[u8; 25] {
        &self.parameters
    }

    pub fn board(&self) -> &B {
        &self.board
    }

    pub fn into_board(self) -> B {
        self.board
    }

    pub fn time(&self) -> u32 {
        self.time
    }

    pub fn tick_number(&self) -> u8 {
        self.tick_number
    }

    pub fn counts(&self) -> [u8; 3] {
        self.counts
    }

    pub fn timer(&self) -> u8 {
        self.timer
    }

    pub fn waiting(&self) -> Option<Waiting> {
        self.waiting
    }

    pub fn drive(&self) -> Option<Drive> {
        self.drive
    }

    pub fn previous_raw(&self) -> Option<u32> {
        self.previous_raw
    }
}

/// The five events.
impl<B: Board> Head<B> {
    pub fn power_on(board: B, stored: [u8; 25], log: &mut Log<'_>, rates: &mut Rates<'_>) -> Self {
        log.clear();
        rates.clear();
        let mut head = Head {
            board,
            mode: Mode::Safe,
            time: START_TIME,
            tick_number: 0,
            counts: [0; 3],
            timer: 0,
            parameters: stored,
            waiting: None,
            drive: None,
            previous_raw: None,
        };
        all_off(&mut head.board).expect(NAMED);
        for (index, range) in (0..).zip(&RANGES) {
            let value = &mut head.parameters[usize::from(index)];
            if !range.holds(*value) {
                *value = range.default;
                head.note(log, Report::new(5, 0x52, index, 0));
            }
        }
        head
    }

    pub fn frame(&mut self, primary: &[u8], redundant: &[u8], log: &mut Log<'_>) -> Result<(), Report> {
        if primary.is_empty() && redundant.is_empty() {
            return Err(BOTH_EMPTY);
        }
        let choice = packet::choose(primary, redundant);
        if let Some(fault) = choice.set_aside {
            self.note(log, fault.report());
        }
        let taken = self.waiting.take().map(|waiting| waiting.order);
        let command = choice
            .field
            .map_err(|fault| fault.report())
            .and_then(|field| packet::read(field).map_err(|fault| fault.report()));
        let answer = match command {
            Err(report) => {
                self.note_loss(taken, log);
                Err(report)
            }
            Ok(Command::Confirm { opcode, complement }) => self.confirm(opcode, complement, taken),
            Ok(command) => self.command(command, taken, log),
        };
        if let Err(report) = answer {
            self.note(log, report);
        }
        answer
    }

    pub fn tick(&mut self, log: &mut Log<'_>) -> Due {
        self.tick_number = (self.tick_number + 1) % TICKS_IN_SECOND;
        self.pass_waiting(log);
        self.pass_drive();
        Due { sample: self.tick_number.is_multiple_of(TICKS_TO_SAMPLE), second: self.tick_number == 0 }
    }

    pub fn sample(&mut self, sample: Sample, log: &mut Log<'_>) {
        let mut trips = [false; 5];
        for (check, out) in self.out(sample).into_iter().enumerate() {
            let count = if out { self.counts[check].saturating_add(1) } else { 0 };
            self.counts[check] = count;
            trips[check] = count >= self.parameters[parameter::FAILURES + check];
        }
        self.trip(trips, log);
    }

    pub fn second(&mut self, mark: Mark, log: &mut Log<'_>, rates: &mut Rates<'_>) -> Result<(), Report> {
        if mark.raw > LARGEST_RAW {
            self.note(log, RAW_TOO_LARGE);
            return Err(RAW_TOO_LARGE);
        }
        self.time = self.time.wrapping_add(1);
        self.tick_number = 0;
        self.timer = self.timer.saturating_sub(1);
        let rate = self.rate(mark.raw);
        rates.push(rate);
        self.previous_raw = Some(mark.raw);
        let too_fast = rate > 256 * u16::from(self.parameters[parameter::COUNT_RATE]);
        let too_warm = self.too_warm(&mark.temperatures);
        self.trip([false, false, false, too_fast, too_warm], log);
        Ok(())
    }
}

/// Every number that the head gives its board names an output, and a board has no other refusal.
const NAMED: &str = "the head names only outputs that exist";

/// The parts of a frame.
impl<B: Board> Head<B> {
    fn confirm(&mut self, opcode: u16, complement: u16, taken: Option<Order>) -> Result<(), Report> {
        let order = taken.ok_or(Report::new(2, 0x27, 6, CONFIRM))?;
        if opcode != order.opcode() || complement != !order.opcode() {
            return Err(Report::new(2, 0x25, 8, CONFIRM));
        }
        self.judge(Command::Critical(order)).map_err(|_| Report::new(3, 0x45, 6, CONFIRM))?;
        self.carry_out(order);
        Ok(())
    }

    /// Any command but a confirm.
    fn command(&mut self, command: Command, taken: Option<Order>, log: &mut Log<'_>) -> Result<(), Report> {
        if matches!(command, Command::Critical(_)) && taken.is_some() {
            return Err(Report::new(2, 0x24, 6, command.opcode()));
        }
        self.note_loss(taken, log);
        self.judge(command).map_err(|refusal| refusal.report(command.opcode()))?;
        self.act(command);
        Ok(())
    }

    fn note_loss(&mut self, lost: Option<Order>, log: &mut Log<'_>) {
        if let Some(order) = lost {
            self.note(log, Report::new(2, 0x26, 6, order.opcode()));
        }
    }

    /// Mode, values, timer and drive, in this order.
    fn judge(&self, command: Command) -> Result<(), Refusal> {
        if self.mode == Mode::Safe && not_in_safe(command) {
            return Err(Refusal::NotInSafe);
        }
        if let Some(octet) = self.wrong_octet(command) {
            return Err(Refusal::Value(octet));
        }
        match command {
            Command::Checkout if self.timer > 0 && !self.overridden() => Err(Refusal::TimerRuns),
            Command::CloseDoor | Command::Critical(Order::OpenDoor | Order::FireRelease { .. })
                if self.drive.is_some() =>
            {
                Err(Refusal::DriveRuns)
            }
            _ => Ok(()),
        }
    }

    /// The first octet of the frame with a value outside its range.
    fn wrong_octet(&self, command: Command) -> Option<u16> {
        let (first, second) = match command {
            Command::SetHeater { heater, value } => (heater < 2, value < 2),
            Command::Critical(Order::SetParameter { index, value }) => match RANGES.get(usize::from(index)) {
                Some(range) => (true, range.holds(value)),
                None => (false, false),
            },
            Command::Critical(Order::SetSupply { supply, set_point }) => {
                (supply < 2, 1 <= set_point && set_point <= self.parameters[parameter::LARGEST_SET_POINT])
            }
            Command::Critical(Order::FireRelease { line, period }) => (line < RELEASES, period > 0),
            _ => (true, true),
        };
        match (first, second) {
            (false, _) => Some(8),
            (true, false) => Some(9),
            (true, true) => None,
        }
    }

    fn act(&mut self, command: Command) {
        match command {
            Command::NoOperation | Command::Confirm { .. } => {}
            Command::Safe => {
                if self.mode != Mode::Safe {
                    self.enter_safe();
                }
            }
            Command::Checkout => self.mode = Mode::Checkout,
            Command::CloseDoor => self.drive_door(CLOSES),
            Command::SuppliesOff => self.supplies_off(),
            Command::SetHeater { heater, value } => self.board.set_heater(heater, value == 1).expect(NAMED),
            Command::Critical(order) => self.waiting = Some(Waiting { order, left: TICKS_TO_CONFIRM }),
        }
    }

    fn carry_out(&mut self, order: Order) {
        match order {
            Order::SetParameter { index, value } => {
                if let Some(parameter) = self.parameters.get_mut(usize::from(index)) {
                    *parameter = value;
                }
            }
            Order::OpenDoor => self.drive_door(OPENS),
            Order::SetSupply { supply, set_point } => self.board.set_supply(supply, set_point).expect(NAMED),
            Order::FireRelease { line, period } => self.start_drive(line, u16::from(period)),
        }
    }
}

/// Whether a command has the mark N.
fn not_in_safe(command: Command) -> bool {
    match command {
        Command::SetHeater { .. } => true,
        Command::Critical(Order::SetParameter { .. }) => false,
        Command::Critical(Order::OpenDoor | Order::SetSupply { .. } | Order::FireRelease { .. }) => true,
        _ => false,
    }
}

/// Outputs and drives.
impl<B: Board> Head<B> {
    fn supplies_off(&mut self) {
        self.board.set_supply(0, 0).expect(NAMED);
        self.board.set_supply(1, 0).expect(NAMED);
    }

    fn drive_door(&mut self, line: u8) {
        self.start_drive(line, 4 * u16::from(self.parameters[parameter::DOOR_PERIOD]));
    }

    fn start_drive(&mut self, line: u8, ticks: u16) {
        self.board.set_line(line, LineState::On).expect(NAMED);
        self.drive = Some(Drive { line, left: ticks });
    }

    fn end_drive(&mut self, line: u8) {
        self.board.set_line(line, LineState::Off).expect(NAMED);
        self.drive = None;
    }

    fn pass_waiting(&mut self, log: &mut Log<'_>) {
        let Some(waiting) = &mut self.waiting else { return };
        waiting.left -= 1;
        if waiting.left == 0 {
            let opcode = waiting.order.opcode();
            self.waiting = None;
            self.note(log, Report::new(2, 0x28, 6, opcode));
        }
    }

    fn pass_drive(&mut self) {
        let Some(drive) = &mut self.drive else { return };
        drive.left -= 1;
        if drive.left == 0 {
            let line = drive.line;
            self.end_drive(line);
        }
    }

    fn enter_safe(&mut self) {
        self.mode = Mode::Safe;
        self.supplies_off();
        self.board.set_heater(0, false).expect(NAMED);
        self.board.set_heater(1, false).expect(NAMED);
        self.waiting = None;
        match self.drive {
            Some(Drive { line: CLOSES, .. }) => return,
            Some(Drive { line, .. }) => self.end_drive(line),
            None => {}
        }
        if self.parameters[parameter::CLOSE_ON_SAFE] == 1 {
            self.drive_door(CLOSES);
        }
    }
}

/// Checks and trips.
impl<B: Board> Head<B> {
    /// Which of checks 0, 1 and 2 are out.
    fn out(&self, sample: Sample) -> [bool; 3] {
        let parameters = &self.parameters;
        let set_point = self.board.supply(0).expect(NAMED).max(self.board.supply(1).expect(NAMED));
        let nominal = set_point > parameters[parameter::NOMINAL_LEVEL];

        let expected = u16::from(set_point) * u16::from(parameters[parameter::FACTOR]) / 16;
        let plate = u16::from(sample.plates[0].max(sample.plates[1]));
        let strip = u16::from(sample.strips[0]) + u16::from(sample.strips[1]);
        let anode = sample.anodes[0].max(sample.anodes[1]);

        let plate_off = plate.abs_diff(expected) > u16::from(parameters[parameter::PLATE_TOLERANCE]);
        [
            set_point > parameters[parameter::LARGEST_SET_POINT] || nominal && plate_off,
            strip > u16::from(parameters[parameter::LARGEST_STRIP]),
            anode > parameters[parameter::LARGEST_ANODE] || nominal && anode < parameters[parameter::LEAST_ANODE],
        ]
    }

    /// Counts since the previous mark, over the wrap of the counter, at most 65,535; 0 at the first mark.
    fn rate(&self, raw: u32) -> u16 {
        let Some(previous) = self.previous_raw else { return 0 };
        let counts = raw.wrapping_sub(previous) & LARGEST_RAW;
        u16::try_from(counts).unwrap_or(u16::MAX)
    }

    fn too_warm(&self, temperatures: &[u8; 8]) -> bool {
        let limits = &self.parameters[parameter::TEMPERATURE..parameter::SENSOR_MASK];
        let looked_at = !self.parameters[parameter::SENSOR_MASK];
        let above = temperatures.iter().zip(limits).map(|(temperature, limit)| temperature > limit);
        above.enumerate().any(|(sensor, above)| above && looked_at >> sensor & 1 == 1)
    }

    fn trip(&mut self, trips: [bool; 5], log: &mut Log<'_>) {
        let mask = self.parameters[parameter::CHECK_MASK];
        let lowest = (0..).zip(trips).find(|&(check, trips)| trips && mask >> check & 1 == 0);
        let Some((check, _)) = lowest else { return };
        self.timer = self.parameters[parameter::SAFETY_SECONDS];
        if !self.overridden() && self.mode != Mode::Safe {
            self.enter_safe();
            self.note(log, Report::new(4, 0x60 + check, u16::from(check), 0));
        }
    }

    fn overridden(&self) -> bool {
        self.parameters[parameter::OVERRIDE] != 0
    }

    fn note(&self, log: &mut Log<'_>, report: Report) {
        log.push(Entry { time: self.time, report });
    }
}
