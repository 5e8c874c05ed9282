//! Makes random scripts: a head of its own runs beside, so that most events aim at a limit of its present state.

use bench::board::Board;
use bench::head::{parameter, Mode, LARGEST_RAW};
use bench::report::Entry;
use bench::ring::Ring;
use bench::script::{self, ScriptHead};

use crate::random::Random;

#[path = "moves.rs"]
mod moves;

/// The lines of a good script, the first one their count.
pub fn script(random: &mut Random) -> Vec<Vec<u8>> {
    let length = match random.below(1_000) {
        0..=149 => random.within(0, 6),
        150..=649 => random.within(7, 45),
        650..=929 => random.within(46, 130),
        930..=998 => random.within(131, 400),
        _ => random.within(401, 3_000),
    };
    let mut maker = Maker::new(random, length as usize);
    maker.fill();
    let mut lines = maker.lines;
    lines.insert(0, lines.len().to_string().into_bytes());
    lines
}

/// A script of as many lines as there may be.
pub fn longest(random: &mut Random) -> Vec<Vec<u8>> {
    let mut lines = script(random);
    while lines.len() < 65_536 {
        let again = lines.len() / 2 + 1;
        lines.push(lines[again].clone());
    }
    lines.truncate(65_536);
    lines[0] = b"65535".to_vec();
    lines
}

struct Maker<'r> {
    random: &'r mut Random,
    head: ScriptHead,
    lines: Vec<Vec<u8>>,
    length: usize,
    sequence: u16,
}

impl<'r> Maker<'r> {
    fn new(random: &'r mut Random, length: usize) -> Self {
        let head = script::power_on(&mut Ring::new(&mut []), &mut Ring::new(&mut []));
        let sequence = random.pick(&[0, 0, 16_380, 8_000]);
        Maker { random, head, lines: Vec::new(), length, sequence }
    }

    fn fill(&mut self) {
        if self.length > 0 && self.random.chance(70) {
            self.prepare();
        }
        while self.lines.len() < self.length {
            self.any_move();
        }
        // A move may have gone past the end; half of the scripts are cut in the midst of one.
        if self.random.chance(50) {
            self.lines.truncate(self.length);
        }
    }
}

/// Single events.
impl Maker<'_> {
    fn event(&mut self, line: Vec<u8>) {
        if let Some(event) = script::parse_event(&line) {
            let mut entries = [Entry::BLANK; 1];
            let _ = script::bring(&mut self.head, &event, &mut Ring::new(&mut entries), &mut Ring::new(&mut []));
        }
        self.lines.push(line);
    }

    fn frame(&mut self, octets: &[u8]) {
        let mut line = b"F ".to_vec();
        for octet in octets {
            line.extend_from_slice(format!("{octet:02X}").as_bytes());
        }
        self.event(line);
    }

    fn empty_frame(&mut self) {
        self.event(b"F -".to_vec());
    }

    fn packet(&mut self, opcode: u16, words: &[u8]) -> Vec<u8> {
        self.sequence = if self.random.chance(3) { 0x3FFF } else { (self.sequence + 1) & 0x3FFF };
        let mut octets = vec![0x11, 0x01];
        octets.extend_from_slice(&(0xC000 | self.sequence).to_be_bytes());
        octets.extend_from_slice(&(words.len() as u16 + 1).to_be_bytes());
        octets.extend_from_slice(&opcode.to_be_bytes());
        octets.extend_from_slice(words);
        octets
    }

    fn command(&mut self, opcode: u16, words: &[u8]) {
        let octets = self.packet(opcode, words);
        self.frame(&octets);
    }

    fn confirm(&mut self, opcode: u16) {
        let words = [opcode.to_be_bytes(), (!opcode).to_be_bytes()].concat();
        self.command(0x6604, &words);
    }

    /// A critical command with its right confirm.
    fn order(&mut self, opcode: u16, words: &[u8]) {
        self.command(opcode, words);
        self.confirm(opcode);
    }

    fn set(&mut self, index: usize, value: u8) {
        self.order(0x6607, &[index as u8, value]);
    }

    fn set_if_other(&mut self, index: usize, value: u8) {
        if self.p(index) != value {
            self.set(index, value);
        }
    }

    fn ticks(&mut self, ticks: u32) {
        if ticks > 0 {
            self.event(format!("T {ticks}").into_bytes());
        }
    }

    fn sample(&mut self, bytes: [u8; 6]) {
        let [a, b, c, d, e, f] = bytes;
        self.event(format!("H {a} {b} {c} {d} {e} {f}").into_bytes());
    }

    fn second(&mut self, raw: u32, temperatures: [u8; 8]) {
        let mut line = format!("S {raw}");
        for temperature in temperatures {
            line.push_str(&format!(" {temperature}"));
        }
        self.event(line.into_bytes());
    }
}

/// The present state.
impl Maker<'_> {
    fn p(&self, index: usize) -> u8 {
        self.head.parameters()[index]
    }

    fn in_checkout(&self) -> bool {
        self.head.mode() == Mode::Checkout
    }

    fn set_point(&self) -> u8 {
        let supply = |which| self.head.board().supply(which).unwrap_or(0);
        supply(0).max(supply(1))
    }

    fn above_nominal(&self) -> bool {
        self.set_point() > self.p(parameter::NOMINAL_LEVEL)
    }

    fn expected(&self) -> i32 {
        i32::from(self.set_point()) * i32::from(self.p(parameter::FACTOR)) / 16
    }

    fn near(&mut self, value: u8) -> u8 {
        match self.random.below(4) {
            0 => value.saturating_sub(1),
            1 => value.saturating_add(1),
            _ => value,
        }
    }
}

/// Getting somewhere.
impl Maker<'_> {
    /// Short times and limits, so that a script gets somewhere.
    fn prepare(&mut self) {
        let seconds = self.random.pick(&[0, 1, 1, 2, 2, 3, 60, 255]);
        let period = self.random.pick(&[1, 1, 2, 3, 5, 90, 254, 255]);
        let closes = self.random.pick(&[0, 1]);
        if self.random.chance(80) {
            self.set_if_other(parameter::SAFETY_SECONDS, seconds);
        }
        if self.random.chance(70) {
            self.set_if_other(parameter::DOOR_PERIOD, period);
        }
        if self.random.chance(60) {
            self.set_if_other(parameter::CLOSE_ON_SAFE, closes);
        }
        for check in 0..3 {
            if self.random.chance(40) {
                let limit = self.random.within(1, 4) as u8;
                self.set(parameter::FAILURES + check, limit);
            }
        }
        if self.random.chance(90) {
            self.command(0x6603, &[]);
        }
    }

    fn reach_checkout(&mut self) {
        if self.in_checkout() {
            return;
        }
        let timer = self.head.timer();
        if timer > 0 && self.p(parameter::OVERRIDE) == 0 {
            if timer > 6 || self.random.chance(15) {
                self.set(parameter::OVERRIDE, 1);
                self.command(0x6603, &[]);
                if self.random.chance(80) {
                    self.set(parameter::OVERRIDE, 0);
                }
                return;
            }
            self.run_timer_down();
        }
        self.command(0x6603, &[]);
    }

    /// Good second marks until the timer is at zero, asking for CHECKOUT on the way.
    fn run_timer_down(&mut self) {
        // A timer of 255 is the longest.
        for _ in 0..255 {
            let timer = self.head.timer();
            if timer == 0 {
                break;
            }
            if timer < 3 && self.random.chance(50) || self.random.chance(5) {
                self.command(0x6603, &[]);
            }
            if self.random.chance(10) {
                let raw = self.random.pick(&[LARGEST_RAW + 1, u32::MAX]);
                self.second(raw, [0; 8]);
            }
            self.good_second();
        }
    }

    fn good_temperatures(&mut self) -> [u8; 8] {
        let exact = self.random.chance(30);
        let mut temperatures = [0; 8];
        for (sensor, temperature) in temperatures.iter_mut().enumerate() {
            let limit = self.head.parameters()[parameter::TEMPERATURE + sensor];
            *temperature = if exact { limit } else { self.random.within(0, u32::from(limit)) as u8 };
        }
        temperatures
    }

    fn raw_after(&self, rate: u32) -> u32 {
        (self.head.previous_raw().unwrap_or(0) + rate) & LARGEST_RAW
    }

    fn good_second(&mut self) {
        let most = 256 * u32::from(self.p(parameter::COUNT_RATE));
        let rate = if self.random.chance(20) { most } else { self.random.within(0, most) };
        let raw = self.raw_after(rate);
        let temperatures = self.good_temperatures();
        self.second(raw, temperatures);
    }

    fn pair(&mut self, larger: u8) -> [u8; 2] {
        let other = if self.random.chance(40) { larger } else { self.random.within(0, u32::from(larger)) as u8 };
        if self.random.chance(50) {
            [larger, other]
        } else {
            [other, larger]
        }
    }

    fn split(&mut self, sum: u32) -> [u8; 2] {
        let sum = sum.min(510);
        let first = self.random.within(sum.saturating_sub(255), sum.min(255));
        [first as u8, (sum - first) as u8]
    }

    /// A sample that is good, or bad in one check where it can be.
    fn sample_for(&mut self, bad: Option<usize>) -> [u8; 6] {
        let tolerance = i32::from(self.p(parameter::PLATE_TOLERANCE));
        let expected = self.expected();
        let sides = if self.random.chance(50) {
            [expected + tolerance + 1, expected - tolerance - 1]
        } else {
            [expected - tolerance - 1, expected + tolerance + 1]
        };
        let plate = match bad {
            Some(0) => sides.into_iter().find(|side| (0..256).contains(side)).unwrap_or(0),
            _ => expected.clamp(0, 255),
        } as u8;
        let most_strip = u32::from(self.p(parameter::LARGEST_STRIP));
        let strip = if bad == Some(1) { most_strip + 1 } else { self.random.within(0, most_strip) };
        let (least, most) = (self.p(parameter::LEAST_ANODE), self.p(parameter::LARGEST_ANODE));
        let anode = match bad {
            Some(2) if most < 255 && (least == 0 || self.random.chance(60)) => most + 1,
            Some(2) => least.saturating_sub(1),
            _ => self.random.within(u32::from(least.min(most)), u32::from(most)) as u8,
        };
        let ([a, b], [c, d], [e, f]) = (self.pair(plate), self.split(strip), self.pair(anode));
        [a, b, c, d, e, f]
    }

    fn good_sample(&mut self) {
        let sample = self.sample_for(None);
        self.sample(sample);
    }

    /// Makes check 0 or 2 able to fail.
    fn make_able(&mut self, check: usize) {
        if check == 0 && self.in_checkout() {
            if self.p(parameter::NOMINAL_LEVEL) > 100 {
                self.set(parameter::NOMINAL_LEVEL, 40);
            }
            if !self.above_nominal() {
                let largest = self.p(parameter::LARGEST_SET_POINT);
                if largest <= self.p(parameter::NOMINAL_LEVEL) {
                    self.set(parameter::NOMINAL_LEVEL, 0);
                }
                let supply = self.random.below(2) as u8;
                self.order(0x6610, &[supply, largest]);
            }
            if self.p(parameter::PLATE_TOLERANCE) > 120 {
                self.set(parameter::PLATE_TOLERANCE, 10);
            }
        }
        if check == 2 && self.p(parameter::LARGEST_ANODE) == 255 {
            self.set(parameter::LARGEST_ANODE, 180);
        }
        if check == 4 {
            let able = (0..8).any(|sensor| self.able(sensor));
            if !able {
                self.set(parameter::SENSOR_MASK, 0xFE);
                self.set(parameter::TEMPERATURE, 200);
            }
        }
    }

    /// Whether a temperature of this sensor can trip.
    fn able(&self, sensor: usize) -> bool {
        self.p(parameter::SENSOR_MASK) >> sensor & 1 == 0 && self.p(parameter::TEMPERATURE + sensor) < 255
    }

    /// Bad events for one check until it would trip, but for the last.
    fn lead_up(&mut self, check: usize) {
        if check >= 3 {
            if check == 3 && self.head.previous_raw().is_none() {
                self.good_second();
            }
            return;
        }
        let limit = self.p(parameter::FAILURES + check);
        if limit > 6 {
            let lower = self.random.within(1, 4) as u8;
            self.set(parameter::FAILURES + check, lower);
        }
        for _ in 0..6 {
            if self.head.counts()[check] + 1 >= self.p(parameter::FAILURES + check) {
                break;
            }
            let sample = self.sample_for(Some(check));
            self.sample(sample);
        }
    }

    /// The event at which the check trips.
    fn bad_event(&mut self, check: usize) {
        match check {
            0..=2 => {
                let sample = self.sample_for(Some(check));
                self.sample(sample);
            }
            3 => {
                let most = 256 * u32::from(self.p(parameter::COUNT_RATE));
                let rate = if self.random.chance(70) { most + 1 } else { self.random.within(most + 1, LARGEST_RAW) };
                let raw = self.raw_after(rate);
                let temperatures = self.good_temperatures();
                self.second(raw, temperatures);
            }
            _ => {
                let sensors: Vec<usize> = (0..8).filter(|&sensor| self.able(sensor)).collect();
                let mut temperatures = self.good_temperatures();
                if !sensors.is_empty() {
                    let sensor = self.random.pick(&sensors);
                    temperatures[sensor] = self.p(parameter::TEMPERATURE + sensor) + 1;
                }
                let raw = self.raw_after(0);
                self.second(raw, temperatures);
            }
        }
    }

    fn trip(&mut self, check: usize) {
        self.make_able(check);
        self.lead_up(check);
        self.bad_event(check);
    }

    fn wait_for_drive(&mut self) {
        if let Some(drive) = self.head.drive() {
            self.ticks(u32::from(drive.left));
        }
    }
}
