//! The moves that a script is made of; each is some events that aim at one thing.

use bench::head::{parameter, CLOSES, LARGEST_RAW, OPENS, RANGES};
use bench::packet::Order;

use super::Maker;

const OPCODES: [u16; 11] = [0x6601, 0x6602, 0x6603, 0x6604, 0x6607, 0x660D, 0x660E, 0x660F, 0x6610, 0x6611, 0x6612];
const CRITICAL: [u16; 4] = [0x6607, 0x660F, 0x6610, 0x6612];

impl Maker<'_> {
    pub(super) fn any_move(&mut self) {
        match self.random.below(100) {
            0..=9 => self.any_command(),
            10..=22 => self.order_and_confirm(),
            23..=31 => self.set_any(),
            32..=42 => self.drive_and_watch(),
            43..=51 => self.samples(),
            52..=57 => self.count_up(),
            58..=65 => self.seconds(),
            66..=77 => self.enter_safe(),
            78..=82 => self.damaged_frame(),
            83..=86 => self.timer(),
            87..=89 => self.mask(),
            90..=91 => self.overrides(),
            92..=93 => self.limits(),
            94..=96 => self.any_ticks(),
            97 => self.empty_frame(),
            98 => self.lowered_set_point(),
            _ => {
                if self.random.chance(50) {
                    self.on_and_off();
                } else if self.random.chance(12) {
                    self.fill_count();
                } else {
                    self.reach_checkout();
                }
            }
        }
    }

    fn words_for(&mut self, opcode: u16) -> Vec<u8> {
        match opcode {
            0x6604 => {
                let named = match self.head.waiting() {
                    Some(waiting) if self.random.chance(70) => waiting.order.opcode(),
                    _ => self.random.pick(&CRITICAL),
                };
                [named.to_be_bytes(), (!named).to_be_bytes()].concat()
            }
            0x6607 => {
                let (index, value) = self.any_setting();
                vec![index, value]
            }
            0x6610 => {
                let supply = self.random.pick(&[0, 0, 0, 1, 1, 1, 2, 255]);
                let largest = self.p(parameter::LARGEST_SET_POINT);
                let nominal = self.p(parameter::NOMINAL_LEVEL);
                let random = self.random.byte();
                let beside = self.random.pick(&[nominal, nominal.saturating_add(1)]);
                let point =
                    self.random.pick(&[0, 1, largest, largest, largest.wrapping_add(1), beside, beside, random, 255]);
                vec![supply, point]
            }
            0x6611 => vec![self.random.pick(&[0, 0, 1, 1, 2, 255]), self.random.pick(&[0, 1, 1, 1, 2, 255])],
            0x6612 => {
                let line = self.random.pick(&[0, 0, 1, 1, 2, 2, 3, 3, 4, 5, 6, 255]);
                let random = self.random.byte();
                vec![line, self.random.pick(&[0, 1, 1, 2, 3, 254, 255, 255, random])]
            }
            _ => Vec::new(),
        }
    }

    /// A parameter with a value at, just outside or within its range.
    fn any_setting(&mut self) -> (u8, u8) {
        if self.random.chance(6) {
            return (self.random.pick(&[25, 25, 26, 26, 255, 100]), self.random.byte());
        }
        let index = self.random.below(25) as u8;
        let range = &RANGES[usize::from(index)];
        let random = self.random.byte();
        let middle = self.random.within(u32::from(range.lowest), u32::from(range.highest)) as u8;
        let values = [
            range.lowest,
            range.highest,
            range.default,
            range.default,
            range.lowest.wrapping_sub(1),
            range.highest.wrapping_add(1),
            middle,
            random,
        ];
        (index, self.random.pick(&values))
    }

    fn any_command(&mut self) {
        let opcode = match self.random.below(20) {
            0 => 0x6600 + self.random.below(32) as u16,
            1 => u16::from_be_bytes([self.random.byte(), self.random.byte()]),
            2 => self.random.pick(&[0x0166, 0x6501, 0x6703, 0x0000, 0xFFFF, 0x0000, 0x99FE]),
            _ => self.random.pick(&OPCODES),
        };
        let mut words = self.words_for(opcode);
        if self.random.chance(15) {
            // The wrong number of octets, or any at all for an op-code that has none.
            let length = self.random.pick(&[0, 1, 2, 3, 4, 5, 6, 7, 56]);
            words.resize(length, 0x66);
        }
        self.command(opcode, &words);
    }

    fn set_any(&mut self) {
        let (index, value) = self.any_setting();
        self.command(0x6607, &[index, value]);
        if self.random.chance(90) {
            self.confirm(0x6607);
        }
        // A setting that would hold up all that follows is mostly taken back.
        let index = usize::from(index);
        let hinders =
            index == parameter::OVERRIDE || index == parameter::CHECK_MASK || index == parameter::LARGEST_SET_POINT;
        if hinders && self.random.chance(50) {
            self.set(index, RANGES[index].default);
        }
    }

    fn order_and_confirm(&mut self) {
        let opcode = self.random.pick(&CRITICAL);
        if opcode != 0x6607 && self.random.chance(85) {
            self.reach_checkout();
        }
        if (opcode == 0x660F || opcode == 0x6612) && self.random.chance(80) {
            self.wait_for_drive();
        }
        let words = self.words_for(opcode);
        self.command(opcode, &words);
        self.between();
        self.confirm_somehow(opcode);
        if self.random.chance(15) {
            self.confirm(opcode);
        }
    }

    /// What may come between a critical command and its confirm.
    fn between(&mut self) {
        match self.random.below(20) {
            0..=4 => {}
            5 => self.ticks(1_998),
            6 | 7 => self.ticks(1_999),
            8 | 9 => self.ticks(2_000),
            10 => self.ticks(2_001),
            11 => {
                let first = self.random.within(1, 1_998);
                self.ticks(first);
                self.empty_frame();
                let last = self.random.pick(&[1_999, 2_000]) - first;
                self.ticks(last);
            }
            12 => self.empty_frame(),
            13 => self.good_sample(),
            14 => self.good_second(),
            15 | 16 => {
                let check = self.random.pick(&[1, 2, 3, 4]);
                self.bad_event(check);
                if self.random.chance(60) {
                    for _ in 0..4 {
                        self.bad_event(check);
                    }
                }
            }
            17 => self.damaged_frame(),
            18 => self.any_command(),
            _ => {
                let ticks = self.random.within(1, 2_100);
                self.ticks(ticks);
            }
        }
    }

    fn confirm_somehow(&mut self, opcode: u16) {
        let complement = !opcode;
        let bit = 1u16 << self.random.below(16);
        let other = self.random.pick(&CRITICAL);
        let (a, b) = match self.random.below(24) {
            0 => (opcode, complement ^ bit),
            1 => (opcode ^ bit, complement),
            2 => (opcode ^ bit, !(opcode ^ bit)),
            3 => (other, !other),
            4 => (complement, opcode),
            5 => (opcode, opcode),
            6 => (0, 0),
            7 | 8 => {
                let length = self.random.pick(&[0, 0, 0, 1, 2, 2, 3, 5, 6, 6, 8]);
                let words = [opcode, complement, opcode, complement].map(u16::to_be_bytes).concat();
                return self.command(0x6604, &words[..length]);
            }
            9 => return,
            _ => (opcode, complement),
        };
        self.command(0x6604, &[a.to_be_bytes(), b.to_be_bytes()].concat());
    }

    fn drive_and_watch(&mut self) {
        let line = self.random.below(6) as u8;
        self.start(line);
        if self.head.drive().is_none() {
            return;
        }
        if self.random.chance(25) {
            let period = self.random.pick(&[1, 2, 3, 90, 255]);
            self.set(parameter::DOOR_PERIOD, period);
        }
        if self.random.chance(15) {
            let opcode = self.random.pick(&[0x660D, 0x660D, 0x660F, 0x6612]);
            let words = self.words_for(opcode);
            self.command(opcode, &words);
        }
        let Some(drive) = self.head.drive() else { return };
        match self.random.below(10) {
            0..=5 => {
                self.ticks(u32::from(drive.left) - 1);
                self.ticks(1);
            }
            6 => self.ticks(u32::from(drive.left)),
            7 => {
                let some = self.random.within(0, u32::from(drive.left) - 1);
                self.ticks(some);
            }
            8 => {
                let past = self.random.within(1, 5);
                self.ticks(u32::from(drive.left) + past);
            }
            _ => {}
        }
    }

    /// Starts a drive on this line, from CHECKOUT.
    fn start(&mut self, line: u8) {
        if self.random.chance(85) {
            self.wait_for_drive();
        }
        match line {
            CLOSES => {
                if self.random.chance(50) {
                    self.reach_checkout();
                }
                self.command(0x660D, &[]);
            }
            OPENS => {
                self.reach_checkout();
                self.order(0x660F, &[]);
            }
            _ => {
                self.reach_checkout();
                let random = self.random.within(2, 254) as u8;
                let period = self.random.pick(&[1, 1, 2, 3, 255, 255, random]);
                self.order(0x6612, &[line, period]);
            }
        }
    }

    fn samples(&mut self) {
        if self.random.chance(70) {
            self.reach_checkout();
            if self.random.chance(25) {
                let factor = self.random.byte();
                let factor = self.random.pick(&[0, 1, 15, 16, 16, 17, 23, 32, 255, factor]);
                self.set(parameter::FACTOR, factor);
            }
            if self.in_checkout() && self.random.chance(70) {
                let supply = self.random.below(2) as u8;
                let (nominal, largest) = (self.p(parameter::NOMINAL_LEVEL), self.p(parameter::LARGEST_SET_POINT));
                let random = self.random.within(1, u32::from(largest)) as u8;
                let point =
                    self.random.pick(&[nominal, nominal.saturating_add(1), largest, random, random]).clamp(1, largest);
                self.order(0x6610, &[supply, point]);
            }
        }
        for _ in 0..self.random.within(1, 4) {
            let sample = self.aimed_sample();
            self.sample(sample);
        }
    }

    /// A sample with each of its parts at or beside a limit, good or random.
    fn aimed_sample(&mut self) -> [u8; 6] {
        if self.random.chance(5) {
            return [(); 6].map(|_| self.random.byte());
        }
        let [_, _, _, _, good0, good1] = self.sample_for(None);
        let tolerance = i32::from(self.p(parameter::PLATE_TOLERANCE));
        let expected = self.expected();
        let random = i32::from(self.random.byte());
        let plate = self
            .random
            .pick(&[
                expected,
                expected + tolerance,
                expected + tolerance + 1,
                expected - tolerance,
                expected - tolerance - 1,
                0,
                random,
            ])
            .clamp(0, 255) as u8;
        let most_strip = u32::from(self.p(parameter::LARGEST_STRIP));
        let random = self.random.below(511);
        let strip = self.random.pick(&[0, 0, most_strip, most_strip, most_strip + 1, 510, random]);
        let (least, most) = (self.p(parameter::LEAST_ANODE), self.p(parameter::LARGEST_ANODE));
        let good = good0.max(good1);
        let (below, above) = (least.saturating_sub(1), most.saturating_add(1));
        let random = self.random.byte();
        let anode = self.random.pick(&[good, good, least, below, most, above, random]);
        let ([a, b], [c, d], [e, f]) = (self.pair(plate), self.split(strip), self.pair(anode));
        [a, b, c, d, e, f]
    }

    /// Bad samples up to a limit, with a good one or a return from SAFE in between.
    fn count_up(&mut self) {
        let check = self.random.below(3) as usize;
        if self.random.chance(80) {
            self.reach_checkout();
        }
        self.make_able(check);
        self.lead_up(check);
        if self.random.chance(20) {
            self.good_sample();
            self.lead_up(check);
        }
        if self.random.chance(25) {
            // Two checks at once.
            let others = self.sample_for(Some((check + 1) % 3));
            let mut sample = self.sample_for(Some(check));
            match (check + 1) % 3 {
                1 => sample[2..4].copy_from_slice(&others[2..4]),
                2 => sample[4..6].copy_from_slice(&others[4..6]),
                _ => sample[0..2].copy_from_slice(&others[0..2]),
            }
            for _ in 0..4 {
                self.sample(sample);
            }
        }
        self.bad_event(check);
        if self.random.chance(50) {
            self.reach_checkout();
            self.make_able(check);
            self.bad_event(check);
        }
    }

    fn seconds(&mut self) {
        if self.random.chance(50) {
            self.reach_checkout();
        }
        if self.random.chance(15) {
            let rate = self.random.pick(&[0, 0, 1, 100, 255, 255]);
            self.set(parameter::COUNT_RATE, rate);
        }
        if self.random.chance(20) {
            let mask = self.random.byte();
            let mask = self.random.pick(&[mask, mask, 0, 0xFF, 1 << (mask % 8), !(1 << (mask % 8))]);
            self.set(parameter::SENSOR_MASK, mask);
        }
        if self.random.chance(10) {
            let sensor = self.random.below(8) as usize;
            let limit = self.random.pick(&[0, 20, 254, 255, 255]);
            self.set(parameter::TEMPERATURE + sensor, limit);
        }
        for _ in 0..self.random.within(1, 4) {
            let raw = self.aimed_raw();
            let temperatures = self.aimed_temperatures();
            self.second(raw, temperatures);
        }
    }

    fn aimed_raw(&mut self) -> u32 {
        let most = 256 * u32::from(self.p(parameter::COUNT_RATE));
        let random = self.random.below(LARGEST_RAW + 1);
        let rate = self.random.pick(&[0, 1, most, most, most + 1, most + 1, 65_535, 65_536, LARGEST_RAW, random]);
        let aimed = self.raw_after(rate);
        match self.random.below(24) {
            0 => LARGEST_RAW,
            1 => LARGEST_RAW + 1,
            2 => u32::MAX,
            3 => self.random.within(LARGEST_RAW + 1, u32::MAX - 1),
            4 => LARGEST_RAW - self.random.below(300),
            _ => aimed,
        }
    }

    fn aimed_temperatures(&mut self) -> [u8; 8] {
        let mut temperatures = self.good_temperatures();
        for (sensor, temperature) in temperatures.iter_mut().enumerate() {
            if self.random.chance(15) {
                let limit = self.p(parameter::TEMPERATURE + sensor);
                *temperature = self.near(limit);
            }
        }
        if self.random.chance(5) {
            temperatures[self.random.below(8) as usize] = 255;
        }
        temperatures
    }

    /// An entry into SAFE while a drive of some kind runs, or none, and what comes after.
    fn enter_safe(&mut self) {
        let line = self.random.below(7) as u8;
        let cause = self.random.below(6) as usize;
        self.reach_checkout();
        self.set_if_other(parameter::OVERRIDE, 0);
        if cause < 5 && self.p(parameter::CHECK_MASK) >> cause & 1 == 1 {
            self.set(parameter::CHECK_MASK, 0);
        }
        if self.random.chance(40) {
            let closes = 1 - self.p(parameter::CLOSE_ON_SAFE).min(1);
            self.set(parameter::CLOSE_ON_SAFE, closes);
        }
        if self.random.chance(40) {
            let heater = self.random.below(2) as u8;
            self.command(0x6611, &[heater, 1]);
        }
        if self.random.chance(30) {
            let (supply, point) = (self.random.below(2) as u8, self.p(parameter::LARGEST_SET_POINT));
            self.order(0x6610, &[supply, point]);
        }
        if cause < 5 {
            self.make_able(cause);
            self.lead_up(cause);
        }
        if line < 6 {
            self.start(line);
            if self.random.chance(30) {
                let left = self.head.drive().map_or(1, |drive| u32::from(drive.left));
                let some = self.random.below(left);
                self.ticks(some);
            }
            if self.random.chance(25) {
                let period = self.random.pick(&[1, 2, 3, 90, 255]);
                self.set(parameter::DOOR_PERIOD, period);
            }
        } else {
            self.wait_for_drive();
        }
        if self.random.chance(25) {
            let opcode = self.random.pick(&[0x6607, 0x6607, 0x6610]);
            let words = self.words_for(opcode);
            self.command(opcode, &words);
        }
        let waited = self.head.waiting().map(|waiting| waiting.order);
        match cause {
            5 => self.command(0x6602, &[]),
            _ => self.bad_event(cause),
        }
        self.after_entry(waited);
    }

    fn after_entry(&mut self, waited: Option<Order>) {
        if let Some(order) = waited {
            if self.random.chance(70) {
                self.confirm(order.opcode());
            }
        }
        if self.random.chance(15) {
            self.command(0x6602, &[]);
        }
        if self.random.chance(15) {
            self.any_command();
        }
        if let Some(drive) = self.head.drive() {
            if self.random.chance(60) {
                self.ticks(u32::from(drive.left) - 1);
                self.ticks(1);
            }
        }
    }

    fn damaged_frame(&mut self) {
        let opcode = self.random.pick(&OPCODES);
        let words = self.words_for(opcode);
        let mut octets = self.packet(opcode, &words);
        match self.random.below(14) {
            0 => octets[0] ^= 1 << self.random.below(8),
            1 => octets[1] ^= 1 << self.random.below(8),
            2 => octets[2] &= self.random.pick(&[0x3F, 0x7F, 0xBF]),
            3 => {
                // Two or three of the header's octets, or all of a frame.
                let (first, count) = self.random.pick(&[(0, 2), (1, 2), (0, 3), (0, 1)]);
                octets[first..first + count].fill(0);
                if count == 1 {
                    octets = vec![0, 0, 0, 0, 0, 1, 0, 0];
                }
            }
            4 => octets[4] = self.random.within(1, 255) as u8,
            5 => octets[5] = octets[5].wrapping_add(self.random.pick(&[1, 255])),
            6 => octets[5] = self.random.byte(),
            7 => octets.truncate(self.random.within(1, 7) as usize),
            8 => {
                octets.pop();
            }
            9 => octets.push(self.random.byte()),
            10 => {
                octets.truncate(7);
                octets[5] = 0;
            }
            11 => {
                octets[0] = 0;
                octets.push(0);
            }
            12 => {
                let length = self.random.within(1, 64);
                octets = (0..length).map(|_| self.random.byte()).collect();
            }
            _ => {
                octets.resize(64, 0x66);
                octets[5] = self.random.pick(&[57, 57, 56, 58]);
            }
        }
        self.frame(&octets);
    }

    fn timer(&mut self) {
        if self.random.chance(60) {
            let seconds = self.random.pick(&[0, 1, 2, 3]);
            self.set_if_other(parameter::SAFETY_SECONDS, seconds);
        }
        let check = self.random.below(5) as usize;
        self.trip(check);
        self.command(0x6603, &[]);
        if self.head.timer() < 8 || self.random.chance(20) {
            self.run_timer_down();
            self.command(0x6603, &[]);
        }
    }

    fn mask(&mut self) {
        let check = self.random.below(5) as usize;
        if self.random.chance(80) {
            self.reach_checkout();
        }
        self.make_able(check);
        let others = if self.random.chance(20) { self.random.byte() & 0x1F } else { 0 };
        self.set(parameter::CHECK_MASK, others | 1 << check);
        self.lead_up(check);
        for _ in 0..self.random.within(1, 3) {
            self.bad_event(check);
        }
        if self.random.chance(30) {
            // A higher check trips while this one is masked.
            let mut sample = self.sample_for(Some(check.min(2)));
            let strips = self.split(510);
            sample[2..4].copy_from_slice(&strips);
            for _ in 0..5 {
                self.sample(sample);
            }
        }
        if self.random.chance(80) {
            self.set(parameter::CHECK_MASK, 0);
            self.bad_event(check);
        }
    }

    fn overrides(&mut self) {
        let check = self.random.below(5) as usize;
        if self.random.chance(80) {
            self.reach_checkout();
        }
        self.make_able(check);
        self.lead_up(check);
        self.set(parameter::OVERRIDE, 1);
        if self.random.chance(40) {
            self.command(0x6607, &[24, 1]);
            self.bad_event(check);
            self.confirm(0x6607);
        } else {
            self.bad_event(check);
        }
        if self.random.chance(50) {
            self.command(0x6603, &[]);
        }
        if self.random.chance(80) {
            self.set(parameter::OVERRIDE, 0);
            self.command(0x6603, &[]);
            if self.random.chance(60) {
                self.bad_event(check);
            }
        }
    }

    /// A limit that changes while its count runs.
    fn limits(&mut self) {
        let check = self.random.below(3) as usize;
        self.reach_checkout();
        self.make_able(check);
        let limit = self.random.within(3, 6) as u8;
        self.set(parameter::FAILURES + check, limit);
        for _ in 0..self.random.within(1, 4) {
            let sample = self.sample_for(Some(check));
            self.sample(sample);
        }
        let count = self.head.counts()[check];
        let limit = self.random.pick(&[1, count.max(1), count.saturating_add(1), count.saturating_add(2), 255]);
        self.set(parameter::FAILURES + check, limit);
        for _ in 0..self.random.within(1, 4) {
            self.bad_event(check);
        }
    }

    fn any_ticks(&mut self) {
        let random = self.random.within(1, 3_000);
        let mut ticks = self.random.pick(&[1, 1, 2, 3, 19, 20, 199, 200, 201, random, random]);
        if self.random.chance(4) {
            ticks = self.random.pick(&[65_535, 65_534, 32_768]);
        }
        self.ticks(ticks);
    }

    /// A heater or a supply goes on, and off by command.
    fn on_and_off(&mut self) {
        self.reach_checkout();
        let which = self.random.below(2) as u8;
        self.command(0x6611, &[which, 1]);
        let largest = self.p(parameter::LARGEST_SET_POINT);
        self.order(0x6610, &[which, largest]);
        let which = self.random.below(2) as u8;
        self.command(0x6611, &[which, 0]);
        self.command(0x660E, &[]);
    }

    /// A set point that stands above parameter 1, because that was lowered.
    fn lowered_set_point(&mut self) {
        self.reach_checkout();
        if self.random.chance(30) {
            self.set(parameter::LARGEST_SET_POINT, 255);
        }
        let (supply, largest) = (self.random.below(2) as u8, self.p(parameter::LARGEST_SET_POINT));
        self.order(0x6610, &[supply, largest]);
        if largest > 1 {
            let lower = self.random.pick(&[largest - 1, largest / 2, 1]).max(1);
            self.set(parameter::LARGEST_SET_POINT, lower);
        }
        for _ in 0..self.random.within(1, 6) {
            self.good_sample();
        }
        if self.random.chance(60) {
            self.set(parameter::LARGEST_SET_POINT, 200);
        }
    }

    /// A count that comes to 255 and stays there.
    fn fill_count(&mut self) {
        let check = self.random.pick(&[0, 1, 2]);
        self.reach_checkout();
        self.make_able(check);
        let masked = self.random.chance(50);
        if masked {
            self.set(parameter::CHECK_MASK, 1 << check);
        }
        self.set(parameter::FAILURES + check, 255);
        for _ in 0..258 {
            let sample = self.sample_for(Some(check));
            self.sample(sample);
        }
        if masked {
            self.set(parameter::CHECK_MASK, 0);
            self.bad_event(check);
        }
    }
}
