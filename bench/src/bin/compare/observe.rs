//! Looks at the Rust head before and after each event of a text, and counts what was reached.

use bench::board::Board;
use bench::head::{parameter, Drive, Mark, Mode, Sample, Waiting, CLOSES, LARGEST_RAW, OPENS, RANGES};
use bench::packet::{self, Order};
use bench::report::{Entry, Report};
use bench::ring::Ring;
use bench::script::{self, Event, Lines, ScriptHead};

use crate::tally::{command_row, Edge, Tally, CRITICAL};

/// Runs the text and counts; returns the number of the bad line, if there is one.
pub fn observe(text: &[u8], tally: &mut Tally) -> Option<u32> {
    let mut lines = Lines::new(text);
    let Some(count) = lines.next().and_then(script::parse_count) else { return Some(1) };
    let mut slots = [0; script::RATES];
    let mut rates = Ring::new(&mut slots);
    let mut head = script::power_on(&mut Ring::new(&mut []), &mut rates);
    let mut track = Track::default();
    for number in 2..u32::from(count) + 2 {
        let Some(event) = lines.next().and_then(script::parse_event) else { return Some(number) };
        let before = View::of(&head);
        let mut entries = [Entry::BLANK; script::LOG_ENTRIES];
        let mut log = Ring::new(&mut entries);
        let answer = script::bring(&mut head, &event, &mut log, &mut rates);
        let after = View::of(&head);
        for age in 0..log.len() {
            if let Some(entry) = log.get(age) {
                tally.notes[usize::from(entry.report.code)] += 1;
            }
        }
        Step { before, after, track: &mut track, tally }.event(&event, answer);
    }
    None
}

/// How a head stands.
#[derive(Clone, Copy)]
struct View {
    mode: Mode,
    parameters: [u8; 25],
    supplies: [u8; 2],
    heaters: [bool; 2],
    waiting: Option<Waiting>,
    drive: Option<Drive>,
    timer: u8,
    counts: [u8; 3],
    previous_raw: Option<u32>,
}

impl View {
    fn of(head: &ScriptHead) -> Self {
        let board = head.board();
        View {
            mode: head.mode(),
            parameters: *head.parameters(),
            supplies: [0, 1].map(|which| board.supply(which).unwrap_or(0)),
            heaters: [0, 1].map(|which| board.heater(which).unwrap_or(false)),
            waiting: head.waiting(),
            drive: head.drive(),
            timer: head.timer(),
            counts: head.counts(),
            previous_raw: head.previous_raw(),
        }
    }

    fn masked(&self, check: usize) -> bool {
        self.parameters[parameter::CHECK_MASK] >> check & 1 == 1
    }
}

/// What has become of the latest critical command that was accepted.
#[derive(Clone, Copy, PartialEq, Eq)]
enum Fate {
    Waits,
    Dropped,
    Lost,
    Crossed,
    Used,
}

#[derive(Clone, Copy)]
struct Story {
    order: Order,
    ticks: u32,
    empty_frame: bool,
    sample: bool,
    trip_in_safe: bool,
    trip_override: bool,
    fate: Fate,
}

/// What the counting has to remember from event to event.
#[derive(Default)]
struct Track {
    story: Option<Story>,
    /// The ticks that the running drive was started with, and whether parameter 23 has changed since.
    drive_ticks: u16,
    door_changed: bool,
    /// For each count that runs: was there an entry into SAFE, was its limit lowered, was it past its limit masked?
    carried: [bool; 3],
    lowered: [bool; 3],
    past_masked: [bool; 3],
    /// What the latest trip has set the timer to; and whether an entry has left it at zero.
    timer_set: u8,
    entry_without_timer: bool,
}

/// One event, with the head before and after it.
struct Step<'a> {
    before: View,
    after: View,
    track: &'a mut Track,
    tally: &'a mut Tally,
}

const COMMAND: usize = 5;

fn has_mark_n(opcode: u16) -> bool {
    matches!(opcode, 0x660F..=0x6612)
}

fn is_critical(opcode: u16) -> bool {
    matches!(opcode, 0x6607 | 0x660F | 0x6610 | 0x6612)
}

/// Whether a value of a command with one word is outside its range.
fn bad_value(opcode: u16, words: &[u8], parameters: &[u8; 25]) -> bool {
    match (opcode, words) {
        (0x6607, &[index, value]) => !RANGES.get(usize::from(index)).is_some_and(|range| range.holds(value)),
        (0x6610, &[supply, point]) => supply > 1 || point == 0 || point > parameters[parameter::LARGEST_SET_POINT],
        (0x6611, &[heater, value]) => heater > 1 || value > 1,
        (0x6612, &[line, period]) => line > 3 || period == 0,
        _ => false,
    }
}

impl Step<'_> {
    fn event(&mut self, event: &Event, answer: Result<(), Report>) {
        match event {
            Event::Frame(octets) => {
                self.tally.events[0] += 1;
                self.frame(octets.as_slice(), answer);
            }
            Event::Ticks(ticks) => {
                self.tally.events[1] += 1;
                self.tally.ticks += u64::from(*ticks);
                self.ticks(*ticks);
            }
            Event::Sample(sample) => {
                self.tally.events[2] += 1;
                self.sample(*sample);
            }
            Event::Second(mark) => {
                self.tally.events[3] += 1;
                self.second(*mark, answer);
            }
        }
        self.drive_started();
    }

    fn drive_started(&mut self) {
        let Some(after) = self.after.drive else { return };
        let runs_on = self.before.drive.is_some_and(|before| before.line == after.line && after.left <= before.left);
        if !runs_on {
            self.tally.drives[usize::from(after.line)][0] += 1;
            self.track.drive_ticks = after.left;
            self.track.door_changed = false;
        }
    }

    fn frame(&mut self, octets: &[u8], answer: Result<(), Report>) {
        if octets.is_empty() {
            self.tally.bare[0x11] += 1;
            self.tally.edge(if self.before.waiting.is_some() { Edge::EmptyWaits } else { Edge::EmptyNothing });
            if let Some(story) = &mut self.track.story {
                story.empty_frame = true;
            }
            return;
        }
        let code = answer.err().map_or(0, |report| report.code);
        match packet::choose(octets, &[]).field {
            Err(_) => self.damaged(octets, answer),
            Ok(field) => {
                let opcode = u16::from_be_bytes([field[0], field[1]]);
                self.tally.edge_if(octets.len() == 64, Edge::Octets64);
                self.tally.edge_if(octets[2..4] == [0xFF, 0xFF] && code == 0, Edge::CountAllOnes);
                self.command(opcode, &field[2..], answer);
            }
        }
        self.loss(octets, code);
        if self.before.mode == Mode::Checkout && self.after.mode == Mode::Safe {
            self.entry(COMMAND);
        }
    }

    fn damaged(&mut self, octets: &[u8], answer: Result<(), Report>) {
        let Err(report) = answer else { return };
        self.tally.bare[usize::from(report.code)] += 1;
        let wrong = [
            octets[0] != 0x11,
            octets.get(1).is_some_and(|&octet| octet != 0x01),
            octets.get(2).is_some_and(|&octet| octet < 0xC0),
        ];
        if report.code == 0x10 {
            self.tally.edge([Edge::Header0, Edge::Header1, Edge::Header2][usize::from(report.place)]);
            self.tally.edge_if(wrong[0] && wrong[1], Edge::HeaderFirst01);
            self.tally.edge_if(!wrong[0] && wrong[1] && wrong[2], Edge::HeaderFirst12);
            self.tally.edge_if(octets == [0, 0, 0, 0, 0, 1, 0, 0], Edge::HeaderBlank);
            return;
        }
        self.tally.edge_if(wrong.contains(&true), Edge::LengthBeforeHeader);
        let &[_, _, _, _, high, low, ref field @ ..] = octets else {
            return self.tally.edge(Edge::LengthShort);
        };
        let said = usize::from(u16::from_be_bytes([high, low])) + 7;
        if field.len() < 2 {
            self.tally.edge(Edge::LengthShort);
            self.tally.edge_if(said == octets.len(), Edge::LengthShortAgrees);
            return;
        }
        self.tally.edge(if said > octets.len() { Edge::LengthCut } else { Edge::LengthOver });
        self.tally.edge_if(high == 0, Edge::LengthField);
        self.tally.edge_if(high != 0 && usize::from(low) + 7 == octets.len(), Edge::LengthHigh);
    }

    fn command(&mut self, opcode: u16, words: &[u8], answer: Result<(), Report>) {
        let Some(row) = command_row(opcode) else {
            self.tally.bare[0x21] += 1;
            return self.tally.edge(if opcode & !0x1F == 0x6600 { Edge::OpcodeNear } else { Edge::OpcodeFar });
        };
        let in_safe = self.before.mode == Mode::Safe;
        match answer {
            Ok(()) => self.tally.accepted[row] += 1,
            Err(report) => {
                self.tally.refused[row][usize::from(report.code)] += 1;
                match report.code {
                    0x22 => {
                        self.tally.edge_if(words.len() % 2 == 1, Edge::WordsOdd);
                        self.tally.edge_if(in_safe && has_mark_n(opcode), Edge::WordsBeforeSafe);
                    }
                    0x23 => {
                        let bad = bad_value(opcode, words, &self.before.parameters);
                        self.tally.edge_if(bad, Edge::SafeBeforeValue);
                    }
                    0x40 => self.tally.place[row][usize::from(report.place - 8)] += 1,
                    _ => {}
                }
            }
        }
        match opcode {
            0x6602 => self.safe(answer),
            0x6603 => self.checkout(answer),
            0x6604 => self.confirm(words, answer),
            0x660D => self.close(answer),
            0x660E if answer.is_ok() => {
                self.tally.edge_if(self.before.supplies != [0, 0], Edge::SuppliesOff);
                self.tally.edge_if(in_safe, Edge::SuppliesOffSafe);
            }
            _ => self.values(opcode, words, answer),
        }
        if let Some(Waiting { order, .. }) = self.after.waiting {
            self.track.story = Some(Story {
                order,
                ticks: 0,
                empty_frame: false,
                sample: false,
                trip_in_safe: false,
                trip_override: false,
                fate: Fate::Waits,
            });
        }
    }

    fn safe(&mut self, answer: Result<(), Report>) {
        if answer.is_ok() && self.before.mode == Mode::Safe {
            match self.before.drive {
                None => self.tally.edge(Edge::SafeInSafe),
                Some(_) => self.tally.edge(Edge::SafeInSafeClosing),
            }
        }
    }

    fn checkout(&mut self, answer: Result<(), Report>) {
        let timer = self.before.timer;
        match answer {
            Err(report) if report.code == 0x30 => {
                self.tally.edge(if timer == 1 { Edge::Timer1 } else { Edge::TimerAbove });
                self.tally.edge_if(self.before.mode == Mode::Checkout, Edge::TimerInCheckout);
            }
            Err(_) => {}
            Ok(()) => {
                self.tally.edge_if(timer > 0, Edge::TimerOverride);
                let ran_out = if timer == 0 { self.track.timer_set } else { 0 };
                self.tally.edge_if(ran_out > 0, Edge::TimerRanOut);
                self.tally.edge_if(ran_out == 60, Edge::TimerRanOut60);
                self.tally.edge_if(ran_out == 255, Edge::TimerRanOut255);
                self.tally.edge_if(self.track.entry_without_timer, Edge::TimerZeroSeconds);
                self.track.timer_set = 0;
                self.track.entry_without_timer = false;
            }
        }
    }

    fn close(&mut self, answer: Result<(), Report>) {
        if answer.is_err_and(|report| report.code == 0x41) {
            match self.before.drive.map(|drive| drive.line) {
                Some(CLOSES) => self.tally.edge(Edge::CloseWhileClose),
                Some(OPENS) => self.tally.edge(Edge::CloseWhileOpen),
                _ => self.tally.edge(Edge::CloseWhileRelease),
            }
        }
    }

    fn values(&mut self, opcode: u16, words: &[u8], answer: Result<(), Report>) {
        let &[first, second] = words else { return };
        let largest = self.before.parameters[parameter::LARGEST_SET_POINT];
        let refused = answer.is_err_and(|report| report.code == 0x40);
        let tally = &mut *self.tally;
        match opcode {
            0x6607 if refused => match RANGES.get(usize::from(first)) {
                Some(range) => tally.settings[usize::from(first)][if second < range.lowest { 0 } else { 3 }] += 1,
                None => {
                    tally.edge_if(first == 25, Edge::Index25);
                    tally.edge_if(first == 26, Edge::Index26);
                    tally.edge_if(first == 255, Edge::Index255);
                }
            },
            0x6610 if first < 2 => {
                tally.edge_if(refused && second == 0, Edge::PointZero);
                tally.edge_if(refused && Some(second) == largest.checked_add(1), Edge::PointAbove);
                tally.edge_if(answer.is_ok() && second == 1, Edge::PointOne);
                tally.edge_if(answer.is_ok() && second == largest, Edge::PointLargest);
                tally.edge_if(answer.is_ok() && second == 255, Edge::Point255);
            }
            0x6612 if refused => {
                tally.edge_if(first < 4 && second == 0, Edge::PeriodZero);
                tally.edge_if(first == 4, Edge::Line4);
                tally.edge_if(self.before.drive.is_some(), Edge::ValueBeforeDrive);
            }
            _ => {}
        }
        if opcode == 0x6611 && answer.is_ok() {
            self.tally.edge_if(self.before.heaters[usize::from(first)] && second == 0, Edge::HeaterOff);
            self.tally.outputs[3 + 2 * usize::from(first) - usize::from(second)] += 1;
        }
        if answer.is_err_and(|report| report.code == 0x24) {
            self.tally.edge_if(bad_value(opcode, words, &self.before.parameters), Edge::CriticalValue);
        }
    }

    fn confirm(&mut self, words: &[u8], answer: Result<(), Report>) {
        let code = answer.err().map_or(0, |report| report.code);
        if code == 0x22 && self.before.waiting.is_some() {
            match words.len() {
                0 => self.tally.edge(Edge::ConfirmWaitsBlank),
                2 => self.tally.edge(Edge::ConfirmWaitsOne),
                6 => self.tally.edge(Edge::ConfirmWaitsThree),
                _ => {}
            }
        }
        let &[a, b, c, d] = words else { return };
        let (named, complement) = (u16::from_be_bytes([a, b]), u16::from_be_bytes([c, d]));
        match (code, self.before.waiting) {
            (0, Some(waiting)) => self.confirmed(waiting.order),
            (0x25, Some(waiting)) => {
                let right = waiting.order.opcode();
                let tally = &mut *self.tally;
                tally.edge_if(named == right && (complement ^ !right).count_ones() == 1, Edge::ConfirmComplementBit);
                tally.edge_if((named ^ right).count_ones() == 1 && complement == !right, Edge::ConfirmOpcodeBit);
                tally.edge_if(is_critical(named) && named != right && complement == !named, Edge::ConfirmOther);
                tally.edge_if(named == !right && complement == right, Edge::ConfirmSwapped);
                tally.edge_if(named == right && complement == right, Edge::ConfirmNoComplement);
                tally.edge_if(named == 0 && complement == 0, Edge::ConfirmZeros);
            }
            _ => {}
        }
        let Some(story) = self.track.story else { return };
        if named != story.order.opcode() || complement != !named {
            return;
        }
        match (code, story.fate, story.ticks) {
            (0, _, 0) => self.timing(named, 0),
            (0, _, 1_999) => self.timing(named, 1),
            (0x27, Fate::Waits, 2_000) => self.timing(named, 2),
            _ => {}
        }
        match code {
            0 => {
                self.tally.edge_if(story.ticks == 0, Edge::ConfirmAtOnce);
                self.tally.edge_if(story.ticks == 1_998, Edge::Confirm1998);
                self.tally.edge_if(story.ticks == 1_999, Edge::Confirm1999);
                self.tally.edge_if(story.empty_frame, Edge::ConfirmAfterEmpty);
                self.tally.edge_if(story.sample, Edge::ConfirmAfterSample);
                self.tally.edge_if(story.trip_in_safe, Edge::ConfirmAfterTripInSafe);
                self.tally.edge_if(story.trip_override, Edge::ConfirmAfterTripOverride);
                self.track.story = Some(Story { fate: Fate::Used, ..story });
            }
            0x27 => self.tally.edge(match story.fate {
                Fate::Waits if story.ticks == 2_000 => Edge::Confirm2000,
                Fate::Waits => Edge::Confirm2001,
                Fate::Dropped => Edge::ConfirmAfterEntry,
                Fate::Lost => Edge::ConfirmAfterLoss,
                Fate::Crossed => Edge::ConfirmAfter24,
                Fate::Used => Edge::ConfirmAgain,
            }),
            _ => {}
        }
    }

    fn confirmed(&mut self, order: Order) {
        if let Some(row) = command_row(order.opcode()) {
            self.tally.confirmed[row] += 1;
        }
        let (index, value) = match order {
            Order::SetParameter { index, value } => (usize::from(index), value),
            Order::SetSupply { supply, .. } => return self.tally.outputs[usize::from(supply)] += 1,
            _ => return,
        };
        let range = &RANGES[index];
        let column = if value == range.lowest {
            1
        } else if value == range.highest {
            2
        } else {
            4
        };
        self.tally.settings[index][column] += 1;
        let old = self.before.parameters[index];
        if let Some(check @ 0..=2) = index.checked_sub(parameter::FAILURES) {
            if self.before.counts[check] > 0 {
                self.track.lowered[check] = value < old;
                self.tally.edge_if(value > old, Edge::LimitRaised);
            }
        }
        if index == parameter::DOOR_PERIOD && value != old {
            self.track.door_changed = true;
        }
    }

    /// What a frame that was not empty did to the command that waited.
    fn loss(&mut self, octets: &[u8], code: u8) {
        let Some(waiting) = self.before.waiting else { return };
        let opcode = match octets {
            [_, _, _, _, _, _, high, low, ..] => u16::from_be_bytes([*high, *low]),
            _ => 0,
        };
        let edge = match code {
            0 if opcode == 0x6604 => return,
            0 if opcode == 0x6602 && self.before.mode == Mode::Checkout => Edge::LostToSafe,
            0 => Edge::LostToAccepted,
            0x23 | 0x30 | 0x40 | 0x41 => Edge::LostToRefused,
            0x21 => Edge::LostToUnknown,
            0x22 => Edge::LostToWords,
            0x20 => Edge::LostToLength,
            0x10 => Edge::LostToHeader,
            0x24 if opcode == waiting.order.opcode() => Edge::CriticalSame,
            0x24 => Edge::CriticalOther,
            _ => return self.fate(Fate::Lost),
        };
        self.tally.edge(edge);
        let crossed = code == 0x24;
        self.tally.edge_if(crossed && has_mark_n(opcode) && self.before.mode == Mode::Safe, Edge::CriticalSafe);
        self.fate(if crossed { Fate::Crossed } else { Fate::Lost });
    }

    fn fate(&mut self, fate: Fate) {
        if let Some(story) = &mut self.track.story {
            story.fate = fate;
        }
    }

    fn ticks(&mut self, ticks: u16) {
        self.tally.edge_if(ticks == 65_535, Edge::Ticks65535);
        if let Some(story) = &mut self.track.story {
            story.ticks += u32::from(ticks);
        }
        if let (Some(waiting), None) = (self.before.waiting, self.after.waiting) {
            self.timing(waiting.order.opcode(), 3);
        }
        let Some(drive) = self.before.drive else { return };
        let edges = match (drive.line >= OPENS, self.track.drive_ticks) {
            // This one is never seen at one tick left after a tick.
            (false, 1) => [Edge::Release1Off; 2],
            (false, 255) => [Edge::Release255On, Edge::Release255Off],
            (false, _) => [Edge::ReleaseOn, Edge::ReleaseOff],
            (true, 4) => [Edge::Door1On, Edge::Door1Off],
            (true, 1_020) => [Edge::Door255On, Edge::Door255Off],
            (true, _) => [Edge::DoorOn, Edge::DoorOff],
        };
        let changed = drive.line >= OPENS && self.track.door_changed;
        if self.after.drive.is_some_and(|drive| drive.left == 1) {
            self.tally.drives[usize::from(drive.line)][1] += 1;
            self.tally.edge(edges[0]);
            self.tally.edge_if(changed, Edge::DoorChangedOn);
        } else if drive.left == ticks {
            self.tally.drives[usize::from(drive.line)][2] += 1;
            self.tally.edge(edges[1]);
            self.tally.edge_if(changed, Edge::DoorChangedOff);
        }
    }

    fn timing(&mut self, opcode: u16, column: usize) {
        if let Some(row) = CRITICAL.iter().position(|&critical| critical == opcode) {
            self.tally.timing[row][column] += 1;
        }
    }

    fn sample(&mut self, sample: Sample) {
        self.plate(sample);
        self.strip_and_anode(sample);
        if let Some(story) = &mut self.track.story {
            story.sample = true;
        }
        let mut past = [false; 5];
        for (check, past) in past.iter_mut().enumerate().take(3) {
            *past = self.after.counts[check] >= self.before.parameters[parameter::FAILURES + check];
        }
        for (check, &past) in past.iter().enumerate().take(3) {
            self.count(check, past);
        }
        self.trips(past);
    }

    fn plate(&mut self, sample: Sample) {
        let p = |index: usize| i32::from(self.before.parameters[index]);
        let h = i32::from(self.before.supplies[0].max(self.before.supplies[1]));
        let m = i32::from(sample.plates[0].max(sample.plates[1]));
        let product = h * p(parameter::FACTOR);
        let (expected, tolerance) = (product / 16, p(parameter::PLATE_TOLERANCE));
        let (nominal, largest) = (p(parameter::NOMINAL_LEVEL), p(parameter::LARGEST_SET_POINT));
        let factor = p(parameter::FACTOR);
        let tally = &mut *self.tally;
        let off = (m - expected).abs() > tolerance;
        tally.edge_if(h > largest, Edge::PointStands);
        if h > largest {
            return;
        }
        tally.edge_if(h == nominal && off && self.after.counts[0] == 0, Edge::NominalAt);
        tally.edge_if(h == nominal + 1 && off, Edge::NominalPast);
        if h <= nominal {
            return;
        }
        let at = [
            (m - expected == tolerance, Edge::PlateHighAt),
            (m - expected == tolerance + 1, Edge::PlateHighPast),
            (expected - m == tolerance, Edge::PlateLowAt),
            (expected - m == tolerance + 1, Edge::PlateLowPast),
        ];
        for (reached, edge) in at {
            tally.edge_if(reached, edge);
            tally.edge_if(reached && product % 16 != 0, Edge::PlateFraction);
        }
        tally.edge_if(factor == 0, Edge::PlateFactor0);
        tally.edge_if(factor == 255, Edge::PlateFactor255);
        tally.edge_if(expected > 255, Edge::PlateExpectedHigh);
    }

    fn strip_and_anode(&mut self, sample: Sample) {
        let p = |index: usize| i32::from(self.before.parameters[index]);
        let above_nominal =
            i32::from(self.before.supplies[0].max(self.before.supplies[1])) > p(parameter::NOMINAL_LEVEL);
        let s = i32::from(sample.strips[0]) + i32::from(sample.strips[1]);
        let a = i32::from(sample.anodes[0].max(sample.anodes[1]));
        let (strip, least, most) =
            (p(parameter::LARGEST_STRIP), p(parameter::LEAST_ANODE), p(parameter::LARGEST_ANODE));
        let tally = &mut *self.tally;
        tally.edge_if(s == strip, Edge::StripAt);
        tally.edge_if(s == strip + 1, Edge::StripPast);
        tally.edge_if(s > 255, Edge::StripWide);
        tally.edge_if(a == most && !(above_nominal && a < least), Edge::AnodeHighAt);
        tally.edge_if(a == most + 1, Edge::AnodeHighPast);
        if a <= most {
            tally.edge_if(above_nominal && a == least, Edge::AnodeLowAt);
            tally.edge_if(above_nominal && a == least - 1, Edge::AnodeLowPast);
            tally.edge_if(!above_nominal && a < least, Edge::AnodeLowIdle);
        }
    }

    fn count(&mut self, check: usize, past: bool) {
        let (before, after) = (self.before.counts[check], self.after.counts[check]);
        let limit = self.before.parameters[parameter::FAILURES + check];
        let masked = self.before.masked(check);
        let (track, tally) = (&mut *self.track, &mut *self.tally);
        if after == 0 {
            tally.edge_if(before > 0, Edge::CountEnds);
            track.carried[check] = false;
            track.lowered[check] = false;
            track.past_masked[check] = false;
            return;
        }
        tally.edge_if(before == 255, Edge::CountFull);
        tally.edge_if(after == limit - 1, Edge::CountBelow);
        if past && masked {
            track.past_masked[check] = true;
        }
        if past && !masked {
            tally.edge_if(after == limit, Edge::CountAt);
            tally.edge_if(after > limit, Edge::CountPast);
            tally.edge_if(limit == 1, Edge::CountLimit1);
            tally.edge_if(limit == 255, Edge::CountLimit255);
            let entry = self.before.mode == Mode::Checkout && self.after.mode == Mode::Safe;
            tally.edge_if(entry && track.carried[check], Edge::CountSurvives);
            tally.edge_if(track.lowered[check], Edge::LimitLowered);
            tally.edge_if(track.past_masked[check], Edge::Unmasked);
            track.carried[check] = false;
            track.lowered[check] = false;
            track.past_masked[check] = false;
        }
    }

    fn second(&mut self, mark: Mark, answer: Result<(), Report>) {
        if answer.is_err() {
            self.tally.bare[0x50] += 1;
            self.tally.edge_if(mark.raw == LARGEST_RAW + 1, Edge::RawPast);
            self.tally.edge_if(mark.raw == u32::MAX, Edge::RawWidest);
            return self.tally.edge_if(self.before.timer > 0, Edge::TimerRefusedMark);
        }
        if let Some(story) = &mut self.track.story {
            story.sample = true;
        }
        let too_fast = self.rate(mark.raw);
        let too_warm = self.temperatures(&mark.temperatures);
        self.trips([false, false, false, too_fast, too_warm]);
    }

    /// Whether the rate is out.
    fn rate(&mut self, raw: u32) -> bool {
        let factor = self.before.parameters[parameter::COUNT_RATE];
        let limit = 256 * u32::from(factor);
        let tally = &mut *self.tally;
        tally.edge_if(raw == LARGEST_RAW, Edge::RawLargest);
        let Some(previous) = self.before.previous_raw else {
            tally.edge_if(raw > limit, Edge::RateFirst);
            return false;
        };
        let counts = (raw + LARGEST_RAW + 1 - previous) % (LARGEST_RAW + 1);
        let rate = counts.min(65_535);
        tally.edge_if(rate == limit, Edge::RateAt);
        tally.edge_if(rate == limit + 1, Edge::RatePast);
        tally.edge_if(factor == 0 && rate == 1, Edge::Rate0);
        tally.edge_if(factor == 255 && rate == 65_280, Edge::Rate255At);
        tally.edge_if(factor == 255 && rate == 65_281, Edge::Rate255Past);
        tally.edge_if(counts > 65_535, Edge::RateFull);
        tally.edge_if(raw < previous && rate <= limit, Edge::RateWrap);
        tally.edge_if(raw < previous && rate > limit, Edge::RateWrapOut);
        tally.edge_if(raw + 1 == previous, Edge::RawBackOne);
        rate > limit
    }

    /// Whether a temperature is out.
    fn temperatures(&mut self, temperatures: &[u8; 8]) -> bool {
        let mut out = false;
        for (sensor, &temperature) in temperatures.iter().enumerate() {
            let limit = self.before.parameters[parameter::TEMPERATURE + sensor];
            let masked = self.before.parameters[parameter::SENSOR_MASK] >> sensor & 1 == 1;
            let counts = &mut self.tally.sensors[sensor];
            counts[0] += u64::from(!masked && temperature == limit);
            counts[1] += u64::from(!masked && Some(temperature) == limit.checked_add(1));
            counts[2] += u64::from(masked && temperature > limit);
            self.tally.edge_if(!masked && temperature == 255 && limit == 255, Edge::Warm255);
            out |= !masked && temperature > limit;
        }
        out
    }

    /// Counts the trips, from the checks that are past their limits, masked or not.
    fn trips(&mut self, past: [bool; 5]) {
        let masked: Vec<usize> = (0..5).filter(|&check| past[check] && self.before.masked(check)).collect();
        let tripped: Vec<usize> = (0..5).filter(|&check| past[check] && !self.before.masked(check)).collect();
        for &check in &masked {
            self.tally.trips[check][3] += 1;
        }
        let Some(&lowest) = tripped.first() else { return };
        let seconds = self.before.parameters[parameter::SAFETY_SECONDS];
        self.tally.edge_if(seconds == 255, Edge::Timer255);
        self.tally.edge_if(self.before.timer > 1, Edge::TimerAnew);
        self.track.timer_set = seconds;
        let overridden = self.before.parameters[parameter::OVERRIDE] == 1;
        let entry = self.before.mode == Mode::Checkout && !overridden;
        if entry {
            self.tally.trips[lowest][0] += 1;
            self.tally.edge_if(tripped.len() > 1, Edge::TwoTrips);
            self.tally.edge_if(tripped.len() > 1 && lowest == 3, Edge::WarmAndFast);
            self.tally.edge_if(masked.iter().any(|&check| check < lowest), Edge::LowestMasked);
            self.track.entry_without_timer = seconds == 0;
            self.tally.edge_if(self.before.waiting.is_some(), Edge::EntryWaiting);
            if self.before.waiting.is_some() {
                self.fate(Fate::Dropped);
            }
            return self.entry(lowest);
        }
        let in_safe = self.before.mode == Mode::Safe;
        self.tally.edge_if(in_safe && overridden, Edge::SafeOverride);
        for &check in &tripped {
            self.tally.trips[check][1] += u64::from(in_safe);
            self.tally.trips[check][2] += u64::from(overridden);
        }
        if let Some(story) = &mut self.track.story {
            story.trip_in_safe |= in_safe;
            story.trip_override |= overridden;
        }
    }

    fn entry(&mut self, cause: usize) {
        let kind = self.before.drive.map_or(6, |drive| usize::from(drive.line));
        let close = usize::from(self.before.parameters[parameter::CLOSE_ON_SAFE]);
        self.tally.entries[cause][kind][close] += 1;
        let ticks = 4 * u16::from(self.before.parameters[parameter::DOOR_PERIOD]);
        self.tally.edge_if(kind == usize::from(CLOSES) && self.track.drive_ticks != ticks, Edge::EntryOldClosing);
        self.tally.edge_if(self.before.supplies != [0, 0], Edge::EntrySupplies);
        self.tally.edge_if(self.before.heaters != [false, false], Edge::EntryHeaters);
        for check in 0..3 {
            self.track.carried[check] |= self.after.counts[check] > 0;
        }
    }
}
