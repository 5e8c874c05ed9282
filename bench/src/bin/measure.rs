//! The twin of the program measure: powers this head on, brings it events of one kind a number of times, and prints
//! the same line. `bench/measure` counts the instructions of both.

use bench::board::{Board, Crossed, PortBoard};
use bench::head::{Head, Log, Mark, Rates, Sample, DEFAULTS};
use bench::report::Entry;
use bench::ring::Ring;
use bench::script::{LOG_ENTRIES, RATES};
use std::hint::black_box;
use std::mem::size_of;

type Measured = Crossed<PortBoard>;

struct Records<'a> {
    log: Log<'a>,
    rates: Rates<'a>,
}

const NO_OPERATION: [u8; 8] = [0x11, 0x01, 0xC0, 0x00, 0x00, 0x01, 0x66, 0x01];
const CHECKOUT: [u8; 8] = [0x11, 0x01, 0xC0, 0x00, 0x00, 0x01, 0x66, 0x03];
const CLOSE_DOOR: [u8; 8] = [0x11, 0x01, 0xC0, 0x00, 0x00, 0x01, 0x66, 0x0D];
/// A link that holds nothing.
const NONE: &[u8] = &[];
/// The first octet is wrong.
const DAMAGED: [u8; 8] = [0x01, 0x01, 0xC0, 0x00, 0x00, 0x01, 0x66, 0x01];
/// Supply 0 to 100; and its confirm.
const SUPPLY: [u8; 10] = [0x11, 0x01, 0xC0, 0x00, 0x00, 0x03, 0x66, 0x10, 0x00, 100];
const CONFIRM_SUPPLY: [u8; 12] = [0x11, 0x01, 0xC0, 0x00, 0x00, 0x05, 0x66, 0x04, 0x66, 0x10, 0x99, 0xEF];
/// Parameter 22, the safety seconds, to 0; and its confirm.
const NO_SECONDS: [u8; 10] = [0x11, 0x01, 0xC0, 0x00, 0x00, 0x03, 0x66, 0x07, 22, 0];
const CONFIRM_PARAMETER: [u8; 12] = [0x11, 0x01, 0xC0, 0x00, 0x00, 0x05, 0x66, 0x04, 0x66, 0x07, 0x99, 0xF8];
/// Heater 0 on, off, and to a value out of its range.
const HEATER_ON: [u8; 10] = [0x11, 0x01, 0xC0, 0x00, 0x00, 0x03, 0x66, 0x11, 0, 1];
const HEATER_OFF: [u8; 10] = [0x11, 0x01, 0xC0, 0x00, 0x00, 0x03, 0x66, 0x11, 0, 0];
const HEATER_WRONG: [u8; 10] = [0x11, 0x01, 0xC0, 0x00, 0x00, 0x03, 0x66, 0x11, 0, 2];

/// One event. None of these is inlined, and the links go through `black_box`: so the compiler knows of no event what it
/// brings, and leaves none of it out.
mod once {
    use super::*;

    /// A tick, and how much it says is due.
    #[inline(never)]
    pub fn tick<B: Board>(head: &mut Head<B>, records: &mut Records<'_>) -> u32 {
        let due = head.tick(&mut records.log);
        u32::from(due.sample) + u32::from(due.second)
    }

    /// A frame, and 1 where it is refused.
    #[inline(never)]
    pub fn frame<B: Board>(head: &mut Head<B>, primary: &[u8], redundant: &[u8], records: &mut Records<'_>) -> u32 {
        u32::from(head.frame(primary, redundant, &mut records.log).is_err())
    }

    /// A high-voltage sample; it is never refused.
    #[inline(never)]
    pub fn sample<B: Board>(head: &mut Head<B>, sample: Sample, records: &mut Records<'_>) {
        head.sample(sample, &mut records.log);
    }

    /// A second mark, and 1 where it is refused.
    #[inline(never)]
    pub fn second<B: Board>(head: &mut Head<B>, mark: Mark, records: &mut Records<'_>) -> u32 {
        u32::from(head.second(mark, &mut records.log, &mut records.rates).is_err())
    }
}

/// Ticks. A frame comes before the first of each `every`.
fn ticks<B: Board>(head: &mut Head<B>, brought: &[u8], every: u32, times: u32, records: &mut Records<'_>) -> u32 {
    let (brought, redundant) = black_box((brought, NONE));
    let mut told = 0u32;
    let mut left = 0;
    for _ in 0..times {
        if left == 0 {
            once::frame(head, brought, redundant, records);
            left = every;
        }
        left -= 1;
        told = told.wrapping_add(once::tick(head, records));
    }
    told
}

/// Frames on both links: two primaries in turn.
fn frames<B: Board>(
    head: &mut Head<B>,
    primaries: [&[u8]; 2],
    redundant: &[u8],
    times: u32,
    records: &mut Records<'_>,
) -> u32 {
    let ([even, odd], redundant) = black_box((primaries, redundant));
    let mut told = 0u32;
    for i in 0..times {
        let primary = if i % 2 == 0 { even } else { odd };
        told = told.wrapping_add(once::frame(head, primary, redundant, records));
    }
    told
}

/// A sample with about this current in each strip, and what a set point of 100 expects of the rest.
fn sample_at(i: u32, strip: u8) -> Sample {
    let level = (i & 7) as u8;
    Sample { plates: [100 ^ level, 103 ^ level], strips: [strip ^ level, strip], anodes: [90 ^ level, 95 ^ level] }
}

fn samples<B: Board>(head: &mut Head<B>, strip: u8, times: u32, records: &mut Records<'_>) -> u32 {
    for i in 0..times {
        once::sample(head, sample_at(i, strip), records);
    }
    0
}

/// Samples that are out, and frames, in turn.
fn trips<B: Board>(head: &mut Head<B>, brought: &[u8], times: u32, records: &mut Records<'_>) -> u32 {
    let (brought, redundant) = black_box((brought, NONE));
    let mut told = 0u32;
    for i in 0..times {
        if i % 2 == 0 {
            once::sample(head, sample_at(i, 200), records);
        } else {
            told = told.wrapping_add(once::frame(head, brought, redundant, records));
        }
    }
    told
}

/// Second marks, with a raw count that goes up by one; past 16,777,215 they are refused.
fn seconds<B: Board>(head: &mut Head<B>, times: u32, records: &mut Records<'_>) -> u32 {
    let mut told = 0u32;
    for i in 0..times {
        let level = (i & 7) as u8;
        let mark = Mark { raw: i, temperatures: [20 + level; 8] };
        told = told.wrapping_add(once::second(head, mark, records));
    }
    told
}

/// To CHECKOUT, with supply 0 at 100. Trips set no timer, so that CHECKOUT is accepted after each.
fn prepare<B: Board>(head: &mut Head<B>, records: &mut Records<'_>) {
    let first: [&[u8]; 5] = [&NO_SECONDS, &CONFIRM_PARAMETER, &CHECKOUT, &SUPPLY, &CONFIRM_SUPPLY];
    for octets in first {
        once::frame(head, black_box(octets), black_box(NONE), records);
    }
}

/// The frames of a kind that come in turn on the primary link, and what the redundant link holds.
fn links(kind: &str) -> Option<([&'static [u8]; 2], &'static [u8])> {
    match kind {
        "frame-nothing" => Some(([&NO_OPERATION, &NO_OPERATION], &[])),
        "frame-header" => Some(([&DAMAGED, &DAMAGED], &[])),
        "frame-redundant" => Some(([&DAMAGED, &DAMAGED], &NO_OPERATION)),
        "frame-range" => Some(([&HEATER_WRONG, &HEATER_WRONG], &[])),
        "frame-heater" => Some(([&HEATER_ON, &HEATER_OFF], &[])),
        "frame-parameter" => Some(([&NO_SECONDS, &CONFIRM_PARAMETER], &[])),
        "frame-critical" => Some(([&SUPPLY, &CONFIRM_SUPPLY], &[])),
        _ => None,
    }
}

/// Brings events of a kind, and gives how often the head told something; or none where no kind has that name.
fn bring<B: Board>(kind: &str, times: u32, head: &mut Head<B>, records: &mut Records<'_>) -> Option<u32> {
    match kind {
        "tick" => Some(ticks(head, &NO_OPERATION, u32::MAX, times, records)),
        "tick-waiting" => Some(ticks(head, &NO_SECONDS, 2000, times, records)),
        "tick-driving" => Some(ticks(head, &CLOSE_DOOR, 360, times, records)),
        "frame-in-safe" => Some(frames(head, [&HEATER_ON, &HEATER_OFF], &[], times, records)),
        "second" => Some(seconds(head, times, records)),
        _ => bring_prepared(kind, times, head, records),
    }
}

/// The same, of the kinds for which CHECKOUT is prepared.
fn bring_prepared<B: Board>(kind: &str, times: u32, head: &mut Head<B>, records: &mut Records<'_>) -> Option<u32> {
    prepare(head, records);
    match kind {
        "sample-good" => Some(samples(head, 40, times, records)),
        "sample-bad" => Some(samples(head, 200, times, records)),
        "sample-trip" => Some(trips(head, &CHECKOUT, times, records)),
        _ => {
            let (primaries, redundant) = links(kind)?;
            Some(frames(head, primaries, redundant, times, records))
        }
    }
}

fn print_line(told: u32, head: &Head<Measured>, records: &Records<'_>) {
    let mode = head.mode();
    let ports = head.board().board().bytes();
    let code = records.log.get(0).map_or(0, |entry| entry.report.code);
    let rate = records.rates.get(0).unwrap_or(0);
    println!("told {told}, mode {mode:?}, ports {ports:?}, newest code {code}, newest rate {rate}");
}

fn print_sizes() {
    let (head, records) = (size_of::<Head<Measured>>(), size_of::<Records<'_>>());
    println!("head {head}, records {records}, log entry {}", size_of::<Entry>());
}

fn measure(kind: &str, times: u32) {
    let (mut entries, mut slots) = ([Entry::BLANK; LOG_ENTRIES], [0; RATES]);
    let mut records = Records { log: Ring::new(&mut entries), rates: Ring::new(&mut slots) };
    let board = Crossed::new(PortBoard::new([0; 4]));
    let mut head = Head::power_on(board, DEFAULTS, &mut records.log, &mut records.rates);
    match bring(kind, times, &mut head, &mut records) {
        Some(told) => print_line(told, &head, &records),
        None => println!("there is no kind {kind}"),
    }
}

fn main() {
    let words: Vec<String> = std::env::args().skip(1).collect();
    match words.as_slice() {
        [kind] if kind == "sizes" => print_sizes(),
        [kind, times] => measure(kind, times.parse().unwrap_or(0)),
        _ => println!("measure KIND N, or measure sizes"),
    }
}
