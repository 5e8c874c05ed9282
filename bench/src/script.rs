//! The text that drives a head: reading event lines, writing answer lines, and a whole run from bytes to bytes.

use crate::board::{Board, Crossed, PortBoard, HEATERS, LINES};
use crate::head::{Head, Log, Mark, Mode, Rates, Sample, DEFAULTS};
use crate::report::{Entry, Report};
use crate::ring::Ring;

pub const LONGEST_LINE: usize = 130;
pub const MOST_OCTETS: usize = 64;
pub const LOG_ENTRIES: usize = 8;
pub const RATES: usize = 16;

/// The head that a script drives.
pub type ScriptHead = Head<Crossed<PortBoard>>;

/// The octets of a frame line; none for `F -`.
#[derive(Clone, Copy, Debug, PartialEq, Eq)]
pub struct Octets {
    bytes: [u8; MOST_OCTETS],
    len: usize,
}

impl Octets {
    const NONE: Octets = Octets { bytes: [0; MOST_OCTETS], len: 0 };

    pub fn as_slice(&self) -> &[u8] {
        &self.bytes[..self.len]
    }
}

#[derive(Clone, Copy, Debug, PartialEq, Eq)]
pub enum Event {
    Frame(Octets),
    Ticks(u16),
    Sample(Sample),
    Second(Mark),
}

impl Event {
    pub fn letter(&self) -> u8 {
        match self {
            Event::Frame(_) => b'F',
            Event::Ticks(_) => b'T',
            Event::Sample(_) => b'H',
            Event::Second(_) => b'S',
        }
    }
}

/// The lines of a text, without their line feeds; the last one counts without one, too.
pub struct Lines<'a> {
    rest: &'a [u8],
}

impl<'a> Lines<'a> {
    pub fn new(text: &'a [u8]) -> Self {
        Lines { rest: text }
    }
}

impl<'a> Iterator for Lines<'a> {
    type Item = &'a [u8];

    fn next(&mut self) -> Option<&'a [u8]> {
        if self.rest.is_empty() {
            return None;
        }
        match self.rest.iter().position(|&byte| byte == b'\n') {
            Some(end) => {
                let line = &self.rest[..end];
                self.rest = &self.rest[end + 1..];
                Some(line)
            }
            None => Some(std::mem::take(&mut self.rest)),
        }
    }
}

/// The first line: how many event lines follow.
pub fn parse_count(line: &[u8]) -> Option<u16> {
    number(line)
}

/// An event line, or none where it is malformed.
pub fn parse_event(line: &[u8]) -> Option<Event> {
    if line.len() > LONGEST_LINE {
        return None;
    }
    let (&letter, rest) = line.split_first()?;
    let (&space, rest) = rest.split_first()?;
    if space != b' ' {
        return None;
    }
    match letter {
        b'F' if rest == b"-" => Some(Event::Frame(Octets::NONE)),
        b'F' => octets(rest).map(Event::Frame),
        b'T' => number(rest).filter(|&ticks| ticks > 0).map(Event::Ticks),
        b'H' => sample(rest).map(Event::Sample),
        b'S' => mark(rest).map(Event::Second),
        _ => None,
    }
}

fn octets(digits: &[u8]) -> Option<Octets> {
    let pairs = digits.chunks_exact(2);
    if digits.is_empty() || !pairs.remainder().is_empty() || pairs.len() > MOST_OCTETS {
        return None;
    }
    let mut octets = Octets { bytes: [0; MOST_OCTETS], len: pairs.len() };
    for (octet, pair) in octets.bytes.iter_mut().zip(pairs) {
        *octet = hex_digit(pair[0])? << 4 | hex_digit(pair[1])?;
    }
    Some(octets)
}

fn hex_digit(digit: u8) -> Option<u8> {
    match digit {
        b'0'..=b'9' => Some(digit - b'0'),
        b'A'..=b'F' => Some(digit - b'A' + 10),
        _ => None,
    }
}

fn sample(text: &[u8]) -> Option<Sample> {
    let [plate0, plate1, strip0, strip1, anode0, anode1] = bytes(text)?;
    Some(Sample { plates: [plate0, plate1], strips: [strip0, strip1], anodes: [anode0, anode1] })
}

fn mark(text: &[u8]) -> Option<Mark> {
    let space = text.iter().position(|&byte| byte == b' ')?;
    Some(Mark { raw: number(&text[..space])?, temperatures: bytes(&text[space + 1..])? })
}

/// Exactly as many bytes as the array has places.
fn bytes<const N: usize>(text: &[u8]) -> Option<[u8; N]> {
    let mut fields = text.split(|&byte| byte == b' ');
    let mut values = [0; N];
    for value in &mut values {
        *value = number(fields.next()?)?;
    }
    fields.next().is_none().then_some(values)
}

/// A decimal number without a leading zero that fits the type asked for.
fn number<N: TryFrom<u32>>(digits: &[u8]) -> Option<N> {
    let value = match digits {
        [] | [b'0', _, ..] => return None,
        _ => digits.iter().try_fold(0u32, |value, &digit| {
            let digit = digit.is_ascii_digit().then(|| u32::from(digit - b'0'))?;
            value.checked_mul(10)?.checked_add(digit)
        })?,
    };
    N::try_from(value).ok()
}

/// Brings one event to the head.
pub fn bring(head: &mut ScriptHead, event: &Event, log: &mut Log<'_>, rates: &mut Rates<'_>) -> Result<(), Report> {
    match event {
        Event::Frame(octets) => head.frame(octets.as_slice(), &[], log),
        Event::Ticks(ticks) => {
            for _ in 0..*ticks {
                head.tick(log);
            }
            Ok(())
        }
        Event::Sample(sample) => {
            head.sample(*sample, log);
            Ok(())
        }
        Event::Second(mark) => head.second(*mark, log, rates),
    }
}

/// A head after power-on, as a script finds it.
pub fn power_on(log: &mut Log<'_>, rates: &mut Rates<'_>) -> ScriptHead {
    Head::power_on(Crossed::new(PortBoard::new([0; 4])), DEFAULTS, log, rates)
}

/// Runs a whole script and adds what is printed to `out`.
pub fn run(text: &[u8], out: &mut Vec<u8>) {
    let mut lines = Lines::new(text);
    let Some(count) = lines.next().and_then(parse_count) else {
        return write_bad_line(out, 1);
    };
    let (mut entries, mut slots) = ([Entry::BLANK; LOG_ENTRIES], [0; RATES]);
    let (mut log, mut rates) = (Ring::new(&mut entries), Ring::new(&mut slots));
    let mut head = power_on(&mut log, &mut rates);
    write_line(out, b'P', Ok(()), &head);
    for line in 2..u32::from(count) + 2 {
        let Some(event) = lines.next().and_then(parse_event) else {
            return write_bad_line(out, line);
        };
        let answer = bring(&mut head, &event, &mut log, &mut rates);
        write_line(out, event.letter(), answer, &head);
    }
}

fn write_bad_line(out: &mut Vec<u8>, line: u32) {
    out.extend_from_slice(b"E ");
    write_number(out, line);
    out.push(b'\n');
}

fn write_line(out: &mut Vec<u8>, letter: u8, answer: Result<(), Report>, head: &ScriptHead) {
    out.extend_from_slice(&[letter, b' ']);
    match answer {
        Ok(()) => out.extend_from_slice(b"ok"),
        Err(report) => {
            write_number(out, u32::from(report.layer));
            out.push(b':');
            write_number(out, u32::from(report.code));
            out.push(b':');
            write_number(out, u32::from(report.place));
        }
    }
    out.extend_from_slice(match head.mode() {
        Mode::Safe => b" S",
        Mode::Checkout => b" C",
    });
    let board = head.board();
    for supply in 0..2 {
        write_field(out, board.supply(supply).unwrap_or(0));
    }
    write_field(out, bits(HEATERS, |which| board.heater(which) == Ok(true)));
    write_field(out, bits(LINES, |which| board.line(which).is_ok_and(|line| line.is_on())));
    out.push(b'\n');
}

fn write_field(out: &mut Vec<u8>, value: u8) {
    out.push(b' ');
    write_number(out, u32::from(value));
}

/// The sum of 1, 2, 4 and so on, for those that are on.
fn bits(outputs: u8, on: impl Fn(u8) -> bool) -> u8 {
    (0..outputs).map(|which| u8::from(on(which)) << which).sum()
}

fn write_number(out: &mut Vec<u8>, mut value: u32) {
    let mut digits = [b'0'; 10];
    let mut first = digits.len();
    loop {
        first -= 1;
        digits[first] += (value % 10) as u8;
        value /= 10;
        if value == 0 {
            break;
        }
    }
    out.extend_from_slice(&digits[first..]);
}
