//! Texts that are bad, or nearly so: every kind of line that headrun has to call malformed or missing.

use crate::random::Random;
use crate::tally::Text;

/// A text, what was done to it, and the line that `E` is to name, if any.
pub struct Damaged {
    pub text: Vec<u8>,
    pub kind: Text,
    pub bad_line: Option<u32>,
}

/// Lines joined, each with its line feed.
pub fn joined(lines: &[Vec<u8>]) -> Vec<u8> {
    let mut text = Vec::new();
    for line in lines {
        text.extend_from_slice(line);
        text.push(b'\n');
    }
    text
}

/// Damages a good script; its first line is the count of the others.
pub fn damage(random: &mut Random, mut lines: Vec<Vec<u8>>) -> Damaged {
    let kind = random.pick(Text::ALL);
    let bad_line = match kind {
        Text::CountEmpty
        | Text::CountNoNumber
        | Text::CountLeadingZero
        | Text::CountTooLarge
        | Text::CountHuge
        | Text::CountSigned
        | Text::CountSpace
        | Text::CountReturn
        | Text::CountTwoFields
        | Text::CountOutsideAscii
        | Text::CountOverLong => {
            lines[0] = bad_count(random, kind, &lines[0]);
            Some(1)
        }
        Text::CountZero => {
            lines[0] = b"0".to_vec();
            None
        }
        Text::CountMissingLine => {
            let events = lines.len() as u32 - 1;
            lines[0] = (events + random.within(1, 3)).to_string().into_bytes();
            Some(events + 2)
        }
        Text::CountLargest => {
            let events = lines.len() as u32 - 1;
            lines[0] = b"65535".to_vec();
            Some(events + 2)
        }
        Text::LinesBeyondGood => {
            lines.push(good_line(random, b'T'));
            None
        }
        Text::LinesBeyondBad => {
            lines.push(rubbish(random, 40));
            lines.push(Vec::new());
            None
        }
        Text::NoLastFeed => {
            let mut text = joined(&lines);
            text.pop();
            return Damaged { text, kind, bad_line: None };
        }
        Text::NoLastFeedBad => {
            lines.push(b"T 5 ".to_vec());
            lines[0] = (lines.len() - 1).to_string().into_bytes();
            let bad_line = Some(lines.len() as u32);
            let mut text = joined(&lines);
            text.pop();
            return Damaged { text, kind, bad_line };
        }
        Text::CutAnywhere => {
            // What is left may be good or bad; both programs have to see it alike.
            let mut text = joined(&lines);
            let left = random.below(text.len() as u32);
            text.truncate(left as usize);
            return Damaged { text, kind, bad_line: None };
        }
        Text::ByteAnywhere => {
            let mut text = joined(&lines);
            let place = random.below(text.len() as u32) as usize;
            text[place] = random.byte();
            return Damaged { text, kind, bad_line: None };
        }
        Text::Rubbish => {
            let length = random.within(1, 300);
            return Damaged { text: rubbish(random, length), kind, bad_line: None };
        }
        Text::NoInput => return Damaged { text: Vec::new(), kind, bad_line: Some(1) },
        Text::FeedsOnly => return Damaged { text: vec![b'\n'; random.within(1, 5) as usize], kind, bad_line: Some(1) },
        _ => {
            let place = random.within(1, lines.len() as u32) as usize;
            lines.insert(place, bad_line(random, kind));
            lines[0] = (lines.len() - 1).to_string().into_bytes();
            Some(place as u32 + 1)
        }
    };
    Damaged { text: joined(&lines), kind, bad_line }
}

fn bad_count(random: &mut Random, kind: Text, good: &[u8]) -> Vec<u8> {
    let mut line = good.to_vec();
    match kind {
        Text::CountEmpty => line.clear(),
        Text::CountNoNumber => line = random.pick(&[&b"x"[..], b"F -", b"T 1", b"0x10", b"A", b"1.0", b"-"]).to_vec(),
        Text::CountLeadingZero => line.insert(0, b'0'),
        Text::CountTooLarge => line = random.within(65_536, 4_294_967_294).to_string().into_bytes(),
        Text::CountHuge => {
            line = random
                .pick(&[&b"4294967296"[..], b"18446744073709551616", b"340282366920938463463374607431768211457"])
                .to_vec()
        }
        Text::CountSigned => line.insert(0, random.pick(b"+-")),
        Text::CountSpace => {
            let place = if random.chance(50) { 0 } else { line.len() };
            line.insert(place, b' ');
        }
        Text::CountReturn => line.push(b'\r'),
        Text::CountTwoFields => line.extend_from_slice(b" 1"),
        Text::CountOutsideAscii => line.push(random.within(128, 255) as u8),
        _ => line.resize(random.pick(&[131, 5_000, 70_000]), b'1'),
    }
    line
}

/// A well formed line of this letter.
pub fn good_line(random: &mut Random, letter: u8) -> Vec<u8> {
    let mut line = vec![letter];
    match letter {
        b'F' => {
            line.push(b' ');
            for _ in 0..random.within(1, 64) {
                line.extend_from_slice(format!("{:02X}", random.byte()).as_bytes());
            }
        }
        b'T' => line.extend_from_slice(format!(" {}", random.within(1, 30)).as_bytes()),
        b'H' => {
            for _ in 0..6 {
                line.extend_from_slice(format!(" {}", random.byte()).as_bytes());
            }
        }
        _ => {
            line.extend_from_slice(format!(" {}", random.below(16_777_216)).as_bytes());
            for _ in 0..8 {
                line.extend_from_slice(format!(" {}", random.byte()).as_bytes());
            }
        }
    }
    line
}

fn bad_line(random: &mut Random, kind: Text) -> Vec<u8> {
    let letter = random.pick(b"FTHS");
    let numbers = random.pick(b"THS");
    let mut line = good_line(random, letter);
    match kind {
        Text::OtherLetter => line[0] = random.pick(b"ABCDEGIJKLMNOPQRUVWXYZ0 -"),
        Text::SmallLetter => line[0] = line[0].to_ascii_lowercase(),
        Text::SmallDigit => line = b"F 1101c00000016601".to_vec(),
        Text::NoHexDigit => {
            line = good_line(random, b'F');
            let place = random.within(2, line.len() as u32 - 1) as usize;
            line[place] = random.pick(b"G@/:`gxO.-");
        }
        Text::OddDigits => {
            line = good_line(random, b'F');
            line.pop();
        }
        Text::Octets65 => line = [b"F ".as_slice(), &b"11".repeat(65)].concat(),
        Text::NoOctets => {
            line = random.pick(&[&b"F"[..], b"F ", b"F--", b"F --", b"F - -", b"F -11", b"F 11-"]).to_vec()
        }
        Text::GapInOctets => line = b"F 1101 C00000016601".to_vec(),
        Text::LeadingZero => {
            line = good_line(random, numbers);
            line.insert(2, b'0');
        }
        Text::TicksZero => line = b"T 0".to_vec(),
        Text::TooLarge => {
            line = random
                .pick(&[
                    &b"T 65536"[..],
                    b"T 99999",
                    b"H 256 0 0 0 0 0",
                    b"H 0 0 0 0 0 256",
                    b"H 0 0 999 0 0 0",
                    b"S 4294967296 0 0 0 0 0 0 0 0",
                    b"S 0 256 0 0 0 0 0 0 0",
                    b"S 0 0 0 0 0 0 0 0 256",
                ])
                .to_vec()
        }
        Text::Huge => {
            line = random
                .pick(&[
                    &b"T 4294967297"[..],
                    b"T 18446744073709551617",
                    b"H 4294967297 0 0 0 0 0",
                    b"S 18446744073709551617 0 0 0 0 0 0 0 0",
                    b"S 340282366920938463463374607431768211457 0 0 0 0 0 0 0 0",
                    b"S 42949672960 0 0 0 0 0 0 0 0",
                ])
                .to_vec()
        }
        Text::FieldTooMany => line.extend_from_slice(b" 1"),
        Text::FieldTooFew => {
            let space = line.iter().rposition(|&byte| byte == b' ').unwrap_or(1);
            line.truncate(space);
        }
        Text::DoubleSpace => {
            line = good_line(random, numbers);
            let spaces: Vec<usize> = (0..line.len()).filter(|&place| line[place] == b' ').collect();
            let place = random.pick(&spaces);
            line.insert(place, b' ');
        }
        Text::SpaceLast => line.push(b' '),
        Text::SpaceFirst => line.insert(0, b' '),
        Text::NoSpace => {
            line.remove(1);
        }
        Text::Tab => line[1] = b'\t',
        Text::LetterAlone => line.truncate(1),
        Text::EmptyLine => line.clear(),
        Text::Return => line.push(b'\r'),
        Text::OutsideAscii => {
            let place = random.below(line.len() as u32) as usize;
            line[place] = random.within(128, 255) as u8;
        }
        Text::Nul => line.push(0),
        Text::Signed => {
            line = good_line(random, numbers);
            line.insert(2, random.pick(b"+-"));
        }
        Text::NoDigit => {
            line = good_line(random, numbers);
            let place = line.len() - 1;
            line[place] = random.pick(b"AFx./:,-_");
        }
        Text::Long131 => {
            line = [b"F ".as_slice(), &b"11".repeat(64), random.pick(&[&b" "[..], b"1", b"\r"])].concat();
        }
        _ => line = b"F 11".iter().copied().chain([b'1'; 1].repeat(random.pick(&[200, 9_000, 70_000]))).collect(),
    }
    line
}

fn rubbish(random: &mut Random, length: u32) -> Vec<u8> {
    (0..length).map(|_| random.byte()).collect()
}
