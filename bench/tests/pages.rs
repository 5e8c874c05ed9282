//! The worked examples of docs/: the three scripts of headrun.md, and the tables of head.md and parameters.md.

use bench::board::{Board, Crossed, PortBoard};
use bench::head::{Due, Head, Mark, Mode, Sample, DEFAULTS};
use bench::report::{Entry, Report};
use bench::ring::Ring;
use bench::script;

fn prints(input: &str, output: &str) {
    let mut out = Vec::new();
    script::run(input.as_bytes(), &mut out);
    assert_eq!(String::from_utf8(out).unwrap(), output);
}

#[test]
fn a_release_of_two_ticks() {
    prints(
        "5\nF 1101C00000016603\nF 1101C001000366120002\nF 1101C00200056604661299ED\nT 1\nT 1\n",
        "P ok S 0 0 0 0\nF ok C 0 0 0 0\nF ok C 0 0 0 0\nF ok C 0 0 0 1\nT ok C 0 0 0 1\nT ok C 0 0 0 0\n",
    );
}

#[test]
fn a_blank_confirm_and_a_wrong_one() {
    prints(
        "6\nF 1101C00000016603\nF 1101C001000366120002\nF 1101C00200016604\nF 1101C003000366120002\n\
         F 1101C00400056604661299EC\nF 1101C00500056604661299ED\n",
        "P ok S 0 0 0 0\nF ok C 0 0 0 0\nF ok C 0 0 0 0\nF 2:34:8 C 0 0 0 0\nF ok C 0 0 0 0\n\
         F 2:37:8 C 0 0 0 0\nF 2:39:6 C 0 0 0 0\n",
    );
}

#[test]
fn five_bad_samples_and_the_closing_door() {
    let bad = "H 50 50 40 40 90 90\n".repeat(5);
    let input = format!(
        "14\nF 1101C00000016603\nF 1101C001000366100064\nF 1101C00200056604661099EF\nH 100 100 40 40 90 90\n{bad}\
         F 1101C00300016603\nT 359\nT 1\nF -\nS 16777216 20 20 20 20 20 20 20 20\n"
    );
    let held = "H ok C 100 0 0 0\n".repeat(5);
    let output = format!(
        "P ok S 0 0 0 0\nF ok C 0 0 0 0\nF ok C 0 0 0 0\nF ok C 100 0 0 0\n{held}H ok S 0 0 0 32\n\
         F 3:48:6 S 0 0 0 32\nT ok S 0 0 0 32\nT ok S 0 0 0 0\nF 1:17:0 S 0 0 0 0\nS 4:80:0 S 0 0 0 0\n"
    );
    prints(&input, &output);
}

#[test]
fn bad_lines() {
    prints("", "E 1\n");
    prints("x\n", "E 1\n");
    prints("5\nT 1\nT 1\nT 1\n", "P ok S 0 0 0 0\nT ok S 0 0 0 0\nT ok S 0 0 0 0\nT ok S 0 0 0 0\nE 5\n");
    prints("1\nT 1", "P ok S 0 0 0 0\nT ok S 0 0 0 0\n");
    prints("0\nrubbish", "P ok S 0 0 0 0\n");
    for line in ["", "T 0", "T 65536", "T 01", "T  1", "T 1 ", " T 1", "T 1\r", "t 1", "X 1", "F", "F ", "F 1", "F 1a"]
    {
        prints(&format!("1\n{line}\n"), "P ok S 0 0 0 0\nE 2\n");
    }
}

type TestHead = Head<Crossed<PortBoard>>;

/// A head with the default parameters, in CHECKOUT.
fn in_checkout() -> TestHead {
    let board = Crossed::new(PortBoard::new([0; 4]));
    let mut head = Head::power_on(board, DEFAULTS, &mut Ring::new(&mut []), &mut Ring::new(&mut []));
    assert_eq!(head.frame(&octets("1101C00000016603"), &[], &mut Ring::new(&mut [])), Ok(()));
    head
}

fn octets(text: &str) -> Vec<u8> {
    (0..text.len() / 2).map(|at| u8::from_str_radix(&text[2 * at..2 * at + 2], 16).unwrap()).collect()
}

/// The code of the answer (0 if accepted), whether a command waits afterwards, and the codes logged, in order.
fn bring(head: &mut TestHead, primary: &str, redundant: &str) -> (u8, bool, Vec<u8>) {
    let mut entries = [Entry::BLANK; 8];
    let mut log = Ring::new(&mut entries);
    let answer = head.frame(&octets(primary), &octets(redundant), &mut log);
    let logged = (0..log.len()).rev().map(|age| log.get(age).unwrap().report.code).collect();
    (answer.err().map_or(0, |report| report.code), head.waiting().is_some(), logged)
}

#[test]
fn frames_while_6612_waits() {
    /// Primary, redundant, the answer's code, whether 6612 waits afterwards, and the codes logged.
    type Case = (&'static str, &'static str, (u8, bool, &'static [u8]));
    let cases: &[Case] = &[
        ("", "", (0x11, true, &[])),
        ("1101C00000056604661299ED", "", (0, false, &[])),
        ("1101C00000056604661299EC", "", (0x25, false, &[0x25])),
        ("1101C00000016604", "", (0x22, false, &[0x26, 0x22])),
        ("1101C000000366046612", "", (0x22, false, &[0x26, 0x22])),
        ("1101C0000001660F", "", (0x24, false, &[0x24])),
        ("1101C000000366120002", "", (0x24, false, &[0x24])),
        ("1101C00000016601", "", (0, false, &[0x26])),
        ("1101C00000016602", "", (0, false, &[0x26])),
        ("1101C00000016605", "", (0x21, false, &[0x26, 0x21])),
        ("1101C0", "0101C00000016601", (0x20, false, &[0x26, 0x20])),
        ("0101C00000016601", "1101", (0x10, false, &[0x26, 0x10])),
        ("0101C00000016601", "1101C00000016601", (0, false, &[0x10, 0x26])),
        ("1101", "1101C00000016604", (0x22, false, &[0x20, 0x26, 0x22])),
    ];
    for (primary, redundant, (code, waits, logged)) in cases {
        let mut head = in_checkout();
        assert_eq!(bring(&mut head, "1101C000000366120002", ""), (0, true, vec![]));
        assert_eq!(bring(&mut head, primary, redundant), (*code, *waits, logged.to_vec()), "{primary} {redundant}");
    }
}

#[test]
fn the_example_of_head() {
    let mut head = in_checkout();
    assert_eq!(bring(&mut head, "1101C001000366100064", ""), (0, true, vec![]));
    assert_eq!(head.board().supply(0), Ok(0));
    assert_eq!(bring(&mut head, "1101C00200056604661099EF", ""), (0, false, vec![]));
    assert_eq!(head.board().supply(0), Ok(100));
    let mut entries = [Entry::BLANK; 8];
    let mut log = Ring::new(&mut entries);
    let good = Sample { plates: [100, 100], strips: [40, 40], anodes: [90, 90] };
    head.sample(good, &mut log);
    assert_eq!(head.counts(), [0, 0, 0]);
    let bad = Sample { plates: [50, 50], ..good };
    for _ in 0..4 {
        head.sample(bad, &mut log);
    }
    assert_eq!((head.counts(), head.mode(), log.len()), ([4, 0, 0], Mode::Checkout, 0));
    head.sample(bad, &mut log);
    assert_eq!((head.mode(), head.timer()), (Mode::Safe, 60));
    assert_eq!(head.drive().map(|drive| (drive.line, drive.left)), Some((5, 360)));
    assert_eq!(log.get(0), Some(Entry { time: 1_000_000, report: Report::new(4, 0x60, 0, 0) }));
    assert_eq!(bring(&mut head, "1101C00300016603", ""), (0x30, false, vec![0x30]));
    for _ in 0..359 {
        head.tick(&mut log);
    }
    assert!(head.board().line(5).unwrap().is_on());
    head.tick(&mut log);
    assert!(!head.board().line(5).unwrap().is_on());
}

#[test]
fn stored_parameters_outside_their_ranges() {
    let mut stored = DEFAULTS;
    (stored[1], stored[2], stored[23]) = (0, 77, 0);
    let mut entries = [Entry::BLANK; 8];
    let mut log = Ring::new(&mut entries);
    let board = Crossed::new(PortBoard::new([9, 9, 0xFF, 0xFF]));
    let head = Head::power_on(board, stored, &mut log, &mut Ring::new(&mut []));
    assert_eq!((head.parameters()[1], head.parameters()[2], head.parameters()[23]), (200, 77, 90));
    let noted = |age| log.get(age).map(|entry| (entry.time, entry.report));
    assert_eq!(noted(1), Some((1_000_000, Report::new(5, 0x52, 1, 0))));
    assert_eq!(noted(0), Some((1_000_000, Report::new(5, 0x52, 23, 0))));
    assert_eq!(noted(2), None);
    assert_eq!(head.into_board().into_board().bytes(), [0, 0, 0xFC, 0xC0]);
}

#[test]
fn rates_and_their_limit() {
    let mut head = in_checkout();
    let mut slots = [0; 4];
    let mut rates = Ring::new(&mut slots);
    let mut log = Ring::new(&mut []);
    let mut mark = |head: &mut TestHead, raw| {
        let answer = head.second(Mark { raw, temperatures: [200; 8] }, &mut log, &mut rates);
        (answer.err().map(|report| report.code), rates.get(0), head.mode())
    };
    assert_eq!(mark(&mut head, 16_777_210), (None, Some(0), Mode::Checkout));
    assert_eq!(mark(&mut head, 4), (None, Some(10), Mode::Checkout));
    assert_eq!(mark(&mut head, 16_777_216), (Some(0x50), Some(10), Mode::Checkout));
    assert_eq!(mark(&mut head, 25_604), (None, Some(25_600), Mode::Checkout));
    assert_eq!(mark(&mut head, 51_205), (None, Some(25_601), Mode::Safe));
    assert_eq!((head.time(), head.timer()), (1_000_004, 60));
}

#[test]
fn what_a_tick_says_is_due() {
    let mut head = in_checkout();
    let mut log = Ring::new(&mut []);
    let due: Vec<Due> = (0..400).map(|_| head.tick(&mut log)).collect();
    for (number, due) in (1..).zip(due) {
        assert_eq!(due, Due { sample: number % 20 == 0, second: number % 200 == 0 });
    }
}
