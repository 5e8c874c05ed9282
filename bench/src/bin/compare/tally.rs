//! The counts of what the scripts reached, and the table that is printed of them.

use std::fmt::Write;

/// An enum whose cases have a name for people and can be counted.
macro_rules! named {
    ($(#[$doc:meta])* $type:ident { $($case:ident $name:literal,)* }) => {
        $(#[$doc])*
        #[derive(Clone, Copy, Debug, PartialEq, Eq)]
        pub enum $type { $($case,)* }

        impl $type {
            pub const ALL: &'static [$type] = &[$($type::$case,)*];

            pub const fn name(self) -> &'static str {
                match self { $($type::$case => $name,)* }
            }
        }
    };
}

named! {
    /// What was done to a text.
    Text {
        OtherLetter "another letter",
        SmallLetter "a small letter",
        SmallDigit "small hexadecimal digits",
        NoHexDigit "no hexadecimal digit",
        OddDigits "an odd number of digits",
        Octets65 "65 octets",
        NoOctets "no octets, or - with something",
        GapInOctets "a gap in the octets",
        LeadingZero "a leading zero",
        TicksZero "T 0",
        TooLarge "a number just out of its range",
        Huge "a number past 32, 64 or 128 bits",
        FieldTooMany "a field too many",
        FieldTooFew "a field too few",
        DoubleSpace "two spaces",
        SpaceLast "a space after the last field",
        SpaceFirst "a space before the first field",
        NoSpace "no space after the letter",
        Tab "a tab for a space",
        LetterAlone "a letter alone",
        EmptyLine "an empty line",
        Return "a carriage return",
        OutsideAscii "a byte outside ASCII",
        Nul "a zero byte",
        Signed "a sign before a number",
        NoDigit "no digit in a number",
        Long131 "131 characters",
        LongHuge "a line of 200 to 70,000 characters",
        CountEmpty "count: empty line",
        CountNoNumber "count: no number",
        CountLeadingZero "count: leading zero",
        CountTooLarge "count: above 65,535",
        CountHuge "count: past 32, 64 or 128 bits",
        CountSigned "count: with a sign",
        CountSpace "count: with a space",
        CountReturn "count: carriage return",
        CountTwoFields "count: two fields",
        CountOutsideAscii "count: byte outside ASCII",
        CountOverLong "count: 131 to 70,000 digits",
        CountMissingLine "fewer lines than the count",
        CountLargest "count 65,535 over a short text",
        NoInput "no input at all",
        FeedsOnly "line feeds only",
        NoLastFeedBad "bad last line without a line feed",
        Rubbish "random bytes (good or bad)",
        CutAnywhere "text cut anywhere (good or bad)",
        ByteAnywhere "one byte changed anywhere (good or bad)",
        CountZero "good: count 0",
        LinesBeyondGood "good: a good line beyond the count",
        LinesBeyondBad "good: rubbish beyond the count",
        NoLastFeed "good: last line without a line feed",
    }
}

named! {
    /// A situation that the scripts are to reach.
    Edge {
        ConfirmAtOnce "right confirm with no tick between: acts",
        Confirm1998 "right confirm after 1,998 ticks: acts",
        Confirm1999 "right confirm after 1,999 ticks: acts",
        Confirm2000 "right confirm after 2,000 ticks: 0x27",
        Confirm2001 "right confirm after 2,001 ticks or more: 0x27",
        ConfirmAfterEmpty "right confirm after an empty frame: acts",
        ConfirmAfterSample "right confirm after a sample or mark: acts",
        ConfirmAfterTripInSafe "right confirm after a trip in SAFE: acts",
        ConfirmAfterTripOverride "right confirm after a trip under override: acts",
        ConfirmAfterEntry "right confirm after an entry by a trip: 0x27",
        ConfirmAgain "the right confirm a second time: 0x27",
        ConfirmAfterLoss "right confirm, command lost to a frame: 0x27",
        ConfirmAfter24 "right confirm after 0x24: 0x27",
        ConfirmComplementBit "confirm, complement wrong in one bit: 0x25",
        ConfirmOpcodeBit "confirm, op-code wrong in one bit: 0x25",
        ConfirmOther "confirm of another critical command: 0x25",
        ConfirmSwapped "confirm, words exchanged: 0x25",
        ConfirmNoComplement "confirm, op-code twice: 0x25",
        ConfirmZeros "confirm of zeros: 0x25",
        ConfirmWaitsBlank "blank confirm while one waits: 0x22",
        ConfirmWaitsOne "confirm of one word while one waits: 0x22",
        ConfirmWaitsThree "confirm of three words while one waits: 0x22",
        EmptyWaits "empty frame while one waits",
        EmptyNothing "empty frame, nothing waits",
        CriticalSame "same critical command while it waits: 0x24",
        CriticalOther "another critical command while one waits: 0x24",
        CriticalSafe "N command in SAFE while one waits: 0x24 first",
        CriticalValue "critical, bad value, while one waits: 0x24 first",
        LostToAccepted "waiting command lost to an accepted command",
        LostToSafe "waiting command lost to SAFE in CHECKOUT",
        LostToRefused "waiting command lost to 0x23, 0x30, 0x40 or 0x41",
        LostToUnknown "waiting command lost to 0x21",
        LostToWords "waiting command lost to 0x22",
        LostToLength "waiting command lost to 0x20",
        LostToHeader "waiting command lost to 0x10",
        Header0 "0x10 at octet 0",
        Header1 "0x10 at octet 1",
        Header2 "0x10 at octet 2",
        HeaderFirst01 "0x10 at octet 0, octet 1 wrong too",
        HeaderFirst12 "0x10 at octet 1, octet 2 wrong too",
        HeaderBlank "0x10 at octet 0, a blank frame of the right length",
        LengthBeforeHeader "0x20, and a wrong header octet too",
        LengthField "0x20, length field wrong in its low octet",
        LengthHigh "0x20, length field wrong in its high octet",
        LengthShort "0x20, fewer than 8 octets",
        LengthShortAgrees "0x20, 7 octets and the number agrees",
        LengthOver "0x20, 8 octets or more, some left over",
        LengthCut "0x20, 8 octets or more, cut short",
        Octets64 "64 octets, well formed",
        CountAllOnes "sequence count 16,383, accepted",
        OpcodeNear "0x21, op-code between the eleven or beside them",
        OpcodeFar "0x21, any other op-code",
        WordsOdd "0x22, an odd number of octets",
        SafeBeforeValue "N command in SAFE with a bad value: 0x23 first",
        WordsBeforeSafe "N command in SAFE with wrong length: 0x22 first",
        ValueBeforeDrive "6612, bad value while a drive runs: 0x40 first",
        PointZero "6610, set point 0: 0x40",
        PointOne "6610, set point 1: accepted",
        PointLargest "6610, set point parameter 1: accepted",
        PointAbove "6610, one above parameter 1: 0x40",
        Point255 "6610, set point 255: accepted",
        PeriodZero "6612, period 0: 0x40",
        Line4 "6612, line 4: 0x40",
        Index25 "6607, index 25: 0x40",
        Index26 "6607, index 26: 0x40",
        Index255 "6607, index 255: 0x40",
        Release1Off "release of 1 tick: off at the 1st",
        Release255On "release of 255 ticks: on after 254",
        Release255Off "release of 255 ticks: off at the 255th",
        ReleaseOn "other release: on at its last but one tick",
        ReleaseOff "other release: off at its last tick",
        Door1On "door period 1: on after 3 ticks",
        Door1Off "door period 1: off at the 4th tick",
        Door255On "door period 255: on after 1,019 ticks",
        Door255Off "door period 255: off at the 1,020th tick",
        DoorOn "other door period: on at its last but one tick",
        DoorOff "other door period: off at its last tick",
        DoorChangedOn "door period changed in the drive: on, last but one",
        DoorChangedOff "door period changed in the drive: off, last tick",
        CloseWhileRelease "660d while a release runs: 0x41",
        CloseWhileOpen "660d while an opening runs: 0x41",
        CloseWhileClose "660d while a closing runs: 0x41",
        HeaterOff "6611 puts off a heater that was on",
        SuppliesOff "660e with a supply above 0",
        SuppliesOffSafe "660e in SAFE: accepted",
        Ticks65535 "T 65535",
        SafeInSafe "SAFE in SAFE, no drive",
        SafeInSafeClosing "SAFE in SAFE, a closing runs",
        EntryOldClosing "entry, a closing runs with an older door period",
        EntrySupplies "entry with a supply above 0",
        EntryHeaters "entry with a heater on",
        EntryWaiting "entry by a trip while a command waits",
        Timer1 "CHECKOUT with the timer at 1: 0x30",
        TimerAbove "CHECKOUT with the timer above 1: 0x30",
        TimerRanOut "CHECKOUT, the timer has run down to 0: accepted",
        TimerRanOut60 "CHECKOUT, a timer of 60 has run down to 0: accepted",
        TimerRanOut255 "CHECKOUT, a timer of 255 has run down to 0: accepted",
        TimerInCheckout "CHECKOUT in CHECKOUT, the timer above 0: 0x30",
        TimerOverride "CHECKOUT, timer above 0, override 1: accepted",
        TimerZeroSeconds "entry with parameter 22 at 0, CHECKOUT accepted",
        Timer255 "trip with parameter 22 at 255",
        TimerRefusedMark "0x50 while the timer runs",
        TimerAnew "a trip sets a timer that runs",
        PlateHighAt "plate at expected + tolerance: not out",
        PlateHighPast "plate one above expected + tolerance: out",
        PlateLowAt "plate at expected - tolerance: not out",
        PlateLowPast "plate one below expected - tolerance: out",
        PlateFraction "expected plate with a fraction cut off, at a limit",
        PlateFactor0 "read-back factor 0, above nominal",
        PlateFactor255 "read-back factor 255, above nominal",
        PlateExpectedHigh "expected plate above 255, above nominal",
        NominalAt "h at parameter 0, plate far off: not out",
        NominalPast "h one above parameter 0, plate far off: out",
        PointStands "h above parameter 1 (lowered): out",
        StripAt "strip sum at parameter 3: not out",
        StripPast "strip sum one above: out",
        StripWide "strip sum above 255",
        AnodeLowAt "anode at parameter 4, above nominal: not out",
        AnodeLowPast "anode one below, above nominal: out",
        AnodeLowIdle "anode below parameter 4, not above nominal: not out",
        AnodeHighAt "anode at parameter 5: not out",
        AnodeHighPast "anode one above: out",
        CountBelow "count one below its limit, no trip",
        CountAt "trip with the count at its limit",
        CountPast "trip with the count above its limit",
        CountLimit1 "trip with a limit of 1",
        CountLimit255 "trip with a limit of 255",
        CountEnds "a good sample ends a count",
        CountFull "count stays at 255",
        CountSurvives "trip at the first bad sample after a return",
        LimitLowered "limit lowered while a count runs, then a trip",
        LimitRaised "limit raised while a count runs",
        Unmasked "trip after the check is unmasked, count above limit",
        SafeOverride "trip in SAFE under override 1",
        TwoTrips "two checks trip at once: the lowest is noted",
        LowestMasked "the lowest check is masked, a higher one trips",
        RateFirst "first mark, raw count above 256 x parameter 10",
        RateAt "rate at 256 x parameter 10: no trip",
        RatePast "rate one above: out",
        Rate0 "parameter 10 at 0: rate 1 is out",
        Rate255At "parameter 10 at 255, rate 65,280: no trip",
        Rate255Past "parameter 10 at 255, rate 65,281: out",
        RateFull "counts of 65,536 or more in a second",
        RateWrap "raw count wraps, rate within its limit",
        RateWrapOut "raw count wraps, rate out",
        RawBackOne "raw count one less than the previous",
        RawLargest "raw 16,777,215: accepted",
        RawPast "raw 16,777,216: 0x50",
        RawWidest "raw 4,294,967,295: 0x50",
        Warm255 "temperature 255 with limit 255: no trip",
        WarmAndFast "checks 3 and 4 trip at once",
    }
}

pub const COMMANDS: [(u16, &str); 11] = [
    (0x6601, "6601 no operation"),
    (0x6602, "6602 SAFE"),
    (0x6603, "6603 CHECKOUT"),
    (0x6604, "6604 confirm"),
    (0x6607, "6607 set parameter"),
    (0x660D, "660d close door"),
    (0x660E, "660e supplies off"),
    (0x660F, "660f open door"),
    (0x6610, "6610 set supply"),
    (0x6611, "6611 set heater"),
    (0x6612, "6612 fire release"),
];

/// Refusals of a command that was read, and the commands that can meet them from power-on.
const REFUSALS: [(u8, &[u16]); 8] = [
    (0x22, &[0x6601, 0x6602, 0x6603, 0x6604, 0x6607, 0x660D, 0x660E, 0x660F, 0x6610, 0x6611, 0x6612]),
    (0x23, &[0x660F, 0x6610, 0x6611, 0x6612]),
    (0x24, &[0x6607, 0x660F, 0x6610, 0x6612]),
    (0x25, &[0x6604]),
    (0x27, &[0x6604]),
    (0x30, &[0x6603]),
    (0x40, &[0x6607, 0x6610, 0x6611, 0x6612]),
    (0x41, &[0x660D, 0x660F, 0x6612]),
];

/// Refusals that belong to no command.
const BARE: [(u8, &str); 5] = [
    (0x10, "0x10 header"),
    (0x11, "0x11 both links empty"),
    (0x20, "0x20 length"),
    (0x21, "0x21 unknown op-code"),
    (0x50, "0x50 raw count"),
];

const NOTES: [u8; 20] = [
    0x10, 0x20, 0x21, 0x22, 0x23, 0x24, 0x25, 0x26, 0x27, 0x28, 0x30, 0x40, 0x41, 0x50, 0x60, 0x61, 0x62, 0x63, 0x64,
    0x45,
];

pub const CAUSES: [&str; 6] = ["by check 0", "by check 1", "by check 2", "by check 3", "by check 4", "by command"];
pub const DRIVES: [&str; 7] = ["line 0", "line 1", "line 2", "line 3", "opening", "closing", "no drive"];
const SETTINGS: [&str; 5] = ["below lowest", "lowest", "highest", "above highest", "other"];
const TRIPS: [&str; 4] = ["entry", "in SAFE", "override", "masked"];
const WATCHED: [&str; 3] = ["started", "on at last but one tick", "off at last tick"];
const TIMING: [&str; 4] = ["acts at once", "acts after 1,999", "0x27 after 2,000", "lost with 0x28"];
pub const OUTPUTS: [&str; 6] =
    ["supply 0 set", "supply 1 set", "heater 0 on", "heater 0 off", "heater 1 on", "heater 1 off"];
pub const CRITICAL: [u16; 4] = [0x6607, 0x660F, 0x6610, 0x6612];
const SENSORS: [&str; 3] = ["at limit", "one above", "above, masked"];

#[derive(Clone)]
pub struct Tally {
    pub scripts: u64,
    pub malformed: u64,
    pub octets: u64,
    pub events: [u64; 4],
    pub ticks: u64,
    pub bare: [u64; 256],
    pub accepted: [u64; COMMANDS.len()],
    pub confirmed: [u64; COMMANDS.len()],
    pub refused: Vec<[u64; 256]>,
    pub place: [[u64; 2]; COMMANDS.len()],
    pub notes: [u64; 256],
    pub trips: [[u64; 4]; 5],
    pub entries: [[[u64; 2]; 7]; 6],
    pub settings: [[u64; 5]; 25],
    pub sensors: [[u64; 3]; 8],
    pub drives: [[u64; 3]; 6],
    pub timing: [[u64; 4]; CRITICAL.len()],
    pub outputs: [u64; OUTPUTS.len()],
    pub edges: Vec<u64>,
    pub texts: Vec<u64>,
    /// Damaged texts that were not bad where they were meant to be.
    pub mislabelled: u64,
}

pub fn command_row(opcode: u16) -> Option<usize> {
    COMMANDS.iter().position(|&(known, _)| known == opcode)
}

impl Tally {
    pub fn new() -> Self {
        Tally {
            scripts: 0,
            malformed: 0,
            octets: 0,
            events: [0; 4],
            ticks: 0,
            bare: [0; 256],
            accepted: [0; COMMANDS.len()],
            confirmed: [0; COMMANDS.len()],
            refused: vec![[0; 256]; COMMANDS.len()],
            place: [[0; 2]; COMMANDS.len()],
            notes: [0; 256],
            trips: [[0; 4]; 5],
            entries: [[[0; 2]; 7]; 6],
            settings: [[0; 5]; 25],
            sensors: [[0; 3]; 8],
            drives: [[0; 3]; 6],
            timing: [[0; 4]; CRITICAL.len()],
            outputs: [0; OUTPUTS.len()],
            edges: vec![0; Edge::ALL.len()],
            texts: vec![0; Text::ALL.len()],
            mislabelled: 0,
        }
    }

    pub fn edge(&mut self, edge: Edge) {
        self.edges[edge as usize] += 1;
    }

    pub fn edge_if(&mut self, reached: bool, edge: Edge) {
        self.edges[edge as usize] += u64::from(reached);
    }

    pub fn text(&mut self, text: Text) {
        self.texts[text as usize] += 1;
    }

    pub fn add(&mut self, other: &Tally) {
        fn join(sums: &mut [u64], more: &[u64]) {
            for (sum, more) in sums.iter_mut().zip(more) {
                *sum += more;
            }
        }
        self.scripts += other.scripts;
        self.malformed += other.malformed;
        self.octets += other.octets;
        self.ticks += other.ticks;
        self.mislabelled += other.mislabelled;
        join(&mut self.events, &other.events);
        join(&mut self.bare, &other.bare);
        join(&mut self.accepted, &other.accepted);
        join(&mut self.confirmed, &other.confirmed);
        join(self.refused.as_flattened_mut(), other.refused.as_flattened());
        join(self.place.as_flattened_mut(), other.place.as_flattened());
        join(&mut self.notes, &other.notes);
        join(self.trips.as_flattened_mut(), other.trips.as_flattened());
        join(self.entries.as_flattened_mut().as_flattened_mut(), other.entries.as_flattened().as_flattened());
        join(self.settings.as_flattened_mut(), other.settings.as_flattened());
        join(self.sensors.as_flattened_mut(), other.sensors.as_flattened());
        join(self.drives.as_flattened_mut(), other.drives.as_flattened());
        join(self.timing.as_flattened_mut(), other.timing.as_flattened());
        join(&mut self.outputs, &other.outputs);
        join(&mut self.edges, &other.edges);
        join(&mut self.texts, &other.texts);
    }

    /// The table, and how many wanted items were never reached.
    pub fn table(&self) -> (String, u64) {
        let mut table = Table { out: String::new(), never: 0 };
        self.totals(&mut table);
        self.commands(&mut table);
        self.drives(&mut table);
        self.checks(&mut table);
        table.head("Parameters set (confirmed), or refused with 0x40");
        for (index, counts) in self.settings.iter().enumerate() {
            let range = &bench::head::RANGES[index];
            let wanted = |column: usize| match column {
                0 => range.lowest > 0,
                3 => range.highest < 255,
                4 => range.highest - range.lowest > 1,
                _ => true,
            };
            table.row(&format!("parameter {index}"), &SETTINGS, counts, wanted);
        }
        table.head("Edges");
        for edge in Edge::ALL {
            table.line(edge.name(), self.edges[*edge as usize]);
        }
        table.head("Texts");
        for text in Text::ALL {
            table.line(text.name(), self.texts[*text as usize]);
        }
        if self.mislabelled > 0 {
            let _ = writeln!(table.out, "  {} texts were not bad where they were meant to be", self.mislabelled);
        }
        (table.out, table.never)
    }

    fn totals(&self, table: &mut Table) {
        table.head("Totals");
        table.line("scripts", self.scripts);
        table.line("scripts that ended in E", self.malformed);
        table.line("octets read", self.octets);
        for (name, count) in
            ["event lines F", "event lines T", "event lines H", "event lines S"].iter().zip(self.events)
        {
            table.line(name, count);
        }
        table.line("single ticks", self.ticks);
    }

    fn commands(&self, table: &mut Table) {
        table.head("Commands accepted");
        for (row, (opcode, name)) in COMMANDS.iter().enumerate() {
            table.line(name, self.accepted[row]);
            if matches!(opcode, 0x6607 | 0x660F | 0x6610 | 0x6612) {
                table.line(&format!("{name}, confirmed"), self.confirmed[row]);
            }
        }
        table.head("Commands refused");
        for (code, opcodes) in REFUSALS {
            for opcode in opcodes {
                let Some(row) = command_row(*opcode) else { continue };
                let name = COMMANDS[row].1;
                if code == 0x40 {
                    table.line(&format!("0x40 at octet 8: {name}"), self.place[row][0]);
                    table.line(&format!("0x40 at octet 9: {name}"), self.place[row][1]);
                } else {
                    table.line(&format!("{code:#04x}: {name}"), self.refused[row][usize::from(code)]);
                }
            }
        }
        table.unreachable("0x45: 6604 confirm", self.refused[3][0x45]);
        for (code, name) in BARE {
            table.line(name, self.bare[usize::from(code)]);
        }
        table.head("Entries that are logged, by code");
        for code in NOTES {
            let (name, count) = (format!("{code:#04x}"), self.notes[usize::from(code)]);
            match code {
                0x45 => table.unreachable(&name, count),
                _ => table.line(&name, count),
            }
        }
        table.unreachable("0x52", self.notes[0x52]);
    }

    fn drives(&self, table: &mut Table) {
        table.head("Outputs set by a command");
        for (name, count) in OUTPUTS.iter().zip(self.outputs) {
            table.line(name, count);
        }
        table.head("Drives");
        for (line, counts) in DRIVES.iter().zip(&self.drives) {
            table.row(line, &WATCHED, counts, |_| true);
        }
        table.head("Right confirms and ticks");
        for (opcode, counts) in CRITICAL.iter().zip(&self.timing) {
            table.row(&format!("{opcode:04x}"), &TIMING, counts, |_| true);
        }
    }

    fn checks(&self, table: &mut Table) {
        table.head("Trips");
        for (check, counts) in self.trips.iter().enumerate() {
            table.row(&format!("check {check}"), &TRIPS, counts, |column| check > 0 || column != 1);
        }
        table.unreachable("check 0 in SAFE", self.trips[0][1]);
        table.head("Entries into SAFE, by drive and cause, with parameter 24 at 0 and at 1");
        for (cause, by_drive) in CAUSES.iter().zip(&self.entries) {
            for (drive, counts) in DRIVES.iter().zip(by_drive) {
                table.row(&format!("{cause}, {drive}"), &["at 0", "at 1"], counts, |_| true);
            }
        }
        table.head("Temperatures");
        for (sensor, counts) in self.sensors.iter().enumerate() {
            table.row(&format!("sensor {sensor}"), &SENSORS, counts, |_| true);
        }
    }
}

struct Table {
    out: String,
    never: u64,
}

impl Table {
    fn head(&mut self, title: &str) {
        let _ = writeln!(self.out, "\n{title}");
    }

    fn count(&mut self, count: u64) -> String {
        if count == 0 {
            self.never += 1;
            "NEVER".to_string()
        } else {
            count.to_string()
        }
    }

    fn line(&mut self, name: &str, count: u64) {
        let count = self.count(count);
        let _ = writeln!(self.out, "  {name:<54} {count:>12}");
    }

    /// Something that the rules let nobody reach through headrun.
    fn unreachable(&mut self, name: &str, count: u64) {
        let _ = writeln!(self.out, "  {name:<54} {count:>12}  (the rules let no script reach it)");
    }

    fn row(&mut self, name: &str, columns: &[&str], counts: &[u64], wanted: impl Fn(usize) -> bool) {
        let _ = write!(self.out, "  {name:<22}");
        for (column, (title, &count)) in columns.iter().zip(counts).enumerate() {
            let count = if wanted(column) || count > 0 { self.count(count) } else { "-".to_string() };
            let _ = write!(self.out, " {title} {count:>7}");
            if column + 1 < columns.len() {
                self.out.push(',');
            }
        }
        self.out.push('\n');
    }
}
