//! From the octets on two links to one command: link checks, the choice between the links, op-code and words.

use crate::report::Report;

/// What is wrong with a link.
#[derive(Clone, Copy, Debug, PartialEq, Eq)]
pub enum LinkFault {
    /// Fewer than 8 octets, or not as many as the header says.
    Length,
    /// The first octet of the header that is not a telecommand's: 0, 1 or 2.
    Header(u16),
}

impl LinkFault {
    pub const fn report(self) -> Report {
        match self {
            LinkFault::Length => Report::new(1, 0x20, 4, 0),
            LinkFault::Header(octet) => Report::new(1, 0x10, octet, 0),
        }
    }
}

/// What is wrong with a data field; each case bears the frame's op-code.
#[derive(Clone, Copy, Debug, PartialEq, Eq)]
pub enum FieldFault {
    UnknownCommand(u16),
    WordCount(u16),
}

impl FieldFault {
    pub const fn report(self) -> Report {
        match self {
            FieldFault::UnknownCommand(opcode) => Report::new(2, 0x21, 6, opcode),
            FieldFault::WordCount(opcode) => Report::new(2, 0x22, 8, opcode),
        }
    }
}

/// A critical command: what may wait for a confirm.
#[derive(Clone, Copy, Debug, PartialEq, Eq)]
pub enum Order {
    SetParameter { index: u8, value: u8 },
    OpenDoor,
    SetSupply { supply: u8, set_point: u8 },
    FireRelease { line: u8, period: u8 },
}

impl Order {
    pub const fn opcode(self) -> u16 {
        match self {
            Order::SetParameter { .. } => 0x6607,
            Order::OpenDoor => 0x660F,
            Order::SetSupply { .. } => 0x6610,
            Order::FireRelease { .. } => 0x6612,
        }
    }
}

/// One of the eleven commands, with what its words say.
#[derive(Clone, Copy, Debug, PartialEq, Eq)]
pub enum Command {
    NoOperation,
    Safe,
    Checkout,
    Confirm { opcode: u16, complement: u16 },
    CloseDoor,
    SuppliesOff,
    SetHeater { heater: u8, value: u8 },
    Critical(Order),
}

impl Command {
    pub const fn opcode(self) -> u16 {
        match self {
            Command::NoOperation => 0x6601,
            Command::Safe => 0x6602,
            Command::Checkout => 0x6603,
            Command::Confirm { .. } => 0x6604,
            Command::CloseDoor => 0x660D,
            Command::SuppliesOff => 0x660E,
            Command::SetHeater { .. } => 0x6611,
            Command::Critical(order) => order.opcode(),
        }
    }
}

/// The data field of a well formed link: everything from octet 6, at least an op-code.
pub fn data_field(link: &[u8]) -> Result<&[u8], LinkFault> {
    let &[octet0, octet1, octet2, _, high, low, ref field @ ..] = link else {
        return Err(LinkFault::Length);
    };
    let number = usize::from(u16::from_be_bytes([high, low]));
    if field.len() < 2 || field.len() != number + 1 {
        return Err(LinkFault::Length);
    }
    if octet0 != 0x11 {
        Err(LinkFault::Header(0))
    } else if octet1 != 0x01 {
        Err(LinkFault::Header(1))
    } else if octet2 < 0xC0 {
        Err(LinkFault::Header(2))
    } else {
        Ok(field)
    }
}

/// What two links come to.
#[derive(Clone, Copy, Debug, PartialEq, Eq)]
pub struct Choice<'a> {
    /// The data field handed on, or the fault of the link that is to blame.
    pub field: Result<&'a [u8], LinkFault>,
    /// The fault of a primary that was passed over.
    pub set_aside: Option<LinkFault>,
}

/// Judges the links, the redundant one only where the primary is not well formed.
pub fn choose<'a>(primary: &'a [u8], redundant: &'a [u8]) -> Choice<'a> {
    let fault = match data_field(primary) {
        Ok(field) => return Choice { field: Ok(field), set_aside: None },
        Err(fault) => fault,
    };
    match data_field(redundant) {
        Ok(field) => Choice { field: Ok(field), set_aside: (!primary.is_empty()).then_some(fault) },
        Err(other) => {
            let blamed = if primary.is_empty() { other } else { fault };
            Choice { field: Err(blamed), set_aside: None }
        }
    }
}

/// The command of a data field.
pub fn read(field: &[u8]) -> Result<Command, FieldFault> {
    let &[high, low, ref words @ ..] = field else {
        // No well formed link comes to this: its data field has at least the op-code.
        return Err(FieldFault::UnknownCommand(0));
    };
    let opcode = u16::from_be_bytes([high, low]);
    let command = match (opcode, words) {
        (0x6601, []) => Command::NoOperation,
        (0x6602, []) => Command::Safe,
        (0x6603, []) => Command::Checkout,
        (0x6604, &[a, b, c, d]) => {
            Command::Confirm { opcode: u16::from_be_bytes([a, b]), complement: u16::from_be_bytes([c, d]) }
        }
        (0x6607, &[index, value]) => Command::Critical(Order::SetParameter { index, value }),
        (0x660D, []) => Command::CloseDoor,
        (0x660E, []) => Command::SuppliesOff,
        (0x660F, []) => Command::Critical(Order::OpenDoor),
        (0x6610, &[supply, set_point]) => Command::Critical(Order::SetSupply { supply, set_point }),
        (0x6611, &[heater, value]) => Command::SetHeater { heater, value },
        (0x6612, &[line, period]) => Command::Critical(Order::FireRelease { line, period }),
        (0x6601..=0x6604 | 0x6607 | 0x660D..=0x6612, _) => return Err(FieldFault::WordCount(opcode)),
        _ => return Err(FieldFault::UnknownCommand(opcode)),
    };
    Ok(command)
}

#[cfg(test)]
mod tests {
    use super::*;

    fn octets(text: &str) -> Vec<u8> {
        text.split_whitespace().map(|two| u8::from_str_radix(two, 16).unwrap()).collect()
    }

    fn fault_of(text: &str) -> Option<(u8, u16)> {
        data_field(&octets(text)).err().map(|fault| (fault.report().code, fault.report().place))
    }

    #[test]
    fn well_formed_links_of_the_page() {
        assert_eq!(fault_of("11 01 C0 00 00 01 66 01"), None);
        assert_eq!(fault_of("11 01 C0 00 00 01 66"), Some((0x20, 4)));
        assert_eq!(fault_of("11 01 C0 00 00 02 66 01"), Some((0x20, 4)));
        assert_eq!(fault_of("11 01 C0 00 00 01 66 01 00"), Some((0x20, 4)));
        assert_eq!(fault_of(""), Some((0x20, 4)));
        assert_eq!(fault_of("01 01 C0 00 00 01 66 01"), Some((0x10, 0)));
        assert_eq!(fault_of("11 02 80 00 00 01 66 01"), Some((0x10, 1)));
        assert_eq!(fault_of("11 01 80 00 00 01 66 01"), Some((0x10, 2)));
        assert_eq!(fault_of("00 00 00 00 00 01 00 00"), Some((0x10, 0)));
        assert_eq!(fault_of("11 01 C0 00 00 00 66"), Some((0x20, 4)));
    }

    /// What the links read as, and what was set aside.
    fn read_links(primary: &str, redundant: &str) -> (Result<Command, Report>, Option<Report>) {
        let (primary, redundant) = (octets(primary), octets(redundant));
        let choice = choose(&primary, &redundant);
        let command = choice.field.map_err(LinkFault::report).and_then(|field| read(field).map_err(FieldFault::report));
        (command, choice.set_aside.map(LinkFault::report))
    }

    #[test]
    fn reader_table_of_the_page() {
        let checkout = "11 01 C0 00 00 01 66 03";
        assert_eq!(read_links(checkout, ""), (Ok(Command::Checkout), None));
        assert_eq!(
            read_links("11 01 C0 01 00 03 66 12 00 02", ""),
            (Ok(Command::Critical(Order::FireRelease { line: 0, period: 2 })), None)
        );
        assert_eq!(
            read_links("11 01 C0 02 00 05 66 04 66 12 99 ED", ""),
            (Ok(Command::Confirm { opcode: 0x6612, complement: 0x99ED }), None)
        );
        assert_eq!(read_links("11 01 C0 00 00 01 66 05", ""), (Err(Report::new(2, 0x21, 6, 0x6605)), None));
        assert_eq!(read_links("11 01 C0 00 00 01 66 04", ""), (Err(Report::new(2, 0x22, 8, 0x6604)), None));
        assert_eq!(read_links("11 01 C0 00 00 03 66 04 66 12", ""), (Err(Report::new(2, 0x22, 8, 0x6604)), None));
        assert_eq!(read_links("11 01 C0 00 00 03 66 01 00 00", ""), (Err(Report::new(2, 0x22, 8, 0x6601)), None));
        assert_eq!(
            read_links("01 01 C0 00 00 01 66 03", checkout),
            (Ok(Command::Checkout), Some(Report::new(1, 0x10, 0, 0)))
        );
        assert_eq!(read_links("11 01 C0", ""), (Err(Report::new(1, 0x20, 4, 0)), None));
        assert_eq!(read_links("", "11 02 C0 00 00 01 66 03"), (Err(Report::new(1, 0x10, 1, 0)), None));
        assert_eq!(read_links("", ""), (Err(Report::new(1, 0x20, 4, 0)), None));
        assert_eq!(read_links("", checkout), (Ok(Command::Checkout), None));
    }
}
