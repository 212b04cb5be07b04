//! SIP2 messages as bytes (docs/protocol.md).

/// The date of every message, which holddesk never compares with the present.
const DATE: &[u8] = b"20260301    100000";

/// A message in the making.
pub struct Line<'a>(&'a mut Vec<u8>);

impl<'a> Line<'a> {
    /// Begins a message in the place of an older one.
    pub fn begin(text: &'a mut Vec<u8>, code_and_flags: &[u8]) -> Line<'a> {
        text.clear();
        text.extend_from_slice(code_and_flags);
        Line(text)
    }

    pub fn date(self) -> Self {
        self.0.extend_from_slice(DATE);
        self
    }

    pub fn field(self, identifier: &[u8; 2], value: &[u8]) -> Self {
        self.0.extend_from_slice(identifier);
        self.0.extend_from_slice(value);
        self.0.push(b'|');
        self
    }

    /// BI, by which a message cancels what the opposite one did.
    pub fn cancels(self, cancels: bool) -> Self {
        if cancels { self.field(b"BI", b"Y") } else { self }
    }

    /// Ends it with a sequence digit and a check number, where one is given, and a carriage return.
    pub fn end(self, sequence: Option<u8>) {
        if let Some(digit) = sequence {
            self.0.extend_from_slice(b"AY");
            self.0.push(b'0' + digit);
            self.0.extend_from_slice(b"AZ");
            let number = check_number(self.0);
            self.0.extend_from_slice(format!("{number:04X}").as_bytes());
        }
        self.0.push(b'\r');
    }
}

/// The check number of a line up to and with its `AZ`: the two's complement of the sum of its bytes.
pub fn check_number(text: &[u8]) -> u16 {
    let sum = text.iter().fold(0u16, |sum, byte| sum.wrapping_add(u16::from(*byte)));
    sum.wrapping_neg()
}

/// Whether a reply, without its carriage return, ends with this sequence digit and its right check number.
pub fn is_sealed(reply: &[u8], digit: u8) -> bool {
    let Some(at) = reply.len().checked_sub(9) else {
        return false;
    };
    let (checked, number) = reply.split_at(at + 5);
    checked[at..] == [b'A', b'Y', b'0' + digit, b'A', b'Z']
        && std::str::from_utf8(number).is_ok_and(|text| u16::from_str_radix(text, 16) == Ok(check_number(checked)))
}

/// The value of a field of a reply, looked for after the bars.
pub fn field<'a>(reply: &'a [u8], identifier: &[u8; 2]) -> Option<&'a [u8]> {
    reply.split(|byte| *byte == b'|').find_map(|part| part.strip_prefix(identifier))
}
