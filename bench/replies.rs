//! Replies, judged and counted by their kind.

use crate::sip;
use crate::terminal::Asked;
use std::fmt;

/// What came of a message.
#[derive(Clone, PartialEq, Eq, PartialOrd, Ord)]
pub enum Outcome<Text> {
    Accepted,
    /// It is a cancellation, and was accepted.
    Cancelled,
    /// It was refused with this text, the number of `DEPENDS n` left out.
    Refused(Text),
    /// The server sent the message back.
    Echoed,
}

/// Judges a reply to a message, both without their carriage returns; none where it is no reply to it.
pub fn judge<'r>(asked: Asked, digit: Option<u8>, message: &[u8], reply: &'r [u8]) -> Option<Outcome<&'r [u8]>> {
    if reply == message {
        return Some(Outcome::Echoed);
    }
    let code = asked.reply_code();
    if !reply.starts_with(code) || digit.is_some_and(|digit| !sip::is_sealed(reply, digit)) {
        return None;
    }
    let accepted = match code {
        b"18" => !reply.starts_with(b"18010001"),
        _ => reply.get(2) == Some(&b'1'),
    };
    let text = sip::field(reply, b"AF");
    match (accepted, asked.cancels, text) {
        (true, false, None) => Some(Outcome::Accepted),
        (true, true, Some(text)) if text.starts_with(b"CANCELLED ") => Some(Outcome::Cancelled),
        (false, _, Some(text)) if text.starts_with(b"DEPENDS ") => Some(Outcome::Refused(b"DEPENDS")),
        (false, _, Some(text)) => Some(Outcome::Refused(text)),
        _ => None,
    }
}

/// How many replies there were of each code and outcome.
#[derive(Default)]
pub struct Counts(Vec<([u8; 2], Outcome<Vec<u8>>, u64)>);

impl Counts {
    pub fn count(&mut self, asked: Asked, outcome: &Outcome<&[u8]>) {
        let code = *asked.reply_code();
        let same = |kept: &Outcome<Vec<u8>>| match (kept, outcome) {
            (Outcome::Refused(kept), Outcome::Refused(text)) => kept == text,
            (Outcome::Accepted, Outcome::Accepted) => true,
            (Outcome::Cancelled, Outcome::Cancelled) => true,
            (Outcome::Echoed, Outcome::Echoed) => true,
            _ => false,
        };
        match self.0.iter_mut().find(|(of, kept, _)| *of == code && same(kept)) {
            Some((_, _, count)) => *count += 1,
            None => self.0.push((code, outcome.clone().kept(), 1)),
        }
    }

    /// Adds the counts of another connection.
    pub fn add(&mut self, others: Counts) {
        for (code, outcome, count) in others.0 {
            match self.0.iter_mut().find(|(of, kept, _)| *of == code && *kept == outcome) {
                Some((_, _, sum)) => *sum += count,
                None => self.0.push((code, outcome, count)),
            }
        }
        self.0.sort();
    }
}

impl Outcome<&[u8]> {
    fn kept(self) -> Outcome<Vec<u8>> {
        match self {
            Outcome::Refused(text) => Outcome::Refused(text.to_vec()),
            Outcome::Accepted => Outcome::Accepted,
            Outcome::Cancelled => Outcome::Cancelled,
            Outcome::Echoed => Outcome::Echoed,
        }
    }
}

impl fmt::Display for Counts {
    fn fmt(&self, f: &mut fmt::Formatter<'_>) -> fmt::Result {
        for (code, outcome, count) in &self.0 {
            let code = String::from_utf8_lossy(code);
            match outcome {
                Outcome::Accepted => writeln!(f, "  {code} {count:>9} accepted")?,
                Outcome::Cancelled => writeln!(f, "  {code} {count:>9} accepted: a cancellation")?,
                Outcome::Refused(text) => {
                    writeln!(f, "  {code} {count:>9} refused: {}", String::from_utf8_lossy(text))?
                }
                Outcome::Echoed => writeln!(f, "  {code} {count:>9} echoed, in the place of this reply")?,
            }
        }
        Ok(())
    }
}
