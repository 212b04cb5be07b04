//! A terminal: what it asks next, at random and by what it did before.

use crate::library::{Library, Login};
use crate::random::Random;
use crate::sip::Line;
use std::collections::VecDeque;

/// How many of its last commands a terminal may cancel: a failed transaction is cancelled soon.
const RECENT: usize = 4;

/// How many of its loans, and of its holds, a terminal remembers.
const REMEMBERED: usize = 64;

/// A kind of message that asks something of the desk.
#[derive(Clone, Copy, PartialEq, Eq)]
pub enum Kind {
    Checkout,
    Checkin,
    Renew,
    Add,
    Delete,
    Change,
    Item,
}

/// What is asked: of which patron, and of which copy, or for holds of which title, by their places in the library.
#[derive(Clone, Copy)]
pub struct Asked {
    pub kind: Kind,
    pub cancels: bool,
    patron: usize,
    thing: usize,
}

impl Asked {
    fn new(kind: Kind, patron: usize, thing: usize) -> Asked {
        Asked { kind, cancels: false, patron, thing }
    }

    /// The message that cancels this one.
    fn cancellation(self) -> Asked {
        let kind = match self.kind {
            Kind::Checkout => Kind::Checkin,
            Kind::Checkin => Kind::Checkout,
            Kind::Add => Kind::Delete,
            Kind::Delete => Kind::Add,
            same => same,
        };
        Asked { kind, cancels: true, ..self }
    }

    /// The code of the reply to it.
    pub fn reply_code(self) -> &'static [u8; 2] {
        match self.kind {
            Kind::Checkout => b"12",
            Kind::Checkin => b"10",
            Kind::Renew => b"30",
            Kind::Add | Kind::Delete | Kind::Change => b"16",
            Kind::Item => b"18",
        }
    }
}

/// A terminal at one connection.
pub struct Terminal<'a> {
    library: &'a Library,
    login: &'a Login,
    random: Random,
    cancel_percent: u64,
    /// The sequence digit of the next message, where messages are sealed.
    sequence: Option<u8>,
    recent: VecDeque<Asked>,
    loans: VecDeque<(usize, usize)>,
    holds: VecDeque<(usize, usize)>,
}

impl<'a> Terminal<'a> {
    pub fn new(library: &'a Library, connection: usize, seed: u64, cancel_percent: u64, sealed: bool) -> Self {
        Terminal {
            library,
            login: &library.terminals[connection % library.terminals.len()],
            random: Random::new(seed, connection),
            cancel_percent,
            sequence: sealed.then_some(0),
            recent: VecDeque::new(),
            loans: VecDeque::new(),
            holds: VecDeque::new(),
        }
    }

    /// Writes its login.
    pub fn log_in(&mut self, line: &mut Vec<u8>) -> Option<u8> {
        let message = Line::begin(line, b"9300")
            .field(b"CN", &self.login.terminal)
            .field(b"CO", &self.login.password);
        let digit = self.next_digit();
        message.end(digit);
        digit
    }

    /// What it asks next, written into the line, and with which sequence digit.
    pub fn ask(&mut self, line: &mut Vec<u8>) -> (Asked, Option<u8>) {
        let asked = self.draw();
        let digit = self.next_digit();
        self.write(asked, line).end(digit);
        (asked, digit)
    }

    /// Remembers what was done.
    pub fn remember(&mut self, asked: Asked) {
        let pair = (asked.patron, asked.thing);
        if asked.cancels || asked.kind == Kind::Item {
            return;
        }
        keep(&mut self.recent, asked, RECENT);
        match asked.kind {
            Kind::Checkout => keep(&mut self.loans, pair, REMEMBERED),
            Kind::Add => keep(&mut self.holds, pair, REMEMBERED),
            _ => {}
        }
    }

    fn next_digit(&mut self) -> Option<u8> {
        let digit = self.sequence;
        self.sequence = digit.map(|digit| (digit + 1) % 10);
        digit
    }

    fn draw(&mut self) -> Asked {
        if !self.recent.is_empty() && self.random.percent(self.cancel_percent) {
            let place = self.random.below(self.recent.len());
            if let Some(asked) = self.recent.remove(place) {
                return asked.cancellation();
            }
        }
        let patron = self.random.below(self.library.patrons.len());
        let copy = self.random.below(self.library.copies.len());
        match self.random.below(5) {
            0 => self.draw_hold(patron),
            1 => Asked::new(Kind::Checkout, patron, copy),
            2 => {
                let (patron, copy) = self.loans.pop_front().unwrap_or((patron, copy));
                Asked::new(Kind::Checkin, patron, copy)
            }
            3 => {
                let place = self.random.below(self.loans.len().max(1));
                let (patron, copy) = self.loans.get(place).copied().unwrap_or((patron, copy));
                Asked::new(Kind::Renew, patron, copy)
            }
            _ => Asked::new(Kind::Item, patron, copy),
        }
    }

    fn draw_hold(&mut self, patron: usize) -> Asked {
        let title = self.random.below(self.library.titles.len());
        match self.random.below(5) {
            3 => {
                let (patron, title) = self.holds.pop_front().unwrap_or((patron, title));
                Asked::new(Kind::Delete, patron, title)
            }
            4 => {
                let place = self.random.below(self.holds.len().max(1));
                let (patron, title) = self.holds.get(place).copied().unwrap_or((patron, title));
                Asked::new(Kind::Change, patron, title)
            }
            _ => Asked::new(Kind::Add, patron, title),
        }
    }

    /// Writes a message up to its trailer.
    fn write<'l>(&mut self, asked: Asked, line: &'l mut Vec<u8>) -> Line<'l> {
        let library = self.library;
        let institution = &library.institution;
        let branch = &library.branches[self.random.below(library.branches.len())];
        let thing = |names: &'a [Box<[u8]>]| &*names[asked.thing];
        let message = match asked.kind {
            Kind::Checkout => Line::begin(line, b"11NN").date().date(),
            Kind::Checkin => Line::begin(line, b"09N").date().date().field(b"AP", branch),
            Kind::Renew => Line::begin(line, b"29NN").date().date(),
            Kind::Add => Line::begin(line, b"15+").date().field(b"BS", branch).field(b"BY", b"2"),
            Kind::Delete => Line::begin(line, b"15-").date(),
            Kind::Change => Line::begin(line, b"15*").date().field(b"BS", branch),
            Kind::Item => Line::begin(line, b"17").date(),
        };
        let message = message.field(b"AO", institution);
        let message = match asked.kind {
            Kind::Checkin | Kind::Item => message,
            _ => message.field(b"AA", &library.patrons[asked.patron]),
        };
        let message = match asked.kind {
            Kind::Add | Kind::Delete | Kind::Change => message.field(b"AJ", thing(&library.titles)),
            _ => message.field(b"AB", thing(&library.copies)).field(b"AC", b""),
        };
        message.cancels(asked.cancels)
    }
}

/// Adds to the end of a list, whose first goes where it is full.
fn keep<T>(list: &mut VecDeque<T>, item: T, most: usize) {
    if list.len() == most {
        list.pop_front();
    }
    list.push_back(item);
}
