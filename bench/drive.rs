//! Driving a server by terminals, a connection and a thread each.

use crate::library::Library;
use crate::machine::{Usage, load};
use crate::replies::{Counts, Outcome, judge};
use crate::terminal::Terminal;
use crate::Failure;
use std::io::{Read, Write};
use std::net::{SocketAddr, TcpStream};
use std::thread;
use std::time::{Duration, Instant};

/// How long a reply may take before the run is given up.
const PATIENCE: Duration = Duration::from_secs(20);

/// For how long each connection is driven.
#[derive(Clone, Copy)]
pub enum Length {
    Turns(usize),
    Time(Duration),
}

/// What is sent.
pub struct Plan {
    pub library: Library,
    pub length: Length,
    pub cancel_percent: u64,
    /// Whether messages carry sequence digits and check numbers.
    pub sealed: bool,
    pub seed: u64,
}

/// What came of it.
pub struct Driven {
    pub connections: usize,
    /// From the first message to the last reply, logins left out.
    pub seconds: f64,
    /// From each message to its reply, in nanoseconds, from the least.
    pub nanoseconds: Vec<u32>,
    pub replies: Counts,
    /// The cores that this process used, and those of the whole machine.
    pub loader: f64,
    pub machine: f64,
    /// The machine's load average of a minute, at the end.
    pub load: f64,
    /// The connections, still open.
    pub open: Vec<TcpStream>,
}

impl Driven {
    pub fn turns(&self) -> usize {
        self.nanoseconds.len()
    }

    pub fn turns_a_second(&self) -> f64 {
        self.turns() as f64 / self.seconds
    }

    /// The time in microseconds that so many of a thousand turns took at most.
    pub fn microseconds(&self, of_thousand: usize) -> f64 {
        let place = (self.nanoseconds.len() * of_thousand / 1_000).min(self.nanoseconds.len().saturating_sub(1));
        self.nanoseconds.get(place).map_or(0.0, |time| f64::from(*time) / 1_000.0)
    }
}

/// A connection whose terminal is logged in, and what was noted of it.
struct Driver<'a> {
    terminal: Terminal<'a>,
    stream: TcpStream,
    line: Vec<u8>,
    reply: Vec<u8>,
    nanoseconds: Vec<u32>,
    replies: Counts,
}

/// Terminals that are connected and logged in.
pub struct Ready<'a> {
    plan: &'a Plan,
    drivers: Vec<Driver<'a>>,
}

impl<'a> Ready<'a> {
    /// Connects so many terminals to a server, and logs them in.
    pub fn open(server: SocketAddr, plan: &'a Plan, connections: usize) -> Result<Ready<'a>, Failure> {
        let drivers: Result<_, _> = (0..connections).map(|place| Driver::open(server, plan, place)).collect();
        Ok(Ready { plan, drivers: drivers? })
    }

    /// Makes their turns, all beginning at once, and gives their connections back, still open.
    pub fn drive(mut self) -> Result<Driven, Failure> {
        let mut driven = self.step(self.plan.length)?;
        driven.open = self.drivers.into_iter().map(|driver| driver.stream).collect();
        Ok(driven)
    }

    /// Makes so many turns of each, all beginning at once. The connections stay.
    pub fn step(&mut self, length: Length) -> Result<Driven, Failure> {
        let connections = self.drivers.len();
        let usage = Usage::now("self")?;
        let begun = Instant::now();
        thread::scope(|scope| {
            let start = |driver| scope.spawn(move || Driver::run(driver, length));
            let threads: Vec<_> = self.drivers.iter_mut().map(start).collect();
            threads.into_iter().try_for_each(|thread| thread.join().map_err(|_| "a thread ended badly")?)
        })?;
        let seconds = begun.elapsed().as_secs_f64();
        let used = Usage::now("self")?.since(&usage);
        let mut driven = Driven {
            connections,
            seconds,
            nanoseconds: Vec::new(),
            replies: Counts::default(),
            loader: used.process / seconds,
            machine: used.machine / seconds,
            load: load()?,
            open: Vec::new(),
        };
        for driver in &mut self.drivers {
            driven.nanoseconds.append(&mut driver.nanoseconds);
            driven.replies.add(std::mem::take(&mut driver.replies));
        }
        driven.nanoseconds.sort_unstable();
        Ok(driven)
    }
}

impl<'a> Driver<'a> {
    /// Connects and logs in.
    fn open(server: SocketAddr, plan: &'a Plan, place: usize) -> Result<Driver<'a>, Failure> {
        let stream = TcpStream::connect(server).map_err(|error| format!("can't connect to {server}: {error}"))?;
        stream.set_nodelay(true)?;
        stream.set_read_timeout(Some(PATIENCE))?;
        let terminal = Terminal::new(&plan.library, place, plan.seed, plan.cancel_percent, plan.sealed);
        let mut driver = Driver {
            terminal,
            stream,
            line: Vec::new(),
            reply: Vec::new(),
            nanoseconds: Vec::new(),
            replies: Counts::default(),
        };
        driver.terminal.log_in(&mut driver.line);
        driver.exchange()?;
        if !driver.reply.starts_with(b"941") && driver.reply != driver.line {
            return Err(driver.surprise());
        }
        Ok(driver)
    }

    /// Makes the turns.
    fn run(&mut self, length: Length) -> Result<(), Failure> {
        let begun = Instant::now();
        for turn in 0.. {
            let over = match length {
                Length::Turns(turns) => turn == turns,
                Length::Time(time) => begun.elapsed() >= time,
            };
            if over {
                break;
            }
            self.turn()?;
        }
        Ok(())
    }

    /// Sends a message, waits for its reply, and judges it.
    fn turn(&mut self) -> Result<(), Failure> {
        let (asked, digit) = self.terminal.ask(&mut self.line);
        let sent = Instant::now();
        self.exchange()?;
        let time = sent.elapsed().as_nanos();
        self.nanoseconds.push(u32::try_from(time).unwrap_or(u32::MAX));
        let message = self.line.strip_suffix(b"\r").unwrap_or(&self.line);
        let reply = self.reply.strip_suffix(b"\r").unwrap_or(&self.reply);
        let Some(outcome) = judge(asked, digit, message, reply) else {
            return Err(self.surprise());
        };
        self.replies.count(asked, &outcome);
        if matches!(outcome, Outcome::Accepted | Outcome::Echoed) {
            self.terminal.remember(asked);
        }
        Ok(())
    }

    /// Sends the line, and reads until a carriage return ends what came.
    fn exchange(&mut self) -> Result<(), Failure> {
        self.stream.write_all(&self.line).map_err(|error| self.lost(&error.to_string()))?;
        self.reply.clear();
        let mut piece = [0; 2_048];
        while self.reply.last() != Some(&b'\r') {
            match self.stream.read(&mut piece) {
                Ok(0) => return Err(self.lost("the server closed the connection")),
                Ok(count) => self.reply.extend_from_slice(&piece[..count]),
                Err(error) => return Err(self.lost(&error.to_string())),
            }
        }
        Ok(())
    }

    fn lost(&self, why: &str) -> Failure {
        format!("no reply to {}: {why}", String::from_utf8_lossy(&self.line)).into()
    }

    fn surprise(&self) -> Failure {
        let (line, reply) = (String::from_utf8_lossy(&self.line), String::from_utf8_lossy(&self.reply));
        format!("{line:?} is answered {reply:?}").into()
    }
}
