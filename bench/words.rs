//! The words of the command line.

use crate::compare::Comparison;
use crate::drive::{Length, Plan};
use crate::echo::Echo;
use crate::library::Library;
use crate::long::{LongRun, turns_of_a_step};
use crate::Failure;
use std::collections::HashMap;
use std::net::SocketAddr;
use std::str::FromStr;
use std::time::Duration;

/// What `--help` says.
pub const HELP: &str = "hd_load: drives a SIP2 server over TCP, and says how fast it answers

  hd_load drive --server ADDRESS --catalogue FILE [options]
      Opens connections to a server that runs, each a terminal that logs in, sends a message, waits for its
      reply, and sends the next, with no pause between. Prints the turns a second, the 50th and 99th
      percentile and the worst of the times from a message to its reply, and the replies by their kind. The last
      line has these figures for programs, as an object of JSON: connections, turns, seconds, turns_a_second,
      p50_microseconds, p99_microseconds, worst_microseconds.
  hd_load echo --listen ADDRESS --workers N [--connections K]
      A server with the threads of holddesk serve (N workers, a bounded channel of accepted connections, pieces
      of at most 512 bytes), which sends each line back. Ends after K connections (0: never).
  hd_load compare --program HOLDDESK --catalogue FILE [options]
      Starts holddesk and the echo server by turns, with as many workers as connections, drives both alike, and
      prints holddesk's turns a second as a part of the echo server's: the median of the rounds, the least and the
      most. Looks that holddesk ends well, and that it counted the turns that were sent.

  hd_load long --program HOLDDESK --catalogue FILE [options]
      Starts holddesk with a worker for each connection, has T turns made in all, in steps, and prints after each
      step its speed, the memory of holddesk and how much of it came a turn. Looks that holddesk ends well, and that
      it counted the turns. When the catalogue's limit of commands is reached, further commands are refused.

Options of drive, compare and long (what stands where they aren't given):
  --connections C     how many connections, each of a thread (4; long: 16); in compare a list (1,4,16)
  --turns T           how many turns each connection makes after its login; long: all together (10000000)
  --steps S           long: in how many steps (10)
  --seconds S         or for how long (5)
  --cancel PERCENT    how many of a hundred turns cancel one of the last commands of the connection (10)
  --plain             messages without sequence digits and check numbers (with both)
  --terminals A,B     the terminals to log in as, in turn (all of the catalogue)
  --seed N            the generator's seed (1)
  --program PATH      compare, long: the program of holddesk (crates/holddesk/out/holddesk)
  --rounds N          compare: how often each is measured (3)

The other turns are holds, checkouts, checkins, renewals and item information, a fifth each, at random. Of the
holds three fifths are added, and the others deleted or changed where there is one of the connection's own;
checkins and renewals are of copies that it lent, where there are some. Patrons, titles and copies are those of
the catalogue (docs/catalogue.md), whose limit of commands should be 1000000.
";

/// What the command line asks for.
pub enum Order {
    Help,
    Drive { server: SocketAddr, connections: usize, plan: Plan },
    Echo(Echo),
    Compare(Comparison),
    Long(LongRun),
}

/// The words after the first, as options with their values.
struct Options(HashMap<String, String>);

/// Reads the words after the program's name.
pub fn read(mut words: impl Iterator<Item = String>) -> Result<Order, Failure> {
    let verb = words.next().unwrap_or_else(|| "--help".to_string());
    if ["--help", "-h", "help"].contains(&verb.as_str()) {
        return Ok(Order::Help);
    }
    let Some(mut options) = Options::read(words)? else {
        return Ok(Order::Help);
    };
    let order = match verb.as_str() {
        "drive" => {
            let server = options.required("server")?;
            let (connections, plan) = options.plan("4")?;
            Order::Drive { server, connections: connections[0], plan }
        }
        "echo" => Order::Echo(Echo {
            listen: options.required("listen")?,
            workers: options.number("workers", 4, 1..=1_000)?,
            connections: options.number("connections", 0, 0..=usize::MAX)?,
        }),
        "compare" => {
            let catalogue = options.text("catalogue");
            let (connections, plan) = options.plan("1,4,16")?;
            Order::Compare(Comparison {
                program: options.program(),
                catalogue: catalogue.unwrap_or_default(),
                rounds: options.number("rounds", 3, 1..=100)?,
                connections,
                plan,
            })
        }
        "long" => {
            let catalogue = options.text("catalogue");
            let turns = options.number("turns", 10_000_000, 1..=usize::MAX)?;
            let steps = options.number("steps", 10, 1..=1_000)?;
            let (connections, mut plan) = options.plan("16")?;
            plan.length = turns_of_a_step(turns, steps, connections[0]);
            Order::Long(LongRun {
                program: options.program(),
                catalogue: catalogue.unwrap_or_default(),
                connections: connections[0],
                steps,
                plan,
            })
        }
        _ => return Err(format!("{verb} isn't drive, echo, compare or long; hd_load --help says more").into()),
    };
    options.all_used()?;
    Ok(order)
}

impl Options {
    /// Reads `--name value` pairs; none where help is asked for.
    fn read(mut words: impl Iterator<Item = String>) -> Result<Option<Options>, Failure> {
        let mut options = HashMap::new();
        while let Some(word) = words.next() {
            let Some(name) = word.strip_prefix("--") else {
                return Err(format!("{word} isn't an option").into());
            };
            if name == "help" {
                return Ok(None);
            }
            let value = match name {
                "plain" => String::new(),
                _ => words.next().ok_or(format!("--{name} wants a value"))?,
            };
            options.insert(name.to_string(), value);
        }
        Ok(Some(Options(options)))
    }

    fn text(&mut self, name: &str) -> Option<String> {
        // A catalogue is asked for twice in compare: it is driven by it, and holddesk reads it.
        if name == "catalogue" { self.0.get(name).cloned() } else { self.0.remove(name) }
    }

    fn program(&mut self) -> String {
        self.text("program").unwrap_or("crates/holddesk/out/holddesk".to_string())
    }

    fn required<T: FromStr>(&mut self, name: &str) -> Result<T, Failure> {
        let text = self.text(name).ok_or(format!("--{name} is missing"))?;
        text.parse().map_err(|_| format!("--{name} can't be {text}").into())
    }

    fn number(
        &mut self,
        name: &str,
        default: usize,
        range: std::ops::RangeInclusive<usize>,
    ) -> Result<usize, Failure> {
        let Some(text) = self.text(name) else {
            return Ok(default);
        };
        match text.parse() {
            Ok(number) if range.contains(&number) => Ok(number),
            _ => Err(format!("--{name} can't be {text}").into()),
        }
    }

    /// The numbers of connections, and how each is driven; by which library and for how long.
    fn plan(&mut self, connections: &str) -> Result<(Vec<usize>, Plan), Failure> {
        let catalogue: String = self.required("catalogue")?;
        let mut library = Library::read(&catalogue)?;
        if let Some(names) = self.text("terminals") {
            library.keep_terminals(&names.split(',').collect::<Vec<_>>())?;
        }
        let connections = self.text("connections").unwrap_or(connections.to_string());
        let counts = connections.split(',').map(|text| text.parse().ok().filter(|count| *count > 0));
        let counts: Option<Vec<usize>> = counts.collect();
        let counts = counts.ok_or(format!("--connections can't be {connections}"))?;
        let turns = self.number("turns", 0, 1..=usize::MAX)?;
        let seconds = self.number("seconds", 5, 1..=3_600)?;
        let length = match turns {
            0 => Length::Time(Duration::from_secs(seconds as u64)),
            _ => Length::Turns(turns),
        };
        let plan = Plan {
            library,
            length,
            cancel_percent: self.number("cancel", 10, 0..=100)? as u64,
            sealed: self.text("plain").is_none(),
            seed: self.number("seed", 1, 0..=usize::MAX)? as u64,
        };
        Ok((counts, plan))
    }

    /// An option that nothing asked for is a mistake.
    fn all_used(&self) -> Result<(), Failure> {
        match self.0.keys().find(|name| *name != "catalogue") {
            Some(name) => Err(format!("--{name} isn't an option of this; hd_load --help says more").into()),
            None => Ok(()),
        }
    }
}
