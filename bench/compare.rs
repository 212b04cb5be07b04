//! holddesk beside the echo server, measured by turns.

use crate::drive::{Driven, Plan, Ready};
use crate::machine::{Usage, memory};
use crate::report;
use crate::Failure;
use std::io::{BufRead, BufReader, Read};
use std::net::SocketAddr;
use std::process::{Child, ChildStderr, Command, Stdio};

/// What is compared.
pub struct Comparison {
    /// The program of holddesk.
    pub program: String,
    pub catalogue: String,
    pub rounds: usize,
    /// With how many connections, and as many workers, one after the other.
    pub connections: Vec<usize>,
    pub plan: Plan,
}

/// A server that was started, and is stopped where it doesn't end by itself.
pub struct Server {
    child: Child,
    /// Its standard error, which it must find open.
    _errors: BufReader<ChildStderr>,
    pub address: SocketAddr,
}

/// One of the two servers, driven.
struct Measured {
    driven: Driven,
    /// The cores that the server used.
    server: f64,
    /// How much the server's memory grew, in megabytes.
    grown: f64,
    /// What the server printed at its end.
    printed: String,
}

/// Measures both servers by turns, and prints what came of it.
pub fn compare(comparison: &Comparison) -> Result<(), Failure> {
    let messages = if comparison.plan.sealed { "sealed" } else { "plain" };
    println!("{} over {}, {messages} messages, beside echo", comparison.program, comparison.catalogue);
    for connections in &comparison.connections {
        let mut ratios = Vec::new();
        for round in 1..=comparison.rounds {
            ratios.push(measure_both(comparison, *connections, round)?);
        }
        ratios.sort_by(f64::total_cmp);
        let median = ratios[ratios.len() / 2];
        let (least, most) = (ratios[0], ratios[ratios.len() - 1]);
        println!("{connections} connections: {median:.2} of echo ({least:.2} to {most:.2})\n");
    }
    Ok(())
}

/// One round: both servers, each first in every second round. Returns holddesk's part of the echo server's rate.
fn measure_both(comparison: &Comparison, connections: usize, round: usize) -> Result<f64, Failure> {
    let (holddesk, echo) = if round % 2 == 1 {
        let holddesk = measure(&mut of(comparison, connections), comparison, connections)?;
        (holddesk, measure(&mut echo(connections), comparison, connections)?)
    } else {
        let echo = measure(&mut echo(connections), comparison, connections)?;
        (measure(&mut of(comparison, connections), comparison, connections)?, echo)
    };
    let wanted = format!("closed: {} turns, ", holddesk.driven.turns());
    if !holddesk.printed.starts_with(&wanted) {
        return Err(format!("holddesk printed {:?}, and not {wanted:?}", holddesk.printed).into());
    }
    print_measured(connections, "holddesk", &holddesk);
    print_measured(connections, "echo", &echo);
    if round == comparison.rounds {
        println!("replies of holddesk in this round, {}{}", holddesk.printed, holddesk.driven.replies);
    }
    Ok(holddesk.driven.turns_a_second() / echo.driven.turns_a_second())
}

fn print_measured(connections: usize, name: &str, measured: &Measured) {
    let driven = &measured.driven;
    println!(
        "{connections:>3} {name:<8} {}; cores: server {:.2}, loader {:.2}, others {:.2}; load {:.1}; {:+.0} MB",
        report::line(driven),
        measured.server,
        driven.loader,
        (driven.machine - driven.loader - measured.server).max(0.0),
        driven.load,
        measured.grown
    );
}

fn of(comparison: &Comparison, connections: usize) -> Command {
    serve(&comparison.program, &comparison.catalogue, connections)
}

/// The command that starts holddesk, which tells no events, for so many connections, each with a worker.
pub fn serve(program: &str, catalogue: &str, connections: usize) -> Command {
    let mut command = Command::new(program);
    command.args(["serve", "--catalogue", catalogue, "--log", "quiet"]);
    serving(command, connections)
}

/// The command that starts the echo server for so many connections.
fn echo(connections: usize) -> Command {
    let mut command = Command::new("/proc/self/exe");
    command.arg("echo");
    serving(command, connections)
}

fn serving(mut command: Command, connections: usize) -> Command {
    let count = connections.to_string();
    command.args(["--listen", "127.0.0.1:0", "--workers", &count, "--connections", &count]);
    command
}

/// Starts a server, drives it, and waits for its end.
fn measure(command: &mut Command, comparison: &Comparison, connections: usize) -> Result<Measured, Failure> {
    let mut server = Server::start(command)?;
    let process = server.process();
    let ready = Ready::open(server.address, &comparison.plan, connections)?;
    let before = (Usage::now(&process.to_string())?, memory(process)?);
    let mut driven = ready.drive()?;
    let used = Usage::now(&process.to_string())?.since(&before.0);
    let grown = memory(process)? - before.1;
    driven.open.clear();
    Ok(Measured {
        server: used.process / driven.seconds,
        driven,
        grown,
        printed: server.end()?,
    })
}

impl Server {
    /// Starts a server, and waits until it says where it listens.
    pub fn start(command: &mut Command) -> Result<Server, Failure> {
        let mut child = command
            .stdout(Stdio::piped())
            .stderr(Stdio::piped())
            .spawn()
            .map_err(|error| format!("{}: {error}", command.get_program().to_string_lossy()))?;
        let mut errors = BufReader::new(child.stderr.take().ok_or("no standard error")?);
        let mut said = String::new();
        errors.read_line(&mut said)?;
        let address = said.strip_prefix("listening on ").and_then(|rest| rest.split(',').next());
        let address = address.and_then(|text| text.parse().ok());
        match address {
            Some(address) => Ok(Server { child, _errors: errors, address }),
            None => {
                let _ = child.kill();
                let _ = child.wait();
                Err(format!("the server says {said:?}").into())
            }
        }
    }

    /// The number of its process.
    pub fn process(&self) -> u32 {
        self.child.id()
    }

    /// Waits for the end of a server whose connections are closed.
    pub fn end(&mut self) -> Result<String, Failure> {
        let mut printed = String::new();
        if let Some(mut out) = self.child.stdout.take() {
            out.read_to_string(&mut printed)?;
        }
        let status = self.child.wait()?;
        if status.success() { Ok(printed) } else { Err(format!("the server ended with {status}").into()) }
    }
}

impl Drop for Server {
    fn drop(&mut self) {
        // Nothing is to be done where it has ended.
        let _ = self.child.kill();
        let _ = self.child.wait();
    }
}
