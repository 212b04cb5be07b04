//! A long run: many turns at one server, and what memory they take, from the first to the last.

use crate::compare::{Server, serve};
use crate::drive::{Length, Plan, Ready};
use crate::machine::memory;
use crate::report;
use crate::Failure;

/// What is run.
pub struct LongRun {
    /// The program of holddesk.
    pub program: String,
    pub catalogue: String,
    pub connections: usize,
    /// How many steps, each of as many turns of every connection as the plan says.
    pub steps: usize,
    pub plan: Plan,
}

/// Drives holddesk step by step, and prints after each what it took.
pub fn run(long: &LongRun) -> Result<(), Failure> {
    let mut server = Server::start(&mut serve(&long.program, &long.catalogue, long.connections))?;
    let process = server.process();
    let mut ready = Ready::open(server.address, &long.plan, long.connections)?;
    let (mut turns, mut before) = (0, memory(process)?);
    for step in 1..=long.steps {
        let driven = ready.step(long.plan.length)?;
        let after = memory(process)?;
        let bytes = (after - before) * 1_048_576.0 / driven.turns() as f64;
        turns += driven.turns();
        before = after;
        println!("step {step:>2}: {}; {after:.0} MB, {bytes:.0} bytes a turn", report::line(&driven));
    }
    drop(ready);
    let printed = server.end()?;
    let wanted = format!("closed: {turns} turns, ");
    if !printed.starts_with(&wanted) {
        return Err(format!("holddesk printed {printed:?}, and not {wanted:?}").into());
    }
    print!("{printed}");
    Ok(())
}

/// The turns of each step, where so many are wanted in all.
pub fn turns_of_a_step(turns: usize, steps: usize, connections: usize) -> Length {
    Length::Turns(turns.div_ceil(steps * connections))
}
