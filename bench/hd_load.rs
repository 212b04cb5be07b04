//! hd_load: drives a SIP2 server over TCP and says how fast it answers, beside a server that only echoes.
//!
//! It makes its messages (`sip`, `terminal`), judges the replies (`replies`) and reads the catalogue file (`library`)
//! by code of its own, from docs/protocol.md and docs/catalogue.md, and shares none with holddesk: a loader that had the
//! server's own code would make the same mistake as the server, and call each reply right. It knows only what terminals
//! need, and leaves the rest of a file or a reply unread.
//!
//! Plain Rust with its standard library alone: `rustc -O bench/hd_load.rs`. `hd_load --help` says how it is used.

mod compare;
mod drive;
mod echo;
mod library;
mod long;
mod machine;
mod random;
mod replies;
mod report;
mod sip;
mod terminal;
mod words;

use std::process::ExitCode;
use words::Order;

/// What can go wrong, as a text for the user.
type Failure = Box<dyn std::error::Error + Send + Sync>;

fn main() -> ExitCode {
    match words::read(std::env::args().skip(1)).and_then(run) {
        Ok(()) => ExitCode::SUCCESS,
        Err(failure) => {
            eprintln!("hd_load: {failure}");
            ExitCode::FAILURE
        }
    }
}

/// Does what the command line asks for.
fn run(order: Order) -> Result<(), Failure> {
    match order {
        Order::Help => {
            print!("{}", words::HELP);
            Ok(())
        }
        Order::Drive { server, connections, plan } => {
            let driven = drive::Ready::open(server, &plan, connections)?.drive()?;
            print!("{}", report::whole(&driven));
            println!("{}", report::figures(&driven));
            Ok(())
        }
        Order::Echo(echo) => echo::serve(&echo),
        Order::Compare(comparison) => compare::compare(&comparison),
        Order::Long(long) => long::run(&long),
    }
}
