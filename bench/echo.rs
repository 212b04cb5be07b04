//! A server that sends each line back, with the threads of holddesk serve.

use crate::Failure;
use std::io::{Read, Write};
use std::net::{SocketAddr, TcpListener, TcpStream};
use std::sync::mpsc::{Receiver, sync_channel};
use std::sync::{Mutex, PoisonError};
use std::thread;

/// How many bytes are read at once, at most.
const PIECE: usize = 512;

/// How the server is to serve.
pub struct Echo {
    pub listen: SocketAddr,
    pub workers: usize,
    /// After how many connections it ends; 0: never.
    pub connections: usize,
}

/// Serves until so many connections have been served.
pub fn serve(echo: &Echo) -> Result<(), Failure> {
    let listener = TcpListener::bind(echo.listen).map_err(|error| format!("cannot listen: {error}"))?;
    eprintln!("listening on {}, {} workers", listener.local_addr()?, echo.workers);
    let (to, from) = sync_channel(echo.workers);
    let from = Mutex::new(from);
    thread::scope(|scope| {
        for _ in 0..echo.workers {
            scope.spawn(|| work(&from));
        }
        let most = if echo.connections == 0 { usize::MAX } else { echo.connections };
        for stream in listener.incoming().take(most) {
            to.send(stream?)?;
        }
        drop(to);
        Ok(())
    })
}

/// Serves one connection after another, until no more can come.
fn work(from: &Mutex<Receiver<TcpStream>>) {
    loop {
        let next = from.lock().unwrap_or_else(PoisonError::into_inner).recv();
        match next {
            // A connection that fails makes no difference to the others.
            Ok(stream) => drop(attend(&stream)),
            Err(_) => return,
        }
    }
}

/// Sends the lines of a connection back, those of each piece before the next is read.
fn attend(mut stream: &TcpStream) -> std::io::Result<()> {
    stream.set_nodelay(true)?;
    let mut piece = [0; PIECE];
    let mut begun = Vec::new();
    loop {
        let count = stream.read(&mut piece)?;
        if count == 0 {
            return Ok(());
        }
        begun.extend_from_slice(&piece[..count]);
        if let Some(end) = begun.iter().rposition(|byte| *byte == b'\r') {
            stream.write_all(&begun[..=end])?;
            begun.drain(..=end);
        }
    }
}
