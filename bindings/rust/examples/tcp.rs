//! A client over TCP: allocates, gets a permission and a channel, sends payloads, counts what comes
//! back, and gives the address back. Peers are reached over UDP.
//!
//!     TURN_PASSWORD=secret cargo run --example tcp -- --server 127.0.0.1:3478 --user alice --echo
//!
//! `--help` tells the options and the exit status. The loop is in `common/mod.rs`.

mod common;

use std::io::{Read, Result, Write};
use std::net::{SocketAddr, TcpStream};
use std::process::ExitCode;
use std::time::Duration;

use common::{is_nothing, main_over, Failure, Line, NO_ANSWER};
use turn_client::TurnClientTcp;

/// How long a connection, and a write, may take.
const PATIENCE: Duration = Duration::from_secs(10);

struct Stream(TcpStream);

impl Line for Stream {
    fn local_addr(&self) -> Result<SocketAddr> {
        self.0.local_addr()
    }

    fn send(&mut self, bytes: &[u8]) -> Result<()> {
        self.0.write_all(bytes)
    }

    fn receive(&mut self, bytes: &mut [u8], wait: Duration) -> Result<Option<usize>> {
        self.0.set_read_timeout(Some(wait))?;
        match self.0.read(bytes) {
            Ok(size) => Ok(Some(size)),
            Err(error) if is_nothing(&error) => Ok(None),
            Err(error) => Err(error),
        }
    }
}

fn open(server: SocketAddr) -> std::result::Result<Box<dyn Line>, Failure> {
    let stream = TcpStream::connect_timeout(&server, PATIENCE)
        .map_err(|error| Failure::new(NO_ANSWER, format!("no connection to {server}: {error}")))?;
    stream.set_nodelay(true)?;
    stream.set_write_timeout(Some(PATIENCE))?;
    Ok(Box::new(Stream(stream)))
}

fn main() -> ExitCode {
    main_over(open, |local, server, config| {
        Ok(Box::new(TurnClientTcp::new(local, server, config)?))
    })
}
