//! A client over UDP: allocates, gets a permission and a channel, sends payloads, counts what comes
//! back, and gives the address back.
//!
//!     TURN_PASSWORD=secret cargo run --example udp -- --server 127.0.0.1:3478 --user alice --echo
//!
//! `--help` tells the options and the exit status. The loop is in `common/mod.rs`.

mod common;

use std::io::{ErrorKind, Result};
use std::net::{Ipv4Addr, Ipv6Addr, SocketAddr, UdpSocket};
use std::process::ExitCode;
use std::time::Duration;

use common::{is_nothing, main_over, Failure, Line};
use turn_client::TurnClientUdp;

struct Socket(UdpSocket);

impl Line for Socket {
    fn local_addr(&self) -> Result<SocketAddr> {
        self.0.local_addr()
    }

    /// That the server's port is closed is told by a call behind the one that found out. The client
    /// isn't told: it sends again, and gives up in time.
    fn send(&mut self, bytes: &[u8]) -> Result<()> {
        match self.0.send(bytes) {
            Err(error) if error.kind() != ErrorKind::ConnectionRefused => Err(error),
            _ => Ok(()),
        }
    }

    fn receive(&mut self, bytes: &mut [u8], wait: Duration) -> Result<Option<usize>> {
        self.0.set_read_timeout(Some(wait))?;
        match self.0.recv(bytes) {
            Ok(size) => Ok(Some(size)),
            Err(error) if is_nothing(&error) || error.kind() == ErrorKind::ConnectionRefused => {
                Ok(None)
            }
            Err(error) => Err(error),
        }
    }
}

fn open(server: SocketAddr) -> std::result::Result<Box<dyn Line>, Failure> {
    let any = match server {
        SocketAddr::V4(_) => SocketAddr::from((Ipv4Addr::UNSPECIFIED, 0)),
        SocketAddr::V6(_) => SocketAddr::from((Ipv6Addr::UNSPECIFIED, 0)),
    };
    let socket = UdpSocket::bind(any)?;
    socket.connect(server)?;
    Ok(Box::new(Socket(socket)))
}

fn main() -> ExitCode {
    main_over(open, |local, server, config| {
        Ok(Box::new(TurnClientUdp::new(local, server, config)?))
    })
}
