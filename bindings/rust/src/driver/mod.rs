//! Drivers: sockets over a TURN server, which do the input and output that the client doesn't.
//!
//! [`TurnSocket`] sends and receives datagrams as [`std::net::UdpSocket`] does, over UDP or TCP to
//! the server, or over TLS with a library of the program's choice. It blocks and has no thread of
//! its own.
//!
//! ```no_run
//! use turn_client::{TurnConfig, TurnCredentials, TurnSocket};
//!
//! let config = TurnConfig::new(TurnCredentials::new("alice", "secret"));
//! let socket = TurnSocket::connect(&"turn:turn.example.org?transport=tcp".parse()?, config)?;
//! println!("peers send to {}", socket.relayed_addr());
//! socket.permit("198.51.100.1".parse()?)?;
//! let mut bytes = [0; 1500];
//! let (size, peer) = socket.recv_from(&mut bytes)?;
//! socket.send_to(&bytes[..size], peer)?;
//! # Ok::<(), Box<dyn std::error::Error>>(())
//! ```
//!
//! [`TurnStream`] is a connection over TCP to a peer (RFC 6062), with the calls of
//! [`std::net::TcpStream`]. [`ConnectOptions`] has more to choose for both. [`TurnSession`] is what
//! a driver for another runtime needs.
//!
//! Not there: connections that peers open, TLS below a [`TurnStream`], DTLS to the server, look-ups
//! of SRV and NAPTR records (RFC 5928), host names of peers, and a new allocation after one was lost.

mod connection;
mod error;
mod options;
mod session;
mod setup;
mod socket;
mod stream;

pub use connection::{ServerConnection, StreamConnection};
pub use error::{ConnectError, SocketError};
pub use options::ConnectOptions;
pub use session::{
    Incoming, Permission, SessionState, TurnSession, INCOMING_BYTES_MAX, INCOMING_MAX,
};
pub use socket::{TurnSocket, CLOSE_PATIENCE};
pub use stream::{TurnStream, FLUSH_PATIENCE};
