//! Datagrams through a TURN server (RFC 8656) over tokio: a driver for `turn-client`.
//!
//! ```no_run
//! use turn_client_tokio::{TurnConfig, TurnCredentials, TurnSocket};
//!
//! # async fn run() -> Result<(), Box<dyn std::error::Error>> {
//! let config = TurnConfig::new(TurnCredentials::new("alice", "secret"));
//! let socket = TurnSocket::connect(&"turn:turn.example.org".parse()?, config).await?;
//! println!("peers send to {}", socket.relayed_addr());
//! socket.send_to(b"hello", "198.51.100.1:9000".parse()?).await?;
//! let mut bytes = [0; 1500];
//! let (size, peer) = socket.recv_from(&mut bytes).await?;
//! println!("{size} bytes of {peer}");
//! socket.close().await?;
//! # Ok(())
//! # }
//! ```
//!
//! [`TurnSocket`] has the calls of [`tokio::net::UdpSocket`], and those of the blocking
//! `turn_client::TurnSocket`. The server is reached over UDP or TCP, or by
//! [`ConnectOptions::connect_over`] over any stream, as one over TLS.
//!
//! Not there: DTLS to the server, look-ups of SRV and NAPTR records (RFC 5928), connections to
//! peers over TCP (RFC 6062), and a new allocation after one was lost.

#![forbid(unsafe_code)]
#![deny(missing_docs, missing_debug_implementations)]
#![cfg_attr(
    not(test),
    deny(
        clippy::unwrap_used,
        clippy::expect_used,
        clippy::panic,
        clippy::indexing_slicing
    )
)]

mod line;
mod options;
mod socket;

pub use options::ConnectOptions;
pub use socket::{TurnSocket, UNSENT_MAX};
pub use turn_client::driver::CLOSE_PATIENCE;
pub use turn_client::{
    AddressFamily, ConnectError, SocketError, TransportType, TurnCause, TurnConfig,
    TurnCredentials, TurnUri, UriError,
};

/// Its program is compiled with the tests.
#[cfg(doctest)]
#[doc = include_str!("../README.md")]
pub struct Readme;
