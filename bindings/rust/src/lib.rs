//! A TURN client (RFC 8656, RFC 6062, RFC 6156): sockets over a TURN server, and the client alone,
//! which does no input or output. It is a safe layer over the library `libturn_client.a` of a proved
//! client. This crate isn't proved; that it calls the library correctly is tested.
//!
//! | to | use |
//! |---|---|
//! | send and receive datagrams | [`TurnSocket`], with the calls of [`UdpSocket`](std::net::UdpSocket) |
//! | connect to a peer over TCP | [`TurnStream`], with the calls of [`TcpStream`](std::net::TcpStream) |
//! | do so over TLS, or with other settings | [`driver::ConnectOptions`] |
//! | do the input and output yourself | [`TurnClientUdp`], [`TurnClientTcp`] |
//!
//! # The client alone
//!
//! The names are those of the crate `turn-client-proto`. The program owns sockets and clock, and
//! takes turns: it sends what the client draws, polls it, and takes its events. A turn is due after
//! each call, and when the time has come that `poll` returned:
//!
//! ```no_run
//! use std::net::{SocketAddr, UdpSocket};
//! use std::time::{Duration, Instant};
//! use turn_client::{Transmit, TransportType, TurnClientApi, TurnClientUdp, TurnConfig, TurnCredentials, TurnEvent};
//! use turn_client::{TurnPollRet, TurnRecvRet};
//!
//! # fn main() -> Result<(), Box<dyn std::error::Error>> {
//! let server: SocketAddr = "127.0.0.1:3478".parse()?;
//! let socket = UdpSocket::bind("127.0.0.1:0")?;
//! let local = socket.local_addr()?;
//! let config = TurnConfig::new(TurnCredentials::new("alice", "secret"));
//! let mut client = TurnClientUdp::new(local, server, config)?;
//! let (start, mut bytes) = (Instant::now(), [0; 65536]);
//! loop {
//!     while let Some(transmit) = client.poll_transmit(start.elapsed())? {
//!         socket.send_to(transmit.data, transmit.to)?;
//!     }
//!     let answer = client.poll(start.elapsed())?;
//!     while let Some(event) = client.poll_event() {
//!         match event {
//!             TurnEvent::AllocationCreated(_, address) => println!("{address}"), // ask for something
//!             event => println!("{event:?}"),
//!         }
//!     }
//!     let TurnPollRet::WaitUntil(until) = answer else { break };
//!     let wait = until.saturating_sub(start.elapsed()).clamp(Duration::from_millis(1), Duration::from_secs(60));
//!     socket.set_read_timeout(Some(wait))?;
//!     if let Ok((size, from)) = socket.recv_from(&mut bytes) {
//!         let came = Transmit::new(&bytes[..size], TransportType::Udp, from, local);
//!         if let TurnRecvRet::PeerData(data) = client.recv(came, start.elapsed())? {
//!             println!("{} bytes of {}", data.data().len(), data.peer);
//!         }
//!     }
//! }
//! # Ok(())
//! # }
//! ```
//!
//! # What may surprise
//!
//! - Linux rounds a socket's timeout up by as much as an eighth: half an hour by more than the
//!   minute in which an allocation is renewed. So the longest wait above is a minute.
//! - Moments are [`Duration`](std::time::Duration)s since a start of the program's, as
//!   `start.elapsed()`: they have their unit in their type, and the client gives and takes moments
//!   that no clock has shown yet, which [`Instant`](std::time::Instant) can't be made of. What lies
//!   behind 2^62 nanoseconds counts as that.
//! - Two requests are sent 50 ms apart at least, so what is asked for may be drawn only when `poll`
//!   says so.
//! - While an event waits, `poll` tells to wait until now. Where turns at one moment do nothing,
//!   wait some milliseconds.
//! - A server that can't be reached is given up after 39.5 s. To a wrong password it answers
//!   challenges, of which nine are answered. Both end in [`TurnEvent::AllocationCreateFailed`] and
//!   [`TurnPollRet::Closed`]. [`TurnClientApi::poll_event_with_cause`] says which it was:
//!   [`TurnCause::Unanswered`], or [`TurnCause::Rejected`] with code 401.
//! - An error response that isn't signed may be anybody's who can send from the server's address:
//!   see `is_signed` of [`TurnCause::Rejected`]. The challenges of a wrong password never are.
//! - The client doesn't follow a response 300. A program may make another client at
//!   [`TurnClientApi::alternate_server`], with a limit on how often it does so in a row.
//! - No event tells that an allocation's time is over: look at
//!   [`TurnClientApi::relayed_addresses`].
//! - A client may go to another thread, and isn't shared by two. Dropped, it frees what it holds,
//!   and tells the server nothing: [`TurnClientApi::delete`] does that.
//! - After `fork`, one of the two processes goes on with a client, and the other at most drops it:
//!   two that go on send the same transaction IDs.
//! - An address of IPv6 is told without flow information and scope.
//!
//! A client is sent, and not shared:
//!
//! ```
//! fn is_sent<T: Send>() {}
//! is_sent::<turn_client::TurnClientUdp>();
//! is_sent::<turn_client::TurnClientTcp>();
//! ```
//!
//! ```compile_fail,E0277
//! fn is_shared<T: Sync>() {}
//! is_shared::<turn_client::TurnClientUdp>();
//! ```
//!
//! Data that stands in what came lives as long as that, and no longer:
//!
//! ```compile_fail,E0505
//! use turn_client::{Transmit, TurnClientUdp, TurnClientApi};
//! fn outlives(client: &mut TurnClientUdp, transmit: Transmit<Vec<u8>>) {
//!     let came = Transmit::new(&transmit.data[..], transmit.transport, transmit.from, transmit.to);
//!     let given = client.recv(came, std::time::Duration::ZERO);
//!     drop(transmit);
//!     println!("{given:?}");
//! }
//! ```
//!
//! # What is otherwise than in `turn-client-proto`
//!
//! - `new` makes a client; `allocate` does, with a seed of 32 random bytes of the program's own.
//!   Both may be refused. Calls that want memory answer a `Result`.
//! - `send_to` and `poll_transmit` answer bytes that stand in the client's buffer, which is 64 kB,
//!   until its next call.
//! - `recv` takes `&[u8]`, and answers data that is borrowed of it or owned. Getters answer
//!   vectors. So [`TurnClientApi`] makes an object: `Box<dyn TurnClientApi>` is a client over
//!   either transport.
//! - `allocated_tcp_socket` takes no five addresses: number and peer name the connection. There is
//!   no `protocol_error`.
//! - `create_permissions`, `channels`, `connections` and `poll_event_with_cause` are new. `cause`
//!   and `alternate_domain` return values of their own.

#![deny(missing_docs, missing_debug_implementations, unsafe_op_in_unsafe_fn)]
#![deny(clippy::undocumented_unsafe_blocks)]
#![cfg_attr(
    not(test),
    deny(
        clippy::unwrap_used,
        clippy::expect_used,
        clippy::panic,
        clippy::indexing_slicing
    )
)]

mod address;
mod api;
mod client;
pub mod driver;
mod error;
mod sys;
mod uri;

pub use api::{
    AddressFamily, AllocationExpired, Channel, Connection, Feature, IntegrityAlgorithm,
    RelayedPort, Socket5Tuple, Transmit, TransportType, TurnCause, TurnConfig, TurnCredentials,
    TurnEvent, TurnPeerData, TurnPollRet, TurnRecvRet,
};
pub use client::{TurnClientApi, TurnClientTcp, TurnClientUdp};
pub use driver::{ConnectError, SocketError, TurnSocket, TurnStream};
pub use error::{
    AllocateError, BindChannelError, CreatePermissionError, CreatePermissionsError,
    CredentialsError, DeleteError, PollError, PollTransmitError, RecvError, SendError,
    SoftwareError, TcpAllocateError, TcpClosedError, TcpConnectError,
};

pub use uri::{TurnUri, UriError, UriScheme, DEFAULT_PORT, DEFAULT_TLS_PORT};

/// Its program is compiled with the tests.
#[cfg(doctest)]
#[doc = include_str!("../README.md")]
pub struct Readme;

/// The version of the linked archive: major * 10,000 + minor * 100 + patch.
pub fn version() -> u32 {
    // SAFETY: it takes nothing, and reads a constant.
    unsafe { sys::turn_client_version() }
}

/// Bytes of a user's name at most.
pub const NAME_MAX: usize = sys::TURN_NAME_MAX;

/// Bytes of the text of SOFTWARE at most.
pub const SOFTWARE_MAX: usize = sys::TURN_SOFTWARE_MAX;

/// Addresses at most for which one call asks for permissions.
pub const PERMIT_MAX: usize = sys::TURN_PERMIT_MAX;

/// Bytes of data at most that go to a peer over UDP between it and the server.
pub const PAYLOAD_MAX: usize = sys::TURN_PAYLOAD_MAX;
