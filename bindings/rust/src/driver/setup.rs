//! How a connection to a peer is made: the allocation, the permission, the connection, and its
//! socket.

use std::io::{self, ErrorKind};
use std::net::{SocketAddr, TcpStream};
use std::thread;
use std::time::{Duration, Instant};

use super::connection::{open_tcp, ServerConnection};
use super::error::{ConnectError, SocketError};
use super::options::CONNECT_PATIENCE;
use crate::api::{
    Transmit, TransportType, TurnCause, TurnConfig, TurnEvent, TurnPollRet, TurnRecvRet,
};
use crate::client::{TurnClientApi, TurnClientTcp};

/// Bytes that are read at once.
const IN_MAX: usize = 16_384;
/// How long it may take to tell the server that its address isn't wanted.
pub(super) const LAST_PATIENCE: Duration = Duration::from_millis(250);
/// How long the client waits from one request to the next, and a little.
pub(super) const PACE: Duration = Duration::from_millis(60);
const LEAST_PAUSE: Duration = Duration::from_millis(5);
/// The longest wait for bytes of one of two connections.
const LONGEST_WAIT: Duration = Duration::from_millis(20);

/// A connection to a peer that is made.
pub(super) struct Made {
    pub control: TcpStream,
    pub data: TcpStream,
    pub client: TurnClientTcp,
    pub start: Instant,
    /// What came with the response that bound the connection.
    pub first: Vec<u8>,
    pub peer: SocketAddr,
    pub relayed: SocketAddr,
}

/// The error of a stream that the server closed.
pub(super) fn closed() -> io::Error {
    io::Error::new(ErrorKind::UnexpectedEof, "the server closed the connection")
}

/// Sends all that the client has to send, and returns whether that was something.
pub(super) fn send_all(
    client: &mut TurnClientTcp,
    now: Duration,
    send: &mut dyn FnMut(&Transmit<&[u8]>) -> io::Result<()>,
) -> io::Result<bool> {
    let mut has_sent = false;
    while let Some(transmit) = client.poll_transmit(now).map_err(io::Error::other)? {
        send(&transmit)?;
        has_sent = true;
    }
    Ok(has_sent)
}

/// One that is being made.
pub(super) struct Setup {
    control: TcpStream,
    /// The connection that is to carry the bytes, and its own address.
    data: Option<(TcpStream, SocketAddr)>,
    client: TurnClientTcp,
    start: Instant,
    peer: SocketAddr,
    relayed: Option<SocketAddr>,
    first: Vec<u8>,
    is_bound: bool,
    /// Why the last ALLOCATE failed, while it isn't known whether the client goes on.
    failure: Option<ConnectError>,
}

impl Setup {
    pub fn new(
        control: TcpStream,
        config: TurnConfig,
        peer: SocketAddr,
    ) -> Result<Self, ConnectError> {
        let local = control.local_addr().map_err(ConnectError::Unreachable)?;
        let server = control.peer_addr().map_err(ConnectError::Unreachable)?;
        Ok(Self {
            client: TurnClientTcp::new(local, server, config)?,
            control,
            data: None,
            start: Instant::now(),
            peer,
            relayed: None,
            first: Vec::new(),
            is_bound: false,
            failure: None,
        })
    }

    /// Does all of it, until a time.
    pub fn run(mut self, until: Option<Instant>) -> Result<Made, ConnectError> {
        let mut bytes = vec![0; IN_MAX];
        while !self.is_bound {
            let due = self.turn()?;
            let now = Instant::now();
            if until.is_some_and(|it| it <= now) {
                self.give_back();
                return Err(ConnectError::TimedOut);
            }
            let wait = due.saturating_duration_since(now).min(LONGEST_WAIT);
            self.receive(&mut bytes, wait)?;
        }
        let (Some((data, _)), Some(relayed)) = (self.data, self.relayed) else {
            return Err(ConnectError::Unreachable(closed()));
        };
        data.set_read_timeout(None)
            .map_err(ConnectError::Unreachable)?;
        data.set_write_timeout(None)
            .map_err(ConnectError::Unreachable)?;
        Ok(Made {
            control: self.control,
            data,
            client: self.client,
            start: self.start,
            first: self.first,
            peer: self.peer,
            relayed,
        })
    }

    /// Tells the server once that the address isn't wanted any more.
    fn give_back(&mut self) {
        let until = Instant::now() + LAST_PATIENCE;
        let _ = self.client.delete(self.start.elapsed());
        while Instant::now() < until {
            let (control, own, now) = (
                &self.control,
                self.client.local_addr(),
                self.start.elapsed(),
            );
            let sent = send_all(&mut self.client, now, &mut |transmit| match transmit.from {
                from if from == own => control.send(transmit.data),
                _ => Ok(()),
            });
            while self.client.poll_event().is_some() {}
            match (sent, self.client.poll(now)) {
                (Ok(_), Ok(TurnPollRet::WaitUntil(due))) if due <= now + PACE => {
                    thread::sleep(due.saturating_sub(now).max(LEAST_PAUSE));
                }
                (Ok(_), Ok(TurnPollRet::TcpClose { .. })) => self.data = None,
                _ => return, // all is sent
            }
        }
    }

    fn refused(&mut self, cause: Option<TurnCause>) -> ConnectError {
        self.give_back();
        let peer = self.peer.ip();
        ConnectError::Peer(SocketError::PeerRefused { peer, cause })
    }

    /// Takes turns, and returns when the next one is due.
    fn turn(&mut self) -> Result<Instant, ConnectError> {
        loop {
            let (control, data) = (&self.control, &self.data);
            let mut send = |transmit: &Transmit<&[u8]>| match data {
                Some((data, own)) if *own == transmit.from => data.send(transmit.data),
                _ => control.send(transmit.data),
            };
            let sent = send_all(&mut self.client, self.start.elapsed(), &mut send);
            let mut has_done = sent.map_err(ConnectError::Unreachable)?;
            let now = self.start.elapsed();
            let polled = self
                .client
                .poll(now)
                .map_err(|error| unreachable(io::Error::other(error)))?;
            while let Some((event, cause)) = self.client.poll_event_with_cause() {
                self.handle_event(event, cause)?;
                has_done = true;
            }
            match polled {
                TurnPollRet::Closed => {
                    return Err(self.failure.take().unwrap_or_else(|| unreachable(closed())))
                }
                TurnPollRet::AllocateTcpSocket {
                    id,
                    socket,
                    peer_addr,
                    ..
                } => self.open(id, socket.to, peer_addr),
                TurnPollRet::TcpClose { .. } => return Err(self.refused(None)),
                TurnPollRet::WaitUntil(_) if has_done => {}
                TurnPollRet::WaitUntil(until) => {
                    self.failure = None; // the client goes on: what failed was one family of two
                    return Ok(self.start + until.max(now));
                }
            }
        }
    }

    /// Requests what an event allows for.
    fn handle_event(
        &mut self,
        event: TurnEvent,
        cause: Option<TurnCause>,
    ) -> Result<(), ConnectError> {
        let now = self.start.elapsed();
        let requested = match event {
            TurnEvent::AllocationCreated(_, relayed) if self.relayed.is_none() => {
                self.relayed = Some(relayed);
                let asked = self
                    .client
                    .create_permission(TransportType::Tcp, self.peer.ip(), now);
                asked.is_ok()
            }
            TurnEvent::AllocationCreateFailed(_) => {
                self.failure = Some(ConnectError::Rejected {
                    cause,
                    alternate_server: self.client.alternate_server(),
                    alternate_domain: self.client.alternate_domain(),
                });
                true
            }
            TurnEvent::PermissionCreated(..) => self.client.tcp_connect(self.peer, now).is_ok(),
            TurnEvent::PermissionCreateFailed(..) | TurnEvent::TcpConnectFailed(_) => {
                return Err(self.refused(cause));
            }
            TurnEvent::TcpConnected(_) => {
                self.is_bound = true;
                true
            }
            _ => true,
        };
        if requested {
            Ok(())
        } else {
            Err(self.refused(None))
        }
    }

    /// Opens the socket of the connection that was requested; one that a peer opened gets none.
    fn open(&mut self, id: u32, server: SocketAddr, peer: SocketAddr) {
        let is_wanted = peer == self.peer && self.data.is_none();
        let opened = is_wanted
            .then(|| open_tcp(server, CONNECT_PATIENCE).ok())
            .flatten();
        let own = opened.as_ref().and_then(|it| it.local_addr().ok());
        let told = self
            .client
            .allocated_tcp_socket(id, peer, own, self.start.elapsed());
        if let (Some(data), Some(own), Ok(())) = (opened, own, told) {
            self.data = Some((data, own));
        }
    }

    /// Waits for bytes of the connection on which they are due, and passes them to the client.
    fn receive(&mut self, bytes: &mut [u8], wait: Duration) -> Result<(), ConnectError> {
        let own = self.client.local_addr();
        let came = self.control.receive(
            bytes,
            if self.data.is_some() {
                Duration::ZERO
            } else {
                wait
            },
        );
        self.handle(came, bytes, own)?;
        if let Some((data, own)) = &self.data {
            let (came, own) = (data.receive(bytes, wait), *own);
            self.handle(came, bytes, own)?;
        }
        Ok(())
    }

    fn handle(
        &mut self,
        came: io::Result<Option<usize>>,
        bytes: &[u8],
        own: SocketAddr,
    ) -> Result<(), ConnectError> {
        let Some(size) = came.map_err(unreachable)? else {
            return Ok(());
        };
        if size == 0 {
            return Err(match self.data {
                Some((_, it)) if it == own => self.refused(None),
                _ => unreachable(closed()),
            });
        }
        let bytes = bytes.get(..size).unwrap_or_default();
        let came = Transmit::new(bytes, TransportType::Tcp, self.client.remote_addr(), own);
        let now = self.start.elapsed();
        let failed = |error| unreachable(io::Error::other(error));
        if let TurnRecvRet::PeerData(data) = self.client.recv(came, now).map_err(failed)? {
            self.first.extend_from_slice(data.data());
        }
        while let Some(data) = self.client.poll_recv(now).map_err(failed)? {
            self.first.extend_from_slice(data.data());
        }
        Ok(())
    }
}

fn unreachable(error: io::Error) -> ConnectError {
    ConnectError::Unreachable(error)
}
