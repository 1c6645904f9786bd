//! Connections to peers over TCP (RFC 6062), over sockets of std.

use std::fmt;
use std::io::{self, ErrorKind, Read, Write};
use std::net::{Shutdown, SocketAddr, TcpStream};
use std::sync::{Arc, Mutex, MutexGuard, PoisonError};
use std::thread::{self, JoinHandle};
use std::time::{Duration, Instant};

use super::connection::ServerConnection;
use super::error::ConnectError;
use super::options::ConnectOptions;
use super::setup::{send_all, Made};
use super::socket::CLOSE_PATIENCE;
use crate::api::{Transmit, TransportType, TurnConfig, TurnPollRet};
use crate::client::{TurnClientApi, TurnClientTcp};
use crate::uri::TurnUri;

/// How long the server has to pass on what a connection that is closed has sent.
pub const FLUSH_PATIENCE: Duration = Duration::from_secs(30);

/// Bytes that are read at once.
const IN_MAX: usize = 16_384;
/// The longest wait in the system.
const LONGEST_WAIT: Duration = Duration::from_secs(1);
/// Until the next turn, if the client wants one at once and does nothing in it.
const PAUSE: Duration = Duration::from_millis(10);

/// A connection over TCP to a peer through a TURN server (RFC 6062), with the calls of
/// [`TcpStream`].
///
/// ```no_run
/// use std::io::{Read, Write};
/// use turn_client::{TurnConfig, TurnCredentials, TurnStream};
///
/// let config = TurnConfig::new(TurnCredentials::new("alice", "secret"));
/// let peer = "198.51.100.1:80".parse()?;
/// let mut stream = TurnStream::connect(&"turn:turn.example.org".parse()?, config, peer)?;
/// stream.write_all(b"GET / HTTP/1.0\r\n\r\n")?;
/// let mut page = Vec::new();
/// stream.read_to_end(&mut page)?;
/// stream.close()?;
/// # Ok::<(), Box<dyn std::error::Error>>(())
/// ```
///
/// Each stream has an allocation and a relayed address of its own. A thread of its own renews it
/// until the stream is closed or dropped, whatever the program does. If the allocation is lost, the
/// server closes the connection, and that is read as its end. Nobody else can connect to the
/// relayed address.
///
/// A server may end connections by a reset, as coturn does, and drop what it had not passed on: let
/// the peer confirm before you close.
pub struct TurnStream {
    data: TcpStream,
    control: Arc<Control>,
    thread: Option<JoinHandle<()>>,
    /// What came with the response that bound the connection, as far as it isn't read.
    first: Mutex<Vec<u8>>,
    peer_addr: SocketAddr,
    relayed_addr: SocketAddr,
}

impl fmt::Debug for TurnStream {
    fn fmt(&self, f: &mut fmt::Formatter<'_>) -> fmt::Result {
        f.debug_struct("TurnStream")
            .field("peer_addr", &self.peer_addr)
            .field("relayed_addr", &self.relayed_addr)
            .field("data", &self.data)
            .finish_non_exhaustive()
    }
}

impl TurnStream {
    /// Connects to the server of a URI over TCP, gets a relayed address, and connects it to a peer.
    /// The settings' own transport to peers, and the URI's to the server, have no meaning here:
    /// both are TCP.
    ///
    /// # Errors
    ///
    /// As [`ConnectOptions::connect_stream`].
    pub fn connect(
        uri: &TurnUri,
        config: TurnConfig,
        peer: SocketAddr,
    ) -> Result<Self, ConnectError> {
        ConnectOptions::new().connect_stream(uri, config, peer)
    }

    pub(super) fn start(made: Made) -> Self {
        let control = Arc::new(Control {
            stream: made.control,
            start: made.start,
            state: Mutex::new(State {
                client: made.client,
                closes_at: None,
            }),
        });
        let thread = thread::spawn({
            let control = Arc::clone(&control);
            move || control.serve()
        });
        Self {
            data: made.data,
            control,
            thread: Some(thread),
            first: Mutex::new(made.first),
            peer_addr: made.peer,
            relayed_addr: made.relayed,
        }
    }

    /// Returns the peer's address.
    pub fn peer_addr(&self) -> SocketAddr {
        self.peer_addr
    }

    /// Returns the relayed address, from which the peer sees the connection come.
    pub fn relayed_addr(&self) -> SocketAddr {
        self.relayed_addr
    }

    /// Returns the own address of the connection to the server that carries the bytes.
    pub fn local_addr(&self) -> io::Result<SocketAddr> {
        self.data.local_addr()
    }

    /// Sets how long a read waits: see [`TcpStream::set_read_timeout`].
    pub fn set_read_timeout(&self, timeout: Option<Duration>) -> io::Result<()> {
        self.data.set_read_timeout(timeout)
    }

    /// Sets how long a write waits: see [`TcpStream::set_write_timeout`]. At first it has no limit.
    pub fn set_write_timeout(&self, timeout: Option<Duration>) -> io::Result<()> {
        self.data.set_write_timeout(timeout)
    }

    /// Ends reads, writes or both: see [`TcpStream::shutdown`]. A server may then close the
    /// connection to the peer for both ways.
    pub fn shutdown(&self, how: Shutdown) -> io::Result<()> {
        self.data.shutdown(how)
    }

    /// Lets the server pass on what was written, for at most [`FLUSH_PATIENCE`], then gives the
    /// relayed address back, for at most [`CLOSE_PATIENCE`]. What comes meanwhile is dropped.
    ///
    /// A stream that is dropped does neither wait: what was written may be lost.
    ///
    /// # Errors
    ///
    /// The stream is closed also then.
    ///
    /// - `TimedOut`: the server didn't close the connection in time.
    /// - Those of [`TcpStream`].
    pub fn close(mut self) -> io::Result<()> {
        let flushed = self.flush_out();
        self.control.close();
        if let Some(thread) = self.thread.take() {
            let _ = thread.join();
        }
        flushed
    }

    /// Waits until the server has closed the connection for the data.
    fn flush_out(&self) -> io::Result<()> {
        match self.data.shutdown(Shutdown::Write) {
            Err(error) if error.kind() == ErrorKind::NotConnected => return Ok(()),
            done => done?,
        }
        let (until, mut bytes) = (Instant::now() + FLUSH_PATIENCE, vec![0; IN_MAX]);
        loop {
            let left = until.saturating_duration_since(Instant::now());
            if left.is_zero() {
                return Err(ErrorKind::TimedOut.into());
            }
            match self.data.receive(&mut bytes, left.min(LONGEST_WAIT)) {
                Ok(Some(0)) => return Ok(()),
                Err(error) if error.kind() == ErrorKind::ConnectionReset => return Ok(()),
                Ok(_) => {}
                Err(error) => return Err(error),
            }
        }
    }

    /// Reads what came with the response that bound the connection.
    fn read_first(&self, bytes: &mut [u8]) -> usize {
        let mut first = self.first.lock().unwrap_or_else(PoisonError::into_inner);
        let size = first.len().min(bytes.len());
        for (to, from) in bytes.iter_mut().zip(first.drain(..size)) {
            *to = from;
        }
        size
    }
}

/// A connection that the server ended by a reset is read as one that it closed.
impl Read for &TurnStream {
    fn read(&mut self, bytes: &mut [u8]) -> io::Result<usize> {
        let size = self.read_first(bytes);
        if size > 0 || bytes.is_empty() {
            return Ok(size);
        }
        match (&self.data).read(bytes) {
            Err(error) if error.kind() == ErrorKind::ConnectionReset => Ok(0),
            read => read,
        }
    }
}

impl Write for &TurnStream {
    fn write(&mut self, bytes: &[u8]) -> io::Result<usize> {
        (&self.data).write(bytes)
    }

    fn flush(&mut self) -> io::Result<()> {
        Ok(())
    }
}

impl Read for TurnStream {
    fn read(&mut self, bytes: &mut [u8]) -> io::Result<usize> {
        (&*self).read(bytes)
    }
}

impl Write for TurnStream {
    fn write(&mut self, bytes: &[u8]) -> io::Result<usize> {
        (&*self).write(bytes)
    }

    fn flush(&mut self) -> io::Result<()> {
        Ok(())
    }
}

impl Drop for TurnStream {
    fn drop(&mut self) {
        let _ = self.data.shutdown(Shutdown::Both);
        self.control.close();
    }
}

/// The client, and its own connection to the server.
struct Control {
    stream: TcpStream,
    start: Instant,
    state: Mutex<State>,
}

struct State {
    client: TurnClientTcp,
    /// When it ends though the server has not confirmed the end; `None` while it goes on.
    closes_at: Option<Instant>,
}

impl Control {
    fn lock(&self) -> MutexGuard<'_, State> {
        self.state.lock().unwrap_or_else(PoisonError::into_inner)
    }

    /// Asks the server for the end of the allocation. The thread takes the response.
    fn close(&self) {
        let mut state = self.lock();
        if state.closes_at.is_none() {
            state.closes_at = Some(Instant::now() + CLOSE_PATIENCE);
            let _ = state.client.delete(self.start.elapsed());
            let _ = self.turn(&mut state);
        }
    }

    /// Renews the allocation until it ends.
    fn serve(&self) {
        let mut bytes = vec![0; IN_MAX];
        loop {
            let due = match self.turn(&mut self.lock()) {
                Ok(Some(due)) => due,
                Ok(None) | Err(_) => break,
            };
            let wait = due
                .saturating_duration_since(Instant::now())
                .min(LONGEST_WAIT);
            let size = match self.stream.receive(&mut bytes, wait) {
                Ok(None) => continue,
                Ok(Some(0)) | Err(_) => break,
                Ok(Some(size)) => size,
            };
            if self.handle(bytes.get(..size).unwrap_or_default()).is_err() {
                break;
            }
        }
        let _ = self.stream.shutdown(Shutdown::Both);
    }

    fn handle(&self, bytes: &[u8]) -> io::Result<()> {
        let client = &mut self.lock().client;
        let (from, to, now) = (
            client.remote_addr(),
            client.local_addr(),
            self.start.elapsed(),
        );
        let came = Transmit::new(bytes, TransportType::Tcp, from, to);
        client.recv(came, now).map_err(io::Error::other)?;
        while client.poll_recv(now).map_err(io::Error::other)?.is_some() {}
        Ok(())
    }

    /// Takes turns, and returns when the next one is due; `None` if the client has ended.
    fn turn(&self, state: &mut State) -> io::Result<Option<Instant>> {
        if state.closes_at.is_some_and(|it| it <= Instant::now()) {
            return Ok(None);
        }
        let client = &mut state.client;
        loop {
            let own = client.local_addr();
            let mut has_done = send_all(client, self.start.elapsed(), &mut |transmit| {
                // a connection that another peer opened has no socket
                if transmit.from == own {
                    self.stream.send(transmit.data)
                } else {
                    Ok(())
                }
            })?;
            let now = self.start.elapsed();
            let polled = client.poll(now).map_err(io::Error::other)?;
            while client.poll_event().is_some() {
                has_done = true;
            }
            match polled {
                TurnPollRet::Closed => return Ok(None),
                TurnPollRet::AllocateTcpSocket { id, peer_addr, .. } => {
                    let _ = client.allocated_tcp_socket(id, peer_addr, None, now);
                }
                TurnPollRet::TcpClose { .. } => {}
                TurnPollRet::WaitUntil(_) if has_done => {}
                TurnPollRet::WaitUntil(until) => {
                    let until = if until > now { until } else { now + PAUSE };
                    return Ok(Some(self.start + until));
                }
            }
        }
    }
}
