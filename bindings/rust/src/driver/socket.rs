//! Datagrams through a TURN server, over sockets of std.

use std::fmt;
use std::io;
use std::net::{IpAddr, SocketAddr};
use std::sync::{Condvar, Mutex, MutexGuard, PoisonError};
use std::thread;
use std::time::{Duration, Instant};

use super::connection::ServerConnection;
use super::error::{ConnectError, SocketError};
use super::options::ConnectOptions;
use super::session::{Incoming, Permission, SessionState, TurnSession};
use super::setup::{closed, LAST_PATIENCE, PACE};
use crate::api::{TransportType, TurnConfig, TurnCredentials};
use crate::error::CredentialsError;
use crate::uri::TurnUri;

/// How long the server has to confirm the end of an allocation.
pub const CLOSE_PATIENCE: Duration = Duration::from_secs(3);

/// Bytes that are read at once; no datagram is larger.
const IN_MAX: usize = 65_536;
/// How long a call serves at least, so that it reads what came.
const LEAST_SERVICE: Duration = Duration::from_millis(1);
/// How long a program may only send until a call takes what came, and how long it then takes.
const UNREAD_MAX: Duration = Duration::from_millis(100);
const LOOK_MAX: Duration = Duration::from_millis(10);
/// The longest wait in the system. No call can wake a thread there that waits for a datagram, so
/// what another thread requests or closes is seen after it. It also bounds what Linux adds to a
/// timeout, as much as an eighth.
const LONGEST_WAIT: Duration = Duration::from_secs(1);

/// A socket whose datagrams go through a TURN server, with the calls of [`std::net::UdpSocket`]:
/// peers see, and send to, its [`relayed_addr`](Self::relayed_addr).
///
/// ```no_run
/// use turn_client::{TurnConfig, TurnCredentials, TurnSocket};
///
/// let config = TurnConfig::new(TurnCredentials::new("alice", "secret"));
/// let socket = TurnSocket::connect(&"turn:turn.example.org".parse()?, config)?;
/// socket.send_to(b"hello", "198.51.100.1:9000".parse()?)?;
/// let mut bytes = [0; 1500];
/// let (size, peer) = socket.recv_from(&mut bytes)?;
/// println!("{size} bytes of {peer}");
/// socket.close()?;
/// # Ok::<(), Box<dyn std::error::Error>>(())
/// ```
///
/// # Permissions
///
/// A peer may send only if its IP address has a permission. The first [`send_to`](Self::send_to) to
/// an address requests it and waits for the server; [`permit`](Self::permit) does that for a peer
/// to whom nothing is sent, and [`permit_several`](Self::permit_several) for up to
/// [`PERMIT_MAX`](crate::PERMIT_MAX) by one request. All are renewed until the socket is closed.
/// After the first datagram a channel to the peer is requested, unless [`ConnectOptions::channels`]
/// says otherwise. If the server rejects it, all goes in indications, and it is requested again
/// after five minutes.
///
/// # Renewals
///
/// There is no thread of the socket's own. What is due is done within its calls: allocation,
/// permissions and channels are renewed while a thread is in [`recv_from`](Self::recv_from),
/// [`send_to`](Self::send_to) or [`serve`](Self::serve). **While the program calls nothing, nothing
/// is renewed and nothing is received.** A permission ends 300 seconds after it was granted and is
/// renewed after 240; an allocation is renewed a minute before its end, which mostly is after 600
/// seconds. So call one of them at least twice a minute, as [`serve`](Self::serve) with a time of
/// zero. If the allocation has ended meanwhile, the next calls return [`SocketError::Lost`].
///
/// # Threads
///
/// All calls take `&self`, so threads may share a socket, as by an [`Arc`](std::sync::Arc): one may
/// send while another one is blocked in `recv_from`. What one thread closes, another one that waits
/// sees within a second.
///
/// # What is stored, and dropped
///
/// What comes while a call waits for something else, as `send_to` for a permission, is stored for
/// `recv_from`: at most [`INCOMING_MAX`](crate::driver::INCOMING_MAX) datagrams and
/// [`INCOMING_BYTES_MAX`](crate::driver::INCOMING_BYTES_MAX) bytes. What comes beyond is dropped.
/// What comes while no call runs waits in the system's socket.
pub struct TurnSocket {
    connection: Box<dyn ServerConnection>,
    local_addr: SocketAddr,
    server_addr: SocketAddr,
    relayed_addrs: Vec<SocketAddr>,
    inner: Mutex<Inner>,
    /// Something came, or the thread that read has ended its read.
    changed: Condvar,
}

#[derive(Debug)]
struct Inner {
    session: TurnSession,
    /// The buffer of the thread that reads; `None` while one does.
    buffer: Option<Vec<u8>>,
    read_timeout: Option<Duration>,
    /// Why the stream to the server failed.
    failure: Option<io::Error>,
    /// How often something was read, and when a thread last tried.
    reads: u64,
    read_at: Instant,
}

impl fmt::Debug for TurnSocket {
    fn fmt(&self, f: &mut fmt::Formatter<'_>) -> fmt::Result {
        f.debug_struct("TurnSocket")
            .field("relayed_addrs", &self.relayed_addrs)
            .field("local_addr", &self.local_addr)
            .field("server_addr", &self.server_addr)
            .finish_non_exhaustive()
    }
}

/// What a call waits for: whether it receives, so that what came isn't to be stored for later.
#[derive(Clone, Copy, PartialEq, Eq)]
enum Waits {
    Receiving,
    Storing,
}

impl TurnSocket {
    /// Connects to the server of a URI over UDP or TCP, and gets a relayed address.
    /// [`ConnectOptions`] has more to choose, and connects over TLS.
    ///
    /// # Errors
    ///
    /// As [`ConnectOptions::connect`]. A server that doesn't respond is given up after 39.5
    /// seconds.
    pub fn connect(uri: &TurnUri, config: TurnConfig) -> Result<Self, ConnectError> {
        ConnectOptions::new().connect(uri, config)
    }

    /// Gets a relayed address over a connection.
    pub(crate) fn allocate(
        connection: Box<dyn ServerConnection>,
        config: TurnConfig,
        channels: bool,
        until: Option<Instant>,
    ) -> Result<Self, ConnectError> {
        let local_addr = connection.local_addr().map_err(ConnectError::Unreachable)?;
        let server_addr = connection
            .server_addr()
            .map_err(ConnectError::Unreachable)?;
        let session = TurnSession::new(
            connection.transport(),
            local_addr,
            server_addr,
            config,
            channels,
        )?;
        let mut socket = Self {
            connection,
            local_addr,
            server_addr,
            relayed_addrs: Vec::new(),
            inner: Mutex::new(Inner {
                session,
                buffer: Some(vec![0; IN_MAX]),
                read_timeout: None,
                failure: None,
                reads: 0,
                read_at: Instant::now(),
            }),
            changed: Condvar::new(),
        };
        socket.await_address(until)?;
        let relayed = socket.lock().session.client().relayed_addresses();
        socket.relayed_addrs = relayed.into_iter().map(|(_, address)| address).collect();
        Ok(socket)
    }

    /// Waits for the relayed address.
    fn await_address(&self, until: Option<Instant>) -> Result<(), ConnectError> {
        let outcome = self.wait(Waits::Storing, until, |session| match session.state() {
            SessionState::Allocating => None,
            SessionState::Lost { cause: None } => Some(Err(ConnectError::Unreachable(closed()))),
            state => Some(state.connect_error().map_or(Ok(()), Err)),
        });
        let failure = self.lock().failure.take();
        match (outcome, failure) {
            (Ok(Some(Ok(()))), _) => Ok(()),
            (Err(error), _) | (_, Some(error)) => Err(ConnectError::Unreachable(error)),
            (Ok(Some(Err(error))), None) => Err(error),
            (Ok(None), None) => Err(ConnectError::TimedOut),
        }
    }

    // ---- addresses

    /// Returns the relayed address, to which peers send. If there are two, of IPv4 and IPv6, it is
    /// the first of [`relayed_addrs`](Self::relayed_addrs).
    pub fn relayed_addr(&self) -> SocketAddr {
        let none = SocketAddr::from(([0, 0, 0, 0], 0)); // a socket that was made has one
        self.relayed_addrs.first().copied().unwrap_or(none)
    }

    /// Returns all relayed addresses: two if the settings asked for both families and the server
    /// gave both.
    pub fn relayed_addrs(&self) -> &[SocketAddr] {
        &self.relayed_addrs
    }

    /// Returns the socket's own address, from which it sends to the server.
    pub fn local_addr(&self) -> SocketAddr {
        self.local_addr
    }

    /// Returns the socket's own address as the server saw it; `None` if the server didn't say.
    pub fn mapped_addr(&self) -> Option<SocketAddr> {
        self.lock().session.client().mapped_address()
    }

    /// Returns the server's address: that of another server, if this one named it and was followed.
    pub fn server_addr(&self) -> SocketAddr {
        self.server_addr
    }

    /// Returns the transport to the server.
    pub fn transport(&self) -> TransportType {
        self.connection.transport()
    }

    // ---- datagrams

    /// Sends a datagram to a peer, and returns its size. If the peer's IP address has no
    /// permission, that is requested first, and the call waits for the server: see
    /// [Permissions](#permissions).
    ///
    /// # Errors
    ///
    /// Nothing was sent then.
    ///
    /// - `Closed`, `Lost`: the socket is over.
    /// - `TooLarge`, `NoMemory`.
    /// - `PeerRefused`: the server gives no permission.
    /// - `Io`: the system refuses to send.
    pub fn send_to(&self, data: &[u8], peer: SocketAddr) -> Result<usize, SocketError> {
        if data.len() > crate::PAYLOAD_MAX {
            return Err(self
                .lock()
                .session
                .state()
                .error()
                .unwrap_or(SocketError::TooLarge));
        }
        if !self.is_permitted(peer.ip())? {
            self.permit(peer.ip())?;
        }
        let mut inner = self.lock();
        let mut sent = Ok(());
        inner
            .session
            .send_to(data, peer, &mut |bytes| sent = self.connection.send(bytes))?;
        if let Err(error) = sent {
            return Err(match self.fail(&mut inner, error) {
                Some(error) => SocketError::Io(error),
                None => SocketError::Lost { cause: None },
            });
        }
        self.turn(&mut inner);
        self.look(inner);
        Ok(data.len())
    }

    /// Takes what waits in the system's socket, if nobody read for a while: responses come also to a
    /// program that only sends.
    fn look<'a>(&'a self, mut inner: MutexGuard<'a, Inner>) {
        if inner.buffer.is_none() || inner.read_at.elapsed() < UNREAD_MAX {
            return;
        }
        let until = Instant::now() + LOOK_MAX;
        loop {
            let before = inner.reads;
            (inner, _) = self.receive(inner, Duration::ZERO);
            inner.session.store_incoming();
            self.turn(&mut inner);
            if inner.reads == before || Instant::now() > until {
                return;
            }
        }
    }

    fn is_permitted(&self, peer: IpAddr) -> Result<bool, SocketError> {
        let inner = self.lock();
        match inner.session.state().error() {
            Some(error) => Err(error),
            None => Ok(inner.session.permission(peer) == Permission::Granted),
        }
    }

    /// Waits for a datagram of a peer, and returns its size and the peer. If it is longer than
    /// `bytes`, the rest is lost, as with `UdpSocket`.
    ///
    /// # Errors
    ///
    /// After the first three the socket goes on.
    ///
    /// - `TimedOut`: nothing came in the time of [`set_read_timeout`](Self::set_read_timeout).
    /// - `PeerRefused`: the permission for a peer, who had one, wasn't renewed.
    /// - `PeerUnreachable`: the server passed on an ICMP report.
    /// - `Closed`, `Lost`: the socket is over. What had come before is returned first, unless it
    ///   was closed.
    /// - `Io`: the system refuses to receive.
    pub fn recv_from(&self, bytes: &mut [u8]) -> Result<(usize, SocketAddr), SocketError> {
        let until = self.lock().read_timeout.and_then(deadline);
        let incoming = self.wait(Waits::Receiving, until, |session| -> Option<Incoming> {
            session
                .next_incoming()
                .or_else(|| session.state().error().map(Err))
        });
        let (data, peer) = incoming
            .map_err(SocketError::Io)?
            .unwrap_or(Err(SocketError::TimedOut))?;
        let size = data.len().min(bytes.len());
        if let (Some(to), Some(from)) = (bytes.get_mut(..size), data.get(..size)) {
            to.copy_from_slice(from);
        }
        Ok((size, peer))
    }

    /// Sets how long [`recv_from`](Self::recv_from) waits; `None`, as at first, is without end.
    ///
    /// # Errors
    ///
    /// `Io` of the kind `InvalidInput`: a time of zero, as with `UdpSocket`.
    pub fn set_read_timeout(&self, timeout: Option<Duration>) -> Result<(), SocketError> {
        if timeout == Some(Duration::ZERO) {
            let error = io::Error::new(io::ErrorKind::InvalidInput, "a timeout of zero");
            return Err(SocketError::Io(error));
        }
        self.lock().read_timeout = timeout;
        Ok(())
    }

    /// Returns how long [`recv_from`](Self::recv_from) waits.
    pub fn read_timeout(&self) -> Option<Duration> {
        self.lock().read_timeout
    }

    // ---- permissions, renewals, the end

    /// Lets a peer's IP address send to the relayed address, and waits until it may.
    ///
    /// # Errors
    ///
    /// - `Closed`, `Lost`: the socket is over.
    /// - `PeerRefused`: the server gives no permission; after 39.5 seconds, if it doesn't respond.
    /// - `NoMemory`; `Io`.
    pub fn permit(&self, peer: IpAddr) -> Result<(), SocketError> {
        self.lock().session.request_permission(peer)?;
        self.await_permissions(&[peer])
    }

    /// Lets the IP addresses of several peers send to the relayed address, and waits until all may.
    /// Those that are neither permitted nor requested yet are requested by one request, which the
    /// server grants or rejects as a whole. An address that is named twice counts once.
    ///
    /// # Errors
    ///
    /// - `Closed`, `Lost`: the socket is over.
    /// - `InvalidAddresses`: there is no address, there are more than
    ///   [`PERMIT_MAX`](crate::PERMIT_MAX) different ones, or they are of two families.
    /// - `PeerRefused`: the server gives no permission for a peer, or for several that were
    ///   requested together, of whom the error names the first; after 39.5 seconds, if it doesn't
    ///   respond.
    /// - `NoMemory`; `Io`.
    pub fn permit_several(&self, peers: &[IpAddr]) -> Result<(), SocketError> {
        let missing = self.lock().session.request_permissions(peers)?;
        self.await_permissions(&missing)
    }

    fn await_permissions(&self, peers: &[IpAddr]) -> Result<(), SocketError> {
        let outcome = self.wait(Waits::Storing, None, |session| session.granted(peers));
        outcome
            .map_err(SocketError::Io)?
            .unwrap_or(Err(SocketError::TimedOut))
    }

    /// Does what is due for that time, and stores what comes for [`recv_from`](Self::recv_from): in
    /// place of [`std::thread::sleep`], or with a time of zero now and then, for a program that
    /// doesn't receive. See [Renewals](#renewals).
    ///
    /// # Errors
    ///
    /// `Closed`, `Lost`: the socket is over. `Io`: the system refuses to receive.
    pub fn serve(&self, time: Duration) -> Result<(), SocketError> {
        let until = deadline(time.max(LEAST_SERVICE));
        let outcome = self.wait(Waits::Storing, until, |session| {
            session.state().error().map(Err)
        });
        outcome.map_err(SocketError::Io)?.unwrap_or(Ok(()))
    }

    /// Sets the credentials that replace the present ones with the server's next challenge: for
    /// passwords that expire. Call it before they do.
    ///
    /// # Errors
    ///
    /// See [`CredentialsError`]. The present ones stay.
    pub fn set_credentials(&self, credentials: &TurnCredentials) -> Result<(), CredentialsError> {
        self.lock().session.set_credentials(credentials)
    }

    /// Gives the relayed address back to the server, and waits until the server confirms it, for
    /// [`CLOSE_PATIENCE`] at most. What came and wasn't received is dropped, and each other call
    /// returns `Closed` from now on.
    ///
    /// A socket that is dropped tells the server once that it gives the address back, in a quarter
    /// of a second at most, and doesn't wait for the response: if that is lost, the server keeps
    /// the address until its time is over.
    ///
    /// # Errors
    ///
    /// The socket is closed also then.
    ///
    /// - `Closed`, `Lost`: it was over before.
    /// - `TimedOut`: the server didn't confirm it. The server keeps the address until its time is
    ///   over.
    /// - `Io`: the system refuses to send or receive.
    pub fn close(&self) -> Result<(), SocketError> {
        {
            let mut inner = self.lock();
            if let Some(error) = inner.session.state().error() {
                return Err(error);
            }
            inner.session.close();
        }
        let until = Instant::now() + CLOSE_PATIENCE;
        let outcome = self.wait(Waits::Storing, Some(until), |session| {
            session.state().is_over().then_some(())
        });
        let mut inner = self.lock();
        inner.session.lose();
        self.changed.notify_all();
        outcome
            .map_err(SocketError::Io)?
            .ok_or(SocketError::TimedOut)
    }

    // ---- turns

    fn lock(&self) -> MutexGuard<'_, Inner> {
        self.inner.lock().unwrap_or_else(PoisonError::into_inner)
    }

    /// Ends the session of a stream that failed. A datagram that wasn't sent is as one that was
    /// lost, so over UDP the session goes on: the error is returned.
    fn fail(&self, inner: &mut Inner, error: io::Error) -> Option<io::Error> {
        if self.connection.transport() == TransportType::Udp {
            return Some(error);
        }
        inner.session.lose();
        inner.failure.get_or_insert(error);
        None
    }

    /// Takes the turns that are due, and returns when the next one is.
    fn turn(&self, inner: &mut Inner) -> Option<Instant> {
        let mut failed = None;
        let due = inner.session.turn(&mut |bytes| {
            if let Err(error) = self.connection.send(bytes) {
                failed = Some(error);
            }
        });
        // what is lost over UDP is sent again in time
        if let Some(error) = failed {
            self.fail(inner, error);
        }
        due
    }

    /// Takes turns and receives until `outcome` returns something, or until a time, then `None`.
    ///
    /// One thread at a time reads, which has taken the buffer; others wait until it has something,
    /// and take turns, too.
    fn wait<T>(
        &self,
        waits: Waits,
        until: Option<Instant>,
        mut outcome: impl FnMut(&mut TurnSession) -> Option<T>,
    ) -> io::Result<Option<T>> {
        let mut inner = self.lock();
        let mut failed = None;
        loop {
            if waits == Waits::Storing {
                inner.session.store_incoming();
            }
            let due = self.turn(&mut inner);
            if let Some(outcome) = outcome(&mut inner.session) {
                return Ok(Some(outcome));
            }
            if let Some(error) = failed {
                return Err(error);
            }
            let now = Instant::now();
            if until.is_some_and(|it| it <= now) {
                return Ok(None);
            }
            let next = [due, until].into_iter().flatten().min();
            let wait = next.map_or(LONGEST_WAIT, |it| it.saturating_duration_since(now));
            (inner, failed) = self.receive(inner, wait.min(LONGEST_WAIT));
        }
    }

    /// Waits for bytes of the server, and passes them to the session; or while another thread does
    /// that, until it has.
    fn receive<'a>(
        &'a self,
        mut inner: MutexGuard<'a, Inner>,
        wait: Duration,
    ) -> (MutexGuard<'a, Inner>, Option<io::Error>) {
        let Some(buffer) = inner.buffer.take() else {
            let waited = self.changed.wait_timeout(inner, wait);
            return (waited.unwrap_or_else(PoisonError::into_inner).0, None);
        };
        drop(inner);
        let mut reading = Reading {
            socket: self,
            buffer,
        };
        let received = self.connection.receive(&mut reading.buffer, wait);
        let mut inner = self.lock();
        let buffer = std::mem::take(&mut reading.buffer);
        inner.read_at = Instant::now();
        let failed = match received {
            Ok(None) => None,
            Ok(Some(0)) if self.connection.transport() == TransportType::Tcp => {
                self.fail(&mut inner, closed())
            }
            Ok(Some(size)) => {
                inner.reads += 1;
                inner
                    .session
                    .handle_received(buffer.get(..size).unwrap_or_default());
                None
            }
            Err(error) => self.fail(&mut inner, error),
        };
        inner.buffer = Some(buffer);
        self.changed.notify_all();
        (inner, failed)
    }
}

/// When a time is over; `None` if that is later than any clock shows.
pub(super) fn deadline(time: Duration) -> Option<Instant> {
    Instant::now().checked_add(time)
}

/// A thread that reads. If the read panics the next thread that reads gets a buffer all the same.
struct Reading<'a> {
    socket: &'a TurnSocket,
    buffer: Vec<u8>,
}

impl Drop for Reading<'_> {
    fn drop(&mut self) {
        if !self.buffer.is_empty() {
            self.socket.lock().buffer = Some(std::mem::take(&mut self.buffer));
            self.socket.changed.notify_all();
        }
    }
}

impl Drop for TurnSocket {
    fn drop(&mut self) {
        let mut inner = self.lock();
        inner.session.close();
        let until = Instant::now() + LAST_PATIENCE;
        while let Some(due) = self.turn(&mut inner) {
            let now = Instant::now();
            if due > now + PACE || now > until {
                return; // all is sent
            }
            thread::sleep(due.saturating_duration_since(now));
        }
    }
}
