//! What drivers of datagrams share: a client with its clock, permissions, channels and what came,
//! without any socket.

use std::collections::{HashMap, HashSet, VecDeque};
use std::fmt;
use std::net::{IpAddr, SocketAddr};
use std::time::{Duration, Instant};

use super::error::{ConnectError, SocketError};
use crate::api::{
    Transmit, TransportType, TurnCause, TurnConfig, TurnCredentials, TurnEvent, TurnPeerData,
    TurnPollRet, TurnRecvRet,
};
use crate::client::{TurnClientApi, TurnClientTcp, TurnClientUdp};
use crate::error::{
    BindChannelError, CreatePermissionsError, CredentialsError, PollError, RecvError, SendError,
};
use crate::PERMIT_MAX;

/// How many datagrams of peers are stored while nobody receives, at most.
pub const INCOMING_MAX: usize = 256;

/// How many bytes of datagrams of peers are stored while nobody receives, at most.
pub const INCOMING_BYTES_MAX: usize = 256 * 1024;

/// Until the next turn, if the client wants one at once and does nothing in it.
const PAUSE: Duration = Duration::from_millis(10);
/// From a channel that failed to the next attempt at one to the same peer.
const CHANNEL_REST: Duration = Duration::from_secs(300);
/// How many peers are noted whose channel failed.
const CHANNELS_NOTED: usize = 1024;
/// How many refusals of requested permissions are noted: those of several requests.
const REFUSALS_NOTED: usize = 8 * PERMIT_MAX;
/// Between the server and peers.
const TO_PEERS: TransportType = TransportType::Udp;

/// Whether a peer's IP address may send and be sent to.
#[derive(Clone, Debug, PartialEq, Eq)]
#[non_exhaustive]
pub enum Permission {
    /// It may.
    Granted,
    /// The server was asked, and has not answered.
    Requested,
    /// It may not: the cause says why, `None` if it was never requested.
    Refused(Option<TurnCause>),
}

/// What a session is doing.
#[derive(Clone, Debug, PartialEq, Eq)]
#[non_exhaustive]
pub enum SessionState {
    /// It asks the server for a relayed address.
    Allocating,
    /// It has one.
    Ready,
    /// It gives it back to the server.
    Closing,
    /// It has ended after [`TurnSession::close`].
    Closed,
    /// The server gave no relayed address.
    Failed {
        /// Why; `None` if memory ran out, or the connection was closed.
        cause: Option<TurnCause>,
        /// The server that a response 300 named.
        alternate_server: Option<SocketAddr>,
        /// The domain of that server.
        alternate_domain: Option<String>,
    },
    /// The relayed address is gone.
    Lost {
        /// Why; `None` if memory ran out, or the connection was closed.
        cause: Option<TurnCause>,
    },
}

impl SessionState {
    /// Returns whether the session has ended.
    pub fn is_over(&self) -> bool {
        matches!(self, Self::Closed | Self::Failed { .. } | Self::Lost { .. })
    }

    /// Returns why datagrams can't be sent or received; `None` while they can.
    pub fn error(&self) -> Option<SocketError> {
        match self {
            Self::Ready => None,
            Self::Closing | Self::Closed => Some(SocketError::Closed),
            Self::Lost { cause } | Self::Failed { cause, .. } => Some(SocketError::Lost {
                cause: cause.clone(),
            }),
            Self::Allocating => Some(SocketError::Lost { cause: None }),
        }
    }

    /// Returns why there is no relayed address yet; `None` while there may be one.
    pub fn connect_error(&self) -> Option<ConnectError> {
        let (cause, alternate_server, alternate_domain) = match self {
            Self::Allocating | Self::Ready => return None,
            Self::Failed {
                cause,
                alternate_server,
                alternate_domain,
            } => (cause.clone(), *alternate_server, alternate_domain.clone()),
            Self::Lost { cause } => (cause.clone(), None, None),
            Self::Closing | Self::Closed => (None, None, None),
        };
        Some(ConnectError::Rejected {
            cause,
            alternate_server,
            alternate_domain,
        })
    }
}

/// A datagram of a peer, with the peer; or what there is to say about a peer.
pub type Incoming = Result<(Vec<u8>, SocketAddr), SocketError>;

/// The channels to peers.
#[derive(Debug, Default)]
struct Channels {
    /// Those that are bound, or requested.
    known: HashSet<SocketAddr>,
    /// Until when no channel to a peer is requested.
    barred: HashMap<SocketAddr, Duration>,
}

impl Channels {
    fn bar(&mut self, peer: SocketAddr, until: Duration) {
        self.known.remove(&peer);
        if self.barred.len() >= CHANNELS_NOTED {
            self.barred.clear();
        }
        self.barred.insert(peer, until);
    }

    fn wants(&self, peer: SocketAddr, now: Duration) -> bool {
        !self.known.contains(&peer) && self.barred.get(&peer).is_none_or(|until| now >= *until)
    }
}

/// A client over UDP or TCP with an allocation over UDP, for a driver: it has the clock, takes the
/// client's turns, keeps track of permissions and channels, and stores what came. The driver owns
/// the connection to the server and waits. [`TurnSocket`](crate::TurnSocket) is one over the
/// sockets of std.
///
/// A driver calls [`turn`](Self::turn) after each other call, and at the time that it returned.
/// Bytes that come go to [`handle_received`](Self::handle_received); then
/// [`next_incoming`](Self::next_incoming) returns what they brought.
pub struct TurnSession {
    client: Box<dyn TurnClientApi>,
    start: Instant,
    state: SessionState,
    /// Why the last ALLOCATE failed, while it isn't known whether the client goes on.
    failure: Option<SessionState>,
    requested: HashSet<IpAddr>,
    /// The latest refusals of what was requested, the oldest first.
    refusals: VecDeque<(IpAddr, Option<TurnCause>)>,
    channels: Option<Channels>,
    incoming: VecDeque<Incoming>,
    incoming_bytes: usize,
}

impl fmt::Debug for TurnSession {
    fn fmt(&self, f: &mut fmt::Formatter<'_>) -> fmt::Result {
        f.debug_struct("TurnSession")
            .field("client", &self.client)
            .field("state", &self.state)
            .finish_non_exhaustive()
    }
}

impl TurnSession {
    /// Makes a session between two addresses over a transport to the server. Nothing is sent before
    /// the first turn. Without `channels` all data goes in indications.
    ///
    /// # Errors
    ///
    /// - `AllocationTransport`: the settings ask for an allocation over TCP.
    /// - `Settings`: see [`AllocateError`](crate::AllocateError).
    pub fn new(
        transport: TransportType,
        local_addr: SocketAddr,
        server_addr: SocketAddr,
        config: TurnConfig,
        channels: bool,
    ) -> Result<Self, ConnectError> {
        if config.allocation_transport() != TO_PEERS {
            return Err(ConnectError::AllocationTransport);
        }
        let client: Box<dyn TurnClientApi> = match transport {
            TransportType::Udp => Box::new(TurnClientUdp::new(local_addr, server_addr, config)?),
            TransportType::Tcp => Box::new(TurnClientTcp::new(local_addr, server_addr, config)?),
        };
        Ok(Self {
            client,
            start: Instant::now(),
            state: SessionState::Allocating,
            failure: None,
            requested: HashSet::new(),
            refusals: VecDeque::new(),
            channels: channels.then(Channels::default),
            incoming: VecDeque::new(),
            incoming_bytes: 0,
        })
    }

    fn now(&self) -> Duration {
        self.start.elapsed()
    }

    /// Returns what the session is doing.
    pub fn state(&self) -> &SessionState {
        &self.state
    }

    /// Returns the client, for its getters.
    pub fn client(&self) -> &dyn TurnClientApi {
        self.client.as_ref()
    }

    // ---- turns

    /// Takes turns until there is nothing to do: passes each message for the server to `send`,
    /// handles events, and returns when the next turn is due at the latest; `None` if the session
    /// is over.
    pub fn turn(&mut self, send: &mut dyn FnMut(&[u8])) -> Option<Instant> {
        while !self.state.is_over() {
            match self.turn_once(send) {
                Ok(None) => {}
                Ok(Some(until)) => return Some(self.start + until),
                Err(_) => self.lose(),
            }
        }
        None
    }

    /// Returns until when nothing is to be done; `None` if another turn is due.
    fn turn_once(&mut self, send: &mut dyn FnMut(&[u8])) -> Result<Option<Duration>, PollError> {
        let mut has_done = false;
        loop {
            let transmit = self.client.poll_transmit(self.start.elapsed());
            let Some(transmit) = transmit.map_err(|_| PollError::NoMemory)? else {
                break;
            };
            send(transmit.data);
            has_done = true;
        }
        let polled = self.client.poll(self.now())?;
        while let Some((event, cause)) = self.client.poll_event_with_cause() {
            self.handle_event(event, cause);
            has_done = true;
        }
        match polled {
            TurnPollRet::Closed => self.handle_end(),
            TurnPollRet::AllocateTcpSocket { id, peer_addr, .. } => {
                // of an allocation over TCP alone
                let now = self.now();
                let _ = self.client.allocated_tcp_socket(id, peer_addr, None, now);
            }
            TurnPollRet::TcpClose { .. } => {}
            TurnPollRet::WaitUntil(_) if has_done => {}
            TurnPollRet::WaitUntil(until) => {
                self.failure = None; // the client goes on: what failed was one family of two
                let now = self.now();
                return Ok(Some(if until > now { until } else { now + PAUSE }));
            }
        }
        Ok(None)
    }

    fn handle_event(&mut self, event: TurnEvent, cause: Option<TurnCause>) {
        match event {
            TurnEvent::AllocationCreateFailed(_) => {
                self.failure = Some(SessionState::Failed {
                    cause,
                    alternate_server: self.client.alternate_server(),
                    alternate_domain: self.client.alternate_domain(),
                });
            }
            TurnEvent::PermissionCreated(_, peer) => {
                self.requested.remove(&peer);
            }
            TurnEvent::PermissionCreateFailed(_, peer) => self.handle_refusal(peer, cause),
            TurnEvent::ChannelCreateFailed(_, peer) => {
                self.bar_channel(peer, self.now() + CHANNEL_REST)
            }
            TurnEvent::AllocationCreated(..)
            | TurnEvent::ChannelCreated(..)
            | TurnEvent::TcpConnected(_)
            | TurnEvent::TcpConnectFailed(_) => {}
        }
        if self.state == SessionState::Allocating && !self.client.relayed_addresses().is_empty() {
            self.state = SessionState::Ready;
        }
    }

    /// What was requested is told to whoever requested it, and what isn't renewed to whoever
    /// receives.
    fn handle_refusal(&mut self, peer: IpAddr, cause: Option<TurnCause>) {
        if !self.requested.remove(&peer) {
            self.store(Err(SocketError::PeerRefused { peer, cause }));
            return;
        }
        if self.refusals.len() >= REFUSALS_NOTED {
            self.refusals.pop_front();
        }
        self.refusals.push_back((peer, cause));
    }

    /// The client has ended.
    fn handle_end(&mut self) {
        let failure = self.failure.take();
        self.state = match (&self.state, failure) {
            (SessionState::Closing, _) => SessionState::Closed,
            (SessionState::Allocating, Some(failure)) => failure,
            (SessionState::Ready, Some(SessionState::Failed { cause, .. })) => {
                SessionState::Lost { cause }
            }
            (SessionState::Ready, _) => SessionState::Lost {
                cause: Some(TurnCause::Expired),
            },
            _ => SessionState::Lost { cause: None },
        };
        self.requested.clear();
    }

    /// Ends the session, for its connection is closed, or memory ran out. One that was closing is
    /// closed.
    pub fn lose(&mut self) {
        self.state = match self.state {
            SessionState::Closing | SessionState::Closed => SessionState::Closed,
            _ => SessionState::Lost { cause: None },
        };
        self.requested.clear();
    }

    // ---- what comes

    /// Handles what came of the server: a datagram, or bytes of a stream. What they bring is
    /// returned by [`next_incoming`](Self::next_incoming), which is to be called until it returns
    /// `None` before more is passed here, or [`store_incoming`](Self::store_incoming).
    pub fn handle_received(&mut self, bytes: &[u8]) {
        if self.state.is_over() {
            return;
        }
        let (from, to) = (self.client.remote_addr(), self.client.local_addr());
        let came = Transmit::new(bytes, self.client.transport(), from, to);
        let incoming = match self.client.recv(came, self.start.elapsed()) {
            Ok(TurnRecvRet::PeerData(data)) => Ok(owned(data)),
            Ok(TurnRecvRet::PeerIcmp {
                peer,
                icmp_type,
                icmp_code,
                icmp_data,
                ..
            }) => Err(SocketError::PeerUnreachable {
                peer,
                icmp_type,
                icmp_code,
                icmp_data,
            }),
            Ok(TurnRecvRet::Handled | TurnRecvRet::Ignored(_)) | Err(RecvError::Unread) => return,
            Err(_) => return self.lose(),
        };
        self.store(incoming);
    }

    /// Returns what came and wasn't returned yet: a datagram of a peer, or what there is to say
    /// about a peer.
    pub fn next_incoming(&mut self) -> Option<Incoming> {
        if let Some(first) = self.incoming.pop_front() {
            self.incoming_bytes -= first.as_ref().map_or(0, |(data, _)| data.len());
            return Some(first);
        }
        self.pull().map(Ok)
    }

    /// Stores what came, for a later [`next_incoming`](Self::next_incoming): at most
    /// [`INCOMING_MAX`] datagrams and [`INCOMING_BYTES_MAX`] bytes. What comes beyond is dropped.
    pub fn store_incoming(&mut self) {
        while let Some(data) = self.pull() {
            self.store(Ok(data));
        }
    }

    /// The next datagram that waits in a stream.
    fn pull(&mut self) -> Option<(Vec<u8>, SocketAddr)> {
        if self.state.is_over() || self.client.transport() == TransportType::Udp {
            return None;
        }
        let now = self.now();
        match self.client.poll_recv(now) {
            Ok(data) => data.map(owned),
            Err(RecvError::Unread) => None,
            Err(_) => {
                self.lose();
                None
            }
        }
    }

    fn store(&mut self, incoming: Incoming) {
        let size = incoming.as_ref().map_or(0, |(data, _)| data.len());
        if self.incoming.len() < INCOMING_MAX && self.incoming_bytes + size <= INCOMING_BYTES_MAX {
            self.incoming_bytes += size;
            self.incoming.push_back(incoming);
        }
    }

    // ---- to peers

    /// Passes a datagram for a peer to `send`, and requests a channel to the peer unless there is
    /// one.
    ///
    /// # Errors
    ///
    /// Nothing is sent then.
    ///
    /// - `Closed`, `Lost`: the session is over.
    /// - `PeerRefused` without a cause: there is no permission. Call
    ///   [`request_permission`](Self::request_permission).
    /// - `TooLarge`, `NoMemory`.
    pub fn send_to(
        &mut self,
        data: &[u8],
        peer: SocketAddr,
        send: &mut dyn FnMut(&[u8]),
    ) -> Result<(), SocketError> {
        if let Some(error) = self.state.error() {
            return Err(error);
        }
        let now = self.now();
        match self.client.send_to(TO_PEERS, peer, data, now) {
            Ok(transmit) => send(transmit.data),
            Err(SendError::TooLarge) => return Err(SocketError::TooLarge),
            Err(SendError::NoPermission | SendError::NoTcpSocket) => {
                let (peer, cause) = (peer.ip(), None);
                return Err(SocketError::PeerRefused { peer, cause });
            }
            Err(SendError::NoMemory | SendError::Other(_)) => return Err(SocketError::NoMemory),
        }
        self.request_channel(peer);
        Ok(())
    }

    fn request_channel(&mut self, peer: SocketAddr) {
        let now = self.now();
        if !self.channels.as_ref().is_some_and(|it| it.wants(peer, now)) {
            return;
        }
        match self.client.bind_channel(TO_PEERS, peer, now) {
            Ok(()) | Err(BindChannelError::AlreadyExists) => {
                if let Some(channels) = &mut self.channels {
                    channels.known.insert(peer);
                    channels.barred.remove(&peer);
                }
            }
            Err(BindChannelError::ExpiredChannelExists(until)) => self.bar_channel(peer, until),
            Err(_) => self.bar_channel(peer, now + CHANNEL_REST),
        }
    }

    fn bar_channel(&mut self, peer: SocketAddr, until: Duration) {
        if let Some(channels) = &mut self.channels {
            channels.bar(peer, until);
        }
    }

    // ---- permissions, credentials, the end

    /// Requests a permission for a peer's IP address, unless there is one or it was requested. It
    /// is renewed until the session ends.
    ///
    /// # Errors
    ///
    /// - `Closed`, `Lost`: the session is over.
    /// - `PeerRefused` without a cause: there is no relayed address of that family.
    /// - `NoMemory`: the call may be made again.
    pub fn request_permission(&mut self, peer: IpAddr) -> Result<(), SocketError> {
        if let Some(error) = self.state.error() {
            return Err(error);
        }
        self.request_each(&[peer])
    }

    /// Requests permissions for the IP addresses of several peers by one request, which the server
    /// grants or rejects as a whole: for those that are neither permitted nor requested yet, each
    /// once. They are renewed until the session ends. Returns those that aren't permitted yet, for
    /// [`granted`](Self::granted).
    ///
    /// # Errors
    ///
    /// - `Closed`, `Lost`: the session is over.
    /// - `InvalidAddresses`: there is no address, there are more than
    ///   [`PERMIT_MAX`](crate::PERMIT_MAX) different ones, or they are of two families.
    /// - `PeerRefused` without a cause: there is no relayed address of that family.
    /// - `NoMemory`: the call may be made again.
    pub fn request_permissions(&mut self, peers: &[IpAddr]) -> Result<Vec<IpAddr>, SocketError> {
        if let Some(error) = self.state.error() {
            return Err(error);
        }
        let mut missing = different(peers)?;
        missing.retain(|it| !self.client.have_permission(TO_PEERS, *it));
        let mut wanted = missing.clone();
        wanted.retain(|it| !self.requested.contains(it));
        self.request_each(&wanted)?;
        Ok(missing)
    }

    /// Requests permissions by one request.
    fn request_each(&mut self, peers: &[IpAddr]) -> Result<(), SocketError> {
        let Some(peer) = peers.first().copied() else {
            return Ok(());
        };
        let now = self.now();
        match self.client.create_permissions(TO_PEERS, peers, now) {
            Ok(()) => {
                self.requested.extend(peers);
                Ok(())
            }
            Err(CreatePermissionsError::AlreadyExists) if peers.len() > 1 => {
                // one was requested just before the refusal of an older request was handled, and
                // isn't noted any more: each by itself
                peers.iter().try_for_each(|it| self.request_each(&[*it]))
            }
            Err(CreatePermissionsError::AlreadyExists) => {
                if !self.client.have_permission(TO_PEERS, peer) {
                    self.requested.insert(peer);
                }
                Ok(())
            }
            Err(CreatePermissionsError::NoMemory) => Err(SocketError::NoMemory),
            Err(_) => Err(SocketError::PeerRefused { peer, cause: None }),
        }
    }

    /// Returns whether a peer's IP address is permitted.
    pub fn permission(&self, peer: IpAddr) -> Permission {
        if self.client.have_permission(TO_PEERS, peer) {
            return Permission::Granted;
        }
        if self.requested.contains(&peer) {
            return Permission::Requested;
        }
        let latest = self
            .refusals
            .iter()
            .rev()
            .find(|(refused, _)| *refused == peer);
        Permission::Refused(latest.and_then(|(_, cause)| cause.clone()))
    }

    /// Returns what became of permissions that were requested: `None` while the server has not
    /// answered for one, and otherwise whether all are granted.
    ///
    /// # Errors
    ///
    /// - `Closed`, `Lost`: the session is over.
    /// - `PeerRefused`: of the first of the peers whose permission isn't granted.
    pub fn granted(&self, peers: &[IpAddr]) -> Option<Result<(), SocketError>> {
        if let Some(error) = self.state.error() {
            return Some(Err(error));
        }
        let mut outcome = Some(Ok(()));
        for peer in peers.iter().copied() {
            match self.permission(peer) {
                Permission::Granted => {}
                Permission::Requested => outcome = None,
                Permission::Refused(cause) => {
                    return Some(Err(SocketError::PeerRefused { peer, cause }));
                }
            }
        }
        outcome
    }

    /// Sets the credentials that replace the present ones with the server's next challenge: see
    /// [`TurnClientApi::set_credentials`].
    pub fn set_credentials(
        &mut self,
        credentials: &TurnCredentials,
    ) -> Result<(), CredentialsError> {
        self.client.set_credentials(credentials)
    }

    /// Gives the relayed address back to the server: the session is `Closing`, and after the
    /// server's response `Closed`. Without an address it is `Closed` at once.
    pub fn close(&mut self) {
        if self.state.is_over() || self.state == SessionState::Closing {
            return;
        }
        let now = self.now();
        self.state = match self.client.delete(now) {
            Ok(()) => SessionState::Closing,
            Err(_) => SessionState::Closed,
        };
        self.incoming.clear();
        self.incoming_bytes = 0;
        self.requested.clear();
    }
}

/// The addresses, each once, that can stand in one request.
fn different(peers: &[IpAddr]) -> Result<Vec<IpAddr>, SocketError> {
    let mut different: Vec<IpAddr> = Vec::new();
    for peer in peers.iter().copied() {
        if different.contains(&peer) {
            continue;
        }
        let is_of_two = different
            .first()
            .is_some_and(|it| it.is_ipv4() != peer.is_ipv4());
        if is_of_two || different.len() == PERMIT_MAX {
            return Err(SocketError::InvalidAddresses);
        }
        different.push(peer);
    }
    if different.is_empty() {
        return Err(SocketError::InvalidAddresses);
    }
    Ok(different)
}

fn owned(data: TurnPeerData<'_>) -> (Vec<u8>, SocketAddr) {
    let peer = data.peer;
    (data.into_data().into_owned(), peer)
}
