//! What a client is given and what it answers.

use std::borrow::Cow;
use std::fmt;
use std::mem::size_of;
use std::net::{IpAddr, SocketAddr};
use std::time::Duration;

use crate::address::{read, read_transport, told, told_transport, told_wait};
use crate::sys;

/// A transport: to the server, or between the server and its peers.
#[derive(Clone, Copy, Debug, PartialEq, Eq, Hash)]
pub enum TransportType {
    /// UDP.
    Udp,
    /// TCP.
    Tcp,
}

/// A family of addresses.
#[derive(Clone, Copy, Debug, PartialEq, Eq, Hash)]
pub enum AddressFamily {
    /// IPv4.
    IPV4,
    /// IPv6.
    IPV6,
}

/// By which digest messages are signed.
#[derive(Clone, Copy, Debug, PartialEq, Eq, Hash)]
pub enum IntegrityAlgorithm {
    /// HMAC-SHA1.
    Sha1,
    /// HMAC-SHA256 (RFC 8489).
    Sha256,
    /// HMAC-SHA512, which no RFC has.
    Sha512,
}

/// Whether something is done.
#[derive(Clone, Copy, Debug, PartialEq, Eq, Hash)]
pub enum Feature {
    /// Where the server can.
    Auto,
    /// Always: a server that can't is given up.
    Required,
    /// Never.
    Disabled,
}

/// A user's name and password. What is printed of it has no password.
#[derive(Clone, PartialEq, Eq)]
pub struct TurnCredentials {
    username: String,
    password: String,
}

impl TurnCredentials {
    /// A name of 513 bytes at most, and a password.
    pub fn new(username: &str, password: &str) -> Self {
        let (username, password) = (username.to_string(), password.to_string());
        Self { username, password }
    }

    /// The name.
    pub fn username(&self) -> &str {
        &self.username
    }

    /// The password.
    pub fn password(&self) -> &str {
        &self.password
    }
}

impl fmt::Debug for TurnCredentials {
    fn fmt(&self, f: &mut fmt::Formatter<'_>) -> fmt::Result {
        f.debug_struct("TurnCredentials")
            .field("username", &self.username)
            .finish_non_exhaustive()
    }
}

/// How requests are sent again.
#[derive(Clone, Copy, Debug, PartialEq, Eq)]
struct Retransmits {
    initial: Duration,
    max: Duration,
    retransmits: u32,
    final_retransmit_timeout: Duration,
}

/// The settings of a client: whose it is, and what it asks for.
///
/// ```
/// use turn_client::{AddressFamily, IntegrityAlgorithm, TransportType, TurnConfig, TurnCredentials};
///
/// let config = TurnConfig::new(TurnCredentials::new("alice", "secret"));
/// assert_eq!(config.allocation_transport(), TransportType::Udp);
/// assert_eq!(config.address_families(), [AddressFamily::IPV4]);
/// assert_eq!(config.supported_integrity(), [IntegrityAlgorithm::Sha1, IntegrityAlgorithm::Sha256]);
/// ```
#[derive(Clone, Debug, PartialEq, Eq)]
pub struct TurnConfig {
    allocation_transport: TransportType,
    address_families: Vec<AddressFamily>,
    credentials: TurnCredentials,
    supported_integrity: Vec<IntegrityAlgorithm>,
    anonymous_username: Feature,
    retransmits: Option<Retransmits>,
    is_hardened: bool,
    max_connection_attempts: usize,
    short_lifetimes: bool,
    attempt_indications: bool,
    requested_lifetime: u32,
    relayed_port: RelayedPort,
    pace: Duration,
}

/// The lifetime that is asked for at first, in seconds, and the least time between two messages, in
/// milliseconds.
const LIFETIME: u32 = 1800;
const PACE: u64 = 50;

impl TurnConfig {
    /// An address of IPv4 over UDP is asked for, HMAC-SHA1 and HMAC-SHA256 are supported, of which
    /// the server's strongest is taken, the name is hidden where the server can, requests are sent
    /// again as RFC 8489 says, the client is hardened, a REFRESH may shorten an allocation, half an
    /// hour and any port are asked for, and two messages are at least 50 ms apart.
    pub fn new(credentials: TurnCredentials) -> Self {
        Self {
            allocation_transport: TransportType::Udp,
            address_families: vec![AddressFamily::IPV4],
            credentials,
            supported_integrity: vec![IntegrityAlgorithm::Sha1, IntegrityAlgorithm::Sha256],
            anonymous_username: Feature::Auto,
            retransmits: None,
            is_hardened: true,
            max_connection_attempts: 0,
            short_lifetimes: true,
            attempt_indications: false,
            requested_lifetime: LIFETIME,
            relayed_port: RelayedPort::Any,
            pace: Duration::from_millis(PACE),
        }
    }

    /// Sets the transport between the server and its peers. TCP is for `TurnClientTcp` alone.
    pub fn set_allocation_transport(&mut self, allocation_transport: TransportType) {
        self.allocation_transport = allocation_transport;
    }

    /// The transport between the server and its peers.
    pub fn allocation_transport(&self) -> TransportType {
        self.allocation_transport
    }

    /// Asks for an address of one more family.
    pub fn add_address_family(&mut self, family: AddressFamily) {
        if !self.address_families.contains(&family) {
            self.address_families.push(family);
        }
    }

    /// Asks for an address of this family alone.
    pub fn set_address_family(&mut self, family: AddressFamily) {
        self.address_families = vec![family];
    }

    /// The families of which addresses are asked for.
    pub fn address_families(&self) -> &[AddressFamily] {
        &self.address_families
    }

    /// The user's name and password.
    pub fn credentials(&self) -> &TurnCredentials {
        &self.credentials
    }

    /// Supports one more algorithm. Of those that the server has, too, the strongest is taken.
    pub fn add_supported_integrity(&mut self, integrity: IntegrityAlgorithm) {
        if !self.supported_integrity.contains(&integrity) {
            self.supported_integrity.push(integrity);
        }
    }

    /// Supports this algorithm alone.
    pub fn set_supported_integrity(&mut self, integrity: IntegrityAlgorithm) {
        self.supported_integrity = vec![integrity];
    }

    /// The algorithms that are supported.
    pub fn supported_integrity(&self) -> &[IntegrityAlgorithm] {
        &self.supported_integrity
    }

    /// Sets whether the user's name is hidden (RFC 8489, section 9.2).
    pub fn set_anonymous_username(&mut self, anonymous: Feature) {
        self.anonymous_username = anonymous;
    }

    /// Whether the user's name is hidden.
    pub fn anonymous_username(&self) -> Feature {
        self.anonymous_username
    }

    /// Sets whether the client is hardened. Then it ignores responses to no request of its own,
    /// refuses a challenge that lacks the list of algorithms which its nonce announces, and ignores
    /// what doesn't validate while it allocates.
    pub fn set_hardened(&mut self, is_hardened: bool) {
        self.is_hardened = is_hardened;
    }

    /// Whether the client is hardened.
    pub fn is_hardened(&self) -> bool {
        self.is_hardened
    }

    /// Sets how many connections of an allocation may wait for their socket while the client
    /// accepts one more that a peer opens (RFC 6062); the next gets error 447. While as many
    /// messages wait to be sent, an attempt that would get an error is ignored. 0 is 64, or no
    /// limit if the client isn't hardened.
    pub fn set_max_connection_attempts(&mut self, max_connection_attempts: usize) {
        self.max_connection_attempts = max_connection_attempts;
    }

    /// How many connections may wait, as it was set: 0 is the default.
    pub fn max_connection_attempts(&self) -> usize {
        self.max_connection_attempts
    }

    /// Sets whether a lifetime under 600 seconds in the response to a REFRESH is believed (RFC
    /// 8656, section 8.3), so that it shortens the allocation. If not, such a response changes
    /// nothing, and the allocation may outlast the server's. It is not believed anyway if the
    /// client isn't hardened. What the response to the ALLOCATE says is always believed.
    pub fn set_short_lifetimes(&mut self, is_believed: bool) {
        self.short_lifetimes = is_believed;
    }

    /// Whether short lifetimes are believed, as it was set: they are at first.
    pub fn short_lifetimes(&self) -> bool {
        self.short_lifetimes
    }

    /// Sets whether a CONNECTION_ATTEMPT indication announces a connection that a peer opens (RFC
    /// 6062, section 4.4), as coturn sends it. If not, which is so at first, only a signed request
    /// of the server does. An indication has no signature, so whoever can write into the control
    /// connection can make one, with any ID and any peer: see
    /// [`allocated_tcp_socket`](crate::TurnClientApi::allocated_tcp_socket). If as many connections
    /// wait for their socket as `set_max_connection_attempts` allows, or 64 if there is no limit,
    /// one more is ignored.
    pub fn set_attempt_indications(&mut self, are_accepted: bool) {
        self.attempt_indications = are_accepted;
    }

    /// Whether indications announce connections of peers: not at first.
    pub fn attempt_indications(&self) -> bool {
        self.attempt_indications
    }

    /// Sets the lifetime, in seconds, that each ALLOCATE and each REFRESH that renews an allocation
    /// asks for (RFC 8656, sections 7.1 and 8.1): 1800 at first, and 0 stands for that. The server
    /// decides.
    pub fn set_requested_lifetime(&mut self, seconds: u32) {
        self.requested_lifetime = seconds;
    }

    /// The lifetime that is asked for, as it was set.
    pub fn requested_lifetime(&self) -> u32 {
        self.requested_lifetime
    }

    /// Sets the port that is asked for the relayed address: any at first. A server that can't give
    /// it rejects the allocation with 508, one that doesn't know the attribute with 420.
    pub fn set_relayed_port(&mut self, port: RelayedPort) {
        self.relayed_port = port;
    }

    /// The port that is asked for.
    pub fn relayed_port(&self) -> RelayedPort {
        self.relayed_port
    }

    /// Sets the least time between two messages that the client sends, in milliseconds, rounded up:
    /// 50 at first. What is sent again, and responses to the server, don't wait for it.
    pub fn set_pace(&mut self, pace: Duration) {
        self.pace = pace;
    }

    /// The least time between two messages.
    pub fn pace(&self) -> Duration {
        self.pace
    }

    /// Sets how requests are sent again over UDP: the wait behind the first, which each next one
    /// doubles, the longest wait between two, how often a request is sent in all, and the wait
    /// behind the last. Where `retransmits` is 0, all of it is as RFC 8489 says. Waits count in
    /// milliseconds, rounded up. Over TCP a request is sent once, and waits as long as all of these
    /// together.
    pub fn set_request_retransmits(
        &mut self,
        initial: Duration,
        max: Duration,
        retransmits: u32,
        final_retransmit_timeout: Duration,
    ) {
        self.retransmits = Some(Retransmits {
            initial,
            max,
            retransmits,
            final_retransmit_timeout,
        });
    }

    /// All of it, told to C, for a client between two addresses.
    pub(crate) fn told(
        &self,
        transport: TransportType,
        local: SocketAddr,
        server: SocketAddr,
    ) -> sys::turn_settings {
        let mut settings = sys::turn_settings {
            size: size_of::<sys::turn_settings>(),
            local: told(local),
            server: told(server),
            transport: told_transport(transport),
            peers: told_transport(self.allocation_transport),
            families: self
                .address_families
                .iter()
                .fold(0, |bits, it| bits | bit_of_family(*it)),
            integrity: self
                .supported_integrity
                .iter()
                .fold(0, |bits, it| bits | bit_of_integrity(*it)),
            anonymous: told_feature(self.anonymous_username),
            compatible: u32::from(!self.is_hardened),
            max_connection_attempts: self.max_connection_attempts,
            ignore_short_lifetimes: u32::from(!self.short_lifetimes),
            lifetime: self.requested_lifetime,
            pace: told_pace(self.pace),
            port: told_port(self.relayed_port),
            reservation: told_reservation(self.relayed_port),
            attempt_indications: u32::from(self.attempt_indications),
            ..sys::turn_settings::default()
        };
        if let Some(waits) = self.retransmits {
            settings.sends = waits.retransmits;
            settings.first_wait = told_wait(waits.initial);
            settings.most_wait = told_wait(waits.max);
            settings.last_wait = told_wait(waits.final_retransmit_timeout);
        }
        settings
    }
}

fn bit_of_family(family: AddressFamily) -> u32 {
    match family {
        AddressFamily::IPV4 => sys::TURN_IPV4,
        AddressFamily::IPV6 => sys::TURN_IPV6,
    }
}

fn bit_of_integrity(integrity: IntegrityAlgorithm) -> u32 {
    match integrity {
        IntegrityAlgorithm::Sha1 => sys::TURN_SHA1,
        IntegrityAlgorithm::Sha256 => sys::TURN_SHA256,
        IntegrityAlgorithm::Sha512 => sys::TURN_SHA512,
    }
}

/// Of C, 0 is the default, and the greatest number no time.
fn told_pace(pace: Duration) -> u32 {
    match told_wait(pace) {
        0 => sys::TURN_NO_PACE,
        millis => millis.min(sys::TURN_NO_PACE - 1),
    }
}

fn told_port(port: RelayedPort) -> u32 {
    match port {
        RelayedPort::Any => sys::TURN_PORT_ANY,
        RelayedPort::Even => sys::TURN_PORT_EVEN,
        RelayedPort::EvenAndNextReserved => sys::TURN_PORT_EVEN_AND_NEXT,
        RelayedPort::Reserved(_) => sys::TURN_PORT_RESERVED,
    }
}

fn told_reservation(port: RelayedPort) -> u64 {
    match port {
        RelayedPort::Reserved(token) => token,
        _ => 0,
    }
}

fn told_feature(feature: Feature) -> u32 {
    match feature {
        Feature::Auto => sys::TURN_ANONYMOUS_AUTO,
        Feature::Required => sys::TURN_ANONYMOUS_REQUIRED,
        Feature::Disabled => sys::TURN_ANONYMOUS_DISABLED,
    }
}

/// The port that is asked for the relayed address (RFC 8656, section 7.1).
#[derive(Clone, Copy, Debug, PartialEq, Eq)]
pub enum RelayedPort {
    /// Any port.
    Any,
    /// An even port, by EVEN-PORT (section 18.7).
    Even,
    /// An even port, and that the server reserve the next one for another client. Servers refuse it
    /// beside two families.
    EvenAndNextReserved,
    /// The port that the server reserved under this token
    /// ([`reservation_token`](crate::TurnClientApi::reservation_token); section 18.10). The families
    /// are not sent then, as the server has chosen the address already.
    Reserved(u64),
}

/// Bytes between two addresses: what came, or what is to be sent.
#[derive(Clone, Copy, Debug, PartialEq, Eq)]
pub struct Transmit<T> {
    /// The bytes.
    pub data: T,
    /// By which transport they go.
    pub transport: TransportType,
    /// Where they come from. Of what is to be sent over TCP it tells the connection to the server:
    /// the client's own, or that of a peer.
    pub from: SocketAddr,
    /// Where they go.
    pub to: SocketAddr,
}

impl<T> Transmit<T> {
    /// Bytes between two addresses.
    pub fn new(data: T, transport: TransportType, from: SocketAddr, to: SocketAddr) -> Self {
        Self {
            data,
            transport,
            from,
            to,
        }
    }
}

impl<'a> Transmit<&'a [u8]> {
    /// What C says to send, with its bytes.
    pub(crate) fn read(data: &'a [u8], sent: &sys::turn_transmit) -> Self {
        Self::new(
            data,
            read_transport(sent.transport),
            read(&sent.from),
            read(&sent.to),
        )
    }
}

/// A connection between two addresses.
#[derive(Clone, Copy, Debug, PartialEq, Eq)]
pub struct Socket5Tuple {
    /// Its transport.
    pub transport: TransportType,
    /// The own address.
    pub from: SocketAddr,
    /// The other one.
    pub to: SocketAddr,
}

/// What is to be done by the program, or until when nothing is.
#[derive(Clone, Copy, Debug, PartialEq, Eq)]
pub enum TurnPollRet {
    /// Nothing is to be done until that moment, unless something comes or is asked for. Where it
    /// isn't later than now, another turn is due at once.
    WaitUntil(Duration),
    /// A connection to the server is to be opened. Tell of it by `allocated_tcp_socket`, and poll
    /// again.
    AllocateTcpSocket {
        /// The number of the connection.
        id: u32,
        /// Between which addresses it is opened. The own port is free to choose.
        socket: Socket5Tuple,
        /// The peer that it leads to.
        peer_addr: SocketAddr,
    },
    /// A connection to the server is to be closed. Poll again then.
    TcpClose {
        /// Its own address.
        local_addr: SocketAddr,
        /// The server's address.
        remote_addr: SocketAddr,
    },
    /// The client has ended, or holds no allocation any more. Take the events, and drop it.
    Closed,
}

impl TurnPollRet {
    /// What a status tells, where it is one that `poll` answers.
    pub(crate) fn read(status: i32, wait: &sys::turn_wait) -> Option<Self> {
        let (from, to) = (read(&wait.from), read(&wait.to));
        Some(match status {
            sys::TURN_OK => Self::WaitUntil(Duration::from_nanos(wait.until)),
            sys::TURN_OPEN_SOCKET => Self::AllocateTcpSocket {
                id: wait.id,
                socket: Socket5Tuple {
                    transport: read_transport(wait.transport),
                    from,
                    to,
                },
                peer_addr: read(&wait.peer),
            },
            sys::TURN_CLOSE_SOCKET => Self::TcpClose {
                local_addr: from,
                remote_addr: to,
            },
            sys::TURN_CLOSED => Self::Closed,
            _ => return None,
        })
    }
}

/// What became of bytes that came.
#[derive(Clone, Debug, PartialEq, Eq)]
pub enum TurnRecvRet<'a> {
    /// They were for the client.
    Handled,
    /// They are not for the client.
    Ignored(Transmit<&'a [u8]>),
    /// They carry data of a peer.
    PeerData(TurnPeerData<'a>),
    /// They carry a report in ICMP on the way to a peer.
    PeerIcmp {
        /// The transport between the server and the peer.
        transport: TransportType,
        /// The peer.
        peer: SocketAddr,
        /// The report's type.
        icmp_type: u8,
        /// Its code.
        icmp_code: u8,
        /// Its data.
        icmp_data: u32,
    },
}

impl TurnRecvRet<'_> {
    /// A report that C told.
    pub(crate) fn of_report(told: &sys::turn_payload) -> Self {
        Self::PeerIcmp {
            transport: read_transport(told.transport),
            peer: read(&told.peer),
            icmp_type: told.icmp_type,
            icmp_code: told.icmp_code,
            icmp_data: told.icmp_data,
        }
    }
}

/// Data of a peer. Where it stands in one piece in the bytes that came it is borrowed of them, for
/// as long as they live. Over TCP it may have come in pieces: then it is a vector of its size.
#[derive(Clone, Debug, PartialEq, Eq)]
pub struct TurnPeerData<'a> {
    data: Cow<'a, [u8]>,
    /// The transport between the server and the peer.
    pub transport: TransportType,
    /// The peer.
    pub peer: SocketAddr,
}

impl<'a> TurnPeerData<'a> {
    /// Data of the peer that C told.
    pub(crate) fn read(data: Cow<'a, [u8]>, told: &sys::turn_payload) -> Self {
        let (transport, peer) = (read_transport(told.transport), read(&told.peer));
        Self {
            data,
            transport,
            peer,
        }
    }

    /// The data.
    pub fn data(&self) -> &[u8] {
        &self.data
    }

    /// The data, borrowed of what came or owned.
    pub fn into_data(self) -> Cow<'a, [u8]> {
        self.data
    }

    /// The same with data of its own, which is copied where it was borrowed.
    pub fn into_owned(self) -> TurnPeerData<'static> {
        TurnPeerData {
            data: Cow::Owned(self.data.into_owned()),
            transport: self.transport,
            peer: self.peer,
        }
    }
}

impl AsRef<[u8]> for TurnPeerData<'_> {
    fn as_ref(&self) -> &[u8] {
        &self.data
    }
}

/// An allocation whose time was over, so that it isn't held any more (RFC 8656, section 6).
#[derive(Clone, Copy, Debug, PartialEq, Eq)]
pub struct AllocationExpired {
    /// The transport between the server and its peers.
    pub transport: TransportType,
    /// The relayed address.
    pub relayed: SocketAddr,
}

/// What happened. A transport is the one between the server and its peers.
#[derive(Clone, Copy, Debug, PartialEq, Eq)]
pub enum TurnEvent {
    /// The server gave a relayed address.
    AllocationCreated(TransportType, SocketAddr),
    /// There is no relayed address of that family: see [`TurnCause`] for why.
    AllocationCreateFailed(AddressFamily),
    /// The peer's address is permitted.
    PermissionCreated(TransportType, IpAddr),
    /// A permission was refused, or ended.
    PermissionCreateFailed(TransportType, IpAddr),
    /// A channel to the peer is bound.
    ChannelCreated(TransportType, SocketAddr),
    /// A channel was refused, or ended.
    ChannelCreateFailed(TransportType, SocketAddr),
    /// A connection to the peer is bound: from now on bytes go both ways.
    TcpConnected(SocketAddr),
    /// A connection to the peer was refused, or failed.
    TcpConnectFailed(SocketAddr),
}

impl TurnEvent {
    /// An event that C told, where it is one of those above.
    pub(crate) fn read(event: &sys::turn_event) -> Option<Self> {
        let (transport, address) = (read_transport(event.transport), read(&event.address));
        Some(match event.kind {
            sys::TURN_ALLOCATION_CREATED => Self::AllocationCreated(transport, address),
            sys::TURN_ALLOCATION_FAILED => Self::AllocationCreateFailed(match address {
                SocketAddr::V4(_) => AddressFamily::IPV4,
                SocketAddr::V6(_) => AddressFamily::IPV6,
            }),
            sys::TURN_PERMISSION_CREATED => Self::PermissionCreated(transport, address.ip()),
            sys::TURN_PERMISSION_FAILED => Self::PermissionCreateFailed(transport, address.ip()),
            sys::TURN_CHANNEL_CREATED => Self::ChannelCreated(transport, address),
            sys::TURN_CHANNEL_FAILED => Self::ChannelCreateFailed(transport, address),
            sys::TURN_TCP_CONNECTED => Self::TcpConnected(address),
            sys::TURN_TCP_FAILED => Self::TcpConnectFailed(address),
            _ => return None,
        })
    }
}

/// Why an event reports a failure.
#[derive(Clone, Debug, PartialEq, Eq)]
#[non_exhaustive]
pub enum TurnCause {
    /// The server rejected the request, by an error response.
    Rejected {
        /// The response's error code, 300 to 699.
        code: u16,
        /// Its reason phrase: the server's words, or those of whoever sent the response. Remove
        /// control characters before it is printed. It is empty if the response had none. (One that
        /// isn't UTF-8 makes the response malformed: [`Unusable`](Self::Unusable).)
        reason: String,
        /// Whether the response was validated under the password. If not, it may be anybody's.
        is_signed: bool,
    },
    /// No response came in time.
    Unanswered,
    /// The response wasn't signed, or not by the password.
    Integrity,
    /// The server's challenge names no algorithm that the client supports, or lacks what the
    /// settings require, as to hide the name.
    NoCommonAlgorithm,
    /// The server allocated addresses of other families only.
    OtherFamily,
    /// Memory for the cause ran out, so it wasn't stored.
    OutOfMemory,
    /// [`TurnClientApi::delete`](crate::TurnClientApi::delete) was called before: whatever fails or
    /// ends after it, by a response or without one.
    Deleted,
    /// Its time was over.
    Expired,
    /// A layer above ended the client. No call of this crate does that.
    SocketClosed,
    /// The response was malformed, or lacked what the client needs of it.
    Unusable,
}

impl TurnCause {
    /// The cause that C reports, with its reason phrase; `None` if it reports none, or none of
    /// those above.
    pub(crate) fn read(cause: &sys::turn_cause, reason: impl FnOnce() -> String) -> Option<Self> {
        Some(match cause.kind {
            sys::TURN_REJECTED => Self::Rejected {
                code: u16::try_from(cause.code).unwrap_or_default(),
                reason: reason(),
                is_signed: cause.is_signed,
            },
            sys::TURN_UNANSWERED => Self::Unanswered,
            sys::TURN_INTEGRITY => Self::Integrity,
            sys::TURN_NO_ALGORITHM => Self::NoCommonAlgorithm,
            sys::TURN_OTHER_FAMILY => Self::OtherFamily,
            sys::TURN_CAUSE_MEMORY => Self::OutOfMemory,
            sys::TURN_DELETED => Self::Deleted,
            sys::TURN_EXPIRED => Self::Expired,
            sys::TURN_SOCKET_CLOSED => Self::SocketClosed,
            sys::TURN_UNUSABLE => Self::Unusable,
            sys::TURN_CAUSE_NONE => return None,
            // of a newer archive
            _ => return None,
        })
    }
}

/// A channel.
#[derive(Clone, Copy, Debug, PartialEq, Eq)]
pub struct Channel {
    /// Its number.
    pub number: u16,
    /// Its peer.
    pub peer_addr: SocketAddr,
}

/// A connection to a peer that has a socket.
#[derive(Clone, Copy, Debug, PartialEq, Eq)]
pub struct Connection {
    /// The socket's own address.
    pub local_addr: SocketAddr,
    /// The peer.
    pub peer_addr: SocketAddr,
    /// The number by which the server knows it.
    pub id: u32,
    /// Whether bytes go both ways.
    pub is_bound: bool,
}

#[cfg(test)]
mod tests;
