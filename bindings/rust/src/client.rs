//! Clients: a handle of C, which is closed when it is dropped, and the calls over it.

use std::borrow::Cow;
use std::cell::UnsafeCell;
use std::fmt;
use std::net::{IpAddr, SocketAddr};
use std::ptr::NonNull;
use std::time::Duration;

use crate::address::{read, read_transport, told, told_ip, told_moment, told_transport};
use crate::api::{
    AllocationExpired, Channel, Connection, Transmit, TransportType, TurnCause, TurnConfig,
    TurnCredentials, TurnEvent, TurnPeerData, TurnPollRet, TurnRecvRet,
};
use crate::error::{
    AllocateError, BindChannelError, CreatePermissionError, CreatePermissionsError,
    CredentialsError, DeleteError, PollError, PollTransmitError, RecvError, SendError,
    SoftwareError, TcpAllocateError, TcpClosedError, TcpConnectError,
};
use crate::sys;

/// Bytes of a buffer that any message fits in, and any data over UDP that is one byte too long.
const OUT_MIN: usize = max(
    sys::TURN_MESSAGE_MAX,
    sys::TURN_PAYLOAD_MAX + 1 + sys::TURN_SEND_EXTRA,
);

const fn max(one: usize, other: usize) -> usize {
    if one > other {
        one
    } else {
        other
    }
}

/// An open handle, and what its calls want beside it.
pub struct Handle {
    /// It stays where it is while the client is moved: C wants it not to be copied.
    client: Box<UnsafeCell<sys::turn_client>>,
    transport: TransportType,
    local_addr: SocketAddr,
    remote_addr: SocketAddr,
    /// What is to be sent is written here: `OUT_MIN` bytes, or more.
    out: Vec<u8>,
    /// A payload whose joined bytes wait in the client, for there was no memory for them.
    unread: Option<sys::turn_payload>,
}

// SAFETY: by the header a handle may go to another thread between two calls, and all calls are made
// through a borrow of it. It isn't `Sync`: getters borrow it shared, and call C with it.
unsafe impl Send for Handle {}

impl Drop for Handle {
    fn drop(&mut self) {
        // SAFETY: the handle was initialised; one that isn't open may be closed, too.
        unsafe { sys::turn_client_close(self.at()) }
    }
}

impl fmt::Debug for Handle {
    fn fmt(&self, f: &mut fmt::Formatter<'_>) -> fmt::Result {
        write!(
            f,
            "{:?} from {} to {}",
            self.transport, self.local_addr, self.remote_addr
        )
    }
}

/// Makes room for so many bytes in a buffer: whether there is memory for them.
fn make_room(buffer: &mut Vec<u8>, size: usize) -> bool {
    let more = size.saturating_sub(buffer.len());
    if buffer.try_reserve_exact(more).is_err() {
        return false;
    }
    if more > 0 {
        buffer.resize(size, 0);
    }
    true
}

impl Handle {
    fn open(
        transport: TransportType,
        local_addr: SocketAddr,
        remote_addr: SocketAddr,
        config: &TurnConfig,
        seed: [u8; 32],
    ) -> Result<Self, AllocateError> {
        let mut out = Vec::new();
        if !make_room(&mut out, OUT_MIN) {
            return Err(AllocateError::NoMemory);
        }
        let handle = Self {
            client: Box::new(UnsafeCell::new(sys::TURN_CLIENT_INIT)),
            transport,
            local_addr,
            remote_addr,
            out,
            unread: None,
        };
        let settings = config.told(transport, local_addr, remote_addr);
        let (name, password) = (
            config.credentials().username(),
            config.credentials().password(),
        );
        let (name_at, password_at, seed) = (
            name.as_ptr(),
            password.as_ptr(),
            sys::turn_seed { bytes: seed },
        );
        // SAFETY: the handle isn't open; pointers and lengths are of texts that live as long as the
        // call.
        let status = unsafe {
            sys::turn_client_open(
                handle.at(),
                &settings,
                name_at,
                name.len(),
                password_at,
                password.len(),
                &seed,
            )
        };
        outcome(status, AllocateError::of)?;
        Ok(handle)
    }

    /// Where the handle lies.
    fn at(&self) -> *mut sys::turn_client {
        self.client.get()
    }

    /// The front of what is to be sent, as C told it. None where C told more than there is.
    fn sent(&self, told: &sys::turn_transmit) -> Option<Transmit<&[u8]>> {
        let data = self.out.get(..told.size)?;
        Some(Transmit::read(data, told))
    }

    /// Data of a peer that C told, by the bytes that came with it.
    fn peer_data<'a>(
        &mut self,
        payload: &sys::turn_payload,
        came: &'a [u8],
    ) -> Result<TurnRecvRet<'a>, RecvError> {
        if payload.is_joined {
            return match self.joined(payload) {
                Err(RecvError::Unread) => Ok(TurnRecvRet::Handled),
                given => given.map(TurnRecvRet::PeerData),
            };
        }
        let behind = came.get(payload.start..).unwrap_or_default();
        let data = behind
            .get(..payload.size)
            .ok_or(RecvError::Other(sys::TURN_PAYLOAD))?;
        Ok(TurnRecvRet::PeerData(TurnPeerData::read(
            Cow::Borrowed(data),
            payload,
        )))
    }

    /// Data of a peer whose bytes wait in the client. They wait on where there is no memory for
    /// them.
    fn joined(&mut self, payload: &sys::turn_payload) -> Result<TurnPeerData<'static>, RecvError> {
        let mut bytes = Vec::new();
        if !make_room(&mut bytes, payload.size) {
            self.unread = Some(*payload);
            return Err(RecvError::Unread);
        }
        if payload.size > 0 {
            // SAFETY: the vector has that many bytes.
            let status =
                unsafe { sys::turn_client_read(self.at(), bytes.as_mut_ptr(), bytes.len()) };
            if status != sys::TURN_OK {
                return Err(RecvError::of(status));
            }
        }
        Ok(TurnPeerData::read(Cow::Owned(bytes), payload))
    }

    /// The next payload that waits in a stream.
    fn pull(&mut self, now: Duration) -> Result<Option<sys::turn_payload>, RecvError> {
        let mut payload = sys::turn_payload::default();
        // SAFETY: both pointers are of values that live as long as the call.
        match unsafe { sys::turn_client_pull(self.at(), told_moment(now), &mut payload) } {
            sys::TURN_PAYLOAD => Ok(Some(payload)),
            sys::TURN_NOTHING => Ok(None),
            status => Err(RecvError::of(status)),
        }
    }

    /// What C reports of the event that was taken last.
    fn cause(&self) -> sys::turn_cause {
        let mut cause = sys::turn_cause::default();
        // SAFETY: both pointers are of values that live as long as the call. An open handle refuses
        // nothing.
        unsafe { sys::turn_client_cause(self.at(), &mut cause) };
        cause
    }

    /// A text of so many bytes that a call copies; `None` if there is no such text, or no memory
    /// for it.
    fn text(
        &self,
        size: usize,
        copy: impl Fn(*mut sys::turn_client, *mut u8, usize) -> i32,
    ) -> Option<String> {
        let mut bytes = Vec::new();
        if !make_room(&mut bytes, size)
            || copy(self.at(), bytes.as_mut_ptr(), bytes.len()) != sys::TURN_OK
        {
            return None;
        }
        String::from_utf8(bytes).ok()
    }

    /// All that a getter shows. It is asked how many there are first: none comes or goes before it
    /// is asked again.
    fn list<T: Clone + Default>(
        &self,
        get: impl Fn(*mut sys::turn_client, *mut T, usize) -> usize,
    ) -> Vec<T> {
        let count = get(self.at(), NonNull::dangling().as_ptr(), 0);
        let mut held = vec![T::default(); count];
        let shown = get(self.at(), held.as_mut_ptr(), held.len());
        held.truncate(shown);
        held
    }
}

/// 32 bytes of the system's source of random bytes.
fn random_seed() -> Result<[u8; 32], AllocateError> {
    let mut seed = [0; 32];
    loop {
        // SAFETY: pointer and length are of an array that lives as long as the call.
        let drawn = unsafe { sys::getrandom(seed.as_mut_ptr().cast(), seed.len(), 0) };
        if usize::try_from(drawn) == Ok(seed.len()) {
            return Ok(seed);
        }
        if drawn >= 0 || std::io::Error::last_os_error().kind() != std::io::ErrorKind::Interrupted {
            return Err(AllocateError::of(sys::TURN_NO_RANDOM));
        }
    }
}

/// A status as a call's outcome.
fn outcome<E>(status: i32, refusal: fn(i32) -> E) -> Result<(), E> {
    if status == sys::TURN_OK {
        Ok(())
    } else {
        Err(refusal(status))
    }
}

/// What has a handle: the clients of this crate, and no others.
pub trait HasHandle: fmt::Debug + Send {
    /// The handle.
    fn handle(&self) -> &Handle;

    /// The handle.
    fn handle_mut(&mut self) -> &mut Handle;
}

/// The calls of a client, over either transport. The two clients have them, and nothing else can.
///
/// Moments are what the program's clock showed since a start of its own, as `start.elapsed()` of a
/// [`std::time::Instant`]: none earlier than one that was handed in before, else renewals may come
/// at the wrong time.
pub trait TurnClientApi: HasHandle {
    /// The transport to the server.
    fn transport(&self) -> TransportType {
        self.handle().transport
    }

    /// The own address.
    fn local_addr(&self) -> SocketAddr {
        self.handle().local_addr
    }

    /// The server's address.
    fn remote_addr(&self) -> SocketAddr {
        self.handle().remote_addr
    }

    /// The relayed addresses, each with its transport between the server and peers.
    fn relayed_addresses(&self) -> Vec<(TransportType, SocketAddr)> {
        // SAFETY: `list` hands in a handle, and a place with its room.
        let held = self
            .handle()
            .list(|at, out, room| unsafe { sys::turn_client_relayed(at, out, room) });
        held.iter()
            .map(|it: &sys::turn_relayed| (read_transport(it.transport), read(&it.address)))
            .collect()
    }

    /// The addresses that are permitted at a relayed address; none where there is no such.
    fn permissions(&self, transport: TransportType, relayed: SocketAddr) -> Vec<IpAddr> {
        let (number, relayed) = (told_transport(transport), told(relayed));
        let held = self.handle().list(|at, out, room| {
            // SAFETY: `list` hands in a handle, and a place with its room; the address lives as
            // long as the call.
            unsafe { sys::turn_client_permissions(at, number, &relayed, out, room) }
        });
        held.iter().map(|it| read(it).ip()).collect()
    }

    /// Whether a permission for an address stands.
    fn have_permission(&self, transport: TransportType, to: IpAddr) -> bool {
        // SAFETY: both pointers are of values that live as long as the call.
        unsafe {
            sys::turn_client_is_permitted(
                self.handle().at(),
                told_transport(transport),
                &told_ip(to),
            )
        }
    }

    /// The channels.
    fn channels(&self) -> Vec<Channel> {
        // SAFETY: `list` hands in a handle, and a place with its room.
        let held = self
            .handle()
            .list(|at, out, room| unsafe { sys::turn_client_channels(at, out, room) });
        let channel = |it: &sys::turn_channel| Channel {
            number: it.number,
            peer_addr: read(&it.peer),
        };
        held.iter().map(channel).collect()
    }

    /// The connections to peers that have a socket.
    fn connections(&self) -> Vec<Connection> {
        // SAFETY: `list` hands in a handle, and a place with its room.
        let held = self
            .handle()
            .list(|at, out, room| unsafe { sys::turn_client_connections(at, out, room) });
        let connection = |it: &sys::turn_connection| Connection {
            local_addr: read(&it.local),
            peer_addr: read(&it.peer),
            id: it.id,
            is_bound: it.is_bound,
        };
        held.iter().map(connection).collect()
    }

    /// Sets other credentials, which replace the present ones with the next challenge that the
    /// client accepts: for passwords that expire. Until then it signs and validates as before. Call
    /// it before they expire, once the server accepts the others: each challenge counts, also that
    /// for a stale nonce.
    fn set_credentials(&mut self, credentials: &TurnCredentials) -> Result<(), CredentialsError> {
        let (name, password) = (credentials.username(), credentials.password());
        // SAFETY: the handle is open; pointers and lengths are of texts that live as long as the
        // call.
        let status = unsafe {
            sys::turn_client_credentials(
                self.handle_mut().at(),
                name.as_ptr(),
                name.len(),
                password.as_ptr(),
                password.len(),
            )
        };
        outcome(status, CredentialsError::of)
    }

    /// Sets the text of SOFTWARE (RFC 8489, section 14.14), which requests carry from now on; an
    /// empty text for none, as at first. It has at most [`SOFTWARE_MAX`](crate::SOFTWARE_MAX)
    /// bytes. Call it before the first `poll_transmit` to have it in each.
    fn set_software(&mut self, text: &str) -> Result<(), SoftwareError> {
        // SAFETY: the handle is open; pointer and length are of a text that lives as long as the
        // call.
        let status =
            unsafe { sys::turn_client_software(self.handle_mut().at(), text.as_ptr(), text.len()) };
        outcome(status, SoftwareError::of)
    }

    /// Sets whether requests end with FINGERPRINT (RFC 8489, section 14.7) from now on. At first
    /// they don't.
    fn set_fingerprint(&mut self, fingerprint: bool) {
        // SAFETY: the handle is open, and borrowed for this call alone; the call refuses nothing
        // else.
        let status = unsafe { sys::turn_client_fingerprint(self.handle_mut().at(), fingerprint) };
        debug_assert_eq!(status, sys::TURN_OK);
    }

    /// Asks for the end of the allocations, which are over for the client at once: take turns until
    /// `poll` answers `Closed`. A client that is dropped tells the server nothing.
    fn delete(&mut self, now: Duration) -> Result<(), DeleteError> {
        // SAFETY: the handle is open, and borrowed for this call alone.
        let status = unsafe { sys::turn_client_delete(self.handle_mut().at(), told_moment(now)) };
        outcome(status, DeleteError::of)
    }

    /// Asks for a permission for the address of a peer. It stands for 300 seconds, and the client
    /// renews it.
    fn create_permission(
        &mut self,
        transport: TransportType,
        peer_addr: IpAddr,
        now: Duration,
    ) -> Result<(), CreatePermissionError> {
        let (at, number, peer) = (
            self.handle_mut().at(),
            told_transport(transport),
            told_ip(peer_addr),
        );
        // SAFETY: both pointers are of values that live as long as the call.
        let status = unsafe { sys::turn_client_permit(at, number, &peer, told_moment(now)) };
        outcome(status, CreatePermissionError::of)
    }

    /// Asks for permissions for several addresses by one request, which names each of them once:
    /// the server grants all or none. Each gets an event of its own, in their order, and is renewed
    /// by itself. There are at most [`PERMIT_MAX`](crate::PERMIT_MAX), of one family.
    fn create_permissions(
        &mut self,
        transport: TransportType,
        peer_addrs: &[IpAddr],
        now: Duration,
    ) -> Result<(), CreatePermissionsError> {
        let (at, number) = (self.handle_mut().at(), told_transport(transport));
        let peers: Vec<_> = peer_addrs.iter().copied().map(told_ip).collect();
        // SAFETY: the handle is open; pointer and length are of a vector that lives as long as the
        // call.
        let status = unsafe {
            sys::turn_client_permit_several(
                at,
                number,
                peers.as_ptr(),
                peers.len(),
                told_moment(now),
            )
        };
        outcome(status, CreatePermissionsError::of)
    }

    /// Asks for a channel to a peer, and for the permission where none stands. It stands for 600
    /// seconds, and the client renews it.
    fn bind_channel(
        &mut self,
        transport: TransportType,
        peer_addr: SocketAddr,
        now: Duration,
    ) -> Result<(), BindChannelError> {
        let (at, number, peer) = (
            self.handle_mut().at(),
            told_transport(transport),
            told(peer_addr),
        );
        let mut until = 0;
        // SAFETY: the pointers are of values that live as long as the call.
        match unsafe { sys::turn_client_bind(at, number, &peer, told_moment(now), &mut until) } {
            sys::TURN_EXPIRED_CHANNEL => Err(BindChannelError::ExpiredChannelExists(
                Duration::from_nanos(until),
            )),
            status => outcome(status, BindChannelError::of),
        }
    }

    /// Asks for a connection to a peer, over an allocation over TCP. `poll` then asks for its
    /// socket.
    fn tcp_connect(&mut self, peer_addr: SocketAddr, now: Duration) -> Result<(), TcpConnectError> {
        let (at, peer) = (self.handle_mut().at(), told(peer_addr));
        // SAFETY: both pointers are of values that live as long as the call.
        let status = unsafe { sys::turn_client_connect(at, &peer, told_moment(now)) };
        outcome(status, TcpConnectError::of)
    }

    /// Tells the own address of the socket that was opened for a connection, by the number and the
    /// peer that `poll` told; or `None`, that no socket was opened. Of a connection that a peer
    /// opens the server gets a response, if a signed request announced it; none if an indication
    /// did. An announced peer may be refused by `None`.
    fn allocated_tcp_socket(
        &mut self,
        id: u32,
        peer_addr: SocketAddr,
        local_addr: Option<SocketAddr>,
        now: Duration,
    ) -> Result<(), TcpAllocateError> {
        let (at, peer) = (self.handle_mut().at(), told(peer_addr));
        let local = local_addr.map(told).unwrap_or_default();
        // SAFETY: the pointers are of values that live as long as the call.
        let status = unsafe { sys::turn_client_socket(at, id, &peer, &local, told_moment(now)) };
        outcome(status, TcpAllocateError::of)
    }

    /// Tells that the socket of a connection was closed, between its own address and the server's.
    fn tcp_closed(
        &mut self,
        local_addr: SocketAddr,
        remote_addr: SocketAddr,
        now: Duration,
    ) -> Result<(), TcpClosedError> {
        let (at, local, remote) = (self.handle_mut().at(), told(local_addr), told(remote_addr));
        // SAFETY: the pointers are of values that live as long as the call.
        let status = unsafe { sys::turn_client_closed(at, &local, &remote, told_moment(now)) };
        outcome(status, TcpClosedError::of)
    }

    /// Writes what carries data to a peer: a channel frame, an indication, or over a connection the
    /// bytes as they are. What is written stands in the client's buffer, which has 64 kB, and over
    /// a connection grows with the data. Send it at once: it isn't kept behind the next call.
    fn send_to(
        &mut self,
        transport: TransportType,
        to: SocketAddr,
        data: &[u8],
        now: Duration,
    ) -> Result<Transmit<&[u8]>, SendError> {
        let data = match transport {
            TransportType::Udp => data.get(..=sys::TURN_PAYLOAD_MAX).unwrap_or(data),
            TransportType::Tcp => data,
        };
        let handle = self.handle_mut();
        if !make_room(
            &mut handle.out,
            data.len().saturating_add(sys::TURN_SEND_EXTRA),
        ) {
            return Err(SendError::NoMemory);
        }
        let (at, number, peer) = (handle.at(), told_transport(transport), told(to));
        let (out, out_len) = (handle.out.as_mut_ptr(), handle.out.len());
        let mut sent = sys::turn_transmit::default();
        // SAFETY: pointers and lengths are of memory that lives as long as the call; the buffer is
        // the client's own, so the data doesn't lie in it.
        let status = unsafe {
            let (data_at, data_len, now) = (data.as_ptr(), data.len(), told_moment(now));
            sys::turn_client_send(
                at, number, &peer, data_at, data_len, now, out, out_len, &mut sent,
            )
        };
        outcome(status, SendError::of)?;
        handle.sent(&sent).ok_or(SendError::Other(status))
    }

    /// Hands in what came: a datagram, or what was read of a TCP connection to the server, cut
    /// anywhere. Over TCP no bytes tell that the server closed it; call `poll_recv` behind this
    /// until it answers `None`.
    fn recv<'a>(
        &mut self,
        transmit: Transmit<&'a [u8]>,
        now: Duration,
    ) -> Result<TurnRecvRet<'a>, RecvError> {
        let handle = self.handle_mut();
        if transmit.transport != handle.transport {
            return Ok(TurnRecvRet::Ignored(transmit));
        }
        let (from, to, came) = (told(transmit.from), told(transmit.to), transmit.data);
        let mut payload = sys::turn_payload::default();
        // SAFETY: pointers and the length are of memory that lives as long as the call.
        let status = unsafe {
            let (at, now) = (handle.at(), told_moment(now));
            sys::turn_client_feed(at, &from, &to, came.as_ptr(), came.len(), now, &mut payload)
        };
        match status {
            sys::TURN_OK => Ok(TurnRecvRet::Handled),
            sys::TURN_IGNORED => Ok(TurnRecvRet::Ignored(transmit)),
            sys::TURN_PAYLOAD => handle.peer_data(&payload, came),
            sys::TURN_ICMP => Ok(TurnRecvRet::of_report(&payload)),
            _ => Err(RecvError::of(status)),
        }
    }

    /// The next data of a peer that waits, over TCP.
    fn poll_recv(&mut self, now: Duration) -> Result<Option<TurnPeerData<'static>>, RecvError> {
        let handle = self.handle_mut();
        let waits = match handle.unread.take() {
            None => handle.pull(now)?,
            unread => unread,
        };
        waits.map(|payload| handle.joined(&payload)).transpose()
    }

    /// Does what is due, and tells what the program is to do, or until when nothing is.
    fn poll(&mut self, now: Duration) -> Result<TurnPollRet, PollError> {
        let mut wait = sys::turn_wait::default();
        // SAFETY: both pointers are of values that live as long as the call.
        let status =
            unsafe { sys::turn_client_poll(self.handle_mut().at(), told_moment(now), &mut wait) };
        TurnPollRet::read(status, &wait).ok_or(PollError::of(status))
    }

    /// The next message to send. Its bytes stand in the client's buffer.
    fn poll_transmit(
        &mut self,
        now: Duration,
    ) -> Result<Option<Transmit<&[u8]>>, PollTransmitError> {
        let handle = self.handle_mut();
        let (at, out, out_len) = (handle.at(), handle.out.as_mut_ptr(), handle.out.len());
        let mut sent = sys::turn_transmit::default();
        // SAFETY: pointers and the length are of memory that lives as long as the call.
        match unsafe { sys::turn_client_draw(at, told_moment(now), out, out_len, &mut sent) } {
            sys::TURN_OK => handle
                .sent(&sent)
                .map(Some)
                .ok_or(PollTransmitError::Other(sys::TURN_OK)),
            sys::TURN_NOTHING => Ok(None),
            status => Err(PollTransmitError::of(status)),
        }
    }

    /// The event that has waited longest.
    fn poll_event(&mut self) -> Option<TurnEvent> {
        let mut event = sys::turn_event::default();
        // SAFETY: both pointers are of values that live as long as the call.
        let status = unsafe { sys::turn_client_event(self.handle_mut().at(), &mut event) };
        if status == sys::TURN_OK {
            TurnEvent::read(&event)
        } else {
            None
        }
    }

    /// Takes the allocation that has waited longest of those that [`poll`](Self::poll) removed
    /// because their time was over (RFC 8656, section 6), where short lifetimes are believed
    /// ([`TurnConfig::set_short_lifetimes`]). Ask it after `poll`, until it is `None`: no event
    /// tells the end of an allocation. What goes after `delete` isn't told.
    fn poll_expired(&mut self) -> Option<AllocationExpired> {
        let mut expired = sys::turn_relayed::default();
        // SAFETY: both pointers are of values that live as long as the call.
        let status = unsafe { sys::turn_client_expired(self.handle_mut().at(), &mut expired) };
        (status == sys::TURN_OK).then(|| AllocationExpired {
            transport: read_transport(expired.transport),
            relayed: read(&expired.address),
        })
    }

    /// Takes the event that has waited longest, as [`poll_event`](Self::poll_event) does, with its
    /// cause: `None` for one that reports no failure.
    fn poll_event_with_cause(&mut self) -> Option<(TurnEvent, Option<TurnCause>)> {
        let event = self.poll_event()?;
        Some((event, self.cause()))
    }

    /// Returns why the event happened that was taken last, until another is taken. `None` if it
    /// reports no failure, or none was taken yet.
    fn cause(&self) -> Option<TurnCause> {
        let (handle, cause) = (self.handle(), self.handle().cause());
        TurnCause::read(&cause, || {
            // SAFETY: `text` passes a handle, and a place with its room.
            let copied = handle.text(cause.reason_size, |at, out, room| unsafe {
                sys::turn_client_reason(at, out, room)
            });
            copied.unwrap_or_default()
        })
    }

    /// Returns the client's own address as the server saw it: the XOR-MAPPED-ADDRESS of the signed
    /// response that allocated (RFC 8656, section 7.3). `None` before that, or if the response had
    /// no such address.
    fn mapped_address(&self) -> Option<SocketAddr> {
        let mut mapped = sys::turn_address::default();
        // SAFETY: both pointers are of values that live as long as the call.
        let status = unsafe { sys::turn_client_mapped(self.handle().at(), &mut mapped) };
        (status == sys::TURN_OK).then(|| read(&mapped))
    }

    /// Returns the token of the port that the server reserved beside the relayed one: the
    /// RESERVATION-TOKEN of the signed response that allocated (RFC 8656, section 18.10). `None`
    /// before that, or if the response had none. A server gives one for
    /// [`RelayedPort::EvenAndNextReserved`](crate::RelayedPort), and holds the port for at least 30
    /// seconds; another client asks for it by `RelayedPort::Reserved`.
    fn reservation_token(&self) -> Option<u64> {
        let mut token = 0;
        // SAFETY: both pointers are of values that live as long as the call.
        let status = unsafe { sys::turn_client_reservation(self.handle().at(), &mut token) };
        (status == sys::TURN_OK).then_some(token)
    }

    /// Returns the server that a response 300 named which ended the client (RFC 8489, section 10);
    /// `None` if there was none. [`cause`](Self::cause) says whether that response was signed: if
    /// not, it may be anybody's. The client doesn't follow it.
    fn alternate_server(&self) -> Option<SocketAddr> {
        let alternate = self.handle().cause().alternate;
        (alternate.family != 0).then(|| read(&alternate))
    }

    /// Returns the name of the domain of that server (RFC 8489, section 14.16); `None` if the
    /// response had none, or memory for it ran out.
    fn alternate_domain(&self) -> Option<String> {
        let handle = self.handle();
        // SAFETY: `text` passes a handle, and a place with its room.
        handle.text(handle.cause().domain_size, |at, out, room| unsafe {
            sys::turn_client_domain(at, out, room)
        })
    }
}

/// Makes a client over a transport.
macro_rules! client {
    ($(#[$about:meta])* $name:ident, $transport:ident) => {
        $(#[$about])*
        #[derive(Debug)]
        pub struct $name {
            handle: Handle,
        }

        impl $name {
            /// Makes a client that asks a server for an address, with a seed of the system's random
            /// bytes (getrandom). Nothing is sent yet: `poll_transmit` gives the first request.
            pub fn new(
                local_addr: SocketAddr,
                remote_addr: SocketAddr,
                config: TurnConfig,
            ) -> Result<Self, AllocateError> {
                Self::allocate(local_addr, remote_addr, config, random_seed()?)
            }

            /// Does what `new` does, with a seed of the program's own.
            ///
            /// The 32 bytes come from the system's source of random bytes, and from nowhere else:
            /// whoever knows them can forge answers, and two clients with the same confuse each
            /// other's. Only a seed of zeros is refused.
            pub fn allocate(
                local_addr: SocketAddr,
                remote_addr: SocketAddr,
                config: TurnConfig,
                seed: [u8; 32],
            ) -> Result<Self, AllocateError> {
                let handle = Handle::open(TransportType::$transport, local_addr, remote_addr, &config, seed)?;
                Ok(Self { handle })
            }
        }

        impl HasHandle for $name {
            fn handle(&self) -> &Handle {
                &self.handle
            }

            fn handle_mut(&mut self) -> &mut Handle {
                &mut self.handle
            }
        }

        impl TurnClientApi for $name {}
    };
}

client! {
    /// A client over UDP. What it is handed and gives are datagrams.
    ///
    /// ```
    /// use std::time::Duration;
    /// use turn_client::{TurnClientApi, TurnClientUdp, TurnConfig, TurnCredentials, TurnPollRet};
    ///
    /// let (local, server) = ("192.0.2.1:5000".parse()?, "192.0.2.2:3478".parse()?);
    /// let config = TurnConfig::new(TurnCredentials::new("alice", "secret"));
    /// let mut client = TurnClientUdp::new(local, server, config)?;
    ///
    /// let now = Duration::ZERO;
    /// if let Some(transmit) = client.poll_transmit(now)? {
    ///     assert_eq!(transmit.to, server);
    ///     // socket.send_to(transmit.data, transmit.to)
    /// }
    /// // Without an answer the request is to be sent again after half a second.
    /// assert_eq!(client.poll(now)?, TurnPollRet::WaitUntil(Duration::from_millis(500)));
    /// # Ok::<(), Box<dyn std::error::Error>>(())
    /// ```
    TurnClientUdp, Udp
}

client! {
    /// A client over TCP. What it is handed is a stream, cut anywhere. Its allocation is over UDP,
    /// or over TCP where the settings say so: then it has connections to peers.
    ///
    /// ```
    /// use std::time::Duration;
    /// use turn_client::{TransportType, TurnClientApi, TurnClientTcp, TurnConfig, TurnCredentials};
    /// use turn_client::{Transmit, TurnRecvRet};
    ///
    /// let (local, server) = ("192.0.2.1:5000".parse()?, "192.0.2.2:3478".parse()?);
    /// let config = TurnConfig::new(TurnCredentials::new("alice", "secret"));
    /// let mut client = TurnClientTcp::new(local, server, config)?;
    ///
    /// let now = Duration::ZERO;
    /// while let Some(transmit) = client.poll_transmit(now)? {
    ///     assert_eq!(transmit.from, local);
    ///     // stream.write_all(transmit.data)
    /// }
    /// // What is read of the stream is handed in, then what waits is taken.
    /// let read = Transmit::new(&b"\0"[..], TransportType::Tcp, server, local);
    /// assert_eq!(client.recv(read, now)?, TurnRecvRet::Handled);
    /// assert_eq!(client.poll_recv(now)?, None);
    /// # Ok::<(), Box<dyn std::error::Error>>(())
    /// ```
    TurnClientTcp, Tcp
}
