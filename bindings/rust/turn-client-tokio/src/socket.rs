//! Datagrams through a TURN server, over tokio.

use std::fmt;
use std::net::{IpAddr, SocketAddr};
use std::sync::Arc;

use turn_client::driver::{Permission, SessionState, TurnSession};
use turn_client::{
    ConnectError, CredentialsError, SocketError, TransportType, TurnConfig, TurnCredentials,
    TurnUri, PAYLOAD_MAX,
};

use crate::line::{serve, Line, Shared};
use crate::options::ConnectOptions;

/// How many bytes wait to be sent to the server before [`TurnSocket::send_to`] waits.
pub const UNSENT_MAX: usize = 256 * 1024;

/// A socket whose datagrams go through a TURN server, with the calls of
/// [`tokio::net::UdpSocket`]: peers see, and send to, its [`relayed_addr`](Self::relayed_addr).
///
/// A task of its own takes what comes, and renews the allocation, its permissions and its channels,
/// whatever the program does. It ends when the socket is closed or dropped, or the allocation lost.
/// All calls take `&self`, and may be made by several tasks. A call that is cancelled has done
/// nothing, but that a permission may have been requested.
///
/// # Permissions
///
/// A peer may send only if its IP address has a permission. The first [`send_to`](Self::send_to) to
/// an address requests it and waits for the server; [`permit`](Self::permit) does that for a peer
/// to whom nothing is sent, and [`permit_several`](Self::permit_several) for up to
/// [`PERMIT_MAX`](turn_client::PERMIT_MAX) by one request. After the first datagram a channel to the
/// peer is requested, unless [`ConnectOptions::channels`] says otherwise. If the server rejects it,
/// all goes in indications, and it is requested again after five minutes.
///
/// # What is stored, and dropped
///
/// What comes is stored until it is received: at most
/// [`INCOMING_MAX`](turn_client::driver::INCOMING_MAX) datagrams and
/// [`INCOMING_BYTES_MAX`](turn_client::driver::INCOMING_BYTES_MAX) bytes. What comes beyond is
/// dropped. While more than [`UNSENT_MAX`] bytes wait for the connection to the server, `send_to`
/// waits.
pub struct TurnSocket {
    shared: Arc<Shared>,
    transport: TransportType,
    local_addr: SocketAddr,
    server_addr: SocketAddr,
    relayed_addrs: Vec<SocketAddr>,
}

impl fmt::Debug for TurnSocket {
    fn fmt(&self, f: &mut fmt::Formatter<'_>) -> fmt::Result {
        f.debug_struct("TurnSocket")
            .field("relayed_addrs", &self.relayed_addrs)
            .field("local_addr", &self.local_addr)
            .field("server_addr", &self.server_addr)
            .finish_non_exhaustive()
    }
}

impl TurnSocket {
    /// Connects to the server of a URI over UDP or TCP, and gets a relayed address.
    /// [`ConnectOptions`] has more to choose, and connects over TLS.
    ///
    /// # Errors
    ///
    /// As [`ConnectOptions::connect`]. A server that doesn't respond is given up after 39.5
    /// seconds.
    ///
    /// # Panics
    ///
    /// Outside of a tokio runtime with its drivers for input, output and time.
    pub async fn connect(uri: &TurnUri, config: TurnConfig) -> Result<Self, ConnectError> {
        ConnectOptions::new().connect(uri, config).await
    }

    /// Gets a relayed address over a line between two addresses.
    pub(crate) async fn allocate(
        line: Line,
        transport: TransportType,
        local_addr: SocketAddr,
        server_addr: SocketAddr,
        config: TurnConfig,
        channels: bool,
    ) -> Result<Self, ConnectError> {
        let session = TurnSession::new(transport, local_addr, server_addr, config, channels)?;
        let shared = Arc::new(Shared::new(session));
        tokio::spawn(serve(Arc::clone(&shared), line));
        // dropped before it is returned, it ends the task
        let mut socket = Self {
            shared,
            transport,
            local_addr,
            server_addr,
            relayed_addrs: Vec::new(),
        };
        let allocated = socket.shared.wait(|inner| match inner.session.state() {
            SessionState::Allocating => None,
            state => Some(state.connect_error()),
        });
        let error = allocated.await;
        let mut inner = socket.shared.lock();
        if let Some(failure) = inner.failure.take() {
            return Err(ConnectError::Unreachable(failure));
        }
        let relayed = inner.session.client().relayed_addresses();
        drop(inner);
        match error {
            Some(error) => Err(error),
            None => {
                socket.relayed_addrs = relayed.into_iter().map(|(_, address)| address).collect();
                Ok(socket)
            }
        }
    }

    // ---- addresses

    /// Returns the relayed address, to which peers send. If there are two, of IPv4 and IPv6, it is
    /// the first of [`relayed_addrs`](Self::relayed_addrs).
    pub fn relayed_addr(&self) -> SocketAddr {
        let none = SocketAddr::from(([0, 0, 0, 0], 0)); // a socket that was made has one
        self.relayed_addrs.first().copied().unwrap_or(none)
    }

    /// Returns all relayed addresses: two if the settings asked for both families and the server
    /// gave both.
    pub fn relayed_addrs(&self) -> &[SocketAddr] {
        &self.relayed_addrs
    }

    /// Returns the socket's own address, from which it sends to the server.
    pub fn local_addr(&self) -> SocketAddr {
        self.local_addr
    }

    /// Returns the socket's own address as the server saw it; `None` if the server didn't say.
    pub fn mapped_addr(&self) -> Option<SocketAddr> {
        self.shared.lock().session.client().mapped_address()
    }

    /// Returns the server's address: that of another server, if this one named it and was followed.
    pub fn server_addr(&self) -> SocketAddr {
        self.server_addr
    }

    /// Returns the transport to the server.
    pub fn transport(&self) -> TransportType {
        self.transport
    }

    // ---- datagrams

    /// Sends a datagram to a peer, and returns its size. If the peer's IP address has no
    /// permission, that is requested first, and the call waits for the server: see
    /// [Permissions](#permissions).
    ///
    /// # Errors
    ///
    /// Nothing was sent then.
    ///
    /// - `Closed`, `Lost`: the socket is over.
    /// - `TooLarge`, `NoMemory`.
    /// - `PeerRefused`: the server gives no permission.
    pub async fn send_to(&self, data: &[u8], peer: SocketAddr) -> Result<usize, SocketError> {
        if data.len() > PAYLOAD_MAX {
            return Err(SocketError::TooLarge);
        }
        self.permit(peer.ip()).await?;
        let sent = self.shared.wait(|inner| {
            let is_over = inner.session.state().error().is_some();
            let has_room = inner.unsent_bytes < UNSENT_MAX;
            (is_over || has_room).then(|| inner.send_to(data, peer))
        });
        sent.await?;
        self.shared.requested.notify_one();
        Ok(data.len())
    }

    /// Waits for a datagram of a peer, and returns its size and the peer. If it is longer than
    /// `bytes`, the rest is lost, as with `UdpSocket`. It may be cancelled: nothing is lost.
    ///
    /// # Errors
    ///
    /// After the first two the socket goes on.
    ///
    /// - `PeerRefused`: the permission for a peer, who had one, wasn't renewed.
    /// - `PeerUnreachable`: the server passed on an ICMP report.
    /// - `Closed`, `Lost`: the socket is over. What had come before is returned first, unless it
    ///   was closed.
    pub async fn recv_from(&self, bytes: &mut [u8]) -> Result<(usize, SocketAddr), SocketError> {
        let incoming = self.shared.wait(|inner| {
            let next = inner.session.next_incoming();
            next.or_else(|| inner.session.state().error().map(Err))
        });
        let (data, peer) = incoming.await?;
        let size = data.len().min(bytes.len());
        if let (Some(to), Some(from)) = (bytes.get_mut(..size), data.get(..size)) {
            to.copy_from_slice(from);
        }
        Ok((size, peer))
    }

    // ---- permissions, the end

    /// Lets a peer's IP address send to the relayed address, and waits until it may.
    ///
    /// # Errors
    ///
    /// - `Closed`, `Lost`: the socket is over.
    /// - `PeerRefused`: the server gives no permission; after 39.5 seconds, if it doesn't respond.
    /// - `NoMemory`.
    pub async fn permit(&self, peer: IpAddr) -> Result<(), SocketError> {
        {
            let mut inner = self.shared.lock();
            if let Some(error) = inner.session.state().error() {
                return Err(error);
            }
            if inner.session.permission(peer) == Permission::Granted {
                return Ok(());
            }
            inner.session.request_permission(peer)?;
        }
        self.await_permissions(&[peer]).await
    }

    /// Lets the IP addresses of several peers send to the relayed address, and waits until all may.
    /// Those that are neither permitted nor requested yet are requested by one request, which the
    /// server grants or rejects as a whole. An address that is named twice counts once.
    ///
    /// # Errors
    ///
    /// - `Closed`, `Lost`: the socket is over.
    /// - `InvalidAddresses`: there is no address, there are more than
    ///   [`PERMIT_MAX`](turn_client::PERMIT_MAX) different ones, or they are of two families.
    /// - `PeerRefused`: the server gives no permission for a peer, or for several that were
    ///   requested together, of whom the error names the first; after 39.5 seconds, if it doesn't
    ///   respond.
    /// - `NoMemory`.
    pub async fn permit_several(&self, peers: &[IpAddr]) -> Result<(), SocketError> {
        let missing = self.shared.lock().session.request_permissions(peers)?;
        self.await_permissions(&missing).await
    }

    async fn await_permissions(&self, peers: &[IpAddr]) -> Result<(), SocketError> {
        self.shared.requested.notify_one();
        let granted = self.shared.wait(|inner| inner.session.granted(peers));
        granted.await
    }

    /// Sets the credentials that replace the present ones with the server's next challenge: for
    /// passwords that expire. Call it before they do.
    ///
    /// # Errors
    ///
    /// See [`CredentialsError`]. The present ones stay.
    pub fn set_credentials(&self, credentials: &TurnCredentials) -> Result<(), CredentialsError> {
        self.shared.lock().session.set_credentials(credentials)
    }

    /// Gives the relayed address back to the server, and waits until the server confirms it, for
    /// [`CLOSE_PATIENCE`](crate::CLOSE_PATIENCE) at most. What came and wasn't received is dropped,
    /// and each other call returns `Closed` from now on. A socket that is dropped does the same in
    /// its task, for as long as the runtime runs.
    ///
    /// # Errors
    ///
    /// `Closed`, `Lost`: it was over before.
    pub async fn close(&self) -> Result<(), SocketError> {
        self.close_now()?;
        let closed = self
            .shared
            .wait(|inner| inner.session.state().is_over().then_some(()));
        closed.await;
        Ok(())
    }

    fn close_now(&self) -> Result<(), SocketError> {
        let mut inner = self.shared.lock();
        if let Some(error) = inner.session.state().error() {
            return Err(error);
        }
        inner.session.close();
        drop(inner);
        self.shared.requested.notify_one();
        self.shared.changed.notify_waiters();
        Ok(())
    }
}

impl Drop for TurnSocket {
    fn drop(&mut self) {
        self.shared.lock().session.close();
        self.shared.requested.notify_one();
    }
}
