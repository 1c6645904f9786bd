//! How a socket over a TURN server is made.

use std::io::{self, ErrorKind};
use std::net::{SocketAddr, ToSocketAddrs};
use std::time::{Duration, Instant};

use super::connection::{open_tcp, open_udp, ServerConnection};
use super::error::ConnectError;
use super::setup::Setup;
use super::socket::{deadline, TurnSocket};
use super::stream::TurnStream;
use crate::api::{TransportType, TurnConfig};
use crate::uri::TurnUri;

/// How long a TCP connection to a server may take.
pub(super) const CONNECT_PATIENCE: Duration = Duration::from_secs(30);

/// How a [`TurnSocket`] is made, as [`std::fs::OpenOptions`] says how a file is opened.
///
/// ```no_run
/// use std::time::Duration;
/// use turn_client::driver::ConnectOptions;
/// use turn_client::{TurnConfig, TurnCredentials};
///
/// let config = TurnConfig::new(TurnCredentials::new("alice", "secret"));
/// let socket = ConnectOptions::new()
///     .timeout(Duration::from_secs(5))
///     .channels(false)
///     .connect(&"turn:turn.example.org".parse()?, config)?;
/// println!("{}", socket.relayed_addr());
/// # Ok::<(), Box<dyn std::error::Error>>(())
/// ```
#[derive(Clone, Debug)]
pub struct ConnectOptions {
    timeout: Option<Duration>,
    local_addr: Option<SocketAddr>,
    channels: bool,
    follow: usize,
}

impl Default for ConnectOptions {
    fn default() -> Self {
        Self::new()
    }
}

impl ConnectOptions {
    /// No timeout, any local address, channels to peers, and no other server.
    pub fn new() -> Self {
        Self {
            timeout: None,
            local_addr: None,
            channels: true,
            follow: 0,
        }
    }

    /// Sets how long it may take until there is a relayed address, the look-up of a name left out.
    /// Without it a server that doesn't respond is given up after 39.5 seconds, and a TCP connection
    /// after 30.
    pub fn timeout(&mut self, timeout: Duration) -> &mut Self {
        self.timeout = Some(timeout);
        self
    }

    /// Sets the local address of a UDP socket to the server. A TCP connection has any.
    pub fn local_addr(&mut self, local_addr: SocketAddr) -> &mut Self {
        self.local_addr = Some(local_addr);
        self
    }

    /// Sets whether channels to peers are requested, which make each datagram 32 bytes or more
    /// shorter; they are at first. Without them all goes in indications, which suits peers to whom
    /// little is sent.
    pub fn channels(&mut self, channels: bool) -> &mut Self {
        self.channels = channels;
        self
    }

    /// Sets how many other servers are asked in a row, which a server names by a response 300 (RFC
    /// 8489, section 10); at first none. Such a response may be anybody's who can send from the
    /// server's address. A server that was asked isn't asked again.
    pub fn follow(&mut self, follow: usize) -> &mut Self {
        self.follow = follow;
        self
    }

    /// Connects to the server of a URI over UDP or TCP, and gets a relayed address. Of the host's
    /// addresses the first is taken for which the system gives a socket or a connection.
    ///
    /// # Errors
    ///
    /// - `NotTurn`, `WantsTls`: see [`connect_over`](Self::connect_over) for TLS.
    /// - `Unreachable`, `Rejected`, `TimedOut`.
    /// - `AllocationTransport`, `Settings`: the settings can't be.
    pub fn connect(&self, uri: &TurnUri, config: TurnConfig) -> Result<TurnSocket, ConnectError> {
        let servers = servers(uri)?;
        self.reach(servers, |servers, until| {
            let (server, connection) = self.open(servers, uri.transport(), until)?;
            let made = TurnSocket::allocate(connection, config.clone(), self.channels, until);
            Ok((server, made))
        })
    }

    /// Connects over TCP to the server of a URI, gets a relayed address, and connects it to a peer
    /// over TCP (RFC 6062). The settings' own transport to peers, and the URI's to the server, have
    /// no meaning here. The same server is asked for the connection that carries the bytes.
    ///
    /// # Errors
    ///
    /// - `NotTurn`, `WantsTls`.
    /// - `Unreachable`, `Rejected`, `TimedOut`.
    /// - `Peer`: the server gives no permission for the peer, or can't connect to it.
    /// - `Settings`: the settings can't be.
    pub fn connect_stream(
        &self,
        uri: &TurnUri,
        mut config: TurnConfig,
        peer: SocketAddr,
    ) -> Result<TurnStream, ConnectError> {
        let servers = servers(uri)?;
        config.set_allocation_transport(TransportType::Tcp);
        self.reach(servers, |servers, until| {
            let (server, control) = first_opened(servers, until, open_tcp)?;
            let made = Setup::new(control, config.clone(), peer).and_then(|setup| setup.run(until));
            Ok((server, made.map(TurnStream::start)))
        })
    }

    /// Does something with one of these servers, or with another one that it names.
    fn reach<T>(
        &self,
        mut servers: Vec<SocketAddr>,
        mut with: impl FnMut(
            &[SocketAddr],
            Option<Instant>,
        ) -> Result<(SocketAddr, Result<T, ConnectError>), ConnectError>,
    ) -> Result<T, ConnectError> {
        let until = self.timeout.and_then(deadline);
        let mut asked = Vec::new();
        loop {
            let (server, made) = with(&servers, until)?;
            asked.push(server);
            match made {
                Err(ConnectError::Rejected {
                    alternate_server: Some(elsewhere),
                    ..
                }) if asked.len() <= self.follow && !asked.contains(&elsewhere) => {
                    servers = vec![elsewhere]
                }
                made => return made,
            }
        }
    }

    /// A connection to the first server for which the system gives one.
    fn open(
        &self,
        servers: &[SocketAddr],
        transport: TransportType,
        until: Option<Instant>,
    ) -> Result<(SocketAddr, Box<dyn ServerConnection>), ConnectError> {
        first_opened(servers, until, |server, patience| {
            let opened: Box<dyn ServerConnection> = match transport {
                TransportType::Udp => Box::new(open_udp(server, self.local_addr)?),
                TransportType::Tcp => Box::new(open_tcp(server, patience)?),
            };
            Ok(opened)
        })
    }

    /// Gets a relayed address over a connection that the program made: over TLS, or a socket with
    /// settings of its own. No other server is asked, and `local_addr` has no meaning.
    ///
    /// With a library for TLS whose `secure` does the handshake, as `native_tls::TlsConnector` and
    /// `rustls::StreamOwned` do:
    ///
    /// ```no_run
    /// use std::net::TcpStream;
    /// use turn_client::driver::{ConnectOptions, StreamConnection};
    /// use turn_client::{TurnConfig, TurnCredentials, TurnUri};
    ///
    /// # fn secure(_: &str, socket: TcpStream) -> std::io::Result<TcpStream> { Ok(socket) }
    /// # fn main() -> Result<(), Box<dyn std::error::Error>> {
    /// let uri: TurnUri = "turns:turn.example.org".parse()?;
    /// let socket = TcpStream::connect(&uri)?;
    /// let connection = StreamConnection::new(secure(uri.host(), socket.try_clone()?)?, socket)?;
    /// let config = TurnConfig::new(TurnCredentials::new("alice", "secret"));
    /// let socket = ConnectOptions::new().connect_over(connection, config)?;
    /// # Ok(())
    /// # }
    /// ```
    ///
    /// # Errors
    ///
    /// - `Unreachable`: the connection has no addresses, or failed.
    /// - `Rejected`, `TimedOut`.
    /// - `AllocationTransport`, `Settings`: the settings can't be.
    pub fn connect_over(
        &self,
        connection: impl ServerConnection + 'static,
        config: TurnConfig,
    ) -> Result<TurnSocket, ConnectError> {
        let until = self.timeout.and_then(deadline);
        TurnSocket::allocate(Box::new(connection), config, self.channels, until)
    }
}

/// The addresses of a URI's server.
fn servers(uri: &TurnUri) -> Result<Vec<SocketAddr>, ConnectError> {
    if !uri.scheme().is_turn() {
        return Err(ConnectError::NotTurn);
    }
    if uri.scheme().is_secure() {
        return Err(ConnectError::WantsTls);
    }
    Ok(uri
        .to_socket_addrs()
        .map_err(ConnectError::Unreachable)?
        .collect())
}

/// What can be opened to the first of these servers, with that server.
fn first_opened<T>(
    servers: &[SocketAddr],
    until: Option<Instant>,
    open: impl Fn(SocketAddr, Duration) -> io::Result<T>,
) -> Result<(SocketAddr, T), ConnectError> {
    let mut why = io::Error::new(ErrorKind::NotFound, "the host has no address");
    for &server in servers {
        let left = until.map(|it| it.saturating_duration_since(Instant::now()));
        if left == Some(Duration::ZERO) {
            return Err(ConnectError::TimedOut);
        }
        match open(
            server,
            left.unwrap_or(CONNECT_PATIENCE).min(CONNECT_PATIENCE),
        ) {
            Ok(opened) => return Ok((server, opened)),
            Err(error) => why = error,
        }
    }
    Err(ConnectError::Unreachable(why))
}
