//! How a socket over a TURN server is made.

use std::io;
use std::net::{Ipv4Addr, Ipv6Addr, SocketAddr};
use std::time::Duration;

use tokio::io::{AsyncRead, AsyncWrite};
use tokio::net::{lookup_host, TcpStream, UdpSocket};
use tokio::time::timeout;
use turn_client::{ConnectError, TransportType, TurnConfig, TurnUri};

use crate::line::Line;
use crate::socket::TurnSocket;

/// How a [`TurnSocket`] is made.
///
/// ```no_run
/// use std::time::Duration;
/// use turn_client_tokio::{ConnectOptions, TurnConfig, TurnCredentials};
///
/// # async fn run() -> Result<(), Box<dyn std::error::Error>> {
/// let config = TurnConfig::new(TurnCredentials::new("alice", "secret"));
/// let socket = ConnectOptions::new()
///     .timeout(Duration::from_secs(5))
///     .connect(&"turn:turn.example.org?transport=tcp".parse()?, config)
///     .await?;
/// println!("{}", socket.relayed_addr());
/// # Ok(())
/// # }
/// ```
#[derive(Clone, Debug)]
pub struct ConnectOptions {
    timeout: Option<Duration>,
    local_addr: Option<SocketAddr>,
    channels: bool,
    follow: usize,
}

impl Default for ConnectOptions {
    fn default() -> Self {
        Self::new()
    }
}

/// A line to a server, and its addresses.
type Opened = (Line, SocketAddr, SocketAddr);

impl ConnectOptions {
    /// No timeout, any local address, channels to peers, and no other server.
    pub fn new() -> Self {
        Self {
            timeout: None,
            local_addr: None,
            channels: true,
            follow: 0,
        }
    }

    /// Sets how long it may take until there is a relayed address. Without it a server that
    /// doesn't respond is given up after 39.5 seconds, and a TCP connection when the system gives
    /// it up.
    pub fn timeout(&mut self, timeout: Duration) -> &mut Self {
        self.timeout = Some(timeout);
        self
    }

    /// Sets the local address of a UDP socket to the server. A TCP connection has any.
    pub fn local_addr(&mut self, local_addr: SocketAddr) -> &mut Self {
        self.local_addr = Some(local_addr);
        self
    }

    /// Sets whether channels to peers are requested, which make each datagram shorter; they are at
    /// first. Without them all goes in indications, which suits peers to whom little is sent.
    pub fn channels(&mut self, channels: bool) -> &mut Self {
        self.channels = channels;
        self
    }

    /// Sets how many other servers are asked in a row, which a server names by a response 300 (RFC
    /// 8489, section 10); at first none. Such a response may be anybody's who can send from the
    /// server's address. A server that was asked isn't asked again.
    pub fn follow(&mut self, follow: usize) -> &mut Self {
        self.follow = follow;
        self
    }

    /// Connects to the server of a URI over UDP or TCP, and gets a relayed address. Of the host's
    /// addresses the first is taken for which the system gives a socket or a connection.
    ///
    /// # Errors
    ///
    /// - `NotTurn`, `WantsTls`: see [`connect_over`](Self::connect_over) for TLS.
    /// - `Unreachable`, `Rejected`, `TimedOut`.
    /// - `AllocationTransport`, `Settings`: the settings can't be.
    ///
    /// # Panics
    ///
    /// Outside of a tokio runtime with its drivers for input, output and time.
    pub async fn connect(
        &self,
        uri: &TurnUri,
        config: TurnConfig,
    ) -> Result<TurnSocket, ConnectError> {
        if !uri.scheme().is_turn() {
            return Err(ConnectError::NotTurn);
        }
        if uri.scheme().is_secure() {
            return Err(ConnectError::WantsTls);
        }
        self.in_time(self.connect_and_follow(uri, config)).await
    }

    async fn in_time<T>(
        &self,
        work: impl std::future::Future<Output = Result<T, ConnectError>>,
    ) -> Result<T, ConnectError> {
        match self.timeout {
            None => work.await,
            Some(time) => timeout(time, work)
                .await
                .unwrap_or(Err(ConnectError::TimedOut)),
        }
    }

    async fn connect_and_follow(
        &self,
        uri: &TurnUri,
        config: TurnConfig,
    ) -> Result<TurnSocket, ConnectError> {
        let found = lookup_host((uri.host(), uri.port())).await;
        let mut servers: Vec<_> = found.map_err(ConnectError::Unreachable)?.collect();
        let mut asked = Vec::new();
        loop {
            let opened = self.open(&servers, uri.transport()).await;
            let (line, local, server) = opened.map_err(ConnectError::Unreachable)?;
            asked.push(server);
            let made = TurnSocket::allocate(
                line,
                uri.transport(),
                local,
                server,
                config.clone(),
                self.channels,
            );
            match made.await {
                Err(ConnectError::Rejected {
                    alternate_server: Some(elsewhere),
                    ..
                }) if asked.len() <= self.follow && !asked.contains(&elsewhere) => {
                    servers = vec![elsewhere];
                }
                made => return made,
            }
        }
    }

    /// A line to the first server for which the system gives one.
    async fn open(&self, servers: &[SocketAddr], transport: TransportType) -> io::Result<Opened> {
        let mut why = io::Error::new(io::ErrorKind::NotFound, "the host has no address");
        for &server in servers {
            let opened = match transport {
                TransportType::Udp => open_udp(server, self.local_addr).await,
                TransportType::Tcp => open_tcp(server).await,
            };
            match opened {
                Ok(opened) => return Ok(opened),
                Err(error) => why = error,
            }
        }
        Err(why)
    }

    /// Gets a relayed address over a stream that the program made, as one over TLS of
    /// [`tokio-rustls`](https://docs.rs/tokio-rustls), between the addresses of the TCP connection
    /// below it. No other server is asked, and `local_addr` has no meaning.
    ///
    /// # Errors
    ///
    /// - `Unreachable`: the stream failed, or was closed.
    /// - `Rejected`, `TimedOut`.
    /// - `AllocationTransport`, `Settings`: the settings can't be.
    ///
    /// # Panics
    ///
    /// Outside of a tokio runtime with its driver for time.
    pub async fn connect_over(
        &self,
        stream: impl AsyncRead + AsyncWrite + Send + Unpin + 'static,
        local_addr: SocketAddr,
        server_addr: SocketAddr,
        config: TurnConfig,
    ) -> Result<TurnSocket, ConnectError> {
        let made = TurnSocket::allocate(
            Line::of_stream(stream),
            TransportType::Tcp,
            local_addr,
            server_addr,
            config,
            self.channels,
        );
        self.in_time(made).await
    }
}

async fn open_udp(server: SocketAddr, local: Option<SocketAddr>) -> io::Result<Opened> {
    let any = match server {
        SocketAddr::V4(_) => SocketAddr::from((Ipv4Addr::UNSPECIFIED, 0)),
        SocketAddr::V6(_) => SocketAddr::from((Ipv6Addr::UNSPECIFIED, 0)),
    };
    let socket = UdpSocket::bind(local.unwrap_or(any)).await?;
    socket.connect(server).await?;
    let local = socket.local_addr()?;
    Ok((Line::Datagrams(socket), local, server))
}

async fn open_tcp(server: SocketAddr) -> io::Result<Opened> {
    let stream = TcpStream::connect(server).await?;
    stream.set_nodelay(true)?;
    let local = stream.local_addr()?;
    Ok((Line::of_stream(stream), local, server))
}
