//! Connections to a server: what a socket sends over and receives from.

use std::fmt;
use std::io::{self, ErrorKind, Read, Write};
use std::net::{Ipv4Addr, Ipv6Addr, SocketAddr, TcpStream, UdpSocket};
use std::sync::{Mutex, PoisonError};
use std::time::Duration;

use crate::api::TransportType;

/// The least that a system waits for.
const LEAST_WAIT: Duration = Duration::from_millis(1);
/// How long a stream has to take what is written.
const WRITE_PATIENCE: Duration = Duration::from_secs(10);

/// A connection to a server, of which each method may be called while another thread is in
/// [`receive`](Self::receive).
///
/// A connected [`UdpSocket`] is one, and so is a [`TcpStream`]. [`StreamConnection`] makes one of
/// any stream over TCP, as one over TLS.
pub trait ServerConnection: fmt::Debug + Send + Sync {
    /// Returns the transport: UDP for datagrams, TCP for a stream.
    fn transport(&self) -> TransportType;

    /// Returns the connection's own address.
    fn local_addr(&self) -> io::Result<SocketAddr>;

    /// Returns the server's address.
    fn server_addr(&self) -> io::Result<SocketAddr>;

    /// Sends a datagram; or writes all of the bytes to a stream. After an error a stream isn't used
    /// any more.
    fn send(&self, bytes: &[u8]) -> io::Result<()>;

    /// Waits for a datagram, or for bytes of a stream, for at most that time or a little longer.
    /// Returns how many bytes there are, or `None` if nothing came. From a stream `Some(0)` means
    /// that the server closed it.
    fn receive(&self, bytes: &mut [u8], wait: Duration) -> io::Result<Option<usize>>;
}

/// Whether a read only took its time, or was interrupted.
fn is_nothing(error: &io::Error) -> bool {
    matches!(
        error.kind(),
        ErrorKind::WouldBlock | ErrorKind::TimedOut | ErrorKind::Interrupted
    )
}

fn received(read: io::Result<usize>) -> io::Result<Option<usize>> {
    match read {
        Err(error) if is_nothing(&error) => Ok(None),
        read => read.map(Some),
    }
}

/// A socket that is connected to the server. An ICMP report that its port is closed may be
/// anybody's: it is ignored, and the client gives up in time.
impl ServerConnection for UdpSocket {
    fn transport(&self) -> TransportType {
        TransportType::Udp
    }

    fn local_addr(&self) -> io::Result<SocketAddr> {
        UdpSocket::local_addr(self)
    }

    fn server_addr(&self) -> io::Result<SocketAddr> {
        self.peer_addr()
    }

    fn send(&self, bytes: &[u8]) -> io::Result<()> {
        match UdpSocket::send(self, bytes) {
            Err(error) if error.kind() != ErrorKind::ConnectionRefused => Err(error),
            _ => Ok(()),
        }
    }

    fn receive(&self, bytes: &mut [u8], wait: Duration) -> io::Result<Option<usize>> {
        self.set_read_timeout(Some(wait.max(LEAST_WAIT)))?;
        match self.recv(bytes) {
            Err(error) if error.kind() == ErrorKind::ConnectionRefused => Ok(None),
            read => received(read),
        }
    }
}

impl ServerConnection for TcpStream {
    fn transport(&self) -> TransportType {
        TransportType::Tcp
    }

    fn local_addr(&self) -> io::Result<SocketAddr> {
        TcpStream::local_addr(self)
    }

    fn server_addr(&self) -> io::Result<SocketAddr> {
        self.peer_addr()
    }

    fn send(&self, bytes: &[u8]) -> io::Result<()> {
        let mut stream = self;
        stream.write_all(bytes)
    }

    fn receive(&self, bytes: &mut [u8], wait: Duration) -> io::Result<Option<usize>> {
        self.set_read_timeout(Some(wait.max(LEAST_WAIT)))?;
        let mut stream = self;
        received(stream.read(bytes))
    }
}

/// A stream over a TCP connection, as one over TLS: `rustls::StreamOwned`, `native_tls::TlsStream`.
///
/// The stream is locked while it is read, so **it is for sockets that one thread uses**: another
/// one that sends waits until a read is over, and may wait long. The `example-rustls` of the
/// repository has a [`ServerConnection`] over TLS that isn't locked meanwhile.
///
/// A read of the stream has to return an error of the kind `WouldBlock` or `TimedOut` if the TCP
/// connection's read timeout is over, and to go on when it is called again. Both named above do.
pub struct StreamConnection<S> {
    stream: Mutex<S>,
    /// The TCP connection below the stream.
    socket: TcpStream,
}

impl<S> fmt::Debug for StreamConnection<S> {
    fn fmt(&self, f: &mut fmt::Formatter<'_>) -> fmt::Result {
        f.debug_struct("StreamConnection")
            .field("socket", &self.socket)
            .finish_non_exhaustive()
    }
}

impl<S: Read + Write + Send> StreamConnection<S> {
    /// Makes a connection of a stream, and of the TCP connection below it, of which
    /// [`try_clone`](TcpStream::try_clone) makes a second handle. That one's timeouts are set.
    ///
    /// # Errors
    ///
    /// The system refuses a timeout.
    pub fn new(stream: S, socket: TcpStream) -> io::Result<Self> {
        socket.set_write_timeout(Some(WRITE_PATIENCE))?;
        let stream = Mutex::new(stream);
        Ok(Self { stream, socket })
    }
}

impl<S: Read + Write + Send> ServerConnection for StreamConnection<S> {
    fn transport(&self) -> TransportType {
        TransportType::Tcp
    }

    fn local_addr(&self) -> io::Result<SocketAddr> {
        self.socket.local_addr()
    }

    fn server_addr(&self) -> io::Result<SocketAddr> {
        self.socket.peer_addr()
    }

    fn send(&self, bytes: &[u8]) -> io::Result<()> {
        let mut stream = self.stream.lock().unwrap_or_else(PoisonError::into_inner);
        stream.write_all(bytes)?;
        stream.flush()
    }

    fn receive(&self, bytes: &mut [u8], wait: Duration) -> io::Result<Option<usize>> {
        self.socket.set_read_timeout(Some(wait.max(LEAST_WAIT)))?;
        let mut stream = self.stream.lock().unwrap_or_else(PoisonError::into_inner);
        received(stream.read(bytes))
    }
}

/// A UDP socket of a local address, or of any, connected to a server.
pub(crate) fn open_udp(server: SocketAddr, local: Option<SocketAddr>) -> io::Result<UdpSocket> {
    let any = match server {
        SocketAddr::V4(_) => SocketAddr::from((Ipv4Addr::UNSPECIFIED, 0)),
        SocketAddr::V6(_) => SocketAddr::from((Ipv6Addr::UNSPECIFIED, 0)),
    };
    let socket = UdpSocket::bind(local.unwrap_or(any))?;
    socket.connect(server)?;
    Ok(socket)
}

/// A TCP connection to a server.
pub(crate) fn open_tcp(server: SocketAddr, patience: Duration) -> io::Result<TcpStream> {
    let stream = TcpStream::connect_timeout(&server, patience.max(LEAST_WAIT))?;
    stream.set_nodelay(true)?;
    stream.set_write_timeout(Some(WRITE_PATIENCE))?;
    Ok(stream)
}
