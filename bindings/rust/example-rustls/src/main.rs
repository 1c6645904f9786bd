//! Does what `examples/socket.rs` does, over TLS to the server (`turns:`), by rustls.
//!
//!     TURN_PASSWORD=secret cargo run -- --server localhost:5349 --user alice --tls ca.pem \
//!         --peer 127.0.0.1:9000
//!
//! `--help` tells the options and the exit status.
//!
//! It is written for rustls 0.20. From 0.23 on `with_safe_defaults` is left out, and a `ServerName`
//! is made of a `String`.

#[path = "../../examples/common/driven.rs"]
mod driven;

use std::error::Error;
use std::fs::File;
use std::io::{self, BufReader, ErrorKind, Read, Write};
use std::net::{SocketAddr, TcpStream};
use std::process::ExitCode;
use std::sync::{Arc, Mutex, MutexGuard, PoisonError};
use std::time::Duration;

use driven::{main_over, Line, Options};
use rustls::{Certificate, ClientConfig, ClientConnection, RootCertStore, ServerName};
use turn_client::driver::ServerConnection;
use turn_client::{ConnectError, TransportType, TurnUri};

/// Bytes that are read of the TCP connection at once.
const READ_MAX: usize = 16_384;

const TRANSPORTS: &str = "  --tls FILE          the certificates that vouch for the server\n  \
                          --tls-name NAME     the name in its own; without it that of --server\n";

/// The settings of TLS: these certificates alone are trusted.
fn trusting(file: &str) -> Result<ClientConfig, Box<dyn Error>> {
    let mut roots = RootCertStore::empty();
    for certificate in rustls_pemfile::certs(&mut BufReader::new(File::open(file)?))? {
        roots.add(&Certificate(certificate))?;
    }
    let config = ClientConfig::builder()
        .with_safe_defaults()
        .with_root_certificates(roots);
    Ok(config.with_no_client_auth())
}

/// A connection over TLS. It isn't locked while a thread waits in the system, so that another one
/// may send: that is what `StreamConnection` can't do with a stream.
#[derive(Debug)]
struct Secured {
    socket: TcpStream,
    tls: Mutex<ClientConnection>,
}

impl Secured {
    /// Connects, and does the handshake.
    fn connect(options: &Options, uri: &TurnUri) -> Result<Self, Box<dyn Error>> {
        let name = ServerName::try_from(options.tls_name.as_deref().unwrap_or(uri.host()))?;
        let mut tls = ClientConnection::new(Arc::new(trusting(&options.trusted)?), name)?;
        let mut socket = TcpStream::connect(uri).map_err(ConnectError::Unreachable)?;
        socket.set_nodelay(true)?;
        socket.set_write_timeout(Some(Duration::from_secs(10)))?;
        while tls.is_handshaking() {
            tls.complete_io(&mut socket)
                .map_err(ConnectError::Unreachable)?;
        }
        let tls = Mutex::new(tls);
        Ok(Self { socket, tls })
    }

    fn lock(&self) -> MutexGuard<'_, ClientConnection> {
        self.tls.lock().unwrap_or_else(PoisonError::into_inner)
    }

    fn flush(&self, tls: &mut ClientConnection) -> io::Result<()> {
        while tls.wants_write() {
            tls.write_tls(&mut &self.socket)?;
        }
        Ok(())
    }
}

/// What is decrypted: `None` if nothing waits.
fn decrypted(tls: &mut ClientConnection, bytes: &mut [u8]) -> io::Result<Option<usize>> {
    match tls.reader().read(bytes) {
        Err(error) if error.kind() == ErrorKind::WouldBlock => Ok(None),
        read => read.map(Some),
    }
}

impl ServerConnection for Secured {
    fn transport(&self) -> TransportType {
        TransportType::Tcp
    }

    fn local_addr(&self) -> io::Result<SocketAddr> {
        self.socket.local_addr()
    }

    fn server_addr(&self) -> io::Result<SocketAddr> {
        self.socket.peer_addr()
    }

    fn send(&self, bytes: &[u8]) -> io::Result<()> {
        let mut tls = self.lock();
        for chunk in bytes.chunks(READ_MAX) {
            tls.writer().write_all(chunk)?;
            self.flush(&mut tls)?;
        }
        Ok(())
    }

    fn receive(&self, bytes: &mut [u8], wait: Duration) -> io::Result<Option<usize>> {
        if let Some(size) = decrypted(&mut self.lock(), bytes)? {
            return Ok(Some(size));
        }
        self.socket
            .set_read_timeout(Some(wait.max(Duration::from_millis(1))))?;
        let mut read = [0; READ_MAX];
        let size = match (&self.socket).read(&mut read) {
            Ok(size) => size,
            Err(error)
                if matches!(error.kind(), ErrorKind::WouldBlock | ErrorKind::Interrupted) =>
            {
                return Ok(None)
            }
            Err(error) => return Err(error),
        };
        let (mut encrypted, mut tls) = (&read[..size], self.lock());
        loop {
            tls.read_tls(&mut encrypted)?;
            tls.process_new_packets().map_err(io::Error::other)?;
            if encrypted.is_empty() {
                break;
            }
        }
        self.flush(&mut tls)?;
        match decrypted(&mut tls, bytes)? {
            None if size == 0 => Ok(Some(0)),
            decrypted => Ok(decrypted),
        }
    }
}

fn connect(options: &Options) -> Result<Line, Box<dyn Error>> {
    let uri: TurnUri = format!("turns:{}", options.server).parse()?;
    let connection = Secured::connect(options, &uri)?;
    let made = options.how().connect_over(connection, options.config())?;
    Ok(Line::Socket(Box::new(made)))
}

fn main() -> ExitCode {
    main_over("example-rustls", TRANSPORTS, connect)
}
