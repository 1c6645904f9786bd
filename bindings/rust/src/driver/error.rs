//! What goes wrong with a socket over a TURN server.

use std::error::Error;
use std::fmt;
use std::io::{self, ErrorKind};
use std::net::{IpAddr, SocketAddr};

use crate::api::TurnCause;
use crate::error::AllocateError;

/// A cause in words, without the control characters that a server's reason phrase may have.
fn why(cause: Option<&TurnCause>) -> String {
    let words = match cause {
        None => "no cause is known",
        Some(TurnCause::Rejected {
            code,
            reason,
            is_signed,
        }) => {
            let signed = if *is_signed { "signed" } else { "unsigned" };
            let reason: String = reason.chars().filter(|it| !it.is_control()).collect();
            return format!("rejected {code} {signed} {reason}")
                .trim_end()
                .to_string();
        }
        Some(TurnCause::Unanswered) => "no response came in time",
        Some(TurnCause::Integrity) => "the response wasn't signed, or not by the password",
        Some(TurnCause::NoCommonAlgorithm) => {
            "the server has no algorithm that the client supports, or can't hide the name"
        }
        Some(TurnCause::OtherFamily) => "the server allocated addresses of other families only",
        Some(TurnCause::OutOfMemory) => "the cause wasn't stored, for memory ran out",
        Some(TurnCause::Deleted) => "the allocation was deleted before",
        Some(TurnCause::Expired) => "its time was over",
        Some(TurnCause::SocketClosed) => "its socket was closed",
        Some(TurnCause::Unusable) => "the response was malformed",
    };
    words.to_string()
}

/// Why there is no socket over a TURN server.
#[derive(Debug)]
#[non_exhaustive]
pub enum ConnectError {
    /// The URI is that of a STUN server.
    NotTurn,
    /// The URI wants TLS, which this crate doesn't have: make the connection, and hand it to
    /// [`connect_over`](crate::driver::ConnectOptions::connect_over). With `transport=udp` it wants
    /// DTLS.
    WantsTls,
    /// The settings ask for another transport to peers than is wanted here: UDP for a
    /// [`TurnSocket`](crate::TurnSocket), TCP for a [`TurnStream`](crate::TurnStream).
    AllocationTransport,
    /// The settings or the credentials can't be, or memory ran out.
    Settings(AllocateError),
    /// The server can't be reached: its name isn't resolved, there is no route, or the connection
    /// was refused or closed.
    Unreachable(io::Error),
    /// The server gave no relayed address.
    Rejected {
        /// Why; `None` if the client failed for want of memory.
        cause: Option<TurnCause>,
        /// The server that a response 300 named (RFC 8489, section 10).
        alternate_server: Option<SocketAddr>,
        /// The domain of that server.
        alternate_domain: Option<String>,
    },
    /// There is no permission for the peer, or no connection to it.
    Peer(SocketError),
    /// The time is over that [`timeout`](crate::driver::ConnectOptions::timeout) gave.
    TimedOut,
}

impl ConnectError {
    /// Returns why the server gave no address, or refused the peer.
    pub fn cause(&self) -> Option<&TurnCause> {
        match self {
            Self::Rejected { cause, .. } => cause.as_ref(),
            Self::Peer(error) => error.cause(),
            _ => None,
        }
    }
}

impl fmt::Display for ConnectError {
    fn fmt(&self, f: &mut fmt::Formatter<'_>) -> fmt::Result {
        match self {
            Self::NotTurn => f.write_str("the URI is that of a STUN server"),
            Self::WantsTls => {
                f.write_str("the URI wants TLS, for which a connection has to be handed in")
            }
            Self::AllocationTransport => {
                f.write_str("the settings ask for another transport to peers")
            }
            Self::Settings(error) => error.fmt(f),
            Self::Unreachable(error) => write!(f, "the server can't be reached: {error}"),
            Self::Rejected { cause, .. } => {
                write!(f, "no relayed address: {}", why(cause.as_ref()))
            }
            Self::Peer(error) => error.fmt(f),
            Self::TimedOut => f.write_str("no relayed address in the time that was given"),
        }
    }
}

impl Error for ConnectError {
    fn source(&self) -> Option<&(dyn Error + 'static)> {
        match self {
            Self::Settings(error) => Some(error),
            Self::Unreachable(error) => Some(error),
            Self::Peer(error) => Some(error),
            _ => None,
        }
    }
}

impl From<AllocateError> for ConnectError {
    fn from(error: AllocateError) -> Self {
        Self::Settings(error)
    }
}

impl From<ConnectError> for io::Error {
    fn from(error: ConnectError) -> Self {
        let kind = match &error {
            ConnectError::NotTurn
            | ConnectError::AllocationTransport
            | ConnectError::Settings(_) => ErrorKind::InvalidInput,
            ConnectError::WantsTls => ErrorKind::Unsupported,
            ConnectError::Unreachable(error) => error.kind(),
            ConnectError::Rejected { .. } => ErrorKind::ConnectionRefused,
            ConnectError::Peer(error) => error.kind(),
            ConnectError::TimedOut => ErrorKind::TimedOut,
        };
        io::Error::new(kind, error)
    }
}

/// Why a call of a socket over a TURN server fails.
#[derive(Debug)]
#[non_exhaustive]
pub enum SocketError {
    /// The relayed address is gone, and the socket is over: the server didn't renew it, closed the
    /// connection, or memory ran out.
    Lost {
        /// Why; `None` if the connection is closed or memory ran out.
        cause: Option<TurnCause>,
    },
    /// There is no permission for the peer, or no connection to it: it was rejected, or not
    /// renewed. The socket goes on.
    PeerRefused {
        /// The peer's address.
        peer: IpAddr,
        /// Why; `None` if there is no relayed address of that family.
        cause: Option<TurnCause>,
    },
    /// The server passed on an ICMP report about what was sent to the peer (RFC 8656, section
    /// 11.6). The socket goes on.
    PeerUnreachable {
        /// The peer.
        peer: SocketAddr,
        /// The report's type.
        icmp_type: u8,
        /// The report's code.
        icmp_code: u8,
        /// The report's data.
        icmp_data: u32,
    },
    /// The time of [`set_read_timeout`](crate::TurnSocket::set_read_timeout) is over, or the server
    /// didn't confirm the end of the allocation in time.
    TimedOut,
    /// The data has more than [`PAYLOAD_MAX`](crate::PAYLOAD_MAX) bytes. Nothing was sent.
    TooLarge,
    /// There is no address, or more than [`PERMIT_MAX`](crate::PERMIT_MAX) different ones, or they
    /// are of two families. Nothing was requested.
    InvalidAddresses,
    /// There was no memory for the message. Nothing was sent, and the call may be made again.
    NoMemory,
    /// The socket was closed.
    Closed,
    /// The system refuses a call of the connection to the server. The socket goes on.
    Io(io::Error),
}

impl SocketError {
    /// Returns why the server ended or refused something.
    pub fn cause(&self) -> Option<&TurnCause> {
        match self {
            Self::Lost { cause } | Self::PeerRefused { cause, .. } => cause.as_ref(),
            _ => None,
        }
    }

    /// Returns the kind that it has as an [`io::Error`].
    pub fn kind(&self) -> ErrorKind {
        match self {
            Self::Lost { .. } => ErrorKind::ConnectionAborted,
            Self::PeerRefused { .. } => ErrorKind::PermissionDenied,
            Self::PeerUnreachable { .. } => ErrorKind::ConnectionRefused,
            Self::TimedOut => ErrorKind::TimedOut,
            Self::TooLarge | Self::InvalidAddresses => ErrorKind::InvalidInput,
            Self::NoMemory => ErrorKind::OutOfMemory,
            Self::Closed => ErrorKind::NotConnected,
            Self::Io(error) => error.kind(),
        }
    }
}

impl fmt::Display for SocketError {
    fn fmt(&self, f: &mut fmt::Formatter<'_>) -> fmt::Result {
        match self {
            Self::Lost { cause: None } => {
                f.write_str("the relayed address is gone: the connection to the server is closed")
            }
            Self::Lost { cause } => {
                write!(f, "the relayed address is gone: {}", why(cause.as_ref()))
            }
            Self::PeerRefused { peer, cause: None } => {
                write!(f, "no relayed address serves {peer}")
            }
            Self::PeerRefused { peer, cause } => {
                write!(f, "no permission for {peer}: {}", why(cause.as_ref()))
            }
            Self::PeerUnreachable {
                peer,
                icmp_type,
                icmp_code,
                ..
            } => write!(
                f,
                "ICMP type {icmp_type} code {icmp_code} on the way to {peer}"
            ),
            Self::TimedOut => f.write_str("the time is over"),
            Self::TooLarge => write!(f, "more than {} bytes", crate::PAYLOAD_MAX),
            Self::InvalidAddresses => write!(
                f,
                "there is no address, or more than {} different ones, or they are of two families",
                crate::PERMIT_MAX
            ),
            Self::NoMemory => f.write_str("there is no memory for the message"),
            Self::Closed => f.write_str("the socket was closed"),
            Self::Io(error) => error.fmt(f),
        }
    }
}

impl Error for SocketError {
    fn source(&self) -> Option<&(dyn Error + 'static)> {
        match self {
            Self::Io(error) => Some(error),
            _ => None,
        }
    }
}

impl From<SocketError> for io::Error {
    fn from(error: SocketError) -> Self {
        match error {
            SocketError::Io(error) => error,
            error => io::Error::new(error.kind(), error),
        }
    }
}
