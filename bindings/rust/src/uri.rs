//! URIs of TURN servers (RFC 7065) and STUN servers (RFC 7064).

use std::error::Error;
use std::fmt;
use std::io;
use std::net::{Ipv4Addr, Ipv6Addr, SocketAddr, ToSocketAddrs};
use std::str::FromStr;
use std::vec::IntoIter;

use crate::api::TransportType;

/// The port of a server over UDP or TCP, if a URI has none (RFC 8656, section 18).
pub const DEFAULT_PORT: u16 = 3478;

/// The port of a server over TLS or DTLS, if a URI has none (RFC 8656, section 18).
pub const DEFAULT_TLS_PORT: u16 = 5349;

/// Bytes of a name without a dot at its end, and of one of its labels (RFC 1035, section 2.3.4).
const HOST_MAX: usize = 253;
const LABEL_MAX: usize = 63;

/// The scheme of a URI.
#[derive(Clone, Copy, Debug, PartialEq, Eq, Hash)]
pub enum UriScheme {
    /// `turn`: a TURN server over UDP or TCP.
    Turn,
    /// `turns`: a TURN server over TLS or DTLS.
    Turns,
    /// `stun`: a STUN server over UDP or TCP.
    Stun,
    /// `stuns`: a STUN server over TLS or DTLS.
    Stuns,
}

const SCHEMES: [UriScheme; 4] = [
    UriScheme::Turn,
    UriScheme::Turns,
    UriScheme::Stun,
    UriScheme::Stuns,
];

impl UriScheme {
    /// Returns the scheme as it is written.
    pub fn as_str(self) -> &'static str {
        match self {
            Self::Turn => "turn",
            Self::Turns => "turns",
            Self::Stun => "stun",
            Self::Stuns => "stuns",
        }
    }

    /// Returns whether the server is reached over TLS or DTLS.
    pub fn is_secure(self) -> bool {
        matches!(self, Self::Turns | Self::Stuns)
    }

    /// Returns whether the server is a TURN server.
    pub fn is_turn(self) -> bool {
        matches!(self, Self::Turn | Self::Turns)
    }
}

impl fmt::Display for UriScheme {
    fn fmt(&self, f: &mut fmt::Formatter<'_>) -> fmt::Result {
        f.write_str(self.as_str())
    }
}

/// The URI of a TURN server (`turn:`, `turns:`, RFC 7065) or a STUN server (`stun:`, `stuns:`, RFC
/// 7064).
///
/// `FromStr` parses one, `Display` writes it back, and [`ToSocketAddrs`] resolves its host by the
/// system. There is no look-up of SRV or NAPTR records (RFC 5928).
///
/// ```
/// use turn_client::{TransportType, TurnUri, UriScheme};
///
/// let uri: TurnUri = "turns:turn.example.org?transport=tcp".parse()?;
/// assert_eq!(uri.scheme(), UriScheme::Turns);
/// assert_eq!((uri.host(), uri.port()), ("turn.example.org", 5349));
/// assert_eq!(uri.transport(), TransportType::Tcp);
/// # Ok::<(), turn_client::UriError>(())
/// ```
#[derive(Clone, Debug, PartialEq, Eq, Hash)]
pub struct TurnUri {
    scheme: UriScheme,
    /// A name, an IPv4 address, or an IPv6 address without brackets.
    host: String,
    port: Option<u16>,
    transport: Option<TransportType>,
}

impl TurnUri {
    /// Returns the scheme.
    pub fn scheme(&self) -> UriScheme {
        self.scheme
    }

    /// Returns the host: a name or an IP address. An IPv6 address has no brackets here.
    pub fn host(&self) -> &str {
        &self.host
    }

    /// Returns the port: [`DEFAULT_PORT`], or over TLS or DTLS [`DEFAULT_TLS_PORT`], if the URI has
    /// none.
    pub fn port(&self) -> u16 {
        let default = if self.scheme.is_secure() {
            DEFAULT_TLS_PORT
        } else {
            DEFAULT_PORT
        };
        self.port.unwrap_or(default)
    }

    /// Returns the port that the URI has.
    pub fn explicit_port(&self) -> Option<u16> {
        self.port
    }

    /// Returns the transport to the server, below TLS or DTLS if that is used. If the URI has none
    /// it is UDP, or TCP with `turns` and `stuns`.
    pub fn transport(&self) -> TransportType {
        let default = if self.scheme.is_secure() {
            TransportType::Tcp
        } else {
            TransportType::Udp
        };
        self.transport.unwrap_or(default)
    }

    /// Returns the transport that the URI has.
    pub fn explicit_transport(&self) -> Option<TransportType> {
        self.transport
    }
}

impl fmt::Display for TurnUri {
    fn fmt(&self, f: &mut fmt::Formatter<'_>) -> fmt::Result {
        write!(f, "{}:", self.scheme)?;
        if self.host.contains(':') {
            write!(f, "[{}]", self.host)?;
        } else {
            f.write_str(&self.host)?;
        }
        if let Some(port) = self.port {
            write!(f, ":{port}")?;
        }
        match self.transport {
            None => Ok(()),
            Some(TransportType::Udp) => f.write_str("?transport=udp"),
            Some(TransportType::Tcp) => f.write_str("?transport=tcp"),
        }
    }
}

impl ToSocketAddrs for TurnUri {
    type Iter = IntoIter<SocketAddr>;

    fn to_socket_addrs(&self) -> io::Result<Self::Iter> {
        (self.host.as_str(), self.port()).to_socket_addrs()
    }
}

/// Why a text is no URI of a server.
#[derive(Clone, Debug, PartialEq, Eq)]
#[non_exhaustive]
pub enum UriError {
    /// It doesn't begin with `turn:`, `turns:`, `stun:` or `stuns:`.
    Scheme,
    /// It has `//` after the scheme, which these URIs don't have.
    Slashes,
    /// It has a user before the host (`@`), which these URIs don't have.
    UserInfo,
    /// It has no host.
    EmptyHost,
    /// The host is no name and no IPv4 address. Names are in ASCII and not percent-encoded, have at
    /// most 253 bytes in labels of 1 to 63, and their last label is no number: 127.1 isn't taken
    /// for 127.0.0.1.
    Host,
    /// What is in brackets is no IPv6 address, or a bracket is missing. An address has no zone.
    Ipv6Address,
    /// The port is no number from 1 to 65535.
    Port,
    /// A query other than `?transport=`, or a query of a STUN server.
    Query,
    /// The transport is neither `udp` nor `tcp`.
    Transport(String),
}

impl fmt::Display for UriError {
    fn fmt(&self, f: &mut fmt::Formatter<'_>) -> fmt::Result {
        f.write_str(match self {
            Self::Scheme => "the scheme is none of turn, turns, stun and stuns",
            Self::Slashes => "there is no // in these URIs",
            Self::UserInfo => "there is no user in these URIs",
            Self::EmptyHost => "there is no host",
            Self::Host => "the host is no name and no IP address",
            Self::Ipv6Address => "what is in brackets is no IPv6 address",
            Self::Port => "the port is no number from 1 to 65535",
            Self::Query => "the query is no transport, or the server is a STUN server",
            Self::Transport(name) => {
                return write!(f, "the transport {name:?} is neither udp nor tcp")
            }
        })
    }
}

impl Error for UriError {}

impl FromStr for TurnUri {
    type Err = UriError;

    /// Parses a URI by RFC 7065, section 3.1, or RFC 7064, section 3.1. Scheme and transport may be
    /// in upper case. An empty port is none, as in RFC 3986. A dot at the end of a name is left out.
    fn from_str(text: &str) -> Result<Self, UriError> {
        let (scheme, rest) = text.split_once(':').ok_or(UriError::Scheme)?;
        let scheme = SCHEMES
            .into_iter()
            .find(|it| it.as_str().eq_ignore_ascii_case(scheme))
            .ok_or(UriError::Scheme)?;
        if rest.starts_with("//") {
            return Err(UriError::Slashes);
        }
        let (authority, query) = match rest.split_once('?') {
            Some((authority, query)) => (authority, Some(query)),
            None => (rest, None),
        };
        let (host, port) = host_and_port(authority)?;
        let port = port.map(parse_port).transpose()?.flatten();
        let transport = query.map(|it| parse_query(scheme, it)).transpose()?;
        Ok(Self {
            scheme,
            host,
            port,
            transport,
        })
    }
}

/// The host, and what stands after its colon.
fn host_and_port(authority: &str) -> Result<(String, Option<&str>), UriError> {
    if authority.contains('@') {
        return Err(UriError::UserInfo);
    }
    if let Some(literal) = authority.strip_prefix('[') {
        let (address, behind) = literal.split_once(']').ok_or(UriError::Ipv6Address)?;
        let address: Ipv6Addr = address.parse().map_err(|_| UriError::Ipv6Address)?;
        return match behind.strip_prefix(':') {
            Some(port) => Ok((address.to_string(), Some(port))),
            None if behind.is_empty() => Ok((address.to_string(), None)),
            None => Err(UriError::Ipv6Address),
        };
    }
    let (host, port) = match authority.split_once(':') {
        Some((host, port)) => (host, Some(port)),
        None => (authority, None),
    };
    if host.is_empty() {
        return Err(UriError::EmptyHost);
    }
    let host = host.strip_suffix('.').unwrap_or(host);
    if host.parse::<Ipv4Addr>().is_err() && !is_name(host) {
        return Err(UriError::Host);
    }
    Ok((host.to_string(), port))
}

/// Whether a text is a name. A system's resolver may take one whose last label is a number for an
/// address.
fn is_name(text: &str) -> bool {
    let is_of_name = |it: u8| it.is_ascii_alphanumeric() || b"-_".contains(&it);
    let is_label = |it: &str| (1..=LABEL_MAX).contains(&it.len()) && it.bytes().all(is_of_name);
    let is_number = |it: &str| match it.strip_prefix("0x").or(it.strip_prefix("0X")) {
        Some(digits) => digits.bytes().all(|it| it.is_ascii_hexdigit()),
        None => it.bytes().all(|it| it.is_ascii_digit()),
    };
    let last = text.rsplit('.').next().unwrap_or_default();
    text.len() <= HOST_MAX && text.split('.').all(is_label) && !is_number(last)
}

/// A port; `None` for an empty text.
fn parse_port(text: &str) -> Result<Option<u16>, UriError> {
    if text.is_empty() {
        return Ok(None);
    }
    if !text.bytes().all(|it| it.is_ascii_digit()) {
        return Err(UriError::Port);
    }
    match text.parse() {
        Ok(0) | Err(_) => Err(UriError::Port),
        Ok(port) => Ok(Some(port)),
    }
}

/// The transport that a query has.
fn parse_query(scheme: UriScheme, query: &str) -> Result<TransportType, UriError> {
    let (key, value) = query.split_once('=').ok_or(UriError::Query)?;
    if !scheme.is_turn() || !key.eq_ignore_ascii_case("transport") {
        return Err(UriError::Query);
    }
    match value.to_ascii_lowercase().as_str() {
        "udp" => Ok(TransportType::Udp),
        "tcp" => Ok(TransportType::Tcp),
        _ => Err(UriError::Transport(value.to_string())),
    }
}
