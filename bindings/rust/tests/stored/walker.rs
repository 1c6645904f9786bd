//! Makes the calls of an exchange by the crate, and tells what each answered by the names of
//! `turn_client.h`.

use std::borrow::Cow;
use std::fmt::{Debug, Display};
use std::net::{IpAddr, SocketAddr};
use std::time::Duration;

use turn_client::{
    AddressFamily, AllocationExpired, BindChannelError, Feature, IntegrityAlgorithm, RelayedPort,
    Transmit, TransportType, TurnCause, TurnClientApi, TurnClientTcp, TurnClientUdp, TurnConfig,
    TurnCredentials, TurnEvent, TurnPeerData, TurnPollRet, TurnRecvRet,
};

use super::{Exchange, Part, Step, Told, PASSWORD, SEED, TOLD, USER};

const IPV4: u32 = 1;
const IPV6: u32 = 2;
const SHA1: u32 = 1;
const SHA256: u32 = 2;
const SHA512: u32 = 4;
const ANY_ADDRESS: &str = "0.0.0.0:0";

// ---- how things are written

/// A text that is kept for the rest of the test.
fn kept(shown: impl Display) -> &'static str {
    shown.to_string().leak()
}

pub fn address(text: &str) -> SocketAddr {
    text.parse()
        .unwrap_or_else(|_| panic!("no address: {text:?}"))
}

/// The IP addresses of peers: of each its family, and its octets.
fn peers(mut bytes: &[u8]) -> Vec<IpAddr> {
    let mut all = Vec::new();
    while let Some((family, rest)) = bytes.split_first() {
        let (octets, others) = rest.split_at(if *family == 6 { 16 } else { 4 });
        all.push(match <[u8; 4]>::try_from(octets) {
            Ok(v4) => IpAddr::from(v4),
            Err(_) => IpAddr::from(<[u8; 16]>::try_from(octets).unwrap()),
        });
        bytes = others;
    }
    all
}

pub fn transport(text: &str) -> TransportType {
    match text {
        "udp" => TransportType::Udp,
        "tcp" => TransportType::Tcp,
        _ => panic!("no transport: {text:?}"),
    }
}

fn shown(transport: TransportType) -> &'static str {
    match transport {
        TransportType::Udp => "udp",
        TransportType::Tcp => "tcp",
    }
}

fn answer(answer: &'static str) -> Told {
    Told { answer, ..TOLD }
}

/// A refusal by the header's name for it.
fn refused(error: impl Debug) -> Told {
    answer(match format!("{error:?}").as_str() {
        "NoAllocation" => "TURN_NO_ALLOCATION",
        "AlreadyExists" => "TURN_ALREADY_EXISTS",
        "NoPermission" => "TURN_NO_PERMISSION",
        "NoTcpSocket" => "TURN_NO_SOCKET",
        "TooLarge" => "TURN_TOO_LARGE",
        "InvalidAddresses" => "TURN_BAD_ADDRESSES",
        other => panic!("an unexpected refusal: {other}"),
    })
}

fn done<E: Debug>(outcome: Result<(), E>) -> Told {
    outcome.map_or_else(refused, |()| answer("TURN_OK"))
}

/// One of those that a getter shows, with how many there are.
fn held<T>(all: Vec<T>, which: u32, tell: impl Fn(&T) -> Told) -> Told {
    let told = all.get(which as usize).map_or(TOLD, tell);
    Told {
        answer: kept(all.len()),
        ..told
    }
}

// ---- settings

fn config(exchange: &Exchange) -> TurnConfig {
    let mut config = TurnConfig::new(TurnCredentials::new(USER, PASSWORD));
    config.set_allocation_transport(transport(exchange.peers));
    match exchange.families {
        IPV4 => {}
        IPV6 => config.set_address_family(AddressFamily::IPV6),
        _ => config.add_address_family(AddressFamily::IPV6),
    }
    let all = [
        (SHA1, IntegrityAlgorithm::Sha1),
        (SHA256, IntegrityAlgorithm::Sha256),
        (SHA512, IntegrityAlgorithm::Sha512),
    ];
    let supported = all.iter().filter(|(bit, _)| exchange.integrity & bit != 0);
    for (place, (_, algorithm)) in supported.enumerate() {
        match place {
            0 => config.set_supported_integrity(*algorithm),
            _ => config.add_supported_integrity(*algorithm),
        }
    }
    match exchange.anonymous {
        "TURN_ANONYMOUS_REQUIRED" => config.set_anonymous_username(Feature::Required),
        "TURN_ANONYMOUS_DISABLED" => config.set_anonymous_username(Feature::Disabled),
        _ => {}
    }
    if exchange.sends > 0 {
        let [first, most, last] = [exchange.first_wait, exchange.most_wait, exchange.last_wait]
            .map(Duration::from_millis);
        config.set_request_retransmits(first, most, exchange.sends, last);
    }
    config.set_short_lifetimes(exchange.ignore_short_lifetimes == 0);
    config.set_attempt_indications(exchange.attempt_indications == 1);
    config.set_requested_lifetime(exchange.lifetime);
    config.set_pace(match exchange.pace {
        0 => Duration::from_millis(50),
        u32::MAX => Duration::ZERO,
        millis => Duration::from_millis(millis.into()),
    });
    config.set_relayed_port(match exchange.port {
        "TURN_PORT_EVEN" => RelayedPort::Even,
        "TURN_PORT_EVEN_AND_NEXT" => RelayedPort::EvenAndNextReserved,
        "TURN_PORT_RESERVED" => RelayedPort::Reserved(exchange.reservation),
        _ => RelayedPort::Any,
    });
    config
}

/// A client with the settings of an exchange.
pub fn open(exchange: &Exchange) -> Box<dyn TurnClientApi> {
    let (local, server, config) = (
        address(exchange.local),
        address(exchange.server),
        config(exchange),
    );
    match transport(exchange.transport) {
        TransportType::Udp => {
            Box::new(TurnClientUdp::allocate(local, server, config, SEED).unwrap())
        }
        TransportType::Tcp => {
            Box::new(TurnClientTcp::allocate(local, server, config, SEED).unwrap())
        }
    }
}

// ---- what is told

fn tell_message(sent: Transmit<&[u8]>) -> Told {
    Told {
        answer: "TURN_OK",
        transport: shown(sent.transport),
        from: kept(sent.from),
        to: kept(sent.to),
        bytes: sent.data.to_vec().leak(),
        size: sent.data.len(),
        ..TOLD
    }
}

fn tell_expired(it: AllocationExpired) -> Told {
    Told {
        answer: "TURN_OK",
        transport: shown(it.transport),
        peer: kept(it.relayed),
        ..TOLD
    }
}

fn tell_event(event: TurnEvent) -> Told {
    let (kind, transport, peer) = match event {
        TurnEvent::AllocationCreated(by, it) => {
            ("TURN_ALLOCATION_CREATED", shown(by), it.to_string())
        }
        TurnEvent::AllocationCreateFailed(AddressFamily::IPV4) => {
            ("TURN_ALLOCATION_FAILED", "", ANY_ADDRESS.to_string())
        }
        TurnEvent::AllocationCreateFailed(AddressFamily::IPV6) => panic!("no exchange has this"),
        TurnEvent::PermissionCreated(by, it) => ("TURN_PERMISSION_CREATED", shown(by), host(it)),
        TurnEvent::PermissionCreateFailed(by, it) => {
            ("TURN_PERMISSION_FAILED", shown(by), host(it))
        }
        TurnEvent::ChannelCreated(by, it) => ("TURN_CHANNEL_CREATED", shown(by), it.to_string()),
        TurnEvent::ChannelCreateFailed(by, it) => {
            ("TURN_CHANNEL_FAILED", shown(by), it.to_string())
        }
        TurnEvent::TcpConnected(it) => ("TURN_TCP_CONNECTED", "tcp", it.to_string()),
        TurnEvent::TcpConnectFailed(it) => ("TURN_TCP_FAILED", "tcp", it.to_string()),
    };
    let peer = kept(peer);
    Told {
        answer: "TURN_OK",
        kind,
        transport,
        peer,
        ..TOLD
    }
}

/// A cause, with its code and whether its response was signed.
fn tell_cause(cause: Option<&TurnCause>) -> Told {
    let kind = match cause {
        None => "TURN_CAUSE_NONE",
        Some(TurnCause::Rejected { .. }) => "TURN_REJECTED",
        Some(TurnCause::Unanswered) => "TURN_UNANSWERED",
        Some(TurnCause::Integrity) => "TURN_INTEGRITY",
        Some(TurnCause::NoCommonAlgorithm) => "TURN_NO_ALGORITHM",
        Some(TurnCause::OtherFamily) => "TURN_OTHER_FAMILY",
        Some(TurnCause::Deleted) => "TURN_DELETED",
        Some(TurnCause::Expired) => "TURN_EXPIRED",
        Some(TurnCause::Unusable) => "TURN_UNUSABLE",
        other => panic!("no exchange has this: {other:?}"),
    };
    let (code, is_signed, size) = match cause {
        Some(TurnCause::Rejected {
            code,
            reason,
            is_signed,
        }) => ((*code).into(), *is_signed, reason.len()),
        _ => (0, false, 0),
    };
    Told {
        answer: "TURN_OK",
        kind,
        code,
        is_signed,
        size,
        ..TOLD
    }
}

/// A text that is copied, if there is one.
fn tell_text(text: Option<String>) -> Told {
    text.map_or(answer("TURN_NOTHING"), |text| Told {
        answer: "TURN_OK",
        size: text.len(),
        bytes: text.into_bytes().leak(),
        ..TOLD
    })
}

/// An address without a port, as the header has it.
fn host(ip: std::net::IpAddr) -> String {
    SocketAddr::new(ip, 0).to_string()
}

fn tell_poll(answer: TurnPollRet) -> Told {
    match answer {
        TurnPollRet::WaitUntil(moment) => {
            let until = moment.as_nanos().try_into().unwrap();
            Told {
                answer: "TURN_OK",
                until,
                ..TOLD
            }
        }
        TurnPollRet::AllocateTcpSocket {
            id,
            socket,
            peer_addr,
        } => Told {
            answer: "TURN_OPEN_SOCKET",
            number: id,
            transport: shown(socket.transport),
            from: kept(socket.from),
            to: kept(socket.to),
            peer: kept(peer_addr),
            ..TOLD
        },
        TurnPollRet::TcpClose {
            local_addr,
            remote_addr,
        } => {
            let (from, to) = (kept(local_addr), kept(remote_addr));
            Told {
                answer: "TURN_CLOSE_SOCKET",
                from,
                to,
                ..TOLD
            }
        }
        TurnPollRet::Closed => Told {
            answer: "TURN_CLOSED",
            ..TOLD
        },
    }
}

// ---- calls

/// A client that walks an exchange.
pub struct Walker {
    exchange: &'static Exchange,
    client: Option<Box<dyn TurnClientApi>>,
    /// Data that didn't stand in what came: a later step reads it.
    joined: Vec<u8>,
}

impl Walker {
    pub fn new(exchange: &'static Exchange) -> Self {
        let (client, joined) = (None, Vec::new());
        Self {
            exchange,
            client,
            joined,
        }
    }

    pub fn client(&mut self) -> &mut dyn TurnClientApi {
        self.client.as_deref_mut().expect("the client is open")
    }

    /// Data of a peer: whether it stands in what came, and where.
    fn tell_data(&mut self, given: TurnPeerData, came: &[u8]) -> Told {
        let (transport, peer) = (shown(given.transport), kept(given.peer));
        let size = given.data().len();
        let told = Told {
            answer: "TURN_PAYLOAD",
            transport,
            peer,
            size,
            ..TOLD
        };
        match given.into_data() {
            Cow::Borrowed(data) => {
                let start = data.as_ptr() as usize - came.as_ptr() as usize;
                assert_eq!(&came[start..start + size], data);
                Told {
                    start,
                    bytes: data.to_vec().leak(),
                    ..told
                }
            }
            Cow::Owned(data) => {
                self.joined = data;
                Told {
                    is_joined: true,
                    ..told
                }
            }
        }
    }

    fn feed(&mut self, step: &Step, now: Duration) -> Told {
        let by = transport(self.exchange.transport);
        let came = Transmit::new(step.bytes, by, address(step.from), address(step.to));
        match self.client().recv(came, now).unwrap() {
            TurnRecvRet::Handled => answer("TURN_OK"),
            TurnRecvRet::Ignored(given_back) => {
                assert_eq!(given_back, came);
                answer("TURN_IGNORED")
            }
            TurnRecvRet::PeerData(given) => self.tell_data(given, step.bytes),
            TurnRecvRet::PeerIcmp {
                transport,
                peer,
                icmp_type,
                icmp_code,
                icmp_data,
            } => Told {
                answer: "TURN_ICMP",
                transport: shown(transport),
                peer: kept(peer),
                icmp_type,
                icmp_code,
                number: icmp_data,
                ..TOLD
            },
        }
    }

    fn pull(&mut self, now: Duration) -> Told {
        match self.client().poll_recv(now).unwrap() {
            Some(given) => self.tell_data(given, &[]),
            None => answer("TURN_NOTHING"),
        }
    }

    fn read(&mut self) -> Told {
        let bytes: &[u8] = std::mem::take(&mut self.joined).leak();
        match bytes.len() {
            0 => answer("TURN_NOTHING"),
            size => Told {
                answer: "TURN_OK",
                bytes,
                size,
                ..TOLD
            },
        }
    }

    fn bind(&mut self, step: &Step, now: Duration) -> Told {
        match self
            .client()
            .bind_channel(transport(step.transport), address(step.to), now)
        {
            Err(BindChannelError::ExpiredChannelExists(moment)) => {
                let until = moment.as_nanos().try_into().unwrap();
                Told {
                    answer: "TURN_EXPIRED_CHANNEL",
                    until,
                    ..TOLD
                }
            }
            outcome => done(outcome),
        }
    }

    /// What the client notes of the event that was taken last, and of the server's addresses.
    fn note(&mut self, step: &Step) -> Told {
        let client = self.client();
        let (cause, domain) = (client.cause(), client.alternate_domain());
        match step.call {
            "cause" => Told {
                peer: client.alternate_server().map_or("", kept),
                domain_size: domain.map_or(0, |it| it.len()),
                ..tell_cause(cause.as_ref())
            },
            "reason" => match cause {
                Some(TurnCause::Rejected { reason, .. }) => tell_text(Some(reason)),
                _ => tell_text(None),
            },
            "domain" => tell_text(domain),
            "reservation" => client
                .reservation_token()
                .map_or(answer("TURN_NOTHING"), |token| Told {
                    answer: "TURN_OK",
                    until: token,
                    ..TOLD
                }),
            _ => client
                .mapped_address()
                .map_or(answer("TURN_NOTHING"), |it| Told {
                    answer: "TURN_OK",
                    peer: kept(it),
                    ..TOLD
                }),
        }
    }

    /// How the client introduces itself in its requests.
    fn introduce(&mut self, step: &Step) -> Told {
        let text = |bytes| std::str::from_utf8(bytes).expect("a text");
        let client = self.client();
        match step.call {
            "credentials" => {
                let credentials = TurnCredentials::new(text(step.bytes), text(step.password));
                done(client.set_credentials(&credentials))
            }
            "software" => done(client.set_software(text(step.bytes))),
            _ => {
                client.set_fingerprint(step.number != 0);
                answer("TURN_OK")
            }
        }
    }

    fn get(&mut self, step: &Step) -> Told {
        let (which, client) = (step.number, self.client());
        match step.call {
            "relayed" => held(client.relayed_addresses(), which, |(by, it)| Told {
                transport: shown(*by),
                peer: kept(it),
                ..TOLD
            }),
            "permissions" => {
                let all = client.permissions(transport(step.transport), address(step.to));
                held(all, which, |it| Told {
                    peer: kept(host(*it)),
                    ..TOLD
                })
            }
            "is_permitted" => {
                let is_permitted =
                    client.have_permission(transport(step.transport), address(step.to).ip());
                answer(if is_permitted { "1" } else { "0" })
            }
            "channels" => held(client.channels(), which, |it| Told {
                number: it.number.into(),
                peer: kept(it.peer_addr),
                ..TOLD
            }),
            "connections" => held(client.connections(), which, |it| {
                let (from, peer) = (kept(it.local_addr), kept(it.peer_addr));
                Told {
                    number: it.id,
                    from,
                    peer,
                    is_bound: it.is_bound,
                    ..TOLD
                }
            }),
            call => panic!("no call: {call}"),
        }
    }

    /// What is asked for, and what the program did.
    fn ask(&mut self, step: &Step, now: Duration) -> Told {
        let by = || transport(step.transport);
        match step.call {
            "delete" => done(self.client().delete(now)),
            "permit" => done(
                self.client()
                    .create_permission(by(), address(step.to).ip(), now),
            ),
            "permit_several" => done(self.client().create_permissions(
                by(),
                &peers(step.bytes),
                now,
            )),
            "bind" => self.bind(step, now),
            "connect" => done(self.client().tcp_connect(address(step.to), now)),
            "socket" => {
                let local = (!step.from.is_empty()).then(|| address(step.from));
                done(
                    self.client()
                        .allocated_tcp_socket(step.number, address(step.to), local, now),
                )
            }
            "closed" => done(
                self.client()
                    .tcp_closed(address(step.from), address(step.to), now),
            ),
            _ => self.get(step),
        }
    }

    /// Makes the call of a step: what it told.
    pub fn call(&mut self, step: &Step) -> Told {
        let now = Duration::from_nanos(step.now);
        match step.call {
            "open" => {
                self.client = Some(open(self.exchange));
                answer("TURN_OK")
            }
            "close" => {
                self.client = None;
                answer("TURN_OK")
            }
            "feed" => self.feed(step, now),
            "pull" => self.pull(now),
            "read" => self.read(),
            "draw" => self
                .client()
                .poll_transmit(now)
                .unwrap()
                .map_or(answer("TURN_NOTHING"), tell_message),
            "send" => {
                let sent = self.client().send_to(
                    transport(step.transport),
                    address(step.to),
                    step.bytes,
                    now,
                );
                sent.map_or_else(refused, tell_message)
            }
            "poll" => tell_poll(self.client().poll(now).unwrap()),
            "event" => self
                .client()
                .poll_event()
                .map_or(answer("TURN_NOTHING"), tell_event),
            "expired" => self
                .client()
                .poll_expired()
                .map_or(answer("TURN_NOTHING"), tell_expired),
            "cause" | "reason" | "domain" | "mapped" | "reservation" => self.note(step),
            "credentials" | "software" | "fingerprint" => self.introduce(step),
            _ => self.ask(step, now),
        }
    }

    /// Walks steps: what each tells is what is wanted.
    pub fn walk(&mut self, (title, steps): &Part) {
        for (i, step) in steps.iter().enumerate() {
            let told = self.call(step);
            assert_eq!(
                told, step.want,
                "{title}, step {i}: {} {}",
                step.call, step.name
            );
        }
    }

    /// Walks the first parts of an exchange.
    pub fn walked(exchange: &'static Exchange, parts: usize) -> Self {
        let mut walker = Self::new(exchange);
        exchange.parts[..parts]
            .iter()
            .for_each(|part| walker.walk(part));
        walker
    }
}
