//! What the stored exchanges don't show: refusals to open, data that outlives calls, and long data.

mod stored;

use std::net::SocketAddr;
use std::time::Duration;

use stored::walker::{address, open, Walker};
use stored::{exchange, PASSWORD, SEED, USER};
use turn_client::{
    version, AllocateError, CredentialsError, IntegrityAlgorithm, SendError, SoftwareError,
    Transmit, TransportType, TurnCause, TurnClientApi, TurnClientTcp, TurnClientUdp, TurnConfig,
    TurnCredentials, TurnEvent, TurnRecvRet, NAME_MAX, PAYLOAD_MAX, SOFTWARE_MAX,
};

const LOCAL: &str = "192.0.2.1:5000";
const SERVER: &str = "192.0.2.2:3478";
/// The peer of the stored exchanges that has a channel, or a connection.
const PEER: &str = "198.51.100.1:9000";
const OTHER_PEER: &str = "198.51.100.2:9001";
/// So many parts of the exchange over UDP bind the channel, and of that of connections bind the
/// first of these.
const PARTS_UNTIL_CHANNEL: usize = 4;
const PARTS_UNTIL_CONNECTION: usize = 3;
/// A moment behind these.
const LATER: Duration = Duration::from_millis(900);
/// A channel frame before its data: 0x4000, and a length of 5 (RFC 8656, section 12.4).
const FRAME: &[u8] = b"\x40\x00\x00\x05hello";

fn allocate(user: &str, peers: TransportType) -> (Option<AllocateError>, Option<AllocateError>) {
    let mut config = TurnConfig::new(TurnCredentials::new(user, PASSWORD));
    config.set_allocation_transport(peers);
    let (local, server): (SocketAddr, SocketAddr) = (address(LOCAL), address(SERVER));
    let over_udp = TurnClientUdp::allocate(local, server, config.clone(), SEED).err();
    (
        over_udp,
        TurnClientTcp::allocate(local, server, config, SEED).err(),
    )
}

#[test]
fn a_long_name_is_refused() {
    let (longest, longer) = ("a".repeat(NAME_MAX), "a".repeat(NAME_MAX + 1));
    assert_eq!(NAME_MAX, 513);
    assert_eq!(allocate(&longest, TransportType::Udp), (None, None));
    let refusal = Some(AllocateError::LongName);
    assert_eq!(allocate(&longer, TransportType::Udp), (refusal, refusal));
}

#[test]
fn other_credentials_with_a_long_name_are_refused() {
    for name in ["over UDP", "over TCP"] {
        let mut client = open(exchange(name));
        let mut set = |size: usize| {
            client.set_credentials(&TurnCredentials::new(&"a".repeat(size), PASSWORD))
        };
        assert_eq!(set(NAME_MAX), Ok(()));
        assert_eq!(set(NAME_MAX + 1), Err(CredentialsError::LongName));
    }
}

/// A refused text leaves the one that was set before: the first request has it, behind its three
/// own attributes.
#[test]
fn a_long_text_of_software_is_refused() {
    let mut client = open(exchange("over UDP"));
    assert_eq!(SOFTWARE_MAX, 763);
    assert_eq!(client.set_software(&"a".repeat(SOFTWARE_MAX)), Ok(()));
    assert_eq!(
        client.set_software(&"a".repeat(SOFTWARE_MAX + 1)),
        Err(SoftwareError::TooLarge)
    );
    let sent = client.poll_transmit(Duration::ZERO).unwrap().unwrap();
    let software = [&[0x80, 0x22, 0x02, 0xfb][..], &[b'a'; SOFTWARE_MAX], &[0]].concat();
    assert!(sent.data.ends_with(&software));
}

#[test]
fn an_allocation_over_tcp_is_refused_over_udp() {
    assert_eq!(
        allocate(USER, TransportType::Tcp),
        (Some(AllocateError::BadTransport), None)
    );
}

#[test]
fn a_seed_of_zeros_is_refused() {
    let (local, server): (SocketAddr, SocketAddr) = (address(LOCAL), address(SERVER));
    let config = TurnConfig::new(TurnCredentials::new(USER, PASSWORD));
    let refusal = Some(AllocateError::ZeroSeed);
    assert_eq!(
        TurnClientUdp::allocate(local, server, config.clone(), [0; 32]).err(),
        refusal
    );
    assert_eq!(
        TurnClientTcp::allocate(local, server, config, [0; 32]).err(),
        refusal
    );
}

/// The first request of a client that draws its own seed, which has the transaction ID.
fn first_request() -> Vec<u8> {
    let config = TurnConfig::new(TurnCredentials::new(USER, PASSWORD));
    let mut client = TurnClientUdp::new(address(LOCAL), address(SERVER), config).unwrap();
    client
        .poll_transmit(Duration::ZERO)
        .unwrap()
        .unwrap()
        .data
        .to_vec()
}

/// Two responses came, and then the events of both are taken.
#[test]
fn each_event_comes_with_its_own_cause() {
    let exchange = exchange("what the server rejects");
    let mut walker = Walker::walked(exchange, 1);
    let (_, steps) = exchange.parts[1];
    for step in steps.iter().take_while(|it| it.call != "event") {
        walker.call(step);
    }
    let client = walker.client();
    for (peer, code, reason) in [
        (PEER, 403, "Forbidden"),
        (OTHER_PEER, 508, "Insufficient Capacity"),
    ] {
        let event = TurnEvent::PermissionCreateFailed(TransportType::Udp, address(peer).ip());
        let cause = TurnCause::Rejected {
            code,
            reason: reason.to_string(),
            is_signed: true,
        };
        assert_eq!(
            client.poll_event_with_cause(),
            Some((event, Some(cause.clone())))
        );
        assert_eq!(client.cause(), Some(cause));
    }
    assert_eq!(client.poll_event_with_cause(), None);
}

#[test]
fn a_client_draws_its_own_seed() {
    assert_ne!(first_request(), first_request());
}

#[test]
fn both_usual_algorithms_are_supported() {
    let config = TurnConfig::new(TurnCredentials::new(USER, PASSWORD));
    assert_eq!(
        config.supported_integrity(),
        [IntegrityAlgorithm::Sha1, IntegrityAlgorithm::Sha256]
    );
}

#[test]
fn the_archive_is_of_this_version() {
    let parts: Vec<u32> = env!("CARGO_PKG_VERSION")
        .split('.')
        .map(|it| it.parse().unwrap())
        .collect();
    assert_eq!(version(), parts[0] * 10_000 + parts[1] * 100 + parts[2]);
}

/// A frame that has data of a peer over UDP is not for the client over TCP.
#[test]
fn what_came_by_another_transport_is_ignored() {
    let mut walker = Walker::walked(exchange("over UDP"), PARTS_UNTIL_CHANNEL);
    let came = Transmit::new(FRAME, TransportType::Tcp, address(SERVER), address(LOCAL));
    assert_eq!(
        walker.client().recv(came, LATER),
        Ok(TurnRecvRet::Ignored(came))
    );
}

#[test]
fn a_client_tells_its_addresses() {
    for (name, by) in [
        ("over UDP", TransportType::Udp),
        ("over TCP", TransportType::Tcp),
    ] {
        let client = open(exchange(name));
        let told = (
            client.transport(),
            client.local_addr(),
            client.remote_addr(),
        );
        assert_eq!(told, (by, address(LOCAL), address(SERVER)));
    }
}

/// Data that stands in what came is borrowed of that, and not of the client, which may be called
/// and dropped.
#[test]
fn data_outlives_the_client() {
    let mut walker = Walker::walked(exchange("over UDP"), PARTS_UNTIL_CHANNEL);
    let came = Transmit::new(FRAME, TransportType::Udp, address(SERVER), address(LOCAL));
    let Ok(TurnRecvRet::PeerData(given)) = walker.client().recv(came, LATER) else {
        panic!("no data came");
    };
    walker.client().poll(LATER).unwrap();
    drop(walker);
    assert_eq!((given.data(), given.peer), (&b"hello"[..], address(PEER)));
    assert!(std::ptr::eq(given.data(), &FRAME[4..]));
}

fn send(walker: &mut Walker, by: TransportType, data: &[u8]) -> Result<Vec<u8>, SendError> {
    let sent = walker.client().send_to(by, address(PEER), data, LATER)?;
    Ok(sent.data.to_vec())
}

/// The longest data is sent behind the channel's number and its length, 65504.
#[test]
fn the_longest_data_goes_over_udp() {
    let mut walker = Walker::walked(exchange("over UDP"), PARTS_UNTIL_CHANNEL);
    let data = vec![7; PAYLOAD_MAX];
    let sent = send(&mut walker, TransportType::Udp, &data).unwrap();
    assert_eq!(sent, [b"\x40\x00\xff\xe0", data.as_slice()].concat());
    for size in [PAYLOAD_MAX + 1, 1 << 20] {
        assert_eq!(
            send(&mut walker, TransportType::Udp, &vec![7; size]),
            Err(SendError::TooLarge)
        );
    }
}

/// Over a connection bytes go as they are, and of any number.
#[test]
fn more_goes_over_a_connection() {
    let mut walker = Walker::walked(exchange("connections to peers"), PARTS_UNTIL_CONNECTION);
    for size in [0, 1, PAYLOAD_MAX + 1, 1 << 20] {
        let data = vec![7; size];
        assert_eq!(send(&mut walker, TransportType::Tcp, &data), Ok(data));
    }
}
