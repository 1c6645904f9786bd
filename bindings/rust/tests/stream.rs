//! `TurnStream` against a server of its own (`server/`): RFC 6062.

mod server;

use std::io::{ErrorKind, Read, Write};
use std::net::SocketAddr;
use std::thread;
use std::time::{Duration, Instant};

use server::{
    config, Server, ALLOCATE, CONNECT, CONNECTION_BIND, CREATE_PERMISSION, REFRESH, RELAYED,
};
use turn_client::driver::{ConnectOptions, CLOSE_PATIENCE};
use turn_client::{ConnectError, SocketError, TransportType, TurnCause, TurnStream};

const SOON: Duration = Duration::from_millis(300);
/// What a call that is not answered may take, on a machine that is busy.
const PATIENCE: Duration = Duration::from_secs(60);
const LARGE: usize = 1 << 20;

fn peer() -> SocketAddr {
    SocketAddr::from(([198, 51, 100, 1], 9000))
}

fn start() -> Server {
    Server::start(TransportType::Tcp)
}

fn connect(server: &Server) -> TurnStream {
    let stream = TurnStream::connect(&server.uri(), config(), peer()).unwrap();
    stream.set_read_timeout(Some(PATIENCE)).unwrap();
    stream
}

fn refusal(server: &Server) -> ConnectError {
    TurnStream::connect(&server.uri(), config(), peer()).unwrap_err()
}

fn is_rejected(cause: Option<&TurnCause>, wanted: u16) -> bool {
    matches!(cause, Some(TurnCause::Rejected { code, .. }) if *code == wanted)
}

#[test]
fn bytes_go_both_ways() {
    let mut server = start();
    let mut stream = connect(&server);
    assert_eq!(
        (stream.peer_addr(), stream.relayed_addr()),
        (peer(), RELAYED.parse().unwrap())
    );
    stream.write_all(b"hello").unwrap();
    let mut bytes = [0; 5];
    stream.read_exact(&mut bytes).unwrap();
    assert_eq!(&bytes, b"hello");
    for method in [CREATE_PERMISSION, CONNECT, CONNECTION_BIND] {
        assert_eq!(server.count(method), 1);
    }
    stream.close().unwrap();
    assert_eq!(server.tell("lifetimes"), "0");
}

/// What the peer sends at once may come with the response that binds the connection.
#[test]
fn first_bytes_of_the_peer_are_read() {
    for chunk in [0, 1, 7] {
        let mut server = start();
        server.does(&format!("chunk {chunk}"));
        server.does("greeting welcome");
        let mut stream = connect(&server);
        stream.write_all(b"!").unwrap();
        let mut bytes = [0; 8];
        let mut came = Vec::new();
        while came.len() < 8 {
            let size = stream.read(&mut bytes[..3]).unwrap();
            came.extend_from_slice(&bytes[..size]);
        }
        assert_eq!(came, b"welcome!");
    }
}

#[test]
fn one_thread_writes_while_another_reads() {
    let server = start();
    let stream = connect(&server);
    let sent: Vec<u8> = (0..LARGE).map(|it| (it % 251) as u8).collect();
    let mut came = vec![0; LARGE];
    thread::scope(|scope| {
        scope.spawn(|| (&stream).write_all(&sent).unwrap());
        (&stream).read_exact(&mut came).unwrap();
    });
    assert!(sent == came);
}

#[test]
fn a_read_has_a_timeout() {
    let server = start();
    let mut stream = connect(&server);
    stream.set_read_timeout(Some(SOON)).unwrap();
    let kind = stream.read(&mut [0]).unwrap_err().kind();
    assert!(
        matches!(kind, ErrorKind::WouldBlock | ErrorKind::TimedOut),
        "{kind:?}"
    );
}

#[test]
fn the_end_of_the_connection_is_read() {
    let mut server = start();
    let mut stream = connect(&server);
    server.does("hang up");
    assert_eq!(stream.read(&mut [0]).unwrap(), 0);
}

#[test]
fn a_dropped_stream_gives_its_address_back() {
    let mut server = start();
    drop(connect(&server));
    server.comes_to("lifetimes", "0");
}

#[test]
fn a_server_that_does_not_confirm_the_end_is_not_waited_for_long() {
    let mut server = start();
    let stream = connect(&server);
    server.does(&format!("silent {REFRESH}"));
    let began = Instant::now();
    stream.close().unwrap();
    assert!((CLOSE_PATIENCE..CLOSE_PATIENCE + PATIENCE).contains(&began.elapsed()));
}

#[test]
fn what_the_server_rejects_is_told_with_its_cause() {
    let mut server = start();
    server.does(&format!("rejects {ALLOCATE} 486"));
    let error = refusal(&server);
    assert!(
        matches!(error, ConnectError::Rejected { .. }) && is_rejected(error.cause(), 486),
        "{error:?}"
    );
    server.does(&format!("rejects {ALLOCATE} 0"));
    for (method, code) in [
        (CREATE_PERMISSION, 403),
        (CONNECT, 447),
        (CONNECTION_BIND, 447),
    ] {
        server.does(&format!("rejects {method} {code}"));
        let error = refusal(&server);
        let is_of_peer = match &error {
            ConnectError::Peer(SocketError::PeerRefused { peer: of, .. }) => *of == peer().ip(),
            _ => false,
        };
        assert!(
            is_of_peer && is_rejected(error.cause(), code),
            "{method}: {error:?}"
        );
        server.does(&format!("rejects {method} 0"));
    }
    server.comes_to("lifetimes", "0 0 0"); // each address was given back
}

#[test]
fn a_silent_server_is_given_up_in_time() {
    for method in [ALLOCATE, CONNECT, CONNECTION_BIND] {
        let mut server = start();
        server.does(&format!("silent {method}"));
        let began = Instant::now();
        let mut options = ConnectOptions::new();
        let made = options
            .timeout(SOON)
            .connect_stream(&server.uri(), config(), peer());
        assert!(matches!(made, Err(ConnectError::TimedOut)), "{made:?}");
        assert!((SOON..PATIENCE).contains(&began.elapsed()));
    }
}

#[test]
fn another_server_is_asked_only_if_told_so() {
    let (mut first, mut second) = (start(), start());
    first.does(&format!("elsewhere {}", second.address));
    let ConnectError::Rejected {
        alternate_server, ..
    } = refusal(&first)
    else {
        panic!("it isn't rejected");
    };
    assert_eq!(alternate_server, Some(second.address));
    let mut options = ConnectOptions::new();
    let stream = options
        .follow(1)
        .connect_stream(&first.uri(), config(), peer())
        .unwrap();
    assert_eq!(second.count(CONNECTION_BIND), 1);
    stream.close().unwrap();
}
