//! `TurnSocket` against a server of its own (`server/`), over UDP and TCP.

mod server;

use std::io::{self, ErrorKind};
use std::net::{IpAddr, SocketAddr, TcpStream, UdpSocket};
use std::thread;
use std::time::{Duration, Instant};

use server::{config, Server, ALLOCATE, CHANNEL_BIND, CREATE_PERMISSION, MAPPED, REFRESH, RELAYED};
use turn_client::driver::{
    ConnectOptions, Permission, SessionState, StreamConnection, TurnSession, INCOMING_MAX,
};
use turn_client::{
    AllocateError, ConnectError, SocketError, TransportType, TurnCause, TurnConfig,
    TurnCredentials, TurnSocket, PAYLOAD_MAX, PERMIT_MAX,
};

const BOTH: [TransportType; 2] = [TransportType::Udp, TransportType::Tcp];
const SOON: Duration = Duration::from_millis(200);
/// What a call that is not answered may take, on a machine that is busy.
const PATIENCE: Duration = Duration::from_secs(60);

fn peer() -> SocketAddr {
    SocketAddr::from(([198, 51, 100, 1], 9000))
}

fn other_peer() -> SocketAddr {
    SocketAddr::from(([198, 51, 100, 2], 9001))
}

/// The hosts 198.51.100.K.
fn hosts<const COUNT: usize>(last: [u8; COUNT]) -> [IpAddr; COUNT] {
    last.map(|it| IpAddr::from([198, 51, 100, it]))
}

fn connect(server: &Server) -> TurnSocket {
    let socket = TurnSocket::connect(&server.uri(), config()).unwrap();
    socket.set_read_timeout(Some(PATIENCE)).unwrap();
    socket
}

fn received(socket: &TurnSocket) -> Result<(String, SocketAddr), SocketError> {
    let mut bytes = [0; 1500];
    let (size, from) = socket.recv_from(&mut bytes)?;
    Ok((String::from_utf8(bytes[..size].to_vec()).unwrap(), from))
}

fn is_rejected(cause: Option<&TurnCause>, wanted: u16, signed: bool) -> bool {
    match cause {
        Some(TurnCause::Rejected {
            code, is_signed, ..
        }) => (*code, *is_signed) == (wanted, signed),
        _ => false,
    }
}

// ---- datagrams

#[test]
fn datagrams_go_both_ways() {
    for transport in BOTH {
        let mut server = Server::start(transport);
        let socket = connect(&server);
        assert_eq!(socket.relayed_addr(), RELAYED.parse().unwrap());
        assert_eq!(socket.relayed_addrs(), [RELAYED.parse().unwrap()]);
        assert_eq!(socket.mapped_addr(), Some(MAPPED.parse().unwrap()));
        assert_eq!(
            (socket.server_addr(), socket.transport()),
            (server.address, transport)
        );
        assert_ne!(socket.local_addr().port(), 0);
        assert_eq!(socket.send_to(b"one", peer()).unwrap(), 3);
        assert_eq!(received(&socket).unwrap(), ("one".to_string(), peer()));
        // the channel was requested with the first datagram
        let until = Instant::now() + PATIENCE;
        while !server
            .tell("payloads")
            .ends_with("198.51.100.1:9000|two|channel")
        {
            assert!(Instant::now() < until, "there is no channel");
            socket.send_to(b"two", peer()).unwrap();
            assert_eq!(received(&socket).unwrap(), ("two".to_string(), peer()));
        }
        let first = "198.51.100.1:9000|one|indication";
        assert!(server.tell("payloads").starts_with(first));
        socket.close().unwrap();
        assert_eq!(server.tell("lifetimes"), "0");
        assert!(matches!(socket.close(), Err(SocketError::Closed)));
        assert!(matches!(
            socket.send_to(b"late", peer()),
            Err(SocketError::Closed)
        ));
        assert!(matches!(received(&socket), Err(SocketError::Closed)));
    }
}

/// What the server responds is read also while the program only sends: it has a channel then.
#[test]
fn a_program_may_only_send() {
    for transport in BOTH {
        let mut server = Server::start(transport);
        let socket = connect(&server);
        let until = Instant::now() + PATIENCE;
        while !server.tell("payloads").ends_with("|channel") {
            assert!(Instant::now() < until, "there is no channel");
            socket.send_to(b"hello", peer()).unwrap();
            thread::sleep(Duration::from_millis(30));
        }
        assert_eq!(received(&socket).unwrap().0, "hello");
    }
}

#[test]
fn a_stream_may_come_in_pieces() {
    let mut server = Server::start(TransportType::Tcp);
    server.does("chunk 3");
    let socket = connect(&server);
    for text in ["one", "two", "three"] {
        socket.send_to(text.as_bytes(), peer()).unwrap();
        assert_eq!(received(&socket).unwrap(), (text.to_string(), peer()));
    }
}

#[test]
fn any_stream_over_tcp_is_a_connection() {
    let server = Server::start(TransportType::Tcp);
    let stream = TcpStream::connect(server.address).unwrap();
    let connection = StreamConnection::new(stream.try_clone().unwrap(), stream).unwrap();
    let socket = ConnectOptions::new()
        .connect_over(connection, config())
        .unwrap();
    socket.send_to(b"hello", peer()).unwrap();
    assert_eq!(received(&socket).unwrap(), ("hello".to_string(), peer()));
    socket.close().unwrap();
}

#[test]
fn without_channels_all_goes_in_indications() {
    let mut server = Server::start(TransportType::Udp);
    let socket = ConnectOptions::new()
        .channels(false)
        .connect(&server.uri(), config())
        .unwrap();
    for text in ["one", "two"] {
        socket.send_to(text.as_bytes(), peer()).unwrap();
        assert_eq!(received(&socket).unwrap().0, text);
        socket.serve(Duration::from_millis(60)).unwrap();
    }
    assert_eq!(server.count(CHANNEL_BIND), 0);
    assert!(!server.tell("payloads").contains("channel"));
}

#[test]
fn a_long_datagram_is_cut_or_refused() {
    let server = Server::start(TransportType::Udp);
    let socket = connect(&server);
    socket.send_to(b"hello", peer()).unwrap();
    let mut bytes = [0; 2];
    assert_eq!(socket.recv_from(&mut bytes).unwrap(), (2, peer()));
    assert_eq!(&bytes, b"he");
    let refused = socket.send_to(&vec![0; PAYLOAD_MAX + 1], peer());
    assert!(matches!(refused, Err(SocketError::TooLarge)));
}

/// What comes is stored while a call does something else, to a limit; what comes beyond is dropped.
#[test]
fn what_nobody_receives_is_stored_to_a_limit() {
    let mut server = Server::start(TransportType::Tcp);
    let socket = connect(&server);
    socket.permit(peer().ip()).unwrap();
    server.does(&format!("data 198.51.100.1:9000 n {}", INCOMING_MAX + 50));
    socket.serve(SOON).unwrap();
    socket.set_read_timeout(Some(SOON)).unwrap();
    for k in 0..INCOMING_MAX {
        assert_eq!(received(&socket).unwrap().0, format!("n{k}"));
    }
    assert!(matches!(received(&socket), Err(SocketError::TimedOut)));
}

/// Nothing is dropped while the program receives, though all comes at once.
#[test]
fn what_is_received_is_not_dropped() {
    let mut server = Server::start(TransportType::Tcp);
    let socket = connect(&server);
    socket.permit(peer().ip()).unwrap();
    let count = INCOMING_MAX * 4;
    server.does(&format!("data 198.51.100.1:9000 n {count}"));
    for k in 0..count {
        assert_eq!(received(&socket).unwrap().0, format!("n{k}"));
    }
}

#[test]
fn a_read_has_a_timeout() {
    let server = Server::start(TransportType::Udp);
    let socket = connect(&server);
    socket.set_read_timeout(Some(SOON)).unwrap();
    assert_eq!(socket.read_timeout(), Some(SOON));
    let began = Instant::now();
    let error = received(&socket).unwrap_err();
    assert!(began.elapsed() >= SOON);
    assert_eq!(io::Error::from(error).kind(), ErrorKind::TimedOut);
    let refused = socket.set_read_timeout(Some(Duration::ZERO)).unwrap_err();
    assert_eq!(refused.kind(), ErrorKind::InvalidInput);
    // longer than any clock runs
    socket.set_read_timeout(Some(Duration::MAX)).unwrap();
    socket.send_to(b"hello", peer()).unwrap();
    assert_eq!(received(&socket).unwrap().0, "hello");
}

// ---- permissions

#[test]
fn a_rejected_permission_is_told_with_its_cause() {
    for transport in BOTH {
        let mut server = Server::start(transport);
        let socket = connect(&server);
        server.does(&format!("rejects {CREATE_PERMISSION} 403"));
        for refused in [
            socket.permit(peer().ip()),
            socket.send_to(b"one", peer()).map(|_| ()),
        ] {
            let error = refused.unwrap_err();
            assert!(is_rejected(error.cause(), 403, true), "{error}");
            assert!(
                matches!(error, SocketError::PeerRefused { peer: it, .. } if it == peer().ip())
            );
            // the reason phrase of the server has a control character
            assert_eq!(
                error.to_string(),
                "no permission for 198.51.100.1: rejected 403 signed Noway"
            );
        }
        server.does(&format!("rejects {CREATE_PERMISSION} 0"));
        socket.send_to(b"two", other_peer()).unwrap();
        assert_eq!(
            received(&socket).unwrap(),
            ("two".to_string(), other_peer())
        );
    }
}

#[test]
fn a_peer_of_another_family_is_refused() {
    let server = Server::start(TransportType::Udp);
    let socket = connect(&server);
    let peer: IpAddr = "2001:db8::7".parse().unwrap();
    let error = socket.permit(peer).unwrap_err();
    assert!(matches!(error, SocketError::PeerRefused { peer: it, cause: None } if it == peer));
}

/// Those that are permitted already are not requested again.
#[test]
fn several_are_permitted_by_one_request() {
    for transport in BOTH {
        let mut server = Server::start(transport);
        let socket = connect(&server);
        socket.permit(other_peer().ip()).unwrap();
        for _ in 0..2 {
            socket.permit_several(&hosts([1, 2, 1, 3, 2])).unwrap();
        }
        socket.permit(hosts([3])[0]).unwrap();
        let requested = "198.51.100.2 198.51.100.1,198.51.100.3";
        assert_eq!(server.tell("permissions"), requested);
        server.does("data 198.51.100.3:9000 n 1");
        assert_eq!(received(&socket).unwrap().0, "n0");
    }
}

#[test]
fn as_many_are_permitted_as_may_be() {
    let mut server = Server::start(TransportType::Udp);
    let socket = connect(&server);
    let many: Vec<IpAddr> = (0..PERMIT_MAX as u8).flat_map(|it| hosts([it])).collect();
    let twice = [many.clone(), many.clone()].concat();
    socket.permit_several(&twice).unwrap();
    let wanted: Vec<String> = many.iter().map(IpAddr::to_string).collect();
    assert_eq!(server.tell("permissions"), wanted.join(","));
}

#[test]
fn addresses_that_cannot_stand_in_one_request_are_refused() {
    let mut server = Server::start(TransportType::Udp);
    let socket = connect(&server);
    let six: IpAddr = "2001:db8::7".parse().unwrap();
    let too_many: Vec<IpAddr> = (0..=PERMIT_MAX as u8).flat_map(|it| hosts([it])).collect();
    for refused in [&[][..], &too_many, &[peer().ip(), six], &[six, peer().ip()]] {
        let error = socket.permit_several(refused).unwrap_err();
        assert!(matches!(error, SocketError::InvalidAddresses), "{error}");
        assert_eq!(error.kind(), ErrorKind::InvalidInput);
    }
    let error = socket.permit_several(&[six, six]).unwrap_err();
    assert!(matches!(error, SocketError::PeerRefused { peer: it, cause: None } if it == six));
    socket.serve(SOON).unwrap();
    assert_eq!(server.tell("permissions"), "");
}

/// The server denies one of them, and so rejects the request.
#[test]
fn rejected_permissions_of_several_are_told_by_the_first() {
    for transport in BOTH {
        let mut server = Server::start(transport);
        let socket = connect(&server);
        server.does("denies 198.51.100.3");
        socket.permit(peer().ip()).unwrap();
        let error = socket.permit_several(&hosts([1, 2, 3])).unwrap_err();
        assert!(is_rejected(error.cause(), 403, true), "{error}");
        assert_eq!(
            error.to_string(),
            "no permission for 198.51.100.2: rejected 403 signed Noway"
        );
        socket.permit_several(&hosts([2, 1])).unwrap();
        let requested = "198.51.100.1 198.51.100.2,198.51.100.3 198.51.100.2";
        assert_eq!(server.tell("permissions"), requested);
        socket.set_read_timeout(Some(SOON)).unwrap();
        assert!(matches!(received(&socket), Err(SocketError::TimedOut)));
    }
}

/// Takes a session's turn, and waits shortly for what comes, which waits for the next turn: whether
/// something came.
fn goes_on(session: &mut TurnSession, line: &UdpSocket) -> bool {
    let mut bytes = [0; 1500];
    session.turn(&mut |message| assert!(line.send(message).is_ok()));
    line.set_read_timeout(Some(Duration::from_millis(10)))
        .unwrap();
    let came = line.recv(&mut bytes);
    if let Ok(size) = came {
        session.handle_received(&bytes[..size]);
    }
    came.is_ok()
}

/// A peer is requested after a response that rejects it, and before the event of that.
#[test]
fn a_session_requests_the_others_beside_one_that_it_has_not_noted() {
    let mut server = Server::start(TransportType::Udp);
    let line = UdpSocket::bind("127.0.0.1:0").unwrap();
    line.connect(server.address).unwrap();
    let local = line.local_addr().unwrap();
    let made = TurnSession::new(TransportType::Udp, local, server.address, config(), true);
    let mut session = made.unwrap();
    while *session.state() == SessionState::Allocating {
        goes_on(&mut session, &line);
    }
    let [first, second] = hosts([1, 2]);
    server.does("denies 198.51.100.1");
    session.request_permission(first).unwrap();
    while !goes_on(&mut session, &line) {}
    server.does("denies nobody");
    session.request_permission(first).unwrap();
    session.turn(&mut |_| ());
    assert!(matches!(session.permission(first), Permission::Refused(_)));
    let missing = session.request_permissions(&[first, second]).unwrap();
    assert_eq!(missing, [first, second]);
    let until = Instant::now() + PATIENCE;
    while session.granted(&missing).is_none() && Instant::now() < until {
        goes_on(&mut session, &line);
    }
    assert!(matches!(session.granted(&missing), Some(Ok(()))));
    let requested = "198.51.100.1 198.51.100.1 198.51.100.2";
    assert_eq!(server.tell("permissions"), requested);
}

#[test]
fn a_rejected_channel_leaves_indications() {
    let mut server = Server::start(TransportType::Tcp);
    server.does(&format!("rejects {CHANNEL_BIND} 508"));
    let socket = connect(&server);
    for text in ["one", "two"] {
        socket.send_to(text.as_bytes(), peer()).unwrap();
        assert_eq!(received(&socket).unwrap().0, text);
        socket.serve(SOON).unwrap();
    }
    assert_eq!(server.count(CHANNEL_BIND), 1);
    assert!(!server.tell("payloads").contains("channel"));
}

/// RFC 8656, section 18.13: type 3, code 3 is a port that can't be reached.
#[test]
fn a_report_about_a_peer_is_told() {
    let mut server = Server::start(TransportType::Udp);
    let socket = connect(&server);
    socket.permit(peer().ip()).unwrap();
    server.does("icmp 198.51.100.1:9000");
    let error = received(&socket).unwrap_err();
    let SocketError::PeerUnreachable {
        peer: of,
        icmp_type,
        icmp_code,
        icmp_data,
    } = error
    else {
        panic!("{error:?}");
    };
    assert_eq!((of, icmp_type, icmp_code, icmp_data), (peer(), 3, 3, 5));
    server.does("data 198.51.100.1:9000 n 1");
    assert_eq!(received(&socket).unwrap().0, "n0");
}

// ---- threads

#[test]
fn one_thread_sends_while_another_receives() {
    for transport in BOTH {
        let server = Server::start(transport);
        let socket = connect(&server);
        thread::scope(|scope| {
            let receiver = scope.spawn(|| received(&socket).unwrap());
            thread::sleep(SOON);
            let began = Instant::now();
            socket.send_to(b"hello", peer()).unwrap();
            assert_eq!(receiver.join().unwrap(), ("hello".to_string(), peer()));
            assert!(began.elapsed() < PATIENCE);
        });
    }
}

#[test]
fn threads_may_wait_for_one_permission() {
    let mut server = Server::start(TransportType::Tcp);
    let socket = connect(&server);
    thread::scope(|scope| {
        let waiting: Vec<_> = (0..4)
            .map(|_| scope.spawn(|| socket.permit(peer().ip())))
            .collect();
        for it in waiting {
            it.join().unwrap().unwrap();
        }
    });
    assert_eq!(server.count(CREATE_PERMISSION), 1);
}

/// A permission that another thread waits for is not requested again.
#[test]
fn a_thread_requests_what_no_other_one_has() {
    let mut server = Server::start(TransportType::Udp);
    let socket = connect(&server);
    server.does(&format!("silent {CREATE_PERMISSION}"));
    thread::scope(|scope| {
        let one = scope.spawn(|| socket.permit(peer().ip()));
        thread::sleep(SOON);
        let several = scope.spawn(|| socket.permit_several(&hosts([1, 2, 3])));
        thread::sleep(SOON);
        assert!(!several.is_finished());
        server.does(&format!("silent {CREATE_PERMISSION} no"));
        one.join().unwrap().unwrap();
        several.join().unwrap().unwrap();
    });
    let told = server.tell("permissions");
    let mut requested: Vec<_> = told.split(' ').collect();
    requested.sort();
    requested.dedup(); // one may be sent twice
    assert_eq!(requested, ["198.51.100.1", "198.51.100.2,198.51.100.3"]);
}

#[test]
fn a_thread_that_waits_for_permissions_sees_the_end() {
    let mut server = Server::start(TransportType::Udp);
    let socket = connect(&server);
    server.does(&format!("silent {CREATE_PERMISSION}"));
    thread::scope(|scope| {
        let waiting = scope.spawn(|| socket.permit_several(&hosts([1, 2])));
        thread::sleep(SOON);
        socket.close().unwrap();
        assert!(matches!(waiting.join().unwrap(), Err(SocketError::Closed)));
    });
    let late = socket.permit_several(&hosts([1, 2]));
    assert!(matches!(late, Err(SocketError::Closed)));
}

#[test]
fn a_thread_that_receives_sees_the_end() {
    for transport in BOTH {
        let server = Server::start(transport);
        let socket = connect(&server);
        socket.set_read_timeout(None).unwrap();
        thread::scope(|scope| {
            let receiver = scope.spawn(|| received(&socket));
            thread::sleep(SOON);
            socket.close().unwrap();
            assert!(matches!(receiver.join().unwrap(), Err(SocketError::Closed)));
        });
    }
}

// ---- the end

#[test]
fn a_dropped_socket_gives_its_address_back() {
    for transport in BOTH {
        let mut server = Server::start(transport);
        drop(connect(&server));
        server.comes_to("lifetimes", "0");
    }
}

#[test]
fn a_server_that_does_not_confirm_the_end_is_not_waited_for_long() {
    let mut server = Server::start(TransportType::Udp);
    let socket = connect(&server);
    server.does(&format!("silent {REFRESH}"));
    let began = Instant::now();
    assert!(matches!(socket.close(), Err(SocketError::TimedOut)));
    assert!(began.elapsed() >= turn_client::driver::CLOSE_PATIENCE);
    assert!(matches!(received(&socket), Err(SocketError::Closed)));
}

#[test]
fn a_closed_connection_to_the_server_is_the_end() {
    let mut server = Server::start(TransportType::Tcp);
    let socket = connect(&server);
    server.does("hang up");
    let error = received(&socket).unwrap_err();
    assert!(
        matches!(error, SocketError::Lost { cause: None }),
        "{error:?}"
    );
    assert!(matches!(
        socket.send_to(b"late", peer()),
        Err(SocketError::Lost { cause: None })
    ));
    assert!(matches!(
        socket.permit_several(&hosts([1, 2])),
        Err(SocketError::Lost { cause: None })
    ));
    assert_eq!(io::Error::from(error).kind(), ErrorKind::ConnectionAborted);
}

// ---- no address

#[test]
fn a_rejected_allocation_is_told_with_its_cause() {
    for transport in BOTH {
        let mut server = Server::start(transport);
        server.does(&format!("rejects {ALLOCATE} 486"));
        let error = TurnSocket::connect(&server.uri(), config()).unwrap_err();
        assert!(is_rejected(error.cause(), 486, true), "{error}");
        assert_eq!(io::Error::from(error).kind(), ErrorKind::ConnectionRefused);
    }
}

#[test]
fn a_wrong_password_is_an_unsigned_challenge() {
    let server = Server::start(TransportType::Udp);
    let wrong = TurnConfig::new(TurnCredentials::new("alice", "wrong"));
    let error = TurnSocket::connect(&server.uri(), wrong).unwrap_err();
    assert!(is_rejected(error.cause(), 401, false), "{error}");
}

#[test]
fn a_silent_server_is_given_up_in_time() {
    let mut server = Server::start(TransportType::Udp);
    server.does(&format!("silent {ALLOCATE}"));
    let began = Instant::now();
    let made = ConnectOptions::new()
        .timeout(SOON)
        .connect(&server.uri(), config());
    assert!(matches!(made, Err(ConnectError::TimedOut)), "{made:?}");
    assert!((SOON..PATIENCE).contains(&began.elapsed()));
}

#[test]
fn an_absent_server_is_unreachable() {
    let listener = std::net::TcpListener::bind("127.0.0.1:0").unwrap();
    let address = listener.local_addr().unwrap();
    drop(listener);
    let uri = format!("turn:{address}?transport=tcp").parse().unwrap();
    let error = TurnSocket::connect(&uri, config()).unwrap_err();
    assert!(matches!(error, ConnectError::Unreachable(_)), "{error:?}");
    assert_eq!(io::Error::from(error).kind(), ErrorKind::ConnectionRefused);
}

#[test]
fn a_server_that_hangs_up_is_unreachable() {
    let listener = std::net::TcpListener::bind("127.0.0.1:0").unwrap();
    let uri = format!("turn:{}?transport=tcp", listener.local_addr().unwrap());
    let closing = thread::spawn(move || drop(listener.accept().unwrap()));
    let error = TurnSocket::connect(&uri.parse().unwrap(), config()).unwrap_err();
    assert!(matches!(error, ConnectError::Unreachable(_)), "{error:?}");
    closing.join().unwrap();
}

/// RFC 8489, section 10. The server that is named is asked only if the program says so, and none
/// twice.
#[test]
fn another_server_is_asked_only_if_told_so() {
    for transport in BOTH {
        let (mut first, mut second) = (Server::start(transport), Server::start(transport));
        first.does(&format!("elsewhere {}", second.address));
        let error = TurnSocket::connect(&first.uri(), config()).unwrap_err();
        let ConnectError::Rejected {
            cause,
            alternate_server,
            alternate_domain,
        } = &error
        else {
            panic!("{error:?}");
        };
        assert!(is_rejected(cause.as_ref(), 300, false));
        assert_eq!(*alternate_server, Some(second.address));
        assert_eq!(alternate_domain.as_deref(), Some("localhost"));
        assert_eq!(second.tell("unsigned"), "0");
        let socket = ConnectOptions::new()
            .follow(1)
            .connect(&first.uri(), config())
            .unwrap();
        assert_eq!(socket.server_addr(), second.address);
        drop(socket);
        second.does(&format!("elsewhere {}", first.address));
        let error = ConnectOptions::new()
            .follow(5)
            .connect(&first.uri(), config())
            .unwrap_err();
        assert!(is_rejected(error.cause(), 300, false), "{error}");
    }
}

#[test]
fn what_is_given_may_be_refused() {
    let connect =
        |uri: &str, config| TurnSocket::connect(&uri.parse().unwrap(), config).unwrap_err();
    assert!(matches!(
        connect("turns:127.0.0.1", config()),
        ConnectError::WantsTls
    ));
    assert!(matches!(
        connect("stun:127.0.0.1", config()),
        ConnectError::NotTurn
    ));
    let mut over_tcp = config();
    over_tcp.set_allocation_transport(TransportType::Tcp);
    let refused = connect("turn:127.0.0.1", over_tcp);
    assert!(matches!(refused, ConnectError::AllocationTransport));
    let long = TurnConfig::new(TurnCredentials::new(&"a".repeat(600), "secret"));
    let refused = connect("turn:127.0.0.1", long);
    assert!(matches!(
        refused,
        ConnectError::Settings(AllocateError::LongName)
    ));
}
