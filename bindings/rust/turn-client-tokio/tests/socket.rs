//! `TurnSocket` over tokio against a server of its own, that of the tests of `turn-client`.

#[path = "../../tests/server/mod.rs"]
mod server;

use std::net::{IpAddr, SocketAddr};
use std::sync::Arc;
use std::time::{Duration, Instant};

use server::{config, Server, ALLOCATE, CREATE_PERMISSION, MAPPED, REFRESH, RELAYED};
use tokio::time::{sleep, timeout};
use turn_client_tokio::{
    ConnectError, ConnectOptions, SocketError, TransportType, TurnCause, TurnSocket, CLOSE_PATIENCE,
};

const BOTH: [TransportType; 2] = [TransportType::Udp, TransportType::Tcp];
const SOON: Duration = Duration::from_millis(200);
/// What a call that is not answered may take, on a machine that is busy.
const PATIENCE: Duration = Duration::from_secs(60);
/// Fewer than are stored at most.
const MANY: usize = 200;

fn peer() -> SocketAddr {
    SocketAddr::from(([198, 51, 100, 1], 9000))
}

/// The hosts 198.51.100.K.
fn hosts<const COUNT: usize>(last: [u8; COUNT]) -> [IpAddr; COUNT] {
    last.map(|it| IpAddr::from([198, 51, 100, it]))
}

async fn connect(server: &Server) -> TurnSocket {
    TurnSocket::connect(&server.uri(), config()).await.unwrap()
}

async fn received(socket: &TurnSocket) -> Result<(String, SocketAddr), SocketError> {
    let mut bytes = [0; 1500];
    let (size, from) = timeout(PATIENCE, socket.recv_from(&mut bytes))
        .await
        .unwrap()?;
    Ok((String::from_utf8(bytes[..size].to_vec()).unwrap(), from))
}

fn is_rejected(cause: Option<&TurnCause>, wanted: u16) -> bool {
    matches!(cause, Some(TurnCause::Rejected { code, .. }) if *code == wanted)
}

#[tokio::test]
async fn datagrams_go_both_ways() {
    for transport in BOTH {
        let mut server = Server::start(transport);
        let socket = connect(&server).await;
        assert_eq!(socket.relayed_addr(), RELAYED.parse().unwrap());
        assert_eq!(socket.mapped_addr(), Some(MAPPED.parse().unwrap()));
        assert_eq!(
            (socket.server_addr(), socket.transport()),
            (server.address, transport)
        );
        assert_eq!(socket.send_to(b"one", peer()).await.unwrap(), 3);
        assert_eq!(
            received(&socket).await.unwrap(),
            ("one".to_string(), peer())
        );
        // the channel was requested with the first datagram
        let until = Instant::now() + PATIENCE;
        while !server
            .tell("payloads")
            .ends_with("198.51.100.1:9000|two|channel")
        {
            assert!(Instant::now() < until, "there is no channel");
            socket.send_to(b"two", peer()).await.unwrap();
            assert_eq!(
                received(&socket).await.unwrap(),
                ("two".to_string(), peer())
            );
        }
        socket.close().await.unwrap();
        assert_eq!(server.tell("lifetimes"), "0");
        assert!(matches!(socket.close().await, Err(SocketError::Closed)));
        assert!(matches!(
            socket.send_to(b"late", peer()).await,
            Err(SocketError::Closed)
        ));
        assert!(matches!(received(&socket).await, Err(SocketError::Closed)));
    }
}

#[tokio::test]
async fn any_stream_is_a_connection() {
    let mut server = Server::start(TransportType::Tcp);
    server.does("chunk 3");
    let stream = tokio::net::TcpStream::connect(server.address)
        .await
        .unwrap();
    let local = stream.local_addr().unwrap();
    let options = ConnectOptions::new();
    let made = options
        .connect_over(stream, local, server.address, config())
        .await;
    let socket = made.unwrap();
    socket.send_to(b"hello", peer()).await.unwrap();
    assert_eq!(
        received(&socket).await.unwrap(),
        ("hello".to_string(), peer())
    );
}

#[tokio::test]
async fn a_rejected_permission_is_told_with_its_cause() {
    let mut server = Server::start(TransportType::Udp);
    let socket = connect(&server).await;
    server.does(&format!("rejects {CREATE_PERMISSION} 403"));
    let error = socket.send_to(b"one", peer()).await.unwrap_err();
    assert!(is_rejected(error.cause(), 403), "{error}");
    server.does(&format!("rejects {CREATE_PERMISSION} 0"));
    socket.send_to(b"two", peer()).await.unwrap();
    assert_eq!(received(&socket).await.unwrap().0, "two");
}

/// Those that are permitted already are not requested again.
#[tokio::test]
async fn several_are_permitted_by_one_request() {
    for transport in BOTH {
        let mut server = Server::start(transport);
        let socket = connect(&server).await;
        socket.permit(hosts([2])[0]).await.unwrap();
        for _ in 0..2 {
            socket
                .permit_several(&hosts([1, 2, 1, 3, 2]))
                .await
                .unwrap();
        }
        let requested = "198.51.100.2 198.51.100.1,198.51.100.3";
        assert_eq!(server.tell("permissions"), requested);
        server.does("data 198.51.100.3:9000 n 1");
        assert_eq!(received(&socket).await.unwrap().0, "n0");
    }
}

#[tokio::test]
async fn a_task_requests_what_no_other_one_has() {
    let mut server = Server::start(TransportType::Tcp);
    let socket = connect(&server).await;
    let peers = hosts([1, 2, 3]);
    let both = async { tokio::join!(socket.permit(peer().ip()), socket.permit_several(&peers)) };
    let (one, several) = timeout(PATIENCE, both).await.unwrap();
    one.unwrap();
    several.unwrap();
    let requested = "198.51.100.1 198.51.100.2,198.51.100.3";
    assert_eq!(server.tell("permissions"), requested);
}

/// The server denies one of them, and so rejects the request.
#[tokio::test]
async fn rejected_permissions_of_several_are_told_by_the_first() {
    let mut server = Server::start(TransportType::Udp);
    let socket = connect(&server).await;
    server.does("denies 198.51.100.3");
    socket.permit(peer().ip()).await.unwrap();
    let error = socket.permit_several(&hosts([1, 2, 3])).await.unwrap_err();
    assert!(is_rejected(error.cause(), 403), "{error}");
    assert_eq!(
        error.to_string(),
        "no permission for 198.51.100.2: rejected 403 signed Noway"
    );
    socket.permit_several(&hosts([2, 1])).await.unwrap();
    let requested = "198.51.100.1 198.51.100.2,198.51.100.3 198.51.100.2";
    assert_eq!(server.tell("permissions"), requested);
}

#[tokio::test]
async fn addresses_that_cannot_stand_in_one_request_are_refused() {
    let mut server = Server::start(TransportType::Udp);
    let socket = connect(&server).await;
    let six: IpAddr = "2001:db8::7".parse().unwrap();
    let too_many: Vec<IpAddr> = (0..=32).flat_map(|it| hosts([it])).collect();
    for refused in [&[][..], &too_many, &[peer().ip(), six]] {
        let error = socket.permit_several(refused).await.unwrap_err();
        assert!(matches!(error, SocketError::InvalidAddresses), "{error}");
    }
    sleep(SOON).await;
    assert_eq!(server.tell("permissions"), "");
}

#[tokio::test]
async fn a_task_that_waits_for_permissions_sees_the_end() {
    let mut server = Server::start(TransportType::Udp);
    let socket = connect(&server).await;
    server.does(&format!("silent {CREATE_PERMISSION}"));
    let peers = hosts([1, 2]);
    let closing = async {
        sleep(SOON).await;
        socket.close().await
    };
    let both = async { tokio::join!(socket.permit_several(&peers), closing) };
    let (waited, closed) = timeout(PATIENCE, both).await.unwrap();
    assert!(matches!(waited, Err(SocketError::Closed)), "{waited:?}");
    closed.unwrap();
    let late = socket.permit_several(&peers).await;
    assert!(matches!(late, Err(SocketError::Closed)), "{late:?}");
}

#[tokio::test]
async fn what_comes_at_once_is_all_received() {
    for transport in BOTH {
        let mut server = Server::start(transport);
        let socket = connect(&server).await;
        socket.permit(peer().ip()).await.unwrap();
        server.does(&format!("data 198.51.100.1:9000 n {MANY}"));
        for k in 0..MANY {
            assert_eq!(received(&socket).await.unwrap().0, format!("n{k}"));
        }
    }
}

/// Over TCP the task lets whoever receives go on, so that nothing is dropped.
#[tokio::test]
async fn a_task_that_receives_keeps_up() {
    let mut server = Server::start(TransportType::Tcp);
    let socket = Arc::new(connect(&server).await);
    socket.permit(peer().ip()).await.unwrap();
    let receiver = tokio::spawn({
        let socket = Arc::clone(&socket);
        async move {
            for k in 0..MANY * 8 {
                assert_eq!(received(&socket).await.unwrap().0, format!("n{k}"));
            }
        }
    });
    sleep(SOON).await;
    tokio::task::spawn_blocking(move || {
        server.does(&format!("data 198.51.100.1:9000 n {}", MANY * 8));
        server
    })
    .await
    .unwrap();
    receiver.await.unwrap();
}

#[tokio::test(flavor = "multi_thread", worker_threads = 2)]
async fn tasks_share_a_socket() {
    let mut server = Server::start(TransportType::Tcp);
    let socket = Arc::new(connect(&server).await);
    let senders: Vec<_> = (0..8)
        .map(|k: u8| {
            let socket = Arc::clone(&socket);
            tokio::spawn(async move { socket.send_to(&[b'a' + k], peer()).await })
        })
        .collect();
    for it in senders {
        assert_eq!(it.await.unwrap().unwrap(), 1);
    }
    let mut came = Vec::new();
    for _ in 0..8 {
        came.push(received(&socket).await.unwrap().0);
    }
    came.sort();
    assert_eq!(came.concat(), "abcdefgh");
    assert_eq!(server.count(CREATE_PERMISSION), 1);
}

#[tokio::test]
async fn a_dropped_socket_gives_its_address_back() {
    for transport in BOTH {
        let mut server = Server::start(transport);
        drop(connect(&server).await);
        let until = Instant::now() + PATIENCE;
        while server.tell("lifetimes") != "0" {
            assert!(Instant::now() < until, "the server wasn't told");
            sleep(Duration::from_millis(10)).await; // its task goes on
        }
    }
}

#[tokio::test]
async fn a_server_that_does_not_confirm_the_end_is_not_waited_for_long() {
    let mut server = Server::start(TransportType::Udp);
    let socket = connect(&server).await;
    server.does(&format!("silent {REFRESH}"));
    let began = Instant::now();
    socket.close().await.unwrap();
    assert!((CLOSE_PATIENCE..CLOSE_PATIENCE + PATIENCE).contains(&began.elapsed()));
}

#[tokio::test]
async fn a_closed_connection_to_the_server_is_the_end() {
    let mut server = Server::start(TransportType::Tcp);
    let socket = connect(&server).await;
    server.does("hang up");
    let error = received(&socket).await.unwrap_err();
    assert!(
        matches!(error, SocketError::Lost { cause: None }),
        "{error:?}"
    );
}

#[tokio::test]
async fn what_fails_is_told_with_its_cause() {
    let mut server = Server::start(TransportType::Udp);
    server.does(&format!("rejects {ALLOCATE} 486"));
    let error = TurnSocket::connect(&server.uri(), config())
        .await
        .unwrap_err();
    assert!(is_rejected(error.cause(), 486), "{error}");
    server.does(&format!("rejects {ALLOCATE} 0"));
    server.does(&format!("silent {ALLOCATE}"));
    let mut options = ConnectOptions::new();
    let made = options.timeout(SOON).connect(&server.uri(), config()).await;
    assert!(matches!(made, Err(ConnectError::TimedOut)), "{made:?}");
    let uri = "turns:127.0.0.1".parse().unwrap();
    let made = TurnSocket::connect(&uri, config()).await;
    assert!(matches!(made, Err(ConnectError::WantsTls)), "{made:?}");
}

#[tokio::test]
async fn another_server_is_asked_only_if_told_so() {
    let (mut first, second) = (
        Server::start(TransportType::Udp),
        Server::start(TransportType::Udp),
    );
    first.does(&format!("elsewhere {}", second.address));
    let error = TurnSocket::connect(&first.uri(), config())
        .await
        .unwrap_err();
    assert!(is_rejected(error.cause(), 300), "{error}");
    let mut options = ConnectOptions::new();
    let socket = options
        .follow(1)
        .connect(&first.uri(), config())
        .await
        .unwrap();
    assert_eq!(socket.server_addr(), second.address);
}
