//! Walks the stored exchanges (`stored/`): each answer, each byte that is to be sent, each event,
//! getter and payload is what `tests/c/samples.py` worked out by the RFCs, and so is each refusal.

mod stored;

use std::collections::BTreeSet;

use stored::walker::Walker;
use stored::{exchange, EXCHANGES};

fn walk(name: &str) {
    let exchange = exchange(name);
    Walker::walked(exchange, exchange.parts.len());
}

#[test]
fn over_udp() {
    walk("over UDP");
}

#[test]
fn over_tcp() {
    walk("over TCP");
}

#[test]
fn connections_to_peers() {
    walk("connections to peers");
}

#[test]
fn both_families_and_algorithms() {
    walk("both families, both algorithms");
}

#[test]
fn the_other_of_two() {
    walk("the other of two");
}

#[test]
fn the_strongest_of_three() {
    walk("all three algorithms");
}

#[test]
fn no_algorithm_in_common() {
    walk("an algorithm that the server has not");
}

#[test]
fn nobody_answers() {
    walk("other waits");
}

#[test]
fn the_name_is_to_be_hidden() {
    walk("the name is to be hidden");
}

#[test]
fn the_server_rejects_requests() {
    walk("what the server rejects");
}

#[test]
fn the_server_names_another() {
    walk("another server");
    walk("another server, which anybody may name");
}

#[test]
fn the_password_is_another() {
    walk("another password");
}

#[test]
fn a_channel_ends() {
    walk("a channel ends");
}

#[test]
fn other_credentials_are_set() {
    walk("other credentials");
    walk("other credentials, and a stale nonce");
    walk("other credentials, at first");
}

#[test]
fn requests_have_software_and_fingerprint() {
    walk("SOFTWARE and FINGERPRINT");
    walk("SOFTWARE and FINGERPRINT, over TCP");
}

#[test]
fn permissions_of_several_peers() {
    walk("permissions of several peers");
}

/// A client goes to another thread between any two parts.
#[test]
fn on_other_threads() {
    for exchange in EXCHANGES {
        let mut walker = Walker::new(exchange);
        for part in exchange.parts {
            let walk = move || {
                walker.walk(part);
                walker
            };
            walker = std::thread::spawn(walk).join().unwrap();
        }
    }
}

/// What the tests above hold against the stored answers: all that calls can answer but the lack of
/// memory, of channel numbers, and of UTF-8.
#[test]
fn the_exchanges_have_each_answer() {
    let steps = EXCHANGES
        .iter()
        .flat_map(|it| it.parts)
        .flat_map(|part| part.1);
    let answers: BTreeSet<_> = steps
        .map(|step| step.want.answer)
        .filter(|it| it.starts_with("TURN_"))
        .collect();
    let wanted = [
        "ALREADY_EXISTS",
        "BAD_ADDRESSES",
        "CLOSED",
        "CLOSE_SOCKET",
        "EXPIRED_CHANNEL",
        "ICMP",
        "IGNORED",
        "NOTHING",
        "NO_ALLOCATION",
        "NO_PERMISSION",
        "NO_SOCKET",
        "OK",
        "OPEN_SOCKET",
        "PAYLOAD",
        "TOO_LARGE",
    ];
    assert_eq!(
        answers,
        wanted
            .map(|it| format!("TURN_{it}"))
            .iter()
            .map(String::as_str)
            .collect()
    );
}
