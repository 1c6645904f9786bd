//! Tests of settings, causes and texts.

use super::*;
use std::fmt::Debug;

/// What a client is opened with by these settings: the struct of the header.
fn told(config: &TurnConfig) -> sys::turn_settings {
    config.told(
        TransportType::Udp,
        SocketAddr::from(([192, 0, 2, 1], 5000)),
        SocketAddr::from(([192, 0, 2, 2], 3478)),
    )
}

fn usual() -> TurnConfig {
    TurnConfig::new(TurnCredentials::new("alice", "secret"))
}

/// What is set takes the place of what was, and what is added stands beside it, once. The bits are
/// the header's.
#[test]
fn families_and_algorithms_are_bits() {
    let mut config = usual();
    let bits = |config: &TurnConfig| (told(config).families, told(config).integrity);
    assert_eq!(bits(&config), (1, 3));
    config.set_address_family(AddressFamily::IPV6);
    config.set_supported_integrity(IntegrityAlgorithm::Sha256);
    assert_eq!(bits(&config), (2, 2));
    for _ in 0..2 {
        config.add_address_family(AddressFamily::IPV4);
        config.add_supported_integrity(IntegrityAlgorithm::Sha1);
        assert_eq!(bits(&config), (3, 3));
    }
    config.add_supported_integrity(IntegrityAlgorithm::Sha512);
    assert_eq!(bits(&config), (3, 7));
    config.set_supported_integrity(IntegrityAlgorithm::Sha512);
    assert_eq!(bits(&config), (3, 4));
    let listed = (config.address_families(), config.supported_integrity());
    assert_eq!((listed.0.len(), listed.1.len()), (2, 1));
}

#[test]
fn a_client_is_hardened_unless_set_otherwise() {
    let mut config = usual();
    assert_eq!(told(&config).compatible, 0);
    config.set_hardened(false);
    assert_eq!(told(&config).compatible, 1);
    assert_eq!(told(&config).max_connection_attempts, 0);
    config.set_max_connection_attempts(7);
    assert_eq!(told(&config).max_connection_attempts, 7);
    assert_eq!(config.max_connection_attempts(), 7);
}

/// What C and Rust say of a setting at first, after a change, and after it was changed back.
fn changes_and_back<T: Copy + Debug + PartialEq>(
    set: fn(&mut TurnConfig, bool),
    both: fn(&TurnConfig) -> (T, bool),
    first: (T, bool),
    changed: (T, bool),
) {
    let mut config = usual();
    assert_eq!(both(&config), first);
    for wanted in [changed, first] {
        set(&mut config, wanted.1);
        assert_eq!(both(&config), wanted);
    }
}

#[test]
fn short_lifetimes_are_believed_unless_set_otherwise() {
    let both = |it: &TurnConfig| (told(it).ignore_short_lifetimes, it.short_lifetimes());
    changes_and_back(TurnConfig::set_short_lifetimes, both, (0, true), (1, false));
}

#[test]
fn indications_announce_connections_only_if_set() {
    let both = |it: &TurnConfig| (told(it).attempt_indications, it.attempt_indications());
    changes_and_back(
        TurnConfig::set_attempt_indications,
        both,
        (0, false),
        (1, true),
    );
}

#[test]
fn a_password_is_not_printed() {
    let printed = format!(
        "{:?}",
        TurnConfig::new(TurnCredentials::new("alice", "secret"))
    );
    assert!(printed.contains("alice") && !printed.contains("secret"));
}

#[test]
fn what_a_newer_archive_might_tell_is_no_event_and_no_wait() {
    const UNKNOWN: u32 = 9;
    let event = sys::turn_event {
        kind: UNKNOWN,
        ..sys::turn_event::default()
    };
    assert_eq!(TurnEvent::read(&event), None);
    assert_eq!(TurnPollRet::read(8, &sys::turn_wait::default()), None);
    let cause = sys::turn_cause {
        kind: 11,
        ..sys::turn_cause::default()
    };
    assert_eq!(TurnCause::read(&cause, String::new), None);
}

/// Each number of the header, and that only a rejection looks at the phrase.
#[test]
fn causes_are_those_of_the_header() {
    let read = |kind| {
        let cause = sys::turn_cause {
            kind,
            code: 403,
            is_signed: true,
            ..sys::turn_cause::default()
        };
        TurnCause::read(&cause, || "Forbidden".to_string())
    };
    let rejected = TurnCause::Rejected {
        code: 403,
        reason: "Forbidden".to_string(),
        is_signed: true,
    };
    let wanted = [
        (sys::TURN_CAUSE_NONE, None),
        (sys::TURN_REJECTED, Some(rejected)),
        (sys::TURN_UNANSWERED, Some(TurnCause::Unanswered)),
        (sys::TURN_INTEGRITY, Some(TurnCause::Integrity)),
        (sys::TURN_NO_ALGORITHM, Some(TurnCause::NoCommonAlgorithm)),
        (sys::TURN_OTHER_FAMILY, Some(TurnCause::OtherFamily)),
        (sys::TURN_CAUSE_MEMORY, Some(TurnCause::OutOfMemory)),
        (sys::TURN_DELETED, Some(TurnCause::Deleted)),
        (sys::TURN_EXPIRED, Some(TurnCause::Expired)),
        (sys::TURN_SOCKET_CLOSED, Some(TurnCause::SocketClosed)),
        (sys::TURN_UNUSABLE, Some(TurnCause::Unusable)),
    ];
    for (kind, cause) in wanted {
        assert_eq!(read(kind), cause);
    }
}
