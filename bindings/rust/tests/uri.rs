//! URIs: the rows of RFC 7065, appendix A, and of RFC 7064, appendix A, and what their grammar has
//! no room for.

use std::net::{SocketAddr, ToSocketAddrs};

use turn_client::{TransportType, TurnUri, UriError, UriScheme};

fn parsed(text: &str) -> TurnUri {
    text.parse().unwrap_or_else(|why| panic!("{text}: {why}"))
}

/// Each URI, whether it is secure, its port and its transport, as the appendices have them. The
/// host is example.org.
#[test]
fn the_rows_of_the_rfcs() {
    let rows = [
        ("turn:example.org", false, None, None),
        ("turns:example.org", true, None, None),
        ("turn:example.org:8000", false, Some(8000), None),
        (
            "turn:example.org?transport=udp",
            false,
            None,
            Some(TransportType::Udp),
        ),
        (
            "turn:example.org?transport=tcp",
            false,
            None,
            Some(TransportType::Tcp),
        ),
        (
            "turns:example.org?transport=tcp",
            true,
            None,
            Some(TransportType::Tcp),
        ),
        ("stun:example.org", false, None, None),
        ("stuns:example.org", true, None, None),
        ("stun:example.org:8000", false, Some(8000), None),
    ];
    for (text, is_secure, port, transport) in rows {
        let uri = parsed(text);
        assert_eq!(uri.host(), "example.org", "{text}");
        assert_eq!(uri.scheme().is_secure(), is_secure, "{text}");
        assert_eq!(uri.scheme().is_turn(), text.starts_with("turn"), "{text}");
        assert_eq!(uri.explicit_port(), port, "{text}");
        assert_eq!(uri.explicit_transport(), transport, "{text}");
        assert_eq!(uri.to_string(), text);
    }
}

/// RFC 8656, section 18: 3478 over UDP and TCP, 5349 over TLS and DTLS.
#[test]
fn what_a_uri_lacks_is_the_default() {
    let (udp, tcp) = (TransportType::Udp, TransportType::Tcp);
    let rows = [
        ("turn:example.org", 3478, udp),
        ("turn:example.org?transport=tcp", 3478, tcp),
        ("turns:example.org", 5349, tcp),
        ("turns:example.org?transport=udp", 5349, udp),
        ("stun:example.org", 3478, udp),
        ("stuns:example.org", 5349, tcp),
        ("turns:example.org:443", 443, tcp),
    ];
    for (text, port, transport) in rows {
        assert_eq!(
            (parsed(text).port(), parsed(text).transport()),
            (port, transport),
            "{text}"
        );
    }
}

/// RFC 3986, section 3.1: schemes in any case; section 3.2.3: a port may be empty; section 3.2.2:
/// IP literals.
#[test]
fn hosts_and_ports_of_rfc_3986() {
    assert_eq!(parsed("TURNS:example.org").scheme(), UriScheme::Turns);
    assert_eq!(
        parsed("turn:example.org?transport=TCP").transport(),
        TransportType::Tcp
    );
    assert_eq!(parsed("turn:example.org:").explicit_port(), None);
    let literal = parsed("turn:[2001:db8::1]:8000?transport=udp");
    assert_eq!((literal.host(), literal.port()), ("2001:db8::1", 8000));
    assert_eq!(literal.to_string(), "turn:[2001:db8::1]:8000?transport=udp");
    assert_eq!(parsed("turn:[::1]").port(), 3478);
    assert_eq!(parsed("turn:192.0.2.1:1").to_string(), "turn:192.0.2.1:1");
}

/// Names of 253 and 254 bytes, and labels of 63 and 64 (RFC 1035, section 2.3.4). Names that have
/// digits, and a dot at the end.
#[test]
fn names() {
    let name = format!("{}aaa", format!("{}.", "a".repeat(49)).repeat(5));
    assert_eq!(parsed(&format!("turn:{name}")).host(), name);
    assert_eq!(parsed(&format!("turn:{name}.")).host(), name);
    let longer = format!("turn:{name}a").parse::<TurnUri>();
    assert_eq!(longer, Err(UriError::Host));
    let label = |size: usize| format!("turn:{}.org", "a".repeat(size)).parse::<TurnUri>();
    assert!(label(63).is_ok());
    assert_eq!(label(64), Err(UriError::Host));
    for host in [
        "1.example",
        "example.org1",
        "localhost",
        "a_b.example",
        "0xg",
    ] {
        assert_eq!(parsed(&format!("turn:{host}")).host(), host);
    }
    assert_eq!(
        parsed("turn:example.org.:1").to_string(),
        "turn:example.org:1"
    );
}

#[test]
fn addresses_are_resolved_with_the_port() {
    let resolved =
        |text: &str| -> Vec<SocketAddr> { parsed(text).to_socket_addrs().unwrap().collect() };
    assert_eq!(
        resolved("turn:192.0.2.1"),
        ["192.0.2.1:3478".parse().unwrap()]
    );
    assert_eq!(
        resolved("turns:[2001:db8::1]"),
        ["[2001:db8::1]:5349".parse().unwrap()]
    );
}

#[test]
fn each_refusal_has_a_name() {
    let rows = [
        ("", UriError::Scheme),
        ("example.org", UriError::Scheme),
        ("http:example.org", UriError::Scheme),
        (" turn:example.org", UriError::Scheme),
        ("turn://example.org", UriError::Slashes),
        ("turn:alice@example.org", UriError::UserInfo),
        ("turn:", UriError::EmptyHost),
        ("turn::3478", UriError::EmptyHost),
        ("turn:?transport=udp", UriError::EmptyHost),
        ("turn:exa mple.org", UriError::Host),
        ("turn:example.org/path", UriError::Host),
        ("turn:ex%61mple.org", UriError::Host),
        ("turn:bücher.example", UriError::Host),
        ("turn:example.org#part", UriError::Host),
        ("turn:example!org", UriError::Host),
        ("turn:example~org", UriError::Host),
        ("turn:.", UriError::Host),
        ("turn:example..org", UriError::Host),
        ("turn:.example.org", UriError::Host),
        ("turn:256.0.2.1", UriError::Host),
        ("turn:192.0.2", UriError::Host),
        ("turn:127.1", UriError::Host),
        ("turn:2130706433", UriError::Host),
        ("turn:0x7f000001", UriError::Host),
        ("turn:[2001:db8::1", UriError::Ipv6Address),
        ("turn:[192.0.2.1]", UriError::Ipv6Address),
        ("turn:[fe80::1%25eth0]", UriError::Ipv6Address),
        ("turn:[::1]3478", UriError::Ipv6Address),
        ("turn:[v1.fe]", UriError::Ipv6Address),
        ("turn:2001:db8::1", UriError::Host),
        ("turn:abcd:db8::1", UriError::Port),
        ("turn:example.org:0", UriError::Port),
        ("turn:example.org:65536", UriError::Port),
        ("turn:example.org:+1", UriError::Port),
        ("turn:example.org:80a", UriError::Port),
        ("turn:example.org?", UriError::Query),
        ("turn:example.org?transport", UriError::Query),
        ("turn:example.org?ttl=1", UriError::Query),
        ("stun:example.org?transport=udp", UriError::Query),
        (
            "turn:example.org?transport=sctp",
            UriError::Transport("sctp".to_string()),
        ),
        (
            "turn:example.org?transport=",
            UriError::Transport(String::new()),
        ),
        (
            "turn:example.org?transport=udp&x=1",
            UriError::Transport("udp&x=1".to_string()),
        ),
    ];
    for (text, refusal) in rows {
        assert_eq!(text.parse::<TurnUri>(), Err(refusal), "{text:?}");
    }
}
