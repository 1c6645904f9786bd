//! Addresses, transports and moments as they are told to C, and as C tells them.

use std::net::{IpAddr, Ipv4Addr, Ipv6Addr, SocketAddr};
use std::time::Duration;

use crate::api::TransportType;
use crate::sys;

const FAMILY_4: u8 = 4;
const FAMILY_6: u8 = 6;

/// An address, told to C.
pub(crate) fn told(address: SocketAddr) -> sys::turn_address {
    let (ip, family) = match address.ip() {
        IpAddr::V4(v4) => {
            let [a, b, c, d] = v4.octets();
            ([a, b, c, d, 0, 0, 0, 0, 0, 0, 0, 0, 0, 0, 0, 0], FAMILY_4)
        }
        IpAddr::V6(v6) => (v6.octets(), FAMILY_6),
    };
    let port = address.port();
    sys::turn_address { ip, port, family }
}

/// An address without a port, told to C.
pub(crate) fn told_ip(ip: IpAddr) -> sys::turn_address {
    told(SocketAddr::new(ip, 0))
}

/// An address that C told. It has no flow information and no scope.
pub(crate) fn read(address: &sys::turn_address) -> SocketAddr {
    let [a, b, c, d, ..] = address.ip;
    let ip = match address.family {
        FAMILY_6 => IpAddr::V6(Ipv6Addr::from(address.ip)),
        _ => IpAddr::V4(Ipv4Addr::new(a, b, c, d)),
    };
    SocketAddr::new(ip, address.port)
}

/// The number of a transport in IP.
pub(crate) fn told_transport(transport: TransportType) -> u32 {
    match transport {
        TransportType::Udp => sys::TURN_UDP,
        TransportType::Tcp => sys::TURN_TCP,
    }
}

/// A transport that C told by its number in IP.
pub(crate) fn read_transport(number: u32) -> TransportType {
    match number {
        sys::TURN_TCP => TransportType::Tcp,
        _ => TransportType::Udp,
    }
}

/// A moment, told to C: in nanoseconds. Behind the last that C takes there is none.
pub(crate) fn told_moment(now: Duration) -> u64 {
    u64::try_from(now.as_nanos())
        .unwrap_or(sys::TURN_MOMENT_MAX)
        .min(sys::TURN_MOMENT_MAX)
}

/// A wait, told to C: in milliseconds. What is less than one counts as one.
pub(crate) fn told_wait(wait: Duration) -> u32 {
    const NANOSECONDS: u128 = 1_000_000;
    u32::try_from(wait.as_nanos().div_ceil(NANOSECONDS)).unwrap_or(u32::MAX)
}

#[cfg(test)]
mod tests {
    use super::*;

    #[test]
    fn an_address_is_told_in_the_order_of_the_network() {
        let v4 = told("1.2.3.4:258".parse().unwrap());
        assert_eq!(
            (&v4.ip[..5], v4.port, v4.family),
            (&[1, 2, 3, 4, 0][..], 258, 4)
        );
        let v6 = told("[102:304::ff]:9".parse().unwrap());
        assert_eq!(
            (&v6.ip[..5], v6.ip[15], v6.port, v6.family),
            (&[1, 2, 3, 4, 0][..], 255, 9, 6)
        );
    }

    #[test]
    fn an_address_is_read_back() {
        for text in ["198.51.100.1:9000", "[2001:db8::7]:0", "0.0.0.0:65535"] {
            assert_eq!(read(&told(text.parse().unwrap())).to_string(), text);
        }
    }

    #[test]
    fn moments_end_where_the_header_says() {
        const LAST: u64 = 4_611_686_018_427_387_904;
        assert_eq!(told_moment(Duration::from_nanos(7)), 7);
        assert_eq!(told_moment(Duration::from_nanos(LAST - 1)), LAST - 1);
        assert_eq!(told_moment(Duration::from_nanos(LAST + 1)), LAST);
        assert_eq!(told_moment(Duration::MAX), LAST);
    }

    #[test]
    fn waits_are_rounded_up() {
        assert_eq!(told_wait(Duration::ZERO), 0);
        assert_eq!(told_wait(Duration::from_micros(1)), 1);
        assert_eq!(told_wait(Duration::from_millis(600)), 600);
        assert_eq!(told_wait(Duration::MAX), u32::MAX);
    }
}
