//! A client that is dropped while it is open frees what it holds. This test is alone in its
//! process, since it looks at the memory of all of that.

mod stored;

use std::time::Duration;

use stored::exchange;
use stored::walker::open;

/// Of so many clients, the smallest that isn't freed, 1 kB, would add up to more than what is
/// allowed for.
const CLIENTS: usize = 5_000;
const ALLOWED: usize = 4 << 20;

/// Bytes of memory that the process has, as Linux tells.
fn resident() -> usize {
    const PAGE: usize = 4096;
    let told = std::fs::read_to_string("/proc/self/statm").unwrap();
    told.split(' ').nth(1).unwrap().parse::<usize>().unwrap() * PAGE
}

/// A client that waits for the answer to its first request goes.
fn open_and_drop() {
    let mut client = open(exchange("over UDP"));
    assert!(client.poll_transmit(Duration::ZERO).unwrap().is_some());
}

#[test]
fn a_dropped_client_frees_what_it_holds() {
    open_and_drop();
    let before = resident();
    (0..CLIENTS).for_each(|_| open_and_drop());
    let more = resident().saturating_sub(before);
    assert!(more < ALLOWED, "{CLIENTS} clients left {more} bytes");
}
