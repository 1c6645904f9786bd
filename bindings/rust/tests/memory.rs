//! A payload for which there is no memory waits in the client: nothing is lost, and nothing else
//! comes before it. The allocator here is Rust's alone; that of the archive is tried by
//! `tests/c/refused.c`.

mod stored;

use std::alloc::{GlobalAlloc, Layout, System};
use std::ptr::null_mut;
use std::sync::atomic::{AtomicUsize, Ordering};
use std::time::Duration;

use stored::exchange;
use stored::walker::{address, Walker};
use turn_client::{RecvError, SendError, Transmit, TransportType, TurnPeerData, TurnRecvRet};

/// Refuses what has this many bytes or more.
static BOUND: AtomicUsize = AtomicUsize::new(usize::MAX);

struct Bounded;

// SAFETY: it is the system's allocator, which may refuse more.
unsafe impl GlobalAlloc for Bounded {
    unsafe fn alloc(&self, layout: Layout) -> *mut u8 {
        if layout.size() >= BOUND.load(Ordering::Relaxed) {
            return null_mut();
        }
        unsafe { System.alloc(layout) }
    }

    unsafe fn dealloc(&self, at: *mut u8, layout: Layout) {
        unsafe { System.dealloc(at, layout) }
    }
}

#[global_allocator]
static ALLOCATOR: Bounded = Bounded;

/// Does something while what has this many bytes is refused.
fn bounded<T>(bound: usize, what: impl FnOnce() -> T) -> T {
    BOUND.store(bound, Ordering::Relaxed);
    let outcome = what();
    BOUND.store(usize::MAX, Ordering::Relaxed);
    outcome
}

const LATER: Duration = Duration::from_millis(250);
const SIZE: usize = 5000;
const PEER: &str = "198.51.100.1:9000";

/// A channel frame of the first channel with data of this byte (RFC 8656, section 12.4).
fn frame(byte: u8) -> Vec<u8> {
    let mut frame = vec![0x40, 0x00, 0x13, 0x88];
    frame.resize(frame.len() + SIZE, byte);
    frame
}

fn came(bytes: &[u8]) -> Transmit<&[u8]> {
    Transmit::new(
        bytes,
        TransportType::Tcp,
        address("192.0.2.2:3478"),
        address("192.0.2.1:5000"),
    )
}

fn is_data(given: Result<Option<TurnPeerData>, RecvError>, byte: u8) -> bool {
    matches!(given, Ok(Some(it)) if it.data() == [byte; SIZE])
}

#[test]
fn nothing_is_lost_without_memory() {
    let mut walker = Walker::walked(exchange("over TCP"), 3);
    let client = walker.client();
    let (first, both) = (frame(1), [&frame(1)[100..], &frame(2)].concat());
    assert_eq!(
        client.recv(came(&first[..100]), LATER),
        Ok(TurnRecvRet::Handled)
    );

    assert_eq!(
        bounded(SIZE, || client.recv(came(&both), LATER)),
        Ok(TurnRecvRet::Handled)
    );
    assert_eq!(client.recv(came(b"more"), LATER), Err(RecvError::Unread));
    assert_eq!(
        bounded(SIZE, || client.poll_recv(LATER)),
        Err(RecvError::Unread)
    );
    assert!(is_data(client.poll_recv(LATER), 1));
    assert_eq!(
        bounded(SIZE, || client.poll_recv(LATER)),
        Err(RecvError::Unread)
    );
    assert!(is_data(client.poll_recv(LATER), 2));
    assert_eq!(client.poll_recv(LATER), Ok(None));

    let long = vec![0; 1 << 20];
    let sent = bounded(SIZE, || {
        client
            .send_to(TransportType::Tcp, address(PEER), &long, LATER)
            .err()
    });
    assert_eq!(sent, Some(SendError::NoMemory));
}
