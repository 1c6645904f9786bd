//! Raw declarations of `turn_client.h`, the C interface of a proved TURN client (RFC 8656, RFC
//! 6062, RFC 6156) that does no input or output, and the library itself to link with.
//!
//! Names, numbers and structs are the header's, in its order. What a call does, which refusals it
//! has, in which order, and which duties a caller has, the header says: it lies beside the library,
//! in `lib/x86_64-linux-gnu/turn_client.h`. The crate `turn-client` is the safe layer over these
//! declarations.
//!
//! ```
//! // A release is major * 10,000 + minor * 100 + patch.
//! // SAFETY: it takes nothing, and reads a constant.
//! let version = unsafe { turn_client_sys::turn_client_version() };
//! assert_eq!(version, turn_client_sys::TURN_CLIENT_VERSION_NUMBER);
//! ```
//!
//! # Which library is linked
//!
//! The build script takes the first of these that there is:
//!
//! 1. the folder that the variable `TURN_CLIENT_LIB` names by its whole path;
//! 2. the library in the package, for x86-64 Linux with glibc: a copy of that in `dist/` of the
//!    repository;
//! 3. what `pkg-config turn_client` names, unless the build is for another platform than it runs
//!    on.
//!
//! A package that depends on this one gets the folder of the header as `DEP_TURN_CLIENT_INCLUDE` in
//! its build script.

#![allow(non_camel_case_types)] // they are the header's
#![deny(missing_docs, missing_debug_implementations)]
#![no_std]

use core::ffi::c_void;

/// The version of the header that these declarations are of: `turn_client_version` returns the
/// library's own.
pub const TURN_CLIENT_VERSION_NUMBER: u32 = 100;

/// The call did what it says.
pub const TURN_OK: i32 = 0;
/// There is no message to send, no event, no buffered payload.
pub const TURN_NOTHING: i32 = 1;
/// The bytes are not for the client.
pub const TURN_IGNORED: i32 = 2;
/// The bytes carry data of a peer.
pub const TURN_PAYLOAD: i32 = 3;
/// The bytes carry an ICMP report on the way to a peer.
pub const TURN_ICMP: i32 = 4;
/// The client has ended, or has no allocation left: take the events, and close it.
pub const TURN_CLOSED: i32 = 5;
/// A connection to the server is to be opened, see turn_client_socket.
pub const TURN_OPEN_SOCKET: i32 = 6;
/// A connection to the server is to be closed.
pub const TURN_CLOSE_SOCKET: i32 = 7;
/// The handle is not open.
pub const TURN_NO_CLIENT: i32 = -1;
/// The handle is open already.
pub const TURN_ALREADY_OPEN: i32 = -2;
/// The family of an address is neither 4 nor 6.
pub const TURN_BAD_FAMILY: i32 = -3;
/// The name or the password is not UTF-8.
pub const TURN_BAD_TEXT: i32 = -4;
/// The buffer is smaller than the size that the call states.
pub const TURN_SMALL_BUFFER: i32 = -7;
/// A length in bytes is more than PTRDIFF_MAX, as the -1 of a recv that failed.
pub const TURN_BAD_LENGTH: i32 = -18;
/// A number is not a valid transport, family, algorithm or choice, or the settings state another
/// size than theirs.
pub const TURN_BAD_SETTING: i32 = -6;
/// The name has more than TURN_NAME_MAX bytes.
pub const TURN_LONG_NAME: i32 = -5;
/// Joined bytes are to be read first, by turn_client_read.
pub const TURN_UNREAD: i32 = -8;
/// No allocation can serve this: it was never made, the client has ended, or it has expired. Then
/// permit, permit_several, bind and connect mark it so that it is not listed any more.
pub const TURN_NO_ALLOCATION: i32 = -9;
/// It exists already, or was requested.
pub const TURN_ALREADY_EXISTS: i32 = -10;
/// There is no permission for the peer's address.
pub const TURN_NO_PERMISSION: i32 = -11;
/// No channel number is free.
pub const TURN_NO_CHANNEL: i32 = -12;
/// A channel to the peer expired a short while ago.
pub const TURN_EXPIRED_CHANNEL: i32 = -13;
/// No connection to the peer is bound.
pub const TURN_NO_SOCKET: i32 = -14;
/// More bytes than a message can carry.
pub const TURN_TOO_LARGE: i32 = -15;
/// malloc failed. After feed, pull, draw and poll the client has failed: it holds nothing, and is
/// to be closed. After other calls it goes on, and the call may be made again.
pub const TURN_NO_MEMORY: i32 = -16;
/// All bytes of the seed are zero: it was not filled.
pub const TURN_ZERO_SEED: i32 = -17;
/// There is no address, or more than TURN_PERMIT_MAX, or they are of two families.
pub const TURN_BAD_ADDRESSES: i32 = -19;

/// Bytes of a user's name.
pub const TURN_NAME_MAX: usize = 513;
/// Bytes of the text of SOFTWARE.
pub const TURN_SOFTWARE_MAX: usize = 763;
/// Bytes of any message: the size of the buffer of turn_client_draw.
pub const TURN_MESSAGE_MAX: usize = 65555;
/// Bytes of the buffer of turn_client_send beside the payload.
pub const TURN_SEND_EXTRA: usize = 64;
/// Bytes of a payload over UDP between server and peers.
pub const TURN_PAYLOAD_MAX: usize = 65504;
/// Peers of turn_client_permit_several.
pub const TURN_PERMIT_MAX: usize = 32;
/// The latest time, in nanoseconds.
pub const TURN_MOMENT_MAX: u64 = 1 << 62;

/// The transport TCP, by its protocol number in IP.
pub const TURN_TCP: u32 = 6;
/// The transport UDP, by its protocol number in IP.
pub const TURN_UDP: u32 = 17;
/// The bit of the family IPv4.
pub const TURN_IPV4: u32 = 1;
/// The bit of the family IPv6.
pub const TURN_IPV6: u32 = 2;
/// The bit of HMAC-SHA1.
pub const TURN_SHA1: u32 = 1;
/// The bit of HMAC-SHA256.
pub const TURN_SHA256: u32 = 2;
/// The bit of HMAC-SHA512.
pub const TURN_SHA512: u32 = 4;
/// The name is hidden if the server supports that (RFC 8489, section 9.2).
pub const TURN_ANONYMOUS_AUTO: u32 = 0;
/// The name is hidden, and a server that can't is given up.
pub const TURN_ANONYMOUS_REQUIRED: u32 = 1;
/// The name isn't hidden.
pub const TURN_ANONYMOUS_DISABLED: u32 = 2;
/// Any port is asked for.
pub const TURN_PORT_ANY: u32 = 0;
/// An even port is asked for (EVEN-PORT; RFC 8656, section 18.7).
pub const TURN_PORT_EVEN: u32 = 1;
/// An even port is asked for, and that the next one be reserved (EVEN-PORT with the bit R). Servers
/// refuse it beside two families.
pub const TURN_PORT_EVEN_AND_NEXT: u32 = 2;
/// The reserved port is asked for (RESERVATION-TOKEN; RFC 8656, section 18.10). The families are
/// not sent then, as the server has chosen the address already.
pub const TURN_PORT_RESERVED: u32 = 3;
/// No time between two messages.
pub const TURN_NO_PACE: u32 = u32::MAX;

/// Address: the relayed one.
pub const TURN_ALLOCATION_CREATED: u32 = 1;
/// Address: the family only.
pub const TURN_ALLOCATION_FAILED: u32 = 2;
/// Address: the peer's, with port 0.
pub const TURN_PERMISSION_CREATED: u32 = 3;
/// Rejected by the server, or ended.
pub const TURN_PERMISSION_FAILED: u32 = 4;
/// Address: the peer's.
pub const TURN_CHANNEL_CREATED: u32 = 5;
/// Rejected by the server, or ended.
pub const TURN_CHANNEL_FAILED: u32 = 6;
/// Address: the peer's; from now on bytes go both ways.
pub const TURN_TCP_CONNECTED: u32 = 7;
/// A connection to the peer was rejected, or failed; address: the peer's.
pub const TURN_TCP_FAILED: u32 = 8;

/// The event reports no failure, or no event was taken yet.
pub const TURN_CAUSE_NONE: u32 = 0;
/// The server rejected the request, by an error response.
pub const TURN_REJECTED: u32 = 1;
/// No response came in time.
pub const TURN_UNANSWERED: u32 = 2;
/// The response was not signed, or not by the password.
pub const TURN_INTEGRITY: u32 = 3;
/// The server's challenge names no algorithm that the client supports, or lacks what the settings
/// require, as to hide the name.
pub const TURN_NO_ALGORITHM: u32 = 4;
/// The server allocated addresses of other families only.
pub const TURN_OTHER_FAMILY: u32 = 5;
/// Malloc failed, and the cause was not stored.
pub const TURN_CAUSE_MEMORY: u32 = 6;
/// Turn_client_delete was called before: whatever fails or ends after it, by a response or without
/// one.
pub const TURN_DELETED: u32 = 7;
/// Its time was over.
pub const TURN_EXPIRED: u32 = 8;
/// Does not occur: a call of the Rattle crate that this header has not.
pub const TURN_SOCKET_CLOSED: u32 = 9;
/// The response was malformed, or lacked what the client needs of it.
pub const TURN_UNUSABLE: u32 = 10;

/// An address and a port. An IPv6 address has no flow information and no scope.
#[repr(C)]
#[derive(Clone, Copy, Debug, Default, PartialEq, Eq)]
pub struct turn_address {
    /// Octets in network order; of IPv4 the first four.
    pub ip: [u8; 16],
    /// In host order.
    pub port: u16,
    /// 4 or 6; 0 is no address, where a call says so.
    pub family: u8,
}

/// The settings of a client, which begin as TURN_SETTINGS_INIT. With all numbers zero except size
/// and addresses: over UDP, one IPv4 address over UDP, HMAC-SHA1 and HMAC-SHA256, the name is
/// hidden if the server supports it, requests wait as RFC 8489 says, the client is hardened, a
/// REFRESH may shorten an allocation, half an hour and any port are asked for, and two messages are
/// at least 50 ms apart.
#[repr(C)]
#[derive(Clone, Copy, Debug, Default)]
pub struct turn_settings {
    /// Sizeof(turn_settings), as the program was compiled: another size is refused.
    pub size: usize,
    /// The client's own address. It need not be the system's, but turn_client_feed has to name the
    /// same: what came to another address is ignored, but for sockets of connections.
    pub local: turn_address,
    /// The server's address: what comes from another is ignored.
    pub server: turn_address,
    /// To the server; 0 is TURN_UDP.
    pub transport: u32,
    /// Between the server and the peers; 0 is TURN_UDP; TURN_TCP only over TCP.
    pub peers: u32,
    /// Bits: of the relayed addresses; 0 is TURN_IPV4.
    pub families: u32,
    /// Bits: the supported algorithms, of which the strongest that the server has is taken; 0 is
    /// TURN_SHA1 and TURN_SHA256.
    pub integrity: u32,
    /// Whether the user's name is hidden (RFC 8489, section 9.2): auto hides it if the server
    /// supports that.
    pub anonymous: u32,
    /// How often a request is sent in all over UDP; 0: this and the waits as RFC 8489 says.
    pub sends: u32,
    /// The wait after the first transmission, in milliseconds; each next is twice as long.
    pub first_wait: u32,
    /// The longest wait between two transmissions, in milliseconds.
    pub most_wait: u32,
    /// The wait after the last transmission, in milliseconds.
    pub last_wait: u32,
    /// 0: the client is hardened. It ignores responses to no request of its own, refuses a
    /// challenge that lacks the list of algorithms which its nonce announces, and ignores what does
    /// not validate while it allocates. 1: it takes these as the RFCs allow.
    pub compatible: u32,
    /// If as many connections of an allocation wait for their socket, one more that a peer opens
    /// gets error 447 (RFC 6062); while as many messages wait to be drawn, an attempt that would
    /// get an error is ignored. 0: 64, or no limit if compatible is 1.
    pub max_connection_attempts: usize,
    /// 0: a lifetime under 600 seconds in the response to a REFRESH is believed (RFC 8656, section
    /// 8.3), unless compatible is 1. 1: such a response changes nothing, so the allocation may
    /// outlast the server's. What the response to the ALLOCATE says is believed either way.
    pub ignore_short_lifetimes: u32,
    /// In seconds: what each ALLOCATE and each REFRESH that renews asks for; 0 is 1800. The server
    /// decides.
    pub lifetime: u32,
    /// The least time between two messages that draw gives, in milliseconds; 0 is 50, and
    /// TURN_NO_PACE none. What is sent again, and responses to the server, don't wait for it.
    pub pace: u32,
    /// The port that is asked for the relayed address (RFC 8656, section 7.1); 0 is TURN_PORT_ANY.
    pub port: u32,
    /// For TURN_PORT_RESERVED: what turn_client_reservation reported of another client.
    pub reservation: u64,
    /// 0: only a signed request of the server announces a connection that a peer opens. 1: so does
    /// a CONNECTION_ATTEMPT indication (RFC 6062, section 4.4), which coturn sends. It has no
    /// signature, so whoever can write into the control connection can make one, with any ID and
    /// any peer. If as many connections wait for their socket as max_connection_attempts allows,
    /// or 64 if there is no limit, one more is ignored.
    pub attempt_indications: u32,
}

/// 32 random bytes, from the system's source of random bytes and from nowhere else.
#[repr(C)]
#[allow(missing_debug_implementations)] // it is a secret
pub struct turn_seed {
    /// The bytes.
    pub bytes: [u8; 32],
}

/// A message to send: over a transport, between two addresses. Over TCP `from` says which
/// connection to the server it goes over: the client's own, or that of a peer.
#[repr(C)]
#[derive(Clone, Copy, Debug, Default)]
pub struct turn_transmit {
    /// Bytes at the start of the buffer.
    pub size: usize,
    /// The transport: `TURN_UDP` or `TURN_TCP`.
    pub transport: u32,
    /// Where it comes from.
    pub from: turn_address,
    /// Where it goes.
    pub to: turn_address,
}

/// Data of a peer, or a report about one.
#[repr(C)]
#[derive(Clone, Copy, Debug, Default)]
pub struct turn_payload {
    /// Where the data begins in the bytes that were passed to turn_client_feed.
    pub start: usize,
    /// The number of its bytes.
    pub size: usize,
    /// Between the server and the peer.
    pub transport: u32,
    /// The peer.
    pub peer: turn_address,
    /// Over TCP only: the data is not in the bytes that were passed, and `start` is 0.
    /// turn_client_read gives it, unless its size is 0.
    pub is_joined: bool,
    /// The report, with TURN_ICMP.
    pub icmp_type: u8,
    /// The report's code, with `TURN_ICMP`.
    pub icmp_code: u8,
    /// The report's data, with `TURN_ICMP`.
    pub icmp_data: u32,
}

/// What turn_client_poll writes.
#[repr(C)]
#[derive(Clone, Copy, Debug, Default)]
pub struct turn_wait {
    /// With TURN_OK: the time until which nothing is to be done, at most 9999 s from now.
    pub until: u64,
    /// With TURN_OPEN_SOCKET: the ID of the connection.
    pub id: u32,
    /// With TURN_OPEN_SOCKET: that of the connection to open, between `from` and `to`.
    pub transport: u32,
    /// With TURN_OPEN_SOCKET (the program chooses its port) and TURN_CLOSE_SOCKET.
    pub from: turn_address,
    /// Where it goes.
    pub to: turn_address,
    /// With TURN_OPEN_SOCKET: the peer of the connection.
    pub peer: turn_address,
}

/// What happened, as `turn_client_event` writes it.
#[repr(C)]
#[derive(Clone, Copy, Debug, Default)]
pub struct turn_event {
    /// Which one: one of the numbers above.
    pub kind: u32,
    /// Between server and peers; 0 for TURN_ALLOCATION_FAILED.
    pub transport: u32,
    /// The address.
    pub address: turn_address,
}

/// What turn_client_cause writes.
#[repr(C)]
#[derive(Clone, Copy, Debug, Default)]
pub struct turn_cause {
    /// Which one: one of the numbers above.
    pub kind: u32,
    /// With TURN_REJECTED: the response's error code, 300 to 699; otherwise 0.
    pub code: u32,
    /// With TURN_REJECTED: the response was validated under the password. If not, it may be
    /// anybody's.
    pub is_signed: bool,
    /// With TURN_REJECTED: the bytes that turn_client_reason writes; otherwise 0.
    pub reason_size: usize,
    /// The server that a response 300 named which ended the client (RFC 8489, section 10); family 0
    /// if there was none.
    pub alternate: turn_address,
    /// The bytes that turn_client_domain writes; 0 if there is no name.
    pub domain_size: usize,
}

/// A relayed address.
#[repr(C)]
#[derive(Clone, Copy, Debug, Default)]
pub struct turn_relayed {
    /// Between server and peers.
    pub transport: u32,
    /// The address.
    pub address: turn_address,
}

/// A channel.
#[repr(C)]
#[derive(Clone, Copy, Debug, Default)]
pub struct turn_channel {
    /// Its number.
    pub number: u16,
    /// The peer.
    pub peer: turn_address,
}

/// A connection to a peer that has a socket.
#[repr(C)]
#[derive(Clone, Copy, Debug, Default)]
pub struct turn_connection {
    /// The socket's own address.
    pub local: turn_address,
    /// The peer.
    pub peer: turn_address,
    /// By which the server knows it.
    pub id: u32,
    /// Whether bytes go both ways.
    pub is_bound: bool,
}

/// The handle of a client. Its memory is the program's. If it is all zero, it is not open. Between
/// turn_client_open and turn_client_close it owns memory.
#[repr(C)]
#[derive(Debug)]
pub struct turn_client {
    /// The library's.
    pub private_client: *mut c_void,
    /// The library's.
    pub private_is_open: bool,
}

/// A handle that isn't open.
pub const TURN_CLIENT_INIT: turn_client = turn_client {
    private_client: core::ptr::null_mut(),
    private_is_open: false,
};

extern "C" {
    /// The version of the library: major * 10000 + minor * 100 + patch. If it is not
    /// TURN_CLIENT_VERSION_NUMBER, header and library are of two releases.
    pub fn turn_client_version() -> u32;

    /// Opens a client of this user. Nothing is sent yet: turn_client_draw gives the first request.
    pub fn turn_client_open(
        client: *mut turn_client,
        settings: *const turn_settings,
        username: *const u8,
        username_len: usize,
        password: *const u8,
        password_len: usize,
        seed: *const turn_seed,
    ) -> i32;
    /// Closes a client: frees all that it holds, and sends nothing to the server
    /// (turn_client_delete does that).
    pub fn turn_client_close(client: *mut turn_client);
    /// Sets other credentials of the user, which replace the present ones with the next challenge
    /// that the client accepts (RFC 8489, section 9.2.5): for passwords that expire, as those of a
    /// REST service do. Call it before they expire, once the server accepts the others: each
    /// challenge counts, also that for a stale nonce.
    pub fn turn_client_credentials(
        client: *mut turn_client,
        username: *const u8,
        username_len: usize,
        password: *const u8,
        password_len: usize,
    ) -> i32;
    /// Sets the text of SOFTWARE (RFC 8489, section 14.14), which the client's requests carry from
    /// now on. A new client's carry none. Call it before the first turn_client_draw to have it in
    /// each.
    pub fn turn_client_software(client: *mut turn_client, text: *const u8, text_len: usize) -> i32;
    /// Sets whether the client's requests end with FINGERPRINT (RFC 8489, section 14.7) from now
    /// on. A new client's do not. It tells a receiver that shares the socket with other protocols
    /// which messages are STUN.
    pub fn turn_client_fingerprint(client: *mut turn_client, fingerprint: bool) -> i32;
    /// Requests the end of all allocations (RFC 8656, section 8.1). For the client they are over at
    /// once; see above for what may still come. Then take turns until turn_client_poll returns
    /// TURN_CLOSED.
    pub fn turn_client_delete(client: *mut turn_client, now: u64) -> i32;

    /// Handles bytes that arrived from one address at another, at the time `now` (nanoseconds).
    pub fn turn_client_feed(
        client: *mut turn_client,
        from: *const turn_address,
        to: *const turn_address,
        bytes: *const u8,
        len: usize,
        now: u64,
        payload: *mut turn_payload,
    ) -> i32;
    /// Gives the next buffered data of a peer, over TCP. Call it after turn_client_feed until it
    /// returns TURN_NOTHING.
    pub fn turn_client_pull(client: *mut turn_client, now: u64, payload: *mut turn_payload) -> i32;
    /// Copies the joined bytes of the last payload to the start of `out`, a buffer of at least the
    /// payload's size, and frees the client's copy.
    pub fn turn_client_read(client: *mut turn_client, out: *mut u8, out_len: usize) -> i32;
    /// Writes the next message that is to be sent at `now` (nanoseconds) to the start of `out`, a
    /// buffer of at least TURN_MESSAGE_MAX bytes.
    pub fn turn_client_draw(
        client: *mut turn_client,
        now: u64,
        out: *mut u8,
        out_len: usize,
        transmit: *mut turn_transmit,
    ) -> i32;
    /// Writes what carries a payload to a peer to the start of `out`, a buffer of at least len +
    /// TURN_SEND_EXTRA bytes. The program sends it at once: the client stores nothing of it, and
    /// turn_client_draw does not give it.
    pub fn turn_client_send(
        client: *mut turn_client,
        transport: u32,
        peer: *const turn_address,
        bytes: *const u8,
        len: usize,
        now: u64,
        out: *mut u8,
        out_len: usize,
        transmit: *mut turn_transmit,
    ) -> i32;

    /// Does what is due at `now` (nanoseconds), and reports until when there is nothing to do. A
    /// later call may make something due earlier.
    pub fn turn_client_poll(client: *mut turn_client, now: u64, wait: *mut turn_wait) -> i32;
    /// Takes the oldest queued event.
    pub fn turn_client_event(client: *mut turn_client, event: *mut turn_event) -> i32;
    /// Takes the oldest allocation whose time was over, and which was not reported yet. What goes
    /// after turn_client_delete isn't reported.
    pub fn turn_client_expired(client: *mut turn_client, expired: *mut turn_relayed) -> i32;
    /// Reports why the event happened that turn_client_event wrote last, until it writes another.
    pub fn turn_client_cause(client: *mut turn_client, cause: *mut turn_cause) -> i32;
    /// Copies the reason phrase of the error response to the start of `out`, a buffer of at least
    /// cause->reason_size bytes (RFC 8489, section 14.8). It is UTF-8, of at most 763 bytes, and
    /// not ended by a zero. It is the server's, or of whoever sent the response: print it only with
    /// its control characters removed. It has no bytes if the response had none. (A phrase that is
    /// not UTF-8 makes the response malformed: TURN_UNUSABLE.).
    pub fn turn_client_reason(client: *mut turn_client, out: *mut u8, out_len: usize) -> i32;
    /// Copies the name of the domain of the server that a response 300 named (RFC 8489, section
    /// 14.16) to the start of `out`, a buffer of at least cause->domain_size bytes. It is UTF-8,
    /// and not ended by a zero; it is the server's, as a reason phrase is.
    pub fn turn_client_domain(client: *mut turn_client, out: *mut u8, out_len: usize) -> i32;
    /// Reports the client's own address as the server saw it: the XOR-MAPPED-ADDRESS of the signed
    /// response that allocated (RFC 8656, section 7.3).
    pub fn turn_client_mapped(client: *mut turn_client, mapped: *mut turn_address) -> i32;
    /// Reports the token of the port that the server reserved beside the relayed one: the
    /// RESERVATION-TOKEN of the signed response that allocated (RFC 8656, section 18.10).
    pub fn turn_client_reservation(client: *mut turn_client, token: *mut u64) -> i32;

    /// Requests a permission for a peer's address, whose port does not count (RFC 8656, section 9).
    /// It is valid for 300 seconds, and the client renews it.
    pub fn turn_client_permit(
        client: *mut turn_client,
        transport: u32,
        peer: *const turn_address,
        now: u64,
    ) -> i32;
    /// Requests permissions for the addresses of several peers, whose ports do not count, by one
    /// request (RFC 8656, section 10.1), which names each address once. The server grants all or
    /// none. Each address gets an event of its own, in the order in which they are given. Each
    /// permission is valid for 300 seconds, and the client renews it by a request of its own.
    /// `peers_len` counts elements.
    pub fn turn_client_permit_several(
        client: *mut turn_client,
        transport: u32,
        peers: *const turn_address,
        peers_len: usize,
        now: u64,
    ) -> i32;
    /// Requests a channel to a peer (RFC 8656, section 12), and a permission for its address if
    /// there is none and none was requested. The channel is valid for 600 seconds, and the client
    /// renews it.
    pub fn turn_client_bind(
        client: *mut turn_client,
        transport: u32,
        peer: *const turn_address,
        now: u64,
        until: *mut u64,
    ) -> i32;
    /// Requests a TCP connection to a peer (RFC 6062, section 4.3), over an allocation over TCP.
    /// turn_client_poll then requests its socket.
    pub fn turn_client_connect(
        client: *mut turn_client,
        peer: *const turn_address,
        now: u64,
    ) -> i32;

    /// Reports the socket that was opened for a connection after TURN_OPEN_SOCKET, or that none
    /// was.
    pub fn turn_client_socket(
        client: *mut turn_client,
        id: u32,
        peer: *const turn_address,
        local: *const turn_address,
        now: u64,
    ) -> i32;
    /// Reports that the socket of a connection was closed, by its own address and the server's.
    pub fn turn_client_closed(
        client: *mut turn_client,
        local: *const turn_address,
        remote: *const turn_address,
        now: u64,
    ) -> i32;

    /// Lists the relayed addresses: writes at most `out_len` of them, and returns how many there
    /// are.
    pub fn turn_client_relayed(
        client: *mut turn_client,
        out: *mut turn_relayed,
        out_len: usize,
    ) -> usize;
    /// The peers' addresses that have a permission in the allocation of a relayed address, with
    /// port 0. There are none if there is no such allocation.
    pub fn turn_client_permissions(
        client: *mut turn_client,
        transport: u32,
        relayed: *const turn_address,
        out: *mut turn_address,
        out_len: usize,
    ) -> usize;
    /// Returns whether there is a permission for a peer's address; false if the transport or the
    /// family is not valid, or the handle is not open.
    pub fn turn_client_is_permitted(
        client: *mut turn_client,
        transport: u32,
        peer: *const turn_address,
    ) -> bool;
    /// Lists the channels, as `turn_client_relayed` does.
    pub fn turn_client_channels(
        client: *mut turn_client,
        out: *mut turn_channel,
        out_len: usize,
    ) -> usize;
    /// Lists the connections to peers that have a socket, as `turn_client_relayed` does.
    pub fn turn_client_connections(
        client: *mut turn_client,
        out: *mut turn_connection,
        out_len: usize,
    ) -> usize;
}
