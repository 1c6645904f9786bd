//! Exchanges of a client with a server, as steps: what each call is given, and what is wanted of
//! it. `samples.py` writes `samples.rs` of what `tests/c/samples.py` works out by the RFCs.
#![allow(dead_code)] // each test takes what it needs

pub mod walker;

/// What a call told, by the names of `turn_client.h`. What it doesn't tell is as in `TOLD`.
#[derive(Clone, Copy, Debug, PartialEq, Eq)]
pub struct Told {
    /// A status; of getters how many there are, and 1 for true.
    pub answer: &'static str,
    /// The kind of an event, or of a cause.
    pub kind: &'static str,
    pub transport: &'static str,
    /// Of a connection or a channel; the data of a report in ICMP.
    pub number: u32,
    /// Of the error response that a cause reports.
    pub code: u32,
    pub from: &'static str,
    pub to: &'static str,
    /// The peer, or the address that an event or a getter tells.
    pub peer: &'static str,
    /// What is sent, or the data of a peer; none where it is to be read by another step.
    pub bytes: &'static [u8],
    /// Their number; of a cause that of its phrase.
    pub size: usize,
    pub domain_size: usize,
    /// Where data stands in the bytes that came.
    pub start: usize,
    pub is_joined: bool,
    pub is_bound: bool,
    pub is_signed: bool,
    pub icmp_type: u8,
    pub icmp_code: u8,
    /// Or the token of a reserved port.
    pub until: u64,
}

pub const TOLD: Told = Told {
    answer: "",
    kind: "",
    transport: "",
    number: 0,
    code: 0,
    from: "",
    to: "",
    peer: "",
    bytes: &[],
    size: 0,
    domain_size: 0,
    start: 0,
    is_joined: false,
    is_bound: false,
    is_signed: false,
    icmp_type: 0,
    icmp_code: 0,
    until: 0,
};

/// A call, what it is given, and what is wanted of it.
#[derive(Clone, Copy, Debug)]
pub struct Step {
    /// What it shows.
    pub name: &'static str,
    /// The function of `turn_client.h`, without its prefix.
    pub call: &'static str,
    /// In nanoseconds.
    pub now: u64,
    pub transport: &'static str,
    /// Of a connection; of getters which of what they hold is looked at; of `fingerprint` whether
    /// it is to be there.
    pub number: u32,
    pub from: &'static str,
    /// Where one address alone is given this is it, but for the own one of a socket.
    pub to: &'static str,
    /// Of `credentials` the name; of `permit_several` of each peer its family and its octets.
    pub bytes: &'static [u8],
    pub password: &'static [u8],
    pub want: Told,
}

const STEP: Step = Step {
    name: "",
    call: "",
    now: 0,
    transport: "",
    number: 0,
    from: "",
    to: "",
    bytes: &[],
    password: &[],
    want: TOLD,
};

/// Steps that show one thing.
pub type Part = (&'static str, &'static [Step]);

/// All that one client does, and its settings by the names of `turn_settings`.
#[derive(Clone, Copy, Debug)]
pub struct Exchange {
    pub name: &'static str,
    pub local: &'static str,
    pub server: &'static str,
    pub transport: &'static str,
    pub peers: &'static str,
    /// Bits.
    pub families: u32,
    /// Bits.
    pub integrity: u32,
    pub anonymous: &'static str,
    pub sends: u32,
    pub first_wait: u64,
    pub most_wait: u64,
    pub last_wait: u64,
    pub ignore_short_lifetimes: u32,
    pub lifetime: u32,
    pub pace: u32,
    pub port: &'static str,
    pub reservation: u64,
    pub attempt_indications: u32,
    pub parts: &'static [Part],
}

const EXCHANGE: Exchange = Exchange {
    name: "",
    local: "",
    server: "",
    transport: "",
    peers: "",
    families: 1,
    integrity: 1,
    anonymous: "",
    sends: 0,
    first_wait: 0,
    most_wait: 0,
    last_wait: 0,
    ignore_short_lifetimes: 0,
    lifetime: 1800,
    pace: 0,
    port: "",
    reservation: 0,
    attempt_indications: 0,
    parts: &[],
};

include!("samples.rs");

/// The exchange of a name.
pub fn exchange(name: &str) -> &'static Exchange {
    EXCHANGES.iter().find(|it| it.name == name).unwrap()
}
