//! What the examples share: a client's turns, in one loop around `poll`, over a line to the server.

mod options;
mod tally;

use std::error::Error;
use std::io::ErrorKind;
use std::net::{SocketAddr, UdpSocket};
use std::process::ExitCode;
use std::time::{Duration, Instant};

use options::{Options, Peer};
use tally::Tally;
use turn_client::{
    AddressFamily, IntegrityAlgorithm, Transmit, TransportType, TurnCause, TurnClientApi,
    TurnConfig, TurnCredentials, TurnEvent, TurnPeerData, TurnPollRet, TurnRecvRet,
};

/// How long the last payloads are waited for.
const PATIENCE: Duration = Duration::from_secs(2);
/// How long it waits at least where the client wants a turn, and does nothing in it.
const PAUSE: Duration = Duration::from_millis(1);
/// How long it waits at most: the system may round a socket's timeout up by an eighth, of half an
/// hour by more than the minute in which an allocation is renewed.
const LONGEST: Duration = Duration::from_secs(60);
/// Bytes that are read at once; no datagram is larger.
const IN_MAX: usize = 65_536;
/// The transport between the server and the peer.
const BETWEEN: TransportType = TransportType::Udp;

const ALL_BACK: u8 = 0;
const SOME_LOST: u8 = 1;
const BAD_USAGE: u8 = 2;
const FAILED: u8 = 3;
pub const NO_ANSWER: u8 = 4;

/// What went wrong, with the exit status that tells it.
pub struct Failure {
    status: u8,
    text: String,
}

impl Failure {
    pub fn new(status: u8, text: String) -> Self {
        Self { status, text }
    }
}

impl<E: Error> From<E> for Failure {
    fn from(error: E) -> Self {
        Self::new(FAILED, error.to_string())
    }
}

/// Opens a line to a server.
pub type Open = fn(SocketAddr) -> Result<Box<dyn Line>, Failure>;

/// A cause as it is printed. The reason phrase is the server's, so control characters are left out.
fn text_of(cause: &TurnCause) -> String {
    let word = match cause {
        TurnCause::Rejected {
            code,
            reason,
            is_signed,
        } => {
            let signed = if *is_signed { "signed" } else { "unsigned" };
            return format!("rejected {code} {signed} {}", printable(reason));
        }
        TurnCause::Unanswered => "unanswered",
        TurnCause::Integrity => "integrity",
        TurnCause::NoCommonAlgorithm => "no-algorithm",
        TurnCause::OtherFamily => "other-family",
        TurnCause::OutOfMemory => "no-memory",
        TurnCause::Deleted => "deleted",
        TurnCause::Expired => "expired",
        TurnCause::SocketClosed => "socket-closed",
        TurnCause::Unusable => "unusable",
        _ => "another",
    };
    word.to_string()
}

fn printable(text: &str) -> String {
    text.chars().filter(|it| !it.is_control()).collect()
}

/// What leads to the server.
pub trait Line {
    fn local_addr(&self) -> std::io::Result<SocketAddr>;
    fn send(&mut self, bytes: &[u8]) -> std::io::Result<()>;
    /// Waits for what comes: its size, or none where nothing does. Of a stream 0 is its end.
    fn receive(&mut self, bytes: &mut [u8], wait: Duration) -> std::io::Result<Option<usize>>;
}

/// Whether a read only came to its time's end, or was interrupted.
pub fn is_nothing(error: &std::io::Error) -> bool {
    matches!(
        error.kind(),
        ErrorKind::WouldBlock | ErrorKind::TimedOut | ErrorKind::Interrupted
    )
}

/// Makes a client: the `new` of its type.
pub type New = fn(SocketAddr, SocketAddr, TurnConfig) -> Result<Box<dyn TurnClientApi>, Failure>;

/// Starts a peer on loopback that sends back what it gets: its address.
fn start_echo() -> std::io::Result<SocketAddr> {
    let socket = UdpSocket::bind("127.0.0.1:0")?;
    let address = socket.local_addr();
    std::thread::spawn(move || {
        let mut bytes = [0; IN_MAX];
        while let Ok((size, from)) = socket.recv_from(&mut bytes) {
            let Some(bytes) = bytes.get(..size) else {
                return;
            };
            if socket.send_to(bytes, from).is_err() {
                return;
            }
        }
    });
    address
}

struct Run {
    new: New,
    client: Box<dyn TurnClientApi>,
    line: Box<dyn Line>,
    start: Instant,
    peer: Option<SocketAddr>,
    tally: Tally,
    /// When the next payload goes; and the time between two at least.
    next: Duration,
    interval: Duration,
    /// How long the address is kept; and until when, once there is one.
    kept: Duration,
    keeps_until: Option<Duration>,
    has_no_channel: bool,
    has_heard: bool,
    is_ready: bool,
    is_deleted: bool,
    /// Whether it may go on at a server that a response 300 names; and that server.
    follows: bool,
    elsewhere: Option<SocketAddr>,
    /// What went wrong first: then the address is given back.
    failure: Option<Failure>,
}

impl Run {
    fn now(&self) -> Duration {
        self.start.elapsed()
    }

    fn say(&self, what: impl std::fmt::Display) {
        println!("{:8.3}  {what}", self.now().as_secs_f64());
    }

    fn fail(&mut self, status: u8, text: String) {
        self.failure.get_or_insert(Failure::new(status, text));
    }

    // ---- turns

    /// Sends what is due, polls, and follows events: until when nothing is to be done; none where
    /// the client has ended.
    fn turn(&mut self) -> Result<Option<Duration>, Failure> {
        loop {
            while let Some(transmit) = self.client.poll_transmit(self.start.elapsed())? {
                self.line.send(transmit.data)?;
            }
            let answer = self.client.poll(self.now())?;
            let mut has_happened = false;
            while let Some((event, cause)) = self.client.poll_event_with_cause() {
                self.say(format_args!("{event:?}"));
                self.say_cause(cause.as_ref());
                self.follow(event, cause.as_ref())?;
                has_happened = true;
            }
            match answer {
                TurnPollRet::Closed => return Ok(None),
                TurnPollRet::WaitUntil(until) if !has_happened => return Ok(Some(until)),
                TurnPollRet::WaitUntil(_) | TurnPollRet::TcpClose { .. } => {}
                // for connections to peers, which aren't asked for here
                TurnPollRet::AllocateTcpSocket { id, peer_addr, .. } => self
                    .client
                    .allocated_tcp_socket(id, peer_addr, None, self.start.elapsed())?,
            }
        }
    }

    /// Says why an event reports a failure, and which server a response 300 named.
    fn say_cause(&self, cause: Option<&TurnCause>) {
        if let Some(cause) = cause {
            self.say(format_args!("cause: {}", text_of(cause)));
        }
        if let Some(server) = self.client.alternate_server() {
            let domain = self.client.alternate_domain().unwrap_or_default();
            let line = format!("alternate server: {server} {}", printable(&domain));
            self.say(line.trim_end());
        }
    }

    /// Says what the server told beside the relayed address.
    fn say_granted(&self) {
        if let Some(address) = self.client.mapped_address() {
            self.say(format_args!("public address: {address}"));
        }
        if let Some(token) = self.client.reservation_token() {
            self.say(format_args!("reservation token: {token:016x}"));
        }
    }

    /// Asks for what an event allows for.
    fn follow(&mut self, event: TurnEvent, cause: Option<&TurnCause>) -> Result<(), Failure> {
        let (now, why) = (self.now(), cause.map(text_of).unwrap_or_default());
        match (event, self.peer) {
            _ if self.is_deleted => {}
            (TurnEvent::AllocationCreated(..), peer) => {
                self.keeps_until = Some(now + self.kept);
                self.say_granted();
                if let Some(peer) = peer {
                    self.client.create_permission(BETWEEN, peer.ip(), now)?;
                }
            }
            (TurnEvent::PermissionCreated(..), Some(peer)) if !self.has_no_channel => {
                self.client.bind_channel(BETWEEN, peer, now)?;
            }
            (TurnEvent::PermissionCreated(..) | TurnEvent::ChannelCreated(..), _) => {
                self.is_ready = true
            }
            (TurnEvent::AllocationCreateFailed(_), _) if self.goes_elsewhere() => {}
            (TurnEvent::AllocationCreateFailed(_), _) if !self.has_heard => {
                self.fail(
                    NO_ANSWER,
                    format!("no answer from {}", self.client.remote_addr()),
                );
            }
            (TurnEvent::AllocationCreateFailed(_), _) => {
                self.fail(FAILED, format!("no address: {why}"));
            }
            _ => self.fail(FAILED, format!("no permission or no channel: {why}")),
        }
        Ok(())
    }

    /// Whether a failed allocation is not the end: the server named another one, and the example
    /// goes on there, once.
    fn goes_elsewhere(&mut self) -> bool {
        if self.follows {
            self.elsewhere = self.client.alternate_server();
        }
        self.elsewhere.is_some()
    }

    /// Makes a client at the server that the first one was directed to. That is done once.
    fn go_elsewhere(
        &mut self,
        open: Open,
        server: SocketAddr,
        config: TurnConfig,
    ) -> Result<(), Failure> {
        self.say(format_args!("goes on with {server}"));
        (self.follows, self.elsewhere, self.has_heard) = (false, None, false);
        self.line = open(server)?;
        self.client = (self.new)(self.line.local_addr()?, server, config)?;
        Ok(())
    }

    // ---- payloads

    fn has_to_send(&self) -> bool {
        self.is_ready && !self.is_deleted && self.tally.sent() < self.tally.count
    }

    fn send_due(&mut self) -> Result<(), Failure> {
        let now = self.now();
        let Some(peer) = self.peer.filter(|_| self.has_to_send() && now >= self.next) else {
            return Ok(());
        };
        let bytes = self.tally.next(now);
        let transmit = self.client.send_to(BETWEEN, peer, &bytes, now)?;
        self.line.send(transmit.data)?;
        self.next = now + self.interval;
        Ok(())
    }

    fn take(&mut self, given: TurnPeerData) {
        if !self.tally.comes(given.data(), self.now()) {
            self.say(format_args!(
                "{} bytes of {}, which nobody waits for",
                given.data().len(),
                given.peer
            ));
        }
    }

    /// Hands in what came, and takes what waits behind it.
    fn feed(&mut self, bytes: &[u8]) -> Result<(), Failure> {
        let (from, to) = (self.client.remote_addr(), self.client.local_addr());
        let came = Transmit::new(bytes, self.client.transport(), from, to);
        match self.client.recv(came, self.now())? {
            TurnRecvRet::Handled => self.has_heard = true,
            TurnRecvRet::PeerData(given) => self.take(given),
            TurnRecvRet::Ignored(_) => {}
            report => self.say(format_args!("{report:?}")),
        }
        while let Some(given) = self.client.poll_recv(self.now())? {
            self.take(given);
        }
        Ok(())
    }

    // ---- the loop

    /// Until when there is nothing to do where nothing comes.
    fn due(&self, until: Duration) -> Duration {
        let now = self.now();
        let sending = self.has_to_send().then_some(self.next);
        let keeping = self.keeps_until.filter(|it| *it > now && !self.is_deleted);
        let is_awaiting = !self.is_deleted && self.tally.back < self.tally.sent();
        let awaiting = is_awaiting.then_some(self.tally.last + PATIENCE);
        [sending, keeping, awaiting]
            .into_iter()
            .flatten()
            .fold(until, Duration::min)
    }

    /// Waits for what comes, and takes it: whether more may come.
    fn receive(&mut self, until: Duration) -> Result<bool, Failure> {
        let mut bytes = [0; IN_MAX];
        let wait = self
            .due(until)
            .saturating_sub(self.now())
            .clamp(PAUSE, LONGEST);
        let Some(size) = self.line.receive(&mut bytes, wait)? else {
            return Ok(true);
        };
        self.feed(bytes.get(..size).unwrap_or_default())?;
        let is_over = size == 0 && self.client.transport() == TransportType::Tcp;
        if is_over && !self.is_deleted {
            return Err(Failure::new(
                FAILED,
                "the server closed the connection".to_string(),
            ));
        }
        Ok(!is_over)
    }

    fn is_done(&self) -> bool {
        let (now, tally) = (self.now(), &self.tally);
        let has_sent = self.peer.is_none() || (self.is_ready && tally.sent() == tally.count);
        let is_back = tally.back == tally.sent() || now >= tally.last + PATIENCE;
        self.keeps_until.is_some_and(|it| now >= it) && has_sent && is_back
    }

    fn run(&mut self) -> Result<(), Failure> {
        while let Some(until) = self.turn()? {
            if !self.is_deleted && (self.failure.is_some() || self.is_done()) {
                self.say("gives the address back");
                self.is_deleted = true;
                if self.client.delete(self.now()).is_err() {
                    break;
                }
                continue;
            }
            self.send_due()?;
            if !self.receive(until)? {
                break;
            }
        }
        match self.failure.take() {
            Some(failure) => Err(failure),
            None if self.is_deleted || self.elsewhere.is_some() => Ok(()),
            None => Err(Failure::new(
                FAILED,
                "the address is gone: the server didn't renew it".to_string(),
            )),
        }
    }
}

// ---- the beginning and the end

fn config(options: &Options, peer: Option<SocketAddr>) -> TurnConfig {
    let mut config = TurnConfig::new(TurnCredentials::new(&options.user, &options.password));
    if peer.is_some_and(|it| it.is_ipv6()) {
        config.set_address_family(AddressFamily::IPV6);
    }
    if options.is_sha256 {
        config.set_supported_integrity(IntegrityAlgorithm::Sha256);
    }
    config.set_short_lifetimes(!options.ignores_short_lifetimes);
    config.set_relayed_port(options.port);
    config
}

/// Does all of it: the tally, and what went wrong.
fn run(options: &Options, open: Open, new: New) -> Result<Tally, Failure> {
    let peer = match options.peer {
        Peer::None => None,
        Peer::Echo => Some(start_echo()?),
        Peer::At(peer) => Some(peer),
    };
    let line = open(options.server)?;
    let mut run = Run {
        new,
        client: new(line.local_addr()?, options.server, config(options, peer))?,
        line,
        start: Instant::now(),
        peer,
        tally: Tally::new(if peer.is_some() { options.count } else { 0 }, options.size),
        next: Duration::ZERO,
        interval: options.interval,
        kept: options.kept,
        keeps_until: None,
        has_no_channel: options.has_no_channel,
        has_heard: false,
        is_ready: false,
        is_deleted: false,
        follows: options.follows,
        elsewhere: None,
        failure: None,
    };
    run.run()?;
    if let Some(server) = run.elsewhere {
        run.go_elsewhere(open, server, config(options, peer))?;
        run.run()?;
    }
    Ok(run.tally)
}

/// The exit status of an example. `open` makes its line to a server.
pub fn main_over(open: Open, new: New) -> ExitCode {
    let mut words = std::env::args();
    let name = words.next().unwrap_or_default();
    let options = match options::read(words) {
        Ok(Some(options)) => options,
        Ok(None) => {
            print!("{name} {}", options::USAGE);
            return ExitCode::from(ALL_BACK);
        }
        Err(wrong) => {
            eprintln!("{name}: {wrong}; --help tells more");
            return ExitCode::from(BAD_USAGE);
        }
    };
    match run(&options, open, new) {
        Ok(tally) => {
            let is_lost = tally.back < tally.count;
            tally.print();
            ExitCode::from(if is_lost { SOME_LOST } else { ALL_BACK })
        }
        Err(failure) => {
            eprintln!("{name}: {}", failure.text);
            ExitCode::from(failure.status)
        }
    }
}
