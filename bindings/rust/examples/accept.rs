//! Waits until a peer opens a connection (RFC 6062), prints what it sends and sends it back, until
//! the peer closes it: an own loop around `poll`, with a thread for each socket that is read.
//!
//!     TURN_PASSWORD=secret cargo run --example accept -- --server 127.0.0.1:3478 --user alice \
//!         --accept 127.0.0.1 --attempt-indications
//!
//! `--help` tells the options and the exit status.

use std::collections::HashMap;
use std::error::Error;
use std::io::{Read, Write};
use std::net::{IpAddr, Shutdown, SocketAddr, TcpStream};
use std::process::ExitCode;
use std::sync::mpsc::{channel, Receiver, RecvTimeoutError, Sender};
use std::time::{Duration, Instant};

use turn_client::{
    AddressFamily, Transmit, TransportType, TurnClientApi, TurnClientTcp, TurnConfig,
    TurnCredentials, TurnEvent, TurnPollRet, TurnRecvRet,
};

const USAGE: &str = "\
accept [OPTION..]: accepts a connection that a peer opens through a TURN server (RFC 6062)

  --server ADDRESS   the server, as 127.0.0.1:3478, over TCP
  --user NAME        whose address it is. The password is that of the variable TURN_PASSWORD
  --accept IP        waits until a peer at IP opens a connection, prints its bytes and sends them back
  --seconds N        for how long at most; without it for ever
  --attempt-indications   it may be announced by an indication, as coturn does, which nobody signs
  --help

Exit status: 0 the peer closed its connection; 1 no connection came; 2 options that can't be read; 3 the server
refused something, or the client failed
";

const SOME_LOST: u8 = 1;
const BAD_USAGE: u8 = 2;
const FAILED: u8 = 3;
const PATIENCE: Duration = Duration::from_secs(10);
const LONGEST: Duration = Duration::from_secs(60);
const SHORTEST: Duration = Duration::from_millis(1);
const IN_MAX: usize = 65_536;

struct Options {
    server: SocketAddr,
    peer: IpAddr,
    config: TurnConfig,
    until: Option<Duration>,
}

/// Reads the options: nothing if help was asked for.
fn read(mut words: impl Iterator<Item = String>) -> Result<Option<Options>, Box<dyn Error>> {
    let (mut server, mut user, mut peer, mut seconds, mut are_accepted) =
        (None, None, None, None, false);
    while let Some(word) = words.next() {
        let mut value = || words.next().ok_or(format!("{word} wants a value"));
        match word.as_str() {
            "--help" => return Ok(None),
            "--server" => server = Some(value()?.parse()?),
            "--user" => user = Some(value()?),
            "--accept" => peer = Some(value()?.parse()?),
            "--seconds" => seconds = Some(Duration::from_secs(value()?.parse::<u32>()?.into())),
            "--attempt-indications" => are_accepted = true,
            _ => return Err(format!("{word} is no option").into()),
        }
    }
    let (server, user, peer): (SocketAddr, String, IpAddr) = (
        server.ok_or("a server is wanted")?,
        user.ok_or("a user is wanted")?,
        peer.ok_or("a peer is wanted")?,
    );
    let password = std::env::var("TURN_PASSWORD")?;
    let mut config = TurnConfig::new(TurnCredentials::new(&user, &password));
    config.set_allocation_transport(TransportType::Tcp);
    config.set_attempt_indications(are_accepted);
    if peer.is_ipv6() {
        config.set_address_family(AddressFamily::IPV6);
    }
    Ok(Some(Options {
        server,
        peer,
        config,
        until: seconds,
    }))
}

/// What came over a socket, by its own address: no bytes at its end.
type Chunk = (SocketAddr, Vec<u8>);

/// Opens a connection to the server, and a thread that reads it.
fn open(server: SocketAddr, chunks: &Sender<Chunk>) -> std::io::Result<(SocketAddr, TcpStream)> {
    let stream = TcpStream::connect_timeout(&server, PATIENCE)?;
    stream.set_nodelay(true)?;
    stream.set_write_timeout(Some(PATIENCE))?;
    let (own, mut reader, chunks) = (stream.local_addr()?, stream.try_clone()?, chunks.clone());
    std::thread::spawn(move || {
        let mut bytes = vec![0; IN_MAX];
        loop {
            let size = reader.read(&mut bytes).unwrap_or(0);
            let chunk = bytes.get(..size).unwrap_or_default().to_vec();
            if chunks.send((own, chunk)).is_err() || size == 0 {
                return;
            }
        }
    });
    Ok((own, stream))
}

struct Run {
    client: TurnClientTcp,
    options: Options,
    start: Instant,
    sender: Sender<Chunk>,
    chunks: Receiver<Chunk>,
    /// The connections to the server, by their own addresses.
    streams: HashMap<SocketAddr, TcpStream>,
    relayed: Option<SocketAddr>,
    /// The peer whose connection is bound; and whether that is over.
    accepted: Option<SocketAddr>,
    has_ended: bool,
}

impl Run {
    fn new(options: Options) -> Result<Self, Box<dyn Error>> {
        let (sender, chunks) = channel();
        let (own, stream) = open(options.server, &sender)?;
        Ok(Self {
            client: TurnClientTcp::new(own, options.server, options.config.clone())?,
            options,
            start: Instant::now(),
            sender,
            chunks,
            streams: HashMap::from([(own, stream)]),
            relayed: None,
            accepted: None,
            has_ended: false,
        })
    }

    fn now(&self) -> Duration {
        self.start.elapsed()
    }

    fn say(&self, what: impl std::fmt::Display) {
        println!("{:8.3}  {what}", self.now().as_secs_f64());
    }

    /// Takes turns until there is nothing to do: until when. `None` if the client has ended.
    fn turns(&mut self) -> Result<Option<Duration>, Box<dyn Error>> {
        loop {
            while let Some(transmit) = self.client.poll_transmit(self.start.elapsed())? {
                if let Some(stream) = self.streams.get_mut(&transmit.from) {
                    stream.write_all(transmit.data)?;
                }
            }
            let answer = self.client.poll(self.now())?;
            let mut has_happened = false;
            while let Some(event) = self.client.poll_event() {
                has_happened = true;
                self.follow(event)?;
            }
            match answer {
                TurnPollRet::Closed => return Ok(None),
                TurnPollRet::WaitUntil(until) if !has_happened => return Ok(Some(until)),
                TurnPollRet::WaitUntil(_) => {}
                TurnPollRet::TcpClose { local_addr, .. } => self.close(local_addr),
                TurnPollRet::AllocateTcpSocket { id, peer_addr, .. } => {
                    let own = self.open_for(peer_addr);
                    let now = self.now();
                    self.client.allocated_tcp_socket(id, peer_addr, own, now)?;
                }
            }
        }
    }

    fn follow(&mut self, event: TurnEvent) -> Result<(), Box<dyn Error>> {
        self.say(format_args!("{event:?}"));
        match event {
            TurnEvent::AllocationCreated(_, relayed) => {
                self.relayed = Some(relayed);
                let (peer, now) = (self.options.peer, self.now());
                self.client
                    .create_permission(TransportType::Tcp, peer, now)?;
            }
            TurnEvent::PermissionCreated(..) => {
                if let Some(relayed) = self.relayed {
                    self.say(format_args!("waits for a connection to {relayed}"));
                }
            }
            TurnEvent::TcpConnected(peer) => self.accepted = Some(peer),
            // it was announced, and the server didn't bind it: another one is waited for
            TurnEvent::TcpConnectFailed(_) => {}
            _ => return Err("no address, or no permission".into()),
        }
        Ok(())
    }

    /// The own address of a socket for the connection of the peer that is waited for.
    fn open_for(&mut self, peer: SocketAddr) -> Option<SocketAddr> {
        if peer.ip() != self.options.peer || self.streams.len() > 1 {
            return None;
        }
        let (own, stream) = open(self.options.server, &self.sender).ok()?;
        self.streams.insert(own, stream);
        Some(own)
    }

    fn close(&mut self, own: SocketAddr) {
        if let Some(stream) = self.streams.remove(&own) {
            let _ = stream.shutdown(Shutdown::Both);
            self.has_ended |= self.accepted.is_some();
        }
    }

    /// Prints bytes of a peer, and sends them back.
    fn take(&mut self, peer: SocketAddr, bytes: &[u8]) -> Result<(), Box<dyn Error>> {
        println!("{} bytes of {peer}: {}", bytes.len(), bytes.escape_ascii());
        let now = self.now();
        let transmit = self.client.send_to(TransportType::Tcp, peer, bytes, now)?;
        if let Some(stream) = self.streams.get_mut(&transmit.from) {
            stream.write_all(transmit.data)?;
        }
        Ok(())
    }

    fn feed(&mut self, own: SocketAddr, bytes: &[u8]) -> Result<(), Box<dyn Error>> {
        let came = Transmit::new(bytes, TransportType::Tcp, self.options.server, own);
        let now = self.now();
        let given = match self.client.recv(came, now)? {
            TurnRecvRet::PeerData(given) => Some((given.peer, given.data().to_vec())),
            _ => None,
        };
        if let Some((peer, data)) = given {
            self.take(peer, &data)?;
        }
        while let Some(more) = self.client.poll_recv(self.start.elapsed())? {
            let (peer, data) = (more.peer, more.data().to_vec());
            self.take(peer, &data)?;
        }
        Ok(())
    }

    /// Works until the peer has closed its connection, or the time is over.
    fn work(&mut self) -> Result<(), Box<dyn Error>> {
        let mut is_deleted = false;
        while let Some(until) = self.turns()? {
            let is_late = self.options.until.is_some_and(|it| self.now() >= it);
            if !is_deleted && (self.has_ended || is_late) {
                self.say("gives the address back");
                is_deleted = true;
                if self.client.delete(self.now()).is_err() {
                    return Ok(());
                }
                continue;
            }
            let least = self.options.until.filter(|_| !is_deleted).unwrap_or(until);
            let wait = until.min(least).saturating_sub(self.now());
            match self.chunks.recv_timeout(wait.clamp(SHORTEST, LONGEST)) {
                Ok((own, bytes)) => {
                    self.feed(own, &bytes)?;
                    if bytes.is_empty() && own == self.client.local_addr() {
                        return Err("the server closed the connection".into());
                    }
                }
                Err(RecvTimeoutError::Timeout) => {}
                Err(error) => return Err(error.into()),
            }
        }
        Ok(())
    }
}

fn main() -> ExitCode {
    let options = match read(std::env::args().skip(1)) {
        Ok(Some(options)) => options,
        Ok(None) => {
            print!("{USAGE}");
            return ExitCode::SUCCESS;
        }
        Err(wrong) => {
            eprintln!("accept: {wrong}; --help tells more");
            return ExitCode::from(BAD_USAGE);
        }
    };
    let worked = Run::new(options).and_then(|mut run| run.work().map(|()| run.has_ended));
    match worked {
        Ok(true) => ExitCode::SUCCESS,
        Ok(false) => ExitCode::from(SOME_LOST),
        Err(error) => {
            eprintln!("accept: {error}");
            ExitCode::from(FAILED)
        }
    }
}
