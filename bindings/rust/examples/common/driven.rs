//! What the examples over `TurnSocket` share: options, payloads that one thread sends and another
//! one receives, and what is said.
#![allow(dead_code)] // each example takes what it needs

#[path = "tally.rs"]
mod tally;

use std::error::Error;
use std::io::{self, Read, Write};
use std::net::SocketAddr;
use std::process::ExitCode;
use std::sync::{Mutex, PoisonError};
use std::thread;
use std::time::{Duration, Instant};

use tally::Tally;
use turn_client::driver::ConnectOptions;
use turn_client::{
    AddressFamily, ConnectError, SocketError, TurnCause, TurnConfig, TurnCredentials, TurnSocket,
    TurnStream,
};

/// `TRANSPORTS` stands for the options of the transport to the server.
const USAGE: &str = "\
[OPTION..]: asks a TURN server for an address, and sends payloads through it to a peer that sends
them back

  --server HOST:PORT  the server, as 127.0.0.1:3478 or [::1]:3478
  --user NAME         whose password is the variable TURN_PASSWORD
TRANSPORTS  --peer IP:PORT      the peer, which is to send back what it gets; without it none
  --count N           how many payloads; without it 10
  --size BYTES        of each, at least 4; without it 100
  --interval MS       between two; without it 1
  --seconds N         how long the address is kept at least; without it 0
  --indications       no channel: each payload goes in an indication
  --redirects N       how many other servers are asked, which servers name
  --help

Exit status: 0 all came back, or nothing was to be sent; 1 something was lost; 2 options that can't
be read; 3 the server refused something, or the address is lost; 4 no answer, or no connection
";

const ALL_BACK: u8 = 0;
const SOME_LOST: u8 = 1;
const BAD_USAGE: u8 = 2;
const FAILED: u8 = 3;
const NO_ANSWER: u8 = 4;

/// How long the last payloads are waited for.
const PATIENCE: Duration = Duration::from_secs(2);
/// How often it looks whether all is back, or the address is lost.
const LOOKS: Duration = Duration::from_millis(20);
const IN_MAX: usize = 65_536;

// ---- options

#[derive(Default)]
pub struct Options {
    pub server: String,
    user: String,
    password: String,
    pub is_tcp: bool,
    /// A file of certificates, and the name in the server's own.
    pub trusted: String,
    pub tls_name: Option<String>,
    /// A peer to whom a connection over TCP is made.
    pub connect: Option<SocketAddr>,
    peer: Option<SocketAddr>,
    count: u32,
    size: usize,
    interval: Duration,
    kept: Duration,
    has_no_channel: bool,
    redirects: usize,
}

/// Whether an example knows an option: by the text of its options.
fn knows(transports: &str, option: &str) -> bool {
    transports.split_whitespace().any(|it| it == option)
}

fn read_options(
    mut words: impl Iterator<Item = String>,
    transports: &str,
) -> Result<Options, Box<dyn Error>> {
    let (mut server, mut user) = (None, None);
    let mut options = Options {
        password: std::env::var("TURN_PASSWORD")
            .map_err(|_| "a password is wanted: TURN_PASSWORD")?,
        count: 10,
        size: 100,
        interval: Duration::from_millis(1),
        ..Options::default()
    };
    while let Some(option) = words.next() {
        let mut value = || words.next().ok_or(format!("{option} wants a value"));
        match option.as_str() {
            "--server" => server = Some(value()?),
            "--user" => user = Some(value()?),
            "--tcp" if knows(transports, "--tcp") => options.is_tcp = true,
            "--tls" if knows(transports, "--tls") => options.trusted = value()?,
            "--tls-name" if knows(transports, "--tls-name") => options.tls_name = Some(value()?),
            "--connect" if knows(transports, "--connect") => {
                options.connect = Some(value()?.parse()?);
            }
            "--peer" => options.peer = Some(value()?.parse()?),
            "--count" => options.count = value()?.parse()?,
            "--size" => options.size = value()?.parse()?,
            "--interval" => options.interval = Duration::from_millis(value()?.parse()?),
            "--seconds" => options.kept = Duration::from_secs(value()?.parse()?),
            "--indications" => options.has_no_channel = true,
            "--redirects" => options.redirects = value()?.parse()?,
            _ => return Err(format!("{option} is no option").into()),
        }
    }
    (options.server, options.user) = server.zip(user).ok_or("a server and a user are wanted")?;
    if options.peer.or(options.connect).is_none() {
        options.count = 0;
    }
    Ok(options)
}

impl Options {
    /// What the options say of the client.
    pub fn config(&self) -> TurnConfig {
        let mut config = TurnConfig::new(TurnCredentials::new(&self.user, &self.password));
        if self
            .peer
            .or(self.connect)
            .map_or(self.server.starts_with('['), |peer| peer.is_ipv6())
        {
            config.set_address_family(AddressFamily::IPV6);
        }
        config
    }

    /// What they say of the connection.
    pub fn how(&self) -> ConnectOptions {
        let mut how = ConnectOptions::new();
        how.channels(!self.has_no_channel).follow(self.redirects);
        how
    }
}

/// What payloads go over.
pub enum Line {
    Socket(Box<TurnSocket>),
    Stream(TurnStream),
}

/// Connects to the server.
pub type Connect = fn(&Options) -> Result<Line, Box<dyn Error>>;

// ---- payloads

struct Run<'a> {
    socket: &'a TurnSocket,
    options: &'a Options,
    start: Instant,
    tally: Mutex<Tally>,
    /// Why the socket ended before it was closed.
    lost: Mutex<Option<SocketError>>,
}

impl Run<'_> {
    fn with_tally<T>(&self, what: impl FnOnce(&mut Tally) -> T) -> T {
        what(&mut self.tally.lock().unwrap_or_else(PoisonError::into_inner))
    }

    fn is_lost(&self) -> bool {
        self.lost
            .lock()
            .unwrap_or_else(PoisonError::into_inner)
            .is_some()
    }

    /// Receives until the socket is closed, or lost.
    fn receive(&self) {
        let mut bytes = vec![0; IN_MAX];
        loop {
            match self.socket.recv_from(&mut bytes) {
                Ok((size, _)) => {
                    let came = bytes.get(..size).unwrap_or_default();
                    self.with_tally(|it| it.comes(came, self.start.elapsed()));
                }
                Err(SocketError::Closed) => return,
                Err(error @ SocketError::Lost { .. }) => {
                    *self.lost.lock().unwrap_or_else(PoisonError::into_inner) = Some(error);
                    return;
                }
                Err(error) => println!("an error: {error}"),
            }
        }
    }

    fn send(&self, peer: SocketAddr) -> Result<(), SocketError> {
        for _ in 0..self.options.count {
            thread::sleep(self.options.interval);
            let payload = self.with_tally(|it| it.next(self.start.elapsed()));
            self.socket.send_to(&payload, peer)?;
        }
        Ok(())
    }

    /// Sends all, waits for the last, and keeps the address for as long as it is wanted.
    fn send_all(&self) -> Result<(), SocketError> {
        if let Some(peer) = self.options.peer {
            self.socket.permit(peer.ip())?;
            self.send(peer)?;
        }
        let (sent, kept) = (self.start.elapsed(), self.options.kept);
        let is_awaited =
            || self.with_tally(|it| it.back < it.count) && self.start.elapsed() < sent + PATIENCE;
        while !self.is_lost() && (is_awaited() || self.start.elapsed() < kept) {
            thread::sleep(LOOKS);
        }
        Ok(())
    }
}

/// Sends and receives, and gives the address back: how many payloads are missing.
fn run(options: &Options, socket: &TurnSocket) -> Result<u32, SocketError> {
    let tally = Mutex::new(Tally::new(options.count, options.size));
    let (start, lost) = (Instant::now(), Mutex::new(None));
    let run = Run {
        socket,
        options,
        start,
        tally,
        lost,
    };
    let outcome = thread::scope(|scope| {
        scope.spawn(|| run.receive());
        let outcome = run.send_all();
        println!(
            "{:8.3}  gives the address back",
            start.elapsed().as_secs_f64()
        );
        let _ = socket.close();
        outcome
    });
    let tally = run
        .tally
        .into_inner()
        .unwrap_or_else(PoisonError::into_inner);
    let missing = tally.count - tally.back;
    tally.print();
    outcome?;
    match run
        .lost
        .into_inner()
        .unwrap_or_else(PoisonError::into_inner)
    {
        Some(error) => Err(error),
        None => Ok(missing),
    }
}

/// Writes all payloads to a connection while another thread reads: how many are missing.
fn run_stream(options: &Options, stream: TurnStream) -> io::Result<u32> {
    let mut tally = Tally::new(options.count, options.size);
    let payloads: Vec<_> = (0..options.count)
        .map(|_| tally.next(Duration::ZERO))
        .collect();
    let mut came = vec![0; payloads.concat().len()];
    let outcome = thread::scope(|scope| {
        scope.spawn(|| {
            payloads.iter().try_for_each(|it| {
                thread::sleep(options.interval);
                (&stream).write_all(it)
            })
        });
        (&stream).read_exact(&mut came)
    });
    stream.close()?;
    let missing = match outcome {
        Ok(()) if came == payloads.concat() => 0,
        _ => options.count,
    };
    println!(
        "{} of {} payloads came back",
        options.count - missing,
        options.count
    );
    Ok(missing)
}

// ---- what it says

/// A cause, as the other examples print it.
fn text_of(cause: &TurnCause) -> String {
    match cause {
        TurnCause::Rejected {
            code,
            reason,
            is_signed,
        } => {
            let signed = if *is_signed { "signed" } else { "unsigned" };
            let reason: String = reason.chars().filter(|it| !it.is_control()).collect();
            format!("rejected {code} {signed} {reason}")
        }
        cause => format!("{cause:?}").to_lowercase(),
    }
}

/// Says what went wrong: the exit status.
fn say(error: &dyn Error, cause: Option<&TurnCause>) -> u8 {
    println!("{error}");
    if let Some(cause) = cause {
        println!("cause: {}", text_of(cause));
    }
    if cause == Some(&TurnCause::Unanswered) {
        NO_ANSWER
    } else {
        FAILED
    }
}

fn say_connect_error(error: &ConnectError) -> u8 {
    let status = say(error, error.cause());
    match error {
        ConnectError::Rejected {
            alternate_server: Some(server),
            ..
        } => println!("alternate server: {server}"),
        ConnectError::Unreachable(_) => return NO_ANSWER,
        _ => {}
    }
    status
}

fn work(options: &Options, connect: Connect) -> Result<u8, Box<dyn Error>> {
    let socket = match connect(options) {
        Ok(Line::Socket(socket)) => socket,
        Ok(Line::Stream(stream)) => {
            let missing = run_stream(options, stream)?;
            return Ok(if missing == 0 { ALL_BACK } else { SOME_LOST });
        }
        Err(error) => {
            let error = error.downcast::<ConnectError>()?;
            return Ok(say_connect_error(&error));
        }
    };
    println!("server address: {}", socket.server_addr());
    println!("relayed address: {}", socket.relayed_addr());
    if let Some(address) = socket.mapped_addr() {
        println!("public address: {address}");
    }
    Ok(match run(options, &socket) {
        Ok(0) => ALL_BACK,
        Ok(_) => SOME_LOST,
        Err(error) => say(&error, error.cause()),
    })
}

/// The exit status of an example, whose options of the transport are `transports`. `connect`
/// connects to the server.
pub fn main_over(name: &str, transports: &str, connect: Connect) -> ExitCode {
    let words: Vec<_> = std::env::args().skip(1).collect();
    if words.iter().any(|it| it == "--help") {
        print!("{name} {}", USAGE.replace("TRANSPORTS", transports));
        return ExitCode::from(ALL_BACK);
    }
    let outcome = read_options(words.into_iter(), transports)
        .map_err(|wrong| format!("{wrong}; --help tells more").into())
        .and_then(|options| work(&options, connect));
    match outcome {
        Ok(status) => ExitCode::from(status),
        Err(wrong) => {
            eprintln!("{wrong}");
            ExitCode::from(BAD_USAGE)
        }
    }
}
