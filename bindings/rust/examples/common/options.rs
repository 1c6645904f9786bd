//! The options of the examples.

use std::net::SocketAddr;
use std::time::Duration;

use turn_client::RelayedPort;

pub const USAGE: &str = "\
[OPTION..]: asks a TURN server for an address, and sends payloads through it to a peer that sends them back

  --server ADDRESS   the server, as 127.0.0.1:3478
  --user NAME        whose address it is. The password is that of the variable TURN_PASSWORD, or of
  --password-file F  its first line; or of
  --password WORD    which other users of the machine can see while the program runs
  --peer ADDRESS     the peer, which is to send back what it gets
  --echo             in its place one of this program's own, on loopback
  --count N          how many payloads; without it 10. Without a peer there are none
  --size BYTES       of each, 4 to 60000; without it 100
  --interval MS      between two; without it 1
  --seconds N        how long the address is kept at least; without it 0
  --indications      no channel: each payload goes in an indication
  --follow           goes on at the server that this one names by an error 300, once
  --ignore-short-lifetimes   ignores a renewal that grants less than 600 s
  --even-port        asks for an even port of the address
  --reserve          the same, and that the server reserve the next port; tells the token for that
  --token HEX        asks for the port that is reserved under this token, of 16 digits
  --sha256           messages are signed by HMAC-SHA256 alone; without it by that or HMAC-SHA1
  --help

Exit status: 0 all came back, or nothing was to be sent; 1 something was lost; 2 options that can't be read;
3 the server refused something, or the client failed; 4 no answer
";

const LEAST_SIZE: u32 = 4;
const MOST_SIZE: u32 = 60_000;
const MOST_COUNT: u32 = 1_000_000;
const TOKEN_DIGITS: usize = 16;

/// Whom the payloads go to.
#[derive(Clone, Copy)]
pub enum Peer {
    None,
    Echo,
    At(SocketAddr),
}

pub struct Options {
    pub server: SocketAddr,
    pub user: String,
    pub password: String,
    pub peer: Peer,
    pub count: u32,
    pub size: usize,
    pub interval: Duration,
    pub kept: Duration,
    pub has_no_channel: bool,
    pub is_sha256: bool,
    pub follows: bool,
    pub ignores_short_lifetimes: bool,
    pub port: RelayedPort,
}

/// Options as far as they were read.
struct Reader<I> {
    words: I,
    server: Option<SocketAddr>,
    user: Option<String>,
    password: Option<String>,
    at: Option<SocketAddr>,
    has_echo: bool,
    count: u32,
    size: u32,
    interval: u32,
    seconds: u32,
    has_no_channel: bool,
    is_sha256: bool,
    follows: bool,
    ignores_short_lifetimes: bool,
    port: Option<RelayedPort>,
}

impl<I: Iterator<Item = String>> Reader<I> {
    fn new(words: I) -> Self {
        Self {
            words,
            server: None,
            user: None,
            password: std::env::var("TURN_PASSWORD").ok(),
            at: None,
            has_echo: false,
            count: 10,
            size: 100,
            interval: 1,
            seconds: 0,
            has_no_channel: false,
            is_sha256: false,
            follows: false,
            ignores_short_lifetimes: false,
            port: None,
        }
    }

    fn value(&mut self, option: &str) -> Result<String, String> {
        self.words
            .next()
            .ok_or_else(|| format!("{option} wants a value"))
    }

    fn first_line(&mut self, option: &str) -> Result<String, String> {
        let file = self.value(option)?;
        let text = std::fs::read_to_string(&file).map_err(|why| format!("{file}: {why}"))?;
        Ok(text.lines().next().unwrap_or_default().to_string())
    }

    fn address(&mut self, option: &str) -> Result<Option<SocketAddr>, String> {
        let value = self.value(option)?;
        value
            .parse()
            .map(Some)
            .map_err(|_| format!("{option} {value} is no address with a port"))
    }

    fn number(&mut self, option: &str, least: u32, most: u32) -> Result<u32, String> {
        let value = self.value(option)?;
        let number = value.parse().ok().filter(|it| (least..=most).contains(it));
        number.ok_or_else(|| format!("{option} {value} is no number from {least} to {most}"))
    }

    fn token(&mut self, option: &str) -> Result<RelayedPort, String> {
        let value = self.value(option)?;
        let is_token =
            value.len() == TOKEN_DIGITS && value.bytes().all(|it| it.is_ascii_hexdigit());
        let token = u64::from_str_radix(&value, 16).ok().filter(|_| is_token);
        token
            .map(RelayedPort::Reserved)
            .ok_or_else(|| format!("{option} {value} isn't {TOKEN_DIGITS} hexadecimal digits"))
    }

    /// Which port is asked for: by one option.
    fn ask_port(&mut self, port: RelayedPort) -> Result<(), String> {
        match self.port.replace(port) {
            None => Ok(()),
            Some(_) => Err("one of --even-port, --reserve and --token, and once".to_string()),
        }
    }

    fn take(&mut self, option: &str) -> Result<(), String> {
        match option {
            "--server" => self.server = self.address(option)?,
            "--user" => self.user = Some(self.value(option)?),
            "--password" => self.password = Some(self.value(option)?),
            "--password-file" => self.password = Some(self.first_line(option)?),
            "--peer" => self.at = self.address(option)?,
            "--echo" => self.has_echo = true,
            "--count" => self.count = self.number(option, 0, MOST_COUNT)?,
            "--size" => self.size = self.number(option, LEAST_SIZE, MOST_SIZE)?,
            "--interval" => self.interval = self.number(option, 0, u32::MAX)?,
            "--seconds" => self.seconds = self.number(option, 0, u32::MAX)?,
            "--indications" => self.has_no_channel = true,
            "--sha256" => self.is_sha256 = true,
            "--follow" => self.follows = true,
            "--even-port" => self.ask_port(RelayedPort::Even)?,
            "--reserve" => self.ask_port(RelayedPort::EvenAndNextReserved)?,
            "--token" => {
                let port = self.token(option)?;
                self.ask_port(port)?;
            }
            "--ignore-short-lifetimes" => self.ignores_short_lifetimes = true,
            _ => return Err(format!("{option} is no option")),
        }
        Ok(())
    }

    fn finish(self) -> Result<Options, String> {
        let (Some(server), Some(user), Some(password)) = (self.server, self.user, self.password)
        else {
            return Err("a server, a user and a password are wanted".to_string());
        };
        let peer = match (self.at, self.has_echo) {
            (None, false) => Peer::None,
            (None, true) => Peer::Echo,
            (Some(at), false) => Peer::At(at),
            (Some(_), true) => return Err("a peer or an echo, and not both".to_string()),
        };
        Ok(Options {
            server,
            user,
            password,
            peer,
            count: self.count,
            size: self.size as usize,
            interval: Duration::from_millis(self.interval.into()),
            kept: Duration::from_secs(self.seconds.into()),
            has_no_channel: self.has_no_channel,
            is_sha256: self.is_sha256,
            follows: self.follows,
            ignores_short_lifetimes: self.ignores_short_lifetimes,
            port: self.port.unwrap_or(RelayedPort::Any),
        })
    }
}

/// Reads the options; none where help was asked for. Else what is wrong with them.
pub fn read(words: impl Iterator<Item = String>) -> Result<Option<Options>, String> {
    let mut reader = Reader::new(words);
    while let Some(option) = reader.words.next() {
        if option == "--help" {
            return Ok(None);
        }
        reader.take(&option)?;
    }
    reader.finish().map(Some)
}
