//! A TURN server of Python for tests, in a process of its own (`serve.py`): what it answers is
//! written by the RFCs, and shares no code with the client.
#![allow(dead_code)] // each test takes what it needs

use std::io::{BufRead, BufReader, Write};
use std::net::SocketAddr;
use std::path::Path;
use std::process::{Child, ChildStdin, ChildStdout, Command, Stdio};
use std::time::{Duration, Instant};

use turn_client::{TransportType, TurnConfig, TurnCredentials, TurnUri};

pub const ALLOCATE: u16 = 3;
pub const REFRESH: u16 = 4;
pub const CREATE_PERMISSION: u16 = 8;
pub const CHANNEL_BIND: u16 = 9;
pub const CONNECT: u16 = 10;
pub const CONNECTION_BIND: u16 = 11;

/// The address that the server gives.
pub const RELAYED: &str = "203.0.113.5:50000";
/// The address as which the server sees its clients.
pub const MAPPED: &str = "198.51.100.9:9000";

pub struct Server {
    process: Child,
    commands: ChildStdin,
    answers: BufReader<ChildStdout>,
    pub transport: TransportType,
    pub address: SocketAddr,
}

impl Server {
    pub fn start(transport: TransportType) -> Self {
        let package = Path::new(env!("CARGO_MANIFEST_DIR"));
        let mut found = package
            .ancestors()
            .map(|it| it.join("tests/server/serve.py"));
        let script = found.find(|it| it.is_file()).unwrap();
        let by = match transport {
            TransportType::Udp => "udp",
            TransportType::Tcp => "tcp",
        };
        let mut process = Command::new("python3")
            .arg(script)
            .arg(by)
            .stdin(Stdio::piped())
            .stdout(Stdio::piped())
            .spawn()
            .unwrap();
        let mut answers = BufReader::new(process.stdout.take().unwrap());
        let mut first = String::new();
        answers.read_line(&mut first).unwrap();
        Self {
            commands: process.stdin.take().unwrap(),
            process,
            answers,
            transport,
            address: first.trim().parse().unwrap(),
        }
    }

    /// What the server answers to a command.
    pub fn tell(&mut self, command: &str) -> String {
        writeln!(self.commands, "{command}").unwrap();
        let mut answer = String::new();
        self.answers.read_line(&mut answer).unwrap();
        answer.trim().to_string()
    }

    pub fn does(&mut self, command: &str) {
        assert_eq!(self.tell(command), "done");
    }

    /// Waits until the server answers a command so.
    pub fn comes_to(&mut self, command: &str, wanted: &str) {
        let until = Instant::now() + Duration::from_secs(60);
        loop {
            let answer = self.tell(command);
            if answer == wanted {
                return;
            }
            assert!(
                Instant::now() < until,
                "{command}: {answer}, and not {wanted}"
            );
            std::thread::sleep(Duration::from_millis(10));
        }
    }

    /// How many signed requests of a method came.
    pub fn count(&mut self, method: u16) -> usize {
        let method = method.to_string();
        self.tell("requests")
            .split(' ')
            .filter(|it| *it == method)
            .count()
    }

    pub fn uri(&self) -> TurnUri {
        let query = match self.transport {
            TransportType::Udp => "",
            TransportType::Tcp => "?transport=tcp",
        };
        format!("turn:{}{query}", self.address).parse().unwrap()
    }
}

impl Drop for Server {
    fn drop(&mut self) {
        let _ = self.process.kill();
        let _ = self.process.wait();
    }
}

/// The user whom the server knows. It has no algorithm but SHA1.
pub fn config() -> TurnConfig {
    TurnConfig::new(TurnCredentials::new("alice", "secret"))
}
