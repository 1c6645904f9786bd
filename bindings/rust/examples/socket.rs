//! Sends payloads through a TURN server to a peer that sends them back, over `TurnSocket`. One
//! thread sends, another one receives.
//!
//!     TURN_PASSWORD=secret cargo run --example socket -- --server 127.0.0.1:3478 --user alice \
//!         --peer 127.0.0.1:9000
//!
//! `--help` tells the options and the exit status. What it does is in `common/driven.rs`.

#[path = "common/driven.rs"]
mod driven;

use std::error::Error;
use std::process::ExitCode;

use driven::{main_over, Line, Options};
use turn_client::TurnUri;

const TRANSPORTS: &str = "  --tcp               over TCP to the server
  --connect IP:PORT   the peer, over a connection over TCP (RFC 6062), by TurnStream
";

fn connect(options: &Options) -> Result<Line, Box<dyn Error>> {
    let query = if options.is_tcp { "?transport=tcp" } else { "" };
    let uri: TurnUri = format!("turn:{}{query}", options.server).parse()?;
    let (how, config) = (options.how(), options.config());
    Ok(match options.connect {
        Some(peer) => Line::Stream(how.connect_stream(&uri, config, peer)?),
        None => Line::Socket(Box::new(how.connect(&uri, config)?)),
    })
}

fn main() -> ExitCode {
    main_over("socket", TRANSPORTS, connect)
}
