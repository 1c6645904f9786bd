//! The task of a socket: it takes the session's turns, and moves bytes between session and server.

use std::collections::VecDeque;
use std::future::pending;
use std::io::{self, ErrorKind};
use std::sync::{Arc, Mutex, MutexGuard, PoisonError};
use std::time::{Duration, Instant};

use tokio::io::{AsyncRead, AsyncReadExt, AsyncWrite, AsyncWriteExt, ReadHalf, WriteHalf};
use tokio::net::UdpSocket;
use tokio::sync::Notify;
use tokio::task::yield_now;
use tokio::time::{sleep, sleep_until};
use turn_client::driver::{SessionState, TurnSession, CLOSE_PATIENCE};

/// Bytes of the largest datagram.
const DATAGRAM_MAX: usize = 65_536;
/// Bytes of a stream that are read at once: few, so that whoever receives can keep up.
const READ_MAX: usize = 4_096;
/// How long a socket rests whose system refuses to receive.
const REST: Duration = Duration::from_millis(10);

/// A stream to the server, over TCP or what lies above it.
pub(crate) trait Stream: AsyncRead + AsyncWrite + Send + Unpin {}

impl<S: AsyncRead + AsyncWrite + Send + Unpin> Stream for S {}

/// What carries bytes to the server and back.
pub(crate) enum Line {
    Datagrams(UdpSocket),
    Stream(ReadHalf<Box<dyn Stream>>, WriteHalf<Box<dyn Stream>>),
}

impl Line {
    pub(crate) fn of_stream(stream: impl Stream + 'static) -> Self {
        let stream: Box<dyn Stream> = Box::new(stream);
        let (reader, writer) = tokio::io::split(stream);
        Self::Stream(reader, writer)
    }

    fn size(&self) -> usize {
        match self {
            Self::Datagrams(_) => DATAGRAM_MAX,
            Self::Stream(..) => READ_MAX,
        }
    }
}

/// What a socket and its task share.
#[derive(Debug)]
pub(crate) struct Shared {
    inner: Mutex<Inner>,
    /// For whoever waits for the session: something happened.
    pub(crate) changed: Notify,
    /// For the task: something was requested, or is to be sent.
    pub(crate) requested: Notify,
}

#[derive(Debug)]
pub(crate) struct Inner {
    pub(crate) session: TurnSession,
    /// What waits to be sent, a message each, and its bytes.
    unsent: VecDeque<Vec<u8>>,
    pub(crate) unsent_bytes: usize,
    /// Why the stream failed.
    pub(crate) failure: Option<io::Error>,
}

impl Inner {
    /// Takes the session's turns, and returns when the next one is due.
    fn turn(&mut self) -> Option<Instant> {
        let (unsent, unsent_bytes) = (&mut self.unsent, &mut self.unsent_bytes);
        self.session.turn(&mut |bytes| {
            *unsent_bytes += bytes.len();
            unsent.push_back(bytes.to_vec());
        })
    }

    /// Has a datagram for a peer wait to be sent.
    pub(crate) fn send_to(
        &mut self,
        data: &[u8],
        peer: std::net::SocketAddr,
    ) -> Result<(), turn_client::SocketError> {
        let (unsent, unsent_bytes) = (&mut self.unsent, &mut self.unsent_bytes);
        self.session.send_to(data, peer, &mut |bytes| {
            *unsent_bytes += bytes.len();
            unsent.push_back(bytes.to_vec());
        })
    }

    fn fail(&mut self, error: io::Error) {
        self.session.lose();
        self.failure.get_or_insert(error);
    }
}

impl Shared {
    pub(crate) fn new(session: TurnSession) -> Self {
        Self {
            inner: Mutex::new(Inner {
                session,
                unsent: VecDeque::new(),
                unsent_bytes: 0,
                failure: None,
            }),
            changed: Notify::new(),
            requested: Notify::new(),
        }
    }

    pub(crate) fn lock(&self) -> MutexGuard<'_, Inner> {
        self.inner.lock().unwrap_or_else(PoisonError::into_inner)
    }

    /// Waits until `outcome` returns something.
    pub(crate) async fn wait<T>(&self, mut outcome: impl FnMut(&mut Inner) -> Option<T>) -> T {
        loop {
            let changed = self.changed.notified(); // from here on nothing is missed
            if let Some(outcome) = outcome(&mut self.lock()) {
                return outcome;
            }
            changed.await;
        }
    }

    /// The next message to send.
    fn next_unsent(&self) -> Option<Vec<u8>> {
        let mut inner = self.lock();
        let next = inner.unsent.pop_front()?;
        inner.unsent_bytes -= next.len();
        Some(next)
    }

    /// Passes on what came. Of a stream no bytes are its end.
    fn handle_received(&self, came: io::Result<&[u8]>, is_stream: bool) {
        let mut inner = self.lock();
        match came {
            Ok([]) if is_stream => {
                let text = "the server closed the connection";
                inner.fail(io::Error::new(ErrorKind::UnexpectedEof, text));
            }
            Ok(bytes) => {
                inner.session.handle_received(bytes);
                inner.session.store_incoming();
            }
            Err(error) if is_stream => inner.fail(error),
            Err(_) => {} // over UDP: anybody may send an ICMP report
        }
    }
}

/// What is being written.
#[derive(Default)]
struct Writing {
    message: Vec<u8>,
    /// How many of its bytes are written.
    written: usize,
    is_to_flush: bool,
}

impl Writing {
    fn is_over(&self) -> bool {
        self.written == self.message.len()
    }

    /// Goes on with writing, and does nothing for ever if there is nothing to write.
    async fn go_on(&mut self, line: &mut WriteLine<'_>) -> io::Result<()> {
        let rest = self.message.get(self.written..).unwrap_or_default();
        match line {
            _ if rest.is_empty() && !self.is_to_flush => pending().await,
            WriteLine::Datagrams(socket) => {
                let sent = socket.send(rest).await;
                self.written = self.message.len();
                sent.map(|_| ())
            }
            WriteLine::Stream(writer) if rest.is_empty() => {
                writer.flush().await?;
                self.is_to_flush = false;
                Ok(())
            }
            WriteLine::Stream(writer) => {
                let count = writer.write(rest).await?;
                if count == 0 {
                    return Err(ErrorKind::WriteZero.into());
                }
                self.written += count;
                self.is_to_flush = true;
                Ok(())
            }
        }
    }
}

enum ReadLine<'a> {
    Datagrams(&'a UdpSocket),
    Stream(&'a mut ReadHalf<Box<dyn Stream>>),
}

enum WriteLine<'a> {
    Datagrams(&'a UdpSocket),
    Stream(&'a mut WriteHalf<Box<dyn Stream>>),
}

impl ReadLine<'_> {
    async fn read(&mut self, bytes: &mut [u8]) -> io::Result<usize> {
        match self {
            Self::Datagrams(socket) => socket.recv(bytes).await,
            Self::Stream(reader) => reader.read(bytes).await,
        }
    }
}

/// Serves the session until it is over, or until it was closed for some seconds.
pub(crate) async fn serve(shared: Arc<Shared>, mut line: Line) {
    let mut bytes = vec![0; line.size()];
    let is_stream = matches!(line, Line::Stream(..));
    let mut writing = Writing::default();
    let (mut closes_at, mut has_received) = (None, false);
    while let Some(due) = turn(&shared, &mut closes_at) {
        if has_received {
            yield_now().await; // to whoever receives
        }
        has_received = false;
        if writing.is_over() {
            if let Some(message) = shared.next_unsent() {
                (writing.message, writing.written) = (message, 0);
            }
        }
        let (mut reader, mut writer) = match &mut line {
            Line::Datagrams(socket) => (ReadLine::Datagrams(socket), WriteLine::Datagrams(socket)),
            Line::Stream(reader, writer) => (ReadLine::Stream(reader), WriteLine::Stream(writer)),
        };
        tokio::select! {
            read = reader.read(&mut bytes) => {
                let is_refused = read.is_err();
                has_received = true;
                let came = read.map(|size| bytes.get(..size).unwrap_or_default());
                shared.handle_received(came, is_stream);
                if is_refused {
                    sleep(REST).await;
                }
            }
            written = writing.go_on(&mut writer) => match written {
                Err(error) if is_stream => shared.lock().fail(error),
                _ => {} // a datagram that isn't sent is as one that is lost
            },
            () = sleep_until(due.into()) => {}
            () = shared.requested.notified() => {}
        }
    }
}

/// Takes turns, and returns when the next one is due; `None` when the session is over. Whoever
/// waits looks again.
fn turn(shared: &Shared, closes_at: &mut Option<Instant>) -> Option<Instant> {
    let mut inner = shared.lock();
    let due = inner.turn();
    if *inner.session.state() == SessionState::Closing {
        let until = *closes_at.get_or_insert_with(|| Instant::now() + CLOSE_PATIENCE);
        if Instant::now() >= until {
            inner.session.lose();
        }
    }
    let is_over = inner.session.state().is_over();
    drop(inner);
    shared.changed.notify_waiters();
    let due = due.filter(|_| !is_over)?;
    Some(closes_at.map_or(due, |until| due.min(until)))
}
