//! The payloads of the examples: what is in each, when it went, and whether it is back.

use std::time::Duration;

/// Bytes of the number at the front of a payload.
const NUMBER: usize = 4;

/// Each next byte behind the number is greater by this.
const STEP: u32 = 31;

pub struct Tally {
    pub count: u32,
    pub size: usize,
    pub back: u32,
    /// When the last one went.
    pub last: Duration,
    /// When each went; none where it is back.
    sent_at: Vec<Option<Duration>>,
    /// The time from when each went until it was back.
    trips: Vec<Duration>,
}

/// A payload: its number, and then bytes that depend on that.
fn payload(number: u32, size: usize) -> Vec<u8> {
    let mut bytes = number.to_be_bytes().to_vec();
    let byte = |place: usize| (number.wrapping_add(STEP.wrapping_mul(place as u32))) as u8;
    bytes.extend((NUMBER..size).map(byte));
    bytes
}

impl Tally {
    pub fn new(count: u32, size: usize) -> Self {
        Self {
            count,
            size,
            back: 0,
            last: Duration::ZERO,
            sent_at: Vec::new(),
            trips: Vec::new(),
        }
    }

    pub fn sent(&self) -> u32 {
        self.sent_at.len() as u32
    }

    /// The next payload, which goes now.
    pub fn next(&mut self, now: Duration) -> Vec<u8> {
        let bytes = payload(self.sent(), self.size);
        self.sent_at.push(Some(now));
        self.last = now;
        bytes
    }

    /// Bytes came: whether they are a payload that is awaited.
    pub fn comes(&mut self, bytes: &[u8], now: Duration) -> bool {
        let Some(number) = bytes
            .first_chunk::<NUMBER>()
            .map(|it| u32::from_be_bytes(*it))
        else {
            return false;
        };
        let Some(sent_at) = self.sent_at.get_mut(number as usize) else {
            return false;
        };
        if bytes != payload(number, self.size) {
            return false;
        }
        let Some(went) = sent_at.take() else {
            return false;
        };
        self.back += 1;
        self.trips.push(now.saturating_sub(went));
        true
    }

    pub fn print(mut self) {
        println!("{} of {} payloads came back", self.back, self.count);
        self.trips.sort();
        let (least, median, greatest) = (
            self.trips.first(),
            self.trips.get(self.trips.len() / 2),
            self.trips.last(),
        );
        if let (Some(least), Some(median), Some(greatest)) = (least, median, greatest) {
            println!("round trip: least {least:.3?}, median {median:.3?}, greatest {greatest:.3?}");
        }
    }
}
