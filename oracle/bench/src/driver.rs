//! The one driver of all sides: bursts of adds, a device that gives all back, bursts of pops.
use crate::memory::{Device, List};
use std::hint::black_box;
use std::time::{Duration, Instant};

pub const SIZE: usize = 64;

pub trait Side {
    fn add<const K: usize>(&mut self, list: &List) -> u16;
    fn pop<const K: usize>(&mut self, token: u16, list: &List) -> u32;
    /// Where the used ring stands, for the device.
    fn used(&self) -> *mut u8;
    /// Where the table stands, with the available ring after it.
    fn front(&self) -> *const u8;
}

/// A side, its device, and the shortest bursts yet.
pub struct Lane<S> {
    side: S,
    device: Device,
    tokens: Vec<u16>,
    pub best: [Duration; 2],
    pub bursts: u64,
}

impl<S: Side> Lane<S> {
    pub fn new(side: S) -> Self {
        let device = Device::new(side.used());
        Lane {
            side,
            device,
            tokens: Vec::with_capacity(SIZE),
            best: [Duration::MAX; 2],
            bursts: 0,
        }
    }

    /// One burst of adds and one of pops; the device's part is not timed.
    pub fn burst<const K: usize>(&mut self, lists: &[List], lengths: &[u32]) {
        self.tokens.clear();
        let start = Instant::now();
        for list in black_box(lists) {
            let token = self.side.add::<K>(list);
            self.tokens.push(token);
        }
        self.note(0, start.elapsed());
        self.device.complete(&self.tokens, lengths, SIZE);
        let mut right = true;
        let start = Instant::now();
        for ((list, token), length) in black_box(lists).iter().zip(&self.tokens).zip(lengths) {
            right &= self.side.pop::<K>(*token, list) == *length;
        }
        self.note(1, start.elapsed());
        assert!(right, "a pop's length");
        self.bursts += 1;
    }

    fn note(&mut self, which: usize, time: Duration) {
        self.best[which] = self.best[which].min(time);
    }

    /// Bursts for as long as that.
    pub fn bursts_for<const K: usize>(&mut self, time: Duration, lists: &[List], lengths: &[u32]) {
        let start = Instant::now();
        while start.elapsed() < time {
            self.burst::<K>(lists, lengths);
        }
    }

    /// The tokens of the last burst, and the bytes of table and available ring.
    pub fn left(&self) -> (Vec<u16>, Vec<u8>) {
        // SAFETY: table and available ring have as many bytes, and nobody writes them now.
        let bytes =
            unsafe { std::slice::from_raw_parts(self.side.front(), 16 * SIZE + 6 + 2 * SIZE) };
        (self.tokens.clone(), bytes.to_vec())
    }
}
