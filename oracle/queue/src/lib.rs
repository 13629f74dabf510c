//! The crate's queue.rs and queue/owning.rs, unchanged, amid stand-ins for the rest of the crate.
#![no_std]
#![allow(dead_code)] // The unchanged files may hold what this program does not call.
extern crate alloc;

pub mod hal;
pub mod transport;

include!(concat!(env!("OUT_DIR"), "/source.rs"));

pub use hal::Hal;
pub use source::queue::{OwningQueue, VirtQueue};

pub const PAGE_SIZE: usize = 4096;

pub type Result<T = ()> = core::result::Result<T, Error>;

/// Only the errors that the two files can give.
#[derive(Clone, Copy, Debug, PartialEq)]
pub enum Error {
    InvalidParam,
    QueueFull,
    NotReady,
    WrongToken,
    AlreadyUsed,
}

/// Like the crate's, a whole number of pages gets one more; no size of 1 to 64 meets that case.
fn align_up(size: usize) -> usize {
    (size / PAGE_SIZE + 1) * PAGE_SIZE
}

fn pages(size: usize) -> usize {
    size.div_ceil(PAGE_SIZE)
}
