//! The crate's queue, unchanged, with a Hal that returns addresses as they are.
use crate::driver::Side;
use crate::memory::{List, PAGE, pages};
use queue::VirtQueue;
use queue::hal::{BufferDirection, Hal, PhysAddr};
use queue::transport::Transport;
use std::ptr::NonNull;
use std::slice::{from_raw_parts, from_raw_parts_mut};

struct Same;

// SAFETY: the pages are zeroed, aligned and handed out once.
unsafe impl Hal for Same {
    fn dma_alloc(count: usize, _: BufferDirection) -> (PhysAddr, NonNull<u8>) {
        let start = pages(count * PAGE);
        (start.as_ptr() as u64, start)
    }

    unsafe fn share(buffer: NonNull<[u8]>, _: BufferDirection) -> PhysAddr {
        buffer.cast::<u8>().as_ptr() as u64
    }

    unsafe fn unshare(_: PhysAddr, _: NonNull<[u8]>, _: BufferDirection) {}
}

/// Keeps the three addresses that the queue tells.
#[derive(Default)]
struct Port {
    told: [u64; 3],
}

impl Transport for Port {
    fn queue_used(&mut self, _: u16) -> bool {
        false
    }

    fn max_queue_size(&mut self, _: u16) -> u32 {
        64
    }

    fn requires_legacy_layout(&self) -> bool {
        false
    }

    fn queue_set(&mut self, _: u16, _: u32, table: u64, avail: u64, used: u64) {
        self.told = [table, avail, used];
    }

    fn notify(&mut self, _: u16) {}
}

pub struct Original {
    queue: VirtQueue<Same, 64>,
    told: [u64; 3],
}

impl Original {
    pub fn new(indirect: bool) -> Self {
        let mut port = Port::default();
        let queue = VirtQueue::new(&mut port, 0, indirect, false).expect("a queue");
        Original {
            queue,
            told: port.told,
        }
    }
}

impl Side for Original {
    #[inline(never)]
    fn add<const K: usize>(&mut self, list: &List) -> u16 {
        // SAFETY: the buffers stay where they are, and nobody reads or writes them.
        unsafe {
            let ins = [from_raw_parts(list.starts[0], list.sizes[0] as usize)];
            let rest = [1, 2].map(|j| from_raw_parts_mut(list.starts[j], list.sizes[j] as usize));
            let mut outs = rest;
            self.queue.add(&ins, &mut outs[..K - 1]).expect("an add")
        }
    }

    #[inline(never)]
    fn pop<const K: usize>(&mut self, token: u16, list: &List) -> u32 {
        // SAFETY: the list is the one that was added under the token.
        unsafe {
            let ins = [from_raw_parts(list.starts[0], list.sizes[0] as usize)];
            let rest = [1, 2].map(|j| from_raw_parts_mut(list.starts[j], list.sizes[j] as usize));
            let mut outs = rest;
            self.queue
                .pop_used(token, &ins, &mut outs[..K - 1])
                .expect("a pop")
        }
    }

    fn used(&self) -> *mut u8 {
        self.told[2] as *mut u8
    }

    fn front(&self) -> *const u8 {
        self.told[0] as *const u8
    }
}
