//! Stand-in for the crate's hal module, with the names that the queue uses.
use crate::{PAGE_SIZE, Result};
use core::{marker::PhantomData, ptr::NonNull};

pub type PhysAddr = u64;

#[derive(Clone, Copy, Debug, PartialEq)]
pub enum BufferDirection {
    DriverToDevice,
    DeviceToDriver,
    Both,
}

/// # Safety
/// The memory handed out must be zeroed, page-aligned and nobody else's for good.
pub unsafe trait Hal {
    fn dma_alloc(pages: usize, direction: BufferDirection) -> (PhysAddr, NonNull<u8>);

    /// # Safety
    /// The buffer must be valid.
    unsafe fn share(buffer: NonNull<[u8]>, direction: BufferDirection) -> PhysAddr;

    /// # Safety
    /// The buffer must be valid and the address one that share gave.
    unsafe fn unshare(address: PhysAddr, buffer: NonNull<[u8]>, direction: BufferDirection);
}

/// A region is never given back, so that the program may look at it at any time.
#[derive(Debug)]
pub struct Dma<H: Hal> {
    address: PhysAddr,
    start: NonNull<u8>,
    bytes: usize,
    hal: PhantomData<H>,
}

impl<H: Hal> Dma<H> {
    pub fn new(pages: usize, direction: BufferDirection) -> Result<Self> {
        let (address, start) = H::dma_alloc(pages, direction);
        Ok(Dma {
            address,
            start,
            bytes: pages * PAGE_SIZE,
            hal: PhantomData,
        })
    }

    pub fn paddr(&self) -> PhysAddr {
        self.address
    }

    pub fn vaddr(&self, offset: usize) -> NonNull<u8> {
        assert!(offset < self.bytes, "offset outside the region");
        // SAFETY: the offset was just found to lie inside the region.
        unsafe { self.start.add(offset) }
    }
}
