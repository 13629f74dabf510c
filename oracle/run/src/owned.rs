//! The buffers of an owning queue: on the heap as the crate has them, and in the script's store, buffer i at its base plus i times the size.
use queue::hal::PhysAddr;
use std::cell::RefCell;
use std::ptr::with_exposed_provenance_mut;

struct Owned {
    base: PhysAddr,
    size: usize,
    /// Where each buffer starts on the heap, in the order in which they were shared first.
    starts: Vec<usize>,
}

thread_local!(static OWNED: RefCell<Option<Owned>> = const { RefCell::new(None) });

/// From now on what is shared is an owning queue's buffer.
pub fn begin(base: PhysAddr, size: usize) {
    let starts = Vec::new();
    OWNED.set(Some(Owned { base, size, starts }));
}

pub fn forget() {
    OWNED.set(None);
}

/// The address of the buffer that starts there, if there is an owning queue; a new buffer is the next one.
pub fn address(start: usize) -> Option<PhysAddr> {
    OWNED.with_borrow_mut(|owned| {
        let owned = owned.as_mut()?;
        let known = owned.starts.iter().position(|known| *known == start);
        let place = known.unwrap_or_else(|| {
            owned.starts.push(start);
            owned.starts.len() - 1
        });
        Some(owned.base + (place * owned.size) as u64)
    })
}

/// The number and the place in the store of the buffer that starts there.
pub fn place(start: usize) -> (usize, usize) {
    OWNED.with_borrow(|owned| {
        let owned = owned.as_ref().expect("an owning queue");
        let known = owned.starts.iter().position(|known| *known == start);
        let number = known.expect("one of its buffers");
        (number, number * owned.size)
    })
}

/// A device's stores to the store, as far as they reach a buffer on the heap.
pub fn store(offset: usize, bytes: &[u8]) {
    OWNED.with_borrow(|owned| {
        let Some(owned) = owned else { return };
        for (at, byte) in (offset..).zip(bytes) {
            if let Some(start) = owned.starts.get(at / owned.size.max(1)) {
                let target = with_exposed_provenance_mut::<u8>(start + at % owned.size);
                // SAFETY: the place lies inside a buffer, which lives as long as the queue, and the queue does nothing meanwhile.
                unsafe { target.write_volatile(*byte) };
            }
        }
    });
}
