//! Pages that both sides and the device see, and the buffers that lists name.
use std::alloc::{Layout, alloc_zeroed};
use std::ptr::NonNull;

pub const PAGE: usize = 4096;

/// Never given back: a side keeps it to the end of the program.
pub fn pages(bytes: usize) -> NonNull<u8> {
    let layout = Layout::from_size_align(bytes.max(1), PAGE).expect("a layout");
    // SAFETY: the size is not 0.
    NonNull::new(unsafe { alloc_zeroed(layout) }).expect("memory")
}

/// A list: the first buffer is an input, the others outputs.
#[derive(Clone, Copy)]
pub struct List {
    pub starts: [*mut u8; 3],
    pub sizes: [u32; 3],
}

/// As many lists as a burst has, over memory that no two of them share.
pub fn lists(count: usize) -> Vec<List> {
    let sizes = [16, 512, 1];
    let list = |_| List {
        starts: sizes.map(|size| pages(size).as_ptr()),
        sizes: sizes.map(|size| size as u32),
    };
    (0..count).map(list).collect()
}

/// The used ring as a device writes it.
pub struct Device {
    used: *mut u8,
    idx: u16,
}

impl Device {
    pub fn new(used: *mut u8) -> Self {
        Device { used, idx: 0 }
    }

    /// Gives back every chain, in the order of the adds, each with a length of its own.
    pub fn complete(&mut self, tokens: &[u16], lengths: &[u32], size: usize) {
        for (token, length) in tokens.iter().zip(lengths) {
            let at = 4 + 8 * (self.idx as usize % size);
            // SAFETY: the element lies inside the used ring.
            unsafe {
                let element = self.used.add(at).cast::<u32>();
                element.write_volatile(u32::from(*token));
                element.add(1).write_volatile(*length);
            }
            self.idx = self.idx.wrapping_add(1);
        }
        // SAFETY: idx stands 2 bytes into the used ring.
        unsafe { self.used.add(2).cast::<u16>().write_volatile(self.idx) };
    }
}
