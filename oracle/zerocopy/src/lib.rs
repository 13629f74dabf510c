//! Stand-in for the zerocopy crate: only the names that the queue's two files use.
#![no_std]
extern crate alloc;

use alloc::alloc::{Layout, alloc_zeroed};
use alloc::boxed::Box;
use core::{mem, ptr, slice};
pub use zerocopy_derive::{FromBytes, Immutable, IntoBytes, KnownLayout};

/// The callers unwrap an allocation's answer, so there must be an error to unwrap.
#[derive(Debug)]
pub struct AllocError;

/// # Safety
/// All-zero bytes must be a value of the type.
pub unsafe trait FromZeros {
    fn new_zeroed() -> Self
    where
        Self: Sized,
    {
        // SAFETY: whoever implements the trait vouches for zero bytes.
        unsafe { mem::zeroed() }
    }

    fn new_box_zeroed() -> Result<Box<Self>, AllocError>
    where
        Self: Sized,
    {
        Ok(Box::new(Self::new_zeroed()))
    }

    fn new_box_zeroed_with_elems(count: usize) -> Result<Box<Self>, AllocError>
    where
        Self: Elements,
    {
        Ok(Self::zeroed(count))
    }
}

/// Set apart so that only slices can be asked for a number of elements.
pub trait Elements {
    fn zeroed(count: usize) -> Box<Self>;
}

impl<T: FromZeros> Elements for [T] {
    /// Asks the allocator for zeroed memory, and stores nothing itself.
    fn zeroed(count: usize) -> Box<Self> {
        let layout = Layout::array::<T>(count).expect("a layout");
        assert_ne!(layout.size(), 0, "an empty list");
        // SAFETY: the size is not 0, the memory is a list's of this length, and zero bytes are values of the type.
        unsafe {
            let start = alloc_zeroed(layout);
            assert!(!start.is_null(), "memory");
            Box::from_raw(ptr::slice_from_raw_parts_mut(start.cast(), count))
        }
    }
}

/// # Safety
/// Every byte of the type must be initialised, so no padding.
pub unsafe trait IntoBytes {
    fn as_bytes(&self) -> &[u8] {
        let start = (&raw const *self).cast();
        // SAFETY: the bytes are the value's own and initialised.
        unsafe { slice::from_raw_parts(start, size_of_val(self)) }
    }

    fn as_mut_bytes(&mut self) -> &mut [u8] {
        let size = size_of_val(self);
        // SAFETY: as above, and the borrow is unique.
        unsafe { slice::from_raw_parts_mut((&raw mut *self).cast(), size) }
    }
}

/// # Safety
/// Any bytes must be a value; a mark here, since the queue calls no method of it.
pub unsafe trait FromBytes: FromZeros {}

/// # Safety
/// No interior mutability; a mark here, since the queue calls no method of it.
pub unsafe trait Immutable {}

/// # Safety
/// A mark here, since the queue calls no method of it.
pub unsafe trait KnownLayout {}

// SAFETY: a zero byte is a byte.
unsafe impl FromZeros for u8 {}
// SAFETY: the elements vouch for themselves.
unsafe impl<T: FromZeros, const N: usize> FromZeros for [T; N] {}
// SAFETY: the elements vouch for themselves.
unsafe impl<T: FromZeros> FromZeros for [T] {}
// SAFETY: a slice has no padding between its elements.
unsafe impl<T: IntoBytes> IntoBytes for [T] {}
