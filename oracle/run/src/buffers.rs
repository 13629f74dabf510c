//! Buffers of any length up to 2^32 - 1 for adds and pops: places in one mapping, which takes no memory since nobody touches their bytes.
use crate::script::List;
use std::ffi::{c_int, c_void};
use std::ptr::{null_mut, with_exposed_provenance_mut};
use std::sync::OnceLock;

unsafe extern "C" {
    fn mmap(
        at: *mut c_void,
        bytes: usize,
        rights: c_int,
        flags: c_int,
        file: c_int,
        offset: i64,
    ) -> *mut c_void;
}

const READ_WRITE: c_int = 3;
/// Private, of no file, and with no memory set aside (Linux).
const FLAGS: c_int = 0x2 | 0x20 | 0x4000;
/// A list has at most this many buffers.
const PLACES: usize = 80;
const PLACE: usize = 1 << 32;

fn start() -> usize {
    static START: OnceLock<usize> = OnceLock::new();
    *START.get_or_init(|| {
        // SAFETY: a new mapping at an address of the system's choice alters nothing else.
        let told = unsafe { mmap(null_mut(), PLACES * PLACE, READ_WRITE, FLAGS, -1, 0) };
        assert_ne!(told.addr(), usize::MAX, "mmap");
        told.expose_provenance()
    })
}

/// The inputs and the outputs of one call.
pub struct Buffers<'b> {
    pub inputs: Vec<&'b [u8]>,
    pub outputs: Vec<&'b mut [u8]>,
}

impl Buffers<'_> {
    /// Each buffer has a place of its own, so that an empty one has a start of its own too.
    pub fn new(list: &List) -> Self {
        let count = list[0].len();
        let slice = |i: usize, len: u32| {
            let at = with_exposed_provenance_mut::<u8>(start() + i * PLACE);
            // SAFETY: the place is mapped for good, and nobody reads or writes it: an earlier call's slices of it are gone.
            unsafe { std::slice::from_raw_parts_mut(at, len as usize) }
        };
        let inputs = list[0].iter().enumerate();
        let outputs = list[1].iter().enumerate();
        Buffers {
            inputs: inputs.map(|(i, told)| &*slice(i, told.1)).collect(),
            outputs: outputs.map(|(i, told)| slice(count + i, told.1)).collect(),
        }
    }
}

/// Each buffer's start, and the address that the script has for it.
pub fn starts(list: &List) -> Vec<(usize, u64)> {
    let addresses = list.iter().flatten().enumerate();
    addresses
        .map(|(i, told)| (start() + i * PLACE, told.0))
        .collect()
}
