//! The host that the queue talks to: memory, addresses and transport as the script wants them.
use crate::owned;
use crate::script::{Ask, LARGEST};
use queue::hal::{BufferDirection, Hal, PhysAddr};
use queue::{PAGE_SIZE, transport::Transport};
use std::alloc::{Layout, alloc_zeroed};
use std::collections::BTreeMap;
use std::hint::black_box;
use std::ops::Range;
use std::{cell::RefCell, ptr::NonNull};

/// What share and dma_alloc look up, since they have no self to keep it in.
struct Host {
    /// Region one and two, and the pool, which the crate does not know of: its lists are copied there.
    memory: [NonNull<u8>; 3],
    /// Their addresses.
    bases: [PhysAddr; 3],
    /// What the pages of each region that the current queue asked for held before they were zeroed.
    before: Vec<Vec<u8>>,
    /// Real start and script address of each buffer of the add under way.
    buffers: Vec<(usize, PhysAddr)>,
    /// Where in the pool a list of the add under way belongs.
    slot: usize,
    /// Real start and bytes of each indirect list that is shared, by its place in the pool.
    lists: BTreeMap<usize, (usize, usize)>,
}

/// Kept for good, so that bytes beyond what is lent stay as they were, as in our own program.
fn memory(size: usize) -> NonNull<u8> {
    let layout = Layout::from_size_align(size, PAGE_SIZE).expect("a layout");
    // SAFETY: no size is 0.
    NonNull::new(unsafe { alloc_zeroed(layout) }).expect("memory")
}

thread_local!(static HOST: RefCell<Host> = RefCell::new(Host {
    memory: LARGEST.map(memory),
    bases: [0; 3],
    before: Vec::new(),
    buffers: Vec::new(),
    slot: 0,
    lists: BTreeMap::new(),
}));

fn with<T>(act: impl FnOnce(&mut Host) -> T) -> T {
    HOST.with_borrow_mut(act)
}

/// A type of its own because the queue wants its Hal as a parameter.
#[derive(Debug)]
pub struct Script;

// SAFETY: the regions are aligned pages, zeroed here, and one queue at a time is in use.
unsafe impl Hal for Script {
    fn dma_alloc(pages: usize, _: BufferDirection) -> (PhysAddr, NonNull<u8>) {
        with(|host| {
            let (which, bytes) = (host.before.len(), pages * PAGE_SIZE);
            assert!(bytes <= LARGEST[which], "more than there is");
            let start = host.memory[which].as_ptr();
            // SAFETY: the region was just found to have as many bytes.
            unsafe {
                host.before
                    .push(std::slice::from_raw_parts(start, bytes).to_vec());
                start.write_bytes(0, bytes);
            }
            (host.bases[which], host.memory[which])
        })
    }

    /// A start that the script did not name is an owning queue's buffer, or a heap list of the queue's own, told as its slot.
    unsafe fn share(buffer: NonNull<[u8]>, _: BufferDirection) -> PhysAddr {
        let start = buffer.cast::<u8>().as_ptr().expose_provenance();
        if let Some(address) = owned::address(start) {
            return address;
        }
        with(|host| match host.buffers.iter().find(|b| b.0 == start) {
            Some(buffer) => buffer.1,
            None => {
                host.lists.insert(host.slot, (start, buffer.len()));
                host.bases[2] + host.slot as u64
            }
        })
    }

    /// Told by its start and not by its address, which a script's buffer may happen to share; a Hal may look at it all the same.
    unsafe fn unshare(address: PhysAddr, buffer: NonNull<[u8]>, _: BufferDirection) {
        black_box(address);
        let start = buffer.cast::<u8>().as_ptr().addr();
        with(|host| host.lists.retain(|_, list| list.0 != start));
    }
}

/// Forgets an earlier queue's regions, lists and store.
pub fn forget() {
    with(|host| (host.before, host.lists) = (Vec::new(), BTreeMap::new()));
    owned::forget();
    crate::trace::forget_lists();
}

/// Names the buffers of the next add and the slot of its list; with none it ends it.
pub fn name_buffers(buffers: Vec<(usize, PhysAddr)>, slot: usize) {
    with(|host| (host.buffers, host.slot) = (buffers, slot));
}

/// Start and bytes of regions one and two.
pub fn regions() -> [(usize, usize); 2] {
    with(|host| {
        [0, 1].map(|which| {
            (
                host.memory[which].as_ptr().expose_provenance(),
                LARGEST[which],
            )
        })
    })
}

/// What each page asked for held before it was zeroed.
pub fn before() -> Vec<Vec<u8>> {
    with(|host| host.before.clone())
}

/// Looks at the bytes of region one, region two or the pool.
pub fn look<T>(which: usize, act: impl FnOnce(&[u8]) -> T) -> T {
    let start = with(|host| host.memory[which]);
    // SAFETY: the queue does nothing while this program looks.
    act(unsafe { std::slice::from_raw_parts(start.as_ptr(), LARGEST[which]) })
}

/// Stores bytes, as far as there is room, and volatile because the queue has pointers of its own.
pub fn store(which: usize, offset: usize, bytes: &[u8]) {
    let start = with(|host| host.memory[which]);
    for (at, byte) in (offset..LARGEST[which]).zip(bytes) {
        // SAFETY: the place is below the region's length.
        unsafe { start.as_ptr().add(at).write_volatile(*byte) };
    }
}

fn list_bytes(list: (usize, usize)) -> &'static mut [u8] {
    // SAFETY: the queue frees a list only after it has unshared it, and nobody keeps this view.
    unsafe { std::slice::from_raw_parts_mut(std::ptr::with_exposed_provenance_mut(list.0), list.1) }
}

/// The bytes of the live lists, read where the queue has them, and their places in the pool.
pub fn live_lists() -> Vec<(usize, Vec<u8>)> {
    let lists = with(|host| host.lists.clone());
    let bytes = lists
        .into_iter()
        .map(|(slot, list)| (slot, list_bytes(list).to_vec()));
    bytes.collect()
}

/// A device's stores to the pool reach the live lists on the heap.
pub fn pool_to_lists() {
    for (slot, list) in with(|host| host.lists.clone()) {
        look(2, |pool| {
            list_bytes(list).copy_from_slice(&pool[slot..slot + list.1])
        });
    }
}

/// The transport's part: what new asks it, the addresses it is told, and whether the device was notified.
pub struct Port {
    ask: Ask,
    pub told: [PhysAddr; 3],
    pub notified: bool,
}

impl Port {
    /// Bases that no Hal may hand out are not handed out.
    pub fn new(ask: Ask) -> Self {
        let bases = if ask.suits(ask.lent) {
            ask.bases
        } else {
            [0; 3]
        };
        with(|host| host.bases = bases);
        Port {
            ask,
            told: [0; 3],
            notified: false,
        }
    }

    /// Where table, available ring and used ring lie, found as a device would find them.
    pub fn parts(&self) -> [(usize, Range<usize>); 3] {
        let size = self.ask.size;
        let bytes = [16 * size, 6 + 2 * size, 6 + 8 * size];
        let used = usize::from(!self.ask.legacy());
        [(0, 0), (1, 0), (2, used)].map(|(part, which)| {
            let from = (self.told[part] - with(|host| host.bases[which])) as usize;
            (which, from..from + bytes[part])
        })
    }
}

impl Transport for Port {
    fn queue_used(&mut self, _: u16) -> bool {
        self.ask.in_use
    }

    fn max_queue_size(&mut self, _: u16) -> u32 {
        self.ask.most
    }

    fn requires_legacy_layout(&self) -> bool {
        self.ask.legacy()
    }

    fn queue_set(&mut self, _: u16, _: u32, table: PhysAddr, avail: PhysAddr, used: PhysAddr) {
        self.told = [table, avail, used];
    }

    /// Reached by an owning queue's poll only.
    fn notify(&mut self, _: u16) {
        self.notified = true;
    }
}
