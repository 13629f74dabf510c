//! Notes the loads and stores of shared memory that a queue makes (x86-64 Linux): the pages are closed during a call,
//! a fault tells the address and opens its page for one instruction, and the trap after that closes it again.
use std::alloc::{GlobalAlloc, Layout, System};
use std::cell::UnsafeCell;
use std::ffi::{c_int, c_void};
use std::fmt::Write;
use std::sync::atomic::{AtomicBool, AtomicU64, AtomicUsize, Ordering::Relaxed};

unsafe extern "C" {
    fn mprotect(start: *mut c_void, bytes: usize, rights: c_int) -> c_int;
    fn sigaction(signal: c_int, new: *const Action, old: *mut Action) -> c_int;
}

/// The C library's struct sigaction.
#[repr(C)]
struct Action {
    handler: usize,
    mask: [u64; 16],
    flags: c_int,
    restorer: usize,
}

const PAGE: usize = 4096;
const SEGV: c_int = 11;
const TRAP: c_int = 5;
const WITH_INFO: c_int = 4;
const CLOSED: c_int = 0;
const OPEN: c_int = 3;
/// Where the C library's structs have the address, the flags register and the fault's error code.
const ADDRESS: usize = 2;
const FLAGS: usize = 5 + 17;
const ERROR: usize = 5 + 19;
const SINGLE_STEP: usize = 1 << 8;
const MOST: usize = 4096;

/// An access, and for a store the 16 bytes around it afterwards, which hold the whole of its field.
#[derive(Clone, Copy)]
struct Note {
    at: usize,
    store: bool,
    after: [u8; 16],
}

struct Cell<T>(UnsafeCell<T>);
// SAFETY: the program has one thread, and handlers run only while it stands at an access.
unsafe impl<T> Sync for Cell<T> {}

#[repr(align(4096))]
struct Arena(Cell<[[u8; 1024]; 64]>);

const NOTHING: Note = Note {
    at: 0,
    store: false,
    after: [0; 16],
};
static NOTES: Cell<[Note; MOST]> = Cell(UnsafeCell::new([NOTHING; MOST]));
static COUNT: AtomicUsize = AtomicUsize::new(0);
/// How many notes are done with, as their instruction has ended.
static ENDED: AtomicUsize = AtomicUsize::new(0);
static WATCHING: AtomicBool = AtomicBool::new(false);
/// Indirect lists lie here, one slot each, so that their entries are noted too.
static LISTS: Arena = Arena(Cell(UnsafeCell::new([[0; 1024]; 64])));
static TAKEN: AtomicU64 = AtomicU64::new(0);
/// Whether the next calls are watched.
static WANTED: AtomicBool = AtomicBool::new(false);
/// Start and bytes of region one, region two and the lists; none before `begin`.
static PARTS: [[AtomicUsize; 2]; 3] = [const { [const { AtomicUsize::new(0) }; 2] }; 3];

/// Start and bytes of where the indirect lists lie.
pub fn lists() -> (usize, usize) {
    (LISTS.0.0.get().addr(), size_of::<Arena>())
}

fn parts() -> [(usize, usize); 3] {
    [0, 1, 2].map(|i| (PARTS[i][0].load(Relaxed), PARTS[i][1].load(Relaxed)))
}

/// The part that an address lies in, and its place there; a list's place counts from its own start.
fn place(at: usize) -> Option<(usize, usize)> {
    let inside = |(start, bytes): &(usize, usize)| at.wrapping_sub(*start) < *bytes;
    let which = parts().iter().position(inside)?;
    let offset = at - parts()[which].0;
    Some((which, if which == 2 { offset % 1024 } else { offset }))
}

fn rights(start: usize, bytes: usize, rights: c_int) {
    // SAFETY: only whole pages of the three parts are handed in.
    let told = unsafe { mprotect(std::ptr::with_exposed_provenance_mut(start), bytes, rights) };
    assert_eq!(told, 0, "mprotect");
}

fn set_all(wanted: c_int) {
    for (start, bytes) in parts() {
        rights(start, bytes, wanted);
    }
}

fn handle(signal: c_int, handler: usize) {
    let action = Action {
        handler,
        mask: [0; 16],
        flags: WITH_INFO,
        restorer: 0,
    };
    // SAFETY: the struct is the C library's, and the handler lives for good.
    assert_eq!(
        unsafe { sigaction(signal, &action, std::ptr::null_mut()) },
        0
    );
}

/// A fault elsewhere is nobody's to handle: without a handler it comes again and ends the program.
extern "C" fn fault(_: c_int, info: *const usize, context: *mut usize) {
    // SAFETY: the kernel hands in both structs, and the notes are this thread's.
    unsafe {
        let (at, count) = (*info.add(ADDRESS), COUNT.load(Relaxed));
        if place(at).is_none() || count == MOST {
            return handle(SEGV, 0);
        }
        (*NOTES.0.get())[count] = Note {
            at,
            store: *context.add(ERROR) & 2 != 0,
            ..NOTHING
        };
        COUNT.store(count + 1, Relaxed);
        rights(at & !(PAGE - 1), PAGE, OPEN);
        *context.add(FLAGS) |= SINGLE_STEP;
    }
}

/// The instruction has been run: what it left is noted, and its pages are closed.
extern "C" fn trap(_: c_int, _: *const usize, context: *mut usize) {
    let ended = ENDED.swap(COUNT.load(Relaxed), Relaxed);
    // SAFETY: the pages of these notes are open, and 16 aligned bytes lie in one page.
    unsafe {
        for note in &mut (&mut *NOTES.0.get())[ended..COUNT.load(Relaxed)] {
            note.after = *std::ptr::with_exposed_provenance(note.at & !15);
        }
        for note in &(&*NOTES.0.get())[ended..COUNT.load(Relaxed)] {
            rights(note.at & !(PAGE - 1), PAGE, CLOSED);
        }
        *context.add(FLAGS) &= !SINGLE_STEP;
    }
}

/// Calls can be watched from now on; the two regions and the lists are told by start and bytes.
pub fn begin(told: [(usize, usize); 3]) {
    for (part, (start, bytes)) in PARTS.iter().zip(told) {
        part[0].store(start, Relaxed);
        part[1].store(bytes, Relaxed);
    }
    handle(SEGV, fault as *const () as usize);
    handle(TRAP, trap as *const () as usize);
}

/// Whether calls are watched from now on.
pub fn want(wanted: bool) {
    WANTED.store(wanted, Relaxed);
}

/// A new queue has no lists, whatever an earlier one left.
pub fn forget_lists() {
    TAKEN.store(0, Relaxed);
}

/// Opens the pages again, also when the call panics.
struct Watch;

impl Watch {
    /// Slots that are free are cleared while that is no access, as a list is asked for zeroed.
    fn start() -> Watch {
        let slots = LISTS.0.0.get().cast::<[u8; 1024]>();
        for slot in (0..64).filter(|slot| TAKEN.load(Relaxed) >> slot & 1 == 0) {
            // SAFETY: no list lies in this slot.
            unsafe { slots.add(slot).write([0; 1024]) };
        }
        COUNT.store(0, Relaxed);
        ENDED.store(0, Relaxed);
        WATCHING.store(true, Relaxed);
        set_all(CLOSED);
        Watch
    }
}

impl Drop for Watch {
    fn drop(&mut self) {
        set_all(OPEN);
        WATCHING.store(false, Relaxed);
    }
}

/// Makes a call, and notes its accesses if they are asked for.
pub fn watch<T>(call: impl FnOnce() -> T) -> T {
    let _watch = WANTED.load(Relaxed).then(Watch::start);
    call()
}

/// The last call's accesses: load or store, part, place, and for a store the 16 aligned bytes after it.
pub fn told() -> String {
    let mut text = String::new();
    // SAFETY: no call is under way.
    for note in unsafe { &(&*NOTES.0.get())[..COUNT.swap(0, Relaxed)] } {
        let (part, offset) = place(note.at).expect("a place");
        let kind = if note.store { "store" } else { "load" };
        write!(text, " {kind}:{part}:{offset}:").expect("room");
        for byte in note.after.iter().filter(|_| note.store) {
            write!(text, "{byte:02x}").expect("room");
        }
    }
    text
}

/// Within a watched call only lists are aligned to 16 bytes, and get a slot.
pub struct Lists;

// SAFETY: a slot is handed out once until it is freed, and is as large as the largest list; all else is the system's.
unsafe impl GlobalAlloc for Lists {
    unsafe fn alloc(&self, layout: Layout) -> *mut u8 {
        let slot = TAKEN.load(Relaxed).trailing_ones();
        if !WATCHING.load(Relaxed) || layout.align() != 16 || layout.size() > 1024 || slot == 64 {
            // SAFETY: as the caller vouches.
            return unsafe { System.alloc(layout) };
        }
        TAKEN.fetch_or(1 << slot, Relaxed);
        LISTS
            .0
            .0
            .get()
            .cast::<u8>()
            .wrapping_add(1024 * slot as usize)
    }

    /// A slot is clear already; the default would clear it again, which would count as accesses.
    unsafe fn alloc_zeroed(&self, layout: Layout) -> *mut u8 {
        if WATCHING.load(Relaxed) && layout.align() == 16 {
            // SAFETY: as the caller vouches.
            return unsafe { self.alloc(layout) };
        }
        // SAFETY: as the caller vouches.
        unsafe { System.alloc_zeroed(layout) }
    }

    unsafe fn dealloc(&self, start: *mut u8, layout: Layout) {
        match start.addr().wrapping_sub(lists().0) {
            offset if offset < lists().1 => {
                TAKEN.fetch_and(!(1 << (offset / 1024)), Relaxed);
            }
            // SAFETY: as the caller vouches.
            _ => unsafe { System.dealloc(start, layout) },
        }
    }
}
