//! Our queue, as crates/exports gives it: the record by value, and the record's tables lent.
use crate::driver::Side;
use crate::exported::*;
use crate::memory::{List, pages};

/// The bytes of a record.
pub const RECORD: usize = size_of::<Flat>();

const ONE: usize = 16 * 64 + 6 + 2 * 64;
const TWO: usize = 6 + 8 * 64;
const POOL: usize = 16 * 64 * 64;

/// What is lent for good, and the record.
struct Lent {
    one: *mut u8,
    two: *mut u8,
    pool: *mut u8,
    pool_bytes: usize,
    record: Box<Flat>,
}

impl Lent {
    fn new(indirect: bool) -> Self {
        let [one, two, pool] = [ONE, TWO, POOL].map(|bytes| pages(bytes).as_ptr());
        let pool_bytes = if indirect { POOL } else { 0 };
        let ask = FlatAsk {
            n: 64,
            in_use: false,
            most: 64,
            indirect,
            event_idx: false,
            legacy: false,
            base_one: one as u64,
            base_two: two as u64,
            base_pool: pool as u64,
        };
        // SAFETY: the pages have as many bytes.
        let made = unsafe { mayketura_new(ask, one, ONE, two, TWO, pool, pool_bytes) };
        assert_eq!(made.answer, 0, "new");
        assert_eq!(
            (made.table, made.avail, made.used),
            (one as u64, one as u64 + 1024, two as u64)
        );
        let record = Box::new(made.queue);
        Lent {
            one,
            two,
            pool,
            pool_bytes,
            record,
        }
    }
}

/// Calls an exported function with a list and with what is lent.
macro_rules! call {
    ($name:ident, $lent:expr, $list:expr, $($before:expr),*) => {{
        let addrs = $list.starts.map(|start| start as u64);
        let outs = [0u8, 1, 1];
        // SAFETY: the pages have as many bytes, the arrays K entries, and nobody else uses them meanwhile.
        let told = unsafe {
            $name($($before,)* addrs.as_ptr(), K, $list.sizes.as_ptr(), K, outs.as_ptr(), K,
                $lent.one, ONE, $lent.two, TWO, $lent.pool, $lent.pool_bytes)
        };
        assert_eq!(told.answer, 0);
        told
    }};
}

pub struct ByValue(Lent);

impl ByValue {
    pub fn new(indirect: bool) -> Self {
        ByValue(Lent::new(indirect))
    }
}

impl Side for ByValue {
    #[inline(never)]
    fn add<const K: usize>(&mut self, list: &List) -> u16 {
        let told = call!(mayketura_add, self.0, list, *self.0.record);
        *self.0.record = told.queue;
        told.value as u16
    }

    #[inline(never)]
    fn pop<const K: usize>(&mut self, token: u16, list: &List) -> u32 {
        let told = call!(
            mayketura_pop_used,
            self.0,
            list,
            *self.0.record,
            u32::from(token)
        );
        *self.0.record = told.queue;
        told.value
    }

    fn used(&self) -> *mut u8 {
        self.0.two
    }

    fn front(&self) -> *const u8 {
        self.0.one
    }
}

pub struct Tables(Lent);

impl Tables {
    pub fn new(indirect: bool) -> Self {
        Tables(Lent::new(indirect))
    }
}

impl Side for Tables {
    #[inline(never)]
    fn add<const K: usize>(&mut self, list: &List) -> u16 {
        let r = &mut *self.0.record;
        let told = call!(
            mayketura_add_lent,
            self.0,
            list,
            r.plain,
            &mut r.words,
            &mut r.lens,
            &mut r.halves,
            &mut r.sides
        );
        r.plain = told.plain;
        told.value as u16
    }

    #[inline(never)]
    fn pop<const K: usize>(&mut self, token: u16, list: &List) -> u32 {
        let r = &mut *self.0.record;
        let told = call!(
            mayketura_pop_used_lent,
            self.0,
            list,
            r.plain,
            &mut r.words,
            &mut r.lens,
            &mut r.halves,
            &mut r.sides,
            u32::from(token)
        );
        r.plain = told.plain;
        told.value
    }

    fn used(&self) -> *mut u8 {
        self.0.two
    }

    fn front(&self) -> *const u8 {
        self.0.one
    }
}
