//! The functions of our archive, and the structs of crates/exports/src/lib.rt, field by field.

#[repr(C)]
#[derive(Clone, Copy)]
pub struct Plain {
    pub n: u16,
    pub indirect: bool,
    pub event_idx: bool,
    pub legacy: bool,
    pub base: u64,
    pub num_used: u16,
    pub free_head: u16,
    pub avail_idx: u16,
    pub last_used_idx: u16,
}

#[repr(C)]
#[derive(Clone, Copy)]
pub struct Flat {
    pub plain: Plain,
    pub words: [u64; 4160],
    pub lens: [u32; 4160],
    pub halves: [u16; 192],
    pub sides: [bool; 4096],
}

#[repr(C)]
pub struct FlatAsk {
    pub n: u32,
    pub in_use: bool,
    pub most: u32,
    pub indirect: bool,
    pub event_idx: bool,
    pub legacy: bool,
    pub base_one: u64,
    pub base_two: u64,
    pub base_pool: u64,
}

#[repr(C)]
pub struct FlatMade {
    pub answer: u8,
    pub table: u64,
    pub avail: u64,
    pub used: u64,
    pub queue: Flat,
}

#[repr(C)]
pub struct FlatAnswer {
    pub answer: u8,
    pub value: u32,
    pub steps: u32,
    pub queue: Flat,
}

#[repr(C)]
pub struct LentAnswer {
    pub answer: u8,
    pub value: u32,
    pub steps: u32,
    pub plain: Plain,
}

/// Every slice is a pointer and a count.
macro_rules! exported {
    ($($name:ident($($before:ty),*) -> $answer:ty;)*) => {
        unsafe extern "C" {
            $(pub fn $name($(_: $before,)* addrs: *const u64, _: usize, sizes: *const u32, _: usize, outs: *const u8, _: usize,
                one: *mut u8, _: usize, two: *const u8, _: usize, pool: *mut u8, _: usize) -> $answer;)*
            pub fn mayketura_new(ask: FlatAsk, one: *mut u8, _: usize, two: *mut u8, _: usize, pool: *const u8, _: usize) -> FlatMade;
        }
    };
}

exported! {
    mayketura_add(Flat) -> FlatAnswer;
    mayketura_pop_used(Flat, u32) -> FlatAnswer;
    mayketura_add_lent(Plain, *mut [u64; 4160], *mut [u32; 4160], *mut [u16; 192], *mut [bool; 4096]) -> LentAnswer;
    mayketura_pop_used_lent(Plain, *mut [u64; 4160], *mut [u32; 4160], *mut [u16; 192], *mut [bool; 4096], u32) -> LentAnswer;
}
