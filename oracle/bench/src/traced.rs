//! Runs a script over our own archive, as oracle --accesses does over the crate: new, add and pop_used, with the loads and stores of shared memory.
#![allow(dead_code)] // The files shared with other programs have more than this one needs.
mod exported;
mod memory;
#[path = "../../run/src/script.rs"]
mod script;
#[path = "../../run/src/trace.rs"]
mod trace;

use exported::*;
use memory::pages;
use script::{Ask, LARGEST, Lent, List, Numbers, Op, operation};
use std::io::{BufWriter, Read, Write, stdin, stdout};
use trace::watch;

/// The memory, what of it is lent, and the record.
struct Desk {
    memory: [*mut u8; 3],
    lent: Lent,
    record: Box<Flat>,
}

/// A list as three slices.
struct Columns {
    addrs: Vec<u64>,
    sizes: Vec<u32>,
    outs: Vec<u8>,
}

fn columns(list: &List) -> Columns {
    let both = || list.iter().flatten();
    let outs = [0, 1].map(|side: u8| vec![side; list[usize::from(side)].len()]);
    Columns {
        addrs: both().map(|told| told.0).collect(),
        sizes: both().map(|told| told.1).collect(),
        outs: outs.concat(),
    }
}

/// Calls an exported function over the record's tables, watched.
macro_rules! call {
    ($name:ident, $desk:expr, $list:expr $(, $token:expr)?) => {{
        let Columns { addrs, sizes, outs } = columns($list);
        let ([one, two, pool], bytes) = ($desk.memory, $desk.lent.bytes);
        let r = &mut *$desk.record;
        // SAFETY: the memory has as many bytes, the vectors as many entries, and nobody else uses them meanwhile.
        let told = watch(|| unsafe {
            $name(r.plain, &mut r.words, &mut r.lens, &mut r.halves, &mut r.sides, $($token,)?
                addrs.as_ptr(), addrs.len(), sizes.as_ptr(), sizes.len(), outs.as_ptr(), outs.len(),
                one, bytes[0], two, bytes[1], pool, bytes[2])
        });
        r.plain = told.plain;
        (told.answer, told.value)
    }};
}

impl Desk {
    fn new(&mut self, ask: Ask) -> (u8, u32) {
        self.lent = ask.lent;
        let ([one, two, pool], bytes) = (self.memory, ask.lent.bytes);
        let told = FlatAsk {
            n: ask.size as u32,
            in_use: ask.in_use,
            most: ask.most,
            indirect: ask.indirect(),
            event_idx: ask.event(),
            legacy: ask.legacy(),
            base_one: ask.bases[0],
            base_two: ask.bases[1],
            base_pool: ask.bases[2],
        };
        // SAFETY: the memory has as many bytes as are lent.
        let made = unsafe {
            one.write_bytes(165, bytes[0]);
            two.write_bytes(165, bytes[1]);
            pool.write_bytes(165, bytes[2]);
            mayketura_new(told, one, bytes[0], two, bytes[1], pool, bytes[2])
        };
        *self.record = made.queue;
        (made.answer, 0)
    }

    fn store(&mut self, [region, offset, width, number]: [u64; 4]) {
        let (which, bytes) = (region.min(2) as usize, number.to_le_bytes());
        for (at, byte) in (offset as usize..LARGEST[which]).zip(&bytes[..width.min(8) as usize]) {
            // SAFETY: the place is below the region's length.
            unsafe { self.memory[which].add(at).write_volatile(*byte) };
        }
    }

    /// Answer and value of what the archive can be asked; a line says `none` of other calls.
    fn turn(&mut self, op: Op) -> Option<Option<(u8, u32)>> {
        match op {
            Op::New(ask) => Some(Some(self.new(ask))),
            Op::Add(Some(list)) => Some(Some(call!(mayketura_add_lent, self, &list))),
            Op::Pop(token, Some(list)) => {
                Some(Some(call!(mayketura_pop_used_lent, self, &list, token)))
            }
            Op::Store(told) => {
                self.store(told);
                None
            }
            Op::Lend(lent) => {
                self.lent = lent;
                None
            }
            Op::Other => None,
            _ => Some(None),
        }
    }
}

fn main() -> std::io::Result<()> {
    let mut text = Vec::new();
    stdin().read_to_end(&mut text)?;
    let mut numbers = Numbers::new(&text);
    let mut out = BufWriter::new(stdout().lock());
    let memory = LARGEST.map(|bytes| pages(bytes).as_ptr());
    trace::begin([0, 1, 2].map(|i| (memory[i].expose_provenance(), LARGEST[i])));
    let lent = Lent {
        bytes: [0; 3],
        show: 1,
    };
    // SAFETY: zero bytes are a value of every field.
    let record = unsafe { Box::<Flat>::new_zeroed().assume_init() };
    let mut desk = Desk {
        memory,
        lent,
        record,
    };
    while !numbers.done() {
        let (number, op) = operation(&mut numbers);
        trace::want(desk.lent.show == 2);
        match desk.turn(op) {
            None => {}
            Some(None) => writeln!(out, "{number} none")?,
            Some(Some((answer, value))) => {
                writeln!(out, "{number} {answer} {value}{}", trace::told())?;
            }
        }
    }
    out.flush()
}
