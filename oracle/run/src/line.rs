//! The line of an answer, as docs/SCRIPTS.md says it.
use crate::board::View;
use crate::host;
use crate::script::Lent;

/// The sum goes on over more numbers.
fn sum(start: u64, numbers: impl IntoIterator<Item = u64>) -> u64 {
    const MODULUS: u64 = 4_294_967_291;
    let mixed = |total: u64, x: u64| (total * 1_000_003 + x % MODULUS) % MODULUS;
    numbers.into_iter().fold(start, mixed)
}

pub fn sum_bytes(start: u64, bytes: &[u8]) -> u64 {
    sum(start, bytes.iter().map(|byte| u64::from(*byte)))
}

fn sum_region(start: u64, which: usize, lent: Lent) -> u64 {
    host::look(which, |bytes| sum_bytes(start, &bytes[..lent.bytes[which]]))
}

/// The live lists are summed from the heap, where the crate has them.
fn sum_lists() -> u64 {
    let lists = host::live_lists().into_iter();
    lists.fold(0, |total, (_, bytes)| sum_bytes(total, &bytes))
}

fn dump(which: usize, lent: Lent) -> String {
    let digits = |bytes: &[u8]| bytes.iter().map(|byte| format!("{byte:02x}")).collect();
    host::look(which, |bytes| digits(&bytes[..lent.bytes[which]]))
}

/// What is answered and what is available come as text, since a call may panic, and a damaged queue does when it is asked.
pub fn line(answer: &str, view: &View, available: &str, more: &[u64], lent: Lent) -> String {
    let View {
        num_used,
        free_head,
        shadow,
        avail_idx,
        last_used_idx,
    } = view;
    let memory = sum_region(sum_region(0, 0, lent), 1, lent);
    let shadow = sum(0, shadow.iter().copied());
    let lists = sum_lists();
    let mut text = format!("{answer} {free_head} {num_used} {avail_idx} {last_used_idx} ");
    text += &format!("{available} {memory} {shadow} {lists}");
    for number in more {
        text += &format!(" {number}");
    }
    text.push('\n');
    if lent.show == 2 {
        for which in 0..3 {
            text += &dump(which, lent);
            text.push('\n');
        }
    }
    text
}
