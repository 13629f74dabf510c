//! Times adds and pops of the crate's queue and of ours, and prints a table of nanoseconds for each operation and the ratios.
mod driver;
mod exported;
mod memory;
mod original;
mod ours;

use driver::Lane;
use memory::lists;
use original::Original;
use ours::{ByValue, Tables};
use std::hint::black_box;
use std::sync::atomic::{AtomicU16, Ordering, fence};
use std::time::{Duration, Instant};

/// What a row of the table has: a mode, a number of buffers, and how many lists a burst has.
struct Case {
    name: &'static str,
    indirect: bool,
    count: usize,
}

/// The sides take turns, so that what else the machine does meets all of them.
fn measure<const K: usize>(case: &Case, rounds: u32, turn: Duration) {
    let lists = lists(case.count);
    let lengths: Vec<u32> = (0..case.count as u32).map(|i| 7 * i + 1).collect();
    let mut original = Lane::new(Original::new(case.indirect));
    let mut by_value = Lane::new(ByValue::new(case.indirect));
    let mut tables = Lane::new(Tables::new(case.indirect));
    alike::<K>(case, &mut original, &mut by_value, &mut tables);
    for _ in 0..rounds {
        original.bursts_for::<K>(turn, &lists, &lengths);
        by_value.bursts_for::<K>(turn, &lists, &lengths);
        tables.bursts_for::<K>(turn, &lists, &lengths);
    }
    for (which, operation) in ["add", "pop"].iter().enumerate() {
        let each = |best: [Duration; 2]| best[which].as_secs_f64() * 1e9 / case.count as f64;
        let (theirs, value, lent) = (each(original.best), each(by_value.best), each(tables.best));
        let name = format!("{}, {K} in a list, {operation}", case.name);
        let ratios = (lent / theirs, value / theirs);
        println!(
            "{name:<34} {:5} {theirs:9.1} {lent:9.0} {:7.1} {value:9.0} {:7.0}",
            case.count, ratios.0, ratios.1
        );
    }
    println!(
        "{:<34} {:5} {:9} {:9} {:7} {:9}",
        "  bursts timed", "", original.bursts, tables.bursts, "", by_value.bursts
    );
}

/// A burst each over the same lists: the same tokens, and, where no list lies outside the table, the same bytes.
fn alike<const K: usize>(
    case: &Case,
    original: &mut Lane<Original>,
    by_value: &mut Lane<ByValue>,
    tables: &mut Lane<Tables>,
) {
    let lists = lists(case.count);
    let lengths: Vec<u32> = (1..=case.count as u32).collect();
    for _ in 0..3 {
        original.burst::<K>(&lists, &lengths);
        by_value.burst::<K>(&lists, &lengths);
        tables.burst::<K>(&lists, &lengths);
        let [a, b, c] = [original.left(), by_value.left(), tables.left()];
        assert!(a.0 == b.0 && b.0 == c.0, "tokens differ");
        assert!(
            b.1.len() == c.1.len() && (K > 1 && case.indirect || a.1 == b.1 && b.1 == c.1),
            "bytes differ"
        );
    }
    for best in [&mut original.best, &mut by_value.best, &mut tables.best] {
        *best = [Duration::MAX; 2];
    }
}

/// What one copy of the record costs, since by value each call makes several.
fn copy() -> Duration {
    let (from, mut to) = (vec![1u8; ours::RECORD], vec![0u8; ours::RECORD]);
    let once = |_| {
        let start = Instant::now();
        black_box(&mut to).copy_from_slice(black_box(&from));
        start.elapsed()
    };
    (0..10_000).map(once).min().expect("a time")
}

/// What a store and a fence cost by themselves, since each add of the crate has a fence before its last store.
fn one_fence() -> f64 {
    let cell = AtomicU16::new(0);
    let many = |_| {
        let start = Instant::now();
        for i in 0..100 {
            black_box(&cell).store(i, Ordering::Relaxed);
            fence(Ordering::SeqCst);
        }
        start.elapsed()
    };
    let best = (0..10_000).map(many).min().expect("a time");
    best.as_nanos() as f64 / 100.0
}

/// What a burst's two looks at the clock cost by themselves.
fn clock() -> Duration {
    (0..100_000)
        .map(|_| Instant::now().elapsed())
        .min()
        .expect("a time")
}

fn main() {
    let rounds = std::env::args()
        .nth(1)
        .map_or(10, |word| word.parse().expect("a number of rounds"));
    let turn = Duration::from_millis(100);
    println!("N = 64, nanoseconds for each operation, of the shortest burst");
    println!(
        "by themselves: the clock {} ns a burst, a fence {:.1} ns, a copy of our record {} ns",
        clock().as_nanos(),
        one_fence(),
        copy().as_nanos()
    );
    println!(
        "{:<34} {:>5} {:>9} {:>9} {:>7} {:>9} {:>7}",
        "", "burst", "crate", "lent", "ratio", "by value", "ratio"
    );
    let direct = |count| Case {
        name: "direct",
        indirect: false,
        count,
    };
    let indirect = |count| Case {
        name: "indirect",
        indirect: true,
        count,
    };
    measure::<1>(&direct(40), rounds, turn);
    measure::<3>(&direct(21), rounds, turn);
    measure::<1>(&indirect(40), rounds, turn);
    measure::<3>(&indirect(40), rounds, turn);
}
