//! The script language of docs/SCRIPTS.md: operations, each a number and the numbers that it asks for.

/// Whatever is not a digit parts numbers, and past the end every number is 0.
pub struct Numbers<'t> {
    rest: &'t [u8],
}

impl<'t> Numbers<'t> {
    pub fn new(text: &'t [u8]) -> Self {
        Numbers { rest: text }
    }

    pub fn done(&self) -> bool {
        self.rest.is_empty()
    }

    /// A digit that would not fit 64 bits any more is left out, as our own program does.
    fn next(&mut self) -> u64 {
        let from = self.rest.iter().position(u8::is_ascii_digit);
        self.rest = &self.rest[from.unwrap_or(self.rest.len())..];
        let mut value: u64 = 0;
        while let Some((c, rest)) = self.rest.split_first().filter(|(c, _)| c.is_ascii_digit()) {
            let longer = value.checked_mul(10);
            let longer = longer.and_then(|v| v.checked_add(u64::from(c - b'0')));
            value = longer.unwrap_or(value);
            self.rest = rest;
        }
        value
    }

    fn capped(&mut self, most: usize) -> usize {
        usize::try_from(self.next()).unwrap_or(most).min(most)
    }

    fn many(&mut self, count: usize) -> Vec<u64> {
        (0..count).map(|_| self.next()).collect()
    }

    fn lent(&mut self) -> Lent {
        Lent {
            bytes: LARGEST.map(|most| self.capped(most)),
            show: self.next(),
        }
    }

    /// What new is asked: all of it by operation 25, and by operation 1 what lets a new queue be made.
    fn ask(&mut self, whole: bool) -> Ask {
        let (size, modes) = (self.next() as u32, self.next());
        let (in_use, most, bases) = if whole {
            let told = (self.next() != 0, self.next() as u32);
            (told.0, told.1, [(); 3].map(|()| self.next()))
        } else {
            (false, 64, [4096, 65536, 131072])
        };
        Ask {
            size: size as usize,
            modes,
            in_use,
            most,
            bases,
            lent: self.lent(),
            whole,
        }
    }

    /// None for an input after an output, which the crate's two parameters cannot say.
    fn list(&mut self) -> Option<List> {
        let counts = [self.capped(80), self.capped(80), self.capped(80)];
        let [addresses, sizes, sides] = counts.map(|count| self.many(count));
        let mut list = List::default();
        for (i, address) in addresses.into_iter().enumerate() {
            let size = sizes.get(i).map_or(0, |size| *size as u32);
            let output = sides.get(i).is_some_and(|side| *side as u8 != 0);
            if !output && !list[1].is_empty() {
                return None;
            }
            list[usize::from(output)].push((address, size));
        }
        Some(list)
    }
}

/// How many bytes there are of region one, region two and the pool, in our own program too; and of the store.
pub const LARGEST: [usize; 3] = [65536, 65536, 65536];
pub const STORE: usize = 65536;

/// How many bytes of each are lent, and what lines show.
#[derive(Clone, Copy)]
pub struct Lent {
    pub bytes: [usize; 3],
    pub show: u64,
}

/// What new is asked.
#[derive(Clone, Copy)]
pub struct Ask {
    pub size: usize,
    pub modes: u64,
    pub in_use: bool,
    pub most: u32,
    pub bases: [u64; 3],
    pub lent: Lent,
    /// Whether the line tells the three addresses.
    pub whole: bool,
}

/// Whether a region of these bytes at this base does for a need, as the scope paper has it.
pub fn lends(base: u64, need: usize, bytes: usize) -> bool {
    let end = u128::from(base) + need as u128;
    need == 0 || need <= bytes && base.is_multiple_of(4096) && end <= 1 << 64
}

impl Ask {
    pub fn indirect(&self) -> bool {
        self.modes & 1 != 0
    }

    pub fn event(&self) -> bool {
        self.modes & 2 != 0
    }

    pub fn legacy(&self) -> bool {
        self.modes & 4 != 0
    }

    fn needs(&self) -> [usize; 3] {
        let (first, used) = (18 * self.size + 6, 6 + 8 * self.size);
        let page = |bytes: usize| bytes.div_ceil(4096) * 4096;
        let [one, two] = if self.legacy() {
            [page(first) + page(used), 0]
        } else {
            [first, used]
        };
        let pool = 16 * self.size * self.size;
        [one, two, if self.indirect() { pool } else { 0 }]
    }

    /// Whether what is lent, at these bases, is what a queue of this size needs.
    pub fn suits(&self, lent: Lent) -> bool {
        let needs = self.needs();
        (0..3).all(|i| lends(self.bases[i], needs[i], lent.bytes[i]))
    }
}

/// Addresses and sizes of the inputs and of the outputs.
pub type List = [Vec<(u64, u32)>; 2];

pub enum Op {
    New(Ask),
    Add(Option<List>),
    Pop(u32, Option<List>),
    Peek,
    CanPop,
    ShouldNotify,
    SetDevNotify(bool),
    Store([u64; 4]),
    Lend(Lent),
    /// The store's base, a buffer's size, and the store's length.
    Own(u64, u32, usize),
    Poll,
    OwnShouldNotify,
    OwnSetDevNotify(bool),
    /// What only our own program can be asked.
    Ours,
    /// Passed over.
    Other,
}

/// The next operation's number and what it asks for.
pub fn operation(numbers: &mut Numbers) -> (u64, Op) {
    let number = numbers.next();
    let op = match number {
        1 | 25 => Op::New(numbers.ask(number == 25)),
        2..=5 => {
            let (token, list) = (numbers.next() as u32, numbers.list());
            match number {
                2 => Op::Add(list),
                4 => Op::Pop(token, list),
                _ => Op::Ours,
            }
        }
        6..=12 | 19..=23 => plain(number, numbers.next()),
        13 => Op::Store([(); 4].map(|()| numbers.next())),
        14..=16 | 24 => {
            numbers.many(4);
            Op::Ours
        }
        17 => Op::Lend(numbers.lent()),
        18 => Op::Own(numbers.next(), numbers.next() as u32, numbers.capped(STORE)),
        _ => Op::Other,
    };
    (number, op)
}

fn plain(number: u64, asked: u64) -> Op {
    match number {
        6 => Op::Peek,
        10 => Op::CanPop,
        11 => Op::ShouldNotify,
        12 => Op::SetDevNotify(asked as u32 != 0),
        21 => Op::Poll,
        22 => Op::OwnShouldNotify,
        23 => Op::OwnSetDevNotify(asked as u32 != 0),
        _ => Op::Ours,
    }
}
