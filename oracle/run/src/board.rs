//! A queue of the crate, owning or not, and what can be seen of it.
use crate::buffers::{Buffers, starts};
use crate::calls::{Calls, SIZES, number, open};
use crate::host::{self, Port};
use crate::line::sum_bytes;
use crate::owned;
use crate::owns::{BUFFER_SIZES, Owns};
use crate::script::{Ask, Lent, List, Op, lends};
use queue::{Error, Result};
use std::panic::{AssertUnwindSafe, catch_unwind};

/// The number and the value of an answer, and what its line has more at the end.
pub struct Answer {
    pub number: u32,
    pub value: u64,
    pub more: Vec<u64>,
}

impl Answer {
    pub fn new(number: u32, value: u64) -> Answer {
        let more = Vec::new();
        Answer {
            number,
            value,
            more,
        }
    }

    fn of(told: Result<impl Into<u64>>) -> Answer {
        match told {
            Ok(value) => Answer::new(0, value.into()),
            Err(error) => Answer::new(number(error), 0),
        }
    }

    /// An owning queue's line has the shown part's place, count and sum, and what is held: nothing, after the crate's calls.
    fn owning(mut self, shown: [u64; 3]) -> Answer {
        self.more.extend(shown);
        self.more.extend([0, 0]);
        self
    }
}

/// The private fields, as the derived Debug shows them; a refused new has the all-zero ones.
#[derive(Default)]
pub struct View {
    pub num_used: u64,
    pub free_head: u64,
    /// Four numbers for each descriptor: address, length, flags, next.
    pub shadow: Vec<u64>,
    pub avail_idx: u64,
    pub last_used_idx: u64,
}

impl View {
    /// From num_used on the fields' only digits are those of their numbers, in the source's order.
    fn read(text: &str, size: usize) -> View {
        let fields = text.split_once(" num_used: ").expect("the Debug text").1;
        let words = fields.split(|c: char| !c.is_ascii_digit());
        let mut numbers = words.filter_map(|word| word.parse().ok());
        let mut next = || numbers.next().expect("a number");
        View {
            num_used: next(),
            free_head: next(),
            shadow: (0..4 * size).map(|_| next()).collect(),
            avail_idx: next(),
            last_used_idx: next(),
        }
    }
}

enum Kind {
    Plain(Box<dyn Calls>),
    Owning(Box<dyn Owns>),
}

pub struct Board {
    queue: Kind,
    pub view: View,
    ask: Ask,
    port: Port,
}

/// Every lent byte becomes 165, as operations 1 and 25 have it.
pub fn fill(lent: Lent) {
    for (which, count) in lent.bytes.into_iter().enumerate() {
        host::store(which, 0, &vec![165; count]);
    }
}

/// The crate wants zeroed pages and clears nothing; ours clears the parts only, so the rest is put back.
fn put_back(port: &Port) {
    for (which, mut wanted) in host::before().into_iter().enumerate() {
        let mut made = host::look(which, |bytes| bytes[..wanted.len()].to_vec());
        for (_, part) in port.parts().into_iter().filter(|part| part.0 == which) {
            wanted[part.clone()].copy_from_slice(&made[part.clone()]);
            made[part].fill(0);
        }
        assert!(
            made.iter().all(|byte| *byte == 0),
            "new wrote outside its parts"
        );
        host::store(which, 0, &wanted);
    }
}

impl Board {
    /// A size that no queue can have is refused by number 5 here, as the crate refuses it unrun.
    pub fn new(ask: Ask) -> std::result::Result<Board, u32> {
        if !SIZES.contains(&ask.size) {
            return Err(5);
        }
        let mut port = Port::new(ask);
        let queue = open(&ask, &mut port).map_err(number)?;
        put_back(&port);
        let view = View::read(&queue.text(), ask.size);
        let queue = Kind::Plain(queue);
        Ok(Board {
            queue,
            view,
            ask,
            port,
        })
    }

    /// Whether what is lent has the bytes that the layout and the modes need, at bases that a queue can have.
    pub fn suits(&self, lent: Lent) -> bool {
        self.ask.suits(lent)
    }

    /// The answer of a new that was not refused.
    pub fn made(&self) -> Answer {
        let mut answer = Answer::new(0, 0);
        if self.ask.whole {
            answer.more.extend(self.port.told);
        }
        answer
    }

    /// To be called after every operation that may change the queue.
    pub fn refresh(&mut self) {
        let text = match &self.queue {
            Kind::Plain(queue) => queue.text(),
            Kind::Owning(queue) => queue.text(),
        };
        self.view = View::read(&text, self.ask.size);
        for (slot, bytes) in host::live_lists() {
            host::store(2, slot, &bytes);
        }
    }

    /// available_desc's value, which is reckoned where the owning queue hides it; a damaged queue panics when it is asked.
    pub fn available(&self) -> String {
        let (size, num_used) = (self.ask.size as u64, self.view.num_used);
        let told = match &self.queue {
            Kind::Plain(queue) => catch_unwind(AssertUnwindSafe(|| queue.avail() as u64)).ok(),
            Kind::Owning(_) if self.ask.indirect() && num_used != size => Some(size),
            Kind::Owning(_) => size.checked_sub(num_used),
        };
        told.map_or("panic".into(), |count| count.to_string())
    }

    /// None for what the crate cannot be asked.
    pub fn call(&mut self, op: Op) -> Option<Answer> {
        let slot = 16 * self.ask.size * self.view.free_head as usize;
        let answer = match &mut self.queue {
            Kind::Plain(queue) => call_plain(queue.as_mut(), op, slot)?,
            Kind::Owning(queue) => call_owning(queue.as_mut(), op, &mut self.port)?,
        };
        self.refresh();
        Some(answer)
    }

    /// Whether the crate can be asked for an owning queue with such buffers, in a store such as ours would take.
    pub fn can_own(&self, base: u64, size: u32, bytes: usize) -> bool {
        matches!(self.queue, Kind::Plain(_))
            && BUFFER_SIZES.contains(&size)
            && lends(base, self.ask.size * size as usize, bytes)
    }

    /// An owning queue over this one, which is lost where the crate refuses.
    pub fn own(self, base: u64, size: u32) -> (Option<Board>, Answer) {
        let Kind::Plain(queue) = self.queue else {
            unreachable!("an owning queue over an owning one")
        };
        owned::begin(base, size as usize);
        match queue.own(size) {
            Ok(owning) => {
                let queue = Kind::Owning(owning);
                let mut board = Board { queue, ..self };
                board.refresh();
                (Some(board), Answer::new(0, 0).owning([0; 3]))
            }
            Err(error) => (None, Answer::new(number(error), 0).owning([0; 3])),
        }
    }
}

fn call_plain(queue: &mut dyn Calls, op: Op, slot: usize) -> Option<Answer> {
    Some(match op {
        Op::Add(Some(list)) => Answer::of(add(queue, &list, slot)),
        Op::Pop(token, Some(list)) if token < 65536 => {
            let mut buffers = Buffers::new(&list);
            Answer::of(queue.pop(token as u16, &buffers.inputs, &mut buffers.outputs))
        }
        Op::Peek => Answer::of(queue.peek().ok_or(Error::NotReady)),
        Op::CanPop => Answer::new(0, queue.can().into()),
        Op::ShouldNotify => Answer::new(0, queue.notify().into()),
        Op::SetDevNotify(wanted) => {
            queue.dev_notify(wanted);
            Answer::new(0, 0)
        }
        _ => return None,
    })
}

fn add(queue: &mut dyn Calls, list: &List, slot: usize) -> Result<u16> {
    let mut buffers = Buffers::new(list);
    host::name_buffers(starts(list), slot);
    let told = queue.add(&buffers.inputs, &mut buffers.outputs);
    host::name_buffers(Vec::new(), 0);
    told
}

fn call_owning(queue: &mut dyn Owns, op: Op, port: &mut Port) -> Option<Answer> {
    Some(match op {
        Op::Poll => poll(queue, port),
        Op::OwnShouldNotify => Answer::new(0, queue.notify().into()).owning([0; 3]),
        Op::OwnSetDevNotify(wanted) => {
            queue.dev_notify(wanted);
            Answer::new(0, 0).owning([0; 3])
        }
        _ => return None,
    })
}

/// The token is the number of the buffer that the handler was shown.
fn poll(queue: &mut dyn Owns, port: &mut Port) -> Answer {
    port.notified = false;
    let mut answer = match queue.poll(port) {
        Ok(Some((start, bytes))) => {
            let (token, place) = owned::place(start);
            let shown = [place as u64, bytes.len() as u64, sum_bytes(0, &bytes)];
            Answer::new(0, token as u64).owning(shown)
        }
        Ok(None) => Answer::new(0, 0).owning([0; 3]),
        Err(error) => Answer::new(number(error), 0).owning([0; 3]),
    };
    answer.more.push(port.notified.into());
    answer
}
