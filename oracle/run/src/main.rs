//! Reads a script from standard input and prints what the crate's own queue answers.
mod board;
mod buffers;
mod calls;
mod host;
mod line;
mod owned;
mod owns;
mod script;
mod trace;

use board::{Answer, Board, View, fill};
use script::{Ask, Lent, Numbers, Op, operation};
use std::io::{BufWriter, Read, Write, stdin, stdout};
use std::panic::{AssertUnwindSafe, catch_unwind, set_hook};
use std::process::exit;
use std::sync::Mutex;

#[global_allocator]
static ALLOCATOR: trace::Lists = trace::Lists;

/// What an operation leads to.
enum Said {
    Nothing,
    Line(Answer),
    /// The crate cannot be asked this.
    Bad,
}

/// The queue in use, none after a refused new, and what is lent.
struct Desk {
    board: Option<Board>,
    lent: Lent,
}

impl Desk {
    fn renew(&mut self, ask: Ask) -> Said {
        let lent = ask.lent;
        *self = Desk { board: None, lent };
        host::forget();
        fill(lent);
        match Board::new(ask) {
            Ok(board) if !board.suits(lent) => Said::Bad,
            Ok(board) => Said::Line(self.board.insert(board).made()),
            Err(number) => Said::Line(Answer {
                more: vec![0; if ask.whole { 3 } else { 0 }],
                ..Answer::new(number, 0)
            }),
        }
    }

    fn lend(&mut self, lent: Lent) -> Said {
        match &self.board {
            Some(board) if board.suits(lent) => {
                self.lent = lent;
                Said::Nothing
            }
            _ => Said::Bad,
        }
    }

    fn own(&mut self, base: u64, size: u32, bytes: usize) -> Said {
        match self.board.take() {
            Some(board) if board.can_own(base, size, bytes) => {
                let (board, answer) = board.own(base, size);
                self.board = board;
                Said::Line(answer)
            }
            _ => Said::Bad,
        }
    }

    /// The device's hand: region, offset, width and number.
    fn store(&self, [region, offset, width, number]: [u64; 4]) -> Said {
        let bytes = &number.to_le_bytes()[..width.min(8) as usize];
        let offset = offset.min(65536) as usize;
        if region == 3 {
            owned::store(offset, bytes);
        } else {
            host::store(region.min(2) as usize, offset, bytes);
            host::pool_to_lists();
        }
        Said::Nothing
    }

    fn turn(&mut self, op: Op) -> Said {
        match op {
            Op::New(ask) => self.renew(ask),
            Op::Other => Said::Nothing,
            Op::Store(told) if self.board.is_some() => self.store(told),
            Op::Lend(lent) => self.lend(lent),
            Op::Own(base, size, bytes) => self.own(base, size, bytes),
            op => {
                let answer = self.board.as_mut().and_then(|board| board.call(op));
                answer.map_or(Said::Bad, Said::Line)
            }
        }
    }

    /// The rest of a line whose first words are these.
    fn line(&self, said: &str, more: &[u64]) -> String {
        match &self.board {
            Some(board) => line::line(said, &board.view, &board.available(), more, self.lent),
            None => line::line(said, &View::default(), "0", more, self.lent),
        }
    }

    /// The line of a panic shows what it left behind.
    fn panicked(&mut self, number: u64) -> String {
        if let Some(board) = &mut self.board {
            board.refresh();
        }
        let place = PLACE.lock().unwrap().clone();
        self.line(&format!("{number} panic {place}"), &[])
    }
}

/// Where the crate panicked last: file and line.
static PLACE: Mutex<String> = Mutex::new(String::new());

/// A panic that is not the crate's own must not pass for an answer.
fn only_the_crate_may_panic() {
    set_hook(Box::new(|info| {
        let place = info.location().expect("a place");
        eprintln!("{info}");
        let files = ["/queue.rs", "/queue/owning.rs"];
        match files.iter().find(|file| place.file().ends_with(*file)) {
            Some(file) => *PLACE.lock().unwrap() = format!("{}:{}", &file[1..], place.line()),
            None => exit(3),
        }
    }));
}

/// What is printed of an operation; Err is a panic of the crate.
fn told(desk: &mut Desk, number: u64, said: Result<Said, ()>, traced: bool) -> String {
    match said {
        Ok(Said::Nothing) => String::new(),
        Ok(Said::Line(answer)) => {
            let first = format!("{number} {} {}", answer.number, answer.value);
            if traced {
                format!("{first}{}\n", trace::told())
            } else {
                desk.line(&first, &answer.more)
            }
        }
        Ok(Said::Bad) => "bad\n".into(),
        Err(()) => desk.panicked(number),
    }
}

/// After a panic, or what cannot be asked, operations are passed over up to the next new.
fn main() -> std::io::Result<()> {
    only_the_crate_may_panic();
    let traced = std::env::args().any(|word| word == "--accesses");
    if traced {
        let [one, two] = host::regions();
        trace::begin([one, two, trace::lists()]);
    }
    let mut text = Vec::new();
    stdin().read_to_end(&mut text)?;
    let mut numbers = Numbers::new(&text);
    let mut out = BufWriter::new(stdout().lock());
    let lent = Lent {
        bytes: [0; 3],
        show: 1,
    };
    let mut desk = Desk { board: None, lent };
    let mut over = false;
    while !numbers.done() {
        let (number, op) = operation(&mut numbers);
        if over && !matches!(op, Op::New(_)) {
            continue;
        }
        trace::want(traced && desk.lent.show == 2);
        let said = catch_unwind(AssertUnwindSafe(|| desk.turn(op))).map_err(|_| ());
        over = matches!(said, Ok(Said::Bad) | Err(()));
        out.write_all(told(&mut desk, number, said, traced).as_bytes())?;
    }
    out.flush()
}
