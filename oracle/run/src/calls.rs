//! One face for queues of every size, since the size is a const parameter of the crate's type.
use crate::host::{Port, Script};
use crate::owns::{Owns, own};
use crate::script::Ask;
use crate::trace::watch;
use queue::{Error, Result, VirtQueue};

pub trait Calls {
    fn add<'b>(&mut self, ins: &[&'b [u8]], outs: &mut [&'b mut [u8]]) -> Result<u16>;
    fn pop<'a>(
        &mut self,
        token: u16,
        ins: &'a [&'a [u8]],
        outs: &'a mut [&'a mut [u8]],
    ) -> Result<u32>;
    fn peek(&self) -> Option<u16>;
    fn can(&self) -> bool;
    fn notify(&self) -> bool;
    fn dev_notify(&mut self, wanted: bool);
    fn avail(&self) -> usize;
    /// Makes an owning queue of it, with buffers of a size that the program is built for.
    fn own(self: Box<Self>, size: u32) -> Result<Box<dyn Owns>>;
    /// The derived Debug text, the only sight of the private fields.
    fn text(&self) -> String;
}

impl<const N: usize> Calls for VirtQueue<Script, N> {
    fn add<'b>(&mut self, ins: &[&'b [u8]], outs: &mut [&'b mut [u8]]) -> Result<u16> {
        // SAFETY: nobody reads or writes a buffer's bytes in this program.
        watch(|| unsafe { VirtQueue::add(self, ins, outs) })
    }

    fn pop<'a>(
        &mut self,
        token: u16,
        ins: &'a [&'a [u8]],
        outs: &'a mut [&'a mut [u8]],
    ) -> Result<u32> {
        // SAFETY: a list that differs from the added one does no harm, as unshare copies nothing.
        watch(|| unsafe { self.pop_used(token, ins, outs) })
    }

    fn peek(&self) -> Option<u16> {
        watch(|| self.peek_used())
    }

    fn can(&self) -> bool {
        watch(|| self.can_pop())
    }

    fn notify(&self) -> bool {
        watch(|| self.should_notify())
    }

    fn dev_notify(&mut self, wanted: bool) {
        watch(|| self.set_dev_notify(wanted));
    }

    fn avail(&self) -> usize {
        self.available_desc()
    }

    fn own(self: Box<Self>, size: u32) -> Result<Box<dyn Owns>> {
        own(*self, size)
    }

    fn text(&self) -> String {
        format!("{self:?}")
    }
}

/// The sizes that the program is built for. The crate does not compile for a size that is no power of two, and would take larger ones.
pub const SIZES: [usize; 7] = [1, 2, 4, 8, 16, 32, 64];

/// A queue of one of these sizes.
pub fn open(ask: &Ask, port: &mut Port) -> Result<Box<dyn Calls>> {
    macro_rules! sizes {
        ($($i:literal)*) => {
            match ask.size {
                $(size if size == SIZES[$i] =>
                    VirtQueue::<Script, { SIZES[$i] }>::new(port, 0, ask.indirect(), ask.event())
                        .map(|queue| Box::new(queue) as Box<dyn Calls>),)*
                _ => unreachable!("a size that the program is not built for"),
            }
        };
    }
    sizes!(0 1 2 3 4 5 6)
}

/// The numbers of the scope paper for the crate's errors.
pub fn number(error: Error) -> u32 {
    match error {
        Error::InvalidParam => 1,
        Error::QueueFull => 2,
        Error::NotReady => 3,
        Error::WrongToken => 4,
        Error::AlreadyUsed => 6,
    }
}
