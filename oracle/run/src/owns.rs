//! One face for owning queues of every size and buffer size.
use crate::host::{Port, Script};
use queue::{OwningQueue, Result, VirtQueue};

/// What a handler is shown: where it starts, and its bytes.
pub type Shown = (usize, Vec<u8>);

pub trait Owns {
    fn poll(&mut self, port: &mut Port) -> Result<Option<Shown>>;
    fn notify(&self) -> bool;
    fn dev_notify(&mut self, wanted: bool);
    fn text(&self) -> String;
}

impl<const N: usize, const B: usize> Owns for OwningQueue<Script, N, B> {
    fn poll(&mut self, port: &mut Port) -> Result<Option<Shown>> {
        let look = |bytes: &[u8]| Ok(Some((bytes.as_ptr().addr(), bytes.to_vec())));
        OwningQueue::poll(self, port, look)
    }

    fn notify(&self) -> bool {
        self.should_notify()
    }

    fn dev_notify(&mut self, wanted: bool) {
        self.set_dev_notify(wanted);
    }

    fn text(&self) -> String {
        format!("{self:?}")
    }
}

/// The buffer sizes that the program is built for: a few that ours takes too, and the two next to these.
pub const BUFFER_SIZES: [u32; 7] = [0, 1, 3, 16, 64, 1024, 1025];

/// An owning queue over a queue, with buffers of one of these sizes.
pub fn own<const N: usize>(queue: VirtQueue<Script, N>, size: u32) -> Result<Box<dyn Owns>> {
    macro_rules! sizes {
        ($($i:literal)*) => {
            match size {
                $(size if size == BUFFER_SIZES[$i] =>
                    OwningQueue::<Script, N, { BUFFER_SIZES[$i] as usize }>::new(queue)
                        .map(|owning| Box::new(owning) as Box<dyn Owns>),)*
                _ => unreachable!("a buffer size that the program is not built for"),
            }
        };
    }
    sizes!(0 1 2 3 4 5 6)
}
