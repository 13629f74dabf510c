//! Stand-in for the crate's transport module, with the calls that the queue makes.
use crate::hal::PhysAddr;

pub trait Transport {
    fn queue_used(&mut self, queue: u16) -> bool;
    fn max_queue_size(&mut self, queue: u16) -> u32;
    fn requires_legacy_layout(&self) -> bool;
    fn queue_set(
        &mut self,
        queue: u16,
        size: u32,
        descriptors: PhysAddr,
        driver_area: PhysAddr,
        device_area: PhysAddr,
    );
    fn notify(&mut self, queue: u16);
}
