// The named managers are settings of the one in `legacy/mod.rs`. As its child
// this module also sees the private queues.

extern crate alloc;
use alloc::boxed::Box;

use super::LegacyManager;
use crate::contact_manager::ContactManager;
use crate::transparent_CM;
use crate::types::Volume;

pub type ETOManager = LegacyManager<true, false, 1, 0>;
pub type PETOManager = LegacyManager<true, false, 3, 0>;
pub type PBETOManager = LegacyManager<true, false, 3, 1>;

/// A queue manager of any setting whose queues can be read and put back.
pub trait Queues: ContactManager {
    fn queues(&self) -> &[Volume];
    fn put_back(&mut self, queues: &[Volume]);
}

impl<const AD: bool, const AU: bool, const CLASSES: usize, const BUDGETED: usize> Queues
    for LegacyManager<AD, AU, CLASSES, BUDGETED>
{
    fn queues(&self) -> &[Volume] {
        &self.0.queue_size
    }

    fn put_back(&mut self, queues: &[Volume]) {
        self.0.queue_size.copy_from_slice(queues);
    }
}

/// One type for all settings, so that a contact can hold any of them.
pub struct AnyQueueManager(pub Box<dyn Queues>);

transparent_CM!(AnyQueueManager);
