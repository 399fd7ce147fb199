//! What the generator needs of the modes, with every name resolved.

use std::ops::Range;

#[derive(Clone, Copy, Debug)]
pub struct Activity {
    pub frequency: u32,
    pub guard: Option<u16>,
    /// The task invoked or the mode switched to; an update's is in its driver.
    pub subject: u16,
}

/// The activities of one mode in text order, which is also by kind.
#[derive(Clone, Debug)]
pub struct Mode {
    pub invocations: Range<usize>,
    pub updates: Range<usize>,
    pub switches: Range<usize>,
    /// Its updates' drivers stand from here on, then those of its releases.
    pub first_driver: usize,
}

#[derive(Debug, Default)]
pub struct Plan {
    pub activities: Vec<Activity>,
    pub modes: Vec<Mode>,
}

impl Plan {
    pub fn clear(&mut self) {
        self.activities.clear();
        self.modes.clear();
    }
}
