//! What request One adds to the Rust's records (oracle/extensions/one.diff). The Rust of docs/src has none of it: there a wait has no
//! age, links are not counted, and no result names a notification.

use oracle::ble::central::{Central, Notification, Step, StepResult, StepStatus, Uuid};

/// Whether the Rust has the extension.
pub const IS_THERE: bool = cfg!(extended);

#[cfg(extended)]
mod records {
    use super::*;

    pub fn wait(characteristic: Uuid, contains: Vec<u8>, within_ms: u32, age_ms: Option<u32>) -> Step {
        Step::WaitNotification { characteristic, contains, within_ms, age_ms }
    }

    pub fn age(step: &Step) -> Option<u32> {
        match step {
            Step::WaitNotification { age_ms, .. } => *age_ms,
            _ => None,
        }
    }

    /// A result as its reader tells it: the notification that it names has a reader of its own.
    pub fn result(index: u32, at_us: u64, status: StepStatus, value: Vec<u8>) -> StepResult {
        StepResult { index, at_us, status, value, heard: 0 }
    }

    pub fn links(c: &Central) -> u64 {
        c.links
    }

    pub fn link(n: &Notification) -> u64 {
        n.link
    }

    pub fn heard(r: &StepResult) -> u64 {
        r.heard
    }

    pub fn passed_on(c: &Central, index: u32) -> Option<&Notification> {
        c.passed_on(index)
    }
}

#[cfg(not(extended))]
mod records {
    use super::*;

    pub fn wait(characteristic: Uuid, contains: Vec<u8>, within_ms: u32, age_ms: Option<u32>) -> Step {
        assert!(age_ms.is_none(), "the Rust of docs/src has no aged wait");
        Step::WaitNotification { characteristic, contains, within_ms }
    }

    pub fn age(_: &Step) -> Option<u32> {
        None
    }

    pub fn result(index: u32, at_us: u64, status: StepStatus, value: Vec<u8>) -> StepResult {
        StepResult { index, at_us, status, value }
    }

    pub fn links(_: &Central) -> u64 {
        0
    }

    pub fn link(_: &Notification) -> u64 {
        0
    }

    pub fn heard(_: &StepResult) -> u64 {
        0
    }

    pub fn passed_on(_: &Central, _: u32) -> Option<&Notification> {
        None
    }
}

pub use records::*;
