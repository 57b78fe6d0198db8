//! What request Four adds to the Rust's records (oracle/extensions/four.diff). The Rust of docs/src has none of it: there nothing is
//! chosen in the fresh state, and no bearer is closed.

use oracle::ble::central::Central;

/// The options of a fresh state as a number: its lowest bit is strict mode, and no other is read.
pub const STRICT: u64 = 1;

#[cfg(extended)]
mod records {
    use super::*;
    use oracle::ble::central::Options;

    pub fn fresh(options: u64) -> Central {
        Central { options: Options { strict: options & STRICT != 0 }, ..Central::default() }
    }

    pub fn is_strict(c: &Central) -> bool {
        c.options.strict
    }

    pub fn is_closed(c: &Central) -> bool {
        c.closed
    }
}

#[cfg(not(extended))]
mod records {
    use super::*;

    pub fn fresh(options: u64) -> Central {
        assert!(options & STRICT == 0, "the Rust of docs/src has no strict mode");
        Central::default()
    }

    pub fn is_strict(_: &Central) -> bool {
        false
    }

    pub fn is_closed(_: &Central) -> bool {
        false
    }
}

pub use records::*;
