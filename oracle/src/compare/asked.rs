//! A port that is asked call by call.

use crate::trace::Call;

/// The port, asked call by call for its line; none where it gives none.
pub trait Asked {
    fn ask(&mut self, call: &Call) -> Option<Vec<u8>>;
}
