//! The view of the notification that a result names, through the C interface, beside the Rust's state: every word that it tells is
//! computed here once more.

use crate::exports::{Memory, Told};
use crate::state::{MAX_VALUE, NOTIFICATIONS_AT};
use crate::trace::one;
use oracle::ble::central::Central;

/// Refusal, 1, time, link, handle, whether it is an indication, place and length of its value; all 0 where nothing is named.
fn words(c: &Central, index: u32) -> Told {
    let heard = c.results.iter().find(|r| r.index == index).map_or(0, one::heard);
    // Notifications are numbered from 0, and a result has that number plus one.
    let gone = c.notified - c.notifications.len() as u64;
    let kept = heard.checked_sub(gone + 1).map(|i| i as usize);
    let Some((i, n)) = kept.and_then(|i| Some((i, c.notifications.get(i)?))) else {
        return [0; 8];
    };
    let place = NOTIFICATIONS_AT + MAX_VALUE * i;
    [0, 1, n.at_us, one::link(n), n.handle.into(), n.indication.into(), place as u64, n.value.len() as u64]
}

/// What is wrong with the view of this result, if anything.
pub fn fault(m: &Memory, index: u32, left: &Central) -> Option<String> {
    let (told, wanted) = (m.passed_on(index), words(left, index));
    (told != wanted).then(|| format!("passed_on {index} told {told:?} and not {wanted:?}"))
}
