//! How the searches of waits went, by the length of what is looked for, the needle: over what it was found, or what was near to it.

use super::checks::Check;
use crate::trace::gate::MOST_VALUE;
use std::collections::BTreeSet;

pub const LENGTHS: [&str; 5] = ["1", "2 to 9", "10 to 99", "100 to 243", "244"];

/// Where a search finds its needle more than once, what is said holds of each place.
#[derive(Clone, Copy, PartialEq)]
pub enum Find {
    InOne,
    OverTwo,
    OverThreeToNine,
    OverTen,
    OverAnEmptyOne,
    OverOneThatDoesNotCount,
    AfterARestart,
    ButForItsLastByte,
    ButForOneByteMore,
    BegunAtAnEnd,
    LongerThanAll,
    ButForTheOthers,
}

pub const FINDS: [(Find, &str); 12] = [
    (Find::InOne, "found within one value"),
    (Find::OverTwo, "found across two values"),
    (Find::OverThreeToNine, "found across three to nine"),
    (Find::OverTen, "found across ten and more"),
    (Find::OverAnEmptyOne, "found across an empty value"),
    (Find::OverOneThatDoesNotCount, "found across one that does not count"),
    (Find::AfterARestart, "found inside a partial match alone"),
    (Find::ButForItsLastByte, "not found, but for its last byte"),
    (Find::ButForOneByteMore, "not found, but for one byte more"),
    (Find::BegunAtAnEnd, "not found, but begun at a value's end"),
    (Find::LongerThanAll, "not found, longer than all that counts"),
    (Find::ButForTheOthers, "not found, but for those that do not count"),
];

/// Whether no needle of this class of lengths can come upon this.
pub fn unreachable(find: Find, length: usize) -> bool {
    match find {
        Find::InOne | Find::LongerThanAll | Find::ButForTheOthers => false,
        Find::OverTen => length <= 1,
        // One byte lies in one value, and there is nothing of it before its last.
        _ => length == 0,
    }
}

fn length_class(n: usize) -> usize {
    match n {
        1 => 0,
        2..=9 => 1,
        10..=99 => 2,
        MOST_VALUE => 4,
        _ => 3,
    }
}

/// How many bytes two begin with in common.
fn common(a: &[u8], b: &[u8]) -> usize {
    a.iter().zip(b).take_while(|(a, b)| a == b).count()
}

/// The values that a check can see, and those that count joined.
struct Joined<'a> {
    needle: &'a [u8],
    bytes: Vec<u8>,
    /// For each byte the value that it is of, by its number among all in sight.
    of: Vec<usize>,
    /// Of each value in sight: whether it counts, and its length.
    values: Vec<(bool, usize)>,
}

impl<'a> Joined<'a> {
    fn new(check: &Check<'a>) -> Joined<'a> {
        let mut j = Joined { needle: check.contains, bytes: Vec::new(), of: Vec::new(), values: Vec::new() };
        for h in check.in_sight() {
            let counts = check.counts(h);
            if counts {
                j.of.resize(j.of.len() + h.value.len(), j.values.len());
                j.bytes.extend_from_slice(&h.value);
            }
            j.values.push((counts, h.value.len()));
        }
        j
    }

    fn places(&self) -> impl Iterator<Item = usize> {
        let windows = self.bytes.windows(self.needle.len()).enumerate();
        windows.filter(|(_, w)| *w == self.needle).map(|(at, _)| at)
    }

    /// The values from the needle's first byte to its last, where it stands at this place.
    fn over(&self, at: usize) -> &[(bool, usize)] {
        &self.values[self.of[at]..=self.of[at + self.needle.len() - 1]]
    }

    /// Whether a search finds it that goes on behind a partial match, and not at the byte after its first.
    fn is_found_behind(&self) -> bool {
        let mut at = 0;
        while at + self.needle.len() <= self.bytes.len() {
            let same = common(&self.bytes[at..], self.needle);
            if same == self.needle.len() {
                return true;
            }
            at += same.max(1);
        }
        false
    }

    fn found(&self) -> Vec<Find> {
        let spans = self.places().map(|at| self.over(at).iter().filter(|(counts, n)| *counts && *n > 0).count());
        let mut finds = vec![match spans.min() {
            Some(0 | 1) => Find::InOne,
            Some(2) => Find::OverTwo,
            Some(3..=9) => Find::OverThreeToNine,
            _ => Find::OverTen,
        }];
        let each = |of: fn(&(bool, usize)) -> bool| self.places().all(|at| self.over(at).iter().any(of));
        finds.extend(each(|(counts, n)| *counts && *n == 0).then_some(Find::OverAnEmptyOne));
        finds.extend(each(|(counts, _)| !*counts).then_some(Find::OverOneThatDoesNotCount));
        finds.extend((!self.is_found_behind()).then_some(Find::AfterARestart));
        finds
    }

    /// Whether it begins where the last bytes of a value are, of those that others follow, and does not go on.
    fn is_begun_at_an_end(&self) -> bool {
        let tries = (self.bytes.len() + 1).saturating_sub(self.needle.len());
        (0..tries).any(|at| {
            let next = at + common(&self.bytes[at..], self.needle);
            next > at && self.of[next] != self.of[next - 1]
        })
    }

    fn missed(&self, check: &Check) -> Vec<Find> {
        let (last, before) = self.needle.split_last().expect("a needle");
        let is_near = |w: &[u8]| w.split_last().is_some_and(|(l, b)| l != last && b == before);
        let long = !before.is_empty();
        let all: Vec<u8> = check.in_sight().flat_map(|h| h.value.iter().copied()).collect();
        let mut finds = Vec::new();
        finds.extend((long && self.bytes.windows(self.needle.len()).any(is_near)).then_some(Find::ButForItsLastByte));
        finds.extend((long && self.bytes.ends_with(before)).then_some(Find::ButForOneByteMore));
        finds.extend(self.is_begun_at_an_end().then_some(Find::BegunAtAnEnd));
        let any = self.values.iter().any(|(counts, _)| *counts);
        finds.extend((any && self.bytes.len() < self.needle.len()).then_some(Find::LongerThanAll));
        finds.extend(all.windows(self.needle.len()).any(|w| w == self.needle).then_some(Find::ButForTheOthers));
        finds
    }
}

#[derive(Default)]
pub struct Searches {
    /// By what was come upon, and length.
    pub finds: [[u64; LENGTHS.len()]; FINDS.len()],
    /// The lengths of needles that were found.
    pub found: BTreeSet<usize>,
}

impl Searches {
    pub fn check(&mut self, check: &Check) {
        if check.contains.is_empty() {
            return;
        }
        let joined = Joined::new(check);
        let is_found = joined.places().next().is_some();
        if is_found {
            self.found.insert(check.contains.len());
        }
        for find in if is_found { joined.found() } else { joined.missed(check) } {
            self.finds[find as usize][length_class(check.contains.len())] += 1;
        }
    }
}
