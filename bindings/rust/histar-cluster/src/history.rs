//! The log as it was after each of its last entries, to compare it with what other nodes have played.
use crate::sha256::Digest;
use crate::spelling::{put_number, take, take_number};
use std::collections::VecDeque;

/// So many entries are kept. What is older is compared with nothing.
const KEPT: usize = 1 << 16;

/// How far a log was played.
#[derive(Clone, Copy, PartialEq, Eq, Debug)]
pub(crate) struct Point {
    /// The number of entries that have counted.
    pub entries: u64,
    /// The place of the last of these.
    pub place: u64,
    /// The digest of all of these and of their replies.
    pub digest: Digest,
}

impl Point {
    pub fn bytes(&self) -> Vec<u8> {
        let mut out = Vec::new();
        put_number(&mut out, self.entries);
        put_number(&mut out, self.place);
        out.extend_from_slice(&self.digest);
        out
    }

    /// Takes a point from the front.
    pub fn take(rest: &mut &[u8]) -> Option<Point> {
        let (entries, place) = (take_number(rest)?, take_number(rest)?);
        Some(Point { entries, place, digest: take(rest, 32)?.try_into().ok()? })
    }

    pub fn read(mut bytes: &[u8]) -> Option<Point> {
        Point::take(&mut bytes).filter(|_| bytes.is_empty())
    }
}

/// The last points of a log, one for each number of entries.
pub(crate) struct History {
    first: u64,
    // The place and the digest after the first number of entries, and after each that follows.
    points: VecDeque<(u64, Digest)>,
}

impl History {
    /// A history that begins at a point.
    pub fn new(first: Point) -> History {
        History { first: first.entries, points: VecDeque::from([(first.place, first.digest)]) }
    }

    /// Adds the point after one more entry.
    pub fn add(&mut self, place: u64, digest: Digest) {
        self.points.push_back((place, digest));
        if self.points.len() > KEPT {
            self.points.pop_front();
            self.first += 1;
        }
    }

    /// The last point.
    pub fn last(&self) -> Point {
        let (place, digest) = self.points.back().copied().unwrap_or_default();
        Point { entries: self.first + self.points.len() as u64 - 1, place, digest }
    }

    /// The point after so many entries. None where these are too few or too many.
    pub fn after(&self, entries: u64) -> Option<Point> {
        let (place, digest) = *self.points.get(usize::try_from(entries.checked_sub(self.first)?).ok()?)?;
        Some(Point { entries, place, digest })
    }

    /// Whether another node that had played up to a point has played the same. What is older than the history is taken for it.
    pub fn has(&self, point: &Point) -> bool {
        point.entries < self.first || self.after(point.entries) == Some(*point)
    }
}

#[cfg(test)]
mod tests {
    use super::*;

    #[test]
    fn a_history_has_its_last_points() {
        let point = |entries: u64| Point { entries, place: 2 * entries, digest: [entries as u8; 32] };
        let mut history = History::new(point(5));
        (6..=9).for_each(|entries| history.add(point(entries).place, point(entries).digest));
        assert_eq!(history.last(), point(9));
        assert!((0..=9).all(|entries| history.has(&point(entries))));
        assert!(!history.has(&point(10)) && !history.has(&Point { place: 15, ..point(7) }));
        assert!(!history.has(&Point { digest: [0; 32], ..point(7) }));
        (10..10 + KEPT as u64).for_each(|entries| history.add(point(entries).place, point(entries).digest));
        assert_eq!((history.after(9), history.after(10)), (None, Some(point(10))));
    }

    #[test]
    fn a_point_has_one_spelling() {
        let point = Point { entries: 300, place: 70_000, digest: [7; 32] };
        assert_eq!(Point::read(&point.bytes()), Some(point));
        let bytes = point.bytes();
        for wrong in [&bytes[..bytes.len() - 1], &[&bytes[..], &[0]].concat(), b""] {
            assert_eq!(Point::read(wrong), None);
        }
    }
}
