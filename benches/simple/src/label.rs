//! Labels: a default level, and pairs of a category and its level by rising category.

/// The most pairs of a stored label.
pub const MOST_PAIRS: usize = 16;

/// The levels of a stored label, in rising order. Star is ownership.
#[allow(dead_code)]
#[derive(Clone, Copy, PartialEq, Eq, PartialOrd, Ord, Debug)]
pub enum Level {
    Star,
    L0,
    L1,
    L2,
    L3,
}

/// A label. As a caller hands it in its pairs are in any order; as it is stored they rise, and none is at the default.
#[derive(Clone, PartialEq, Eq, Debug)]
pub struct Label {
    pub default: Level,
    pub pairs: Vec<(u64, Level)>,
}

/// Whether the first level is at most the second.
fn is_at_most(one: Level, other: Level) -> bool {
    one <= other
}

/// Whether the first level is at most the second with star raised above all levels.
fn is_at_most_raised(one: Level, other: Level) -> bool {
    other == Level::Star || one <= other
}

impl Label {
    /// The label that gives each category this level.
    pub fn plain(default: Level) -> Label {
        Label { default, pairs: Vec::new() }
    }

    /// The stored form of a label as a caller hands it in, unless it is bad: its default is star, a category stands in
    /// it twice or was not made, or too many pairs differ from the default.
    pub fn stored(&self, next_category: u64) -> Option<Label> {
        if self.default == Level::Star {
            return None;
        }
        let mut pairs = self.pairs.clone();
        pairs.sort_by_key(|pair| pair.0);
        let is_twice = pairs.windows(2).any(|two| two[0].0 == two[1].0);
        if is_twice || pairs.iter().any(|pair| pair.0 == 0 || pair.0 >= next_category) {
            return None;
        }
        pairs.retain(|pair| pair.1 != self.default);
        if pairs.len() > MOST_PAIRS {
            return None;
        }
        Some(Label { default: self.default, pairs })
    }

    /// Whether a category has star.
    pub fn has_star(&self) -> bool {
        self.pairs.iter().any(|pair| pair.1 == Level::Star)
    }

    /// The stored label with one category at another level, where that has room.
    pub fn with(&self, category: u64, level: Level) -> Option<Label> {
        let mut label = self.clone();
        label.pairs.retain(|pair| pair.0 != category);
        if level != label.default {
            let place = label.pairs.partition_point(|pair| pair.0 < category);
            label.pairs.insert(place, (category, level));
        }
        if label.pairs.len() > MOST_PAIRS {
            return None;
        }
        Some(label)
    }

    /// Whether a test holds of the levels of two stored labels at each category, by one walk over the pairs of both.
    fn holds_everywhere(&self, other: &Label, test: fn(Level, Level) -> bool) -> bool {
        if !test(self.default, other.default) {
            return false;
        }
        let (mut i, mut j) = (0, 0);
        while i < self.pairs.len() || j < other.pairs.len() {
            let one = self.pairs.get(i).map_or(u64::MAX, |pair| pair.0);
            let two = other.pairs.get(j).map_or(u64::MAX, |pair| pair.0);
            let (mut level, mut against) = (self.default, other.default);
            if one <= two {
                level = self.pairs[i].1;
                i += 1;
            }
            if two <= one {
                against = other.pairs[j].1;
                j += 1;
            }
            if !test(level, against) {
                return false;
            }
        }
        true
    }

    /// Whether the label is at most another.
    pub fn flows_to(&self, other: &Label) -> bool {
        self.holds_everywhere(other, is_at_most)
    }

    /// Whether a thread of the other label observes what has this one.
    pub fn is_visible_to(&self, other: &Label) -> bool {
        self.holds_everywhere(other, is_at_most_raised)
    }
}
