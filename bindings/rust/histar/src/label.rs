//! Labels, as a script spells them: `{#3:3,#7:*,1}`, or `label! { c => L3, d => Star; L1 }`.
use crate::Category;
use std::borrow::Cow;
use std::cmp::Ordering;
use std::collections::BTreeMap;
use std::fmt;
use std::hash::{Hash, Hasher};
use std::str::FromStr;

/// A level that a label gives to a category. `Star` is the least, and `L3` the greatest.
#[derive(Clone, Copy, PartialEq, Eq, Debug, Hash)]
pub enum Level {
    /// 0.
    L0,
    /// 1.
    L1,
    /// 2.
    L2,
    /// 3, the greatest level.
    L3,
    /// Ownership, the least level.
    Star,
}

/// All levels, by their numbers in records.
const LEVELS: [(Level, &str); 5] =
    [(Level::L0, "0"), (Level::L1, "1"), (Level::L2, "2"), (Level::L3, "3"), (Level::Star, "*")];

impl Level {
    /// The number of the level in a record.
    pub(crate) fn number(self) -> u8 {
        self as u8
    }

    /// The level of a number that the library wrote.
    pub(crate) fn of(number: u8) -> Level {
        LEVELS[usize::from(number)].0
    }

    /// Where it stands among all, from the least on.
    fn rank(self) -> u8 {
        (self.number() + 1) % 5
    }
}

impl Ord for Level {
    fn cmp(&self, other: &Level) -> Ordering {
        self.rank().cmp(&other.rank())
    }
}

impl PartialOrd for Level {
    fn partial_cmp(&self, other: &Level) -> Option<Ordering> {
        Some(self.cmp(other))
    }
}

/// A label: the level of all categories, and pairs of a category and its own level. A label with over 24 pairs makes no
/// call, and one that names a category twice is refused `BadLabel`.
///
/// Labels are equal where they give each category the same level. They are ordered category by category: of two of them neither
/// may be at most the other.
///
/// ```
/// use histar::{label, Category};
/// let (c, d) = (Category(3), Category(4));
/// assert_eq!(label! { c => L3, d => L1; L1 }, label! { c => L3; L1 });
/// assert!(label! { L1 } < label! { c => L3; L1 });
/// assert_eq!(label! { c => L3; L1 }.partial_cmp(&label! { d => L3; L1 }), None);
/// assert_eq!(label! { c => L3; L1 }.join(&label! { d => Star; L1 }), label! { c => L3; L1 });
/// assert_eq!(label! { c => L3; L1 }.meet(&label! { d => Star; L1 }), label! { d => Star; L1 });
/// ```
#[derive(Clone, Debug)]
pub struct Label {
    /// The level of each category that stands in no pair.
    pub default: Level,
    /// Categories with their levels.
    pub pairs: Vec<(Category, Level)>,
}

impl Label {
    /// The label of this level in every category.
    ///
    /// ```
    /// assert_eq!(histar::Label::new(histar::Level::L2).to_string(), "{2}");
    /// ```
    pub fn new(default: Level) -> Label {
        Label { default, pairs: Vec::new() }
    }

    /// The level of a category.
    ///
    /// ```
    /// use histar::{label, Category, Level};
    /// let label = label! { Category(3) => L3; L1 };
    /// assert_eq!((label.get(Category(3)), label.get(Category(4))), (Level::L3, Level::L1));
    /// ```
    pub fn get(&self, category: Category) -> Level {
        self.pairs.iter().find(|pair| pair.0 == category).map_or(self.default, |pair| pair.1)
    }

    /// Gives a category another level.
    ///
    /// ```
    /// use histar::{label, Category, Level};
    /// let mut label = label! { Category(3) => L3; L1 };
    /// label.set(Category(3), Level::Star);
    /// assert_eq!(label.to_string(), "{#3:*,1}");
    /// ```
    pub fn set(&mut self, category: Category, level: Level) {
        match self.pairs.iter_mut().find(|pair| pair.0 == category) {
            Some(pair) => pair.1 = level,
            None => self.pairs.push((category, level)),
        }
    }

    /// The label with another level for a category.
    ///
    /// ```
    /// use histar::{label, Category, Level};
    /// let label = label! { L1 }.with(Category(3), Level::L3).with(Category(4), Level::L0);
    /// assert_eq!(label.to_string(), "{#3:3,#4:0,1}");
    /// ```
    #[must_use]
    pub fn with(mut self, category: Category, level: Level) -> Label {
        self.set(category, level);
        self
    }

    /// The categories that have another level than the default, with their levels, by rising categories.
    ///
    /// ```
    /// use histar::{label, Category, Level};
    /// let label = label! { Category(4) => L3, Category(3) => L1, Category(2) => L0; L1 };
    /// let found: Vec<_> = label.exceptions().into_iter().collect();
    /// assert_eq!(found, [(Category(2), Level::L0), (Category(4), Level::L3)]);
    /// ```
    pub fn exceptions(&self) -> BTreeMap<Category, Level> {
        let pairs = self.pairs.iter().rev().copied();
        let mut all: BTreeMap<Category, Level> = pairs.collect();
        all.retain(|_, level| *level != self.default);
        all
    }

    /// In each category a level of both labels' levels there.
    fn merged(&self, other: &Label, of_both: fn(Level, Level) -> Level) -> Label {
        let mut merged = Label::new(of_both(self.default, other.default));
        for category in self.exceptions().into_keys().chain(other.exceptions().into_keys()) {
            let level = of_both(self.get(category), other.get(category));
            if level != merged.get(category) {
                merged.set(category, level);
            }
        }
        merged
    }

    /// The least label that both are at most: in each category the greater level.
    ///
    /// ```
    /// use histar::{label, Category};
    /// let (c, d) = (Category(3), Category(4));
    /// assert_eq!(label! { c => L3; L1 }.join(&label! { d => L0; L2 }), label! { c => L3, d => L1; L2 });
    /// ```
    #[must_use]
    pub fn join(&self, other: &Label) -> Label {
        self.merged(other, Level::max)
    }

    /// The greatest label that is at most both: in each category the lesser level.
    ///
    /// ```
    /// use histar::{label, Category};
    /// let (c, d) = (Category(3), Category(4));
    /// assert_eq!(label! { c => L3; L1 }.meet(&label! { d => L0; L2 }), label! { c => L2, d => L0; L1 });
    /// ```
    #[must_use]
    pub fn meet(&self, other: &Label) -> Label {
        self.merged(other, Level::min)
    }
}

impl PartialEq for Label {
    fn eq(&self, other: &Label) -> bool {
        self.default == other.default && self.exceptions() == other.exceptions()
    }
}

impl Eq for Label {}

impl Hash for Label {
    fn hash<H: Hasher>(&self, state: &mut H) {
        self.default.hash(state);
        self.exceptions().hash(state);
    }
}

impl PartialOrd for Label {
    fn partial_cmp(&self, other: &Label) -> Option<Ordering> {
        match (self == other, self.join(other) == *other, self.meet(other) == *other) {
            (true, _, _) => Some(Ordering::Equal),
            (_, true, _) => Some(Ordering::Less),
            (_, _, true) => Some(Ordering::Greater),
            _ => None,
        }
    }
}

impl<'a> From<&'a Label> for Cow<'a, Label> {
    fn from(label: &'a Label) -> Cow<'a, Label> {
        Cow::Borrowed(label)
    }
}

impl From<Label> for Cow<'_, Label> {
    fn from(label: Label) -> Self {
        Cow::Owned(label)
    }
}

/// A label: `label! { c => L3, d => Star; L1 }`, or `label! { L1 }` without pairs. A level is one of the words `L0`, `L1`, `L2`,
/// `L3` and `Star`, or a variable.
///
/// ```
/// use histar::{label, Category, Label, Level};
/// assert_eq!(label! { Category(3) => L3; L1 }, Label::new(Level::L1).with(Category(3), Level::L3));
/// assert_eq!(label! { Category(3) => L3; L1 }.to_string(), "{#3:3,1}");
/// let (level, default) = (Level::L3, Level::L1);
/// assert_eq!(label! { Category(3) => level; default }.to_string(), "{#3:3,1}");
/// ```
#[macro_export]
macro_rules! label {
    (@level L0) => { $crate::Level::L0 };
    (@level L1) => { $crate::Level::L1 };
    (@level L2) => { $crate::Level::L2 };
    (@level L3) => { $crate::Level::L3 };
    (@level Star) => { $crate::Level::Star };
    (@level $level:ident) => { $level };
    ($default:ident) => { $crate::Label::new($crate::label!(@level $default)) };
    ($($category:expr => $level:ident),+ ; $default:ident) => {
        $crate::Label::new($crate::label!(@level $default))$(.with($category, $crate::label!(@level $level)))+
    };
}

impl fmt::Display for Level {
    fn fmt(&self, f: &mut fmt::Formatter<'_>) -> fmt::Result {
        f.write_str(LEVELS[usize::from(self.number())].1)
    }
}

impl fmt::Display for Label {
    fn fmt(&self, f: &mut fmt::Formatter<'_>) -> fmt::Result {
        f.write_str("{")?;
        for (category, level) in &self.pairs {
            write!(f, "{category}:{level},")?;
        }
        write!(f, "{}}}", self.default)
    }
}

/// The text spells no label or level: scripts spell a label as `{#3:3,#7:*,1}`, with at most 24 pairs.
#[derive(Clone, Copy, PartialEq, Eq, Debug)]
pub struct ParseLabelError;

impl fmt::Display for ParseLabelError {
    fn fmt(&self, f: &mut fmt::Formatter<'_>) -> fmt::Result {
        f.write_str("the text spells no label")
    }
}

impl std::error::Error for ParseLabelError {}

/// Reads `0`, `1`, `2`, `3` or `*`; anything else is a [`ParseLabelError`].
///
/// ```
/// use histar::{Level, ParseLabelError};
/// assert_eq!(("*".parse(), "4".parse::<Level>()), (Ok(Level::Star), Err(ParseLabelError)));
/// ```
impl FromStr for Level {
    type Err = ParseLabelError;

    fn from_str(text: &str) -> Result<Level, ParseLabelError> {
        LEVELS.iter().find(|level| level.1 == text).map(|level| level.0).ok_or(ParseLabelError)
    }
}

/// 0 to 3 are levels; `Star` has no number, and any other number is a [`ParseLabelError`].
///
/// ```
/// use histar::{Level, ParseLabelError};
/// assert_eq!((Level::try_from(3), Level::try_from(4)), (Ok(Level::L3), Err(ParseLabelError)));
/// ```
impl TryFrom<u32> for Level {
    type Error = ParseLabelError;

    fn try_from(number: u32) -> Result<Level, ParseLabelError> {
        LEVELS[..4].get(number as usize).map(|level| level.0).ok_or(ParseLabelError)
    }
}

/// Reads a number, which has one spelling: no sign, and no zero before other digits.
fn number(text: &str) -> Result<u64, ParseLabelError> {
    let number: u64 = text.parse().map_err(|_| ParseLabelError)?;
    if number.to_string() == text {
        Ok(number)
    } else {
        Err(ParseLabelError)
    }
}

/// Reads a pair, as `#3:*`.
fn pair(text: &str) -> Result<(Category, Level), ParseLabelError> {
    let (category, level) = text.strip_prefix('#').and_then(|it| it.split_once(':')).ok_or(ParseLabelError)?;
    Ok((Category(number(category)?), level.parse()?))
}

/// Reads a label as scripts spell it, with at most 24 pairs; anything else is a [`ParseLabelError`].
///
/// ```
/// use histar::{label, Category, Label, ParseLabelError};
/// assert_eq!("{#3:3,1}".parse(), Ok(label! { Category(3) => L3; L1 }));
/// assert_eq!("{3:3,1}".parse::<Label>(), Err(ParseLabelError));
/// ```
impl FromStr for Label {
    type Err = ParseLabelError;

    fn from_str(text: &str) -> Result<Label, ParseLabelError> {
        let inner = text.strip_prefix('{').and_then(|it| it.strip_suffix('}')).ok_or(ParseLabelError)?;
        let (pairs, default) = match inner.rsplit_once(',') {
            Some((pairs, default)) => (pairs.split(',').map(pair).collect::<Result<Vec<_>, _>>()?, default),
            None => (Vec::new(), inner),
        };
        if pairs.len() > 24 {
            return Err(ParseLabelError);
        }
        Ok(Label { default: default.parse()?, pairs })
    }
}
