//! Look-ups in what a kernel keeps, for tests and audits.
use crate::raw::Answer;
use crate::{Entry, Kernel, Label, Object, Rights};

/// How a label A compares with a label B.
#[derive(Clone, Copy, PartialEq, Eq, Debug)]
pub struct Order {
    /// A is at most B in every category.
    pub at_most: bool,
    /// It is, once B's star is raised above all levels.
    pub at_most_raised: bool,
    /// It is, once the star of both is raised.
    pub raised_at_most_raised: bool,
}

/// What the kernel keeps beside its objects, so that calls are fast: live ids, uses, translations, and labels with their
/// order. It is proved to be what the state has. No thread makes these look-ups, so no label guards them: they are for tests
/// and audits, and not for what runs under the kernel.
impl Kernel {
    /// Makes a look-up. What was found.
    fn finds<const N: usize, R>(
        &self,
        lookup: u32,
        object: Object,
        numbers: [u64; N],
        read: impl FnOnce(&Answer) -> R,
    ) -> Option<R> {
        let found = self.raw.ask(
            |request| request.put(lookup, &Entry { container: Object::NONE, object }, numbers),
            |answer| (answer.len == 1).then(|| read(answer)),
        );
        found.ok().flatten()
    }

    /// The live id at a place, from 0, among all live ids, which rise.
    ///
    /// ```
    /// use histar::Object;
    /// # let kernel = histar::Kernel::boot(64)?;
    /// # let boot = kernel.session();
    /// boot.cat_create()?;
    /// assert_eq!((kernel.kept_live(2), kernel.kept_live(3)), (Some(Object::DEVICE), None));
    /// # Ok::<(), histar::Refused>(())
    /// ```
    pub fn kept_live(&self, place: u32) -> Option<Object> {
        self.finds(35, Object::NONE, [u64::from(place)], |answer| Object(answer.numbers[0]))
    }

    /// What a live object uses, in pages of 256 bytes.
    ///
    /// ```
    /// use histar::{label, Object};
    /// # let kernel = histar::Kernel::boot(64)?;
    /// # let boot = kernel.session();
    /// let note = boot.segment_create(Object::ROOT, &label! { L1 }, 4, 2)?;
    /// assert_eq!((kernel.kept_use(note), kernel.kept_use(Object(99))), (Some(3), None));
    /// # Ok::<(), histar::Refused>(())
    /// ```
    pub fn kept_use(&self, object: Object) -> Option<u32> {
        self.finds(36, object, [], |answer| answer.numbers[0] as u32)
    }

    /// What a slot, 0 to 15, of a live thread's address space shows: a segment, with the rights to it.
    ///
    /// ```
    /// use histar::{label, Entry, Mapping, Object, Rights};
    /// # let kernel = histar::Kernel::boot(64)?;
    /// # let boot = kernel.session();
    /// let note = boot.segment_create(Object::ROOT, &label! { L1 }, 2, 1)?;
    /// let space = Entry::in_root(boot.as_create(Object::ROOT, &label! { L1 }, 1)?);
    /// let rights = Rights::READ;
    /// boot.as_map(space, 5, Mapping { page: 4, segment: Entry::in_root(note), first: 0, count: 1, rights })?;
    /// assert_eq!(kernel.kept_translation(boot.id(), 5), None);
    /// boot.self_set_as(space)?;
    /// assert_eq!(kernel.kept_translation(boot.id(), 5), Some((note, rights)));
    /// # Ok::<(), histar::Refused>(())
    /// ```
    pub fn kept_translation(&self, thread: Object, slot: u32) -> Option<(Object, Rights)> {
        self.finds(37, thread, [u64::from(slot)], |answer| {
            let n = &answer.numbers;
            (Object(n[0]), Rights { read: n[1] == 1, write: n[2] == 1 })
        })
    }

    /// The label of an index. Each stored label has one.
    ///
    /// ```
    /// use histar::label;
    /// # let kernel = histar::Kernel::boot(64)?;
    /// # let boot = kernel.session();
    /// let c = boot.cat_create()?;
    /// let mut kept = (0..9).filter_map(|index| kernel.kept_label(index));
    /// assert!(kept.any(|it| it == label! { c => Star; L1 }));
    /// # Ok::<(), histar::Refused>(())
    /// ```
    pub fn kept_label(&self, index: u16) -> Option<Label> {
        self.finds(38, Object::NONE, [u64::from(index)], |answer| answer.label.label())
    }

    /// How the label of an index compares with that of another.
    ///
    /// ```
    /// use histar::label;
    /// # let kernel = histar::Kernel::boot(64)?;
    /// # let boot = kernel.session();
    /// let index_of = |label| (0..9).find(|it| kernel.kept_label(*it).as_ref() == Some(&label)).unwrap();
    /// let (own, clearance) = (index_of(label! { L1 }), index_of(label! { L2 }));
    /// assert!(kernel.kept_order(own, clearance).unwrap().at_most);
    /// assert!(!kernel.kept_order(clearance, own).unwrap().at_most);
    /// assert_eq!(kernel.kept_order(own, 9999), None);
    /// # Ok::<(), histar::Refused>(())
    /// ```
    pub fn kept_order(&self, first: u16, second: u16) -> Option<Order> {
        self.finds(39, Object::NONE, [u64::from(first), u64::from(second)], |answer| {
            let bits = answer.numbers[0];
            Order { at_most: bits & 1 != 0, at_most_raised: bits & 2 != 0, raised_at_most_raised: bits & 4 != 0 }
        })
    }
}
