//! The kernel: objects by their ids, and calls that check all that they need each time. The checks of a call stand in the
//! order of their refusals' numbers, so the first that fails is the refusal with the least number.
use crate::label::{Label, Level};
use crate::objects::{Body, Container, Entry, Kind, Mapping, Object, Thread, MOST_PAGES, PAGE, SLOTS};
use std::collections::BTreeMap;

/// The root container.
pub const ROOT: u64 = 1;

/// The thread of the boot.
pub const BOOT_THREAD: u64 = 2;

/// No id and no category from here on.
const SPENT: u64 = 1 << 61;

/// Why a call is refused.
#[derive(Clone, Copy, PartialEq, Eq, Debug)]
pub enum Refusal {
    Halted = 1,
    NoAccess = 2,
    NoEntry = 3,
    WrongType = 4,
    CannotObserve = 5,
    CannotModify = 6,
    BadLabel = 7,
    LabelRange = 8,
    LabelFull = 10,
    AvoidType = 11,
    NoQuota = 12,
    NotFixed = 14,
    AlreadyLinked = 15,
    RootKept = 16,
    Immutable = 17,
    Bounds = 18,
    NotMapped = 19,
    RightsDenied = 20,
    Overlap = 21,
    Spent = 25,
}

type Checked = Result<(), Refusal>;

/// Nothing where a condition holds, and else the refusal.
fn ensure(holds: bool, refusal: Refusal) -> Checked {
    if holds {
        Ok(())
    } else {
        Err(refusal)
    }
}

/// The calling thread: its label, and what it is beside that.
struct Caller<'k> {
    label: &'k Label,
    thread: &'k Thread,
}

/// The new object that a call makes: where, of which label and quota, and what it uses itself.
struct New<'l> {
    container: u64,
    label: &'l Label,
    quota: u32,
    cost: u64,
    kind: Kind,
}

/// Where an address lies.
struct Place {
    segment: u64,
    offset: usize,
    can_read: bool,
    can_write: bool,
}

/// A kernel.
pub struct Kernel {
    objects: BTreeMap<u64, Object>,
    next_id: u64,
    next_category: u64,
}

/// 1 to 64 bytes that lie in one page.
fn shaped(address: u64, count: usize) -> Checked {
    let is_few = (1..=64).contains(&count);
    ensure(is_few && (address % PAGE as u64) as usize + count <= PAGE, Refusal::Bounds)
}

/// What a caller asks of objects. All is looked up and compared anew at each question.
impl Kernel {
    fn caller(&self, thread: u64) -> Result<Caller<'_>, Refusal> {
        match self.objects.get(&thread) {
            Some(Object { label, body: Body::Thread(thread), .. }) => Ok(Caller { label, thread }),
            _ => Err(Refusal::Halted),
        }
    }

    /// A live container that the caller observes.
    fn at_container(&self, caller: &Caller, container: u64) -> Result<(&Object, &Container), Refusal> {
        let object = self.objects.get(&container).ok_or(Refusal::NoAccess)?;
        let Body::Container(held) = &object.body else {
            return Err(Refusal::NoAccess);
        };
        ensure(object.label.is_visible_to(caller.label), Refusal::NoAccess)?;
        Ok((object, held))
    }

    /// The object of an entry that stands.
    fn in_container(&self, caller: &Caller, entry: Entry) -> Result<&Object, Refusal> {
        let (object, held) = self.at_container(caller, entry.container)?;
        if entry.object == entry.container {
            return Ok(object);
        }
        ensure(held.entries.contains(&entry.object), Refusal::NoEntry)?;
        self.objects.get(&entry.object).ok_or(Refusal::NoEntry)
    }

    /// The caller observes the object, and its label is at most the object's.
    fn modified(caller: &Caller, object: &Object) -> Checked {
        ensure(object.label.is_visible_to(caller.label), Refusal::CannotObserve)?;
        ensure(caller.label.flows_to(&object.label), Refusal::CannotModify)
    }

    /// The stored label of a new object, after all checks.
    fn new_object(&self, thread: u64, new: &New) -> Result<Label, Refusal> {
        let caller = self.caller(thread)?;
        let (object, held) = self.at_container(&caller, new.container)?;
        Kernel::modified(&caller, object)?;
        let label = new.label.stored(self.next_category).ok_or(Refusal::BadLabel)?;
        ensure(!label.has_star(), Refusal::BadLabel)?;
        let is_in_range = caller.label.flows_to(&label) && label.flows_to(&caller.thread.clearance);
        ensure(is_in_range, Refusal::LabelRange)?;
        ensure(!held.avoid.contains(&new.kind), Refusal::AvoidType)?;
        ensure(new.cost <= u64::from(new.quota), Refusal::NoQuota)?;
        ensure(has_room(object, held, new.quota), Refusal::NoQuota)?;
        ensure(!object.is_immutable, Refusal::Immutable)?;
        Ok(label)
    }

    /// The object of an entry that the caller may go through: it is listed, and the caller observes it.
    fn opened(&self, caller: &Caller, entry: Entry) -> Option<&Object> {
        let (_, held) = self.at_container(caller, entry.container).ok()?;
        if !held.entries.contains(&entry.object) {
            return None;
        }
        let object = self.objects.get(&entry.object)?;
        object.label.is_visible_to(caller.label).then_some(object)
    }

    /// Where an address lies by the caller's address space.
    fn place_of(&self, caller: &Caller, address: u64) -> Option<Place> {
        let space = self.opened(caller, caller.thread.space?)?;
        let Body::AddressSpace(slots) = &space.body else {
            return None;
        };
        let page = address / PAGE as u64;
        let mapping = slots.iter().flatten().find(|mapping| mapping.covers(page))?;
        let segment = self.opened(caller, mapping.entry)?;
        let Body::Segment(bytes) = &segment.body else {
            return None;
        };
        let page_in_segment = mapping.first as usize + (page - u64::from(mapping.page)) as usize;
        if page_in_segment >= bytes.len() / PAGE {
            return None;
        }
        let is_writable = caller.label.flows_to(&segment.label) && !segment.is_immutable;
        Some(Place {
            segment: mapping.entry.object,
            offset: page_in_segment * PAGE + (address % PAGE as u64) as usize,
            can_read: mapping.rights.read,
            can_write: mapping.rights.write && is_writable,
        })
    }
}

/// Whether a container has room for so many pages more.
fn has_room(object: &Object, held: &Container, pages: u32) -> bool {
    u64::from(held.used) + u64::from(pages) <= u64::from(object.quota)
}

/// Changes of what is there, after all checks.
impl Kernel {
    fn container_mut(&mut self, id: u64) -> Option<&mut Container> {
        match self.objects.get_mut(&id).map(|object| &mut object.body) {
            Some(Body::Container(held)) => Some(held),
            _ => None,
        }
    }

    /// Lists an object last in a container, which is charged its quota.
    fn list(&mut self, container: u64, id: u64) {
        let Some(object) = self.objects.get_mut(&id) else {
            return;
        };
        object.links += 1;
        let quota = object.quota;
        if let Some(held) = self.container_mut(container) {
            held.entries.push(id);
            held.used += quota;
        }
    }

    /// An object has one link less, and goes with its last one, and so does what only it listed.
    fn release(&mut self, id: u64) {
        let Some(object) = self.objects.get_mut(&id) else {
            return;
        };
        object.links -= 1;
        if object.links > 0 {
            return;
        }
        if let Some(Object { body: Body::Container(held), .. }) = self.objects.remove(&id) {
            for entry in held.entries {
                self.release(entry);
            }
        }
    }

    fn add(&mut self, container: u64, object: Object) -> Result<u64, Refusal> {
        let id = self.next_id;
        ensure(id < SPENT, Refusal::Spent)?;
        self.next_id += 1;
        self.objects.insert(id, object);
        self.list(container, id);
        Ok(id)
    }

    fn write_at(&mut self, segment: u64, offset: usize, data: &[u8]) {
        if let Some(Object { body: Body::Segment(bytes), .. }) = self.objects.get_mut(&segment) {
            bytes[offset..offset + data.len()].copy_from_slice(data);
        }
    }
}

/// The calls.
impl Kernel {
    /// The root container 1, the boot thread 2 and the device 3.
    pub fn boot(pages: u32) -> Kernel {
        let root = Container { avoid: Vec::new(), entries: Vec::new(), used: 1 };
        let thread = Thread { clearance: Label::plain(Level::L2), space: None };
        let plain = || Label::plain(Level::L1);
        let mut kernel = Kernel { objects: BTreeMap::new(), next_id: 4, next_category: 1 };
        kernel.objects.insert(ROOT, Object::new(plain(), pages, Body::Container(root)));
        kernel.objects.insert(BOOT_THREAD, Object::new(plain(), 1, Body::Thread(thread)));
        kernel.objects.insert(3, Object::new(plain(), 2, Body::Device));
        kernel.list(ROOT, BOOT_THREAD);
        kernel.list(ROOT, 3);
        kernel
    }

    /// A new category, which the caller owns: star in its label, 3 in its clearance.
    pub fn cat_create(&mut self, thread: u64) -> Result<u64, Refusal> {
        let category = self.next_category;
        let caller = self.caller(thread)?;
        let label = caller.label.with(category, Level::Star).ok_or(Refusal::LabelFull)?;
        let clearance = caller.thread.clearance.with(category, Level::L3).ok_or(Refusal::LabelFull)?;
        ensure(category < SPENT, Refusal::Spent)?;
        let object = self.objects.get_mut(&thread).ok_or(Refusal::Halted)?;
        object.label = label;
        if let Body::Thread(thread) = &mut object.body {
            thread.clearance = clearance;
        }
        self.next_category += 1;
        Ok(category)
    }

    /// A new container without entries, which avoids what the other one avoids.
    pub fn container_create(
        &mut self,
        thread: u64,
        container: u64,
        label: &Label,
        quota: u32,
    ) -> Result<u64, Refusal> {
        let new = New { container, label, quota, cost: 1, kind: Kind::Container };
        let label = self.new_object(thread, &new)?;
        let avoid = self.container_mut(container).map_or(Vec::new(), |held| held.avoid.clone());
        let held = Container { avoid, entries: Vec::new(), used: 1 };
        self.add(container, Object::new(label, quota, Body::Container(held)))
    }

    /// A new segment of zero bytes.
    pub fn segment_create(
        &mut self,
        thread: u64,
        container: u64,
        label: &Label,
        quota: u32,
        pages: u32,
    ) -> Result<u64, Refusal> {
        let new = New { container, label, quota, cost: 1 + u64::from(pages), kind: Kind::Segment };
        let label = self.new_object(thread, &new)?;
        ensure(pages <= MOST_PAGES, Refusal::Bounds)?;
        let bytes = vec![0; pages as usize * PAGE];
        self.add(container, Object::new(label, quota, Body::Segment(bytes)))
    }

    /// A new address space of empty slots.
    pub fn as_create(
        &mut self,
        thread: u64,
        container: u64,
        label: &Label,
        quota: u32,
    ) -> Result<u64, Refusal> {
        let new = New { container, label, quota, cost: 1, kind: Kind::AddressSpace };
        let label = self.new_object(thread, &new)?;
        self.add(container, Object::new(label, quota, Body::AddressSpace([None; SLOTS])))
    }

    /// A mapping in an empty slot of an address space.
    pub fn as_map(
        &mut self,
        thread: u64,
        space: Entry,
        slot: usize,
        mapping: Mapping,
    ) -> Checked {
        let caller = self.caller(thread)?;
        // (both containers before both entries: NoAccess has the lesser number)
        self.at_container(&caller, space.container)?;
        self.at_container(&caller, mapping.entry.container)?;
        let object = self.in_container(&caller, space)?;
        let segment = self.in_container(&caller, mapping.entry)?;
        let Body::AddressSpace(slots) = &object.body else {
            return Err(Refusal::WrongType);
        };
        ensure(segment.kind() == Kind::Segment, Refusal::WrongType)?;
        Kernel::modified(&caller, object)?;
        ensure(!object.is_immutable, Refusal::Immutable)?;
        ensure(slot < SLOTS && mapping.is_well_formed(), Refusal::Bounds)?;
        let is_free = slots[slot].is_none() && !slots.iter().flatten().any(|other| mapping.meets(other));
        ensure(is_free, Refusal::Overlap)?;
        if let Some(Object { body: Body::AddressSpace(slots), .. }) = self.objects.get_mut(&space.object) {
            slots[slot] = Some(mapping);
        }
        Ok(())
    }

    /// The caller's address space is another one, or none.
    pub fn self_set_as(&mut self, thread: u64, space: Option<Entry>) -> Checked {
        let caller = self.caller(thread)?;
        if let Some(entry) = space {
            let object = self.in_container(&caller, entry)?;
            ensure(object.kind() == Kind::AddressSpace, Refusal::WrongType)?;
        }
        if let Some(Object { body: Body::Thread(thread), .. }) = self.objects.get_mut(&thread) {
            thread.space = space;
        }
        Ok(())
    }

    /// Bytes of a segment are written over.
    pub fn segment_write(
        &mut self,
        thread: u64,
        entry: Entry,
        offset: u32,
        data: &[u8],
    ) -> Checked {
        let caller = self.caller(thread)?;
        let object = self.in_container(&caller, entry)?;
        let Body::Segment(bytes) = &object.body else {
            return Err(Refusal::WrongType);
        };
        Kernel::modified(&caller, object)?;
        ensure(!object.is_immutable, Refusal::Immutable)?;
        shaped(u64::from(offset), data.len())?;
        ensure(offset as usize + data.len() <= bytes.len(), Refusal::Bounds)?;
        self.write_at(entry.object, offset as usize, data);
        Ok(())
    }

    /// Bytes of a segment are read into a buffer, as many as it has.
    pub fn segment_read(
        &self,
        thread: u64,
        entry: Entry,
        offset: u32,
        buffer: &mut [u8],
    ) -> Checked {
        let caller = self.caller(thread)?;
        let object = self.in_container(&caller, entry)?;
        let Body::Segment(bytes) = &object.body else {
            return Err(Refusal::WrongType);
        };
        ensure(object.label.is_visible_to(caller.label), Refusal::CannotObserve)?;
        shaped(u64::from(offset), buffer.len())?;
        let offset = offset as usize;
        let found = bytes.get(offset..offset + buffer.len()).ok_or(Refusal::Bounds)?;
        buffer.copy_from_slice(found);
        Ok(())
    }

    /// Bytes are written through the caller's address space.
    pub fn store(&mut self, thread: u64, address: u64, data: &[u8]) -> Checked {
        let caller = self.caller(thread)?;
        shaped(address, data.len())?;
        let place = self.place_of(&caller, address).ok_or(Refusal::NotMapped)?;
        ensure(place.can_write, Refusal::RightsDenied)?;
        self.write_at(place.segment, place.offset, data);
        Ok(())
    }

    /// Bytes are read through the caller's address space into a buffer, as many as it has.
    pub fn load(&self, thread: u64, address: u64, buffer: &mut [u8]) -> Checked {
        let caller = self.caller(thread)?;
        shaped(address, buffer.len())?;
        let place = self.place_of(&caller, address).ok_or(Refusal::NotMapped)?;
        ensure(place.can_read, Refusal::RightsDenied)?;
        if let Some(Object { body: Body::Segment(bytes), .. }) = self.objects.get(&place.segment) {
            buffer.copy_from_slice(&bytes[place.offset..place.offset + buffer.len()]);
        }
        Ok(())
    }

    /// The object's quota never changes again.
    pub fn set_fixed(&mut self, thread: u64, entry: Entry) -> Checked {
        let caller = self.caller(thread)?;
        let object = self.in_container(&caller, entry)?;
        Kernel::modified(&caller, object)?;
        ensure(!object.is_immutable, Refusal::Immutable)?;
        if let Some(object) = self.objects.get_mut(&entry.object) {
            object.is_fixed = true;
        }
        Ok(())
    }

    /// A second link to an object, last in a container's list.
    pub fn link(&mut self, thread: u64, target: u64, entry: Entry) -> Checked {
        let caller = self.caller(thread)?;
        let (container, held) = self.at_container(&caller, target)?;
        let object = self.in_container(&caller, entry)?;
        ensure(object.kind() != Kind::Container, Refusal::WrongType)?;
        Kernel::modified(&caller, container)?;
        ensure(object.label.flows_to(&caller.thread.clearance), Refusal::LabelRange)?;
        ensure(!held.avoid.contains(&object.kind()), Refusal::AvoidType)?;
        ensure(has_room(container, held, object.quota), Refusal::NoQuota)?;
        ensure(object.is_fixed, Refusal::NotFixed)?;
        ensure(!held.entries.contains(&entry.object), Refusal::AlreadyLinked)?;
        ensure(!container.is_immutable, Refusal::Immutable)?;
        self.list(target, entry.object);
        Ok(())
    }

    /// The object is taken out of the container's list, and goes with its last link.
    pub fn unref(&mut self, thread: u64, entry: Entry) -> Checked {
        let caller = self.caller(thread)?;
        let (container, held) = self.at_container(&caller, entry.container)?;
        let is_root = entry.container == ROOT && entry.object == ROOT;
        let place = held.entries.iter().position(|&id| id == entry.object);
        ensure(is_root || place.is_some(), Refusal::NoEntry)?;
        Kernel::modified(&caller, container)?;
        let place = place.ok_or(Refusal::RootKept)?;
        ensure(!container.is_immutable, Refusal::Immutable)?;
        let quota = self.objects.get(&entry.object).map_or(0, |object| object.quota);
        if let Some(held) = self.container_mut(entry.container) {
            held.entries.remove(place);
            held.used -= quota;
        }
        self.release(entry.object);
        Ok(())
    }
}
