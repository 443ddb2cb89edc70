"""Each call as a value, for `Session.call` and `Seat.batch`. Made from bindings/calls.toml by bindings/make.py."""
from typing import Optional

from ._call import (
    NO_LABEL,
    WRONG,
    Bytes,
    Call,
    done,
    length,
    plain,
    refuse,
    signed,
    told_category,
    told_data,
    told_entered,
    told_label,
    told_listed,
    told_mapping,
    told_number,
    told_object,
    told_own,
    told_quota,
    with_bytes,
    with_labels,
)
from .labels import Category, Label
from .names import Entered, Entry, Kinds, Listed, Mapping, Object, Own, Quota, Rights


def cat_create() -> Call[Category]:
    """A new category, which the thread owns: star in its label, 3 in its clearance.

    Refused LabelFull, Spent.
    """
    record = plain(1, 0, 0, 0, 0, 0, 0, 0, 0, 0, 0, 0)
    return Call("cat_create", None, record, told_category)


def self_set_label(label: Label) -> Call[None]:
    """The thread's label rises, to its clearance at most.

    label: The new label: at least the old one, at most the clearance.
    Refused BadLabel, LabelRange.
    """
    try:
        record = with_labels(2, 0, 0, 0, 0, 0, 0, 0, 0, 0, 0, 0, label._record, NO_LABEL, NO_LABEL)
        return Call("self_set_label", None, record, done)
    except WRONG as fault:
        refuse("self_set_label", fault, label=(label, Label))


def self_set_clearance(clearance: Label) -> Call[None]:
    """The thread's clearance changes: at least its label, and at most the maximum of the old clearance and of the
    label with star raised.

    clearance: The new clearance: at least the label.
    Refused BadLabel, ClearanceRange.
    """
    try:
        record = with_labels(3, 0, 0, 0, 0, 0, 0, 0, 0, 0, 0, 0, NO_LABEL, clearance._record, NO_LABEL)
        return Call("self_set_clearance", None, record, done)
    except WRONG as fault:
        refuse("self_set_clearance", fault, clearance=(clearance, Label))


def self_set_as(space: Entry) -> Call[None]:
    """The thread's address space changes.

    space: The address space, `Entry.NONE` for none.
    Refused WrongType.
    """
    try:
        record = plain(4, 0, 0, space.container.id, space.object.id, 0, 0, 0, 0, 0, 0, 0)
        return Call("self_set_as", space.object.id, record, done)
    except WRONG as fault:
        refuse("self_set_as", fault, space=(space, Entry))


def container_create(container: Object, label: Label, quota: int, avoid: Kinds) -> Call[Object]:
    """A new container, last in a container's list, with a quota in pages of 256 bytes and the kinds that it will not
    hold.

    container: Where it is listed.
    label: Its label, without star.
    quota: What it may use, in pages of 256 bytes: at least 1.
    avoid: The kinds that it will not hold.
    Refused CannotObserve, CannotModify, BadLabel, LabelRange, AvoidType, NoQuota, Immutable, Spent.
    """
    try:
        record = with_labels(5, 0, 0, container.id, 0, 0, 0, quota, avoid, 0, 0, 0, label._record, NO_LABEL, NO_LABEL)
        return Call("container_create", container.id, record, told_object)
    except WRONG as fault:
        refuse("container_create", fault, 
            container=(container, Object), label=(label, Label), quota=(quota, int), avoid=(avoid, Kinds)
        )


def segment_create(container: Object, label: Label, quota: int, pages: int) -> Call[Object]:
    """A new segment of `pages` pages of zeros, 0 to 16, last in a container's list; its quota is at least one page
    more.

    container: Where it is listed.
    label: Its label, without star.
    quota: What it may use, in pages of 256 bytes: at least one more than its length.
    pages: Its length in pages: 0 to 16.
    Refused CannotObserve, CannotModify, BadLabel, LabelRange, AvoidType, NoQuota, Immutable, Spent, Bounds.
    """
    try:
        record = with_labels(6, 0, 0, container.id, 0, 0, 0, quota, pages, 0, 0, 0, label._record, NO_LABEL, NO_LABEL)
        return Call("segment_create", container.id, record, told_object)
    except WRONG as fault:
        refuse("segment_create", fault, 
            container=(container, Object), label=(label, Label), quota=(quota, int), pages=(pages, int)
        )


def segment_copy(container: Object, label: Label, quota: int, source: Entry) -> Call[Object]:
    """A new segment with the bytes of another, last in a container's list.

    container: Where it is listed.
    label: Its label, without star.
    quota: What it may use, in pages of 256 bytes.
    source: The segment that is copied.
    Refused CannotObserve, CannotModify, BadLabel, LabelRange, AvoidType, NoQuota, Immutable, Spent, WrongType.
    """
    try:
        record = with_labels(
            7, 0, 0, container.id, 0, source.container.id, source.object.id, quota, 0, 0, 0, 0, label._record, NO_LABEL,
            NO_LABEL
        )
        return Call("segment_copy", container.id, record, told_object)
    except WRONG as fault:
        refuse("segment_copy", fault, 
            container=(container, Object), label=(label, Label), quota=(quota, int), source=(source, Entry)
        )


def as_create(container: Object, label: Label, quota: int) -> Call[Object]:
    """A new address space of 16 empty slots, last in a container's list.

    container: Where it is listed.
    label: Its label, without star.
    quota: What it may use, in pages of 256 bytes: at least 1.
    Refused CannotObserve, CannotModify, BadLabel, LabelRange, AvoidType, NoQuota, Immutable, Spent.
    """
    try:
        record = with_labels(8, 0, 0, container.id, 0, 0, 0, quota, 0, 0, 0, 0, label._record, NO_LABEL, NO_LABEL)
        return Call("as_create", container.id, record, told_object)
    except WRONG as fault:
        refuse("as_create", fault, container=(container, Object), label=(label, Label), quota=(quota, int))


def thread_create(container: Object, label: Label, quota: int, clearance: Label, entry_point: int) -> Call[Object]:
    """A new thread, last in a container's list, with the verify label `{3}`, no address space and closure 0.

    container: Where it is listed.
    label: Its label.
    quota: What it may use, in pages of 256 bytes: at least 1.
    clearance: Its clearance.
    entry_point: Where it runs: any number.
    Refused CannotObserve, CannotModify, BadLabel, LabelRange, ClearanceRange, AvoidType, NoQuota, Immutable, Spent.
    """
    try:
        record = with_labels(
            9, 0, 0, container.id, 0, 0, 0, quota, entry_point, 0, 0, 0, label._record, clearance._record, NO_LABEL
        )
        return Call("thread_create", container.id, record, told_object)
    except WRONG as fault:
        refuse("thread_create", fault, 
            container=(container, Object), label=(label, Label), quota=(quota, int), clearance=(clearance, Label),
            entry_point=(entry_point, int)
        )


def gate_create(
    container: Object,
    label: Label,
    quota: int,
    clearance: Label,
    space: Entry,
    entry_point: int,
    closure: int,
) -> Call[Object]:
    """A new gate, last in a container's list.

    container: Where it is listed.
    label: Its label.
    quota: What it may use, in pages of 256 bytes: at least 1.
    clearance: What a thread's label has to be at most.
    space: The address space of who enters, `Entry.NONE` for none.
    entry_point: Where who enters runs: any number.
    closure: What it is handed: any number.
    Refused CannotObserve, CannotModify, BadLabel, LabelRange, AvoidType, NoQuota, Immutable, Spent, ClearanceRange,
    WrongType.
    """
    try:
        record = with_labels(
            10, 0, 0, container.id, 0, space.container.id, space.object.id, quota, entry_point, closure, 0, 0,
            label._record, clearance._record, NO_LABEL
        )
        return Call("gate_create", container.id, record, told_object)
    except WRONG as fault:
        refuse("gate_create", fault, 
            container=(container, Object), label=(label, Label), quota=(quota, int), clearance=(clearance, Label),
            space=(space, Entry), entry_point=(entry_point, int), closure=(closure, int)
        )


def link(target: Object, entry: Entry) -> Call[None]:
    """A second link to an object whose quota is fixed, last in the list of `target`, which is charged its whole quota.

    target: Where the object comes last.
    entry: The object, whose quota is fixed.
    Refused WrongType for a container, CannotObserve, CannotModify, LabelRange, AvoidType, NoQuota, NotFixed,
    AlreadyLinked, Immutable.
    """
    try:
        record = plain(11, 0, 0, entry.container.id, entry.object.id, target.id, 0, 0, 0, 0, 0, 0)
        return Call("link", entry.object.id, record, done)
    except WRONG as fault:
        refuse("link", fault, target=(target, Object), entry=(entry, Entry))


def unref(entry: Entry) -> Call[None]:
    """The object leaves the container's list, and what no path from the root leads to is gone.

    entry: The object.
    Refused CannotObserve, CannotModify, RootKept, Immutable.
    """
    try:
        record = plain(12, 0, 0, entry.container.id, entry.object.id, 0, 0, 0, 0, 0, 0, 0)
        return Call("unref", entry.object.id, record, done)
    except WRONG as fault:
        refuse("unref", fault, entry=(entry, Entry))


def quota_move(entry: Entry, change: int) -> Call[None]:
    """The object's quota grows or shrinks by so many pages of 256 bytes.

    entry: The object.
    change: By how many pages of 256 bytes.
    Refused CannotObserve, CannotModify, LabelRange, NoQuota, FixedQuota, Immutable.
    """
    try:
        record = plain(13, 0, 0, entry.container.id, entry.object.id, 0, 0, signed(change), 0, 0, 0, 0)
        return Call("quota_move", entry.object.id, record, done)
    except WRONG as fault:
        refuse("quota_move", fault, entry=(entry, Entry), change=(change, int))


def set_fixed(entry: Entry) -> Call[None]:
    """The object's quota never changes again.

    entry: The object.
    Refused CannotObserve, CannotModify, Immutable.
    """
    try:
        record = plain(14, 0, 0, entry.container.id, entry.object.id, 0, 0, 0, 0, 0, 0, 0)
        return Call("set_fixed", entry.object.id, record, done)
    except WRONG as fault:
        refuse("set_fixed", fault, entry=(entry, Entry))


def set_immutable(entry: Entry) -> Call[None]:
    """The object is read-only for good.

    entry: The object.
    Refused WrongType for a thread or a device, CannotObserve, CannotModify.
    """
    try:
        record = plain(15, 0, 0, entry.container.id, entry.object.id, 0, 0, 0, 0, 0, 0, 0)
        return Call("set_immutable", entry.object.id, record, done)
    except WRONG as fault:
        refuse("set_immutable", fault, entry=(entry, Entry))


def meta_set(entry: Entry, data: Bytes) -> Call[None]:
    """The object's metadata are these 0 to 64 bytes, and then zeros.

    entry: The object.
    data: 0 to 64 bytes.
    Refused WrongType for a thread, CannotObserve, CannotModify, Immutable.
    """
    try:
        record = with_bytes(16, length(data), 0, entry.container.id, entry.object.id, 0, 0, 0, 0, 0, 0, 0, data)
        return Call("meta_set", entry.object.id, record, done)
    except WRONG as fault:
        refuse("meta_set", fault, entry=(entry, Entry), data=(data, bytes))


def segment_resize(entry: Entry, pages: int) -> Call[None]:
    """The segment has so many pages, 0 to 16: what is cut off is gone, what is new is 0.

    entry: The segment.
    pages: Its length in pages of 256 bytes: 0 to 16.
    Refused WrongType, CannotObserve, CannotModify, NoQuota, Immutable, Bounds.
    """
    try:
        record = plain(17, 0, 0, entry.container.id, entry.object.id, 0, 0, pages, 0, 0, 0, 0)
        return Call("segment_resize", entry.object.id, record, done)
    except WRONG as fault:
        refuse("segment_resize", fault, entry=(entry, Entry), pages=(pages, int))


def segment_write(entry: Entry, offset: int, data: Bytes) -> Call[None]:
    """These 1 to 64 bytes, in one page of 256, are written from `offset` on.

    entry: The segment.
    offset: The place of the first byte, from 0.
    data: 1 to 64 bytes that lie in one page of 256.
    Refused WrongType, CannotObserve, CannotModify, Immutable, Bounds.
    """
    try:
        record = with_bytes(18, length(data), 0, entry.container.id, entry.object.id, 0, 0, offset, 0, 0, 0, 0, data)
        return Call("segment_write", entry.object.id, record, done)
    except WRONG as fault:
        refuse("segment_write", fault, entry=(entry, Entry), offset=(offset, int), data=(data, bytes))


def as_map(space: Entry, slot: int, page: int, segment: Entry, first: int, count: int, rights: Rights) -> Call[None]:
    """An empty slot, 0 to 15, of the address space shows pages of a segment.

    space: The address space.
    slot: The slot: 0 to 15.
    Refused WrongType, CannotObserve, CannotModify, Immutable, Bounds, Overlap.
    """
    try:
        record = plain(
            19, 0, 0, space.container.id, space.object.id, segment.container.id, segment.object.id, slot, page, first,
            count, rights
        )
        return Call("as_map", space.object.id, record, done)
    except WRONG as fault:
        refuse("as_map", fault, 
            space=(space, Entry), slot=(slot, int), page=(page, int), segment=(segment, Entry), first=(first, int),
            count=(count, int), rights=(rights, Rights)
        )


def as_unmap(space: Entry, slot: int) -> Call[None]:
    """A filled slot, 0 to 15, is emptied.

    space: The address space.
    slot: The slot: 0 to 15.
    Refused WrongType, CannotObserve, CannotModify, Immutable, Bounds, NotMapped.
    """
    try:
        record = plain(20, 0, 0, space.container.id, space.object.id, 0, 0, slot, 0, 0, 0, 0)
        return Call("as_unmap", space.object.id, record, done)
    except WRONG as fault:
        refuse("as_unmap", fault, space=(space, Entry), slot=(slot, int))


def store(address: int, data: Bytes) -> Call[None]:
    """These 1 to 64 bytes, in one page of 256, are written through the thread's address space.

    address: The address of the first byte.
    data: 1 to 64 bytes that lie in one page of 256.
    Refused Bounds, NotMapped, RightsDenied.
    """
    try:
        record = with_bytes(21, length(data), 0, 0, 0, 0, 0, address, 0, 0, 0, 0, data)
        return Call("store", None, record, done)
    except WRONG as fault:
        refuse("store", fault, address=(address, int), data=(data, bytes))


def gate_enter(gate: Entry, label: Label, clearance: Label, verify: Label) -> Call[Entered]:
    """The thread enters the gate: it has these labels from then on, and the gate's address space, entry point and
    closure.

    gate: The gate.
    label: The thread's new label.
    clearance: Its new clearance.
    verify: The label that it proves to the gate's owner.
    Refused WrongType, BadLabel, GateDenied.
    """
    try:
        record = with_labels(
            22, 0, 0, gate.container.id, gate.object.id, 0, 0, 0, 0, 0, 0, 0, label._record, clearance._record,
            verify._record
        )
        return Call("gate_enter", gate.object.id, record, told_entered)
    except WRONG as fault:
        refuse("gate_enter", fault, 
            gate=(gate, Entry), label=(label, Label), clearance=(clearance, Label), verify=(verify, Label)
        )


def dev_send(device: Entry, data: Bytes) -> Call[None]:
    """A packet of 1 to 64 bytes is last in the device's queue.

    device: The device.
    data: 1 to 64 bytes.
    Refused WrongType, CannotObserve, CannotModify, Bounds, DeviceFull.
    """
    try:
        record = with_bytes(23, length(data), 0, device.container.id, device.object.id, 0, 0, 0, 0, 0, 0, 0, data)
        return Call("dev_send", device.object.id, record, done)
    except WRONG as fault:
        refuse("dev_send", fault, device=(device, Entry), data=(data, bytes))


def dev_recv(device: Entry) -> Call[bytes]:
    """The first packet of the device's queue is taken out.

    device: The device.
    Refused WrongType, CannotObserve, CannotModify, DeviceEmpty.
    """
    try:
        record = plain(24, 0, 0, device.container.id, device.object.id, 0, 0, 0, 0, 0, 0, 0)
        return Call("dev_recv", device.object.id, record, told_data)
    except WRONG as fault:
        refuse("dev_recv", fault, device=(device, Entry))


def self_get() -> Call[Own]:
    """What the thread is."""
    record = plain(25, 0, 0, 0, 0, 0, 0, 0, 0, 0, 0, 0)
    return Call("self_get", None, record, told_own)


def obj_label(entry: Entry) -> Call[Label]:
    """The object's label.

    entry: The object.
    Refused CannotObserve for a thread whose label the caller may not see.
    """
    try:
        record = plain(26, 0, 0, entry.container.id, entry.object.id, 0, 0, 0, 0, 0, 0, 0)
        return Call("obj_label", entry.object.id, record, told_label)
    except WRONG as fault:
        refuse("obj_label", fault, entry=(entry, Entry))


def obj_quota(entry: Entry) -> Call[Quota]:
    """What the object may use and uses.

    entry: The object.
    Refused CannotObserve.
    """
    try:
        record = plain(27, 0, 0, entry.container.id, entry.object.id, 0, 0, 0, 0, 0, 0, 0)
        return Call("obj_quota", entry.object.id, record, told_quota)
    except WRONG as fault:
        refuse("obj_quota", fault, entry=(entry, Entry))


def container_list(container: Object, start: int) -> Call[Listed]:
    """The length of a container's list, and up to 16 of its ids, from the place `from` on.

    container: The container.
    start: The place of the first id, from 0.
    Refused Bounds.
    """
    try:
        record = plain(28, 0, 0, container.id, 0, 0, 0, start, 0, 0, 0, 0)
        return Call("container_list", container.id, record, told_listed)
    except WRONG as fault:
        refuse("container_list", fault, container=(container, Object), start=(start, int))


def container_parent(container: Object) -> Call[Object]:
    """The container that lists a container; the root's is the root.

    container: The container.
    """
    try:
        record = plain(29, 0, 0, container.id, 0, 0, 0, 0, 0, 0, 0, 0)
        return Call("container_parent", container.id, record, told_object)
    except WRONG as fault:
        refuse("container_parent", fault, container=(container, Object))


def segment_len(entry: Entry) -> Call[int]:
    """The segment's length in pages of 256 bytes.

    entry: The segment.
    Refused WrongType, CannotObserve.
    """
    try:
        record = plain(30, 0, 0, entry.container.id, entry.object.id, 0, 0, 0, 0, 0, 0, 0)
        return Call("segment_len", entry.object.id, record, told_number)
    except WRONG as fault:
        refuse("segment_len", fault, entry=(entry, Entry))


def segment_read(entry: Entry, offset: int, count: int) -> Call[bytes]:
    """1 to 64 bytes of the segment, in one page of 256, from `offset` on.

    entry: The segment.
    offset: The place of the first byte, from 0.
    count: How many: 1 to 64 bytes that lie in one page of 256.
    Refused WrongType, CannotObserve, Bounds.
    """
    try:
        record = plain(31, 0, 0, entry.container.id, entry.object.id, 0, 0, offset, count, 0, 0, 0)
        return Call("segment_read", entry.object.id, record, told_data)
    except WRONG as fault:
        refuse("segment_read", fault, entry=(entry, Entry), offset=(offset, int), count=(count, int))


def meta_get(entry: Entry) -> Call[bytes]:
    """The 64 bytes of the object's metadata.

    entry: The object.
    Refused WrongType for a thread, CannotObserve.
    """
    try:
        record = plain(32, 0, 0, entry.container.id, entry.object.id, 0, 0, 0, 0, 0, 0, 0)
        return Call("meta_get", entry.object.id, record, told_data)
    except WRONG as fault:
        refuse("meta_get", fault, entry=(entry, Entry))


def as_get(space: Entry, slot: int) -> Call[Optional[Mapping]]:
    """What a slot, 0 to 15, of the address space maps.

    space: The address space.
    slot: The slot: 0 to 15.
    Refused WrongType, CannotObserve, Bounds.
    """
    try:
        record = plain(33, 0, 0, space.container.id, space.object.id, 0, 0, slot, 0, 0, 0, 0)
        return Call("as_get", space.object.id, record, told_mapping)
    except WRONG as fault:
        refuse("as_get", fault, space=(space, Entry), slot=(slot, int))


def load(address: int, count: int) -> Call[bytes]:
    """1 to 64 bytes, in one page of 256, read through the thread's address space.

    address: The address of the first byte.
    count: How many: 1 to 64 bytes that lie in one page of 256.
    Refused Bounds, NotMapped, RightsDenied.
    """
    try:
        record = plain(34, 0, 0, 0, 0, 0, 0, address, count, 0, 0, 0)
        return Call("load", None, record, told_data)
    except WRONG as fault:
        refuse("load", fault, address=(address, int), count=(count, int))
