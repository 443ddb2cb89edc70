"""A session's method for each call. Made from bindings/calls.toml by bindings/make.py."""
from abc import abstractmethod
from typing import TYPE_CHECKING, Optional, TypeVar

from . import calls
from ._call import Bytes, Call
from .labels import Category, Label
from .names import Entered, Entry, Kinds, Listed, Mapping, Object, Own, Quota, Rights

if TYPE_CHECKING:
    from .kernel import Session

T = TypeVar("T")


class Methods:
    """The calls of a thread: a method a call, named as the script's word."""

    __slots__ = ()

    @abstractmethod
    def call(self, call: Call[T]) -> T: ...

    @abstractmethod
    def _session_of(self, thread: Object) -> "Session": ...

    def cat_create(self) -> Category:
        """A new category, which the thread owns: star in its label, 3 in its clearance.

        Refused LabelFull, Spent.
        """
        return self.call(calls.cat_create())

    def self_set_label(self, label: Label) -> None:
        """The thread's label rises, to its clearance at most.

        label: The new label: at least the old one, at most the clearance.
        Refused BadLabel, LabelRange.
        """
        return self.call(calls.self_set_label(label))

    def self_set_clearance(self, clearance: Label) -> None:
        """The thread's clearance changes: at least its label, and at most the maximum of the old clearance and of the
        label with star raised.

        clearance: The new clearance: at least the label.
        Refused BadLabel, ClearanceRange.
        """
        return self.call(calls.self_set_clearance(clearance))

    def self_set_as(self, space: Entry) -> None:
        """The thread's address space changes.

        space: The address space, `Entry.NONE` for none.
        Refused WrongType.
        """
        return self.call(calls.self_set_as(space))

    def container_create(self, container: Object, label: Label, quota: int, avoid: Kinds) -> Object:
        """A new container, last in a container's list, with a quota in pages of 256 bytes and the kinds that it will
        not hold.

        container: Where it is listed.
        label: Its label, without star.
        quota: What it may use, in pages of 256 bytes: at least 1.
        avoid: The kinds that it will not hold.
        Refused CannotObserve, CannotModify, BadLabel, LabelRange, AvoidType, NoQuota, Immutable, Spent.
        """
        return self.call(calls.container_create(container, label, quota, avoid))

    def segment_create(self, container: Object, label: Label, quota: int, pages: int) -> Object:
        """A new segment of `pages` pages of zeros, 0 to 16, last in a container's list; its quota is at least one page
        more.

        container: Where it is listed.
        label: Its label, without star.
        quota: What it may use, in pages of 256 bytes: at least one more than its length.
        pages: Its length in pages: 0 to 16.
        Refused CannotObserve, CannotModify, BadLabel, LabelRange, AvoidType, NoQuota, Immutable, Spent, Bounds.
        """
        return self.call(calls.segment_create(container, label, quota, pages))

    def segment_copy(self, container: Object, label: Label, quota: int, source: Entry) -> Object:
        """A new segment with the bytes of another, last in a container's list.

        container: Where it is listed.
        label: Its label, without star.
        quota: What it may use, in pages of 256 bytes.
        source: The segment that is copied.
        Refused CannotObserve, CannotModify, BadLabel, LabelRange, AvoidType, NoQuota, Immutable, Spent, WrongType.
        """
        return self.call(calls.segment_copy(container, label, quota, source))

    def as_create(self, container: Object, label: Label, quota: int) -> Object:
        """A new address space of 16 empty slots, last in a container's list.

        container: Where it is listed.
        label: Its label, without star.
        quota: What it may use, in pages of 256 bytes: at least 1.
        Refused CannotObserve, CannotModify, BadLabel, LabelRange, AvoidType, NoQuota, Immutable, Spent.
        """
        return self.call(calls.as_create(container, label, quota))

    def thread_create(self, container: Object, label: Label, quota: int, clearance: Label, entry_point: int) -> "Session":
        """A new thread, last in a container's list, with the verify label `{3}`, no address space and closure 0.

        container: Where it is listed.
        label: Its label.
        quota: What it may use, in pages of 256 bytes: at least 1.
        clearance: Its clearance.
        entry_point: Where it runs: any number.
        Refused CannotObserve, CannotModify, BadLabel, LabelRange, ClearanceRange, AvoidType, NoQuota, Immutable,
        Spent.
        """
        return self._session_of(self.call(calls.thread_create(container, label, quota, clearance, entry_point)))

    def gate_create(
        self,
        container: Object,
        label: Label,
        quota: int,
        clearance: Label,
        space: Entry,
        entry_point: int,
        closure: int,
    ) -> Object:
        """A new gate, last in a container's list.

        container: Where it is listed.
        label: Its label.
        quota: What it may use, in pages of 256 bytes: at least 1.
        clearance: What a thread's label has to be at most.
        space: The address space of who enters, `Entry.NONE` for none.
        entry_point: Where who enters runs: any number.
        closure: What it is handed: any number.
        Refused CannotObserve, CannotModify, BadLabel, LabelRange, AvoidType, NoQuota, Immutable, Spent,
        ClearanceRange, WrongType.
        """
        return self.call(calls.gate_create(container, label, quota, clearance, space, entry_point, closure))

    def link(self, target: Object, entry: Entry) -> None:
        """A second link to an object whose quota is fixed, last in the list of `target`, which is charged its whole
        quota.

        target: Where the object comes last.
        entry: The object, whose quota is fixed.
        Refused WrongType for a container, CannotObserve, CannotModify, LabelRange, AvoidType, NoQuota, NotFixed,
        AlreadyLinked, Immutable.
        """
        return self.call(calls.link(target, entry))

    def unref(self, entry: Entry) -> None:
        """The object leaves the container's list, and what no path from the root leads to is gone.

        entry: The object.
        Refused CannotObserve, CannotModify, RootKept, Immutable.
        """
        return self.call(calls.unref(entry))

    def quota_move(self, entry: Entry, change: int) -> None:
        """The object's quota grows or shrinks by so many pages of 256 bytes.

        entry: The object.
        change: By how many pages of 256 bytes.
        Refused CannotObserve, CannotModify, LabelRange, NoQuota, FixedQuota, Immutable.
        """
        return self.call(calls.quota_move(entry, change))

    def set_fixed(self, entry: Entry) -> None:
        """The object's quota never changes again.

        entry: The object.
        Refused CannotObserve, CannotModify, Immutable.
        """
        return self.call(calls.set_fixed(entry))

    def set_immutable(self, entry: Entry) -> None:
        """The object is read-only for good.

        entry: The object.
        Refused WrongType for a thread or a device, CannotObserve, CannotModify.
        """
        return self.call(calls.set_immutable(entry))

    def meta_set(self, entry: Entry, data: Bytes) -> None:
        """The object's metadata are these 0 to 64 bytes, and then zeros.

        entry: The object.
        data: 0 to 64 bytes.
        Refused WrongType for a thread, CannotObserve, CannotModify, Immutable.
        """
        return self.call(calls.meta_set(entry, data))

    def segment_resize(self, entry: Entry, pages: int) -> None:
        """The segment has so many pages, 0 to 16: what is cut off is gone, what is new is 0.

        entry: The segment.
        pages: Its length in pages of 256 bytes: 0 to 16.
        Refused WrongType, CannotObserve, CannotModify, NoQuota, Immutable, Bounds.
        """
        return self.call(calls.segment_resize(entry, pages))

    def segment_write(self, entry: Entry, offset: int, data: Bytes) -> None:
        """These 1 to 64 bytes, in one page of 256, are written from `offset` on.

        entry: The segment.
        offset: The place of the first byte, from 0.
        data: 1 to 64 bytes that lie in one page of 256.
        Refused WrongType, CannotObserve, CannotModify, Immutable, Bounds.
        """
        return self.call(calls.segment_write(entry, offset, data))

    def as_map(
        self,
        space: Entry,
        slot: int,
        page: int,
        segment: Entry,
        first: int,
        count: int,
        rights: Rights,
    ) -> None:
        """An empty slot, 0 to 15, of the address space shows pages of a segment.

        space: The address space.
        slot: The slot: 0 to 15.
        Refused WrongType, CannotObserve, CannotModify, Immutable, Bounds, Overlap.
        """
        return self.call(calls.as_map(space, slot, page, segment, first, count, rights))

    def as_unmap(self, space: Entry, slot: int) -> None:
        """A filled slot, 0 to 15, is emptied.

        space: The address space.
        slot: The slot: 0 to 15.
        Refused WrongType, CannotObserve, CannotModify, Immutable, Bounds, NotMapped.
        """
        return self.call(calls.as_unmap(space, slot))

    def store(self, address: int, data: Bytes) -> None:
        """These 1 to 64 bytes, in one page of 256, are written through the thread's address space.

        address: The address of the first byte.
        data: 1 to 64 bytes that lie in one page of 256.
        Refused Bounds, NotMapped, RightsDenied.
        """
        return self.call(calls.store(address, data))

    def gate_enter(self, gate: Entry, label: Label, clearance: Label, verify: Label) -> Entered:
        """The thread enters the gate: it has these labels from then on, and the gate's address space, entry point and
        closure.

        gate: The gate.
        label: The thread's new label.
        clearance: Its new clearance.
        verify: The label that it proves to the gate's owner.
        Refused WrongType, BadLabel, GateDenied.
        """
        return self.call(calls.gate_enter(gate, label, clearance, verify))

    def dev_send(self, device: Entry, data: Bytes) -> None:
        """A packet of 1 to 64 bytes is last in the device's queue.

        device: The device.
        data: 1 to 64 bytes.
        Refused WrongType, CannotObserve, CannotModify, Bounds, DeviceFull.
        """
        return self.call(calls.dev_send(device, data))

    def dev_recv(self, device: Entry) -> bytes:
        """The first packet of the device's queue is taken out.

        device: The device.
        Refused WrongType, CannotObserve, CannotModify, DeviceEmpty.
        """
        return self.call(calls.dev_recv(device))

    def self_get(self) -> Own:
        """What the thread is."""
        return self.call(calls.self_get())

    def obj_label(self, entry: Entry) -> Label:
        """The object's label.

        entry: The object.
        Refused CannotObserve for a thread whose label the caller may not see.
        """
        return self.call(calls.obj_label(entry))

    def obj_quota(self, entry: Entry) -> Quota:
        """What the object may use and uses.

        entry: The object.
        Refused CannotObserve.
        """
        return self.call(calls.obj_quota(entry))

    def container_list(self, container: Object, start: int) -> Listed:
        """The length of a container's list, and up to 16 of its ids, from the place `from` on.

        container: The container.
        start: The place of the first id, from 0.
        Refused Bounds.
        """
        return self.call(calls.container_list(container, start))

    def container_parent(self, container: Object) -> Object:
        """The container that lists a container; the root's is the root.

        container: The container.
        """
        return self.call(calls.container_parent(container))

    def segment_len(self, entry: Entry) -> int:
        """The segment's length in pages of 256 bytes.

        entry: The segment.
        Refused WrongType, CannotObserve.
        """
        return self.call(calls.segment_len(entry))

    def segment_read(self, entry: Entry, offset: int, count: int) -> bytes:
        """1 to 64 bytes of the segment, in one page of 256, from `offset` on.

        entry: The segment.
        offset: The place of the first byte, from 0.
        count: How many: 1 to 64 bytes that lie in one page of 256.
        Refused WrongType, CannotObserve, Bounds.
        """
        return self.call(calls.segment_read(entry, offset, count))

    def meta_get(self, entry: Entry) -> bytes:
        """The 64 bytes of the object's metadata.

        entry: The object.
        Refused WrongType for a thread, CannotObserve.
        """
        return self.call(calls.meta_get(entry))

    def as_get(self, space: Entry, slot: int) -> Optional[Mapping]:
        """What a slot, 0 to 15, of the address space maps.

        space: The address space.
        slot: The slot: 0 to 15.
        Refused WrongType, CannotObserve, Bounds.
        """
        return self.call(calls.as_get(space, slot))

    def load(self, address: int, count: int) -> bytes:
        """1 to 64 bytes, in one page of 256, read through the thread's address space.

        address: The address of the first byte.
        count: How many: 1 to 64 bytes that lie in one page of 256.
        Refused Bounds, NotMapped, RightsDenied.
        """
        return self.call(calls.load(address, count))
