//! Calls as records, and answers as replies.
use crate::raw::{Answer, LabelRecord, Request};
use crate::{
    Bytes, Call, Category, Entered, Entry, Kinds, Label, Level, Listed, Mapping, Object, Own, Quota, Refusal, Refused,
    Reply, Rights,
};

impl LabelRecord {
    /// Writes a label. 25 pairs and more are no label, and the library tells so.
    pub fn put(&mut self, label: &Label) {
        self.default_level = label.default.number();
        self.count = label.pairs.len().min(25) as u8;
        for (place, (category, level)) in label.pairs.iter().take(24).enumerate() {
            self.categories[place] = category.0;
            self.levels[place] = level.number();
        }
    }

    /// The label that the library wrote.
    pub fn label(&self) -> Label {
        let pairs = self.categories.iter().zip(self.levels).take(usize::from(self.count));
        Label {
            default: Level::of(self.default_level),
            pairs: pairs.map(|(category, level)| (Category(*category), Level::of(level))).collect(),
        }
    }
}

fn kinds_number(kinds: &Kinds) -> u64 {
    let flags = [kinds.container, kinds.segment, kinds.address_space, kinds.thread, kinds.gate, kinds.device];
    flags.iter().rev().fold(0, |number, flag| 2 * number + u64::from(*flag))
}

fn rights_number(rights: &Rights) -> u64 {
    u64::from(rights.read) + 2 * u64::from(rights.write)
}

impl Request {
    /// Writes the number of a call, its first entry and its numbers.
    pub fn put<const N: usize>(&mut self, call: u32, entry: &Entry, numbers: [u64; N]) {
        self.call = call;
        self.container = entry.container.0;
        self.object = entry.object.0;
        self.numbers[..N].copy_from_slice(&numbers);
    }

    /// Writes the bytes. 65 bytes and more are no call, and the library tells so.
    pub fn put_bytes(&mut self, bytes: &[u8]) {
        let few = bytes.len().min(64);
        self.len = bytes.len().min(65) as u32;
        self.bytes[..few].copy_from_slice(&bytes[..few]);
    }

    fn put_other(&mut self, entry: &Entry) {
        self.other_container = entry.container.0;
        self.other_object = entry.object.0;
    }

    /// Writes a call.
    pub fn put_call(&mut self, call: &Call<'_>) {
        match call {
            // Made from bindings/calls.toml:
            Call::CatCreate => self.put(1, &Entry::NONE, []),
            Call::SelfSetLabel { label } => {
                self.label.put(label);
                self.put(2, &Entry::NONE, []);
            }
            Call::SelfSetClearance { clearance } => {
                self.clearance.put(clearance);
                self.put(3, &Entry::NONE, []);
            }
            Call::SelfSetAs { space } => self.put(4, space, []),
            Call::ContainerCreate { container, label, quota, avoid } => {
                self.label.put(label);
                self.put(5, &Entry::new(*container, Object::NONE), [u64::from(*quota), kinds_number(avoid)]);
            }
            Call::SegmentCreate { container, label, quota, pages } => {
                self.label.put(label);
                self.put(6, &Entry::new(*container, Object::NONE), [u64::from(*quota), u64::from(*pages)]);
            }
            Call::SegmentCopy { container, label, quota, source } => {
                self.label.put(label);
                self.put_other(source);
                self.put(7, &Entry::new(*container, Object::NONE), [u64::from(*quota)]);
            }
            Call::AsCreate { container, label, quota } => {
                self.label.put(label);
                self.put(8, &Entry::new(*container, Object::NONE), [u64::from(*quota)]);
            }
            Call::ThreadCreate { container, label, quota, clearance, entry_point } => {
                self.label.put(label);
                self.clearance.put(clearance);
                self.put(9, &Entry::new(*container, Object::NONE), [u64::from(*quota), *entry_point]);
            }
            Call::GateCreate(gate) => {
                self.label.put(&gate.label);
                self.clearance.put(&gate.clearance);
                self.put_other(&gate.space);
                let numbers = [u64::from(gate.quota), gate.entry_point, gate.closure];
                self.put(10, &Entry::new(gate.container, Object::NONE), numbers);
            }
            Call::Link { target, entry } => {
                self.other_container = target.0;
                self.put(11, entry, []);
            }
            Call::Unref { entry } => self.put(12, entry, []),
            Call::QuotaMove { entry, change } => self.put(13, entry, [u64::from(*change as u32)]),
            Call::SetFixed { entry } => self.put(14, entry, []),
            Call::SetImmutable { entry } => self.put(15, entry, []),
            Call::MetaSet { entry, bytes } => {
                self.put_bytes(bytes);
                self.put(16, entry, []);
            }
            Call::SegmentResize { entry, pages } => self.put(17, entry, [u64::from(*pages)]),
            Call::SegmentWrite { entry, offset, bytes } => {
                self.put_bytes(bytes);
                self.put(18, entry, [u64::from(*offset)]);
            }
            Call::AsMap { space, slot, mapping } => {
                self.put_other(&mapping.segment);
                let numbers = [
                    u64::from(*slot),
                    u64::from(mapping.page),
                    u64::from(mapping.first),
                    u64::from(mapping.count),
                    rights_number(&mapping.rights),
                ];
                self.put(19, space, numbers);
            }
            Call::AsUnmap { space, slot } => self.put(20, space, [u64::from(*slot)]),
            Call::Store { address, bytes } => {
                self.put_bytes(bytes);
                self.put(21, &Entry::NONE, [*address]);
            }
            Call::GateEnter { gate, label, clearance, verify } => {
                self.label.put(label);
                self.clearance.put(clearance);
                self.verify.put(verify);
                self.put(22, gate, []);
            }
            Call::DevSend { entry, bytes } => {
                self.put_bytes(bytes);
                self.put(23, entry, []);
            }
            Call::DevRecv { entry } => self.put(24, entry, []),
            Call::SelfGet => self.put(25, &Entry::NONE, []),
            Call::ObjLabel { entry } => self.put(26, entry, []),
            Call::ObjQuota { entry } => self.put(27, entry, []),
            Call::ContainerList { container, from } => {
                self.put(28, &Entry::new(*container, Object::NONE), [u64::from(*from)]);
            }
            Call::ContainerParent { container } => self.put(29, &Entry::new(*container, Object::NONE), []),
            Call::SegmentLen { entry } => self.put(30, entry, []),
            Call::SegmentRead { entry, offset, count } => self.put(31, entry, [u64::from(*offset), u64::from(*count)]),
            Call::MetaGet { entry } => self.put(32, entry, []),
            Call::AsGet { space, slot } => self.put(33, space, [u64::from(*slot)]),
            Call::Load { address, count } => self.put(34, &Entry::NONE, [*address, u64::from(*count)]),
            // (the end of what is made)
        }
    }
}

/// The words of what records ask for, by their numbers.
const WORDS: [&str; 51] = [
    "nothing",
    // Made from bindings/calls.toml:
    "cat_create",
    "self_set_label",
    "self_set_clearance",
    "self_set_as",
    "container_create",
    "segment_create",
    "segment_copy",
    "as_create",
    "thread_create",
    "gate_create",
    "link",
    "unref",
    "quota_move",
    "set_fixed",
    "set_immutable",
    "meta_set",
    "segment_resize",
    "segment_write",
    "as_map",
    "as_unmap",
    "store",
    "gate_enter",
    "dev_send",
    "dev_recv",
    "self_get",
    "obj_label",
    "obj_quota",
    "container_list",
    "container_parent",
    "segment_len",
    "segment_read",
    "meta_get",
    "as_get",
    "load",
    // (the end of what is made)
    "kept_live",
    "kept_use",
    "kept_translation",
    "kept_label",
    "kept_order",
    "log_on",
    "dump",
    "dump",
    "seen",
    "learn",
    "batch",
    "batch",
    "batch",
    "checkpoint",
    "cut_log",
    "dump_since",
];

/// What the number of a call of a batch is more than the call's own.
const IN_BATCH: u32 = 64;

impl Request {
    /// The record of a call, of no thread.
    pub fn of(call: &Call<'_>) -> Request {
        let mut request = Request::ZEROS;
        request.put_call(call);
        request
    }

    /// Writes a write call to keep for a batch: its number is 64 more. Of another call the library tells that it is none.
    pub fn put_batch_call(&mut self, call: &Call<'_>) {
        self.put_call(call);
        self.call += IN_BATCH;
    }

    /// What the record asks for was refused.
    #[cold]
    pub fn refused(&self, reason: Refusal) -> Refused {
        let object = if self.object == 0 { self.container } else { self.object };
        Refused {
            call: WORDS[(self.call % IN_BATCH) as usize],
            object: Some(Object(object)).filter(|object| *object != Object::NONE),
            reason,
        }
    }
}

impl Answer {
    /// The bytes that the library wrote.
    pub fn data(&self) -> &[u8] {
        &self.bytes[..self.len as usize]
    }

    fn mapping(&self) -> Option<Mapping> {
        let n = &self.numbers;
        (self.len == 1).then(|| Mapping {
            page: n[0] as u32,
            segment: Entry::new(Object(n[1]), Object(n[2])),
            first: n[3] as u32,
            count: n[4] as u32,
            rights: Rights { read: n[5] == 1, write: n[6] == 1 },
        })
    }

    fn own(&self) -> Own {
        let n = &self.numbers;
        Own {
            label: self.label.label(),
            clearance: self.clearance.label(),
            verify: self.verify.label(),
            space: Entry::new(Object(n[0]), Object(n[1])),
            entry_point: n[2],
            closure: n[3],
        }
    }

    /// The reply that the library wrote; none for a refusal, which its number tells.
    pub fn reply(&self) -> Option<Reply> {
        let n = &self.numbers;
        Some(match self.reply {
            0 => Reply::Done,
            1 => Reply::Category(Category(n[0])),
            2 => Reply::Object(Object(n[0])),
            3 => Reply::Entered(Entered { entry_point: n[0], closure: n[1] }),
            4 => Reply::Bytes(Bytes::new(self.data())),
            5 => Reply::Own(self.own()),
            6 => Reply::Label(self.label.label()),
            7 => Reply::Quota(Quota { quota: n[0] as u32, used: n[1] as u32, fixed: n[2] == 1, immutable: n[3] == 1 }),
            8 => Reply::Listed(Listed {
                length: n[0],
                ids: n[1..][..self.len as usize].iter().map(|id| Object(*id)).collect(),
            }),
            9 => Reply::Parent(Object(n[0])),
            10 => Reply::Pages(n[0] as u32),
            11 => Reply::Mapping(self.mapping()),
            _ => return None,
        })
    }
}
